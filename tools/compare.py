#!/usr/bin/env python3
"""Compares campaigns by their counts of sites. `compare.py --help` says how it is used."""

from fail_star_tools.commands import compare

compare()

#!/usr/bin/env python3
"""Checks campaigns against a budget of sites. `check.py --help` says how it is used."""

from fail_star_tools.commands import check

check()

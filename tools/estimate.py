#!/usr/bin/env python3
"""Estimates the counts of all sites from a sample. `estimate.py --help` says how it is used."""

from fail_star_tools.commands import estimate

estimate()

#!/usr/bin/env python3
"""Writes an HTML page about one or two campaigns. `report.py --help` says how it is used."""

from fail_star_tools.commands import report

report()

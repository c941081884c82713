#!/usr/bin/env python3
"""Runs a campaign of each variant under each choice of compiler flags. `sweep.py --help` says how it is used."""

from fail_star_tools.commands import sweep

sweep()

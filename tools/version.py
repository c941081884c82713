#!/usr/bin/env python3
"""Prints the version, the logic that proved the programs, and their hashes. `version.py --help` says how it is used."""

from fail_star_tools.commands import version

version()

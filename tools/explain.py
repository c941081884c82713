#!/usr/bin/env python3
"""Explains a line of the error output, or an exit status. `explain.py --help` says how it is used."""

from fail_star_tools.commands import explain

explain()

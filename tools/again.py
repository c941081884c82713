#!/usr/bin/env python3
"""Runs a command on a campaign file with the options that the file was begun with. `again.py --help` says how it is used."""

from fail_star_tools.commands import again

again()

#!/usr/bin/env python3
"""Shows the case of a campaign file, and what it keeps. `keep_info.py --help` says how it is used."""

from fail_star_tools.commands import keep_info

keep_info()

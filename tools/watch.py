#!/usr/bin/env python3
"""Says how far a campaign is, a line a minute. `watch.py --help` says how it is used."""

from fail_star_tools.commands import watch

watch()

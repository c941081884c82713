#!/usr/bin/env python3
"""Says what a campaign of an image takes before it is run. `plan.py --help` says how it is used."""

from fail_star_tools.commands import plan

plan()

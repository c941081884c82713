#!/usr/bin/env python3
"""Shows where the silent sites of a campaign are. `where.py --help` says how it is used."""

from fail_star_tools.commands import where

where()

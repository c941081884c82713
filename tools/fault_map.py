#!/usr/bin/env python3
"""Draws the fault space of a campaign as an SVG picture. `fault_map.py --help` says how it is used."""

from fail_star_tools.commands import fault_map

fault_map()

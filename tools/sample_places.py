#!/usr/bin/env python3
"""Estimates where silent sites are from a sample. `sample_places.py --help` says how it is used."""

from fail_star_tools.commands import sample_places

sample_places()

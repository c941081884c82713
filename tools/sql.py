#!/usr/bin/env python3
"""Stores a campaign in an SQLite database. `sql.py --help` says how it is used."""

from fail_star_tools.commands import sql

sql()

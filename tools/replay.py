#!/usr/bin/env python3
"""Shows what one flip does, with functions, source lines and registers. `replay.py --help` says how it is used."""

from fail_star_tools.commands import replay

replay()

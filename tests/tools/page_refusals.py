"""Prints what tools/report.py answers to words that it refuses, all in one process: it reads lines with a tab between
words, and writes for each the status and the line on the error output. The page would be `no.html`.

page_refusals.py FOLDER-OF-TOOLS <WORDS
"""

from __future__ import annotations

import contextlib
import io
import os
import sys

sys.path.insert(0, sys.argv[1])
from fail_star_tools.page import report  # noqa: E402

for line in sys.stdin:
    error = io.StringIO()
    with contextlib.redirect_stderr(error):
        try:
            status: str | int | None = report.main(line.rstrip("\n\t").split("\t"))
        except SystemExit as end:
            status = end.code
    text = error.getvalue().rstrip("\n")
    left = [name for name in os.listdir() if name.startswith(("no.html", "tmp"))]
    said = text if status == 1 else "usage" if text.startswith("usage: ") else repr(text)
    print(f"status {status}, {said}, {left or 'nothing'}", flush=True)

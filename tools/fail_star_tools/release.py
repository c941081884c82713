"""What a result says of the release that made it. `VERSION` and the manual pages have the same version."""

from __future__ import annotations

VERSION = "1.5.0"
LOGIC = "dac8208d650f15bf"  # the sum of the kit's logic (`rt version`), by which the programs are proved
MADE_BY = f"fail_star {VERSION}"

"""Runs the blocks of Python in a page, and writes the value of each line of them that has one.

questions.py PAGE

The value of line N of all blocks begins with the line `answer N`. A Series has a line for each index and value, a table
for each row, column and value that is not 0, with tabs between. Without blocks nothing is written.
"""

from __future__ import annotations

import ast
import re
import sys
from pathlib import Path

BLOCK = re.compile(r"^```python\n(.*?)^```$", re.MULTILINE | re.DOTALL)


def rows_of(value: object) -> list[tuple[object, ...]]:
    """A Series or a table as rows."""
    import pandas

    if isinstance(value, pandas.DataFrame):
        return [(row, column, number) for row, columns in value.iterrows() for column, number in columns.items() if number]
    assert isinstance(value, pandas.Series), f"expected a Series or a DataFrame, found {type(value).__name__}"
    return list(value.items())


def main(page: str) -> None:
    """Runs the blocks one after the other, as a reader would."""
    names: dict[str, object] = {}
    number = 0
    for block in BLOCK.findall(Path(page).read_text(encoding="utf-8")):
        for statement in ast.parse(block).body:
            if not isinstance(statement, ast.Expr):
                exec(compile(ast.Module([statement], []), page, "exec"), names)
                continue
            number += 1
            print(f"answer {number}")
            for row in rows_of(eval(compile(ast.Expression(statement.value), page, "eval"), names)):
                print(*row, sep="\t")


if __name__ == "__main__":
    main(sys.argv[1])

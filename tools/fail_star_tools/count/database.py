"""The database of `sql.py`: its tables, and how a campaign is stored in one transaction.

The manual page `fail_star-sql(1)` has the tables. A missing database is made as a temporary file in its folder, which
gets the name of the database when it is complete; an existing one is changed by one transaction.
"""

from __future__ import annotations

import os
import sqlite3
import tempfile
from collections.abc import Iterable, Iterator
from contextlib import ExitStack, closing, contextmanager
from pathlib import Path
from typing import Union

from fail_star_tools.read.campaign_file import Refusal
from fail_star_tools.run.whole_file import mask

Value = Union[str, int, None]
Row = tuple[Value, ...]
Facts = dict[str, Value]

# The columns of the table `campaigns`: the settings, and the counts.
COLUMNS = {
    "made_by": "TEXT", "program_sha256": "TEXT", "keep_sha256": "TEXT", "image_sha256": "TEXT",
    "entry": "INTEGER", "rom_base": "INTEGER", "rom_size": "INTEGER", "ram_base": "INTEGER", "ram_size": "INTEGER",
    "step_limit": "INTEGER", "pc_cell": "INTEGER", "ram_code": "INTEGER", "output": "TEXT", "halt": "INTEGER",
    "instructions": "INTEGER", "sites": "INTEGER", "jobs": "INTEGER",
    "no_effect": "INTEGER", "silent": "INTEGER", "detected": "INTEGER", "illegal": "INTEGER", "address": "INTEGER",
    "misaligned": "INTEGER", "timeout": "INTEGER",
}  # fmt: skip
# The columns of fail_export's table `jobs`, in its words.
JOBS = (
    "cycle INTEGER NOT NULL, cell INTEGER NOT NULL, bit INTEGER NOT NULL, weight INTEGER NOT NULL, "
    "outcome TEXT NOT NULL"
)
TABLES = {
    "campaigns": f"campaign TEXT NOT NULL PRIMARY KEY, {', '.join(' '.join(pair) for pair in COLUMNS.items())}",
    "jobs": f"campaign TEXT NOT NULL, {JOBS}, PRIMARY KEY (campaign, cycle, cell, bit)",
    "trace": "campaign TEXT NOT NULL, cycle INTEGER NOT NULL, pc INTEGER NOT NULL, PRIMARY KEY (campaign, cycle)",
    "instructions": "campaign TEXT NOT NULL, pc INTEGER NOT NULL, word INTEGER NOT NULL, function TEXT, line TEXT, "
    "PRIMARY KEY (campaign, pc)",
    "cells": "campaign TEXT NOT NULL, cell INTEGER NOT NULL, name TEXT NOT NULL, PRIMARY KEY (campaign, cell)",
    "classes": "campaign TEXT NOT NULL, cycle INTEGER NOT NULL, cell INTEGER NOT NULL, bit INTEGER NOT NULL, "
    "class TEXT NOT NULL, answer TEXT NOT NULL, PRIMARY KEY (campaign, cycle, cell, bit)",
}
PLACES = (
    "CREATE VIEW places AS SELECT jobs.campaign AS campaign, cycle, cell, name, bit, weight, outcome, class, answer, "
    "pc, word, function, line FROM jobs JOIN trace USING (campaign, cycle) JOIN instructions USING (campaign, pc) "
    "JOIN cells USING (campaign, cell) LEFT JOIN classes USING (campaign, cycle, cell, bit)"
)
TEXTS = {name: f"CREATE TABLE {name} ({columns}) WITHOUT ROWID" for name, columns in TABLES.items()}
TEXTS["places"] = PLACES


class Database:
    """A database within its transaction."""

    def __init__(self, connection: sqlite3.Connection, path: str) -> None:
        self.connection, self.path = connection, path

    def prepare(self) -> None:
        """Makes the tables that are missing. Existing tables must have been made by this tool."""
        found = dict(self.connection.execute("SELECT name, sql FROM sqlite_master WHERE type <> 'trigger'"))
        for name, text in TEXTS.items():
            if name not in found:
                self.connection.execute(text)
            elif found[name] != text:
                raise Refusal(f"{self.path}: its table {name} was not made by sql.py: name another database")

    def begin(self, campaign: str, replaces: bool) -> None:
        """Removes a campaign of the same name if it is to be replaced, and refuses it otherwise."""
        taken = self.connection.execute("SELECT 1 FROM campaigns WHERE campaign = ?", (campaign,)).fetchone()
        if taken and not replaces:
            other = "--name gives another name, --replace replaces it"
            raise Refusal(f"{self.path}: it has a campaign {campaign}: {other}")
        for table in TABLES:
            self.connection.execute(f"DELETE FROM {table} WHERE campaign = ?", (campaign,))

    def add(self, table: str, campaign: str, rows: Iterable[Row]) -> int:
        """Adds rows to a table, each with the campaign's name in front, and returns their number."""
        names = [column.split()[0] for column in TABLES[table].partition(", PRIMARY KEY (")[0].split(", ")]
        marks = ", ".join("?" for _ in names)
        words = f"INSERT INTO {table} ({', '.join(names)}) VALUES ({marks})"
        return self.connection.executemany(words, ((campaign, *row) for row in rows)).rowcount


@contextmanager
def opened(path: str) -> Iterator[Database]:
    """A database with all tables. At the end, all changes are stored, or none of them."""
    place = os.path.realpath(path)
    if os.path.exists(place) and not os.path.isfile(place):
        raise Refusal(f"{path}: it is not a file")
    with ExitStack() as stack:
        file = place if os.path.exists(place) else stack.enter_context(made(path, place))
        try:
            yield stack.enter_context(changed(file, path))
            stack.close()
        except sqlite3.Error as error:
            raise Refusal(f"{path}: {reason_of(error)}") from None


def reason_of(error: sqlite3.Error) -> str:
    """Why the database could not be read or written."""
    text = str(error)
    return "it is not an SQLite database" if text == "file is not a database" else text


@contextmanager
def changed(file: str, path: str) -> Iterator[Database]:
    """A database in a file that exists, within one transaction."""
    with closing(sqlite3.connect(file, isolation_level=None)) as connection:
        connection.execute("BEGIN IMMEDIATE")
        try:
            database = Database(connection, path)
            database.prepare()
            yield database
            connection.execute("COMMIT")
        except BaseException:
            if connection.in_transaction:
                connection.execute("ROLLBACK")
            raise


@contextmanager
def made(path: str, place: str) -> Iterator[str]:
    """An empty temporary file in the folder of a missing database, which gets the database's name at the end."""
    try:
        handle, beside = tempfile.mkstemp(prefix=f".{os.path.basename(place)}.", dir=os.path.dirname(place))
    except OSError as error:
        raise Refusal(f"{path}: {error.strerror}") from None
    os.close(handle)
    try:
        yield beside
        os.chmod(beside, 0o666 & ~mask())
        put(beside, path, place)
    finally:
        Path(beside).unlink(missing_ok=True)


def put(beside: str, path: str, place: str) -> None:
    """Gives a file its name, unless there is another file of this name."""
    try:
        os.link(beside, place)
    except FileExistsError:
        raise Refusal(f"{path}: it was made by another program meanwhile") from None
    except OSError:  # a file system without hard links
        os.rename(beside, place)

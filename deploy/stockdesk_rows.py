"""How full a desk is, and how its deals stand, from the rows of its file."""

import contextlib
import pathlib
import re
import sqlite3
from collections.abc import Iterator
from itertools import zip_longest
from typing import Any, NamedTuple

# the limits of the rules: places taken or set aside, fields and orders of a desk
PLACES = 200_000
FIELDS = 10_000
ORDERS = 100_000

# from this number on, orders are those of deals
DEALS = 900_000_000

# a command that names an order of a deal; the first two open it
NAMING = re.compile(r"(?:(open|transfer)|more|use|release|commit|abort|firm) (9[0-9]{8})(?: |$)")

VERSION = 2

# the tables, each with the columns of its key
KEYS = {
    "desk": "one",
    "field": "branch, article",
    "move": "place",
    "orders": "number",
    "line": "number, nr",
    "kept": "reqkey",
    "firm": "number",
}

# how many bytes a page of a new desk has, and which two bytes of a file say that of its pages
PAGE, PAGE_AT = 512, slice(16, 18)


class NoDesk(Exception):
    """A file does not have the rows of a desk of this version; the text is the program's word for it."""


class Counts(NamedTuple):
    """How full a desk is. A place is set aside for the end of each open order."""

    places: int
    set_aside: int
    fields: int
    orders: int


class Deals(NamedTuple):
    """The orders of deals at a roll: how many that have ended stay, since one of the last commands names them; and the numbers of
    those that have been open for so long that none of the last commands opens them. Carriers know these by the key that goes."""

    staying: int = 0
    long_open: tuple[int, ...] = ()


def find(database: sqlite3.Connection) -> None:
    """Looks whether a desk of this version is there."""
    try:
        versions = [version for version, in database.execute("SELECT version FROM desk")]
    except sqlite3.OperationalError:
        # there is no such table
        versions = []
    if versions != [VERSION]:
        older = len(versions) == 1 and versions[0] in range(1, VERSION)
        raise NoDesk("old version" if older else "not a desk")


def count(database: sqlite3.Connection) -> Counts:
    def number(query: str) -> Any:
        [(found,)] = database.execute(query)
        return found

    return Counts(
        number("SELECT places FROM desk"),
        number("SELECT count(*) FROM orders WHERE state = 0"),
        number("SELECT count(*) FROM field"),
        number("SELECT count(*) FROM orders"),
    )


@contextlib.contextmanager
def opened(path: str, with_log: bool) -> Iterator[sqlite3.Connection]:
    name = pathlib.Path(path).absolute().as_uri()
    with contextlib.closing(sqlite3.connect(name if with_log else f"{name}?mode=ro&immutable=1", uri=True)) as database:
        yield database


@contextlib.contextmanager
def read(path: str, with_log: bool) -> Iterator[sqlite3.Connection]:
    """The desk in a file that nobody changes meanwhile: in the file alone, which is left as it is, or with the log that lies
    beside it."""
    try:
        with opened(path, with_log) as database:
            find(database)
            yield database
    except sqlite3.Error as error:
        raise NoDesk("store") from error


def counts_in(path: str, with_log: bool = False) -> Counts:
    """How full the desk in a file is."""
    with read(path, with_log) as database:
        return count(database)


def rows_of(database: sqlite3.Connection) -> Iterator[tuple[Any, ...]]:
    """All rows, table by table, in the order of their keys."""
    for table, key in KEYS.items():
        yield from database.execute(f"SELECT '{table}', * FROM {table} ORDER BY {key}")


def are_same(path: str, other: str) -> bool:
    """Whether the desks in two files have the same rows."""
    with read(path, False) as one, read(other, False) as two:
        return all(row == same for row, same in zip_longest(rows_of(one), rows_of(two)))


def has_small_pages(path: str) -> bool:
    """Whether the pages of a file are as small as those of a new desk."""
    with open(path, "rb") as file:
        return int.from_bytes(file.read(PAGE_AT.stop)[PAGE_AT], "big") == PAGE


def give_small_pages(path: str) -> None:
    """Gives a file that nobody else has open small pages; its rows stay."""
    try:
        with contextlib.closing(sqlite3.connect(path, isolation_level=None)) as database:
            for line in ["PRAGMA journal_mode = DELETE", f"PRAGMA page_size = {PAGE}", "VACUUM"]:
                database.execute(line).fetchall()
    except sqlite3.Error as error:
        raise NoDesk("store") from error


def named_late(database: sqlite3.Connection, keys: int) -> tuple[set[int], set[int]]:
    """The numbers of deals that the last commands name, and of those that they open."""
    late = database.execute("SELECT words FROM kept WHERE place > (SELECT places FROM desk) - ?", [keys])
    told = [found for words, in late if (found := NAMING.match(words))]
    return {int(found[2]) for found in told}, {int(found[2]) for found in told if found[1]}


def deals_in(path: str, keys: int, with_log: bool = False) -> Deals:
    """How the orders of deals in a file stand at a roll that leaves so many keys."""
    with read(path, with_log) as database:
        orders = database.execute("SELECT number, state FROM orders WHERE number >= ? ORDER BY number", [DEALS]).fetchall()
        named, opened = named_late(database, keys) if orders else (set(), set())
    staying = sum(state != 0 and number in named for number, state in orders)
    return Deals(staying, tuple(number for number, state in orders if state == 0 and number not in opened))

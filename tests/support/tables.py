"""The tables of a desk, each with the columns of its rows, and how another SQLite than the program's reads and writes them."""

import contextlib
from collections.abc import Iterable, Mapping
from typing import Any, NamedTuple

try:
    import sqlite3
except ImportError:
    sqlite3 = None  # type: ignore[assignment]

# for each kind of row its columns, those of the key first


class DeskRow(NamedTuple):
    one: int
    version: int
    clock: int
    places: int


class FieldRow(NamedTuple):
    branch: str
    article: str
    lo: int
    hi: int
    start: int
    value: int
    inf: int
    sup: int


class MoveRow(NamedTuple):
    place: int
    branch: str
    article: str
    qty: int


class OrderRow(NamedTuple):
    number: int
    kind: int
    until: int
    state: int


class LineRow(NamedTuple):
    number: int
    nr: int
    branch: str
    article: str
    way: int
    held: int
    used: int


class KeptRow(NamedTuple):
    reqkey: str
    place: int
    words: str


class FirmRow(NamedTuple):
    number: int


# the kind of each table's rows, and how many of their columns are its key
ROWS: dict[str, Any] = {
    "desk": DeskRow,
    "field": FieldRow,
    "move": MoveRow,
    "orders": OrderRow,
    "line": LineRow,
    "kept": KeptRow,
    "firm": FirmRow,
}
KEYS = {"desk": 1, "field": 2, "move": 1, "orders": 1, "line": 2, "kept": 1, "firm": 1}
COLUMNS: dict[str, list[str]] = {table: list(row._fields) for table, row in ROWS.items()}
TYPES: dict[str, list[type]] = {table: list(row.__annotations__.values()) for table, row in ROWS.items()}

# the rows of each table; a desk has them in the order of their keys
Tables = dict[str, list[Any]]


def is_able() -> bool:
    """Whether Python has an SQLite that supports STRICT tables."""
    return sqlite3 is not None and sqlite3.sqlite_version_info >= (3, 37)


def tables_of(path: str) -> Tables:
    """The rows of each table in the order of their keys. A desk of version 1 has all tables but the last."""
    found: Tables = {}
    with contextlib.closing(sqlite3.connect(path)) as database:
        there = {name for (name,) in database.execute("SELECT name FROM sqlite_schema WHERE type = 'table'")}
        for table, columns in COLUMNS.items():
            if table == "firm" and table not in there:
                break
            order = ", ".join(columns[: KEYS[table]])
            rows = database.execute(f"SELECT {', '.join(columns)} FROM {table} ORDER BY {order}")
            found[table] = [ROWS[table]._make(row) for row in rows]
    return found


def lines_of_rows(tables: Mapping[str, Iterable[Any]], sign: str = "|") -> list[str]:
    """Each row as a line that begins with its table."""
    return [sign.join([table, *map(str, row)]) for table, rows in tables.items() for row in rows]


def rows_of(path: str) -> list[str]:
    """The rows of all tables in the order of their keys, each as a line that begins with its table."""
    return lines_of_rows(tables_of(path))


def tables_in(lines: Iterable[str]) -> Tables:
    """The rows that lines such as `firm,7` say, in the order of their keys."""
    found: Tables = {table: [] for table in ROWS}
    for line in lines:
        table, *words = line.split(",")
        found[table].append(ROWS[table]._make(kind(word) for kind, word in zip(TYPES[table], words, strict=True)))
    return {table: sorted(rows, key=lambda row: row[: KEYS[table]]) for table, rows in found.items()}


def put_rows(database: "sqlite3.Connection", rows: Mapping[str, Iterable[Any]]) -> None:
    """Puts rows into the tables of a new desk, after removing that desk's own row."""
    database.execute("DELETE FROM desk")
    for table, columns in COLUMNS.items():
        database.executemany(f"INSERT INTO {table} VALUES ({', '.join('?' * len(columns))})", rows.get(table, []))

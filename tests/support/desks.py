"""Files with chosen rows in the tables of a new desk: changes of a good ledger, and desks with so many rows of a kind."""

import contextlib
import os
import shutil
from collections.abc import Iterable, Sequence

from support.ledgers import GOOD
from support.programs import End, bytes_of, done, ended, expect, new_desk
from support.tables import COLUMNS, put_rows, sqlite3

# an open order that holds 5 of a field
OPEN_ORDER = ["field,N1,A-1,0,100,40,40,35,40", "orders,7,0,120,0", "line,7,1,N1,A-1,0,5,0"]


class Desks:
    """Files in a folder, each a new desk with chosen rows in its tables."""

    def __init__(self, program: str, folder: str):
        self.program = program
        self.new = new_desk(program, folder, "new.db")
        self.path = os.path.join(folder, "desk.db")

    def put(self, rows: Iterable[str]) -> None:
        shutil.copyfile(self.new, self.path)
        # nothing stays of a file that was there before
        with contextlib.suppress(FileNotFoundError):
            os.remove(self.path + "-wal")
        found: dict[str, list[list[str]]] = {table: [] for table in COLUMNS}
        for row in rows:
            table, *values = row.split(",")
            found[table].append(values)
        with contextlib.closing(sqlite3.connect(self.path)) as database:
            database.execute("PRAGMA journal_mode = DELETE")
            database.execute("PRAGMA synchronous = OFF")
            put_rows(database, found)
            database.commit()
            database.execute("PRAGMA journal_mode = WAL")

    def expect_end(self, rows: Iterable[str], want: End) -> None:
        """A run on a desk with these rows ends so, and leaves the file as it was."""
        self.put(rows)
        found = bytes_of(self.path)
        end = ended(self.program, ["run", self.path], "K99 expire 4000000000\n")
        expect(end == want, f"{end} and not {want}")
        expect(bytes_of(self.path) == found, "the file was changed")

    def expect_replies(self, rows: Iterable[str], steps: Sequence[tuple[str, str]]) -> None:
        self.put(rows)
        replies = done(self.program, ["run", self.path], "".join(line + "\n" for line, _ in steps))
        expect(replies == [reply for _, reply in steps], f"{replies}")


def changed(change: Sequence[str]) -> list[str]:
    """The good rows with parts replaced; each replacement stands after its part."""
    rows = GOOD
    for before, behind in zip(change[::2], change[1::2], strict=True):
        expect(rows.count(before) == 1, f"{before} is not there once")
        rows = rows.replace(before, behind)
    return rows.split("\n")


def of_desk(places: int) -> list[str]:
    """So many accepted commands."""
    kept = [f"kept,K{number:06},{number},expire 0" for number in range(1, places + 1)]
    return [f"desk,1,2,0,{places}", *kept]


def of_fields(count: int) -> list[str]:
    return [*of_desk(0), *(f"field,N{number % 4},A{number},0,0,0,0,0,0" for number in range(count))]


def of_orders(count: int) -> list[str]:
    """So many orders that are aborted, on one field."""
    orders = [f"orders,{number},0,0,2\nline,{number},1,N0,A0,0,0,0" for number in range(1, count + 1)]
    return [*of_fields(1), *"\n".join(orders).split("\n")]


def of_lines(count: int) -> list[str]:
    """An order of so many lines that is aborted."""
    lines = [f"line,1,{number + 1},N{number % 4},A{number},0,0,0" for number in range(count)]
    return [*of_fields(count), "orders,1,0,0,2", *lines]


def of_open(count: int, number: int = 1) -> list[str]:
    """So many open orders, which hold a piece each of one field; `number` is that of the first."""
    orders = [f"orders,{each},0,4000000000,0\nline,{each},1,N1,A-1,0,1,0" for each in range(number, number + count)]
    return [f"field,N1,A-1,0,100000,100000,100000,{100_000 - count},100000", *"\n".join(orders).split("\n")]

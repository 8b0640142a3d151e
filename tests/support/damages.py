"""Random damage of a database: to the bytes of its file or its log, or to one of its rows."""

import contextlib
from dataclasses import dataclass

from support.chance import Chance
from support.rows import desk_of
from support.tables import COLUMNS, sqlite3, tables_of

PAGE = 4_096
GREATEST = 2**63 - 1


def damaged(chance: Chance, data: bytes) -> bytes:
    """A database's bytes with damage: bits are turned, a page is zeroed or put over another, the end is cut off, or more is put
    behind the end."""
    file, pages = bytearray(data), max(1, len(data) // PAGE)
    first, other = PAGE * chance.whole(0, pages - 1), PAGE * chance.whole(0, pages - 1)
    kind = chance.whole(0, 5)
    if kind == 5:
        file[first : first + PAGE] = bytes(PAGE)
    elif kind == 4:
        file[first : first + PAGE] = file[other : other + PAGE]
    elif kind == 3:
        del file[chance.one_of([first, chance.whole(0, len(file))]) :]
    elif kind == 2:
        file += chance.one_of([bytes(PAGE), bytes(file[first : first + PAGE]), bytes(range(251)) * 3])
    elif file:
        turn_bits(chance, file, first)
    return bytes(file)


def turn_bits(chance: Chance, file: bytearray, first: int) -> None:
    """Turns bits. Most of a page is empty, so half of the turned bits are where something is written."""
    for _ in range(chance.whole(1, 8)):
        there = [at for at in range(first, min(first + PAGE, len(file))) if file[at]] if chance.share(50) else []
        at = chance.one_of(there or range(len(file)))
        file[at] ^= 1 << chance.whole(0, 7)


@dataclass
class RowChange:
    """One row of a table is taken out, or one of its columns gets another value: that of another row, or one near its own. The
    numbers of the two rows wrap around."""

    table: str
    column: str
    row: int
    other: int
    kind: int

    def put(self, path: str) -> None:
        """Changes the file, except where its tables do not accept the change."""
        with contextlib.closing(sqlite3.connect(path)) as database:
            if not database.execute("SELECT * FROM sqlite_schema WHERE name = ?", [self.table]).fetchall():
                return
            rows = database.execute(f"SELECT rowid, {self.column} FROM {self.table} ORDER BY rowid").fetchall()
            if not rows:
                return
            (row, value), (_, near) = rows[self.row % len(rows)], rows[self.other % len(rows)]
            with contextlib.suppress(sqlite3.IntegrityError), database:
                if self.kind == 0:
                    database.execute(f"DELETE FROM {self.table} WHERE rowid = ?", [row])
                else:
                    new = [near, *others_of(value)][(self.kind - 1) % 7]
                    database.execute(f"UPDATE {self.table} SET {self.column} = ? WHERE rowid = ?", [new, row])

    def __str__(self) -> str:
        return f"{self.table}, {self.column}: row {self.row}, {self.other}, kind {self.kind}"


def others_of(value: int | str) -> list[int | str]:
    """Six values that are near it, or at the ends of the range."""
    if isinstance(value, int):
        return [value + 1, value - 1, -1, 0, GREATEST, -GREATEST - 1]
    return ["", value + "0", "n1", value[:-1], value.lower(), value + " "]


def mend_sums(path: str) -> None:
    """Where the rows describe a desk, writes the sums of the other rows into the rows of fields."""
    # a row that others refer to is missing, or a code is not one; or a sum is beyond 64 bits
    with contextlib.suppress(LookupError, OverflowError), contextlib.closing(sqlite3.connect(path)) as database, database:
        desk = desk_of(tables_of(path))
        numbers = [(*desk.numbers(name), *name) for name in desk.fields]
        database.executemany("UPDATE field SET value = ?, inf = ?, sup = ? WHERE branch = ? AND article = ?", numbers)


def row_change(chance: Chance) -> RowChange:
    table = chance.one_of(list(COLUMNS))
    return RowChange(table, chance.one_of(COLUMNS[table]), chance.whole(0, 999), chance.whole(0, 999), chance.whole(0, 14))

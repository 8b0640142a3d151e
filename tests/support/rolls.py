"""What `roll` has to make of the rows of a desk, by the rules and without the program; and desks to try it on."""

import os
import re
from collections.abc import Iterable

from support.chance import Chance
from support.programs import done, expect, new_desk
from support.rolled import closed, joined, made, old_desk
from support.rows import desk_of, tables_by
from support.rules import Rules
from support.tables import DeskRow, KeptRow, LineRow, Tables, tables_of

# how many keys are kept where it is not told
KEYS = 100_000

# from this number on, orders are those of deals
FIRST_OF_DEALS = 900_000_000

OPEN, COMMITTED, ABORTED = 0, 1, 2

# the words of a command that names an order
NAMING = re.compile(r"(?:open|transfer|more|use|release|commit|abort|firm) ([0-9]+)(?: |$)")

# deals that end: the last command that names each of them is early, or late
DEALS = [
    b"D1 field N1 D-1 0 100 40",
    b"D2 open 900000001 4000000000 take N1 D-1 3",
    b"D3 use 900000001 N1 D-1 3",
    b"D4 commit 900000001",
    b"D5 open 900000002 4000000000 add N1 D-1 5",
    b"D6 abort 900000002",
    b"D7 open 899999999 60 take N1 D-1 1",
    b"D8 commit 899999999",
]


def rolled_by_rules(old: Tables, keys: int = KEYS) -> Tables:
    """The rows of the desk rolled up with so many keys."""
    [desk] = old["desk"]
    gone = max(0, desk.places - keys)
    kept = [row for row in old["kept"] if row.place > gone]
    named = {int(found[1]) for row in kept if (found := NAMING.match(row.words))}
    firms = {row.number for row in old["firm"]}
    orders = [it for it in old["orders"] if it.state == OPEN or it.number >= FIRST_OF_DEALS and it.number in named]
    settled = {it.number for it in orders if it.state == COMMITTED or it.state == OPEN and it.number in firms}
    staying = {it.number for it in orders}
    return {
        "desk": [DeskRow(desk.one, desk.version, desk.clock, len(kept))],
        "field": [row._replace(start=row.value) for row in old["field"]],
        "move": [],
        "orders": orders,
        "line": [left_of(row) if row.number in settled else row for row in old["line"] if row.number in staying],
        "kept": [KeptRow(row.reqkey, row.place - gone, row.words) for row in kept],
        "firm": [row for row in old["firm"] if row.number in staying],
    }


def rolled_desk(desk: Rules, keys: int) -> Rules:
    """The desk that goes on behind a roll with so many keys."""
    return desk_of(rolled_by_rules(tables_by(desk), keys))


def left_of(row: LineRow) -> LineRow:
    """What a line has not used, where what it used is settled."""
    return row._replace(held=row.held - row.used, used=0)


def expect_rolled(old: str, new: str, keys: int = KEYS) -> None:
    """The new desk has the rows of the old one rolled up, and no other."""
    wanted, found = rolled_by_rules(tables_of(old), keys), tables_of(new)
    for table, rows in wanted.items():
        odd = next((row for row in [*set(rows) ^ set(found[table])]), None)
        expect(odd is None and len(rows) == len(found[table]), f"{table}: {odd}")


def desk_to_roll(program: str, folder: str, chance: Chance) -> tuple[str, str]:
    """A desk of many commands, some of them of deals; returns its path, and that of a closed copy, which is for reading."""
    old = old_desk(chance)
    old.lines = [*DEALS[:4], *old.lines, *DEALS[4:]] if chance.share(50) else [*old.lines, *DEALS]
    return made(program, folder, old, new_desk(program, folder, "empty.db"))


def some_keys(chance: Chance, places: int) -> int:
    """How many keys are to stay: none, few, most or all."""
    return chance.whole(*[(0, 0), (1, 10), (max(0, places - 10), places), (places, 200_000)][chance.whole(0, 3)])


def places_told(lines: Iterable[str]) -> list[int]:
    """The place in each reply that has one, and 0 for any other reply."""
    return [int(found[1]) if (found := re.search(" done ([0-9]+)$", line)) else 0 for line in lines]


def simple_desk(program: str, folder: str) -> str:
    """A closed desk of the deals alone."""
    path = new_desk(program, folder, "simple.db")
    done(program, ["run", path], joined(DEALS))
    return closed(program, path, os.path.join(folder, "old.db")) if os.path.exists(f"{path}-wal") else path

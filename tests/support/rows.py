"""The rows that a desk has by the rules, the desk that rows describe, and what is wrong with rows that describe none."""

import re
from collections.abc import Iterator
from functools import cache
from itertools import groupby
from operator import attrgetter

from support.forms import ARTICLE, BRANCH, COMMANDS, KEY
from support.programs import expect
from support.rules import (
    ABORTED,
    ADD,
    COMMITTED,
    FIELDS,
    FIRM,
    LINES,
    OPEN,
    ORDERS,
    PLACES,
    PLAIN,
    TAKE,
    TRANSFER,
    Field,
    Line,
    Order,
    Rules,
)
from support.tables import (
    KEYS,
    DeskRow,
    FieldRow,
    FirmRow,
    KeptRow,
    LineRow,
    MoveRow,
    OrderRow,
    Tables,
    lines_of_rows,
    tables_of,
)

VERSION = 2
# the numbers by which kinds, ways and states are stored
KINDS, WAYS, STATES = [PLAIN, TRANSFER], [TAKE, ADD], [OPEN, COMMITTED, ABORTED]

GREATEST_LEVEL, GREATEST_MOMENT, GREATEST_NUMBER, GREATEST_MOVE = 1_000_000_000, 4_000_000_000, 999_999_999, 1_000_000
COMMAND = re.compile("|".join(COMMANDS))


@cache
def is_command(words: str) -> bool:
    return COMMAND.fullmatch(words) is not None


# ---- the rows of a desk


def tables_by(desk: Rules) -> Tables:
    """The rows of all tables in the order of their keys."""
    return {table: sorted(rows) for table, rows in rows_as_they_came(desk).items()}


def rows_as_they_came(desk: Rules) -> Tables:
    """The rows of all tables, those of each in the order in which they came; but the lines of an order stand together, and firm
    orders in the order in which they were opened."""
    return {
        "desk": [desk_row(desk)],
        "field": [field_row(desk, name) for name in desk.fields],
        "move": [move_row(*move) for move in desk.moves],
        "orders": [order_row(order) for order in desk.orders.values()],
        "line": [row for order in desk.orders.values() for row in line_rows(order)],
        "kept": [kept_row(desk, key) for key in desk.kept],
        "firm": [FirmRow(number) for number in desk.orders if number in desk.firms],
    }


def desk_row(desk: Rules) -> DeskRow:
    return DeskRow(1, VERSION, desk.clock, len(desk.kept))


def field_row(desk: Rules, name: tuple[str, str]) -> FieldRow:
    field = desk.fields[name]
    return FieldRow(*name, field.lo, field.hi, field.start, *desk.numbers(name))


def move_row(place: int, name: tuple[str, str], pieces: int) -> MoveRow:
    return MoveRow(place, *name, pieces)


def order_row(order: Order) -> OrderRow:
    """A firm order is stored as an open one, and in a table of its own."""
    state = OPEN if order.state == FIRM else order.state
    return OrderRow(order.number, KINDS.index(order.kind), order.until, STATES.index(state))


def line_rows(order: Order) -> list[LineRow]:
    return [
        LineRow(order.number, nr, *line.name, WAYS.index(line.way), line.held, line.used)
        for nr, line in enumerate(order.lines, 1)
    ]


def kept_row(desk: Rules, key: str) -> KeptRow:
    return KeptRow(key, *desk.kept[key])


def rows_by(desk: Rules) -> list[str]:
    """Each row of the desk as a line that begins with its table."""
    return lines_of_rows(tables_by(desk))


# ---- the desk that rows describe


def desk_of(tables: Tables) -> Rules:
    """The desk that rows describe; nothing may be wrong with them. The numbers of its fields are summed from the other rows."""
    desk = Rules()
    desk.clock = tables["desk"][0].clock
    desk.fields = {(row.branch, row.article): Field(row.lo, row.hi, row.start, row.start) for row in tables["field"]}
    for move in tables["move"]:
        desk.move(move.place, (move.branch, move.article), move.qty)
    desk.firms = {row.number for row in tables["firm"]}
    lines = by_order(tables)
    for row in tables["orders"]:
        desk.add(order_of(row, lines[row.number], row.number in desk.firms))
    desk.kept = {row.reqkey: (row.place, row.words) for row in tables["kept"]}
    return desk


def by_order(tables: Tables) -> dict[int, list[LineRow]]:
    return {number: list(rows) for number, rows in groupby(tables["line"], attrgetter("number"))}


def order_of(row: OrderRow, lines: list[LineRow], is_firm: bool) -> Order:
    state = STATES[row.state]
    found = [Line((line.branch, line.article), WAYS[line.way], line.held, line.used) for line in lines]
    return Order(row.number, KINDS[row.kind], row.until, found, FIRM if is_firm and state == OPEN else state)


# ---- rows that describe no desk


def faults(tables: Tables) -> list[str]:
    """What is wrong with rows that describe no desk. The sums are looked at only where nothing else is wrong."""
    if "firm" not in tables:
        return ["the tables of version 1"]
    found = [
        *faults_of_the_desk(tables),
        *faults_of_fields(tables),
        *faults_of_moves(tables),
        *faults_of_orders(tables),
        *faults_of_firms(tables),
    ]
    return found or list(wrong_sums(tables))


def faults_of_the_desk(tables: Tables) -> Iterator[str]:
    """Faults of the desk's one row, of the order of all rows, and of the kept commands, which have the places from 1 on."""
    if len(tables["desk"]) != 1 or tables["desk"][0][:2] != (1, VERSION):
        yield f"another version: {tables['desk']}"
        return
    [desk], kept = tables["desk"], tables["kept"]
    if not 0 <= desk.clock <= GREATEST_MOMENT:
        yield f"a clock at no moment: {desk}"
    for table, rows in tables.items():
        keys = [row[: KEYS[table]] for row in rows]
        if any(key >= after for key, after in zip(keys, keys[1:])):
            yield f"rows of {table} that are not in the order of their keys"
    is_open = sum(row.state == 0 for row in tables["orders"])
    has_places = desk.places == len(kept) and sorted(row.place for row in kept) == list(range(1, len(kept) + 1))
    if not has_places or desk.places + is_open > PLACES:
        yield f"other places than 1 to their number: {desk}"
    for row in kept:
        if not (re.fullmatch(KEY, row.reqkey) and is_command(row.words)):
            yield f"no command under a key: {row}"


def is_name(row: FieldRow) -> bool:
    return bool(re.fullmatch(BRANCH, row.branch) and re.fullmatch(ARTICLE, row.article))


def faults_of_fields(tables: Tables) -> Iterator[str]:
    if len(tables["field"]) > FIELDS:
        yield "too many fields"
    for row in tables["field"]:
        if not is_name(row):
            yield f"no name of a field: {row}"
        if not (0 <= row.lo <= row.inf <= row.value <= row.sup <= row.hi <= GREATEST_LEVEL):
            yield f"a field beyond its bounds: {row}"
        if not 0 <= row.start <= GREATEST_LEVEL:
            yield f"a start that is no level: {row}"


def names_of(tables: Tables) -> set[tuple[str, str]]:
    return {(row.branch, row.article) for row in tables["field"]}


def faults_of_moves(tables: Tables) -> Iterator[str]:
    places, names = {row.place for row in tables["kept"]}, names_of(tables)
    for row in tables["move"]:
        if row.place not in places or (row.branch, row.article) not in names:
            yield f"a move without its place or its field: {row}"
        if not 1 <= abs(row.qty) <= GREATEST_MOVE:
            yield f"a move of no quantity: {row}"


def faults_of_orders(tables: Tables) -> Iterator[str]:
    lines, names = by_order(tables), names_of(tables)
    numbers = {row.number for row in tables["orders"]}
    if len(numbers) > ORDERS:
        yield "too many orders"
    yield from (f"lines of no order: {number}" for number in lines.keys() - numbers)
    for row in tables["orders"]:
        is_sound = 1 <= row.number <= GREATEST_NUMBER and 0 <= row.until <= GREATEST_MOMENT
        if not (is_sound and row.kind in (0, 1) and row.state in (0, 1, 2)):
            yield f"no order: {row}"
        yield from faults_of_lines(row, lines.get(row.number, []), names)


def faults_of_lines(order: OrderRow, lines: list[LineRow], names: set[tuple[str, str]]) -> Iterator[str]:
    """Faults of an order's lines: there have to be 1 to 64, numbered from 1, on as many fields."""
    on = [(line.branch, line.article) for line in lines]
    if not 1 <= len(lines) <= LINES or [line.nr for line in lines] != list(range(1, len(lines) + 1)):
        yield f"lines that are not numbered from 1: {order}, {lines}"
    if len(set(on)) < len(on) or not names.issuperset(on):
        yield f"two lines on one field, or one on none: {order}, {lines}"
    for line in lines:
        if not (line.way in (0, 1) and 0 <= line.used <= line.held <= GREATEST_LEVEL):
            yield f"no line: {line}"
    halves = [(line.way, line.article, line.held, line.used) for line in lines]
    if order.kind == 1 and not (len(halves) == 2 and halves[0][0] == 0 and halves[1] == (1, *halves[0][1:])):
        yield f"halves of a transfer that differ: {order}, {lines}"


def faults_of_firms(tables: Tables) -> Iterator[str]:
    may_be = {row.number for row in tables["orders"] if row.state in (0, 1)}
    yield from (f"firm, and neither open nor committed: {row}" for row in tables["firm"] if row.number not in may_be)


def wrong_sums(tables: Tables) -> Iterator[str]:
    """Each value, infimum or supremum that is not the sum of the other rows."""
    desk = desk_of(tables)
    for row in tables["field"]:
        wanted = field_row(desk, (row.branch, row.article))
        if row != wanted:
            yield f"numbers that are not the sums: {row} and not {wanted}"


def expect_good(path: str, of: str) -> None:
    """The file has the rows of a desk."""
    found = faults(tables_of(path))
    expect(found == [], f"{of}: {found[:4]}")

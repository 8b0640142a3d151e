"""A full desk, as rows."""

import random

from support.rows import tables_by
from support.rules import ABORTED, ADD, COMMITTED, FIRM, OPEN, PLAIN, TAKE, TRANSFER, Field, Line, Order, Rules
from support.tables import lines_of_rows

FIELDS, BRANCHES = 10_000, 20
ORDERS = 90_000
OPEN_ORDERS = 15_000
PLACES = 184_000
CLOCK = 900
MIDDLE = 500_000_000


def add_order(desk: Rules, generator: random.Random, number: int, state: str) -> None:
    """Adds an order. Of ten orders one is a transfer, one is firm, and one has used something of each line; of a thousand lines
    one is large."""
    is_firm, is_transfer = state != ABORTED and generator.random() < 0.1, generator.random() < 0.1
    until = generator.randint(1 if is_firm else CLOCK + 1, 4_000_000_000)
    names = generator.sample(range(BRANCHES), 2 if is_transfer else generator.randint(1, 4))
    article, held = generator.randrange(FIELDS // BRANCHES), generator.randint(1, 1_000)
    has_used, lines = generator.random() < 0.1, []
    for nr, name in enumerate(names):
        if not is_transfer:
            held = generator.randint(1, 1_000) if generator.random() < 0.999 else 2_500_000
        way = [TAKE, ADD][nr if is_transfer else generator.randrange(2)]
        lines.append(Line((f"N{name}", f"A-{article}"), way, held, held // 3 if has_used else 0))
    desk.firms |= {number} if is_firm else set()
    desk.add(Order(number, TRANSFER if is_transfer else PLAIN, until, lines, FIRM if is_firm and state == OPEN else state))


def leave_no_room(desk: Rules) -> None:
    for name, field in desk.fields.items():
        _, field.lo, field.hi = desk.numbers(name)


def give_room(desk: Rules) -> None:
    for field in desk.fields.values():
        field.lo, field.hi = 0, 2 * MIDDLE


def full_rows(open_orders: int = OPEN_ORDERS, places: int = PLACES, has_room: bool = False) -> list[str]:
    """A desk of 10,000 fields and 90,000 orders, so many of them open, with so many places taken; as it is told here 1,000 places
    are left for commands other than the end of an open order. The fields have room, or none."""
    generator, desk = random.Random(1986), Rules()
    desk.clock = CLOCK
    names = [(f"N{n % BRANCHES}", f"A-{n // BRANCHES}") for n in range(FIELDS)]
    desk.fields = {name: Field(0, 0, MIDDLE, MIDDLE) for name in names}
    for index, number in enumerate(generator.sample(range(1_000_000, 900_000_000), ORDERS)):
        add_order(desk, generator, number, OPEN if index < open_orders else generator.choice([COMMITTED, ABORTED]))
    for place in range(1, 3_001):
        desk.move(place, generator.choice(names), generator.choice([-50, 70]))
    if has_room:
        give_room(desk)
    else:
        leave_no_room(desk)
    desk.kept = {f"K{number:06}": (number, "expire 0") for number in range(1, places + 1)}
    return lines_of_rows(tables_by(desk), ",")

"""Random desks of a given size, and the commands that are timed on them."""

import random
import string
from collections.abc import Callable
from dataclasses import dataclass
from math import isqrt
from typing import TypeVar

from steps import Desk, Step
from support.rules import ADD, FIRM, PLAIN, TAKE, Name, Order, Rules
from support.tables import Tables

KINDS = ["ask", "deliver", "open", "use", "release", "commit", "abort", "firm", "rebound", "expire"]

# the relative frequency of each of the other commands while a desk is made
OTHERS = {"deliver": 4, "writeoff": 3, "use": 4, "release": 2, "more": 2, "firm": 3}

# the sizes: how many places are taken, and set aside for each open order
SMALLEST = 1_000
FULL = 199_000
FULL_FIELDS = 10_000
FULL_ORDERS = 90_000

# how many asks are in a batch for each command; and how many deliveries come before the first batch, so that the log was copied
# into the file once
ASKS = 10
WARMING = 200

HI = 1_000_000_000
START = 500_000_000
SOON = 1_000
LATE = 1_000_000
LAST = 4_000_000_000
CODE = string.ascii_uppercase + string.digits
LETTERS = string.ascii_letters + string.digits + "-"

# a key and its command
Request = tuple[str, str]
Fits = Callable[[Order], bool]
T = TypeVar("T", str, int)


@dataclass
class Counts:
    """How many of each thing there are when a desk is made."""

    fields: int
    orders: int
    ends: int
    others: int

    @staticmethod
    def of(size: int) -> "Counts":
        """The counts for a size. Each order takes a place; one more is taken by its end, or set aside for it."""
        fields, orders = size * FULL_FIELDS // FULL, size * FULL_ORDERS // FULL
        ends = orders - orders // 2
        return Counts(fields, orders, ends, size - fields - 2 * orders)


class Names:
    """Random names, none of which is given twice."""

    def __init__(self, generator: random.Random):
        self.random = generator
        self.given: set[str | int] = set()

    def once(self, make: Callable[[], T]) -> T:
        while (name := make()) in self.given:
            pass
        self.given.add(name)
        return name

    def key(self) -> str:
        return self.once(lambda: "".join(self.random.choices(LETTERS, k=self.random.randint(8, 16))))

    def code(self, least: int, most: int) -> str:
        return self.once(lambda: "".join(self.random.choices(CODE, k=self.random.randint(least, most))))

    def number(self) -> int:
        return self.once(lambda: self.random.randint(1, 999_999_999))

    def moment(self) -> int:
        return self.random.randint(LATE, LAST)


class Maker:
    """Makes a desk of a size by random commands that are all accepted. `soon` has open orders of four lines with the earliest
    moments of all, in the order of these; `pool` has the other open orders. Both have the numbers of the orders."""

    def __init__(self, size: int, batch: int):
        self.size = size
        self.random = random.Random(size)
        self.names = Names(self.random)
        self.desk = Desk()
        self.orders = self.desk.rules.orders
        self.fields: list[Name] = []
        self.twins: dict[str, list[Name]] = {}
        self.pool: list[int] = []
        self.soon: list[int] = []
        self.script: list[str] = []
        self.make(Counts.of(size), batch)

    def key(self) -> str:
        return self.names.key()

    def quantity(self) -> int:
        return self.random.randint(100, 1000)

    def field(self) -> Name:
        return self.random.choice(self.fields)

    def make(self, counts: Counts, batch: int) -> None:
        self.make_fields(counts.fields)
        for number in range(batch):
            self.play(self.open_order(SOON + number))
            self.soon.append(self.pool.pop())
        acts = {"begin": self.begin, "end": self.end, "other": self.other}
        tasks = ["begin"] * (counts.orders - batch) + ["end"] * counts.ends + ["other"] * counts.others
        self.random.shuffle(tasks)
        while tasks:
            task = tasks.pop()
            if task != "begin" and not self.pool:
                tasks.insert(0, task)
            else:
                self.play(acts[task]())

    def play(self, request: Request) -> None:
        self.script.append(self.desk.carry_out(*request))

    def make_fields(self, number: int) -> None:
        """Makes fields of some articles, each at several branches."""
        branches = [self.names.code(2, 6) for _ in range(max(2, isqrt(number) // 2))]
        articles = [self.names.code(4, 12) for _ in range(-(-number // len(branches)))]
        self.fields = [(branch, article) for article in articles for branch in branches][:number]
        self.random.shuffle(self.fields)
        for name in self.fields:
            self.play((self.key(), f"field {' '.join(name)} 0 {HI} {START}"))
            self.twins.setdefault(name[1], []).append(name)

    def begin(self) -> Request:
        """An order more; one in ten is a transfer."""
        return self.transfer() if self.random.random() < 0.1 else self.open_order(self.names.moment())

    def open_order(self, until: int) -> Request:
        names = self.random.sample(self.fields, 4)
        lines = [f"{self.random.choice([TAKE, ADD])} {' '.join(name)} {self.quantity()}" for name in names]
        key, number = self.key(), self.names.number()
        self.pool.append(number)
        return key, f"open {number} {until} {' '.join(lines)}"

    def transfer(self) -> Request:
        twins: list[Name] = []
        while len(twins) < 2:
            twins = self.twins[self.field()[1]]
        (source, article), (target, _) = self.random.sample(twins, 2)
        number, until = self.names.number(), self.names.moment()
        self.pool.append(number)
        return self.key(), f"transfer {number} {until} {article} {source} {target} {self.quantity()}"

    def end(self) -> Request:
        """The end of an order; of those that are not firm three in five are committed."""
        order = self.take_out(lambda order: True)
        verb = "commit" if order.state == FIRM or self.random.random() < 0.6 else "abort"
        return self.key(), f"{verb} {order.number}"

    def other(self) -> Request:
        [verb] = self.random.choices(list(OTHERS), list(OTHERS.values()))
        if verb == "firm" and self.has(is_soft):
            return self.firm(is_soft)
        if verb == "more" and self.has(may_hold_more):
            return self.more()
        # where no order fits, a delivery comes instead
        return self.small("deliver" if verb in ("firm", "more") else verb, lambda order: True)

    def firm(self, fits: Fits) -> Request:
        return self.key(), f"firm {self.pick(fits).number}"

    def more(self) -> Request:
        """Holds more: three in four times on a line that is there."""
        order = self.pick(may_hold_more)
        if self.random.random() < 0.75:
            line = self.random.choice(order.lines)
            way, name = line.way, line.name
        else:
            way, name = TAKE, self.field()
            while order.line_on(name):
                name = self.field()
        return self.key(), f"more {order.number} {way} {' '.join(name)} {self.quantity()}"

    def small(self, verb: str, fits: Fits) -> Request:
        """A move of a random field, or a use or a release on a random line of an order that fits."""
        if verb in ("deliver", "writeoff"):
            return self.key(), f"{verb} {' '.join(self.field())} {self.quantity()}"
        line = None
        while line is None or not line.unused():
            order = self.pick(fits)
            line = self.random.choice(order.lines)
        return self.key(), f"{verb} {order.number} {' '.join(line.name)} {self.random.randint(1, min(line.unused(), 40))}"

    def has(self, fits: Fits) -> bool:
        """Whether an order in the pool fits."""
        return any(fits(self.orders[number]) for number in self.pool)

    def index(self, fits: Fits) -> int:
        """The index in the pool of a random order that fits."""
        while not fits(self.orders[self.pool[index := self.random.randrange(len(self.pool))]]):
            pass
        return index

    def pick(self, fits: Fits) -> Order:
        return self.orders[self.pool[self.index(fits)]]

    def take_out(self, fits: Fits) -> Order:
        index = self.index(fits)
        self.pool[index], self.pool[-1] = self.pool[-1], self.pool[index]
        return self.orders[self.pool.pop()]

    def timed(self, kind: str) -> Step:
        """One more command of a kind."""
        return self.desk.ask(self.field()) if kind == "ask" else self.desk.step(*self.request(kind))

    def request(self, kind: str) -> Request:
        """One more request of a kind. Requests on an order are on a plain one of four lines that is not firm."""
        if kind == "open":
            return self.open_order(self.names.moment())
        if kind == "rebound":
            return self.key(), f"rebound {' '.join(self.field())} 0 {HI - self.quantity()}"
        if kind in ("commit", "abort"):
            return self.key(), f"{kind} {self.take_out(has_four_lines).number}"
        if kind == "firm":
            return self.firm(has_four_lines)
        if kind == "expire":
            return self.key(), f"expire {self.orders[self.soon.pop(0)].until}"
        return self.small(kind, has_four_lines)


def is_soft(order: Order) -> bool:
    """Whether the order may still be aborted."""
    return order.state != FIRM


def may_hold_more(order: Order) -> bool:
    return order.kind == PLAIN and is_soft(order)


def has_four_lines(order: Order) -> bool:
    return may_hold_more(order) and len(order.lines) == 4


@dataclass
class Made:
    """A desk of a size: the script that makes it, the answers to that, its rows in the order in which they came, and the batches
    that are played then, in their order."""

    size: int
    script: list[str]
    answers: list[str]
    rows: Tables
    counts: dict[str, int]
    batches: dict[str, list[Step]]


def count(desk: Rules) -> dict[str, int]:
    places = {"places": len(desk.kept), "open": len(desk.open), "firm": len(desk.firms), "fields": len(desk.fields)}
    lines = sum(len(order.lines) for order in desk.orders.values())
    return {**places, "orders": len(desk.orders), "lines": lines, "moves": len(desk.moves)}


def make(size: int, batch: int) -> Made:
    """A desk of that size, with batches of so many commands and of ten times as many asks."""
    return made_by(Maker(size, batch), batch)


def made_by(maker: Maker, batch: int) -> Made:
    """The desk as the maker makes it, and its batches; the desk of the maker has carried these out then."""
    desk = maker.desk
    answers, rows, counts = [desk.rules.reply(line) for line in maker.script], desk.rows(), count(desk.rules)
    batches = {"all": [desk.ask(name) for name in maker.random.sample(maker.fields, len(maker.fields))]}
    batches["warm"] = [maker.timed("deliver") for _ in range(WARMING)]
    for kind in KINDS:
        batches[kind] = [maker.timed(kind) for _ in range(batch * ASKS if kind == "ask" else batch)]
    return Made(maker.size, maker.script, answers, rows, counts, batches)

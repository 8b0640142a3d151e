"""The rules of a desk in Python: what it answers to a line of a script or to a message, and what that changes. A field's numbers
are summed anew whenever they are asked for."""

import re
from collections.abc import Callable
from dataclasses import dataclass

from support.forms import ASK, BRANCH, REFUSALS, REQUEST
from support.messages import answer, answer_of

PLAIN, TRANSFER = "plain", "transfer"
TAKE, ADD = "take", "add"
OPEN, FIRM, COMMITTED, ABORTED = "open", "firm", "committed", "aborted"
# how many there may be: of commands that are done or set aside (one for each open order), of fields, of orders, and of lines of
# an order
PLACES, FIELDS, ORDERS, LINES = 200_000, 10_000, 100_000, 64
BAD = "- refused 20 BadCommand 0"

# a branch and an article
Name = tuple[str, str]
Effect = Callable[[], None]


class Refused(Exception):
    """A check that fails: the name of the refusal, and the number of the order's line that it is about."""


def refuse(is_refused: bool, name: str, nr: int = 0) -> None:
    if is_refused:
        raise Refused(name, nr)


@dataclass
class Field:
    """The bounds of a field, its start, and the total of its deliveries and write-offs since."""

    lo: int
    hi: int
    start: int
    moved: int


@dataclass
class Line:
    """What an order holds on a field, and how much of that it has used."""

    name: Name
    way: str
    held: int
    used: int = 0

    def sign(self) -> int:
        return 1 if self.way == ADD else -1

    def unused(self) -> int:
        """What it holds and has not used."""
        return self.held - self.used


@dataclass
class Order:
    number: int
    kind: str
    until: int
    lines: list[Line]
    state: str = OPEN

    def is_open(self) -> bool:
        return self.state in (OPEN, FIRM)

    def line_on(self, name: Name) -> Line | None:
        return next((line for line in self.lines if line.name == name), None)

    def together(self, line: Line) -> list[Line]:
        """The lines that a use or a release on this line acts on."""
        return self.lines if self.kind == TRANSFER else [line]

    def settled(self, line: Line) -> int:
        """By how much the line has moved its field, whatever comes."""
        return line.used if self.state in (FIRM, COMMITTED) else 0

    def left(self, line: Line) -> int:
        """How much of the line may still move the field."""
        return line.held - self.settled(line) if self.is_open() else 0


class Rules:
    """A desk as the rules say it."""

    def __init__(self, places: int = PLACES) -> None:
        self.places = places
        self.clock = 0
        self.fields: dict[Name, Field] = {}
        self.orders: dict[int, Order] = {}
        self.open: dict[int, Order] = {}
        # for each field, the lines of all orders on it
        self.lines: dict[Name, list[tuple[Order, Line]]] = {}
        self.moves: list[tuple[int, Name, int]] = []
        self.firms: set[int] = set()
        self.kept: dict[str, tuple[int, str]] = {}

    # ---- what is answered without a change

    def reply(self, line: str) -> str:
        """The line by which a line of a script is answered."""
        if ASK.fullmatch(line.encode()):
            _, kind, *names = line.split()
            return self.shown_field(line, (names[0], names[1])) if kind == "field" else self.shown_order(line, int(names[0]))
        if not REQUEST.fullmatch(line.encode()):
            return BAD
        key, command = line.split(" ", 1)
        if key in self.kept:
            place, kept = self.kept[key]
            return f"{key} done {place}" if kept == command else f"{key} refused 1 KeyReused 0"
        try:
            self.plan(command)
        except Refused as refused:
            name, nr = refused.args
            return f"{key} refused {REFUSALS.index(name)} {name} {nr}"
        return f"{key} done {len(self.kept) + 1}"

    def answer(self, line: str) -> bytes:
        """The answer to the message that asks for the same as this line, or for a sheet."""
        if line.startswith("? sheet ") and re.fullmatch(BRANCH, line[8:]):
            return answer(200, self.sheet(line[8:]))
        # what is no view has no target
        is_other = line.startswith("? ") and not ASK.fullmatch(line.encode())
        return answer_of("? none" if is_other else self.reply(line))

    def numbers(self, name: Name) -> tuple[int, int, int]:
        """The value, the infimum and the supremum of a field."""
        lines = self.lines.get(name, [])
        value = self.fields[name].moved + sum(line.sign() * order.settled(line) for order, line in lines)
        taken = sum(order.left(line) for order, line in lines if line.way == TAKE)
        added = sum(order.left(line) for order, line in lines if line.way == ADD)
        return value, value - taken, value + added

    def shown_field(self, line: str, name: Name) -> str:
        if name not in self.fields:
            return "? none"
        value, inf, sup = self.numbers(name)
        return f"{line} lo {self.fields[name].lo} hi {self.fields[name].hi} value {value} inf {inf} sup {sup}"

    def shown_order(self, line: str, number: int) -> str:
        if number not in self.orders:
            return "? none"
        order = self.orders[number]
        lines = [f"{each.way} {' '.join(each.name)} {each.held} {each.used}" for each in order.lines]
        return " ".join([line, order.kind, str(order.until), order.state, *lines])

    def sheet(self, branch: str) -> str:
        names = sorted(name for name in self.fields if name[0] == branch)
        found = [(name[1], self.fields[name], *self.numbers(name)) for name in names]
        lines = [
            article.ljust(16) + "".join(f"{level:11}" for level in (field.lo, field.hi, value, inf, sup))
            for article, field, value, inf, sup in found
        ]
        return "\n".join([*lines, "total".ljust(16) + f"{sum(row[2] for row in found):15}", ""])

    # ---- what is changed

    def take(self, line: bytes) -> str:
        """Answers a line of a script, and does what it accepts."""
        text = line.decode("latin-1")
        reply, place = self.reply(text), len(self.kept) + 1
        if reply.endswith(f" done {place}"):
            self.carry_out(*text.split(" ", 1))
        return reply

    def carry_out(self, key: str, command: str) -> None:
        """Carries a command out, which is accepted."""
        effect = self.plan(command)
        self.kept[key] = len(self.kept) + 1, command
        effect()

    def plan(self, command: str) -> Effect:
        """What the command would do. Raises Refused where it is refused; nothing is changed."""
        verb, *words = command.split()
        self.check_full(verb)
        plans: dict[str, Callable[..., Effect]] = {
            "field": self.plan_field,
            "deliver": lambda branch, article, quantity: self.plan_move((branch, article), ADD, int(quantity)),
            "writeoff": lambda branch, article, quantity: self.plan_move((branch, article), TAKE, int(quantity)),
            "rebound": self.plan_rebound,
            "expire": self.plan_expire,
            "open": self.plan_open,
            "transfer": self.plan_transfer,
            "more": self.plan_more,
            "use": self.plan_use,
            "release": self.plan_release,
            "commit": lambda number: self.plan_end(int(number), COMMITTED),
            "abort": lambda number: self.plan_end(int(number), ABORTED),
            "firm": self.plan_firm,
        }
        return plans[verb](*words)

    def check_full(self, verb: str) -> None:
        """Refuses a command that has no place left. The end of an order has its place, which was set aside."""
        if verb in ("commit", "abort"):
            return
        begins = verb in ("open", "transfer")
        is_full = verb == "field" and len(self.fields) == FIELDS or begins and len(self.orders) == ORDERS
        refuse(is_full or len(self.kept) + len(self.open) + 1 + begins > self.places, "Full")

    def field_at(self, name: Name, nr: int = 0) -> Field:
        refuse(name not in self.fields, "NoField", nr)
        return self.fields[name]

    def check_room(self, name: Name, way: str, quantity: int, nr: int = 0) -> None:
        """Refuses unless so many pieces can be taken or added whatever becomes of the open orders."""
        field = self.field_at(name, nr)
        _, inf, sup = self.numbers(name)
        refuse(way == TAKE and inf - quantity < field.lo, "TooLittle", nr)
        refuse(way == ADD and sup + quantity > field.hi, "TooMuch", nr)

    def open_order(self, number: int) -> Order:
        refuse(number not in self.orders, "NoOrder")
        refuse(number not in self.open, "Ended")
        return self.open[number]

    def plan_field(self, branch: str, article: str, *levels: str) -> Effect:
        lo, hi, start = map(int, levels)
        refuse((branch, article) in self.fields, "FieldThere")
        refuse(not lo <= start <= hi, "BadBounds")
        return lambda: self.fields.update({(branch, article): Field(lo, hi, start, start)})

    def plan_move(self, name: Name, way: str, quantity: int) -> Effect:
        self.check_room(name, way, quantity)

        return lambda: self.move(len(self.kept), name, quantity if way == ADD else -quantity)

    def move(self, place: int, name: Name, pieces: int) -> None:
        self.fields[name].moved += pieces
        self.moves.append((place, name, pieces))

    def plan_rebound(self, branch: str, article: str, *levels: str) -> Effect:
        lo, hi = map(int, levels)
        field = self.field_at((branch, article))
        _, inf, sup = self.numbers((branch, article))
        refuse(lo > hi, "BadBounds")
        refuse(inf < lo, "TooLittle")
        refuse(sup > hi, "TooMuch")

        def bind() -> None:
            field.lo, field.hi = lo, hi

        return bind

    def plan_expire(self, now: str) -> Effect:
        refuse(int(now) < self.clock, "ClockBack")

        def expire() -> None:
            self.clock = int(now)
            for order in list(self.open.values()):
                if order.state == OPEN and order.until <= self.clock:
                    self.end(order, ABORTED)

        return expire

    def plan_open(self, number: str, until: str, *words: str) -> Effect:
        lines = [Line((branch, article), way, int(held)) for way, branch, article, held in zip(*[iter(words)] * 4, strict=True)]
        return self.plan_order(Order(int(number), PLAIN, int(until), lines))

    def plan_transfer(self, number: str, until: str, article: str, source: str, target: str, quantity: str) -> Effect:
        lines = [Line((branch, article), way, int(quantity)) for branch, way in [(source, TAKE), (target, ADD)]]
        return self.plan_order(Order(int(number), TRANSFER, int(until), lines))

    def plan_order(self, order: Order) -> Effect:
        refuse(order.number in self.orders, "OrderThere")
        refuse(order.until <= self.clock, "Past")
        names = [line.name for line in order.lines]
        for nr, line in enumerate(order.lines, 1):
            refuse(line.name in names[: nr - 1], "SameField", nr)
            self.check_room(line.name, line.way, line.held, nr)

        return lambda: self.add(order)

    def add(self, order: Order) -> None:
        self.orders[order.number] = order
        if order.is_open():
            self.open[order.number] = order
        for line in order.lines:
            self.lines.setdefault(line.name, []).append((order, line))

    def end(self, order: Order, state: str) -> None:
        order.state = state
        del self.open[order.number]

    def plan_more(self, number: str, way: str, branch: str, article: str, quantity: str) -> Effect:
        order, name = self.open_order(int(number)), (branch, article)
        refuse(order.state == FIRM, "Firm")
        refuse(order.kind == TRANSFER, "TransferFixed")
        self.field_at(name)
        line = order.line_on(name)
        refuse(line is not None and line.way != way, "OtherWay")
        refuse(line is None and len(order.lines) == LINES, "TooManyLines")
        self.check_room(name, way, int(quantity))

        def hold() -> None:
            there = line or Line(name, way, 0)
            if there is not line:
                order.lines.append(there)
                self.lines.setdefault(name, []).append((order, there))
            there.held += int(quantity)

        return hold

    def lines_of(self, number: str, name: Name, quantity: str) -> list[Line]:
        """The lines that a use or a release of so many pieces acts on."""
        order = self.open_order(int(number))
        line = order.line_on(name)
        if line is None:
            raise Refused("NotHeld", 0)
        refuse(int(quantity) > line.unused(), "OverUse")
        return order.together(line)

    def plan_use(self, number: str, branch: str, article: str, quantity: str) -> Effect:
        lines = self.lines_of(number, (branch, article), quantity)

        def use() -> None:
            for line in lines:
                line.used += int(quantity)

        return use

    def plan_release(self, number: str, branch: str, article: str, quantity: str) -> Effect:
        lines = self.lines_of(number, (branch, article), quantity)

        def release() -> None:
            for line in lines:
                line.held -= int(quantity)

        return release

    def plan_end(self, number: int, state: str) -> Effect:
        order = self.open_order(number)
        refuse(state == ABORTED and order.state == FIRM, "Firm")
        return lambda: self.end(order, state)

    def plan_firm(self, number: str) -> Effect:
        order = self.open_order(int(number))
        refuse(order.state == FIRM, "Firm")

        def make_firm() -> None:
            order.state = FIRM
            self.firms.add(order.number)

        return make_firm

"""A deal between desks: at each desk there is an order of the same number, and the first desk's order decides. All that there is
to know stands in these orders, and nobody keeps notes. So a deal may be left anywhere, and may be taken up by anybody, also by
several at once.

Each command rests on facts that stay once they are so; so it may come late, or twice:

    open at another desk      the order is at the first desk
    use at another desk
    use at the first desk     all others have used all
    commit at the first desk  it has used all, and so have all others: the decision
    commit at another desk    the first's is committed
    abort at the first desk
    abort at another desk     the first's is aborted"""

import hashlib
from collections.abc import Sequence
from dataclasses import dataclass, replace

from stockdesk_remote import Desk, NoAnswer, Told

# the numbers of deals, which no other order has
LEAST, MOST = 900_000_000, 999_999_999

# The moment of the other desks' orders. Only an expiry at that moment ends them, and nobody sends one. The first desk's order has
# an earlier moment, by which it is known.
NEVER = 4_000_000_000
LATEST = NEVER - 1

OPEN, COMMITTED, ABORTED = "open", "committed", "aborted"

# refusals by what somebody else has done, or has ended, meanwhile: the orders say what
LOOK_AGAIN = {"KeyReused", "NoOrder", "Ended", "NotHeld", "OverUse", "Firm"}

# after so many looks a deal is taken to come to no end
MOST_LOOKS = 100
MOST_KEYS = 10


class Foreign(Exception):
    """Somebody else has used the number: nothing more is done, and a person has to look."""


@dataclass(frozen=True)
class Line:
    """What a deal takes or adds on a field."""

    way: str
    branch: str
    article: str
    quantity: int

    def __str__(self) -> str:
        return f"{self.way} {self.branch} {self.article} {self.quantity}"


Lines = tuple[Line, ...]


@dataclass(frozen=True)
class Order:
    """A deal's order at one desk, and which of its lines have used all that they hold."""

    state: str
    until: int
    lines: Lines
    used: tuple[bool, ...]

    @property
    def is_first(self) -> bool:
        return self.until != NEVER

    @property
    def has_used_all(self) -> bool:
        return all(self.used)

    @property
    def is_rolled(self) -> bool:
        """Whether a roll has taken from its lines what they had used."""
        return not all(line.quantity for line in self.lines)


@dataclass(frozen=True)
class Step:
    """A command that is due at a desk; desk 0 is the first. A use is on a line, counted from 1."""

    side: int
    verb: str
    line: int = 0


def order_of(told: Told) -> Order:
    """An order that a desk shows. Foreign: no deal has such an order."""
    lines = told["lines"]
    is_a_deals = told["kind"] == "plain" and told["state"] in (OPEN, COMMITTED, ABORTED)
    if not is_a_deals or any(line["used"] not in (0, line["held"]) for line in lines):
        raise Foreign(f"is no deal's: {told}")
    holds = tuple(Line(line["way"], line["branch"], line["article"], line["held"]) for line in lines)
    return Order(told["state"], told["until"], holds, tuple(line["used"] == line["held"] for line in lines))


def next_step(orders: Sequence[Order | None], goes_on: bool, holds: bool = False) -> Step | None:
    """What is due at the desks, the first of which is in front; nothing where the deal has ended, or is held. A caller who does
    not know what the deal is to do does not go on with it, unless only the decision is left."""
    first = orders[0]
    if first is None:
        return Step(0, "open") if goes_on else None
    if first.state != OPEN:
        verb = "commit" if first.state == COMMITTED else "abort"
        left = [side for side, order in enumerate(orders) if order and order.state == OPEN]
        return Step(left[0], verb) if left else None
    if any(order and order.state != OPEN for order in orders):
        return Step(0, "abort")
    if first.has_used_all:
        return Step(0, "commit")
    return forward(orders, holds) if goes_on else Step(0, "abort")


def forward(orders: Sequence[Order | None], holds: bool) -> Step | None:
    """What is due before the decision."""
    lacking = [side for side, order in enumerate(orders) if order is None]
    if lacking:
        return Step(lacking[0], "open")
    if holds:
        return None
    # the first desk's line last: once it has used, everybody knows that all others have
    turns = [*range(1, len(orders)), 0]
    unused = [(side, order.used.index(False)) for side in turns if (order := orders[side]) and not order.has_used_all]
    return Step(unused[0][0], "use", unused[0][1] + 1)


def fault_of(early: Order | None, first: Order | None, late: Order | None) -> str | None:
    """Why somebody else was at work on the order of another desk, which was seen before the first desk's order and after it; None
    where nobody was."""
    if first is None:
        return "is there, but not at the first desk" if early else None
    if not first.is_first or (late and late.is_first):
        return f"is until {late and late.until}, and at the first desk until {first.until}: the first is another desk"
    if early and early.state == COMMITTED != first.state:
        return f"is committed, but {first.state} at the first desk"
    if (first.state == COMMITTED or any(first.used)) and not (late and late.has_used_all):
        return f"has not used all, but the first desk's is {first.state} and has"
    if first.state == COMMITTED and late and late.state == ABORTED:
        return "is aborted, but committed at the first desk"
    return None


def key_of_opening(number: int, *sides: Lines) -> str:
    """The key under which an order of this deal alone is opened. At the first desk it comes from what the deal does at all desks;
    at another desk, from what it does at the first."""
    first, *others = [" ".join(map(str, lines)) for lines in sides]
    digest = hashlib.sha256("\n".join([first, *sorted(others)]).encode()).hexdigest()
    return f"between-{number}-{digest[:16]}"


def keys_of(key: str) -> list[str]:
    """The keys under which a command may be done, in turn: its own, and others for where that was taken for something else."""
    return [key, *(f"{key}-{count}" for count in range(2, MOST_KEYS + 1))]


@dataclass
class Side:
    """A desk of a deal, what the deal does there if that is known, and its order as it was seen last. `is_ours` says that the
    order is known to be this deal's; `away` says why a desk that does not answer is unknown."""

    desk: Desk
    lines: Lines | None = None
    order: Order | None = None
    is_ours: bool = False
    away: NoAnswer | None = None


@dataclass(frozen=True)
class End:
    """How a deal ended, and why."""

    word: str
    why: str = ""


class Deal:
    """A deal at its desks, the first in front. Where it is not known what the deal is to do, it is only brought to an end."""

    def __init__(self, number: int, sides: Sequence[Side], until: int = LATEST, holds: bool = False):
        self.number, self.sides, self.until, self.holds = number, sides, until, holds
        self.terms = [side.lines for side in sides if side.lines is not None]
        self.goes_on = len(self.terms) == len(sides)

    def is_held(self) -> bool:
        """Whether the deal, as it was seen, waits for a moment: nothing is used, and an expiry at its first desk will end it."""
        orders = [side.order for side in self.sides if side.order]
        is_idle = not any(any(order.used) for order in orders)
        return is_idle and all(order.state == OPEN and order.until != LATEST for order in orders)

    # ---- what the desks show

    def seen(self, side: Side) -> Order | None:
        told = side.desk.order(self.number)
        try:
            order = order_of(told) if told else None
        except Foreign as fault:
            raise self.foreign(side, str(fault)) from fault
        return self.with_all_held(side, order) if order and order.is_rolled else order

    def with_all_held(self, side: Side, order: Order) -> Order:
        """An order that was committed before a roll, with what its lines held before: as much as the deal used of them."""
        lines = [line if line.quantity else self.used_on(side, nr, line) for nr, line in enumerate(order.lines, 1)]
        return replace(order, lines=tuple(lines))

    def used_on(self, side: Side, nr: int, line: Line) -> Line:
        """A line with what the deal's command has used on it; as it is, where the desk has forgotten that command."""
        for key in keys_of(f"between-{self.number}-use-{nr}"):
            told = side.desk.shown(f"/v1/keys/{key}")
            words = str(told["command"]).split() if told else []
            if words[:4] == ["use", str(self.number), line.branch, line.article]:
                return replace(line, quantity=int(words[4]))
            if not told:
                break
        return line

    def seen_if_there(self, side: Side) -> Order | None:
        """The order at a desk, or None where the desk does not answer."""
        side.away = None
        try:
            return self.seen(side)
        except NoAnswer as fault:
            side.away = fault
            return None

    def foreign(self, side: Side, why: str) -> Foreign:
        return Foreign(f"order {self.number} at {side.desk.name} {why}")

    def look(self) -> None:
        """Looks at all orders: at those of the other desks before the first desk's, since they are opened after it, and again
        after it, since what it has used, and how it ended, rests on them. NoAnswer: the first desk does not answer."""
        first, *others = self.sides
        early = [self.seen_if_there(side) for side in others]
        first.order = self.seen(first)
        self.expect_ours(first)
        for side, before in zip(others, early):
            if not side.away:
                side.order = self.seen_if_there(side) if first.order else before
            if side.away:
                self.leave_out(side, side.away)
                continue
            if why := fault_of(before, first.order, side.order):
                raise self.foreign(side, why)
            self.expect_ours(side)

    def expect_ours(self, side: Side) -> None:
        """Foreign: the desk's order of this number is another deal's."""
        if side.order is None or side.is_ours:
            return
        key = self.key_of(side)
        is_other = side.lines is not None and side.lines != side.order.lines
        if is_other or (key and not side.desk.has_kept(key)):
            raise self.foreign(side, "is another deal's")
        side.is_ours = True

    def key_of(self, side: Side) -> str | None:
        """The key under which the desk's order is opened; None at the first desk, where it is not known what the deal is to
        do."""
        first = self.sides[0]
        if side is first:
            return key_of_opening(self.number, *self.terms) if self.goes_on else None
        lines = first.order.lines if first.order else first.lines
        return key_of_opening(self.number, lines) if lines else None

    def leave_out(self, side: Side, fault: NoAnswer) -> None:
        """Goes on without a desk that does not answer. NoAnswer: it is the first desk."""
        if side is self.sides[0]:
            raise fault
        side.away, side.order = fault, None

    def expect_all(self) -> None:
        """NoAnswer: not all desks have answered."""
        for side in self.sides:
            if side.away:
                raise side.away

    # ---- what is done there

    def command_of(self, step: Step) -> tuple[str, str]:
        """The key and the spelling of the command of a step."""
        side = self.sides[step.side]
        if step.verb == "open":
            until = NEVER if step.side else self.until
            return str(self.key_of(side)), f"open {self.number} {until} {' '.join(map(str, side.lines or ()))}"
        if step.verb == "use":
            assert side.order
            line = side.order.lines[step.line - 1]
            words = f"use {self.number} {line.branch} {line.article} {line.quantity}"
            return f"between-{self.number}-use-{step.line}", words
        return f"between-{self.number}-{step.verb}", f"{step.verb} {self.number}"

    def send(self, step: Step) -> Told | None:
        """Carries a step out; under another key where its own was taken for something else. Returns the refusal where it is
        refused. Foreign: the number is taken by an order that was opened under no key of this deal."""
        key, command = self.command_of(step)
        side = self.sides[step.side]
        for each in keys_of(key):
            refusal = side.desk.send(each, command)
            # an order that is opened under the deal's key with another moment is this deal's
            if not refusal or refusal["refused"] != "KeyReused" or step.verb == "open":
                break
        if refusal and refusal["refused"] == "OrderThere":
            raise self.foreign(side, "is another deal's")
        return refusal

    def note(self, step: Step) -> None:
        """Notes what is known once a step is done."""
        side = self.sides[step.side]
        if step.verb == "open":
            lines = side.lines or ()
            side.order = Order(OPEN, NEVER if step.side else self.until, lines, (False,) * len(lines))
            side.is_ours = True
            return
        assert side.order
        if step.verb == "use":
            used = tuple(is_used or nr == step.line for nr, is_used in enumerate(side.order.used, 1))
            side.order = replace(side.order, used=used)
        else:
            side.order = replace(side.order, state=COMMITTED if step.verb == "commit" else ABORTED)

    def carry(self) -> End:
        """Carries the deal to its end, or, where it is to be held, until all its orders are open. NoAnswer: a desk has not
        answered. Then the deal is carried to its end at the other desks where it is decided, and given up where it is not."""
        why = ""
        self.look()
        looks = 1
        while looks <= MOST_LOOKS:
            step = next_step([side.order for side in self.sides], self.goes_on, self.holds)
            if step is None or self.wants_all(step):
                self.expect_all()
            if step is None:
                return self.end(why)
            try:
                refusal = self.send(step)
            except NoAnswer as fault:
                self.leave_out(self.sides[step.side], fault)
                continue
            if refusal is None:
                self.note(step)
                if step == Step(0, "abort"):
                    why = why or "it was given up, since not all desks were ready"
                continue
            if refusal["refused"] not in LOOK_AGAIN:
                why = why or self.told(step, refusal)
                if self.sides[0].order is None:
                    return End("not moved", why)
                # given up, at the first desk first: once that has aborted, nobody can decide otherwise
                self.send(Step(0, "abort"))
            self.look()
            looks += 1
        raise Foreign(f"order {self.number} comes to no end")

    def wants_all(self, step: Step) -> bool:
        """Whether a step waits for desks that do not answer. It does not wait where the first desk's order has ended, or ends by
        this step without a decision."""
        first = self.sides[0].order
        return step.verb != "abort" and (first is None or first.state == OPEN)

    def told(self, step: Step, refusal: Told) -> str:
        line = f", line {refusal['line']}" if refusal["line"] else ""
        return f"{self.sides[step.side].desk.name} refuses to {step.verb} it: {refusal['refused']}{line}"

    def end(self, why: str) -> End:
        """How the deal has ended, where nothing is due."""
        first = self.sides[0].order
        if first is None:
            return End("not moved", "no desk has begun it")
        if first.state == ABORTED:
            return End("not moved", why or "somebody gave it up, or its moment has come")
        return End("moved" if first.state == COMMITTED else "held")


def found_deal(number: int, desks: Sequence[Desk]) -> Deal | None:
    """The deal of which some of these desks have orders, or None where none has. Desks that do not answer may be its, too.
    Foreign: none of these desks is its first, or two are. NoAnswer: its first may be one that does not answer."""
    sides: list[Side] = []
    # again, where the first desk's order was not there yet when the desk was asked
    for _ in range(2):
        whole = Deal(number, [Side(desk) for desk in desks])
        for side in whole.sides:
            side.order = whole.seen_if_there(side)
        sides = [side for side in whole.sides if side.order or side.away]
        firsts = [side for side in sides if side.order and side.order.is_first]
        if firsts:
            break
        whole.expect_all()
        if not sides:
            return None
    names = ", ".join(side.desk.name for side in (firsts or sides))
    if not firsts:
        raise Foreign(f"order {number} is at {names}, whose first desk is none of those named, or has forgotten it")
    if len(firsts) > 1:
        raise Foreign(f"order {number} is of several deals, with the first desks {names}")
    others = [side for side in sides if side is not firsts[0]]
    return Deal(number, [firsts[0], *others])

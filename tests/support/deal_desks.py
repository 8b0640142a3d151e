"""Desks by the rules for tests of deals: what they answer over HTTP, also with few places left, and how a deal stands on them."""

import json
from collections.abc import Iterable, Sequence
from random import Random
from typing import Any

from support.messages import answer_to
from support.rolls import KEYS, rolled_by_rules
from support.rows import desk_of, tables_by
from support.rules import ABORTED, COMMITTED, OPEN, PLACES, Order, Rules

# the number of a deal, the moment until which its first desk may wait for it, and the upper bound of its fields
NUMBER = 900_000_001
MOMENT = 500
ROOM = 100

NONE = 404, {"error": "none"}
SHOWN_AT_ONCE = 50

# an answer over HTTP: its status and its object
Told = tuple[int, dict[str, Any]]


class Places(Rules):
    """A desk by the rules; some of its places are taken already."""

    def __init__(self, taken: int = 0, places: int = PLACES):
        super().__init__(places)
        self.kept = {f"R{number}": (number, "expire 0") for number in range(1, taken + 1)}

    def roll(self, keys: int = KEYS) -> None:
        """Rolls the desk up."""
        vars(self).update(vars(desk_of(rolled_by_rules(tables_by(self), keys))) | {"places": self.places})

    def keys_since(self, number: int) -> int:
        """How many keys are those of the commands from the first on that names a deal."""
        return (
            len(self.kept) + 1 - min((at for at, words in self.kept.values() if str(number) in words), default=len(self.kept) + 1)
        )

    def does(self, key: str, command: str) -> Told:
        """Carries out a command, and answers it."""
        told = self.would(key, command)
        self.took(key, command, told)
        return told

    def would(self, key: str, command: str) -> Told:
        return answer_to(self.reply(f"{key} {command}"))

    def took(self, key: str, command: str, told: Told) -> None:
        """The command was answered so: carries it out if it was accepted and is new."""
        if told[0] == 200 and key not in self.kept:
            self.carry_out(key, command)

    def shows(self, target: str) -> Told:
        """The answer to a view, for the views that carriers ask for."""
        _, version, view, *names = target.split("/")
        assert version == "v1"
        if view == "keys":
            place, words = self.kept.get(names[0], (0, ""))
            return (200, {"command": words, "place": place}) if place else NONE
        if view == "desk":
            counts = {"fields": len(self.fields), "open": len(self.open), "orders": len(self.orders), "places": len(self.kept)}
            return 200, {"clock": self.clock, **counts}
        if view == "open":
            return 200, {"orders": self.open_above(int(names[0]))}
        return answer_to(self.reply(" ".join(["?", view.removesuffix("s"), *names])))

    def open_above(self, number: int) -> list[dict[str, Any]]:
        found = sorted(each for each in self.open if each > number)
        return [self.shows(f"/v1/orders/{each}")[1] for each in found[:SHOWN_AT_ONCE]]

    def answers(self, method: str, target: str, body: str | None) -> Told:
        """The answer to a message, which is carried out."""
        if method == "GET":
            return self.shows(target)
        return self.does(*command_in(body))


def command_in(body: str | bytes | None) -> tuple[str, str]:
    """The key and the command of a message."""
    told = json.loads(body or "{}")
    return told["key"], told["command"]


def is_all_used(order: Order | None) -> bool:
    return order is not None and all(line.used == line.held for line in order.lines)


def fault(desks: Sequence[Rules], number: int = NUMBER) -> str | None:
    """What is wrong where what a deal has moved is neither all, nor nothing, nor under way, or where the deal may stay open for
    ever; else None."""
    first, *others = [desk.orders.get(number) for desk in desks]
    if first is None:
        return "an order at another desk alone" if any(others) else None
    if first.state != COMMITTED:
        return "doubled" if any(order and order.state == COMMITTED for order in others) else None
    ready = [is_all_used(order) and order is not None and order.state in (OPEN, COMMITTED) for order in others]
    return None if is_all_used(first) and all(ready) else "lost"


def is_moved(desks: Sequence[Rules], number: int = NUMBER) -> bool:
    """Whether all is moved by a deal that has ended. AssertionError: it has not ended."""
    found = [desk.orders.get(number) for desk in desks]
    states = {order.state for order in found if order}
    moved = states == {COMMITTED} and all(found)
    assert moved or states <= {ABORTED}, f"a deal stays {states}"
    return moved


def bounds_fault(desks: Iterable[Rules]) -> str | None:
    """A field that some outcome of the open orders would lead out of its bounds, or None."""
    for desk in desks:
        for name, field in desk.fields.items():
            value, inf, sup = desk.numbers(name)
            if not field.lo <= inf <= value <= sup <= field.hi:
                return f"{name}: {field} {inf} {value} {sup}"
    return None


def words_of(number: int, article: int) -> str:
    """The branch and the article of a desk's field."""
    return f"N{number} A-{article}"


def others_command(chance: Random, number: int, expires: bool) -> str:
    """A command of somebody else on the fields that a deal has at a desk; or an expiry, but never to the moment that nobody
    sends."""
    words, order = words_of(number, chance.choice([1, 1, 2])), chance.randint(1, 4)
    moves = [f"{verb} {words} {chance.randint(1, 9)}" for verb in ("deliver", "writeoff")]
    opens = [f"open {order} 3999999999 {way} {words} {chance.randint(1, 4)}" for way in ("take", "add")]
    ends = [f"use {order} {words} 1", f"commit {order}", f"abort {order}", f"firm {order}"]
    expiries = [f"expire {chance.choice([MOMENT - 1, MOMENT, 3_999_999_999])}"]
    return chance.choice(moves + opens + ends + expiries * expires)


def fill(desk: Any, words: str, chance: Random) -> None:
    """Takes all places of a desk that are not set aside."""
    while desk.does(f"L{chance.getrandbits(60)}", f"rebound {words} 0 {ROOM}")[0] == 200:
        pass

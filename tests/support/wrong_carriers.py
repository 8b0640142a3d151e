"""Carriers of deals, each wrong in one thing: edits of the carrier's module."""

import os
import sys
import types

from support import DEPLOY

SOURCE = os.path.join(DEPLOY, "stockdesk_deals.py")
FIRST_LOOK = """        early = [self.seen_if_there(side) for side in others]
        first.order = self.seen(first)
"""

# for each wrong carrier its name, and each text that is replaced with the text in its place
WRONG: dict[str, list[tuple[str, str]]] = {
    "opens at another desk before the order is at the first": [
        ('return Step(0, "open") if goes_on else None', 'return Step(len(orders) - 1, "open") if goes_on else None'),
    ],
    "uses at the first desk before all others have used all": [
        ("turns = [*range(1, len(orders)), 0]", "turns = range(len(orders))")
    ],
    "commits at the first desk before it has used all": [
        ("if first.has_used_all:", "if all(order and order.has_used_all for order in orders[1:]):"),
    ],
    "commits at the first desk before another has used all": [("if first.has_used_all:", "if all(orders):")],
    "commits at another desk before the first's is committed": [
        ('return Step(0, "commit")', 'return Step(len(orders) - 1, "commit")'),
    ],
    "aborts at another desk before the first's is aborted": [
        ('self.send(Step(0, "abort"))', 'self.send(Step(1, "abort"))'),
    ],
    "takes up by an abort at another desk before the first's is aborted": [
        ('else Step(0, "abort")', 'else Step(len(orders) - 1, "abort")'),
    ],
    "opens at another desk until a moment that an expiry may have": [
        ("until = NEVER if step.side else self.until", "until = self.until"),
        ("NEVER if step.side else self.until, lines", "self.until, lines"),
        ("if not first.is_first or (late and late.is_first):", "if False:"),
        ("firsts = [side for side in sides if side.order and side.order.is_first]", "firsts = sides[:1]"),
    ],
    "goes on without knowing of all desks": [
        ('return forward(orders, holds) if goes_on else Step(0, "abort")', "return forward(orders, holds)"),
    ],
    "takes an order that has ended for one that did what it was told": [
        (
            "if refusal is None:\n                self.note",
            'if refusal is None or refusal["refused"] == "Ended":\n                self.note',
        ),
    ],
    "sees the others only before the first desk": [
        ("side.order = self.seen_if_there(side) if first.order else before", "side.order = before"),
    ],
    "sees the others only behind the first desk": [
        (FIRST_LOOK, "        first.order = self.seen(first)\n        early = [self.seen_if_there(side) for side in others]\n"),
    ],
    "takes another deal's order for its own": [("if is_other or (key and not side.desk.has_kept(key)):", "if is_other:")],
    "does not know an order that a roll has changed": [("if order and order.is_rolled else order", "if False else order")],
    "leaves the orders of a deal that is given up": [
        ("left = [side for side, order in enumerate(orders) if order and order.state == OPEN]", "left = []"),
    ],
}


def edited(name: str) -> types.ModuleType:
    """The module of a wrong carrier."""
    with open(SOURCE, encoding="utf-8") as file:
        text = file.read()
    for old, new in WRONG[name]:
        assert text.count(old) == 1, f"{name}: {text.count(old)} times {old!r}"
        text = text.replace(old, new)
    module = types.ModuleType(f"wrong_{list(WRONG).index(name)}")
    # a dataclass looks its module up there
    sys.modules[module.__name__] = module
    exec(compile(text, SOURCE, "exec"), module.__dict__)
    return module

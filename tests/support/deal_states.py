"""All states of a deal's orders that can be reached where each command may come at any moment at which its guard holds: with all
guards, or with one left out. An order is None, or its state and whether it has used all that it holds; that of the first desk
stands first."""

from collections.abc import Callable, Iterator

from stockdesk_deals import ABORTED, COMMITTED, OPEN, Step

Order = tuple[str, bool] | None
Orders = tuple[Order, ...]
Guard = Callable[[Orders], bool]

# the expiry that nobody sends
EXPIRE = "expire"

# for each guard the verb of its command, and whether it is for desks other than the first
GUARDS: dict[str, tuple[str, bool, Guard]] = {
    "the order is at the first desk, before one is opened at another": ("open", True, lambda orders: orders[0] is not None),
    "all others have used all, before the first desk's order uses": (
        *("use", False),
        lambda orders: all(order is not None and order[1] for order in orders[1:]),
    ),
    "the first desk's order has used all, before its commit": (
        *("commit", False),
        lambda orders: orders[0] is not None and orders[0][1],
    ),
    "the first desk's is committed, before another is": ("commit", True, lambda orders: is_now(orders[0], COMMITTED)),
    "the first desk's is aborted, before another is": ("abort", True, lambda orders: is_now(orders[0], ABORTED)),
    "no expiry ends another desk's": (EXPIRE, True, lambda orders: False),
}


def is_now(order: Order, state: str) -> bool:
    return order is not None and order[0] == state


def has_guards(step: Step, orders: Orders, without: str | None = None) -> bool:
    """Whether it is right to send this now."""
    kept = [guard for name, guard in GUARDS.items() if name != without]
    return all(test(orders) for verb, of_others, test in kept if (verb, of_others) == (step.verb, step.side > 0))


def done(step: Step, orders: Orders) -> Orders | None:
    """The orders after a command, or None where a desk refuses it."""
    order = orders[step.side]
    if step.verb == "open":
        new = (OPEN, False) if order is None else None
    elif order is None or order[0] != OPEN:
        new = None
    elif step.verb == "use":
        new = None if order[1] else (OPEN, True)
    else:
        new = (COMMITTED if step.verb == "commit" else ABORTED, order[1])
    return new and (*orders[: step.side], new, *orders[step.side + 1 :])


def all_steps(desks: int) -> list[Step]:
    verbs = ["open", "use", "commit", "abort", EXPIRE]
    return [Step(side, verb, int(verb == "use")) for side in range(desks) for verb in verbs]


def after(orders: Orders, without: str | None = None) -> Iterator[Orders]:
    """The states after one command more."""
    for step in all_steps(len(orders)):
        found = done(step, orders) if has_guards(step, orders, without) else None
        if found:
            yield found


def fault(orders: Orders) -> str | None:
    """What is wrong with a state: it is neither all, nor nothing, nor under way; or no command may end an order."""
    first, *others = orders
    if first is None:
        return "an order at another desk alone: nothing may end it" if any(others) else None
    if first[0] != COMMITTED:
        return "doubled" if any(is_now(order, COMMITTED) for order in others) else None
    if not first[1]:
        return "committed, and not all is moved"
    ready = [order is not None and order[1] and order[0] in (OPEN, COMMITTED) for order in others]
    return None if all(ready) else "lost"


def reached(desks: int, without: str | None = None) -> tuple[list[Orders], str | None]:
    """The states that can be reached, and the first fault among them, after which the search stops."""
    start: Orders = (None,) * desks
    ways = [start]
    seen = {start}
    for orders in ways:
        if why := fault(orders):
            return ways, why
        new = [found for found in after(orders, without) if found not in seen]
        seen.update(new)
        ways += dict.fromkeys(new)
    return ways, None


def futures(ways: list[Orders]) -> dict[Orders, list[Orders]]:
    """For each state, itself and all that can be reached from it."""
    found: dict[Orders, list[Orders]] = {}
    for orders in ways:
        later = {orders: None}
        todo = [orders]
        for here in todo:
            new = [each for each in after(here) if each not in later]
            later.update(dict.fromkeys(new))
            todo += dict.fromkeys(new)
        found[orders] = list(later)
    return found

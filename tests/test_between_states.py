"""Tests of what `stockdesk-between` decides, in all states in which a deal of up to three desks can be. It keeps the guards, also
where what it has seen of one desk is older than what it has seen of another; each deal comes to an end; and no guard can be left
out."""

import itertools
import unittest

from support.deal_states import GUARDS, Orders, after, all_steps, done, fault, futures, has_guards, reached
from support.programs import expect, note

import stockdesk_deals as deals
from stockdesk_deals import ABORTED, COMMITTED, LATEST, NEVER, Order, Step

LINES = (deals.Line("take", "N1", "A-1", 7),)
MOST_STEPS = 20


def seen(orders: Orders) -> list[Order | None]:
    """The orders as a carrier sees them."""
    return [order and Order(order[0], NEVER if side else LATEST, LINES, (order[1],)) for side, order in enumerate(orders)]


def due(orders: Orders, goes_on: bool) -> Step | None:
    """The step that a carrier takes who sees this. A carrier who does not know the deal knows of no desk without an order."""
    sides = [side for side, order in enumerate(orders) if goes_on or order or side == 0]
    found = seen(orders)
    step = deals.next_step([found[side] for side in sides], goes_on)
    return step and Step(sides[step.side], step.verb, step.line)


def ended(orders: Orders, goes_on: bool) -> Orders:
    """To which state a carrier brings a deal that is in this state."""
    for _ in range(MOST_STEPS):
        step = due(orders, goes_on)
        if step is None:
            return orders
        behind = done(step, orders)
        assert behind is not None, f"{step} is refused in {orders}"
        orders = behind
    raise AssertionError(f"no end: {orders}")


class States(unittest.TestCase):
    def test_all_guards_are_enough_and_each_is_needed(self):
        for desks in (2, 3):
            ways, why = reached(desks)
            expect(why is None, f"{desks} desks: {why}")
            note(f"{desks} desks: {len(ways)} states")
            for guard in GUARDS:
                expect(reached(desks, guard)[1] is not None, f"{desks} desks: not needed: {guard}")

    def test_what_is_right_to_send_stays_so(self):
        """So it does not matter how late a command comes, nor from whom."""
        ways, _ = reached(3)
        for orders, step in itertools.product(ways, all_steps(3)):
            if has_guards(step, orders):
                expect(all(has_guards(step, behind) for behind in after(orders)), f"{step} in {orders}")

    def test_a_carrier_keeps_the_guards(self):
        """The carrier has seen the others at one moment, then the first desk, and then the others again: it finds no other hand,
        and what it sends then is right."""
        count = 0
        for desks in (2, 3):
            later = futures(reached(desks)[0])
            for early in later:
                for middle, late in ((middle, late) for middle in later[early] for late in later[middle]):
                    view = (middle[0], *(late if middle[0] else early)[1:])
                    faults = [deals.fault_of(*each) for each in zip(seen(early)[1:], [seen(middle)[0]] * 2, seen(view)[1:])]
                    expect(not any(faults), f"{faults}: {early} {middle} {late}")
                    for goes_on in (True, False):
                        step = due(view, goes_on)
                        expect(step is None or has_guards(step, late), f"{step} by {view} in {late}")
                        count += step is not None
        expect(count > 1_000, f"only {count} steps")
        note(f"{count:,} steps")

    def test_each_deal_comes_to_an_end(self):
        """This holds from every state: a carrier who knows the deal moves all, unless it was given up; one who does not know it
        moves all or nothing; and no order stays open."""
        for desks in (2, 3):
            for orders in reached(desks)[0]:
                is_over = orders[0] is not None and orders[0][0] == ABORTED
                for goes_on in (True, False):
                    states = {order and order[0] for order in ended(orders, goes_on)}
                    expect(states - {None} <= {COMMITTED} or states - {None} == {ABORTED}, f"{states} behind {orders}")
                    expect(not goes_on or (states == {COMMITTED}) != is_over, f"{states} behind {orders}")
                    expect(fault(ended(orders, goes_on)) is None, f"{states} behind {orders}")

    def test_a_deal_that_is_held_waits(self):
        ways, _ = reached(3)
        for orders in ways:
            if all(order == ("open", False) for order in orders):
                expect(deals.next_step(seen(orders), True, holds=True) is None, "it goes on")
                expect(deals.next_step(seen(orders), True) == Step(1, "use", 1), "it does not go on")
                return
        raise AssertionError("no such state")

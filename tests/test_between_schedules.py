"""Tests of `stockdesk-between` in threads, before desks by the rules: at each message chance stops, delays and doubles, and has
others at work. So carriers that are wrong in one thing are found out. In the environment BETWEEN_SCHEDULES says how many runs
there are."""

import os
import unittest
from collections.abc import Callable
from dataclasses import astuple
from types import ModuleType

from support.deal_desks import NUMBER, Places, is_moved
from support.deal_schedules import Carrier, Counts, Message, Run, Wire, play
from support.programs import expect, note
from support.wrong_carriers import WRONG, edited

import stockdesk_deals as deals
from stockdesk_deals import Foreign, Line
from stockdesk_remote import NoAnswer

RUNS = 300
# within so many runs each wrong carrier is found out, but for one that only rare turns find out, and one that only another deal
# finds out
MOST = 3_000
RARE = "aborts at another desk before the first's is aborted"
MIXED = "takes another deal's order for its own"

# how far a deal of three desks has come: commands behind its opening, each with its desk
USED = [(desk, f"use {NUMBER} N{desk} A-1 7") for desk in (1, 2, 0)]
STAGES: dict[str, list[tuple[int, str]]] = {
    "opened": [],
    "in part used": USED[:1],
    "ready": USED,
    "decided": [*USED, (0, f"commit {NUMBER}")],
    "given up": [(0, f"abort {NUMBER}")],
}
# the deal's states while the last desk is away, behind a carrier that knows the deal and behind one that takes it up, and how the
# deal then ends by each
AWAY: dict[str, tuple[str, str, str, str]] = {
    "opened": ("open open open", "aborted aborted open", "committed", "aborted"),
    "in part used": ("open open open", "aborted aborted open", "committed", "aborted"),
    "ready": ("open open open", "open open open", "committed", "committed"),
    "decided": ("committed committed open", "committed committed open", "committed", "committed"),
    "given up": ("aborted aborted open", "aborted aborted open", "aborted", "aborted"),
}


def until(run: Run, carrier: Carrier, fact: Callable[[Message], bool]) -> None:
    """Has one carrier go on alone until it is about to send such a message."""
    while carrier.message and not fact(carrier.message):
        turn(run, carrier)


def turn(run: Run, carrier: Carrier) -> None:
    assert carrier.message
    carrier.answers.put(run.deliver(carrier.message))
    run.next_one()


def sends(desk: int, verb: str) -> Callable[[Message], bool]:
    return lambda message: message.desk == desk and f'"{verb} ' in (message.body or "")


def play_rare_turns(module: ModuleType) -> Run:
    """One carrier gives up, since the third desk lacks goods. Before its abort comes in, the goods come, and another carrier has
    all used."""
    run = Run("rare", Counts(), module)
    run.terms, run.desks = [(module.Line("take", f"N{desk}", "A-1", 5),) for desk in range(3)], []
    for desk, start in enumerate([40, 40, 0]):
        run.desks.append(Places())
        run.desks[desk].does("F", f"field N{desk} A-1 0 100 {start}")
    gives_up, goes_on = Carrier(run.knows, run.told), Carrier(run.knows, run.told)
    for carrier in (goes_on, gives_up):
        carrier.start()
        run.next_one()
    until(run, goes_on, sends(2, "open"))
    until(run, gives_up, lambda message: '"abort ' in (message.body or ""))
    run.desks[2].does("D", "deliver N2 A-1 5")
    until(run, goes_on, sends(0, "commit"))
    turn(run, gives_up)
    for carrier in (goes_on, gives_up):
        until(run, carrier, lambda message: False)
        expect(carrier.fault is None, f"{carrier.fault}")
    return run


class Direct(Wire):
    """A desk that answers at once, except while it is away."""

    def __init__(self, name: str, desk: Places):
        self.name, self.desk, self.is_away = name, desk, False

    def ask(self, method, target, body=None):
        if self.is_away:
            raise NoAnswer(f"no answer of {self.name}")
        return self.desk.answers(method, target, body)


class Going(Direct):
    """A desk that is away from the first commit on."""

    def ask(self, method, target, body=None):
        self.is_away = self.is_away or '"commit ' in (body or "")
        return super().ask(method, target, body)


class Coming(Direct):
    """A desk that is away when it is asked first; when it is asked the next time, something is done."""

    def __init__(self, name: str, desk: Places, act: Callable[[], object]):
        super().__init__(name, desk)
        self.act, self.count = act, 0

    def ask(self, method, target, body=None):
        self.count += 1
        self.is_away = self.count == 1
        if self.count == 2:
            self.act()
        return super().ask(method, target, body)


def begun(desks: list[Places], *sides: tuple[int, Line], holds: bool = False, module: ModuleType = deals) -> deals.End:
    """A deal with that number at some of the desks, carried as far as it goes."""
    lines = [(module.Line(*astuple(line)),) for _, line in sides]
    there = [module.Side(Direct(f"desk {number}", desks[number]), each) for (number, _), each in zip(sides, lines)]
    return module.Deal(NUMBER, there, 500 if holds else deals.LATEST, holds).carry()


def three_desks() -> list[Places]:
    desks = [Places() for _ in range(3)]
    for number, desk in enumerate(desks):
        desk.does("F", f"field N{number} A-1 0 100 40")
    return desks


class Schedules(unittest.TestCase):
    def test_each_deal_is_done_whole_or_not_at_all(self):
        counts = Counts()
        for seed in range(int(os.environ.get("BETWEEN_SCHEDULES", RUNS))):
            play(seed, counts)
        expect(counts.found["runs moved"] and counts.found["runs not moved"], counts.text())
        expect(counts.found["looks at goods under way"], counts.text())
        note(counts.text())

    def test_wrong_carriers_are_found_out(self):
        """Each wrong carrier is found out within some runs: by what it moves, or since it takes what others do for another
        hand's."""
        for name in WRONG:
            if name in (RARE, MIXED):
                continue
            module, counts = edited(name), Counts()
            with self.assertRaises(AssertionError, msg=name):
                for seed in range(MOST):
                    play(seed, counts, module)

    def test_who_gives_up_does_so_at_the_first_desk(self):
        run = play_rare_turns(deals)
        expect(not is_moved(run.desks), "all is moved")
        with self.assertRaisesRegex(AssertionError, "lost"):
            play_rare_turns(edited(RARE))


class Numbers(unittest.TestCase):
    """A number belongs to one deal."""

    def test_a_number_is_not_carried_to_another_desk(self):
        """While a deal is open, or behind its end, carrying its number to another desk would move to both what is at its first
        desk."""
        for holds in (True, False):
            desks = three_desks()
            take = 0, Line("take", "N0", "A-1", 7)
            word = begun(desks, take, (1, Line("add", "N1", "A-1", 7)), holds=holds).word
            expect(word == ("held" if holds else "moved"), word)
            with self.assertRaisesRegex(Foreign, "another deal's"):
                begun(desks, take, (2, Line("add", "N2", "A-1", 7)))
            expect(NUMBER not in desks[2].orders, "opened at the third desk")

    def test_who_takes_another_deals_order_for_its_own_doubles_goods(self):
        desks, module = three_desks(), edited(MIXED)
        take, adds = (0, Line("take", "N0", "A-1", 7)), [(number, Line("add", f"N{number}", "A-1", 7)) for number in (1, 2)]
        begun(desks, take, adds[0], holds=True, module=module)
        begun(desks, take, adds[1], holds=True, module=module)
        for number in (1, 2):
            # as each carrier has done before the other decides
            expect(desks[number].does("U", f"use {NUMBER} N{number} A-1 7")[0] == 200, "not used")
        for add in adds:
            begun(desks, take, add, module=module)
        expect([desk.numbers((f"N{number}", "A-1"))[0] for number, desk in enumerate(desks)] == [33, 47, 47], "not doubled")

    def test_a_number_that_another_deal_has_at_one_desk_is_left_alone(self):
        """Two deals have other first desks: each finds the other's order at the desk that they share."""
        desks, add = three_desks(), (1, Line("add", "N1", "A-1", 7))
        begun(desks, (0, Line("take", "N0", "A-1", 7)), add, holds=True)
        with self.assertRaisesRegex(Foreign, "desk 1 is there, but not at the first desk"):
            begun(desks, (2, Line("take", "N2", "A-1", 7)), add)
        # the order at the third desk came first
        desks[2].does("K", f"open {NUMBER} 500 take N2 A-1 7")
        with self.assertRaisesRegex(Foreign, "desk 2 is another deal's"):
            begun(desks, (2, Line("take", "N2", "A-1", 7)), add)
        with self.assertRaisesRegex(Foreign, "of several deals"):
            deals.found_deal(NUMBER, [Direct(f"desk {number}", desk) for number, desk in enumerate(desks)])
        expect([desk.orders[NUMBER].state for desk in desks] == ["open"] * 3, "something was done")

    def test_a_deal_without_its_first_desk_is_left_alone(self):
        desks = three_desks()
        begun(desks, (0, Line("take", "N0", "A-1", 7)), (1, Line("add", "N1", "A-1", 7)), holds=True)
        with self.assertRaisesRegex(Foreign, "whose first desk is none of those named"):
            deals.found_deal(NUMBER, [Direct(f"desk {number}", desks[number]) for number in (1, 2)])
        expect(desks[1].orders[NUMBER].state == "open", "something was done")

    def test_the_same_words_find_the_same_deal(self):
        """The words may have the other desks in another order, or another moment, and may come behind the deal's end, which is
        then told again."""
        sides = [(number, Line("take", f"N{number}", "A-1", number + 1)) for number in range(3)]
        desks = three_desks()
        begun(desks, *sides, holds=True)
        for again in ([sides[0], sides[2], sides[1]], sides):
            expect(begun(desks, *again) == deals.End("moved"), "another end")
        expect([desk.numbers((f"N{number}", "A-1"))[0] for number, desk in enumerate(desks)] == [39, 38, 37], "other values")


class Away(unittest.TestCase):
    """Tests of a desk that is away. The other desks still get what is theirs: the end of a deal that is decided, and the abort of
    one that is not."""

    def setUp(self) -> None:
        self.there = [Direct(f"desk {number}", desk) for number, desk in enumerate(three_desks())]

    def begin(self, stage: str) -> None:
        sides = [(number, Line("take", f"N{number}", "A-1", 7)) for number in range(3)]
        begun([each.desk for each in self.there], *sides, holds=True)
        for count, (number, command) in enumerate(STAGES[stage]):
            expect(self.there[number].desk.does(f"K{count}", command)[0] == 200, f"{command} is refused")

    def states(self) -> str:
        return " ".join(each.desk.orders[NUMBER].state for each in self.there)

    def carry(self, knows: bool) -> None:
        sides = [deals.Side(each, (Line("take", f"N{number}", "A-1", 7),)) for number, each in enumerate(self.there)]
        deal = deals.Deal(NUMBER, sides, 500) if knows else deals.found_deal(NUMBER, self.there[::-1])
        assert deal
        deal.carry()

    def test_another_desk_is_away(self):
        for stage, (known, taken, *ends) in AWAY.items():
            for knows, states, end in zip((True, False), (known, taken), ends):
                self.setUp()
                self.begin(stage)
                self.there[2].is_away = True
                for _ in range(2):
                    self.assertRaisesRegex(NoAnswer, "of desk 2", self.carry, knows)
                    expect(self.states() == states, f"{stage}, {knows}: {self.states()}")
                self.there[2].is_away = False
                self.carry(knows)
                expect(self.states() == f"{end} {end} {end}", f"{stage}, {knows}: {self.states()}")

    def test_the_first_desk_is_away(self):
        """Then nothing is known, and nothing done."""
        for stage in AWAY:
            for knows in (True, False):
                self.setUp()
                self.begin(stage)
                before = self.states()
                self.there[0].is_away = True
                self.assertRaisesRegex(NoAnswer, "of desk 0", self.carry, knows)
                expect(self.states() == before, f"{self.states()}")

    def test_a_desk_goes_away_behind_the_decision(self):
        """The third desk's end does not wait for the second's."""
        self.begin("ready")
        self.there[1] = Going("desk 1", self.there[1].desk)
        self.assertRaisesRegex(NoAnswer, "of desk 1", self.carry, True)
        expect(self.states() == "committed open committed", f"{self.states()}")

    def test_a_deal_that_is_begun_while_it_is_looked_for(self):
        """An order at another desk alone is nobody's fault, where that desk was away when the first desk had none."""
        self.there[1] = Coming("desk 1", self.there[1].desk, lambda: self.begin("opened"))
        self.assertRaisesRegex(NoAnswer, "of desk 1", deals.found_deal, NUMBER, self.there)

    def test_nothing_is_begun_while_a_desk_is_away(self):
        for number in range(3):
            self.setUp()
            self.there[number].is_away = True
            self.assertRaisesRegex(NoAnswer, f"of desk {number}", self.carry, True)
            self.assertRaisesRegex(NoAnswer, f"of desk {number}", self.carry, False)
            expect(not any(each.desk.orders for each in self.there), "something was begun")

"""Tests of `stockdesk-between` before the built program: deals between two and three desks, at each of whose messages carriers
and desks are killed. In the environment BETWEEN_RUNS says how many runs there are by chance, beside those by rule, and
BETWEEN_SEED which: `BETWEEN_RUNS=5000 ./check tests between.Deals.test_by_chance` has 5,000."""

import os
from collections.abc import Iterable

from support.cases import ProgramCase, needs_strict_tables
from support.deal_runs import Case, Counts, by_chance, each_step, each_step_of_three, few_places, play
from support.deal_ways import Templates
from support.programs import expect, note

RUNS = 40
SEED = os.environ.get("BETWEEN_SEED", "1")
# at these steps a desk is filled up
FILLED = range(4, 10)


class Deals(ProgramCase):
    def setUp(self) -> None:
        super().setUp()
        self.templates = Templates(self.program, self.folder)

    def play(self, cases: Iterable[Case]) -> Counts:
        counts = Counts()
        for case in cases:
            play(self.templates, self.folder, case, SEED, counts)
        note(counts.text())
        return counts

    def test_a_deal_that_nobody_disturbs(self):
        """The deal has as many messages as the other runs count on."""
        for desks, messages in [(2, 10), (3, 15)]:
            counts = Counts()
            play(self.templates, self.folder, Case("whole", desks=desks), SEED, counts)
            # the last carrier asks, too, and finds that the deal has ended
            asked = counts.found["messages"] - (4 * desks - 1) - (desks - 1)
            expect(asked == messages, f"{asked} messages between {desks} desks")
            expect(counts.found["runs moved"] == 1, "not moved")

    def test_each_message_each_point_and_each_victim(self):
        counts = self.play(each_step())
        expect(counts.found["looks at goods under way"], "none was under way")

    def test_three_desks(self):
        self.play(each_step_of_three())

    @needs_strict_tables
    def test_desks_with_few_places(self):
        counts = self.play(few_places(FILLED))
        expect(counts.found["runs not moved"], "none was full")

    def test_by_chance(self):
        """There are several stops and carriers, others at work, expiries, little stock and room, few places."""
        self.play(by_chance(int(os.environ.get("BETWEEN_RUNS", RUNS)), SEED))

"""Tests of the code of machines that hold one desk, over models: random steps of three machines, and random logs along which one
machine goes on wherever it was stopped. Both find wrong programs."""

import os
import time
import unittest
from importlib.util import find_spec

from support.cases import ProgramCase
from support.programs import expect, note
from support.replica_wrong import WRONG, play_wrong

LACKING = [name for name in ["aiohttp", "etcd3", "grpc", "uvloop"] if find_spec(name) is None]
CASES, LOGS = 100, 1_500


def moment(time_of_day: str, day: int = 2) -> float:
    """A moment of a day, by this machine's time."""
    return time.mktime(time.strptime(f"2026-12-{day:02} {time_of_day}", "%Y-%m-%d %H:%M:%S"))


@unittest.skipIf(LACKING, f"{', '.join(LACKING)} of Python not here")
class ReplicasSteps(ProgramCase):
    @classmethod
    def setUpClass(cls) -> None:
        """No program is needed."""

    def test_random_steps_have_one_order(self):
        from support.replica_steps import play

        wrong, counts = play(0, CASES)
        note(f"{CASES} cases: {counts}")
        expect(not wrong, "\n".join(wrong[:5]))
        expect(counts["places"] > 10 * CASES and counts["refused"] > 10 * CASES, "little was asked")
        expect(counts["rolls"] > CASES, "there are few rolls")

    def test_a_machine_goes_on_wherever_it_was_stopped(self):
        from support.replica_walks import first_wrong

        wrong, counts = first_wrong(LOGS)
        expect(not wrong, wrong)
        expect(counts["logs with rolls"] > LOGS // 6, f"few logs with rolls: {counts}")

    def test_marks_of_another_log_are_told(self):
        """A machine says so where another one told marks at which its own log has none; not where that one only is behind."""
        from support.replica_walks import said_of_marks

        for others, own, want in [
            ([], [], None),
            ([5], [], None),
            ([5, 9], [], None),
            ([5, 9, 12], [], None),
            ([5, 12], [5, 9, 12], None),
            ([4, 5, 9], [], 5),
            ([5, 7], [], 9),
            ([5, 7, 9], [5, 9, 12], 9),
            ([5, 12], [], 9),
        ]:
            said = said_of_marks(others, own)
            expect(f"not compared up to revision {want}" in said if want else not said, f"{others}: {said}")
            expect(said.count("not compared") == (1 if want else 0), f"{others}: {said}")

    def test_what_is_no_entry_is_told(self):
        """A machine passes over a word that the log does not have, and says so; the mark behind it counts."""
        from support.replica_walks import Entry, WrittenLog, said_on_the_way

        values = [
            b"mark",
            b"mark xyz",
            b"End",
            b"mark 0" + b"0" * 99 + b"x",
            b"roll 0",
            b"roll 0 0",
            b"end ",
            b"mark 007",
            b"mark 0",
        ]
        log = WrittenLog([Entry(revision, value) for revision, value in enumerate(values, 2)])
        said = said_on_the_way(log).splitlines()
        expect(len(said) == 7, f"{said}")
        for revision, line in enumerate(said, 2):
            text = f"passes over revision {revision}, which is no entry of the log: {values[revision - 2][:60]!r}"
            expect(line.endswith(text), f"{line}")
        expect({mark.revision for mark in log.told} == {9}, f"{log.told}")

    def test_one_of_two_rolls_at_once_counts(self):
        """The second has a mark before the newest; and where no key would go, a roll is a mark alone."""
        from stockdesk_walk import digest_of
        from support.replica_walks import Entry, ToldMark, WrittenLog, said_on_the_way

        lines = [b"F field N1 A-1 0 100 20", *(b"K%d deliver N1 A-1 1" % each for each in range(5))]
        first, then = b"\n".join([b"lines a 1 0", *lines[:5]]), b"lines a 2 3\n" + lines[5]
        log = WrittenLog([Entry(at, value) for at, value in enumerate([first, b"roll 0 2", b"roll 0 1", then, b"roll 3 3"], 2)])
        expect(said_on_the_way(log) == "", "something is said")
        before, rolled, behind = (digest_of(each).hex() for each in [lines[:5], lines[3:5], lines[3:]])
        wanted = {ToldMark(3, "m1", 5, before, 2, rolled), ToldMark(6, "m1", 3, behind)}
        expect(log.told == wanted, f"{log.told}")

    def test_when_a_roll_is_wanted(self):
        """From 190,000 places on, taken or set aside, and at night from 100,001 on; a quarter of the places is free behind it.
        From 95,000 orders on, and at night from 50,000 on, where half of them have ended and no roll was done for an hour. A
        key goes."""
        from stockdesk_rolls import Rest, Sizes
        from stockdesk_rows import Counts

        sizes, busy, day, night = Sizes(20_000, 190_000, 100_000), Rest(False, False), Rest(True, False), Rest(True, True)
        for places, set_aside, orders, rest, want in [
            (189_999, 0, 0, day, None),
            (190_000, 0, 0, day, 100_000),
            (190_000, 0, 0, busy, 100_000),
            (150_000, 40_000, 40_000, busy, 100_000),
            (140_000, 50_001, 50_001, day, 99_999),
            (130_000, 60_000, 60_000, day, 90_000),
            (100_001, 0, 0, night, 100_000),
            (100_000, 0, 0, night, None),
            (100_000, 100_000, 100_000, day, 50_000),
            (60_000, 90_000, 90_000, night, None),
            (60_001, 90_000, 90_000, night, 60_000),
            (97_000, 10, 94_999, day, None),
            (97_000, 10, 95_000, day, 96_999),
            (97_000, 10, 95_000, busy, None),
            (120_000, 47_500, 95_000, day, 100_000),
            (120_000, 47_501, 95_000, day, None),
            (60_000, 25_000, 50_000, night, 59_999),
            (60_000, 25_001, 50_000, night, None),
            (60_000, 10, 49_999, night, None),
        ]:
            found = sizes.keys_for(Counts(places, set_aside, 0, orders), rest)
            expect(found == want, f"{places}, {set_aside}, {orders}, {rest}: {found}")

    def test_one_roll_comes_each_night(self):
        """Night is from 4:00 to 4:30; a machine that began in it or in the hour before, or then rolled its desk up, waits for the
        next one."""
        from stockdesk_rolls import Rests

        for began, now, want in [
            ("02:59:59", "04:00:00", (True, True)),
            ("00:00:00", "04:29:59", (True, True)),
            ("02:00:00", "03:59:59", (True, False)),
            ("02:00:00", "04:30:00", (True, False)),
            ("03:00:00", "04:00:00", (False, False)),
            ("03:10:00", "04:20:00", (True, False)),
            ("04:29:59", "04:29:59", (False, False)),
        ]:
            found = Rests(moment(began)).at(moment(now))
            expect(found == want, f"{began}, {now}: {found}")
        rests = Rests(moment("00:00:00"))
        rests.note(moment("04:05:00"))
        expect(rests.at(moment("04:06:00")) == (False, False), "a second roll in one night")
        expect(rests.at(moment("04:06:00", day=3)) == (True, True), "no roll in the next night")

    def test_answers_that_fit_no_roll_are_found(self):
        """Ten commands in turn, at places that two rolls have lowered to three; then other answers and other rolls."""
        from support.replica_judged import rolled_life, wrong_with

        expect(wrong_with() == [], "a right life is wrong")
        key = '{"command":"field N1 A-1 0 100 20","place":1}'
        for changes, want in [
            ({"replies": {2: "done 1"}}, "no ledger from 2 to 3 explains K1 deliver N1 A-1 1: done 1"),
            ({"replies": {9: "done 10"}}, "no ledger from 9 to 10 explains K8 deliver N1 A-1 1: done 10"),
            ({"replies": {9: "done 11"}}, "is not kept: K8 deliver N1 A-1 1: done 11"),
            ({"views": [(30, 200, key)]}, f"no ledger from 10 to 10 explains /v1/keys/F: 200 {key}"),
            ({"views": [(5, 404, '{"error":"none"}')]}, 'no ledger from 2 to 3 explains /v1/keys/F: 404 {"error":"none"}'),
            ({"olds": [rolled_life().olds[0][:-1]]}, "3 desks were rolled up, 2 of them one behind the other"),
        ]:
            found = wrong_with(**changes)
            expect(found and found[0] == want, f"{changes}: {found}")
        # the moment of the first roll lies between these answers, and both sides of it are answers
        expect(wrong_with(views=[(9.5, 200, key), (9.5, 404, '{"error":"none"}')]) == [], "a right view is wrong")

    def test_wrong_programs_are_found(self):
        for number, name in enumerate(WRONG):
            with self.subTest(name):
                found = play_wrong(name, os.path.join(self.folder, str(number)))
                expect(found.startswith("case "), f"not found: {found}")

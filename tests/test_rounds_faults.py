"""Tests of the built program that serves many connections at once, where it is killed, a sync fails, the power is cut behind any
call, or memory is refused. What was answered as done is kept; nothing is kept but what was sent; and no round is answered that
was not kept. In the environment STOCKDESK_CUTS asks for so many power cuts."""

import contextlib
import math
import os
import random
import re
import shutil
import signal
import subprocess
import threading
from collections import Counter
from collections.abc import Sequence

from support.asks import BAD_COMMAND, NO_MEMORY, NONE, SOME_FIELDS, STOPPED, UNREADABLE, Ask, ask_of
from support.cases import ProgramCase, needs_sqlite, needs_strict_tables
from support.chance import SEED
from support.clients import Client, connected, play
from support.failing import NEVER, Failing, FailingCase, Failure, refusals
from support.message_inputs import load
from support.one_order import Order, desk_with, expect_kept, expect_one_order, told_order
from support.power_cuts import NAME, NO_CUTS, Recorded, may_be_cut, may_be_kept, try_cuts
from support.programs import IO, MEMORY, STORE, WELL, End, bytes_of, ended, expect, note
from support.recorded import SENDS, SYNCS, Call, recorded_in, recorder
from support.rows import rows_by
from support.rules import Rules
from support.service import TOGETHER, NotServed, Service
from support.works import copy_desk

CLIENTS = 16
# how far ahead of the answers the clients are, by turns
AHEAD = [1, 1, 5, 100]
KILLS, FAULTS = 12, 12
# how many questions each client has, more than are answered before that
LOAD = 500
# how many syncs of a service may come before the one that fails, at the most
MOST_SYNCS = 60
CUTS = int(os.environ.get("STOCKDESK_CUTS", "400"))

# up to which number of a read, and of a write, each is made to fail
SOME_CALLS = 16
# by how many allocations two tasks may differ until a desk is opened
SPARE = 100
# what clients ask at once of a service to which memory is refused
LINES = [
    ["M1 field N1 A-1 0 100 40", "? field N1 A-1"],
    ["M2 expire 10", "? order 8", "M2 expire 10"],
    ["? sheet N1", "M3 deliver N9 A-1 1", "M4 field N2 A-1 0 9 9", "? field N2 A-1"],
]

# what becomes of these services
ENDS_EARLY, ANSWERS_ALL = "have a connection that ends early", "answer all"
KINDS = {
    "do not begin, by stockdesk: memory",
    "end by stockdesk: memory",
    "end by stockdesk: store",
    "answer that they lack memory",
    ENDS_EARLY,
    ANSWERS_ALL,
}
KILLED: End = (-signal.SIGKILL, b"", b"")

# how many seconds a service takes to end on a slow machine
ENDING = 10

PLACE = re.compile(rb'{"place":([0-9]+)}')


def crowd_of(port: int, talks: Sequence[Sequence[Ask]], chance: random.Random | None = None) -> list[Client]:
    return [Client(port, asks, AHEAD[number % len(AHEAD)], chance) for number, asks in enumerate(talks)]


def all_of(talks: Sequence[Sequence[Ask]]) -> list[Ask]:
    return [ask for asks in talks for ask in asks]


def told_of(talks: Sequence[Sequence[Ask]]) -> int:
    """How many commands were answered as done."""
    return sum(ask.place() is not None for ask in all_of(talks))


def kept_of(program: str, path: str, before: Order, talks: Sequence[Sequence[Ask]]) -> Order:
    """The commands that a stopped desk has kept, by their places. The desk must open, and have kept what it answered as done."""
    expect(ended(program, ["run", path]) == WELL, f"{path} does not open")
    return expect_kept(path, before, talks)


def again(talks: Sequence[Sequence[Ask]]) -> list[list[Ask]]:
    """The same commands, but only those that were sent."""
    return [[ask_of(ask.line) for ask in each if ask.is_command and ask.was_sent()] for each in talks]


@needs_sqlite
class Stops(ProgramCase):
    def test_nothing_told_is_lost_where_the_service_is_killed(self):
        """The service is killed under load, at a random moment; who then asks again under the same keys has each command done
        once."""
        generator = random.Random(SEED)
        found = [self.told_and_kept(number, generator.uniform(0, 0.4), ["7", "1000"][number % 2]) for number in range(KILLS)]
        told, kept = (sum(numbers) for numbers in zip(*found))
        note(f"{KILLS} services killed, {told} commands told, {kept} kept")

    def told_and_kept(self, number: int, seconds: float, most: str) -> tuple[int, int]:
        """How many commands a service that is killed after so many seconds has answered as done, and how many it has kept."""
        talks, options = load(SEED + number, CLIENTS, LOAD), ["--together", most]
        path = desk_with(self.program, self.folder, SOME_FIELDS, f"{number}.db")
        service = Service(self.program, path, CLIENTS, options=options)
        crowd, moment = crowd_of(service.port, talks), threading.Timer(seconds, service.process.kill)
        moment.start()
        play(crowd)
        moment.join()
        service.end()
        kept, asked_again = kept_of(self.program, path, SOME_FIELDS, talks), again(talks)
        service = Service(self.program, path, CLIENTS, options=options)
        play(crowd_of(service.port, asked_again))
        service.expect_end()
        expect(not any(ask.is_lost() for ask in all_of(asked_again)), "who asks again is not answered")
        kept_of(self.program, path, kept, asked_again)
        return told_of(talks), len(kept) - len(SOME_FIELDS)

    def test_a_power_cut_loses_nothing_that_was_told(self):
        if not may_be_cut():
            self.skipTest(NO_CUTS)
        try_cuts(self.program, self.folder, recorded_rounds(self.program, self.folder, 8), SEED, CUTS)


def rows_behind_each(order: Sequence[tuple[str, str]]) -> list[list[str]]:
    """The rows, by the rules, behind each of the commands, and before the first."""
    desk = Rules()
    rows = [rows_by(desk)]
    for key, command in order:
        desk.carry_out(key, command)
        rows.append(rows_by(desk))
    return rows


def greatest_place(written: bytes) -> int:
    """The greatest place in what a service has written."""
    return max(map(int, PLACE.findall(written)), default=len(SOME_FIELDS))


def round_ends(calls: Sequence[Call]) -> list[int]:
    """Behind how many commands the rounds end: all answers of a round are written before the next sync."""
    written, ends = b"", set()
    for call in calls:
        written += call.data if call.name in SENDS else b""
        if call.name in SYNCS:
            ends.add(greatest_place(written))
    return sorted({*ends, greatest_place(written)})


def recorded_rounds(program: str, folder: str, most: int) -> Recorded:
    """A service of some clients, of whose questions at most so many are answered together. Of a round all is kept, or nothing."""
    talks, there = load(SEED, 3, 20), os.path.join(folder, "recorded")
    # the last client is far ahead of its answers
    talks.append([ask_of(f"D{number} deliver N0 A-0 1") for number in range(30)])
    os.mkdir(there)
    path = shutil.copyfile(desk_with(program, folder, SOME_FIELDS, "before.db"), os.path.join(there, NAME))
    before, file = {NAME: bytes_of(path)}, os.path.join(folder, "calls")
    service = Service(program, path, len(talks), options=["--together", str(most)], runner=recorder(file))
    crowd = crowd_of(service.port, talks)
    play(crowd)
    service.expect_end()
    for client in crowd:
        client.expect_whole()
    order, calls = told_order(SOME_FIELDS, all_of(talks)), recorded_in(file)
    expect_one_order(order, len(SOME_FIELDS), talks)
    rows, ends = rows_behind_each(order), round_ends(calls)
    note(f"{len(order) - len(SOME_FIELDS)} commands in {len(ends) - 1} rounds")
    return Recorded(there, before, calls, lambda told: [rows[end] for end in may_be_kept(ends, told or 0)], greatest_place)


def expect_stopped(asks: Sequence[Ask], moment: float) -> None:
    """Behind the first answer that says that the desk is stopped, and for all that is sent behind that moment, each answer says
    the same, or what any desk answers."""
    is_stopped = False
    for ask in asks:
        is_stopped = is_stopped or ask.answer == STOPPED or ask.sent > moment
        may = [b"", STOPPED, BAD_COMMAND, NONE, UNREADABLE]
        expect(not is_stopped or ask.answer in may, f"{ask.line}: {ask.answer!r} of a stopped desk")


def end_of(service: Service) -> tuple[End, bool]:
    """How a service ends, and whether it ends when all have left; else one more connection comes, or the service is killed."""
    for counts_all in (True, False):
        try:
            service.process.wait(ENDING)
            return service.end(), counts_all
        except subprocess.TimeoutExpired:
            with contextlib.suppress(OSError):
                connected(service.port).close()
    service.process.kill()
    return service.end(), False


class Crowded:
    """Services of some clients at once on copies of a desk, to which memory is refused."""

    def __init__(self, failing: Failing, folder: str):
        self.failing, self.program = failing, failing.program
        self.desk = desk_with(self.program, folder, [], "new.db")

    def count(self) -> tuple[int, int]:
        """How many allocations there are until the desk is opened, or about so many; and in all."""
        with self.failing.lane() as lane:
            path = os.path.join(lane, "desk.db")
            copy_desk(self.desk, path)
            opening = self.failing.count("memory", ["run", path], "", lane)
            self.serve(Failure("memory", NEVER), lane)
            return opening - SPARE, self.failing.counted(lane)

    def serve(self, failure: Failure, lane: str) -> str:
        """What becomes of the service. All that it answered as done is kept, and nothing is done that was not sent. Where one
        allocation is refused and the desk goes on, only one client loses answers."""
        path, talks = os.path.join(lane, "desk.db"), [[ask_of(line) for line in lines] for lines in LINES]
        copy_desk(self.desk, path)
        try:
            environment = self.failing.environment(failure, lane)
            service = Service(self.program, path, len(talks), environment=environment, options=TOGETHER)
        except NotServed as fault:
            return f"do not begin, by {told_by(fault.end)}"
        with contextlib.suppress(OSError):
            play(crowd_of(service.port, talks))
        end, counts_all = end_of(service)
        has_stopped = any(ask.answer == STOPPED for ask in all_of(talks))
        expect(end in [WELL, STORE, MEMORY, KILLED] and not (has_stopped and end == WELL), f"{failure}: {end}")
        kept_of(self.program, path, [], talks)
        losers = sum(any(ask.is_lost() for ask in asks) for asks in talks)
        expect(losers <= 1 or failure.for_good or end != WELL, f"{failure}: {losers} clients lose answers")
        return kind_of(talks, end) if counts_all else "wait for one more than has come"


def told_by(end: End) -> str:
    return end[2].decode().strip()


def kind_of(talks: Sequence[Sequence[Ask]], end: End) -> str:
    """What becomes of a service that ends, in words."""
    if end != WELL:
        return f"end by {told_by(end)}"
    if any(ask.answer == NO_MEMORY for ask in all_of(talks)):
        return "answer that they lack memory"
    return ENDS_EARLY if any(ask.answer == b"" for ask in all_of(talks)) else ANSWERS_ALL


@needs_strict_tables
class Faults(FailingCase):
    def test_nothing_is_told_of_a_round_that_is_not_kept(self):
        """Under load a sync fails, or any call of the store, alone or with all behind it: the desk is stopped, and the service
        ends. Where a write fails, the round is not in the file. A client that is far ahead of its answers may lose the last of
        them, since the connection is reset."""
        generator = random.Random(SEED)
        failures = [self.failure(number, generator.randint(1, MOST_SYNCS)) for number in range(FAULTS)]
        found = [self.told_and_kept(failure, ["7", "1000"][number % 3 % 2]) for number, failure in enumerate(failures)]
        told, kept, stopped = (sum(numbers) for numbers in zip(*found))
        expect(stopped > 0, "nobody is told that the desk is stopped")
        note(f"{FAULTS} services stopped, {told} commands told, {kept} kept, {stopped} told that it is stopped")

    def failure(self, number: int, behind: int) -> Failure:
        """A failure so many calls, or some times as many, behind the calls of a session that does nothing."""
        kind, times = [("sync", 1), ("store", 10)][number % 2]
        with self.failing.lane() as lane:
            path = desk_with(self.program, self.folder, SOME_FIELDS, f"before{number}.db")
            return Failure(kind, self.failing.count(kind, ["run", path], "", lane) + times * behind, number // 2 % 2 == 1)

    def told_and_kept(self, failure: Failure, most: str) -> tuple[int, int, int]:
        """How many commands a service has answered as done and has kept, and how often it has answered that it is stopped."""
        talks = load(SEED + failure.first, CLIENTS, LOAD)
        path = desk_with(self.program, self.folder, SOME_FIELDS, f"{failure}.db")
        with self.failing.lane() as lane:
            environment = self.failing.environment(failure, lane)
            service = Service(self.program, path, CLIENTS, environment=environment, options=["--together", most])
            play(crowd_of(service.port, talks))
            service.expect_end(STORE)
        moments = [ask.told for ask in all_of(talks) if ask.answer == STOPPED]
        for asks in talks:
            expect_stopped(asks, min(moments, default=math.inf))
        kept = kept_of(self.program, path, SOME_FIELDS, talks)
        return told_of(talks), len(kept) - len(SOME_FIELDS), len(moments)

    def test_want_of_memory_loses_nothing_that_was_told(self):
        """Each allocation is refused in turn, alone or with all behind it."""
        crowded = Crowded(self.failing, self.folder)
        first, count = crowded.count()
        kinds = Counter(self.failing.attempt(refusals(first, count), crowded.serve))
        told = f"of {kinds.total()} services " + ", ".join(f"{number} {kind}" for kind, number in kinds.most_common())
        expect(set(kinds) <= KINDS and len(kinds) > 3, told)
        note(told)

    def test_a_read_or_a_write_that_fails_ends_its_connection_alone(self):
        """It ends its connection alone; or the service, where that has not written its port yet."""
        failures = [Failure(kind, number) for kind in ("read", "write") for number in range(1, SOME_CALLS)]
        cut = [self.is_cut(failure, f"{number}.db") for number, failure in enumerate(failures)]
        expect(0 < sum(cut) < len(failures), f"{sum(cut)} of {len(failures)} services have a connection that is cut")
        note(f"{sum(cut)} of {len(failures)} services have a connection that is cut")

    def is_cut(self, failure: Failure, name: str) -> bool:
        """Whether a client does not get all answers."""
        path, talks = desk_with(self.program, self.folder, [], name), [[ask_of(line) for line in lines] for lines in LINES]
        with self.failing.lane() as lane:
            environment = self.failing.environment(failure, lane)
            try:
                service = Service(self.program, path, len(talks), environment=environment, options=TOGETHER)
            except NotServed as fault:
                expect((fault.end, failure.kind) == (IO, "write"), f"{failure}: {fault}")
                return True
            play(crowd_of(service.port, talks))
            service.expect_end()
        kept_of(self.program, path, [], talks)
        cut = sum(any(ask.is_lost() for ask in asks) for asks in talks)
        expect(cut <= 1, f"{failure}: {cut} clients lose answers")
        return cut > 0

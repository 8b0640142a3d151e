"""Runs of `stockdesk-between` on the built program, each with a deal between two or three desks. At chosen messages carriers and
desks are killed: before the message is delivered, after it, or while the desk works on it; or the message is kept back and comes
much later. Meanwhile others are at work, and desks are filled up. After each message what the deal has moved is all, nothing or
under way, and each answer is the one that the rules give."""

import os
import random
import subprocess
import sys
import threading
from collections import Counter
from collections.abc import Iterable, Iterator, Sequence
from dataclasses import dataclass, field
from itertools import combinations

from support import DEPLOY
from support.deal_desks import MOMENT, NUMBER, ROOM, Told, bounds_fault, fault, fill, is_moved, others_command, words_of
from support.deal_ways import Served, Templates, Way
from support.programs import SECONDS, expect
from support.rolls import KEYS
from support.rules import COMMITTED

CARRIER = os.path.join(DEPLOY, "stockdesk-between")
KILLED = -9
# in this many tries one carrier is not killed
MOST_CALLS = 60
# a desk that is to be killed while it works on a message is killed within so many seconds
WITHIN = 0.004

# who is killed
CARRIERS = "carriers"
Victims = frozenset[str | int]


@dataclass(frozen=True)
class Stop:
    """At which message of a run, and at which point of that message, who is killed."""

    at: int
    point: str
    victims: Victims


@dataclass(frozen=True)
class Case:
    """A run: its stops, and what else happens in it."""

    name: str
    stops: tuple[Stop, ...] = ()
    desks: int = 2
    lines: int = 1
    start: int = 40
    busy: float = 0.0
    expires: bool = False
    # what is done at each stop
    meanwhile: frozenset[str] = frozenset()
    # places that are left at desks
    left: tuple[tuple[int, int], ...] = ()
    carriers: int = 1
    takes_up: bool = False
    # the last call takes up all that is open
    resumes_all: bool = False
    # how many of the killed desks are rolled up before they start again
    rolls: float = 0.0


@dataclass
class Counts:
    found: Counter[str] = field(default_factory=Counter)

    def text(self) -> str:
        return ", ".join(f"{count:,} {what}" for what, count in sorted(self.found.items()))


class Run:
    """A case that is played."""

    def __init__(self, templates: Templates, folder: str, case: Case, seed: object, counts: Counts):
        self.case, self.chance, self.counts = case, random.Random(f"{seed} {case}"), counts
        self.lock, self.count, self.is_over = threading.RLock(), 0, False
        self.stops = list(case.stops)
        self.late: list[tuple[int, str, str, bytes | None]] = []
        self.carriers: list[subprocess.Popen[str]] = []
        self.fault: Exception | None = None
        self.desks: list[Served] = []
        self.ways: list[Way] = []
        try:
            for number in range(case.desks):
                self.desks.append(Served(templates, folder, number, dict(case.left).get(number)))
                for article in (1, 2):
                    self.desks[number].field(article, case.start, ROOM)
                self.ways.append(Way(number, self.take))
        except BaseException:
            self.end()
            raise

    # ---- messages

    def take(self, number: int, method: str, target: str, body: bytes | None) -> Told | None:
        """A carrier's message on its way to a desk; messages come one after the other."""
        with self.lock:
            if self.is_over or self.fault:
                return None
            try:
                return self.message(number, method, target, body)
            except Exception as found:
                self.fault = found
                return None

    def message(self, number: int, method: str, target: str, body: bytes | None) -> Told | None:
        self.count += 1
        self.counts.found["messages"] += 1
        stop = next((stop for stop in self.stops if stop.at == self.count), None)
        if self.chance.random() < self.case.busy:
            desk = self.chance.choice(self.desks)
            desk.does(self.key(), others_command(self.chance, desk.number, self.case.expires))
        told = self.stopped(stop, number, method, target, body) if stop else self.desks[number].answers(method, target, body)
        self.look()
        if self.late and not stop and self.chance.random() < 0.25:
            self.deliver_late()
        return told

    def key(self) -> str:
        return f"K{self.chance.getrandbits(60)}"

    def stopped(self, stop: Stop, number: int, method: str, target: str, body: bytes | None) -> Told | None:
        """Takes a message at which somebody is killed."""
        desk, told = self.desks[number], None
        self.counts.found[f"stops {stop.point}"] += 1
        if stop.point == "within":
            told = desk.killed_within(method, target, body, self.chance.uniform(0, WITHIN))
        elif stop.point == "behind":
            told = desk.answers(method, target, body)
        elif stop.point == "late":
            self.late.append((number, method, target, body))
        for victim in sorted(stop.victims, key=str):
            self.kill(victim)
        for each in self.desks:
            self.meanwhile(each)
        if stop.point == "late" or stop.victims & {CARRIERS, number}:
            return None
        # where somebody else was killed, the way to this desk goes on
        return told or desk.answers(method, target, body)

    def kill(self, victim: str | int) -> None:
        if isinstance(victim, int):
            self.counts.found["desks killed"] += 1
            self.desks[victim].kill()
            if self.chance.random() < self.case.rolls:
                self.roll(self.desks[victim])
            self.desks[victim].start()
            return
        for carrier in self.carriers:
            self.counts.found["carriers killed"] += carrier.poll() is None
            carrier.kill()

    def roll(self, desk: Served) -> None:
        """Rolls a desk up: with as many keys as usual, or with those of the deal and of what came after its first command."""
        desk.roll(self.chance.choice([KEYS, desk.rules.keys_since(NUMBER)]))
        self.counts.found["rolls"] += 1

    def meanwhile(self, desk: Served) -> None:
        if "expiry" in self.case.meanwhile:
            desk.does(self.key(), "expire 3999999999")
        if "fill" in self.case.meanwhile and desk.number in dict(self.case.left):
            fill(desk, words_of(desk.number, 1), self.chance)

    def deliver_late(self) -> None:
        """What was kept back comes in at last."""
        number, method, target, body = self.late.pop(self.chance.randrange(len(self.late)))
        self.desks[number].answers(method, target, body)
        self.look()

    def look(self) -> None:
        desks = [desk.rules for desk in self.desks]
        why = fault(desks) or bounds_fault(desks)
        orders = [desk.orders.get(NUMBER) for desk in desks]
        expect(why is None, f"{why}: {orders}")
        gone = orders[0] is not None and orders[0].state == COMMITTED
        self.counts.found["looks at goods under way"] += gone and any(order and order.state != COMMITTED for order in orders)

    # ---- carriers

    def terms(self) -> list[str]:
        """What the deal does, in words: transfers between two desks, lines between more."""
        if self.case.desks == 2:
            return [word for article in range(1, self.case.lines + 1) for word in ("--move", f"A-{article}", "7", "N0", "N1")]
        words = [
            [f"{'add' if number == 1 else 'take'} {words_of(number, article)} 7" for article in range(1, self.case.lines + 1)]
            for number in range(self.case.desks)
        ]
        return [word for lines in words for word in ("--lines", *" ".join(lines).split())]

    def call(self, *words: str) -> subprocess.Popen[str]:
        urls = [way.url for way in self.ways]
        told = [sys.executable, CARRIER, *words[:1], *urls, "--patience", str(SECONDS), *words[1:]]
        return subprocess.Popen(told, stdout=subprocess.PIPE, stderr=subprocess.PIPE, text=True)

    def play(self) -> None:
        """Plays until a carrier is not killed; then late messages come in, and the deal is taken up."""
        words, ended = [*self.terms(), "--until", str(MOMENT)], []
        for _ in range(MOST_CALLS):
            with self.lock:
                self.carriers = [self.call(str(NUMBER), *words) for _ in range(self.case.carriers)]
            ended = [(carrier.wait(4 * SECONDS), *carrier.communicate()) for carrier in self.carriers]
            self.expect_well(ended)
            if any(status != KILLED for status, _, _ in ended):
                break
            words = [] if self.case.takes_up else words
        with self.lock:
            self.stops.clear()
            while self.late:
                self.deliver_late()
        self.take_up(any(status == 0 for status, _, _ in ended))

    def expect_well(self, ended: Iterable[tuple[int, str, str]]) -> None:
        if self.fault:
            raise self.fault
        for status, out, errors in ended:
            expect(status in (0, 1, KILLED) and not errors, f"status {status}: {out}{errors}")

    def take_up(self, was_told_moved: bool) -> None:
        """Runs the last carrier. After it no order is open, and all is moved or nothing."""
        resumes_all = self.case.resumes_all
        last = self.call("--resume-all", "--held", "--idle", "0") if resumes_all else self.call(str(NUMBER))
        out, errors = last.communicate(timeout=4 * SECONDS)
        self.expect_well([(last.returncode, out, errors)])
        moved = is_moved([desk.rules for desk in self.desks])
        expect(last.returncode == (0 if moved or resumes_all else 1), f"status {last.returncode}: {out}{errors}")
        expect(moved or not was_told_moved, "told as moved")
        self.counts.found["runs moved" if moved else "runs not moved"] += 1
        for desk in self.desks:
            desk.expect_same()

    def end(self) -> None:
        self.is_over = True
        for carrier in self.carriers:
            carrier.kill()
            carrier.communicate()
        for way in self.ways:
            way.end()
        for desk in self.desks:
            desk.kill()


def play(templates: Templates, folder: str, case: Case, seed: object, counts: Counts) -> None:
    run = Run(templates, folder, case, seed, counts)
    try:
        run.play()
    except Exception as found:
        raise AssertionError(f"{case}, seed {seed}: {type(found).__name__}: {found}") from found
    finally:
        run.end()


# ---- which runs

POINTS = ["before", "behind"]
SIDES: list[str | int] = [CARRIERS, 0, 1]
VICTIMS: list[Victims] = [frozenset(who) for count in (1, 2, 3) for who in combinations(SIDES, count)]
# of the desks that are killed in runs by rule, so many are rolled up
ROLLED = 0.25
# how many messages an undisturbed deal of one line has between two desks, and between three
STEPS, STEPS_OF_THREE = 10, 15


def each_step(points: Sequence[str] = POINTS, victims: Sequence[Victims] = VICTIMS) -> Iterator[Case]:
    """Runs between two desks: one for each message, point and victims; runs with late messages; and runs where a desk is killed
    while it works on a message."""
    for at in range(1, STEPS + 1):
        for who in victims:
            for point in points:
                yield Case(f"{point} {at}", (Stop(at, point, who),), takes_up=bool(at % 2), rolls=ROLLED)
        yield Case(f"late {at}", (Stop(at, "late", frozenset([CARRIERS])),))
        yield Case(f"within {at}", (Stop(at, "within", frozenset([CARRIERS])),), takes_up=bool(at % 2))
        yield Case(f"expiry {at}", (Stop(at, POINTS[at % 2], VICTIMS[at % 7]),), meanwhile=frozenset(["expiry"]))


def each_step_of_three() -> Iterator[Case]:
    """Runs between three desks, with two lines at each, and so with more uses."""
    for at in range(1, STEPS_OF_THREE + 3):
        for point in POINTS:
            who: Victims = frozenset([CARRIERS, at % 3] if at % 2 else [CARRIERS])
            yield Case(f"three, {point} {at}", (Stop(at, point, who),), 3, 1 + at % 2, takes_up=bool(at % 3), rolls=ROLLED)


def few_places(steps: Iterable[int]) -> Iterator[Case]:
    """Runs where a desk has few places left, and where a desk is filled up after a step; and where a roll makes room."""
    for number, left in [(number, left) for left in (3, 4, 5, 6) for number in (0, 1)]:
        yield Case(f"{left} places", (Stop(6, "behind", frozenset([CARRIERS])),), left=((number, left),))
    for number in (0, 1):
        yield Case("rolled", (Stop(6, "behind", frozenset([CARRIERS, number])),), left=((number, 3),), rolls=1)
    for at in steps:
        stops = (Stop(at, POINTS[at % 2], VICTIMS[at % 7]),)
        yield Case(f"fill {at}", stops, left=((at % 2, 12),), meanwhile=frozenset(["fill"]))


def by_chance(count: int, seed: object) -> Iterator[Case]:
    """Runs with several stops and several carriers, others at work, little stock, little room and few places."""
    chance = random.Random(f"cases {seed}")
    for number in range(count):
        desks = chance.choice([2, 2, 3])
        sides: list[str | int] = [CARRIERS, *range(desks)]
        points = ["before", "behind", "within", "late"]
        stops = [
            Stop(at, chance.choice(points), frozenset(chance.sample(sides, chance.randint(1, len(sides)))))
            for at in sorted(chance.sample(range(1, 25), chance.randint(1, 4)))
        ]
        yield Case(
            f"chance {number}",
            tuple(stops),
            desks,
            lines=chance.choice([1, 1, 2]),
            start=chance.choice([3, 7, 40, 40, 40, 95]),
            busy=chance.choice([0.3, 0.8]),
            expires=chance.random() < 0.5,
            left=((chance.randrange(desks), chance.randint(3, 14)),) if chance.random() < 0.03 else (),
            carriers=chance.choice([1, 1, 2, 3]),
            takes_up=chance.random() < 0.5,
            resumes_all=chance.random() < 0.5,
            rolls=chance.choice([0.0, 0.5, 1.0]),
        )

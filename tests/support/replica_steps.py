"""Three machines that hold a desk, in one process: the code of the tool, over a log and desks that are models. Time is counted in
turns of the event loop. A put may be kept late, or without an answer, or not at all; a machine may lag and stop, also amid a
roll, and begin again with an old copy; and copies of commands come late.

    python3 -m support.replica_steps COUNT [FIRST]    plays so many cases, from that one on, and tells the first that is wrong"""

import asyncio
import copy
import itertools
import json
import os
import random
import sys
from collections.abc import AsyncIterator, Awaitable, Callable
from typing import Any

import support  # noqa: F401
import stockdesk_machine
from stockdesk_desk import Answer, Connection, Desk
from stockdesk_home import Home
from stockdesk_log import Entry, Log, ToldMark
from stockdesk_machine import Machine
from stockdesk_rolls import Sizes
from stockdesk_tools import Fault
from stockdesk_walk import Walk
from support.histories import Attempt, History, View, judged, reply_to, shown
from support.messages import answer_to, compact
from support.rolls import rolled_desk
from support.rows import rows_by
from support.rules import Rules

MACHINES, CLIENTS, COMMANDS = 3, 5, 14
# how long clients wait, and how late something may come, in turns of the event loop
PATIENCE, LATE = 80, 400
# a case that takes longer hangs
CASE_SECONDS = 60

# from how many places on a desk is rolled up, and how many keys stay: more than were done since a client asked first for what it
# asks again
SIZES = [(30, 20), (40, 30), (25, 24)]

FIELDS = ["N1 A-1", "N2 A-1"]
VIEWS = [*(f"/v1/fields/{name.replace(' ', '/')}" for name in FIELDS), "/v1/orders/1", "/v1/orders/2", "/v1/desk"]


class Gone(Exception):
    """The machine stopped before it answered."""


class Chance(random.Random):
    async def turns(self, most: int) -> None:
        for _ in range(self.randrange(most)):
            await asyncio.sleep(0)


class Kept:
    """What etcd has: entries, and what machines told at marks."""

    def __init__(self, chance: Chance):
        self.chance = chance
        self.values: list[bytes] = []
        self.marks: dict[tuple[int, str], ToldMark] = {}
        self.late: set[asyncio.Task[None]] = set()

    def revision(self) -> int:
        return len(self.values)

    def keep(self, value: bytes) -> int:
        self.values.append(value)
        return self.revision()

    def keep_later(self, value: bytes) -> None:
        async def work() -> None:
            await self.chance.turns(LATE)
            self.keep(value)

        task = asyncio.create_task(work())
        self.late.add(task)
        task.add_done_callback(self.late.discard)


class ModelLog(Log):
    """The log as one machine has it, which may lag."""

    def __init__(self, kept: Kept, lag: int):
        self.kept, self.chance, self.lag = kept, kept.chance, lag

    async def put(self, value: bytes, key: str = "log") -> int | None:
        await self.chance.turns(6)
        fate = self.chance.random()
        if fate < 0.1:
            self.kept.keep_later(value)
        revision = self.kept.keep(value) if fate > 0.15 else None
        await self.chance.turns(6)
        return revision if fate > 0.3 else None

    async def head(self) -> int | None:
        await self.chance.turns(3)
        revision = self.kept.revision()
        await self.chance.turns(3)
        return revision if self.chance.random() > 0.05 else None

    async def first(self) -> int:
        return 1

    async def marks(self) -> list[ToldMark]:
        await self.chance.turns(3)
        return list(self.kept.marks.values())

    async def tell_mark(self, mark: ToldMark) -> None:
        await self.chance.turns(3)
        self.kept.marks[mark.revision, mark.machine] = mark
        await self.chance.turns(3)

    async def follow(self, first: int) -> AsyncIterator[Entry]:
        for revision in itertools.count(first):
            await self.chance.turns(self.lag)
            while self.kept.revision() < revision:
                await asyncio.sleep(0)
            yield Entry(revision, self.kept.values[revision - 1])


def answer_of(rules: Rules, message: bytes) -> Answer:
    """The rules' answer to a message, which is carried out."""
    head, _, body = message.decode().partition("\r\n\r\n")
    if head.startswith("GET "):
        status, told = shown(rules, head.split()[1])
        return Answer(status, "application/json", compact(told).encode())
    key, command = json.loads(body)["key"], json.loads(body)["command"]
    reply = rules.reply(f"{key} {command}")
    if reply == f"{key} done {len(rules.kept) + 1}":
        rules.carry_out(key, command)
    status, told = answer_to(reply)
    return Answer(status, "application/json", compact(told).encode())


class ModelConnection(Connection):
    """A connection to the rules, which carry out what is sent some turns later."""

    def __init__(self, rules: Rules, chance: Chance, slowness: int):
        self.begin()
        self.rules, self.chance, self.slowness = rules, chance, slowness
        self.messages: list[bytes] = []

    def send(self, message: bytes) -> None:
        self.messages.append(message)

    def carry_out(self) -> Answer:
        return answer_of(self.rules, self.messages.pop(0))

    def close(self) -> None:
        pass

    async def read(self) -> Answer:
        while not self.messages:
            if self.is_over:
                raise asyncio.IncompleteReadError(b"", None)
            await asyncio.sleep(0)
        await self.chance.turns(self.slowness)
        answer = self.carry_out()
        await self.chance.turns(2)
        return answer


def lines_of(rules: Rules) -> list[bytes]:
    """The accepted commands as lines of the log."""
    return [f"{key} {words}".encode() for key, (_, words) in sorted(rules.kept.items(), key=lambda each: each[1][0])]


class ModelHome(Home):
    """The home of a desk that is a model."""

    def __init__(self, place: "Place"):
        self.place, self.chance = place, place.chance

    async def start(self) -> tuple[list[bytes], Desk]:
        place, chance = self.place, self.chance
        place.commands = ModelConnection(place.rules, chance, chance.choice([2, 8]))
        await chance.turns(3)
        return lines_of(place.rules), Desk(place.commands, [ModelConnection(place.rules, chance, 2)])

    async def end(self) -> list[bytes]:
        await self.chance.turns(3)
        return lines_of(self.place.rules)

    async def roll(self, keys: int) -> None:
        await self.chance.turns(6)
        self.place.olds.append(rows_by(self.place.rules))
        self.place.rules = rolled_desk(self.place.rules, keys)
        await self.chance.turns(6)


class Place:
    """A machine's place: the rules of its desk stay, the machine runs and stops."""

    def __init__(self, number: int, kept: Kept, sizes: Sizes):
        self.name, self.kept, self.chance, self.sizes = f"m{number}", kept, kept.chance, sizes
        self.rules, self.home = Rules(), ModelHome(self)
        self.copies, self.olds = list[Rules](), list[list[str]]()
        self.machine: Machine | None = None
        # the connection of the desk that was started last
        self.commands: ModelConnection
        self.tasks: list[asyncio.Task[Any]] = []

    async def start(self) -> None:
        # the machine may have been broken off while it started
        self.cancel()
        rows, desk = await self.home.start()
        log, sizes = ModelLog(self.kept, self.chance.choice([2, 2, 6, 25])), self.sizes
        machine = Machine(
            self.name, log, Walk(rows), desk, self.home, sizes._replace(mark_lines=self.chance.choice([3, 20, 1_000]))
        )
        await machine.find_mark()
        self.tasks = [asyncio.create_task(work) for work in machine.works()]
        head = self.kept.revision()
        while machine.revision < head:
            self.expect_alive()
            await asyncio.sleep(0)
        if machine.walk.rows:
            raise Fault("rows are left behind the log's end")
        self.machine = machine

    def cancel(self) -> None:
        for task in self.tasks:
            task.cancel()
        self.tasks = []

    def expect_alive(self) -> None:
        for task in self.tasks:
            if task.done() and not task.cancelled():
                task.result()

    def stop(self) -> None:
        """What the desk was given may be done, though nobody reads an answer. The disk may be lost, or an old copy be brought
        back."""
        self.machine = None
        self.cancel()
        for _ in range(self.chance.randint(0, len(self.commands.messages))):
            self.commands.carry_out()
        self.copies.append(copy.deepcopy(self.rules))
        if self.chance.random() < 0.1:
            self.rules = Rules()
        elif self.chance.random() < 0.1:
            self.rules = copy.deepcopy(self.chance.choice(self.copies))


class Shop:
    """A client. It asks, at one machine or another, until it is answered or gives up; copies of its commands come late."""

    def __init__(self, number: int, case: "Case"):
        self.number, self.case, self.chance = number, case, case.chance
        self.known = 0

    def command(self) -> str:
        field, many = self.chance.choice(FIELDS), self.chance.choice([1, 2, 5, 9])
        order = self.chance.randint(1, 4)
        return self.chance.choice(
            [f"deliver {field} {many}", f"writeoff {field} {many}", f"open {order} 9 take {field} {many}"]
            + [f"use {order} {field} 1", f"commit {order}", f"abort {order}", f"open {order} 9 add {field} {many}"]
        )

    async def told(self, work: Callable[[Machine], Awaitable[Answer]]) -> Answer | None:
        """What a machine answers, if it is there and does in time."""
        place = self.chance.choice(self.case.places)
        machine = place.machine
        if machine is None:
            await self.chance.turns(5)
            return None
        task = asyncio.ensure_future(work(machine))
        for _ in range(self.chance.choice([10, PATIENCE, PATIENCE])):
            if task.done() or place.machine is not machine:
                break
            await asyncio.sleep(0)
        if not task.done() or place.machine is not machine:
            task.cancel()
            return None
        self.known = max(self.known, machine.revision)
        return task.result()

    async def ask(self, key: str, command: str) -> Attempt:
        attempt = Attempt(key, command, self.case.now())
        self.case.history.attempts.append(attempt)
        left = [False]
        # that a client is gone is noticed, or not
        is_noticed, known = self.chance.random() < 0.5, self.known
        line = attempt.line().encode()
        answer = await self.told(lambda machine: machine.command(line, known, lambda: is_noticed and left[0]))
        left[0] = True
        if answer:
            attempt.reply = reply_to(answer.status, answer.body.decode())
            attempt.end = self.case.now()
        elif self.chance.random() < 0.3:
            self.case.send_late(line, known)
        return attempt

    async def look(self) -> None:
        target, start = self.chance.choice(VIEWS), self.case.now()
        answer = await self.told(lambda machine: machine.view(target))
        if answer and answer.status in (200, 404):
            self.case.history.views.append(View(target, start, self.case.now(), answer.status, answer.body.decode()))

    async def live(self) -> None:
        for number in range(COMMANDS):
            await self.chance.turns(20)
            key, command = f"K{self.number}-{number}", self.command()
            while not (await self.ask(key, command)).reply and self.chance.random() < 0.97:
                await self.chance.turns(30)
            if self.chance.random() < 0.5:
                await self.look()
            if self.chance.random() < 0.4:
                await self.chance.turns(60)
                command = command if self.chance.random() < 0.7 else self.command()
                while not (await self.ask(key, command)).reply:
                    await self.chance.turns(30)


class Case:
    """One case: machines, clients, and what happens to the machines."""

    def __init__(self, seed: int):
        self.chance = Chance(seed)
        self.kept, self.history = Kept(self.chance), History()
        sizes = Sizes(0, *self.chance.choice(SIZES))
        self.places = [Place(number, self.kept, sizes) for number in range(1, MACHINES + 1)]
        self.moments = itertools.count(1)
        self.late: list[asyncio.Task[None]] = []

    def now(self) -> float:
        return next(self.moments)

    def send_late(self, line: bytes, known: int) -> None:
        """Some time later a copy of a command comes, with what its client knew of the log; nobody reads its answer."""

        async def work() -> None:
            await self.chance.turns(LATE)
            if machine := self.chance.choice(self.places).machine:
                await machine.command(line, known, lambda: False)

        self.late.append(asyncio.create_task(work()))

    async def disturb(self) -> None:
        while True:
            await self.chance.turns(150)
            place = self.chance.choice(self.places)
            place.expect_alive()
            place.stop()
            await self.chance.turns(60)
            await place.start()

    async def play(self) -> None:
        for place in self.places:
            await place.start()
        office = Shop(CLIENTS, self)
        for number, field in enumerate(FIELDS):
            while not (await office.ask(f"F{number}", f"field {field} 0 20 10")).reply:
                pass
        lives = [asyncio.create_task(Shop(number, self).live()) for number in range(CLIENTS)]
        disturber = asyncio.create_task(self.disturb())
        await asyncio.wait({disturber, asyncio.ensure_future(all_of(lives))}, return_when=asyncio.FIRST_COMPLETED)
        if disturber.done():
            disturber.result()
        disturber.cancel()
        await self.settle()

    async def settle(self) -> None:
        """Until all that may come has come, and all machines have carried it out."""
        for place in self.places:
            if place.machine is None:
                await place.start()
        for _ in range(3 * LATE):
            await asyncio.sleep(0)
        while any(place.machine and place.machine.revision < self.kept.revision() for place in self.places):
            for place in self.places:
                place.expect_alive()
            await asyncio.sleep(0)
        for place in self.places:
            place.expect_alive()
            await place.commands.at_most(0)


async def all_of(tasks: list[asyncio.Task[None]]) -> None:
    await asyncio.gather(*tasks)


async def wrong_of(seed: int, counts: dict[str, int]) -> list[str]:
    """What is wrong in a case; what it looked at is added to the counts."""
    case = Case(seed)
    try:
        await asyncio.wait_for(case.play(), CASE_SECONDS)
    except (Fault, asyncio.TimeoutError) as fault:
        return [f"{type(fault).__name__}: {fault}"]
    olds = [old for place in case.places for old in place.olds]
    wrong, found = judged(case.history, [rows_by(place.rules) for place in case.places], olds)
    for name, count in found.items():
        counts[name] = counts.get(name, 0) + count
    return wrong


def play(first: int, count: int) -> tuple[list[str], dict[str, int]]:
    """What is wrong in the first case that is wrong, and what all cases looked at."""
    stockdesk_machine.HEAR_SECONDS, stockdesk_machine.LOOK_LINES, stockdesk_machine.LOOK_SECONDS = 0, 3, None
    counts: dict[str, int] = {}
    for seed in range(first, first + count):
        stockdesk_machine.PUT_SECONDS = seed % 2
        wrong = asyncio.run(wrong_of(seed, counts))
        if wrong:
            return [f"case {seed}: {text}" for text in wrong], counts
    return [], counts


def main() -> None:
    count, first = int(sys.argv[1]), int(sys.argv[2]) if sys.argv[2:] else 0
    wrong, counts = play(first, count)
    print("\n".join(wrong[:5]) or f"nothing is wrong: {counts}", flush=True)
    os._exit(bool(wrong))


if __name__ == "__main__":
    main()

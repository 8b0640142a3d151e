"""One of the machines that hold a desk. It carries the log out on its own desk, adds to the log what was asked for at this
machine, and answers a command once its own desk has."""

import asyncio
import contextlib
import functools
import itertools
import json
import os
import uuid
from collections.abc import Callable, Coroutine, Iterable
from dataclasses import dataclass, replace
from typing import Any

from stockdesk_desk import Answer, Desk, Tell, command_message
from stockdesk_home import Home
from stockdesk_log import Begin, End, Lines, Log, Mark, ToldMark, read_value, value_of
from stockdesk_rolls import Rests, Sizes
from stockdesk_rows import Counts
from stockdesk_tools import Fault, say
from stockdesk_walk import Past, Walk, digest_of

# how many lines an entry has, and how many messages the desk has not answered yet, at the most
ENTRY_LINES, UNANSWERED = 256, 1_000

# how long a machine tries one entry, and after how long the others have said where they stand at a mark, in seconds
PUT_SECONDS, HEAR_SECONDS = 5, 3

# how often a machine looks how full its desk is: after so many lines of the log, and after so many seconds. Of the places from
# which a roll is wanted to the last one there is room for ten times as many lines.
LOOK_LINES: int = 1_000
LOOK_SECONDS: float | None = 5

# how many bytes of a value that is no entry are shown
SHOWN = 60

# a desk that two others contradict ends with this status, and stays down
ASTRAY = 4


def error(word: str) -> Answer:
    return Answer(503, "application/json", b'{"error":"%s"}' % word.encode())


LATE, NO_LOG, ENDED = error("late"), error("log"), error("ended")


def tell_nobody(_: Answer) -> None:
    pass


@dataclass(slots=True)
class Ask:
    """A command that was asked for, and how much of the log had then been fed to the desk, or was known to the client."""

    line: bytes
    base: int
    tell: Tell
    is_gone: Callable[[], bool]


class Machine:
    """A machine by its name, and how far it has come in the log: what stands up to `revision` was passed over or fed to the
    desk."""

    def __init__(self, name: str, log: Log, walk: Walk, desk: Desk, home: Home, sizes: Sizes):
        self.name, self.log, self.walk, self.desk, self.home, self.sizes = name, log, walk, desk, home, sizes
        self.past, self.rests = Past(), Rests()
        self.run = uuid.uuid4().hex[:8].encode()
        # how many lines stand behind the last mark, and behind the last look at the desk
        self.revision, self.first, self.lines, self.unseen, self.has_ended = 0, 0, 0, 0, False
        # whether a desk is there, which ends at a roll; and whether so many lines came that somebody has to look at it
        self.serves, self.fills = asyncio.Event(), asyncio.Event()
        self.serves.set()
        self.waiting: list[Ask] = []
        self.mine: dict[int, list[Ask]] = {}
        self.comes, self.moves, self.wants = asyncio.Event(), asyncio.Event(), asyncio.Event()
        self.telling: set[asyncio.Task[None]] = set()
        self.lookers: list[asyncio.Future[int | None]] = []

    def works(self) -> list[Coroutine[Any, Any, None]]:
        """What a machine does at once, until a fault."""
        return [self.hear(), self.carry_out(), self.add(), self.add_rolls(), self.look()]

    async def hear(self) -> None:
        """Hears the desk, and after a roll the next one."""
        while True:
            await self.serves.wait()
            await self.desk.hear()

    # ---- the place to go on from

    async def find_mark(self) -> None:
        """Begins at the newest mark at which a desk stood that had the first of this one's rows and no others, else where the log
        does. The mark itself comes again, since it may be the end, or a roll that this desk has not done."""
        mark = self.walk.go_to_mark(await self.log.marks())
        self.first = mark or await self.log.first()
        self.revision = max(0, mark - 1)
        self.past.set_mark(mark)

    # ---- the log, carried out

    async def carry_out(self) -> None:
        async for entry in self.log.follow(self.first):
            told = read_value(entry.value)
            if isinstance(told, Lines):
                self.carry_out_lines(entry.revision, told)
            elif isinstance(told, End):
                await self.set_mark(entry.revision)
                self.has_ended = True
            elif isinstance(told, Begin) and self.revision == self.past.mark == 0:
                self.walk.begin(told.places, told.digest)
                await self.set_mark(entry.revision)
            elif isinstance(told, Mark) and self.takes_mark(entry.revision, told):
                await self.set_mark(entry.revision, told.keys)
            elif told is None:
                say(f"passes over revision {entry.revision}, which is no entry of the log: {entry.value[:SHOWN]!r}")
            self.revision = entry.revision
            self.moves.set()
            await self.desk.commands.at_most(UNANSWERED)

    def carry_out_lines(self, revision: int, entry: Lines) -> None:
        asks = self.mine.pop(entry.number, []) if entry.run == self.run else []
        tells = [ask.tell for ask in asks] or [tell_nobody] * len(entry.lines)
        for line, tell in zip(entry.lines, tells, strict=True):
            if self.has_ended or self.past.is_late(line, entry.base):
                tell(ENDED if self.has_ended else LATE)
                continue
            self.past.note(line, revision)
            if not self.walk.passes_over(line):
                self.desk.commands.ask(command_message(line), functools.partial(self.take_answer, line, tell))
        self.lines += len(entry.lines)
        self.unseen += len(entry.lines)
        if self.unseen >= LOOK_LINES:
            self.unseen = 0
            self.fills.set()

    def take_answer(self, line: bytes, tell: Tell, answer: Answer) -> None:
        """Takes an answer of the desk to a command. Fault: it is none, and this machine ends, since the others may have another
        answer."""
        if answer.status not in (200, 400, 409):
            raise Fault(f"the desk answers {answer.status}")
        if answer.status == 200:
            place = json.loads(answer.body)["place"]
            if place > self.walk.place + 1:
                raise Fault(f"the desk has place {place} where the log has {self.walk.place + 1}")
            if place == self.walk.place + 1:
                self.walk.take_place(line)
        tell(answer)

    def takes_mark(self, revision: int, mark: Mark) -> bool:
        """Whether a mark counts: it knows the one before it; or this began at a roll that its desk has not done."""
        is_due = revision == self.first and mark.keys is not None and mark.keys < self.walk.place
        return not self.has_ended and (mark.base >= self.past.mark or is_due)

    async def set_mark(self, revision: int, keys: int | None = None) -> None:
        """The desk stands at a mark, where a roll that leaves so many keys may be done."""
        await self.desk.commands.at_most(0)
        told = ToldMark(revision, self.name, self.walk.place, self.walk.digest.hex())
        if keys is not None and keys < told.place:
            told = await self.roll(told, keys)
        # now, since this forgets where the desk has stood
        self.waiting = self.judged(self.waiting, revision)
        # a mark at which this began is the last one
        before = min(self.past.mark, revision - 1)
        self.past.set_mark(revision)
        self.lines = 0
        task = asyncio.create_task(self.compare(told, before))
        self.telling.add(task)
        task.add_done_callback(self.telling.discard)

    async def roll(self, told: ToldMark, keys: int) -> ToldMark:
        """Rolls the desk up that stands at a mark, once it is told what it has before and behind that. Whoever is stopped
        meanwhile finds by that on which side the desk stands. Fault: the desk is another log's, or the roll fails."""
        if self.walk.rows:
            raise Fault(f"the desk went on where the log has a roll, at {told.revision}: it is another log's desk")
        self.serves.clear()
        await self.desk.end()
        rows = await self.home.end()
        if digest_of(rows).hex() != told.digest:
            raise Fault(f"the desk has other rows than the log at {told.revision}")
        told = told._replace(rolled_place=keys, rolled_digest=digest_of(rows[-keys:]).hex())
        await self.log.tell_mark(told)
        await self.home.roll(keys)
        rows, self.desk = await self.home.start()
        self.walk = Walk(rows)
        if self.walk.go_to_mark([told]) == 0 or self.walk.rows:
            raise Fault(f"the desk that was rolled up at {told.revision} has other rows than the last {keys}")
        self.rests.note()
        self.serves.set()
        return told

    async def compare(self, own: ToldMark, before: int) -> None:
        """Tells where this desk stands at a mark, and hears the others; the mark before stood at that revision. A desk that most
        of them contradict is ended."""
        await self.log.tell_mark(own)
        await asyncio.sleep(HEAR_SECONDS)
        marks = await self.log.marks()
        told = [mark for mark in marks if mark.revision == own.revision]
        others = [mark for mark in told if mark[2:] != own[2:]]
        if others:
            say(f"another desk differs at revision {own.revision}: {own}, {others}")
        if elsewhere := marks_elsewhere(own, before, marks):
            say(f"desks are not compared up to revision {own.revision}, since another log may differ: {own}, {elsewhere}")
        if len(others) > len(told) - len(others):
            os._exit(ASTRAY)

    # ---- the log, added to

    async def add(self) -> None:
        """Has etcd keep what has come meanwhile, one entry after the other: were several under way, each would be smaller, and
        the desk would sync more often. One that etcd may have kept is tried again as it is: where it was kept, the lines of
        the second are late."""
        for number in itertools.count():
            await self.comes.wait()
            await self.serves.wait()
            if self.lines > self.sizes.mark_lines:
                self.lines = 0
                await self.reach(await self.log.put(b"mark %d" % self.past.mark))
            asks, self.waiting = self.judged(self.waiting[:ENTRY_LINES], self.revision), self.waiting[ENTRY_LINES:]
            if not self.waiting:
                self.comes.clear()
            if asks:
                await self.add_entry(number, asks)

    async def add_entry(self, number: int, asks: list[Ask]) -> None:
        self.mine[number] = asks
        if not await self.try_put(value_of(self.run, number, self.revision, [ask.line for ask in asks])):
            for ask in [*self.mine.pop(number, []), *self.waiting]:
                ask.tell(NO_LOG)
            self.waiting = []
            self.comes.clear()
        await self.desk.commands.at_most(UNANSWERED)

    def judged(self, asks: list[Ask], revision: int) -> list[Ask]:
        """Those commands for which somebody waits, and which are not late so far, as if they were asked for at this revision. Who
        asked for a late one is told so."""
        found = []
        for ask in asks:
            if ask.is_gone() or self.past.is_late(ask.line, ask.base):
                ask.tell(LATE)
            else:
                found.append(replace(ask, base=revision))
        return found

    async def add_rolls(self) -> None:
        """Adds a roll where this machine's desk wants one. The mark was looked at before the desk, so the roll does not count
        where another one came meanwhile."""
        while True:
            with contextlib.suppress(asyncio.TimeoutError):
                await asyncio.wait_for(self.fills.wait(), LOOK_SECONDS)
            self.fills.clear()
            mark, keys = self.past.mark, await self.keys_wanted()
            if keys is not None:
                await self.reach(await self.log.put(b"roll %d %d" % (mark, keys)))

    async def keys_wanted(self) -> int | None:
        """How many keys are to stay at a roll that this machine's desk wants now; None where it wants none."""
        answer = await self.shown("/v1/desk")
        if answer.status != 200 or self.has_ended:
            return None
        told = json.loads(answer.body)
        counts = Counts(told["places"], told["open"], told["fields"], told["orders"])
        return self.sizes.keys_for(counts, self.rests.at())

    async def try_put(self, value: bytes) -> int | None:
        clock = asyncio.get_running_loop()
        latest = clock.time() + PUT_SECONDS
        while not (done := await self.log.put(value)) and clock.time() < latest:
            pass
        return done

    # ---- what is asked for

    async def command(self, line: bytes, known: int | None, is_gone: Callable[[], bool]) -> Answer:
        """The answer to a command of a client that knows so much of the log."""
        if self.has_ended:
            return ENDED
        waiter: asyncio.Future[Answer] = asyncio.get_running_loop().create_future()
        base = self.revision if known is None else min(known, self.revision)
        self.waiting.append(Ask(line, base, teller(waiter), is_gone))
        self.comes.set()
        return await waiter

    async def view(self, target: str) -> Answer:
        """What the desk shows behind all that was answered anywhere before this was asked."""
        looker: asyncio.Future[int | None] = asyncio.get_running_loop().create_future()
        self.lookers.append(looker)
        self.wants.set()
        return await self.shown(target) if await self.reach(await looker) else NO_LOG

    async def shown(self, target: str) -> Answer:
        """What the desk shows; while it is rolled up, that is waited for."""
        await self.serves.wait()
        waiter: asyncio.Future[Answer] = asyncio.get_running_loop().create_future()
        self.desk.view(target, teller(waiter))
        return await waiter

    async def look(self) -> None:
        """Looks for the log's end, behind the moment at which each who wants it came."""
        while True:
            await self.wants.wait()
            self.wants.clear()
            lookers, self.lookers = self.lookers, []
            head = await self.log.head()
            for looker in lookers:
                if not looker.done():
                    looker.set_result(head)

    async def reach(self, revision: int | None) -> bool:
        """Waits until the log was fed so far. Whether there is such a revision."""
        while revision is not None and self.revision < revision:
            self.moves.clear()
            await self.moves.wait()
        return revision is not None

    async def is_well(self) -> Answer:
        if self.has_ended:
            return ENDED
        return NO_LOG if await self.log.head() is None else Answer(200, "text/plain", b"ok\n")


def marks_elsewhere(own: ToldMark, before: int, marks: Iterable[ToldMark]) -> list[ToldMark]:
    """What others have told at marks that show another log. In this machine's log its own mark is the next one behind the
    revision `before`, so a log that has a mark between the two is another one. So may be the log of those who told later marks,
    where nobody told this machine's. But where this machine told later ones, too, in an earlier run, the others may have begun
    at its mark without telling it."""
    others = [mark for mark in marks if mark.machine != own.machine and mark.revision > before]
    is_newest = all(mark.revision <= own.revision for mark in marks if mark.machine == own.machine)
    is_alone = is_newest and all(mark.revision != own.revision for mark in others)
    return [mark for mark in others if mark.revision < own.revision or is_alone]


def teller(waiter: "asyncio.Future[Answer]") -> Tell:
    """Gives the answer to one who waits, unless he is gone."""
    return lambda answer: None if waiter.done() else waiter.set_result(answer)

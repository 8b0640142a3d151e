"""Random logs, and a machine that carries out such a log and is stopped and started again anywhere. The machine is the code of
the tool; the log is written beforehand, and the desk is a model.

    python3 -m support.replica_walks COUNT    tells the first case that is wrong"""

import asyncio
import contextlib
import copy
import io
import os
import random
import sys
from collections import Counter
from collections.abc import AsyncIterator, Callable, Iterable

import support  # noqa: F401
import stockdesk_machine
from stockdesk_desk import Answer, Connection, Desk
from stockdesk_home import Home
from stockdesk_log import Entry, Log, ToldMark
from stockdesk_machine import Machine
from stockdesk_rolls import Sizes
from stockdesk_tools import Fault
from stockdesk_walk import Walk, link
from support.replica_steps import answer_of, lines_of
from support.rolls import rolled_desk
from support.rows import rows_by
from support.rules import Rules

WORDS = [f"{kind} N1 A-1 {many}" for kind in ("deliver", "writeoff") for many in (1, 2, 3)]
WORDS += ["open 1 5 take N1 A-1 2", "open 2 5 add N1 A-1 2", "commit 1", "abort 2", "use 1 N1 A-1 1", "expire 1", "expire 5"]
# after so many answers the desk is stopped; None where it is not
STOPS = [1, 1, 2, 3, 5, 9, 20, None]
# nothing is added to a log that is written already; how many keys stay at a roll there does not follow from this
SIZES, OTHER_SIZES = Sizes(10, 1_000, 1_000), Sizes(10, 1_000, 1)


class Stopped(Exception):
    """The desk stops."""


class WrittenLog(Log):
    """A log that is written already, and the marks that machines have told."""

    def __init__(self, entries: list[Entry]):
        self.entries, self.told = entries, set[ToldMark]()

    async def follow(self, first: int) -> AsyncIterator[Entry]:
        for entry in self.entries:
            if entry.revision >= first:
                yield entry

    async def first(self) -> int:
        return 1

    async def marks(self) -> list[ToldMark]:
        return list(self.told)

    async def tell_mark(self, mark: ToldMark) -> None:
        self.told.add(mark)


class StoppedConnection(Connection):
    """A connection to the rules, which answer at once, for so many messages. The last of these is carried out, but its answer
    never comes."""

    def __init__(self, rules: Rules, stop: int | None):
        self.begin()
        self.rules, self.stop = rules, stop

    def close(self) -> None:
        pass

    def ask(self, message: bytes, tell: Callable[[Answer], None]) -> None:
        answer = answer_of(self.rules, message)
        self.asked, self.answered = self.asked + 1, self.answered + 1
        if self.asked == self.stop:
            raise Stopped
        tell(answer)


class StoppedHome(Home):
    """The home of a desk that is a model, and stops where it is told; or at a roll, before it or behind it. It knows the lines
    that rolls have taken away, and which of them were done again."""

    def __init__(self, chance: random.Random | None = None):
        self.rules, self.chance, self.stop = Rules(), chance, None if chance is None else chance.choice(STOPS)
        self.gone, self.again, self.rolls = set[bytes](), set[bytes](), 0

    async def start(self) -> tuple[list[bytes], Desk]:
        return lines_of(self.rules), Desk(StoppedConnection(self.rules, self.stop), [])

    async def end(self) -> list[bytes]:
        self.may_stop()
        return lines_of(self.rules)

    async def roll(self, keys: int) -> None:
        self.may_stop()
        self.note(keys)
        self.rules, self.rolls = rolled_desk(self.rules, keys), self.rolls + 1
        self.may_stop()

    def may_stop(self) -> None:
        if self.chance and self.chance.random() < 0.2:
            raise Stopped

    def note(self, keys: int) -> None:
        lines = lines_of(self.rules)
        self.again |= self.gone & set(lines)
        self.gone |= set(lines[:-keys])

    def begin(self, rules: Rules) -> None:
        """The desk is another one, and stops elsewhere."""
        assert self.chance
        self.rules, self.stop = rules, self.chance.choice(STOPS)


def random_value(chance: random.Random, revision: int, fixed: dict[str, str]) -> bytes:
    """A value for one of a few keys, mostly with the same command each time, asked for at some earlier revision."""
    base = max(0, revision - chance.choice([1, 1, 2, 3, 6]))
    keys = chance.choices(list(fixed), k=chance.choice([1, 1, 2, 4]))
    lines = [f"{key} {fixed[key] if chance.random() < 0.9 else chance.choice(WORDS)}" for key in keys]
    return "\n".join([f"lines a {revision} {base}", *lines]).encode()


def random_log(chance: random.Random) -> list[Entry]:
    """A log about a small field, so that much is refused now and accepted later; with some marks and rolls, and with revisions
    that are not the log's. Behind a roll most keys are others."""
    fixed = {f"K{each}": chance.choice(WORDS) for each in range(chance.choice([3, 6, 12]))}
    entries, mark = [Entry(1, b"lines a 0 0\nF field N1 A-1 0 4 2")], 0
    rolls = chance.choice([0, 0.06, 0.15])
    for number in range(chance.randrange(3, 60)):
        revision = entries[-1].revision + chance.choice([1, 1, 2])
        base = chance.choice([mark, mark, mark, 0])
        if (kind := chance.random()) < rolls:
            entries.append(Entry(revision, b"roll %d %d" % (base, chance.choice([1, 2, 3, 5, 9]))))
            fixed = {key if chance.random() < 0.3 else f"{key}-{number}": chance.choice(WORDS) for key in fixed}
        else:
            entries.append(Entry(revision, b"mark %d" % base if kind > 0.92 else random_value(chance, revision, fixed)))
        mark = mark if entries[-1].value.startswith(b"lines") else revision
    return entries


async def is_carried_out(log: WrittenLog, home: StoppedHome, sizes: Sizes) -> bool:
    """Whether a machine with this desk came to the log's end, or was stopped before."""
    rows, desk = await home.start()
    machine = Machine("m", log, Walk(rows), desk, home, sizes)
    await machine.find_mark()
    try:
        await machine.carry_out()
    except Stopped:
        return False
    finally:
        await asyncio.sleep(0)
    if machine.walk.rows:
        raise Fault("rows are left behind the log's end")
    return True


async def wrong_of(seed: int, counts: Counter[str]) -> str:
    """What is wrong in a case: wherever a desk is stopped, it comes to the rows of one that never was. A line that is done again
    after it went is like another desk's, so a log that has one is passed over."""
    chance = random.Random(seed)
    entries = random_log(chance)
    whole, home, log = StoppedHome(), StoppedHome(chance), WrittenLog(entries)
    copies = [Rules()]
    try:
        await is_carried_out(WrittenLog(entries), whole, SIZES)
        whole.note(1)
        counts["logs passed over" if whole.again else "logs with rolls" if whole.rolls else "logs"] += 1
        while not whole.again and not await is_carried_out(log, home, OTHER_SIZES):
            # the machine begins anew, with the desk that it has or a copy of before
            copies.append(copy.deepcopy(home.rules))
            home.begin(copy.deepcopy(chance.choice(copies) if chance.random() < 0.05 else home.rules))
    except Fault as fault:
        return f"case {seed}: {fault}"
    odd = set() if whole.again else set(rows_by(home.rules)) ^ set(rows_by(whole.rules))
    return f"case {seed}: other rows: {odd}" if odd else ""


def first_wrong(count: int) -> tuple[str, Counter[str]]:
    """What is wrong in the first case that is wrong, and how many logs were looked at."""
    stockdesk_machine.HEAR_SECONDS = 0
    counts = Counter[str]()
    return next((wrong for seed in range(count) if (wrong := asyncio.run(wrong_of(seed, counts)))), ""), counts


async def words_on_the_way(log: WrittenLog) -> str:
    """What a machine says that begins with no desk and carries the log out."""
    home = StoppedHome()
    machine = Machine("m1", log, Walk([]), (await home.start())[1], home, SIZES)
    with contextlib.redirect_stderr(io.StringIO()) as said:
        await machine.carry_out()
        await asyncio.gather(*machine.telling)
    return said.getvalue()


def said_on_the_way(log: WrittenLog) -> str:
    stockdesk_machine.HEAR_SECONDS = 0
    return asyncio.run(words_on_the_way(log))


def said_of_marks(others: Iterable[int], own: Iterable[int]) -> str:
    """What a machine says that passes marks at the revisions 5 and 9, where another one with the same desk has told marks at the
    revisions `others`, and this one, before it lost its desk, at the revisions `own`."""
    line = b"F field N1 A-1 0 4 2"
    log = WrittenLog([Entry(1, b"lines a 0 0\n" + line), Entry(5, b"mark 0"), Entry(9, b"mark 5")])
    for name, revisions in [("m2", others), ("m1", own)]:
        log.told |= {ToldMark(revision, name, 1, link(b"", line).hex()) for revision in revisions}
    return said_on_the_way(log)


def main() -> None:
    wrong, counts = first_wrong(int(sys.argv[1]))
    print(wrong or f"nothing is wrong: {dict(counts)}", flush=True)
    os._exit(bool(wrong))


if __name__ == "__main__":
    main()

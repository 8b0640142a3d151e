"""Whether the answers that many clients heard at once fit one order of all that they asked, by the rules of the desk."""

from bisect import bisect_left, bisect_right
from collections.abc import Callable, Iterable, Sequence
from dataclasses import dataclass
from itertools import accumulate

from support.asks import NO_MEMORY, NEVER, Ask
from support.programs import done, expect, new_desk
from support.rows import rows_by
from support.rules import Rules
from support.tables import rows_of, tables_of

# commands by their places, from 1 on, each with its key
Order = list[tuple[str, str]]


def desk_with(program: str, folder: str, order: Order, name: str = "desk.db") -> str:
    """A desk on which these commands were done."""
    path = new_desk(program, folder, name)
    found = done(program, ["run", path], "".join(f"{key} {command}\n" for key, command in order))
    expect(found == [f"{key} done {place}" for place, (key, _) in enumerate(order, 1)], f"{found}")
    return path


def rules_behind(order: Order) -> Rules:
    """The rules after these commands."""
    rules = Rules()
    for key, command in order:
        rules.carry_out(key, command)
    return rules


def told_order(before: Order, asks: Iterable[Ask]) -> Order:
    """The commands in the order of the places in their answers, after those that were there before; none is missing."""
    lines = {place: {line} for place, line in enumerate(before, 1)}
    for ask in asks:
        if (place := ask.place()) is not None:
            key, _, command = ask.line.partition(" ")
            lines.setdefault(place, set()).add((key, command))
    expect(sorted(lines) == list(range(1, len(lines) + 1)), f"places are missing among {sorted(lines)}")
    expect(all(len(each) == 1 for each in lines.values()), f"a place was told of two commands: {lines}")
    return [line for place in sorted(lines) for line in lines[place]]


def running(numbers: Iterable[int], choose: Callable[[int, int], int]) -> list[int]:
    """For each number, the one that is chosen among it and all before it."""
    return list(accumulate(numbers, choose))


class Bounds:
    """After how many places a question may be answered, by moments: what was answered before the question was sent comes before
    it, and what was sent after its answer comes after it."""

    def __init__(self, order: Order, before: int, asks: Iterable[Ask]):
        places = {f"{key} {command}": place for place, (key, command) in enumerate(order, 1) if place > before}
        placed = [(ask, places[ask.line]) for ask in asks if ask.line in places and ask.was_sent()]
        told = sorted((ask.told, place) for ask, place in placed if ask.place())
        first_sent: dict[int, float] = {}
        for ask, place in placed:
            first_sent[place] = min(ask.sent, first_sent.get(place, NEVER))
        sent = sorted((moment, place) for place, moment in first_sent.items())
        self.told_at, self.sent_at = [moment for moment, _ in told], [moment for moment, _ in sent]
        self.greatest = [0, *running([place for _, place in told], max)]
        self.least_left = running([place for _, place in reversed(sent)], min)[::-1]

    def least(self, ask: Ask) -> int:
        return self.greatest[bisect_left(self.told_at, ask.sent)]

    def most(self, ask: Ask) -> float:
        later = bisect_right(self.sent_at, ask.told)
        return self.least_left[later] - 1 if later < len(self.least_left) else NEVER


@dataclass
class Talk:
    """What one client asked, in its order; how many of its questions fit so far, and the least number of places after which the
    next may be answered."""

    asks: Sequence[Ask]
    least: int
    fitting: int = 0

    def go_on(self, desk: Rules, bounds: Bounds) -> None:
        """Answers questions by the rules, each as early as its answer allows."""
        behind = len(desk.kept)
        while self.fitting < len(self.asks):
            ask = self.asks[self.fitting]
            place = ask.place() or 0
            if behind < max(self.least, place - 1, bounds.least(ask)) or not ask.fits(desk):
                return
            expect(behind <= bounds.most(ask), f"{ask}: it fits behind {behind} places, and comes behind {bounds.most(ask)}")
            self.least = max(behind, place)
            self.fitting += 1


def expect_one_order(order: Order, before: int, talks: Iterable[Sequence[Ask]]) -> Rules:
    """Expects that each answer is that of the rules after some place of this order, of which `before` places were there before
    all questions: the questions of one client come in its order, and all come in the order of time. Returns the desk after all
    commands."""
    talks = list(talks)
    each = [Talk([ask for ask in asks if not ask.is_lost()], before) for asks in talks]
    # what was sent and not answered may still have been done
    desk, bounds = Rules(), Bounds(order, before, [ask for asks in talks for ask in asks])
    for place, (key, command) in enumerate(order, 1):
        if place > before:
            all_go_on(each, desk, bounds)
        found = desk.reply(f"{key} {command}")
        expect(found == f"{key} done {place}", f"the command of place {place} is not accepted there: {command}: {found}")
        desk.carry_out(key, command)
    all_go_on(each, desk, bounds)
    stuck = [(talk.asks[talk.fitting], talk.least) for talk in each if talk.fitting < len(talk.asks)]
    expect(not stuck, f"{len(stuck)} answers fit behind none of {len(order)} places from these on: {stuck[:3]}")
    return desk


def all_go_on(talks: Iterable[Talk], desk: Rules, bounds: Bounds) -> None:
    for talk in talks:
        talk.go_on(desk, bounds)


def expect_kept(path: str, before: Order, talks: Iterable[Sequence[Ask]]) -> Order:
    """Expects that a desk that was stopped has kept all that was answered as done; nothing that was not sent, or that was
    answered as out of memory; and what the rules make of it. Returns all commands by their places, those of `before` first."""
    talks = list(talks)
    kept = sorted(tables_of(path)["kept"], key=lambda row: row.place)
    order = [(row.reqkey, row.words) for row in kept]
    may = {ask.line for asks in talks for ask in asks if ask.was_sent() and ask.answer != NO_MEMORY}
    others = [line for line in order[len(before) :] if " ".join(line) not in may]
    expect(not others, f"it is kept, and was not sent, or told to lack memory: {others}")
    desk = expect_one_order(order, len(before), talks)
    expect(order[: len(before)] == before and rows_of(path) == rows_by(desk), f"other rows behind {len(order)} commands")
    return order

"""What clients asked of a desk on several machines, what they were answered, and the judgement: is there one order of all
commands, in agreement with time, in which the rules give these answers? The desk may have been rolled up meanwhile. The places
here are those of a desk that never was."""

import bisect
import itertools
import json
from collections import Counter
from collections.abc import Iterable, Mapping
from dataclasses import dataclass, field
from typing import Any, NamedTuple

from support.asks import NEVER
from support.messages import answer_to
from support.rolls import rolled_desk
from support.rows import rows_by
from support.rules import Rules

# a key and its command, in the order of places
Kept = list[tuple[str, str]]


@dataclass(eq=False)
class Attempt:
    """One time that a command was asked for. `reply` is its answer: `done PLACE`, `refused CODE NAME LINE`, or nothing where no
    answer says what became of the command."""

    key: str
    command: str
    start: float
    end: float = NEVER
    reply: str = ""

    def place(self) -> int | None:
        return int(self.reply[5:]) if self.reply.startswith("done ") else None

    def is_refused(self) -> bool:
        return self.reply.startswith("refused ")

    def line(self) -> str:
        return f"{self.key} {self.command}"

    def fits(self, desk: Rules) -> bool:
        # a text that is no command is answered without its key
        return desk.reply(self.line()) in (f"{self.key} {self.reply}", f"- {self.reply}")

    def __str__(self) -> str:
        return f"{self.line()}: {self.reply or 'no answer'}"


@dataclass(eq=False)
class View:
    """The answer to a view."""

    target: str
    start: float
    end: float
    status: int
    body: str

    def fits(self, desk: Rules) -> bool:
        return (self.status, json.loads(self.body)) == shown(desk, self.target)

    def __str__(self) -> str:
        return f"{self.target}: {self.status} {self.body}"


@dataclass
class History:
    attempts: list[Attempt] = field(default_factory=list)
    views: list[View] = field(default_factory=list)


class Roll(NamedTuple):
    """A roll at which so many keys stayed, behind so many places of all; and the rows of the desk before."""

    place: int
    keys: int
    rows: list[str]


class Life(NamedTuple):
    """All that was done, and the rolls among it."""

    kept: Kept
    rolls: list[Roll]


def kept_in(rows: list[str]) -> Kept:
    """The commands that a desk with these rows has kept."""
    cells = [line.split("|") for line in rows if line.startswith("kept|")]
    return [(key, command) for _, key, _, command in sorted(cells, key=lambda row: int(row[2]))]


def staying(old: Kept, new: Kept) -> int:
    """How many of the last commands of a desk are the first of another one, which has not all of them; 0 where none are."""
    at = old.index(new[0]) if new and new[0] in old else 0
    return len(old) - at if at and old[at:] == new[: len(old) - at] else 0


def life_of(rows: list[str], olds: list[list[str]]) -> Life:
    """What was done before a desk had these rows; `olds` are the rows of the desks that were rolled up, in any order."""
    news, before = kept_in(rows), [(kept_in(old), old) for old in olds]
    parts, rolls = list[Kept](), list[Roll]()
    while found := [(keys, -len(kept), kept, old) for kept, old in before if (keys := staying(kept, news))]:
        keys, _, kept, old = max(found)
        parts.append(news[keys:])
        rolls.append(Roll(len(parts), keys, old))
        news = kept
    parts.append(news)
    ends = list(itertools.accumulate(map(len, reversed(parts))))
    return Life(sum(reversed(parts), []), [Roll(end, *roll[1:]) for end, roll in zip(ends, reversed(rolls))])


def shown(desk: Rules, target: str) -> tuple[int, dict[str, Any]]:
    """What the rules show for the target of a view."""
    kind, *names = target.removeprefix("/v1/").split("/")
    if kind == "desk":
        counts = {"fields": len(desk.fields), "open": len(desk.open), "orders": len(desk.orders), "places": len(desk.kept)}
        return 200, {"clock": desk.clock, **counts}
    if kind == "keys":
        found = desk.kept.get(names[0])
        return (200, {"place": found[0], "command": found[1]}) if found else (404, {"error": "none"})
    return answer_to(desk.reply(" ".join(["?", kind.removesuffix("s"), *names])))


def reply_to(status: int, body: str) -> str:
    """The line that answers a script where HTTP answers so; nothing where the answer does not say what became of a command."""
    if status not in (200, 400, 409):
        return ""
    told = json.loads(body)
    return f"done {told['place']}" if status == 200 else f"refused {told['code']} {told['refused']} {told['line']}"


class Windows:
    """Which ledgers, by their places, may have answered between two moments: all commands that were answered as done before the
    first moment are in such a ledger, and none that was asked for only after the second."""

    def __init__(self, attempts: Iterable[Attempt], kept: Kept):
        self.count = len(kept)
        self.asked = first_asked(attempts, kept)
        places = {key: place for place, (key, _) in enumerate(kept, 1)}
        told = sorted((each.end, places.get(each.key, 0)) for each in attempts if each.place())
        self.told_at = [end for end, _ in told]
        self.told = running([place for _, place in told], max)
        asked = sorted((start, places[key]) for key, start in self.asked.items())
        self.asked_at = [start for start, _ in asked]
        self.least = running([place for _, place in reversed(asked)], min)[::-1]

    def low(self, start: float) -> int:
        at = bisect.bisect_left(self.told_at, start)
        return self.told[at - 1] if at else 0

    def high(self, end: float) -> int:
        at = bisect.bisect_right(self.asked_at, end)
        return self.least[at] - 1 if at < len(self.least) else self.count


def running(values: Iterable[int], choose: Any) -> list[int]:
    """The greatest, or the least, of the values so far."""
    found: list[int] = []
    for value in values:
        found.append(choose(found[-1], value) if found else value)
    return found


def first_asked(attempts: Iterable[Attempt], kept: Kept) -> dict[str, float]:
    """When each kept command was asked for first."""
    commands = dict(kept)
    found: dict[str, float] = {}
    for each in attempts:
        if commands.get(each.key) == each.command:
            found[each.key] = min(found.get(each.key, NEVER), each.start)
    return found


def wrong_places(history: History, life: Life, windows: Windows) -> list[str]:
    """Commands that were answered as done and are not kept, or are done twice; places that no ledger has; and places that nobody
    asked for, or that came before time allows."""
    gone = [0, *(roll.place - roll.keys for roll in life.rolls)]
    lost = [each for each in history.attempts if (at := each.place()) and not has_place(each, at, life.kept, gone)]
    wrong = [f"is not kept: {each}" for each in lost]
    twice = Counter(key for key, _ in life.kept)
    wrong += [f"{key} is done {count} times" for key, count in twice.items() if count > 1]
    wrong += [f"nobody asked for {key} {command}" for key, command in life.kept if key not in windows.asked]
    for place, (key, _) in enumerate(life.kept, 1):
        if place <= (low := windows.low(windows.asked.get(key, NEVER))) and key in windows.asked:
            wrong.append(f"{key} has place {place}, and was first asked for when {low} was told")
    return wrong


def has_place(attempt: Attempt, at: int, kept: Kept, gone: list[int]) -> bool:
    """Whether a command has this place, once so many keys have gone."""
    return any(kept[at + less - 1 : at + less] == [(attempt.key, attempt.command)] for less in gone)


def done_after_all(attempts: Iterable[Attempt], kept: Kept) -> list[str]:
    """Commands that are done although the client that asked last for them was told that they are refused."""
    last = {each.key: each for each in sorted(attempts, key=lambda each: each.start)}
    commands = dict(kept)
    return [
        f"is done after all: {each}" for each in last.values() if each.is_refused() and commands.get(each.key) == each.command
    ]


class Explained:
    """Answers, each of which has to be the answer of a ledger of its time. What is done has its place, and so is not looked at
    where no roll changes places."""

    def __init__(self, history: History, windows: Windows, has_rolls: bool):
        told = [each for each in history.attempts if each.is_refused() or (has_rolls and each.reply)]
        asks: list[Attempt | View] = [*told, *history.views]
        self.count = len(asks)
        found = [(windows.low(each.start), windows.high(each.end), each) for each in asks]
        self.coming = sorted(found, key=lambda each: -each[0])
        self.open: list[tuple[int, int, Attempt | View]] = []

    def look(self, place: int, desks: list[Rules]) -> list[str]:
        """The desk has come to a place, or is rolled up there. Answers that are those of one of these desks are explained;
        answers whose time ends here unexplained are returned as wrong."""
        while self.coming and self.coming[-1][0] <= place:
            self.open.append(self.coming.pop())
        self.open = [each for each in self.open if not any(each[2].fits(desk) for desk in desks)]
        late = [each for each in self.open if each[1] <= place]
        self.open = [each for each in self.open if each[1] > place]
        return [f"no ledger from {low} to {high} explains {ask}" for low, high, ask in late]


def odd_rows(desk: Rules, rows: list[str]) -> list[str]:
    odd = sorted(set(rows) ^ set(rows_by(desk)))
    return [f"rows that the rules do not have: {odd[:4]}"] if odd else []


def rolled_at(desk: Rules, rolls: Iterable[Roll]) -> tuple[list[Rules], list[str]]:
    """The desk, and the one behind each of these rolls, one behind the other; and rows before them that the rules do not have."""
    desks, wrong = [desk], list[str]()
    for roll in rolls:
        wrong += odd_rows(desks[-1], roll.rows)
        desks.append(rolled_desk(desks[-1], roll.keys))
    return desks, wrong


def wrong_answers(history: History, life: Life, windows: Windows, rows: list[str]) -> list[str]:
    """Answers that the rules do not give, and rows that the rules do not have."""
    desk, explained = Rules(), Explained(history, windows, bool(life.rolls))
    wrong = explained.look(0, [desk])
    for place, (key, command) in enumerate(life.kept, 1):
        if (said := desk.reply(f"{key} {command}")) != f"{key} done {len(desk.kept) + 1}":
            return [*wrong, f"at place {place} the rules answer {said}"]
        desk.carry_out(key, command)
        desks, odd = rolled_at(desk, [roll for roll in life.rolls if roll.place == place])
        wrong += odd + explained.look(place, desks)
        desk = desks[-1]
    return wrong + odd_rows(desk, rows)


def judged(history: History, tables: list[list[str]], olds: Iterable[list[str]] = ()) -> tuple[list[str], Mapping[str, int]]:
    """What is wrong with the answers, and with the rows of all machines; and how much was looked at. `olds` are the rows of desks
    before they were rolled up."""
    rolled = sorted({tuple(each): each for each in olds}.values())
    life = life_of(tables[0], rolled)
    wrong = [f"machine {nr} has other rows: {sorted(set(each) ^ set(tables[0]))[:4]}" for nr, each in enumerate(tables, 1)]
    wrong = [text for text, each in zip(wrong, tables) if each != tables[0]]
    wrong += [f"{len(rolled)} desks were rolled up, {len(life.rolls)} of them one behind the other"] * (
        len(rolled) > len(life.rolls)
    )
    windows = Windows(history.attempts, life.kept)
    wrong += wrong_places(history, life, windows) + done_after_all(history.attempts, life.kept)
    wrong += wrong_answers(history, life, windows, tables[0])
    told = [each for each in history.attempts if each.reply]
    counts = {"places": len(life.kept), "asked": len(history.attempts), "done": sum(each.place() is not None for each in told)}
    counts |= {"rolls": len(life.rolls)} if life.rolls else {}
    return wrong, {**counts, "refused": sum(each.is_refused() for each in told), "views": len(history.views)}

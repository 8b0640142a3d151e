"""Carriers of deals in threads, on desks by the rules. At each message chance decides who goes on, and whether the message is
lost, late or comes twice, whether the carrier is killed before or after it or waits in vain, or whether others are at work. After
each message what the deal has moved is all, nothing or under way; at the end it is all or nothing. One thread runs at a time, so
a seed determines everything."""

import queue
import random
import threading
from collections import Counter
from collections.abc import Callable, Sequence
from dataclasses import dataclass, field
from types import ModuleType
from typing import Any

from support.deal_desks import (
    MOMENT,
    NUMBER,
    ROOM,
    Places,
    Told,
    bounds_fault,
    fault,
    fill,
    is_moved,
    others_command,
    words_of,
)
from support.programs import expect
from support.rules import ABORTED, COMMITTED, PLACES

import stockdesk_deals
from stockdesk_remote import Desk, NoAnswer

# a run that goes on for so many messages never ends
MOST_MESSAGES = 3_000
# what becomes of a message and of its carrier; a carrier that has no answer asks again, or has waited in vain
TROUBLES = ["lost", "answer lost", "late", "twice", "killed before", "killed behind", "killed, late"]
TROUBLES += ["in vain, before", "in vain, behind", "in vain, late"]
SECONDS = 60


class Stopped(BaseException):
    """A carrier is killed."""


@dataclass
class Message:
    desk: int
    method: str
    target: str
    body: str | None


class Wire(Desk):
    """A desk as a carrier asks it: an answer comes when the run lets it come."""

    def __init__(self, carrier: "Carrier", number: int):
        super().__init__(f"desk {number}")
        self.carrier, self.number = carrier, number

    def ask(self, method: str, target: str, body: str | None = None) -> Told:
        return self.carrier.exchange(Message(self.number, method, target, body))


class Carrier(threading.Thread):
    """A carrier that says whenever it waits for an answer, and when it ends."""

    def __init__(self, act: Callable[["Carrier"], Any], told: "queue.Queue[Carrier]"):
        super().__init__(daemon=True)
        self.act, self.told = act, told
        self.answers: "queue.Queue[Told | NoAnswer | None]" = queue.Queue()
        self.message: Message | None = None
        self.end: Any = None
        self.fault: Exception | None = None

    def run(self) -> None:
        try:
            self.end = self.act(self)
        except (Stopped, NoAnswer):
            pass
        except Exception as fault:
            self.fault = fault
        self.message = None
        self.told.put(self)

    def exchange(self, message: Message) -> Told:
        self.message = message
        self.told.put(self)
        answer = self.answers.get()
        if answer is None:
            raise Stopped
        if isinstance(answer, NoAnswer):
            raise answer
        return answer


@dataclass
class Counts:
    """What happened in all runs."""

    found: Counter[str] = field(default_factory=Counter)

    def text(self) -> str:
        return ", ".join(f"{count:,} {what}" for what, count in sorted(self.found.items()))


class Run:
    """A deal, the desks by the rules, and what has not come yet."""

    def __init__(self, seed: object, counts: Counts, module: ModuleType = stockdesk_deals):
        self.chance, self.counts, self.module = random.Random(str(seed)), counts, module
        chance = self.chance
        self.told: "queue.Queue[Carrier]" = queue.Queue()
        self.late: list[Message] = []
        self.terms = [self.lines(desk) for desk in range(chance.choice([2, 2, 3]))]
        self.until = chance.choice([MOMENT, module.LATEST])
        self.trouble, self.work = chance.choice([0.05, 0.2, 0.4]), chance.choice([0.0, 0.2, 0.6])
        self.desks = [self.desk(number) for number in range(len(self.terms))]

    def lines(self, desk: int) -> Any:
        """What the deal does at a desk."""
        found = []
        for article in range(1, self.chance.choice([1, 1, 2]) + 1):
            way = self.chance.choice(["take", "add"])
            found.append(self.module.Line(way, f"N{desk}", f"A-{article}", self.chance.randint(1, 9)))
        return tuple(found)

    def desk(self, number: int) -> Places:
        """With room for the deal, or nearly so, and with places, or few of them."""
        desk = Places(places=self.chance.choice([PLACES] * 3 + [self.chance.randint(4, 12)]))
        for article in (1, 2):
            start = self.chance.choice([4, 8, 40, 40, 40, 92, 96])
            expect(desk.does(f"F{article}", f"field {words_of(number, article)} 0 {ROOM} {start}")[0] == 200, "no field")
        return desk

    # ---- who is at work

    def knows(self, carrier: Carrier) -> Any:
        """Carries the deal, knowing what it is to do."""
        sides = [self.module.Side(Wire(carrier, number), lines) for number, lines in enumerate(self.terms)]
        return self.module.Deal(NUMBER, sides, self.until).carry()

    def takes_up(self, carrier: Carrier) -> Any:
        """Takes the deal up as the desks show it, named in any order."""
        numbers = list(range(len(self.desks)))
        self.chance.shuffle(numbers)
        deal = self.module.found_deal(NUMBER, [Wire(carrier, number) for number in numbers])
        return deal.carry() if deal else None

    def others(self) -> None:
        """Somebody else's command, or all places of a desk that has few; and before it sometimes a roll of the desk."""
        number = self.chance.randrange(len(self.desks))
        desk = self.desks[number]
        if self.chance.random() < 0.05:
            desk.roll(desk.keys_since(NUMBER))
            self.counts.found["rolls"] += 1
        desk.does(f"K{self.chance.getrandbits(60)}", others_command(self.chance, number, self.chance.random() < 0.3))
        if self.chance.random() < 0.02 and desk.places < PLACES:
            fill(desk, words_of(number, 1), self.chance)

    # ---- what becomes of messages

    def deliver(self, message: Message) -> Told:
        answer = self.desks[message.desk].answers(message.method, message.target, message.body)
        self.counts.found["messages"] += 1
        self.look()
        return answer

    def look(self) -> None:
        """What is moved is all, nothing or under way, and no outcome leads out of bounds."""
        why = fault(self.desks) or bounds_fault(self.desks)
        expect(why is None, f"{why}: {[desk.orders.get(NUMBER) for desk in self.desks]}")
        states = [desk.orders[NUMBER].state if NUMBER in desk.orders else "" for desk in self.desks]
        self.counts.found["looks at goods under way"] += states[0] == COMMITTED and set(states) != {COMMITTED}

    def turn(self, carrier: Carrier) -> None:
        """A carrier's message, and what becomes of the carrier."""
        message = carrier.message
        assert message
        what = self.chance.choice(TROUBLES)
        if self.chance.random() >= self.trouble:
            carrier.answers.put(self.deliver(message))
            self.next_one()
            return
        self.counts.found[what] += 1
        if what in ("answer lost", "twice", "killed behind", "in vain, behind"):
            answer = self.deliver(message)
        if what in ("late", "twice", "killed, late", "in vain, late"):
            self.late.append(message)
        if what == "twice":
            carrier.answers.put(answer)
            self.next_one()
        elif what.startswith(("killed", "in vain")):
            carrier.answers.put(None if what.startswith("killed") else NoAnswer("no answer"))
            self.next_one()

    def next_one(self) -> None:
        """Waits until the one thread that runs waits or has ended."""
        self.told.get(timeout=SECONDS)

    def carry(self, acts: Sequence[Callable[[Carrier], Any]]) -> list[Carrier]:
        """Runs carriers at once, until all have ended."""
        carriers = [Carrier(act, self.told) for act in acts]
        for carrier in carriers:
            carrier.start()
            self.next_one()
        try:
            for _ in range(MOST_MESSAGES):
                waiting = [carrier for carrier in carriers if carrier.message]
                if not waiting:
                    break
                if self.chance.random() < self.work:
                    self.others()
                if self.late and self.chance.random() < 0.1:
                    self.deliver(self.late.pop(self.chance.randrange(len(self.late))))
                self.turn(self.chance.choice(waiting))
            expect(not waiting, "no end")
        finally:
            for carrier in carriers:
                # the carriers of a run that failed
                carrier.answers.put(None)
        for carrier in carriers:
            expect(carrier.fault is None, f"{type(carrier.fault).__name__}: {carrier.fault}")
        return carriers

    def play(self) -> None:
        """Plays until a carrier is not killed; then late messages come in, and the deal is taken up."""
        told: list[Carrier] = []
        while not any(carrier.end for carrier in told):
            acts = self.chance.choice([[self.knows], [self.takes_up], [self.knows] * 2, [self.knows, self.takes_up, self.knows]])
            told += self.carry(acts if told else [self.knows] * len(acts))
        while self.late:
            self.deliver(self.late.pop())
        self.trouble = self.work = 0.0
        self.carry([self.takes_up])
        moved = is_moved(self.desks)
        words = [carrier.end.word for carrier in told if carrier.end]
        expect("moved" not in words or moved, f"told as moved: {words}")
        gone = ABORTED in [desk.orders[NUMBER].state for desk in self.desks if NUMBER in desk.orders]
        expect("held" not in words and not (gone and moved), f"{words}")
        self.counts.found["runs moved" if moved else "runs not moved"] += 1


def play(seed: object, counts: Counts, module: ModuleType = stockdesk_deals) -> None:
    try:
        Run(seed, counts, module).play()
    except AssertionError as fault:
        raise AssertionError(f"run {seed}: {fault}") from fault

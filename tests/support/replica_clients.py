"""Clients of a desk on three machines: each asks, at one machine or another, until it is answered or gives up, and notes its
answers."""

import asyncio
import random
import ssl
import time
from collections.abc import Callable
from dataclasses import dataclass, field

from support.fronts import OFFICE, credentials
from support.histories import Attempt, History, View, reply_to
from support.messages import compact
from support.programs import expect

BRANCHES, ARTICLES = ["N1", "S2"], ["A-1", "B-2", "C-3"]
NO_ANSWER = (OSError, EOFError, asyncio.TimeoutError)
# answers after which nobody knows whether the command was done
AGAIN = {408, 429, 500, 502, 503, 504}

# an address and a port
Place = tuple[str, int]


@dataclass
class Known:
    """The greatest revision of the log that a client has been told."""

    revision: int = 0


@dataclass
class Wire:
    """A connection to a machine, or with TLS to its front; it is made anew after it broke."""

    place: Place
    known: Known | None = None
    context: ssl.SSLContext | None = None
    streams: tuple[asyncio.StreamReader, asyncio.StreamWriter] | None = field(default=None, init=False)

    async def ask(self, method: str, target: str, body: str = "", seconds: float = 10) -> tuple[int, str]:
        """Status and body. OSError, EOFError or TimeoutError: there is no answer in time."""
        try:
            return await asyncio.wait_for(self.exchange(method, target, body.encode(), self.known), seconds)
        except BaseException:
            self.close()
            raise

    async def exchange(self, method: str, target: str, body: bytes, known: Known | None) -> tuple[int, str]:
        if self.streams is None:
            name = "localhost" if self.context else None
            self.streams = await asyncio.open_connection(*self.place, ssl=self.context, server_hostname=name)
        reader, writer = self.streams
        lines = [f"{method} {target} HTTP/1.1", "Host: desk", f"Content-Length: {len(body)}"]
        lines += [f"Asked-After: {known.revision}"] if known else []
        lines += [f"Authorization: {credentials(OFFICE)['Authorization']}"] if self.context else []
        writer.write("\r\n".join([*lines, "", ""]).encode() + body)
        head = (await reader.readuntil(b"\r\n\r\n")).decode().lower()
        facts = dict(line.split(": ", 1) for line in head.split("\r\n")[1:] if line)
        told = await reader.readexactly(int(facts["content-length"]))
        if known:
            known.revision = max(known.revision, int(facts.get("log-revision", 0)))
        if facts.get("connection") == "close":
            self.close()
        return int(head[9:12]), told.decode()

    async def command(self, key: str, command: str, seconds: float = 10) -> tuple[int, str]:
        return await self.ask("POST", "/v1/commands", compact({"key": key, "command": command}), seconds)

    def close(self) -> None:
        if self.streams:
            self.streams[1].close()
            self.streams = None


@dataclass
class Stock:
    """What clients ask for: the fields are small, so that many commands are refused."""

    random: random.Random
    clock: int = 0
    orders: list[int] = field(default_factory=lambda: [1])

    def name(self) -> str:
        return f"{self.random.choice(BRANCHES)} {self.random.choice(ARTICLES)}"

    def order(self) -> int:
        return self.random.choice(self.orders[-12:])

    def new_order(self) -> int:
        self.orders.append(self.orders[-1] + 1)
        return self.orders[-1]

    def opened(self) -> str:
        many, until = self.random.choice([1, 2, 5, 9, 20]), self.clock + self.random.choice([0, 1, 2, 3, 8])
        head = f"{self.new_order()} {until}"
        kinds = [f"open {head} {self.random.choice(['take', 'add'])} {self.name()} {many}"] * 3
        kinds += [f"open {head} take N1 {self.random.choice(ARTICLES)} {many} add S2 {self.random.choice(ARTICLES)} 3"]
        kinds += [f"transfer {head} {self.random.choice(ARTICLES)} {' '.join(self.random.sample(BRANCHES, 2))} {many}"]
        return self.random.choice(kinds)

    def changed(self) -> str:
        order, many = self.order(), self.random.choice([1, 1, 2, 5])
        kinds = [f"{kind} {order} {self.name()} {many}" for kind in ["use", "use", "release"]]
        kinds += [f"{kind} {order}" for kind in ["commit", "commit", "abort", "firm"]]
        return self.random.choice([*kinds, f"more {order} {self.random.choice(['take', 'add'])} {self.name()} {many}"])

    def expired(self) -> str:
        self.clock += self.random.choice([0, 1, 1])
        return f"expire {max(0, self.clock - self.random.choice([0, 0, 1]))}"

    def rare(self) -> str:
        bounds = f"{self.random.choice([0, 0, 5])} {self.random.choice([30, 40, 60])}"
        return self.random.choice([f"rebound {self.name()} {bounds}", f"field {self.name()} 0 40 20", "deliver N1 A-1 0"])

    def command(self) -> str:
        moved = f"{self.random.choice(['deliver', 'writeoff'])} {self.name()} {self.random.choice([1, 2, 5, 9, 20])}"
        kinds: list[Callable[[], str]] = [lambda: moved, self.opened, self.changed, self.expired, self.rare]
        return self.random.choices(kinds, [26, 23, 36, 3, 4])[0]()

    def key(self, client: int, count: int, command: str) -> str:
        """The key of a command. Many clients move the clock, with one key for each moment."""
        return command.replace("expire ", "clock-") if command.startswith("expire ") else f"c{client}-{count}"

    def target(self, key: str) -> str:
        field = f"/v1/fields/{self.name().replace(' ', '/')}"
        return self.random.choice([field, field, f"/v1/orders/{self.order()}", f"/v1/keys/{key}", "/v1/desk"])


class Client:
    """A client with its number. It has a wire to each machine, and some copies of what it asks come late."""

    def __init__(self, number: int, stock: Stock, history: History, wires: list[Wire], pause: float):
        self.number, self.stock, self.history, self.wires, self.pause = number, stock, history, wires, pause
        self.random = random.Random(stock.random.random())
        self.home, self.count, self.is_over = number % len(wires), 0, False
        self.late: list[asyncio.Task[None]] = []

    def move(self) -> None:
        self.home = self.random.randrange(len(self.wires))

    async def ask_once(self, key: str, command: str) -> Attempt:
        attempt = Attempt(key, command, time.monotonic())
        self.history.attempts.append(attempt)
        try:
            status, body = await self.wires[self.home].command(key, command, self.random.choice([0.1, 0.4, 1, 3]))
        except NO_ANSWER:
            self.send_late(key, command)
            return attempt
        expect(status in AGAIN | {200, 400, 409}, f"{command}: {status} {body}")
        attempt.reply = reply_to(status, body)
        if attempt.reply:
            attempt.end = time.monotonic()
        return attempt

    async def ask(self, key: str, command: str, patience: int) -> Attempt:
        """Asks until there is an answer, so often at most."""
        for _ in range(patience):
            attempt = await self.ask_once(key, command)
            if attempt.reply:
                break
            self.move()
            await asyncio.sleep(self.random.choice([0, 0.01, 0.1]))
        return attempt

    def send_late(self, key: str, command: str) -> None:
        """A copy of a command that was not answered, with what the client knew of the log then, arrives some seconds later."""
        old = self.random.choice(self.wires)
        known = Known(old.known.revision) if old.known else None

        async def work() -> None:
            await asyncio.sleep(self.random.uniform(0.1, 6))
            wire = Wire(old.place, known, old.context)
            try:
                await wire.command(key, command, 5)
            except NO_ANSWER:
                pass
            wire.close()

        if self.random.random() < 0.3:
            self.late.append(asyncio.create_task(work()))

    async def look(self, target: str) -> None:
        start = time.monotonic()
        try:
            status, body = await self.wires[self.home].ask("GET", target, "", 2)
        except NO_ANSWER:
            self.move()
            return
        if status in (200, 404):
            self.history.views.append(View(target, start, time.monotonic(), status, body))

    async def live(self) -> None:
        while not self.is_over:
            await asyncio.sleep(self.random.uniform(0, self.pause))
            if self.random.random() < 0.25:
                await self.look(self.stock.target(f"c{self.number}-{self.count}"))
            else:
                await self.shop()
        await asyncio.gather(*self.late)

    async def shop(self) -> None:
        """One command; some give up without an answer, and some ask again later, or for something else under that key."""
        self.count += 1
        command = self.stock.command()
        key = self.stock.key(self.number, self.count, command)
        told = await self.ask(key, command, 1 if self.random.random() < 0.03 else 1_000)
        if self.random.random() < (0.15 if told.is_refused() else 0.05 if told.reply else 0):
            await asyncio.sleep(self.random.uniform(0, 0.5))
            self.move()
            again = command if self.random.random() < 0.8 or key.startswith("clock") else self.stock.command()
            await self.ask(key, again, 1_000)


async def wait_until_well(places: list[Place], seconds: float) -> None:
    """Until each machine says that it is."""
    latest = time.monotonic() + seconds
    for place in places:
        while not await is_well(place):
            expect(time.monotonic() < latest, f"{place} is not well")
            await asyncio.sleep(0.2)


async def is_well(place: Place) -> bool:
    try:
        return (await asked(place, "/health", seconds=3))[0] == 200
    except NO_ANSWER:
        return False


async def asked(place: Place, target: str, body: str = "", seconds: float = 60) -> tuple[int, str]:
    """The answer on a connection of its own to a view, or to a message with a body."""
    wire = Wire(place)
    try:
        return await wire.ask("POST" if body else "GET", target, body, seconds)
    finally:
        wire.close()
        await asyncio.sleep(0)


async def commanded(place: Place, key: str, command: str, known: Known | None = None) -> tuple[int, str]:
    wire = Wire(place, known)
    try:
        return await wire.command(key, command, 60)
    finally:
        wire.close()
        await asyncio.sleep(0)

"""Clients that write as fast as they can while a desk is rolled up, and what has to be in its files then: nothing is lost, and
nothing is done twice."""

import contextlib
import glob
import http.client
import json
import os
import random
import threading
import time
from collections import Counter
from collections.abc import Callable, Iterator, Sequence
from concurrent.futures import ThreadPoolExecutor
from dataclasses import dataclass, field
from typing import Any

from support.fronts import SHOP, WAREHOUSE, credentials, message
from support.programs import expect
from support.tables import sqlite3

# how long a client that got no answer waits
PAUSE = 0.02

# a command and its user
Command = tuple[str, str]


def commands(client: int, names: Sequence[str]) -> Iterator[Command]:
    """What a client sends for ever: it delivers and writes off, or opens orders, uses some of them and ends them."""
    generator, number = random.Random(client), 1_000 * (client + 1)
    while True:
        name = generator.choice(names)
        if client % 2:
            yield WAREHOUSE, f"{generator.choice(['deliver', 'deliver', 'writeoff'])} {name} {generator.randint(1, 3)}"
            continue
        yield SHOP, f"open {number} 4000000000 take {name} {generator.randint(3, 6)}"
        yield SHOP, f"use {number} {name} {generator.randint(1, 3)}"
        yield SHOP, f"{generator.choice(['commit', 'abort'])} {number}"
        number += 1


@dataclass
class Writer:
    """A client. Each command has a key of its own, under which it is sent until it is answered; a client that is not patient is
    answered at once."""

    client: int
    connect: Callable[[], http.client.HTTPConnection]
    names: Sequence[str]
    is_patient: bool
    done: list[tuple[str, str]] = field(default_factory=list)
    longest: float = 0.0
    lost: int = 0
    connection: http.client.HTTPConnection | None = None

    def write(self, over: threading.Event) -> None:
        for number, (user, command) in enumerate(commands(self.client, self.names)):
            if over.is_set():
                break
            key, began = f"C{self.client}-{number}", time.monotonic()
            status, body = self.tell(user, key, command)
            self.longest = max(self.longest, time.monotonic() - began)
            expect(status == 200 and "place" in body, f"{key} {command}: {status}, {body}")
            self.done.append((key, command))
        if self.connection:
            self.connection.close()

    def tell(self, user: str, key: str, command: str) -> tuple[int, dict]:
        while True:
            try:
                self.connection = self.connection or self.connect()
                self.connection.request("POST", "/v1/commands", message(key, command), credentials(user))
                answer = self.connection.getresponse()
                return answer.status, json.loads(answer.read())
            except (OSError, http.client.HTTPException) as fault:
                expect(self.is_patient, f"{key} {command}: no answer: {fault!r}")
                if self.connection:
                    self.connection.close()
                self.connection = None
                self.lost += 1
                time.sleep(PAUSE)


@contextlib.contextmanager
def writing(
    connect: Callable[[], http.client.HTTPConnection], count: int, names: Sequence[str], is_patient: bool
) -> Iterator[list[Writer]]:
    """While this lasts, so many clients write; then each has its last answer."""
    writers, over = [Writer(client, connect, names, is_patient) for client in range(count)], threading.Event()
    with ThreadPoolExecutor(count) as pool:
        jobs = [pool.submit(writer.write, over) for writer in writers]
        try:
            yield writers
        finally:
            over.set()
        for job in jobs:
            job.result()


# ---- what the files have then


def files_of(path: str) -> list[str]:
    """The old files that rolls have left beside a desk, the oldest first, and the desk."""
    olds = glob.glob(os.path.join(os.path.dirname(path), "old-*.db"))
    return [*sorted(olds, key=os.path.getmtime), path]


def asked(path: str, query: str) -> list[Any]:
    with contextlib.closing(sqlite3.connect(path)) as database:
        return database.execute(query).fetchall()


def history(path: str) -> list[tuple[str, str]]:
    """The key and the words of all that was accepted, in order, from the old files and the desk; each file begins with keys by
    which the one before ends."""
    found: list[tuple[str, str]] = []
    for name in files_of(path):
        kept = asked(name, "SELECT reqkey, words FROM kept ORDER BY place")
        stayed = len(found) - found.index(kept[0]) if found and kept and kept[0] in found else 0
        expect(found[len(found) - stayed :] == kept[:stayed], f"{name} begins otherwise than the file before ends")
        found += kept[stayed:]
    return found


def moved(done: Sequence[tuple[str, str]]) -> Counter[tuple[str, str]]:
    """By how much commands change the settled value of each field."""
    found, used = Counter[tuple[str, str]](), dict[str, tuple[tuple[str, str], int]]()
    for _, words in done:
        verb, *rest = words.split()
        if verb in ("deliver", "writeoff"):
            found[rest[0], rest[1]] += int(rest[2]) if verb == "deliver" else -int(rest[2])
        elif verb == "use":
            used[rest[0]] = (rest[1], rest[2]), int(rest[3])
        elif verb == "commit":
            name, pieces = used[rest[0]]
            found[name] -= pieces
    return found


def values_in(path: str) -> dict[tuple[str, str], int]:
    """The settled value of each field of a desk."""
    return {(branch, article): value for branch, article, value in asked(path, "SELECT branch, article, value FROM field")}


def expect_once(path: str, before: dict[tuple[str, str], int], writers: Sequence[Writer]) -> int:
    """All that was answered is in the files, once, and nothing else that clients sent; and the stock is as that makes it. Returns
    how many commands these are."""
    told = history(path)
    keys = Counter(key for key, _ in told)
    twice = [key for key, count in keys.items() if count > 1]
    expect(not twice, f"done twice: {twice[:5]}")
    done = {line for writer in writers for line in writer.done}
    found = {line for line in told if line[0].startswith("C")}
    expect(found == done, f"lost: {sorted(done - found)[:5]}, not answered: {sorted(found - done)[:5]}")
    change = moved([line for line in told if line in done])
    wrong = {name for name, value in values_in(path).items() if value != before[name] + change[name]}
    expect(not wrong, f"another stock of {sorted(wrong)[:5]}")
    return len(done)

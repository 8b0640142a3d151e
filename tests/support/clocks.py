"""Runs of `stockdesk-clock` at any minute, and the desks that they ask."""

import contextlib
import json
import os
import subprocess
import sys
from collections.abc import Iterator, Sequence

from support import DEPLOY
from support.programs import done, expect, new_desk
from support.service import TOGETHER, Service, ask, post

TOOL = os.path.join(DEPLOY, "stockdesk-clock")

# 2027-01-01 00:00 UTC
MINUTE = 29_979_360
DAY = 1_440

# a run that gets no answer takes half as long as this
PATIENCE = 120

# runs the program as it is, with a system clock that stands still
AT = """import runpy, sys, time
seconds, sys.argv = float(sys.argv[1]), sys.argv[2:]
time.time = lambda: seconds
sys.path.insert(0, sys.argv[0].rpartition("/")[0])
runpy.run_path(sys.argv[0], run_name="__main__")
"""

# how a run ends: its status, its output, and what it says of a fault
End = tuple[int, str, str]

NOTHING: End = (0, "", "")


class Desk:
    """A desk with one field of 100 pieces, which may be served several times, on one port."""

    def __init__(self, program: str, folder: str, name: str = "desk.db"):
        self.program, self.path = program, new_desk(program, folder, name)
        done(program, ["run", self.path], "F1 field N1 A-1 0 100 100\n")
        self.service: Service | None = None
        self.port = 0

    @contextlib.contextmanager
    def served(self) -> Iterator[None]:
        """Serves it, on the same port each time."""
        self.service = Service(self.program, self.path, 1_000_000, self.port, options=TOGETHER, seconds=20 * PATIENCE)
        self.port = self.service.port
        try:
            yield
        finally:
            self.service.process.kill()
            self.service.end()
            self.service = None

    def ask(self, target: str) -> dict:
        assert self.service
        with contextlib.closing(self.service.connect()) as connection:
            return json.loads(ask(connection, "GET", target)[2])

    def call(self, key: str, command: str) -> None:
        assert self.service
        with contextlib.closing(self.service.connect()) as connection:
            told = post(connection, key, command)
        expect(told[0] == 200, f"{key} {command}: {told}")

    def open(self, number: int, until: int) -> None:
        self.call(f"O{number}", f"open {number} {until} take N1 A-1 1")

    def state(self, number: int) -> str:
        return self.ask(f"/v1/orders/{number}")["state"]

    def places(self) -> int:
        return self.ask("/v1/desk")["places"]

    def expect(self, states: Sequence[str], places: int, clock: int) -> None:
        """The orders from 1 on have these states, and so many places are taken."""
        found = [self.state(number) for number in range(1, len(states) + 1)]
        expect(found == list(states), f"{found} and not {list(states)}")
        told = self.ask("/v1/desk")
        expect((told["places"], told["clock"]) == (places, clock), f"{told} and not {places} places, the clock at {clock}")


def at(minute: int, seconds: float = 0) -> list[str]:
    """The words that run the tool at that minute and so many seconds."""
    return [sys.executable, "-c", AT, str(60 * minute + seconds), TOOL]


class Clock:
    """Runs on a port, with a file of the minute that was seen last."""

    def __init__(self, port: int, folder: str, name: str = "seen"):
        self.port, self.path = port, os.path.join(folder, name)

    def words(self, minute: int, *options: str) -> list[str]:
        return [*at(minute, 59.9), str(self.port), "--seen", self.path, *options]

    def start(self, minute: int, *options: str) -> subprocess.Popen[str]:
        pipe = subprocess.PIPE
        return subprocess.Popen(self.words(minute, *options), stdin=subprocess.DEVNULL, stdout=pipe, stderr=pipe, text=True)

    def run(self, minute: int, *options: str) -> End:
        return end_of(self.start(minute, *options))

    def see(self, minute: int) -> None:
        """Writes the file as a run at that minute leaves it."""
        with open(self.path, "w", encoding="ascii") as file:
            file.write(f"{minute}\n")

    def seen(self) -> str | None:
        try:
            with open(self.path, encoding="latin-1", newline="") as file:
                return file.read()
        except FileNotFoundError:
            return None

    def expect_seen(self, minute: int) -> None:
        expect(self.seen() == f"{minute}\n", f"{self.seen()!r} was seen and not {minute}")


def end_of(run: subprocess.Popen[str]) -> End:
    try:
        out, errors = run.communicate(timeout=PATIENCE)
    finally:
        run.kill()
    return run.returncode, out, errors


def expect_ended(found: End, minute: int, count: str) -> None:
    """The run says that so many orders were due at that minute and that all were ended."""
    status, out, errors = found
    is_told = out.startswith(f"orders due by {minute} (") and out.endswith(f"): {count}; `expire {minute}` is done\n")
    expect((status, errors) == (0, "") and is_told and out.count("\n") == 1, f"{found}")


def expect_fault(found: End, *words: str) -> None:
    """The run did nothing, and says why in one line, which has these words."""
    status, out, errors = found
    is_told = errors.startswith("stockdesk-clock: not done: ") and errors.count("\n") == 1
    expect((status, out) == (1, "") and is_told and all(word in errors for word in words), f"{found} without {words}")

"""Calls of the built program with a file of orders. The calls are killed, and made again with the same file until one ends by
itself."""

import os
import random
import shutil
import subprocess
import time

from collections.abc import Sequence

from support.programs import done, expect, new_desk, note, write_records
from support.tables import rows_of, sqlite3

COUNT = 2_000
START = 1_000_000
FIELD = f"K1 field N1 A-1 0 1000000000 {START}\n"


def orders_of(every: int) -> list[list[object]]:
    """A file of orders. One in `every` orders is on a field that does not exist, so it is refused whenever it comes."""
    rows: list[list[object]] = [[f"F{n}", n, 500, "take", "N1", "A-1" if n % every else "B-9", 1] for n in range(1, COUNT + 1)]
    return [["key", "order", "until", "way", "branch", "article", "qty"], *rows]


def called(program: str, words: Sequence[str], seconds: float) -> tuple[bytes, bool]:
    """Calls the program, and kills it after so many seconds. Returns its output, and whether it was killed."""
    process = subprocess.Popen([program, *words], stdout=subprocess.PIPE, stderr=subprocess.PIPE)
    try:
        out, errors = process.communicate(timeout=seconds)
    except subprocess.TimeoutExpired:
        process.kill()
        return process.communicate()[0], True
    expect((process.returncode, errors) == (0, b""), f"{words}: status {process.returncode}, {errors!r}")
    return out, False


class Killed:
    """Calls that are killed, with one file of orders and the same words after it, each on a copy of one desk or on what the call
    before it left there."""

    def __init__(self, program: str, folder: str, orders: list[list[object]], words: list[str]):
        self.program, self.folder, self.words = program, folder, words
        self.generator = random.Random(1986)
        self.records, self.desk = os.path.join(folder, "orders.csv"), new_desk(program, folder, "new.db")
        write_records(self.records, orders)
        done(program, ["run", self.desk], FIELD)
        self.replies, self.undisturbed = self.whole("undisturbed.db", [])
        self.killed = 0

    def copy(self, name: str) -> str:
        return shutil.copy(self.desk, os.path.join(self.folder, name))

    def whole(self, name: str, words: Sequence[str]) -> tuple[bytes, str]:
        """What a call that nobody kills writes, and the desk that it leaves."""
        path = self.copy(name)
        return "\n".join([*done(self.program, ["orders", path, self.records, *words]), ""]).encode(), path

    def look(self, path: str, out: bytes) -> None:
        """Looks, after each call that was killed, at the desk that it left and at what it wrote."""

    def until_whole(self, path: str, seconds: float) -> bytes:
        """Calls until a call ends by itself; each call is killed within about so many seconds. Returns what the last call
        wrote."""
        out, is_killed = self.call(path, seconds)
        while is_killed:
            self.killed += 1
            self.look(path, out)
            out, is_killed = self.call(path, 2 * seconds)
        return out

    def call(self, path: str, most: float) -> tuple[bytes, bool]:
        words = ["orders", path, self.records, *self.words]
        return called(self.program, words, self.generator.uniform(0, most))

    def play(self, rounds: int) -> None:
        """The last call gives the replies of a run that was never killed, one after the other, and leaves the same rows."""
        began = time.monotonic()
        out, _ = self.whole("measured.db", self.words)
        took = time.monotonic() - began
        expect(out == self.replies, "another reply where none is killed")
        for number in range(rounds):
            path = self.copy(f"killed{number}.db")
            expect(self.until_whole(path, took) == self.replies, "another reply")
            if sqlite3:
                expect(rows_of(path) == rows_of(self.undisturbed), "other rows")
        expect(self.killed > 0, "none was killed")
        note(f"{rounds} files, {self.killed} calls killed")

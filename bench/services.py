"""What carries out deliveries, with syncs that may be slower; here it is the program, which serves a desk in a file. Each server
is a process that listens on 127.0.0.1 only and is ended by its id."""

import os
import re
import struct
import subprocess
import sys
from abc import ABC, abstractmethod
from collections.abc import Sequence
from contextlib import closing
from dataclasses import dataclass
from itertools import product

import files
from loads import Load, Work, by_wrk
from steps import Desk
from support.tables import sqlite3

# the fields of a desk: their upper bound and their start, the same as in postgres.sql
HI = 1_000_000_000
START = 1_000_000
FIELDS = 10_000

# how many connections are served at most, together and until the program ends
CLIENTS, CONNECTIONS = 1000, 1_000_000


class Syncs:
    """How many syncs there were, and how many nanoseconds they took, as slow_sync.c counts them in a file."""

    def __init__(self, path: str):
        self.path = path
        with open(path, "wb") as file:
            file.write(bytes(16))
        # a file of PostgreSQL may belong to another user
        os.chmod(path, 0o666)

    def counted(self) -> tuple[int, int]:
        with open(self.path, "rb") as file:
            syncs, nanoseconds = struct.unpack("=QQ", file.read())
        return syncs, nanoseconds


@dataclass(frozen=True)
class Pace:
    """By how much syncs are slower; and the library that makes them slower and counts them, where there is one."""

    name: str
    millis: int
    library: str | None
    syncs: Syncs

    def environment(self) -> dict[str, str]:
        if self.library is None:
            return dict(os.environ)
        more = {"LD_PRELOAD": self.library, "SLOW_SYNC": str(1000 * self.millis), "COUNT_SYNCS": self.syncs.path}
        return {**os.environ, **more}


class Server(ABC):
    """A server of a desk. When it starts, the desk has all fields and no deliveries."""

    @abstractmethod
    def __enter__(self) -> "Server":
        """Starts it."""

    @abstractmethod
    def __exit__(self, *_: object) -> None:
        """Ends it if it still runs."""

    @abstractmethod
    def load(self, work: Work, clients: int, seconds: int) -> Load:
        """Lets so many clients send requests for so many seconds."""

    @abstractmethod
    def kept(self) -> tuple[int, int]:
        """How many deliveries are kept, and how many pieces the fields have got by them. The server may be ended to find this
        out."""


def make_desk(program: str, path: str, branches: int, articles: int) -> None:
    """A new desk with the fields of so many branches and articles."""
    desk = Desk()
    for branch, article in product(range(branches), range(articles)):
        desk.carry_out(f"F{branch}-{article}", f"field N{branch} A-{article} 0 {HI} {START}")
    files.write(program, path, desk.rows())


def listening(process: subprocess.Popen[bytes]) -> int:
    """The port that a service writes on its first line."""
    assert process.stdout
    told = re.fullmatch(rb"listening (\d+)\n", process.stdout.readline())
    if not told:
        sys.exit(f"bench: no port: {process.args!r} ended with status {process.wait()}")
    return int(told[1])


class Service(Server):
    """The program, which serves a copy of a desk in a file. With some options it serves many connections together."""

    def __init__(self, program: str, desk: str, pace: Pace, options: Sequence[str] = ()):
        self.desk, self.pace = desk, pace
        self.path = desk + ".served"
        self.words = [program, "serve", self.path, "--port", "0", "--connections", str(CONNECTIONS), *options]

    def __enter__(self) -> "Service":
        files.copy(self.desk, self.path)
        self.process = subprocess.Popen(self.words, stdin=subprocess.DEVNULL, stdout=subprocess.PIPE, env=self.pace.environment())
        try:
            self.port = listening(self.process)
        except BaseException:
            self.end()
            raise
        return self

    def __exit__(self, *_: object) -> None:
        self.end()

    def end(self) -> None:
        self.process.kill()
        self.process.wait()
        if self.process.stdout:
            self.process.stdout.close()

    def load(self, work: Work, clients: int, seconds: int) -> Load:
        return by_wrk(f"http://127.0.0.1:{self.port}", work, clients, seconds)

    def kept(self) -> tuple[int, int]:
        """The same. The program is ended first: while it serves the file, nobody else can read that."""
        self.end()
        with closing(sqlite3.connect(self.path)) as database:
            moves, pieces = database.execute(
                "SELECT (SELECT count(*) FROM move), (SELECT sum(value - start) FROM field)"
            ).fetchone()
        return moves, pieces


def knows_together(program: str) -> bool:
    """Whether the program can serve many connections together."""
    ended = subprocess.run([program, "serve", "--help"], stdout=subprocess.PIPE, stderr=subprocess.STDOUT, text=True)
    return "--together" in ended.stdout

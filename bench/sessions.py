"""The program and C SQLite as child processes that play batches."""

import os
import select
import socket
import subprocess
import time
from collections import defaultdict
from dataclasses import dataclass, field

from messages import answer_of, message_of
from support.tables import lines_of_rows

PIECE = 65_536


class Late(Exception):
    """No answer came within its seconds."""


@dataclass
class Played:
    """What is found in a session: by kind of command, the microseconds per command in each part of a batch; the seconds of its
    opening; and bytes of memory."""

    micros: dict = field(default_factory=lambda: defaultdict(list))
    opening: float = 0
    resident: int = 0
    peak: int = 0


class Session:
    """A child process that answers lines of input with lines."""

    def __init__(self, words):
        self.words = words
        self.played = Played()
        self.began = time.perf_counter()
        self.process = subprocess.Popen(words, stdin=subprocess.PIPE, stdout=subprocess.PIPE, bufsize=0)
        self.input, self.output = self.channels()
        os.set_blocking(self.input, False)

    def channels(self):
        """The channel that is written to, and the one that is read from."""
        return self.process.stdin.fileno(), self.process.stdout.fileno()

    def exchange(self, lines, answers, seconds=None):
        """Writes the lines and reads so many answers meanwhile. Returns the answers, and the seconds until the last one."""
        data = "".join(line + "\n" for line in lines).encode()
        read, found = self.transfer(data, answers, lambda piece: piece.count(b"\n"), seconds)
        return read.decode().splitlines(), found

    def transfer(self, data, left, count, seconds=None):
        """Writes the bytes, and meanwhile reads pieces, until what `count` says of each adds up to `left`. Returns what was read,
        and the seconds until the last piece."""
        data = memoryview(data)
        read = bytearray()
        began = time.perf_counter()
        while left > 0:
            rest = None if seconds is None else max(0, began + seconds - time.perf_counter())
            readable, writable, _ = select.select([self.output], [self.input] if data else [], [], rest)
            if not readable and not writable:
                raise Late
            if readable:
                piece = self.piece()
                left -= count(piece)
                read += piece
            if writable:
                data = data[os.write(self.input, data[:PIECE]) :]
        return bytes(read), time.perf_counter() - began

    def piece(self):
        piece = os.read(self.output, PIECE)
        if not piece:
            raise SystemExit(f"bench: {self.words} ended with status {self.process.wait()}")
        return piece

    def open(self, lines, seconds=None):
        """The answers to the first lines. Notes how many seconds passed from the process's start until these, and its memory in
        bytes: what is resident, and the most that ever was."""
        found, _ = self.exchange(lines, len(lines), seconds)
        self.played.opening = time.perf_counter() - self.began
        self.played.resident, self.played.peak = self.memory()
        return found

    def memory(self):
        """The memory in bytes: what is resident, and the most that ever was."""
        with open(f"/proc/{self.process.pid}/status", encoding="utf-8") as file:
            status = dict(line.split(":", 1) for line in file)
        return [1024 * int(status[name].split()[0]) for name in ("VmRSS", "VmHWM")]

    def __enter__(self):
        return self

    def __exit__(self, kind, _error, _trace):
        """Lets the process end, or ends it where something failed."""
        if kind:
            self.process.kill()
        self.process.stdin.close()
        status = self.process.wait()
        self.process.stdout.close()
        if status and not kind:
            raise SystemExit(f"bench: {self.words} ended with status {status}")


def expect_answers(found, wanted, what):
    for answer, want in zip(found, wanted, strict=True):
        if answer != want:
            raise SystemExit(f"bench: {what}: {answer!r} and not {want!r}")


class Program(Session):
    """A run of the program. Each of its answers has to be the one that is expected."""

    def ask_first(self, step):
        """Opens a desk in a file, and asks for a field."""
        expect_answers(self.open([step.line]), [step.answer], "the first ask")

    def make(self, made, seconds):
        """Makes a desk in memory by its script, within so many seconds."""
        expect_answers(self.open(made.script, seconds), made.answers, "the making")

    def play(self, kind, steps):
        """Plays the steps. Returns the seconds from the first byte written to the last one read."""
        found, seconds = self.exchange([step.line for step in steps], len(steps))
        expect_answers(found, [step.answer for step in steps], kind)
        return seconds


class Service(Session):
    """The program, which serves a desk in a file to one connection. Each of its answers has to be the one that is expected."""

    def channels(self):
        _, port = self.process.stdout.readline().split()
        self.socket = socket.create_connection(("127.0.0.1", int(port)))
        self.socket.setsockopt(socket.IPPROTO_TCP, socket.TCP_NODELAY, 1)
        return self.socket.fileno(), self.socket.fileno()

    def play(self, kind, steps):
        """Plays the steps as messages. Returns the seconds from the first byte written to the last one read."""
        wanted = [answer_of(step.answer) for step in steps]
        data = b"".join(message_of(step.line) for step in steps)
        found, seconds = self.transfer(data, sum(map(len, wanted)), len)
        if found != b"".join(wanted):
            raise SystemExit(f"bench: {kind} over HTTP: {found!r}")
        return seconds

    def __exit__(self, kind, error, trace):
        self.socket.close()
        super().__exit__(kind, error, trace)


class Rows(Session):
    """A run of the C program, which puts in what each command changes."""

    def select_all(self):
        self.open(["all"])

    def play(self, _kind, steps):
        """Puts the rows in, with one transaction per command. Returns the seconds that C has measured."""
        return self.put(line for step in steps for line in lines_of(step))

    def play_together(self, steps, count):
        """Puts the rows in, with one transaction for so many commands. Returns the seconds."""
        parts = [steps[first : first + count] for first in range(0, len(steps), count)]
        return self.put(line for part in parts for line in in_transaction(line for step in part for line in rows_in(step)))

    def put(self, lines):
        [answer], _ = self.exchange([*lines, "go"], 1)
        return float(answer.split()[1]) / 1e6


def rows_in(step):
    return lines_of_rows(step.rows, "\t")


def in_transaction(lines):
    return ["begin", *lines, "commit"]


def lines_of(step):
    return rows_in(step) if "ask" in step.rows else in_transaction(rows_in(step))


def play_together(players, batches, parts):
    """Plays each batch on all players: it is cut into parts, and each part is played on one player after the other."""
    for kind, batch in batches.items():
        length = -(-len(batch) // parts)
        for first in range(0, len(batch), length):
            for player in players:
                part = batch[first : first + length]
                player.played.micros[kind].append(1e6 * player.play(kind, part) / len(part))


def run_seconds(program, path, status, errors):
    """How many seconds a run takes that reads nothing and ends with this status and these errors."""
    began = time.perf_counter()
    ended = subprocess.run([program, "run", path], stdin=subprocess.DEVNULL, capture_output=True)
    seconds = time.perf_counter() - began
    if (ended.returncode, ended.stderr.decode()) != (status, errors):
        raise SystemExit(f"bench: {path}: status {ended.returncode}, {ended.stderr!r}")
    return seconds

"""The desk of a machine: the program that serves it, started and ended with this process, and connections to it."""

import asyncio
import ctypes
import fcntl
import functools
import itertools
import os
import signal
import subprocess
from collections import deque
from collections.abc import Callable, Sequence
from typing import NamedTuple

from stockdesk_tools import Fault

# of one connection the desk answers one view a round, so views have some; commands, whose order counts, have one
VIEWERS = 64
# messages in a round
TOGETHER = 256

PR_SET_PDEATHSIG = 1


class Answer(NamedTuple):
    """An answer of the desk, or of this machine in its place."""

    status: int
    kind: str
    body: bytes


Tell = Callable[[Answer], None]


def lock(path: str, waits: bool = True) -> int:
    """A lock on the desk in a file, which this process and its desk hold until both are gone. So whoever has it reads a file that
    nobody writes. Fault: another process has it, and this one does not wait."""
    handle = os.open(path + ".lock", os.O_RDWR | os.O_CREAT, 0o600)
    try:
        fcntl.flock(handle, fcntl.LOCK_EX | (0 if waits else fcntl.LOCK_NB))
    except BlockingIOError:
        raise Fault(f"{path} is in use: end the program that has it open first") from None
    return handle


def die_with(parent: int) -> None:
    """Has this process end when its parent does."""
    ctypes.CDLL(None).prctl(PR_SET_PDEATHSIG, signal.SIGKILL)
    if os.getppid() != parent:
        os._exit(1)


def start(program: str, path: str, held: int) -> subprocess.Popen[bytes]:
    """Starts the desk, which holds the lock, too. The desk serves as many connections as this machine has to it, and so ends when
    all of them end."""
    words = [program, "serve", path, "--port", "0", "--connections", str(1 + VIEWERS), "--together", str(TOGETHER)]
    return tied(words, held, stdout=subprocess.PIPE)


def tied(words: Sequence[str], held: int, stdout: int | None = None) -> subprocess.Popen[bytes]:
    """A process that ends with this one, and holds the lock, too."""
    tie = functools.partial(die_with, os.getpid())
    return subprocess.Popen(words, stdin=subprocess.DEVNULL, stdout=stdout, pass_fds=[held], preexec_fn=tie)


def command_message(line: bytes) -> bytes:
    key, _, command = line.partition(b" ")
    body = b'{"key":"%s","command":"%s"}' % (key, command)
    return b"POST /v1/commands HTTP/1.1\r\ncontent-length: %d\r\n\r\n%s" % (len(body), body)


def view_message(target: str) -> bytes:
    return b"GET %s HTTP/1.1\r\n\r\n" % target.encode()


class Connection:
    """A connection to the desk. Its answers come in the order of the messages."""

    def __init__(self, reader: asyncio.StreamReader, writer: asyncio.StreamWriter):
        self.reader, self.writer = reader, writer
        self.begin()

    def begin(self) -> None:
        self.tells: deque[Tell] = deque()
        self.asked = self.answered = 0
        # what is to be done behind so many answers
        self.fences: deque[tuple[int, Callable[[], None]]] = deque()
        self.has_answered, self.is_over = asyncio.Event(), False

    def ask(self, message: bytes, tell: Tell) -> None:
        self.tells.append(tell)
        self.asked += 1
        self.send(message)

    def send(self, message: bytes) -> None:
        self.writer.write(message)

    def behind_all(self, act: Callable[[], None]) -> None:
        """Does this once all that was asked is answered."""
        if self.asked == self.answered:
            act()
        else:
            self.fences.append((self.asked, act))

    async def at_most(self, unanswered: int) -> None:
        """Waits until no more messages are unanswered."""
        while self.asked - self.answered > unanswered:
            self.has_answered.clear()
            await self.has_answered.wait()

    async def read(self) -> Answer:
        head = await self.reader.readuntil(b"\r\n\r\n")
        first, kind, length, *_ = head.split(b"\r\n")
        body = await self.reader.readexactly(int(length.partition(b":")[2]))
        return Answer(int(first[9:12]), kind.partition(b":")[2].strip().decode(), body)

    def end(self) -> None:
        self.is_over = True
        self.close()

    def close(self) -> None:
        self.writer.close()

    async def hear(self) -> None:
        """Hands each answer on, until this end is closed. Fault: the desk is gone."""
        try:
            while True:
                answer = await self.read()
                self.tells.popleft()(answer)
                self.answered += 1
                while self.fences and self.fences[0][0] <= self.answered:
                    self.fences.popleft()[1]()
                self.has_answered.set()
        except (asyncio.IncompleteReadError, ConnectionError) as fault:
            if not self.is_over:
                raise Fault("the desk is gone") from fault


class Desk:
    """A desk that serves, and this machine's connections to it."""

    def __init__(self, commands: Connection, viewers: Sequence[Connection]):
        self.commands, self.viewers = commands, viewers
        self.turns = itertools.cycle(viewers)

    def view(self, target: str, tell: Tell) -> None:
        """Asks for what the desk shows once it has carried out all commands that it was given."""
        self.commands.behind_all(lambda: next(self.turns).ask(view_message(target), tell))

    async def hear(self) -> None:
        """Hands each answer on, until the desk is ended or gone."""
        await asyncio.gather(*(each.hear() for each in [self.commands, *self.viewers]))

    async def end(self) -> None:
        """Ends the connections, and so the desk, once all is answered; nothing is asked meanwhile."""
        for each in [self.commands, *self.viewers]:
            await each.at_most(0)
            each.end()


async def connect(process: subprocess.Popen[bytes]) -> Desk:
    """The connections to a desk that was started. Fault: it does not serve."""
    assert process.stdout
    told = (await asyncio.to_thread(process.stdout.readline)).split()
    if len(told) != 2:
        raise Fault(f"the desk does not start: status {process.wait()}")
    streams = [await asyncio.open_connection("127.0.0.1", int(told[1])) for _ in range(1 + VIEWERS)]
    commands, *viewers = [Connection(*each) for each in streams]
    return Desk(commands, viewers)

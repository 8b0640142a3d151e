"""Many clients of a service at once, all in one thread. Each sends its messages in pieces, as far ahead of the answers as it may,
and reads the answers, until it has them all or the connection ends."""

import re
import selectors
import socket
import struct
import time
from collections.abc import Iterable, Sequence
from itertools import accumulate
from random import Random

from support.asks import Ask
from support.programs import SECONDS, expect

ANSWER = re.compile(rb"HTTP/1\.1 [1-5][0-9]{2} [A-Za-z ]+\r\ncontent-type: [a-z/]+\r\ncontent-length: ([0-9]+)\r\n\r\n")
PIECE = 65_536
# cuts are about so many bytes apart
APART = 150


def connected(port: int, room: int | None = None) -> socket.socket:
    """A connection that has begun; `room` may limit how many unread bytes it takes."""
    found = socket.socket()
    if room is not None:
        found.setsockopt(socket.SOL_SOCKET, socket.SO_RCVBUF, room)
    found.settimeout(SECONDS)
    try:
        found.connect(("127.0.0.1", port))
    except OSError:
        found.close()
        raise
    found.setsockopt(socket.IPPROTO_TCP, socket.TCP_NODELAY, 1)
    return found


def reset(connection: socket.socket) -> None:
    """Ends a connection without a farewell."""
    connection.setsockopt(socket.SOL_SOCKET, socket.SO_LINGER, struct.pack("ii", 1, 0))
    connection.close()


def end_of_answer(text: bytes | bytearray) -> int:
    """Where the first answer ends, or 0 where it is not complete."""
    head = ANSWER.match(text)
    end = head.end() + int(head[1]) if head else 0
    return end if end <= len(text) else 0


class Client:
    """A client, what it asks, and how many messages it sends ahead of the answers. With a generator its stream is cut anywhere,
    and some clients end it before they have all answers. A client may also leave without a farewell, after so many bytes."""

    def __init__(self, port: int, asks: Sequence[Ask], ahead: int = 1, chance: Random | None = None, leaves: int | None = None):
        self.socket = connected(port)
        self.socket.setblocking(False)
        self.asks, self.ahead, self.leaves = asks, ahead, leaves
        self.stream = b"".join(ask.text for ask in asks)
        # where each message ends, beginning with 0 for none
        self.ends = [0, *accumulate(len(ask.text) for ask in asks)]
        self.cuts = [len(self.stream)]
        self.is_hasty = False
        if chance is not None:
            self.cuts += chance.choices(range(len(self.stream)), k=chance.randint(0, 1 + 2 * len(self.stream) // APART))
            self.is_hasty = chance.random() < 0.2
        self.cuts.sort(reverse=True)
        # how many bytes and messages are sent, and how many messages are answered
        self.at = self.sent = self.answered = 0
        self.heard = bytearray()
        self.has_said_all = self.is_over = False

    def limit(self) -> int:
        """How much of the stream may be sent by now."""
        return self.ends[min(len(self.asks), self.answered + self.ahead)]

    def events(self) -> int:
        waits = self.has_said_all or self.limit() == self.at and not self.is_done()
        return selectors.EVENT_READ if waits else selectors.EVENT_READ | selectors.EVENT_WRITE

    def is_done(self) -> bool:
        """Whether it has said that nothing more comes."""
        return self.at == len(self.stream) and (self.is_hasty or self.answered == len(self.asks))

    def take_turn(self, events: int) -> None:
        if events & selectors.EVENT_READ:
            self.hear()
        if events & selectors.EVENT_WRITE and not self.is_over:
            self.say()

    def say(self) -> None:
        """Sends up to the next cut, or says that nothing more comes."""
        while self.cuts[1:] and self.cuts[-1] <= self.at:
            self.cuts.pop()
        now = time.monotonic()
        try:
            self.at += self.socket.send(self.stream[self.at : min(self.limit(), self.cuts[-1])])
            if self.is_done():
                self.socket.shutdown(socket.SHUT_WR)
                self.has_said_all = True
        except BlockingIOError:
            return
        except OSError:
            # the other end has closed; what it sent before may still be read
            self.has_said_all = True
        self.note_sent(now)
        if self.leaves is not None and self.leaves <= self.at:
            self.leave()

    def note_sent(self, now: float) -> None:
        while self.sent < len(self.asks) and self.ends[self.sent + 1] <= self.at:
            self.asks[self.sent].sent = now
            self.sent += 1

    def hear(self) -> None:
        try:
            part = self.socket.recv(PIECE)
        except OSError:
            part = b""
        self.heard += part
        now = time.monotonic()
        while end := end_of_answer(self.heard):
            expect(self.answered < self.sent, f"an answer to nothing: {bytes(self.heard)!r}")
            ask = self.asks[self.answered]
            ask.answer, ask.told = bytes(self.heard[:end]), now
            self.answered += 1
            del self.heard[:end]
        if not part:
            self.is_over = True
            self.socket.close()

    def leave(self) -> None:
        self.is_over = True
        reset(self.socket)

    def expect_whole(self) -> None:
        """All of its messages were answered, and nothing else came."""
        whole = self.answered == len(self.asks) and not self.heard
        expect(whole, f"{self.answered} of {len(self.asks)} are answered, then {bytes(self.heard[:200])!r}")


def play(clients: Iterable[Client], seconds: float = SECONDS) -> None:
    """All clients ask and read, until each is done."""
    latest = time.monotonic() + seconds
    with selectors.DefaultSelector() as selector:
        for client in clients:
            selector.register(client.socket, client.events(), client)
        while left := len(selector.get_map()):
            expect(time.monotonic() < latest, f"{left} clients are not answered in {seconds} s")
            take_turns(selector)


def take_turns(selector: selectors.BaseSelector) -> None:
    for key, events in selector.select(0.1):
        client: Client = key.data
        client.take_turn(events)
        if client.is_over:
            selector.unregister(key.fileobj)
        elif client.events() != key.events:
            selector.modify(key.fileobj, client.events(), client)

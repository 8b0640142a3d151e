"""Tests of what stands between the system's sockets and the proved code, and which no contract reaches: every byte that is sent
is read, once and in order, and every byte of an answer is written, once and in order, however little the other end takes."""

import socket
import threading
import time
from collections.abc import Iterator

from support.cases import ProgramCase
from support.messages import answer, answer_of, message, message_of
from support.programs import SECONDS, expect, new_desk
from support.service import TOGETHER, Service

FIELDS = 60
# so many sheets are more bytes than the buffers of both ends of a connection hold
SHEETS = 3_000
CLIENTS = 3
# what the other end has room for at a time
FEW = 2_304


def article(number: int) -> str:
    return f"A-{number:03}"


def sheet() -> str:
    """The sheet of the branch, as the rules lay it out."""
    rows = [(article(number), 0, 100, number, number, number) for number in range(FIELDS)]
    lines = [f"{name:<16}" + "".join(f" {value:>10}" for value in values) for name, *values in rows]
    total = sum(range(FIELDS))
    return "\n".join([*lines, f"{'total':<16} {total:>14}", ""])


def makes() -> Iterator[tuple[bytes, bytes]]:
    """The messages that make the fields, with their answers."""
    for number in range(FIELDS):
        line = f"K{number} field N1 {article(number)} 0 100 {number}"
        yield message_of(line), answer_of(f"K{number} done {number + 1}")


def connected(port: int) -> socket.socket:
    """A connection whose end here takes few bytes at a time."""
    connection = socket.socket()
    connection.settimeout(SECONDS)
    connection.setsockopt(socket.SOL_SOCKET, socket.SO_RCVBUF, FEW)
    connection.setsockopt(socket.IPPROTO_TCP, socket.TCP_NODELAY, 1)
    connection.connect(("127.0.0.1", port))
    return connection


def send_in_bytes(connection: socket.socket, stream: bytes) -> None:
    for at in range(len(stream)):
        connection.sendall(stream[at : at + 1])


def send_all(connection: socket.socket, stream: bytes) -> None:
    connection.sendall(stream)
    connection.shutdown(socket.SHUT_WR)


def expect_bytes(connection: socket.socket, want: bytes) -> None:
    """The connection brings these bytes, piece by piece, and no others."""
    at = 0
    while piece := connection.recv(FEW):
        expect(piece == want[at : at + len(piece)], f"other bytes from {at} on: {piece!r}")
        at += len(piece)
    expect(at == len(want), f"{at} bytes of {len(want)}")


def expect_sheets(port: int, want: bytes) -> None:
    """Whoever asks for many sheets at once, and begins late to take them, gets each whole."""
    with connected(port) as connection:
        asks = threading.Thread(target=send_all, args=(connection, message("GET /v1/sheets/N1", "") * SHEETS))
        asks.start()
        time.sleep(0.3)
        expect_bytes(connection, want)
        asks.join()


class Sockets(ProgramCase):
    def expect_all(self, options: list[str]) -> None:
        path = new_desk(self.program, self.folder)
        service = Service(self.program, path, 1 + CLIENTS, options=options)
        with connected(service.port) as connection:
            asked, told = (b"".join(parts) for parts in zip(*makes(), strict=True))
            sends = threading.Thread(target=send_in_bytes, args=(connection, asked))
            sends.start()
            sends.join()
            connection.shutdown(socket.SHUT_WR)
            expect_bytes(connection, told)
        want = answer(200, sheet()) * SHEETS
        faults: list[BaseException] = []

        def take() -> None:
            try:
                expect_sheets(service.port, want)
            except (AssertionError, OSError) as fault:
                faults.append(fault)

        clients = [threading.Thread(target=take) for _ in range(CLIENTS)]
        for client in clients:
            client.start()
        for client in clients:
            client.join()
        expect(not faults, f"{faults}")
        service.expect_end()

    def test_each_byte_comes_and_goes_one_by_one(self) -> None:
        self.expect_all([])

    def test_each_byte_comes_and_goes_together(self) -> None:
        self.expect_all(TOGETHER)

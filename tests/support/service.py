"""The built program as it serves a desk over connections, and what is asked of it there."""

import contextlib
import http.client
import re
import resource
import socket
import struct
import subprocess
import threading
import time
from collections.abc import Callable, Sequence

from support.messages import compact
from support.programs import SECONDS, End, expect

JSON = "application/json"
# the options with which a service serves many connections at once
TOGETHER = ["--together", "1000"]
# words that are no number of requests to be carried out together, and words that are no number of connections
NO_NUMBERS = ["0", "x", "+1", "01", "", " 1", "1.0", "1_0", "99999999999999999999"]
NOT_TOGETHER, NOT_CLIENTS, NOT_PLACES = [*NO_NUMBERS, "1001"], [*NO_NUMBERS, "4001"], [*NO_NUMBERS, "200001"]

# a resource, and the limit on it
Limit = tuple[int, int]


def limited(limit: int | Limit | None) -> Callable[[], None] | None:
    """What sets a limit, soft and hard, in the process that is begun."""
    if limit is None:
        return None
    kind, size = (resource.RLIMIT_FSIZE, limit) if isinstance(limit, int) else limit
    return lambda: resource.setrlimit(kind, (size, size))


class NotServed(AssertionError):
    """A service that does not say its port, and how it ended."""

    def __init__(self, end: End):
        super().__init__(f"no port: {end}")
        self.end = end


class Service:
    """A desk in a file, served to so many connections. A limit may say how many bytes its file may have, or how much there is of
    another resource. The words of `runner` stand in front of the program, as of a tool that runs it."""

    def __init__(
        self,
        program: str,
        path: str,
        connections: int,
        port: int = 0,
        limit: int | Limit | None = None,
        environment: dict[str, str] | None = None,
        options: Sequence[str] = (),
        runner: Sequence[str] = (),
        seconds: float = SECONDS,
    ):
        self.process = subprocess.Popen(
            [*runner, program, "serve", path, "--port", str(port), "--connections", str(connections), *options],
            stdin=subprocess.DEVNULL,
            stdout=subprocess.PIPE,
            stderr=subprocess.PIPE,
            env=environment,
            restore_signals=limit is None,
            preexec_fn=limited(limit),
        )
        # an answer that never comes ends the test
        self.clock = threading.Timer(seconds, self.process.kill)
        self.clock.start()
        assert self.process.stdout
        told = self.process.stdout.readline()
        listening = re.fullmatch(rb"listening ([1-9][0-9]*)\n", told)
        if not listening:
            status, out, errors = self.end()
            raise NotServed((status, told + out, errors))
        self.port = int(listening[1])

    def connect(self) -> http.client.HTTPConnection:
        return http.client.HTTPConnection("127.0.0.1", self.port, timeout=SECONDS)

    def end(self) -> End:
        """How it ends, and what it wrote after its port."""
        out, errors = self.process.communicate()
        self.clock.cancel()
        return self.process.returncode, out, errors

    def expect_end(self, want: End = (0, b"", b"")) -> None:
        found = self.end()
        expect(found == want, f"serve: {found} and not {want}")


# an answer: its status, its type and its body
Answer = tuple[int, str | None, str]


def ask(connection: http.client.HTTPConnection, method: str, target: str, body: str | None = None) -> Answer:
    connection.request(method, target, body)
    answer = connection.getresponse()
    return answer.status, answer.getheader("content-type"), answer.read().decode()


def post(connection: http.client.HTTPConnection, key: str, command: str) -> Answer:
    return ask(connection, "POST", "/v1/commands", compact({"key": key, "command": command}))


def answered(port: int, pieces: list[bytes], is_reset: bool = False) -> bytes:
    """What is answered to these pieces, which are sent one by one, until the connection ends; or the connection is reset after
    the pieces."""
    found = b""
    with socket.create_connection(("127.0.0.1", port), SECONDS) as connection:
        connection.setsockopt(socket.IPPROTO_TCP, socket.TCP_NODELAY, 1)
        if is_reset:
            # the connection is closed without a farewell
            connection.setsockopt(socket.SOL_SOCKET, socket.SO_LINGER, struct.pack("ii", 1, 0))
        # the other end may have closed it after bytes that it could not read
        with contextlib.suppress(OSError):
            for piece in pieces:
                connection.sendall(piece)
                if len(pieces) > 1:
                    time.sleep(0.0002)
            if is_reset:
                return found
            connection.shutdown(socket.SHUT_WR)
        with contextlib.suppress(ConnectionResetError):
            while part := connection.recv(65_536):
                found += part
    return found

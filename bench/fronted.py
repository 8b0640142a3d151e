"""The program behind its front, HAProxy, as a server of requests over TLS; the same beside a client that reads slowly; and
several desks behind one front."""

import os
import shutil
import socket
import sys
import threading
import time
from collections.abc import Iterator, Sequence
from contextlib import contextmanager

from loads import PATIENCE, Load, Work, by_wrk
from services import Pace, Service
from support.chains import lines_of
from support.fronts import CONFIGURATION, OFFICE, PAGE, Haproxy, credentials, head_of

SHEET = "/v1/sheets/N0"
# settings of older fronts, whose buffers were larger; the environment for the program is not for the front
MALLOC = {"MALLOC_MMAP_THRESHOLD_": "33554432", "MALLOC_TRIM_THRESHOLD_": "1073741824"}


class Fronted(Service):
    """The program behind HAProxy, with the configuration that is shipped or with another; no user has limits."""

    def __init__(self, program: str, desk: str, pace: Pace, options: Sequence[str] = (), configuration: str = CONFIGURATION):
        super().__init__(program, desk, pace, options)
        self.configuration = configuration

    def __enter__(self) -> "Fronted":
        super().__enter__()
        try:
            self.front = Haproxy(os.path.dirname(self.desk), self.port, configuration=self.configuration)
            for name in MALLOC:
                self.front.environment.pop(name, None)
            if self.configuration != CONFIGURATION:
                # the page of an older front is one file
                self.front.environment.update(MALLOC, PAGE=os.path.join(PAGE, "desk.html"))
            self.front.start()
        except BaseException:
            self.end()
            raise
        return self

    def __exit__(self, *_: object) -> None:
        self.front.stop()
        super().__exit__()
        os.remove(self.front.log_path)

    def load(self, work: Work, clients: int, seconds: int) -> Load:
        header = credentials(OFFICE)["Authorization"]
        return by_wrk(f"https://127.0.0.1:{self.front.port}", work, clients, seconds, header)


class Slowly(Fronted):
    """The same, while one more client reads a sheet, one byte a second."""

    def load(self, work: Work, clients: int, seconds: int) -> Load:
        with reading_slowly(self.front):
            found = super().load(work, clients, seconds)
        last = time.monotonic() + PATIENCE
        while not any(f" {SHEET} 200 " in line for line in self.front.log()):
            if time.monotonic() > last:
                sys.exit("bench: no sheet was answered")
            time.sleep(0.1)
        return found


@contextmanager
def behind_one_front(folder: str, ports: Sequence[int]) -> Iterator[list[str]]:
    """Serves the desks at these ports behind one front, and yields their addresses."""
    names = [f"desk{number}" for number in range(len(ports))]
    os.mkdir(folder)
    front = Haproxy(folder, 0, more="".join(map(lines_of, names, ports)))
    for name in MALLOC:
        front.environment.pop(name, None)
    del front.environment["DESK"]
    front.environment["DESKS"] = os.path.join(folder, "desks.map")
    with open(front.environment["DESKS"], "w", encoding="ascii") as file:
        file.write(f"{OFFICE} {' '.join(names)}\n")
    front.start()
    try:
        yield [f"https://127.0.0.1:{front.port}/{name}" for name in names]
    finally:
        front.stop()
        shutil.rmtree(folder)


@contextmanager
def reading_slowly(front: Haproxy) -> Iterator[None]:
    """Beside a client that has asked for a sheet, has little room for it, and takes one byte a second from its connection."""
    plain = socket.socket()
    plain.setsockopt(socket.SOL_SOCKET, socket.SO_RCVBUF, 4096)
    plain.connect(("127.0.0.1", front.port))
    over = threading.Event()
    with front.context.wrap_socket(plain, server_hostname="localhost") as client:
        # what is read beneath TLS is a byte, not a record
        with socket.socket(fileno=os.dup(client.fileno())) as beneath:

            def read() -> None:
                while not over.wait(1):
                    beneath.recv(1)

            client.sendall(head_of(OFFICE, SHEET))
            reader = threading.Thread(target=read)
            reader.start()
            try:
                yield
            finally:
                over.set()
                reader.join()

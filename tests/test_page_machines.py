"""Tests of the page before machines that hold one desk, in Chromium through a front. With each command the page says how far the
log had come by the answers so far; where a desk says nothing about a log, the page says nothing."""

import contextlib
import http.client
import http.server
import threading
import time
from collections.abc import Iterator

from support.browser import Page, PageCase
from support.fronts import Haproxy
from support.programs import SECONDS, expect

# beyond it a number of JavaScript is not exact
FIRST = 1 << 53


class Machine(http.server.ThreadingHTTPServer):
    """Hands messages on to a desk, as a machine does. With each message its log comes on by one, and its answers say so unless it
    has no log. For some time it may answer commands by 503."""

    daemon_threads = True

    def __init__(self, port: int, has_log: bool = True):
        super().__init__(("127.0.0.1", 0), Handler)
        self.desk, self.has_log = port, has_log
        self.lock = threading.Lock()
        self.revision, self.refuses = FIRST, ""
        # the revision that each command was sent with, and that of its answer
        self.known: list[tuple[int, int]] = []


class Handler(http.server.BaseHTTPRequestHandler):
    server: Machine
    protocol_version = "HTTP/1.1"

    def do_GET(self) -> None:
        with self.server.lock:
            body = self.rfile.read(int(self.headers["content-length"]))
            if self.command == "POST":
                self.server.known.append((int(self.headers["asked-after"] or -1), self.server.revision + 1))
            refuses = self.command == "POST" and self.server.refuses
            status, told = (503, refuses.encode()) if refuses else self.of_the_desk(body)
            self.server.revision += 1
            self.send_response(status)
            if self.server.has_log:
                self.send_header("Log-Revision", str(self.server.revision))
            self.send_header("Content-Length", str(len(told)))
            self.end_headers()
            self.wfile.write(told)

    do_POST = do_GET

    def of_the_desk(self, body: bytes) -> tuple[int, bytes]:
        with contextlib.closing(http.client.HTTPConnection("127.0.0.1", self.server.desk, timeout=SECONDS)) as connection:
            connection.request(self.command, self.path, body or None)
            answer = connection.getresponse()
            return answer.status, answer.read()

    def log_message(self, *_words: object) -> None:
        """Nothing is logged."""


def is_still(machine: Machine) -> bool:
    """Whether nobody asks for anything for a moment."""
    revision = machine.revision
    time.sleep(0.3)
    return machine.revision == revision


class PageMachines(PageCase):
    @contextlib.contextmanager
    def machine(self, has_log: bool = True) -> Iterator[tuple[Machine, Haproxy]]:
        """A machine before the desk of all tests, and its front."""
        with Machine(self.front.desk_port, has_log) as machine:
            thread = threading.Thread(target=machine.serve_forever, kwargs={"poll_interval": 0.01})
            thread.start()
            front = Haproxy(self.folder, machine.server_address[1])
            front.start()
            try:
                yield machine, front
            finally:
                front.stop()
                machine.shutdown()
                thread.join()

    def deliver(self, page: Page, machine: Machine) -> None:
        page.wait(lambda: is_still(machine), "it looks on")
        page.tell("#deliver", branch="N1", article="A-1", quantity=1)

    def test_the_newest_revision_is_told(self):
        """The page says the newest revision with each command, and each time that it asks again; also behind a reload, and where
        one machine is behind another."""
        with self.machine() as (machine, front), Page(front, "w1") as page:
            for _ in range(3):
                self.deliver(page, machine)
            machine.refuses = '{"error":"late"}'
            page.send("#deliver", branch="N1", article="A-1", quantity=1)
            page.wait(lambda: len(machine.known) >= 5, "it is not asked again")
            page.browser.refresh()
            before = len(machine.known)
            page.wait(lambda: len(machine.known) > before, "it is not asked again behind a reload")
            machine.refuses = ""
            page.wait_said("Done")
            page.wait(lambda: is_still(machine), "it looks on")
            told = FIRST + 1
            for known, answered in machine.known:
                # what is shown is asked for at the same time
                expect(told <= known < answered, f"{known}, not from {told} to before {answered}: {machine.known}")
                told = answered
            with machine.lock:
                greatest, machine.revision = machine.revision, 9
            page.send("#deliver", branch="N1", article="A-1", quantity=1)
            page.wait_said("Done")
            expect(machine.known[-1][0] == greatest, f"{machine.known[-1]} where {greatest} was told")

    def test_a_desk_without_a_log_is_told_nothing(self):
        with self.machine(has_log=False) as (machine, front), Page(front, "w1") as page:
            for _ in range(2):
                self.deliver(page, machine)
            expect([known for known, _ in machine.known] == [-1, -1], f"{machine.known}")

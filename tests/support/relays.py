"""What stands between a client and a desk and causes faults, or stands in a desk's place."""

import contextlib
import http.client
import http.server
import socketserver
import ssl
import subprocess
import threading
from collections.abc import Iterator

SECONDS = 60


class Relay(http.server.ThreadingHTTPServer):
    """Hands each message on to a desk. A message may have a fault, by its number from 1. `lost`: its answer does not come back.
    `away`: it does not arrive. `busy`: a front answers in place of the desk. `late`: it arrives only when `goes_on` is set.
    `killed`: the client is killed before it has the answer. `ended`: the client is killed and the message does not arrive."""

    daemon_threads = True

    def __init__(self, port: int, faults: dict[int, str], context: ssl.SSLContext | None = None):
        super().__init__(("127.0.0.1", 0), Handler)
        if context:
            self.socket = context.wrap_socket(self.socket, server_side=True)
        self.desk, self.faults = port, faults
        self.client: subprocess.Popen[str] | None = None
        self.came, self.goes_on = threading.Event(), threading.Event()
        # what each message says about its user
        self.shown: list[str | None] = []
        self.thread = threading.Thread(target=self.serve_forever, kwargs={"poll_interval": 0.01})
        self.thread.start()

    def end(self) -> None:
        self.shutdown()
        self.thread.join()
        self.server_close()


class Handler(http.server.BaseHTTPRequestHandler):
    server: Relay

    def do_GET(self) -> None:
        self.server.shown.append(self.headers["Authorization"])
        fault = self.server.faults.get(len(self.server.shown))
        body = self.rfile.read(int(self.headers.get("Content-Length", 0)))
        self.close_connection = True
        self.wait_if(fault == "late")
        if fault == "ended":
            self.kill_client()
        elif fault == "busy":
            self.answer(503, b'{"error":"desk"}')
        elif fault != "away":
            self.hand_on(fault, body)

    do_POST = do_GET

    def wait_if(self, is_late: bool) -> None:
        if is_late:
            self.server.came.set()
            self.server.goes_on.wait(SECONDS)

    def hand_on(self, fault: str | None, body: bytes) -> None:
        answer = self.of_the_desk(body)
        if fault == "killed":
            self.kill_client()
        elif fault != "lost":
            self.answer(*answer)

    def kill_client(self) -> None:
        assert self.server.client
        self.server.client.kill()

    def of_the_desk(self, body: bytes) -> tuple[int, bytes]:
        connection = http.client.HTTPConnection("127.0.0.1", self.server.desk, timeout=SECONDS)
        try:
            connection.request(self.command, self.path, body or None)
            answer = connection.getresponse()
            return answer.status, answer.read()
        finally:
            connection.close()

    def answer(self, status: int, body: bytes) -> None:
        self.send_response(status)
        self.send_header("Content-Length", str(len(body)))
        self.end_headers()
        self.wfile.write(body)

    def log_message(self, *_words: object) -> None:
        pass


class FalseDesk(socketserver.ThreadingTCPServer):
    """Answers whatever comes with these bytes and closes; where there are none, never answers."""

    daemon_threads = True

    def __init__(self, told: bytes | None):
        super().__init__(("127.0.0.1", 0), FalseAnswer)
        self.told, self.over = told, threading.Event()


class FalseAnswer(socketserver.BaseRequestHandler):
    server: FalseDesk

    def handle(self) -> None:
        self.request.recv(65_536)
        if self.server.told is None:
            self.server.over.wait(SECONDS)
        else:
            self.request.sendall(self.server.told)


@contextlib.contextmanager
def false_desk(told: bytes | None) -> Iterator[int]:
    """The port of something that is no desk."""
    with FalseDesk(told) as server:
        thread = threading.Thread(target=server.serve_forever, kwargs={"poll_interval": 0.01})
        thread.start()
        try:
            yield server.server_address[1]
        finally:
            server.over.set()
            server.shutdown()
            thread.join()

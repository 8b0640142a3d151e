"""Tests of the front before one of several machines: what it passes on of what a client knows of the log, and what comes back."""

import http.server
import threading

from support.fronts import OFFICE, FrontCase, Haproxy, credentials, message
from support.programs import expect

LATE = b'{"error":"late"}'

# what clients send as Asked-After, and how much of that the machine gets
SENT = [
    (["0"], ["0"]),
    (["7"], ["7"]),
    (["9223372036854775807"], ["9223372036854775807"]),
    ([], []),
    (["-1"], []),
    (["7x"], []),
    (["1" * 20], []),
    (["1" * 4_000], []),
    ([str(number) for number in range(40)], ["39"]),
]


class Machine(http.server.BaseHTTPRequestHandler):
    """Answers that a command is late, and notes what it got."""

    heads: list[dict[str, list[str]]] = []
    protocol_version = "HTTP/1.1"

    def do_POST(self) -> None:
        self.rfile.read(int(self.headers["content-length"]))
        self.heads.append({name.lower(): self.headers.get_all(name, []) for name in self.headers})
        self.send_response_only(503)
        for name, value in [("Content-Type", "application/json"), ("Log-Revision", "12"), ("Retry-After", "0")]:
            self.send_header(name, value)
        self.send_header("Content-Length", str(len(LATE)))
        self.end_headers()
        self.wfile.write(LATE)


class ReplicasFront(FrontCase):
    def test_what_a_client_knows_of_the_log_passes(self):
        with http.server.ThreadingHTTPServer(("127.0.0.1", 0), Machine) as server:
            threading.Thread(target=server.serve_forever, kwargs={"poll_interval": 0.01}, daemon=True).start()
            front = Haproxy(self.folder, server.server_address[1])
            front.start()
            try:
                for sent, _ in SENT:
                    self.expect_passed(front, sent)
            finally:
                front.stop()
                server.shutdown()
        for (sent, want), head in zip(SENT, Machine.heads, strict=True):
            expect(head.get("asked-after", []) == want, f"{sent}: {head}")
            expect(set(head) <= {"content-length", "host", "asked-after"}, f"{sent}: {head}")

    def expect_passed(self, front: Haproxy, sent: list[str]) -> None:
        """The answer comes back, with what it says about the log."""
        connection = front.connect()
        body = message("K1", "expire 0")
        connection.putrequest("POST", "/v1/commands")
        lines = [("Content-Length", str(len(body))), ("X-Other", "7"), *credentials(OFFICE).items()]
        for name, value in [*lines, *(("Asked-After", value) for value in sent)]:
            connection.putheader(name, value)
        connection.endheaders(body.encode())
        answer = connection.getresponse()
        told = answer.status, answer.read(), answer.getheader("log-revision"), answer.getheader("retry-after")
        expect(told == (503, LATE, "12", "0"), f"{sent}: {told}")
        connection.close()

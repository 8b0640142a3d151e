"""Tests of ways round what a group may do: messages of a shop that a proxy and a desk might read differently, and that might so
bring something which a shop may not do. Each is refused by the front, or does nothing."""

import json

from support import fronts
from support.fronts import OFFICE, SHOP, Front, FrontCase, credentials
from support.programs import SECONDS, expect, note
from support.ways import BODIES, COMMIT, PAIR

TELL = "POST /v1/commands HTTP/1.1"
NAME = f"Authorization: {credentials(SHOP)['Authorization']}"

# lines of a head, the first being the line of the request; what follows is DELIVER's body
HEADS = {
    "two slashes": ["POST //v1/commands HTTP/1.1"],
    "two slashes within": ["POST /v1//commands HTTP/1.1"],
    "a slash behind": ["POST /v1/commands/ HTTP/1.1"],
    "a dot": ["POST /v1/./commands HTTP/1.1"],
    "two dots": ["POST /v1/fields/../commands HTTP/1.1"],
    "an escaped letter": ["POST /v1/%63ommands HTTP/1.1"],
    "an escaped slash": ["POST /v1%2Fcommands HTTP/1.1"],
    "an escaped zero": ["POST /v1/commands%00 HTTP/1.1"],
    "a query": ["POST /v1/commands?x=1 HTTP/1.1"],
    "an empty query": ["POST /v1/commands? HTTP/1.1"],
    "a parameter": ["POST /v1/commands;x=1 HTTP/1.1"],
    "a fragment": ["POST /v1/commands#x HTTP/1.1"],
    "capitals": ["POST /V1/COMMANDS HTTP/1.1"],
    "a backslash": ["POST \\v1\\commands HTTP/1.1"],
    "a whole address": ["POST https://localhost/v1/commands HTTP/1.1"],
    "an address of the desk": ["POST http://127.0.0.1/v1/commands HTTP/1.1"],
    "the whole server": ["POST * HTTP/1.1"],
    "a target of a view": ["POST /v1/fields/N1/A-1 HTTP/1.1"],
    "another method": ["PUT /v1/commands HTTP/1.1"],
    "a patch": ["PATCH /v1/commands HTTP/1.1"],
    "a deletion": ["DELETE /v1/commands HTTP/1.1"],
    "a small method": ["post /v1/commands HTTP/1.1"],
    "a head of a view": ["HEAD /v1/fields/N1/A-1 HTTP/1.1"],
    "options": ["OPTIONS /v1/commands HTTP/1.1"],
    "a trace": ["TRACE /v1/commands HTTP/1.1"],
    "a tunnel": ["CONNECT /v1/commands HTTP/1.1"],
    "a view with a body": ["GET /v1/fields/N1/A-1 HTTP/1.1"],
    "a command that is asked for": ["GET /v1/commands HTTP/1.1"],
    "another method in a header": ["GET /v1/fields/N1/A-1 HTTP/1.1", "X-HTTP-Method-Override: POST"],
    "HTTP/1.0": ["POST /v1/commands HTTP/1.0"],
    "HTTP/1.2": ["POST /v1/commands HTTP/1.2"],
    "no version": ["POST /v1/commands"],
    "chunks": [TELL, "Transfer-Encoding: chunked"],
    "chunks in capitals": [TELL, "TRANSFER-ENCODING: Chunked"],
    "chunks behind a tab": [TELL, "Transfer-Encoding:\tchunked"],
    "chunks behind another encoding": [TELL, "Transfer-Encoding: identity, chunked"],
    "an encoding that is none": [TELL, "Transfer-Encoding: x"],
    "two lengths": [TELL, "Content-Length: 1"],
    "a list of lengths": [TELL, "Content-Length: 1, 1"],
    "a length below 0": [TELL, "Content-Length: -1"],
    "a length with a sign": [TELL, "Content-Length: +1"],
    "a space before a colon": [TELL, "X-User : ho"],
    "a folded line": [TELL, "X-User: a", " ho"],
    "a zero byte in a line": [TELL, "X-User: \0ho"],
    "a packed body": [TELL, "Content-Encoding: gzip"],
    "another user in a header": [TELL, "X-User: ho", "X-Forwarded-User: ho", "Remote-User: ho"],
    "another group in a header": [TELL, "X-Group: office", "Proxy-Authorization: Basic aG86aG8="],
    "two users": [TELL, "Authorization: Basic aG86eA=="],
    "a user that is not handed on": [TELL, "Connection: Authorization"],
    "another protocol": [TELL, "Connection: Upgrade, HTTP2-Settings", "Upgrade: h2c", "HTTP2-Settings: AAMAAABkAAQAAP__"],
    "many lines": [TELL, *(f"X-{n}: 1" for n in range(60))],
}


def answers_to(front: Front, text: bytes) -> bytes:
    """All that is answered to this text, until the front closes or nothing more comes for a while."""
    found = b""
    with front.socket() as client:
        client.sendall(text)
        try:
            while part := client.recv(65_536):
                found += part
                client.settimeout(0.3)
        except OSError:
            pass
    return found


def sent(lines: list[str], body: bytes) -> bytes:
    """A message of n1 with these lines, and with a line of its length, unless they have one or say that it comes in chunks."""
    told = "".join(lines[1:]).lower()
    more = [NAME, "Host: localhost"]
    if "content-length" not in told or "," not in told:
        more.append(f"Content-Length: {len(body)}")
    return "".join(line + "\r\n" for line in [lines[0], *more, *lines[1:], ""]).encode() + body


def expect_nothing_done(front: Front, what: str, found: bytes) -> None:
    """Nothing is answered as done, nothing is delivered, nothing is kept; and the next who asks gets the answer to that."""
    expect(b'{"place"' not in found, f"{what}: {found!r}")
    expect(front.value() == 500, f"{what}: it was delivered")
    own = front.tell(OFFICE, "writeoff N1 A-1 501", "WAY")
    expect(own[0] == 409 and own[1]["refused"] == "TooLittle", f"{what}: its key is taken, or another's answer came: {own}")


class WaysRound(FrontCase):
    def test_one_user_is_named(self):
        """A second name stands before or behind the user's own: the answer is for the user who showed a password."""
        own, other = credentials(SHOP)["Authorization"], credentials(OFFICE, "x")["Authorization"]
        with Front(self.program, self.folder) as front:
            expect(front.ask(SHOP, "GET", "/user")[0] == 200, "no answer to a user")
            for names in [(own, other), (other, own)]:
                lines = "".join(f"Authorization: {name}\r\n" for name in names)
                found = answers_to(front, f"GET /user HTTP/1.1\r\n{lines}Host: localhost\r\n\r\n".encode())
                expect(found.startswith(b"HTTP/1.1 400 "), f"{names}: {found!r}")
            expect(not any(OFFICE in line.split()[2:3] for line in front.log()), "the log names another user")

    def test_no_view_has_a_head_alone(self):
        """HEAD is refused, since the desk would answer it with a body, with which the next answer would begin."""
        with Front(self.program, self.folder) as front:
            for target in ["/v1/fields/N1/A-1", "/v1/sheets/N1", "/user", "/", "/metrics"]:
                found = answers_to(front, f"HEAD {target} HTTP/1.1\r\n{NAME}\r\nHost: localhost\r\n\r\n".encode())
                expect(found.startswith(b"HTTP/1.1 405 "), f"{target}: {found!r}")
                expect(front.value() == 500, "another answer")

    def test_no_body_goes_round(self):
        with Front(self.program, self.folder, script="F1 field N1 A-1 0 100000 500\n") as front:
            for what, body in BODIES.items():
                found = answers_to(front, sent([TELL], body.encode()))
                status = found.split(b" ")[1:2]
                expect(status in ([b"400"], [b"403"]), f"{what}: {found!r}")
                expect_nothing_done(front, what, found)
            for encoding in ["utf-16", "utf-16-le", "utf-7", "utf-32"]:
                found = answers_to(front, sent([TELL], json.dumps(PAIR).encode(encoding)))
                expect_nothing_done(front, encoding, found)
        note(f"{len(BODIES) + 4} bodies")

    def test_no_head_goes_round(self):
        body = json.dumps(PAIR).encode()
        chunks = f"{len(body):x}\r\n".encode() + body + b"\r\n0\r\n\r\n"
        with Front(self.program, self.folder, script="F1 field N1 A-1 0 100000 500\n") as front:
            for what, lines in HEADS.items():
                for text in [body, chunks] if what.startswith("chunks") else [body]:
                    found = answers_to(front, sent(lines, text))
                    expect(not found.startswith(b"HTTP/1.1 200") or b'{"place"' not in found, f"{what}: {found!r}")
                    expect_nothing_done(front, what, found)
        note(f"{len(HEADS)} heads")

    def test_no_second_message_goes_round(self):
        """A message behind another one is judged as well, also one that begins where a length that is too short ends the
        first."""
        whole = sent([TELL], json.dumps(PAIR).encode())
        commit = json.dumps({"key": "OWN", "command": COMMIT}).encode()
        head = whole.split(b"Content-Length")[0]
        firsts = {
            "behind one that it may send": sent([TELL], commit),
            "behind a view": sent(["GET /v1/fields/N1/A-1 HTTP/1.1"], b""),
            "behind a length that is too short": head + f"Content-Length: {len(commit)}\r\n\r\n".encode() + commit,
            "behind a body of a view": head.replace(b"POST /v1/commands", b"GET /v1/fields/N1/A-1")
            + b"Content-Length: 0\r\n\r\n",
            "behind an empty line": b"\r\n",
        }
        with Front(self.program, self.folder, script="F1 field N1 A-1 0 100000 500\n") as front:
            for what, first in firsts.items():
                found = answers_to(front, first + whole)
                expect_nothing_done(front, what, found)

    def test_no_group_is_left_behind(self):
        """On one connection each message counts for its own user, whoever asked before it."""
        with Front(self.program, self.folder, script="F1 field N1 A-1 0 100000 500\n") as front:
            connection = front.connect()
            connection.timeout = SECONDS
            for user, want in [(OFFICE, 200), (SHOP, 403), (OFFICE, 200), (None, 401), (SHOP, 403)]:
                headers = credentials(user) if user else {}
                body = fronts.message(f"K{want}", "rebound N1 A-1 0 100000")
                connection.request("POST", "/v1/commands", body, headers)
                answer = connection.getresponse()
                answer.read()
                expect(answer.status == want, f"{user}: {answer.status}")
            connection.close()

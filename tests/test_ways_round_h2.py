"""Tests of ways round what a group may do over HTTP/2, where only the front spells the message: pseudo headers, bodies without a
length, trailers, tunnels, and answers that are not read. Each is refused by the front, or does nothing, and holds nobody up."""

import json
import time
import unittest
from collections.abc import Callable

from support import http2
from support.fronts import FIELDS, OFFICE, SHOP, WAREHOUSE, Front, FrontCase, credentials, message
from support.http2 import Headers, Http2
from support.programs import expect, note
from support.ways import BODIES, COMMIT, PAIR

VIEW = "/v1/fields/N1/A-1"
TELL = "/v1/commands"
SHEET = "/v1/sheets/N2"
DESK = '{"error":"message"}'
MESSAGE = b"POST /v1/commands HTTP/1.1\r\nContent-Length: 45\r\n\r\n" + json.dumps(PAIR).encode()

# how many seconds three clients that ask may take beside others on a slow machine; the front cuts who holds it up after 5 s and
# more
TIME = 4.0

# connections to the desk beside the first: where one is not free yet when the next asks, there is one more
SPARE = 2


def head(method: str, path: str, *more: tuple[str, str], **pseudo: str) -> Headers:
    """A head of n1. The pseudo headers that are named stand so; those that are named empty are left out."""
    parts = {"method": method, "scheme": "https", "authority": "localhost", "path": path, **pseudo}
    own = [(f":{name}", value) for name, value in parts.items() if value]
    return [*own, ("authorization", credentials(SHOP)["Authorization"]), *more]


def told(body: bytes, *more: tuple[str, str], **pseudo: str) -> Headers:
    return head("POST", TELL, ("content-length", str(len(body))), *more, **pseudo)


WHOLE = json.dumps(PAIR).encode()
GOOD = message("OWN", COMMIT).encode()
OTHER = credentials(OFFICE)["Authorization"]
WEBSOCKET = ("sec-websocket-version", "13")

# what is sent, as a head and a body, from which no command comes
HEADS: dict[str, tuple[Headers, bytes | None]] = {
    "what a shop may not do": (told(WHOLE), WHOLE),
    "no length": (head("POST", TELL), WHOLE),
    "no length for a command of its own": (head("POST", TELL), GOOD),
    "a length that is too short": (told(GOOD), GOOD + MESSAGE),
    "a length that is too long": (told(WHOLE + b"  "), WHOLE),
    "a length with a zero in front": (head("POST", TELL, ("content-length", f"0{len(GOOD)}")), GOOD),
    "a length with a sign": (head("POST", TELL, ("content-length", f"+{len(GOOD)}")), GOOD),
    "a list of lengths": (head("POST", TELL, ("content-length", f"{len(GOOD)}, 1")), GOOD),
    "two lengths": (told(GOOD, ("content-length", "1")), GOOD),
    "no length but no body": (head("POST", TELL), None),
    "chunks": (told(WHOLE, ("transfer-encoding", "chunked")), WHOLE),
    "trailers that are announced": (told(WHOLE, ("te", "trailers"), ("trailer", "authorization")), WHOLE),
    "a view with an empty body": (head("GET", VIEW), b""),
    "a view with a body": (head("GET", VIEW), WHOLE),
    "a view with a message as body": (head("GET", VIEW), MESSAGE),
    "a view with a body and its length": (head("GET", VIEW, ("content-length", str(len(MESSAGE)))), MESSAGE),
    "a view with a body of length 0": (head("GET", VIEW, ("content-length", "0")), MESSAGE),
    "a view with a length of two zeros": (head("GET", VIEW, ("content-length", "00")), None),
    "a view with the chunks of a message": (head("GET", VIEW, ("transfer-encoding", "chunked")), MESSAGE),
    "a tunnel": (head("CONNECT", "", scheme=""), MESSAGE),
    "a tunnel to the desk": (head("CONNECT", "", scheme="", authority="127.0.0.1:8080"), MESSAGE),
    "a tunnel with a path": (head("CONNECT", TELL), WHOLE),
    "a websocket on a view": (head("CONNECT", VIEW, WEBSOCKET, protocol="websocket"), None),
    "a websocket with a message": (head("CONNECT", VIEW, WEBSOCKET, protocol="websocket"), MESSAGE),
    "a websocket with a length": (head("CONNECT", VIEW, WEBSOCKET, ("content-length", "0"), protocol="websocket"), MESSAGE),
    "a websocket on commands": (head("CONNECT", TELL, WEBSOCKET, protocol="websocket"), WHOLE),
    "a tunnel of another protocol": (head("CONNECT", VIEW, protocol="connect-udp"), MESSAGE),
    "a view of another protocol": (head("GET", VIEW, protocol="websocket"), MESSAGE),
    "an upgrade": (head("GET", VIEW, ("connection", "upgrade"), ("upgrade", "h2c")), MESSAGE),
    "an upgrade that is named alone": (head("GET", VIEW, ("upgrade", "websocket")), None),
    "another method": (head("PUT", TELL, ("content-length", str(len(WHOLE)))), WHOLE),
    "a head of a view": (head("HEAD", VIEW), None),
    "a small method": (head("post", TELL, ("content-length", str(len(WHOLE)))), WHOLE),
    "a method with a line": (head("GET /x HTTP/1.1\r\nX: y\r\n\r\nPOST", TELL), WHOLE),
    "a method with a target": (head("POST /v1/commands HTTP/1.1", "/x"), WHOLE),
    "no method": (head("", VIEW), None),
    "an empty path": (head("GET", "", scheme="https"), None),
    "a path without a slash": (head("GET", "v1/commands"), None),
    "a path with a space": (head("GET", VIEW + " HTTP/1.1"), None),
    "a path with a line": (head("GET", VIEW + " HTTP/1.1\r\nX: y\r\n\r\nGET /x"), None),
    "a path with a newline": (head("GET", VIEW + "\n"), None),
    "a path with a return": (head("GET", VIEW + "\r"), None),
    "a path with a zero byte": (head("GET", VIEW + "\0"), None),
    "a path with a tab": (head("GET", VIEW + "\t"), None),
    "a path with a fragment": (head("GET", VIEW + "#x"), None),
    "a path with a query": (head("POST", TELL + "?x=1", ("content-length", str(len(WHOLE)))), WHOLE),
    "a path with other letters": (head("GET", VIEW + "\xff"), None),
    "a path that is a whole address": (head("GET", "https://localhost" + VIEW), None),
    "two paths": (head("GET", VIEW, (":path", TELL)), None),
    "a second path before the others": ([(":path", TELL), *head("POST", VIEW)], WHOLE),
    "a method behind the headers": (head("GET", VIEW, (":method", "POST")), WHOLE),
    "another scheme": (head("GET", VIEW, scheme="ftp"), None),
    "a scheme with a line": (head("GET", VIEW, scheme="https://x/ HTTP/1.1\r\nX: y\r\n"), None),
    "no scheme": (head("GET", VIEW, scheme=""), None),
    "a long authority": (head("GET", VIEW, authority="a" * 9_000), None),
    "a long authority of a command": (told(GOOD, authority="a" * 9_000), GOOD),
    "a long host": (head("GET", VIEW, ("host", "a" * 9_000), authority=""), None),
    "an authority with a line": (head("GET", VIEW, authority="a\r\nX: y"), None),
    "an authority with a space": (head("GET", VIEW, authority="a b"), None),
    "an authority with an odd byte": (head("GET", VIEW, authority="a\x01b"), None),
    "a host with an odd byte": (head("GET", VIEW, ("host", "a\x7fb"), authority=""), None),
    "a host beside an authority": (head("GET", VIEW, ("host", "b")), None),
    "many hosts": (head("GET", VIEW, *[("host", "localhost")] * 40), None),
    "many lines": (head("GET", VIEW, *[(f"x-{n}", "1") for n in range(60)]), None),
    "a line in a header": (told(WHOLE, ("x-user", "a\r\nauthorization: " + OTHER)), WHOLE),
    "a zero byte in a header": (told(WHOLE, ("x-user", "a\0")), WHOLE),
    "a name with a line": (told(WHOLE, ("x: y\r\nauthorization", OTHER)), WHOLE),
    "a name in capitals": (told(WHOLE, ("Authorization", OTHER)), WHOLE),
    "a name with a space": (told(WHOLE, ("authorization ", OTHER)), WHOLE),
    "an empty name": (told(WHOLE, ("", OTHER)), WHOLE),
    "a connection header": (told(WHOLE, ("connection", "authorization")), WHOLE),
    "another user behind": (told(WHOLE, ("authorization", credentials(OFFICE, "x")["Authorization"])), WHOLE),
    "another user in a list": (told(WHOLE, ("proxy-authorization", OTHER)), WHOLE),
    "a method in a header": (head("GET", VIEW, ("x-http-method-override", "POST")), WHOLE),
    "a packed body": (told(WHOLE, ("content-encoding", "gzip")), WHOLE),
    "a body that is to be asked for": (told(WHOLE, ("expect", "100-continue")), WHOLE),
}

TRAILERS: dict[str, Headers] = {
    "of no meaning": [("x-trailer", "1")],
    "another user": [("authorization", OTHER)],
    "another length": [("content-length", "1")],
    "chunks": [("transfer-encoding", "chunked")],
    "a pseudo header": [(":path", "/v1/sheets/N1"), (":method", "GET")],
    "a line": [("x", "y\r\n\r\nPOST /v1/commands HTTP/1.1")],
}


def ended_later(client: Http2) -> int:
    """Sends a view whose end is an empty frame, some time behind its head."""
    stream = client.send(head("GET", VIEW), None, is_ended=False)
    time.sleep(0.02)
    client.state.end_stream(stream)
    client.flush()
    return stream


# how a view may end behind its head
ENDS: dict[str, Callable[[Http2], int]] = {
    "an empty frame": lambda client: client.send(head("GET", VIEW), b""),
    "an empty frame that comes later": ended_later,
    "an empty frame and a length": lambda client: client.send(head("GET", VIEW, ("content-length", "0")), b""),
    "trailers": lambda client: client.send(head("GET", VIEW), None, trailers=TRAILERS["of no meaning"]),
    "an empty frame and trailers": lambda client: client.send(head("GET", VIEW), b"", trailers=TRAILERS["of no meaning"]),
}


def connections_of(front: Front) -> float:
    """How many connections the desk was given. It serves so many in its life, and few to a client that asks one by one."""
    status, page = front.ask(OFFICE, "GET", "/metrics")
    expect(status == 200, f"no metrics: {status}")
    start = "haproxy_server_connection_attempts_total{"
    found = [line for line in page.splitlines() if line.startswith(start) and 'server="desk"' in line]
    expect(len(found) == 1, f"{found}")
    return float(found[0].split()[1])


def expect_own_answers(front: Front, what: str) -> None:
    """The next clients that ask get at once the answers to what they asked, and nothing was delivered."""
    began = time.time()
    expect(front.value() == 500, f"{what}: it was delivered")
    status, sheet = front.ask(WAREHOUSE, "GET", "/v1/sheets/N1")
    expect(status == 200 and sheet.startswith("A-1 "), f"{what}: another answer: {status}, {sheet[:80]}")
    own = front.tell(OFFICE, "writeoff N1 A-1 501", "WAY")
    expect(own[0] == 409 and own[1]["refused"] == "TooLittle", f"{what}: its key is taken, or another's answer came: {own}")
    expect(time.time() - began < TIME, f"{what}: {time.time() - began:.1f} s until the next were answered")


def expect_refused(front: Front, what: str, found: tuple[str, str]) -> None:
    """The answer is no command that is done, no fault of the front, and not the desk's word that it could not read."""
    status, body = found
    expect('{"place"' not in body, f"{what}: {found}")
    expect(not status.startswith("5"), f"{what}: {found}")
    expect(body != DESK, f"{what}: the desk could not read what the front let through")
    is_view = status == "200" and body.startswith('{"article":')
    expect(is_view or status in ("", "400", "403", "404", "405", "409", "413"), f"{what}: {found}")


def spoken(front: Front) -> bool:
    """Whether the front speaks HTTP/2. If it does not, a client that speaks it all the same gets no answer to what it asks."""
    with Http2(front) as client:
        if client.is_spoken:
            return True
        found = client.socket.recv(65_536)
        expect(found.startswith(b"HTTP/1.1 400 "), f"HTTP/2 is no protocol of the front, and is spoken: {found[:40]!r}")
    return False


@unittest.skipUnless(http2.is_there(), "python3-h2 is not here")
class WaysRoundH2(FrontCase):
    def test_no_head_goes_round(self):
        with Front(self.program, self.folder, script="F1 field N1 A-1 0 100000 500\n") as front:
            if not spoken(front):
                return
            front.value()
            before = connections_of(front)
            for what, (headers, body) in HEADS.items():
                with Http2(front) as client:
                    expect_refused(front, what, client.answer(client.send(headers, body)))
                expect_own_answers(front, what)
                expect(connections_of(front) <= before + SPARE, f"{what}: a connection of the desk ended")
        note(f"{len(HEADS)} heads")

    def test_no_body_goes_round(self):
        """The bodies are those of the tests with HTTP/1.1, each in one piece and byte by byte, all as streams of one
        connection."""
        with Front(self.program, self.folder, script="F1 field N1 A-1 0 100000 500\n") as front:
            if not spoken(front):
                return
            with Http2(front) as client:
                for what, body in BODIES.items():
                    text = body.encode()
                    found = client.answer(client.send(told(text), text))
                    expect(found[0] in ("400", "403"), f"{what}: {found}")
                    stream = client.send(told(text), b"", is_ended=False)
                    for byte in text:
                        client.state.send_data(stream, bytes([byte]))
                    client.state.end_stream(stream)
                    client.flush()
                    found = client.answer(stream)
                    expect(found[0] in ("400", "403"), f"{what} in bytes: {found}")
                    expect_own_answers(front, what)
        note(f"{len(BODIES)} bodies")

    def test_no_trailers_go_round(self):
        """Trailers stand behind a body, and behind a view: they are dropped or refused, and name nobody."""
        with Front(self.program, self.folder, script="F1 field N1 A-1 0 100000 500\n") as front:
            if not spoken(front):
                return
            for what, trailers in TRAILERS.items():
                for headers, body in [(told(WHOLE), WHOLE), (head("GET", VIEW), None), (head("GET", VIEW), WHOLE)]:
                    with Http2(front) as client:
                        expect_refused(front, what, client.answer(client.send(headers, body, trailers=trailers)))
                    expect_own_answers(front, f"trailers: {what}")

    def test_no_end_takes_a_connection(self):
        """A view ends behind its head: the front refuses it. A command ends by trailers: the desk answers it. The connections to
        the desk stay open."""
        trailers = TRAILERS["of no meaning"]
        commands = {"a command with trailers": lambda client: client.send(told(GOOD), GOOD, trailers=trailers)}
        with Front(self.program, self.folder, script="F1 field N1 A-1 0 100000 500\n") as front:
            if not spoken(front):
                return
            front.value()
            before = connections_of(front)
            for what, send in {**ENDS, **commands}.items():
                want = "409" if what in commands else "400"
                with Http2(front) as client:
                    for _ in range(10):
                        found = client.answer(send(client))
                        expect(found[0] == want and found[1] != DESK, f"{what}: {found}")
                expect_own_answers(front, what)
                expect(connections_of(front) <= before + SPARE, f"{what}: a connection of the desk ended")

    def test_no_stream_is_anothers(self):
        """Streams of one connection have users of their own, all at once: each stream is judged by its own user."""
        asked = [(OFFICE, "200"), (SHOP, "403"), (WAREHOUSE, "403"), (None, "401"), (OFFICE, "200"), (SHOP, "403")]
        with Front(self.program, self.folder, script="F1 field N1 A-1 0 100000 500\n") as front:
            if not spoken(front):
                return
            with Http2(front) as client:
                for nr, (user, want) in enumerate(asked):
                    body = message(f"K{nr}", "rebound N1 A-1 0 100000").encode()
                    headers = [part for part in told(body) if part[0] != "authorization"]
                    if user:
                        headers.append(("authorization", credentials(user)["Authorization"]))
                    found = client.answer(client.send(headers, body))
                    expect(found[0] == want, f"{user}: {found}")
            expect_own_answers(front, "users side by side")

    def test_an_open_end_holds_nobody_up(self):
        """The end of a message does not come, without a body and after one: those who ask meanwhile are answered."""
        heads = {
            "a view": (head("GET", VIEW), None),
            "a view with some of a body": (head("GET", VIEW), b"{"),
            "a view with a length of 0": (head("GET", VIEW, ("content-length", "0")), None),
            "a command without a body": (told(GOOD), None),
            "a command with half a body": (told(GOOD), GOOD[:9]),
            "a command with a whole body": (told(GOOD), GOOD),
            "a websocket": (head("CONNECT", VIEW, WEBSOCKET, protocol="websocket"), None),
        }
        with Front(self.program, self.folder, script="F1 field N1 A-1 0 100000 500\n") as front:
            if not spoken(front):
                return
            front.value()
            before = connections_of(front)
            for what, (headers, body) in heads.items():
                with Http2(front) as client:
                    for _ in range(3):
                        client.send(headers, body, is_ended=False)
                    time.sleep(0.2)
                    expect_own_answers(front, what)
                expect_own_answers(front, f"{what}, which is gone")
            # three are sent at once
            expect(connections_of(front) <= before + 2 + SPARE, "a connection of the desk ended")

    def test_an_unread_answer_holds_nobody_up(self):
        """Answers may not be sent, since no window is open: those who ask meanwhile are answered, and the desk gets no more
        connections than there are such answers."""
        script = FIELDS + "".join(f"S{n} field N2 B-{n} 0 9 9\n" for n in range(9_992))
        # what the system holds back for a client is little, so the front has to
        with Front(self.program, self.folder, more="global\n    tune.sndbuf.client 16384\n", script=script) as front:
            if not spoken(front):
                return
            front.value()
            most = connections_of(front)
            for window, target, count in [(0, VIEW, 1), (0, VIEW, 20), (65_535, SHEET, 1), (1 << 20, SHEET, 3), (0, SHEET, 20)]:
                what = f"{count} unread of {target}, a window of {window}"
                with Http2(front, window) as client:
                    for _ in range(count):
                        client.send(head("GET", target), None)
                    time.sleep(0.5)
                    expect_own_answers(front, what)
                expect_own_answers(front, f"{what}, which is gone")
                most += count
                expect(connections_of(front) <= most + SPARE, f"{what}: the desk was given more connections")

    def test_a_stream_that_is_taken_back_does_no_harm(self):
        """Messages are reset at once, and their client is gone: what was whole may be done, and no answer is another's."""
        with Front(self.program, self.folder, script="F1 field N1 A-1 0 100000 500\n") as front:
            if not spoken(front):
                return
            for headers, body in [(head("GET", VIEW), None), (told(GOOD), GOOD), (told(WHOLE), WHOLE)]:
                with Http2(front) as client:
                    for _ in range(20):
                        client.state.reset_stream(client.send(headers, body), error_code=8)
                        client.flush()
                    expect_own_answers(front, "streams that are taken back")
                expect_own_answers(front, "a client that is gone")

"""Tests of ways round which desk a user is at: targets and heads by which a user of one desk might come to another one, and lines
of the list of desks that are nearly another user's. The front refuses each, and nothing of it reaches the other desk."""

import json
import unittest

from support import http2
from support.chains import Chain
from support.fronts import OFFICE, FrontCase, credentials
from support.programs import expect, note

# of the warehouse, at north alone
USER = "w2"
BODY = json.dumps({"key": "WAY", "command": "deliver S1 A-1 7"})

# what might name the other desk before what is asked of it, and how it ends
BEFORE = {
    "the other desk": "/south",
    "two dots": "/north/../south",
    "two dots behind v1": "/north/v1/../../south",
    "a dot": "/./south",
    "two slashes": "//south",
    "three slashes": "///south",
    "both": "/north/south",
    "both, the other first": "/south/north",
    "both, with two slashes": "/north//south",
    "the same twice": "/north/north",
    "escaped": "/%73outh",
    "an escaped slash": "/north%2F..%2Fsouth",
    "an escaped slash in front": "/%2Fsouth",
    "an escaped zero": "/south%00",
    "capitals": "/SOUTH",
    "a capital": "/South",
    "the backend": "/desk-south",
    "the backend's hop": "/again-south",
    "another backend": "/figures",
    "its end": "/-south",
    "a parameter": "/south;x=1",
    "a parameter of the own": "/north;/south",
    "a bar": "/south|north",
    "a bar behind the own": "/north|south",
    "a bar in front": "/|south",
    "a comma": "/north,south",
    "a plus": "/north+south",
    "a star": "/*",
    "a backslash": "/north\\..\\south",
    "a backslash in front": "\\south",
    "some of a name": "/sout",
    "more than a name": "/souths",
    "a pattern": "/.*",
    "a pattern of it": "/sou(th|x)",
    "a whole address": "https://localhost/south",
    "an address of the desk": "http://south/south",
    "a user before the address": "https://ho:ho@localhost/south",
    "no desk": "",
    "a slash alone": "/",
    "a query": "/north?/south",
    "a fragment": "/north#/south",
    "a long name": "/" + "north" * 400,
}

# targets with spaces, as lines of the list of desks have them
SPACED = [
    "/north south",
    "/south north",
    "/ south",
    "/south ",
    "/north|south x south",
    "/south|x south y",
    "/north\tsouth",
    "/\tsouth",
]

# heads that other proxies read, beside a target of the own desk
HEADS = {
    "a prefix": "X-Forwarded-Prefix: /south",
    "a path": "X-Original-URL: /south/v1/commands",
    "another path": "X-Rewrite-URL: /south/v1/commands",
    "a host": "Host: south",
    "another host": "X-Forwarded-Host: south",
    "a desk": "X-Desk: south",
    "a cookie": "Cookie: desk=south",
    "a referrer": "Referer: https://localhost/south/",
    "another user": "X-User: ho",
}

# lines of users who are not at south, whatever they seem to say
NEARLY = ["x1 north", "x2 sout", "x3 souths", "x4 SOUTH", "x5 north,south", "x6 north|south", "x7 .*", "x8 south1", "x9 -south"]
NEARLY += ["y1 desk-south", "y2 so uth", "y3 north/south", "y4 *", "y5 ", "y6 sou.h", "Y7 south", "#y9 south"]
# and of those who are
ARE = ["z1 south", "z2 north south", "z3 north  south", "z4 south\tnorth", "z5 \t south ", "z6 x south y"]


def asked(front: Chain, method: str, target: str, head: str = "") -> tuple[int, str]:
    """The status, and the rest of what is answered to a target and a line of a head as they are spelled here."""
    body = BODY if method == "POST" else ""
    lines = [f"{method} {target} HTTP/1.1", head or "Host: localhost", "Connection: close", f"Content-Length: {len(body)}"]
    lines += [f"Authorization: {credentials(USER)['Authorization']}", "", body]
    found = b""
    with front.socket() as client:
        client.sendall("\r\n".join(lines).encode())
        while part := client.recv(65_536):
            found += part
    status, _, rest = found.decode().removeprefix("HTTP/1.1 ").partition(" ")
    return int(status), rest


def expect_untouched(front: Chain, what: str) -> None:
    """Nothing was delivered at the other desk, and the key is free there."""
    field = json.loads(front.ask(OFFICE, "GET", "/south/v1/fields/S1/A-1")[1])
    expect(field["value"] == 500, f"{what}: it was delivered")
    status, body = front.tell(OFFICE, "writeoff S1 A-1 501", "WAY", "/south")
    expect(status == 409 and body["refused"] == "TooLittle", f"{what}: its key is taken: {status} {body}")


class WaysRoundDesks(FrontCase):
    def test_no_target_goes_round(self):
        with Chain(self.program, self.folder, users=["w2 warehouse"], at=["w2 north"]) as front:
            for what, before in BEFORE.items():
                for method, target in [("GET", "/v1/fields/S1/A-1"), ("GET", "/v1/sheets/S1"), ("POST", "/v1/commands")]:
                    status, body = asked(front, method, before + target)
                    expect(status in (400, 403, 404) and "A-1" not in body, f"{what}, {method} {before}{target}: {status} {body}")
                expect_untouched(front, what)
            for what, head in HEADS.items():
                status, body = asked(front, "GET", "/north/v1/fields/S1/A-1", head)
                expect(status == 404, f"{what}: {status} {body}")
                status, body = asked(front, "POST", "/north/v1/commands", head)
                expect(status == 409 and "NoField" in body, f"{what}: {status} {body}")
                expect_untouched(front, what)
        note(f"{len(BEFORE)} targets, {len(HEADS)} heads")

    @unittest.skipUnless(http2.is_there(), "python3-h2 is not here")
    def test_no_target_of_http2_goes_round(self):
        """Targets of HTTP/2 may have signs in them that no target of HTTP/1.1 has."""
        with Chain(self.program, self.folder, users=["w2 warehouse"], at=["w2 north"]) as front:
            for before in [*BEFORE.values(), *SPACED]:
                for method, target in [("GET", "/v1/fields/S1/A-1"), ("POST", "/v1/commands")]:
                    body = BODY.encode() if method == "POST" else None
                    parts = {":method": method, ":scheme": "https", ":authority": "localhost", ":path": before + target}
                    parts |= {"authorization": credentials(USER)["Authorization"], "content-length": str(len(body or b""))}
                    with http2.Http2(front) as client:
                        status, told = client.answer(client.send(list(parts.items()), body))
                    expect(status in ("", "400", "403", "404") and "A-1" not in told, f"{method} {before}: {status} {told}")
                expect_untouched(front, before)

    def test_no_line_is_nearly_anothers(self):
        users = [line.split()[0].lstrip("#").lower() for line in NEARLY + ARE]
        with Chain(self.program, self.folder, users=[f"{user} office" for user in users], at=NEARLY + ARE) as front:
            for user, line in zip(users, NEARLY + ARE):
                found = front.ask(user, "GET", "/south/v1/fields/S1/A-1")
                expect(found[0] == 200 if line in ARE else found == (403, '{"error":"desk"}'), f"{line!r}: {found}")
        note(f"{len(NEARLY) + len(ARE)} lines")

    def test_no_desk_is_left_behind(self):
        """On one connection each message goes to its own desk, whatever was asked before it."""
        with Chain(self.program, self.folder, users=["w2 warehouse"], at=["w2 north"]) as front:
            connection = front.connect()
            for user, desk, want in [
                (OFFICE, "south", 200),
                (USER, "south", 403),
                (OFFICE, "north", 200),
                (USER, "north", 200),
            ] * 3:
                field = f"/{desk}/v1/fields/{desk[0].upper()}1/A-1"
                connection.request("GET", field, None, credentials(user))
                answer = connection.getresponse()
                answer.read()
                expect(answer.status == want, f"{user}, {field}: {answer.status}")
            connection.close()

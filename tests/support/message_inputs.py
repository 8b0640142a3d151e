"""Random messages of HTTP: streams of them, and what many clients ask at once. They are drawn as the lines of scripts are."""

import json
import re
from collections.abc import Sequence

from support.asks import FIXED, LAST, SOME_FIELDS, UNREADABLE, Ask, ask_of
from support.chance import Chance, Seeded
from support.inputs import SOME, Known, changed, known_fields, name_of, request, view

METHODS = ["GET", "GET", "GET", "HEAD", "PUT", "get"]
PATHS = ["/v1/commands", "/v1/fields/N1", "/v1/sheets/", "/v1/orders/7/", "/", "*", "/v1/fields/N1/A-1?x", "/v1/%4E1"]
HEADERS = ["Host: desk", "Accept: */*", "X-Long: " + "x" * 300, "Expect: 100-continue", "Connection: close"]
BREAKING = ["Transfer-Encoding: chunked", "Content-Length: 5", "Content-Length: 046", "No colon", "X: \x01"]
LENGTHS = ["Content-Length", "content-length", "CONTENT-LENGTH"]
BODIES = ["[" * 200, "{}", "null", '{"key":"K","command":"expire 1"', '{"key":"K","command":"expire 1","command":"expire 1"}']
LONGEST_BODY = 16_384
# views that can stand in a target as they are
VIEW = re.compile("(?:field|order)(?: [A-Za-z0-9+.-]+)+")


def headers(chance: Chance, most: int) -> list[str]:
    first = chance.whole(0, len(HEADERS) - 1)
    return [HEADERS[(first + number) % len(HEADERS)] for number in range(chance.whole(0, most))]


def target(chance: Chance, known: Known) -> str:
    kind = chance.whole(0, 9)
    if kind == 9:
        return chance.one_of(PATHS)
    if kind >= 7:
        return f"/v1/sheets/{name_of(chance, known)[0]}"
    what, *names = view(chance, known).split(" ")
    return "/".join([f"/v1/{what}s", *names])


def body_of(chance: Chance, known: Known) -> str:
    """The body of a message: mostly a command."""
    kind = chance.whole(0, 199)
    if kind >= 196:
        return chance.one_of(BODIES)
    key, words = known.say(request(chance, known)).decode().split(" ", 1)
    body = json.dumps({"key": key, "command": words})
    return body.ljust(LONGEST_BODY + chance.whole(0, 1)) if kind == 195 else body


def text_of(chance: Chance, known: Known) -> bytes:
    """A message: two of three are commands. After few of them the connection ends."""
    if chance.whole(0, 2) < 2:
        method, path, body = "POST", "/v1/commands", body_of(chance, known)
    else:
        method, path, body = chance.one_of(METHODS), target(chance, known), ""
    lines, odd = headers(chance, 3), chance.whole(0, 199)
    lines += [chance.one_of(BREAKING)] if odd == 199 else ["X: y"] * chance.whole(25, 35) if odd == 198 else []
    if body or chance.share(20):
        lines.append(f"{chance.one_of(LENGTHS)}: {len(body.encode()) + (odd == 197)}")
    version = "HTTP/1.0" if odd == 196 else "HTTP/1.1"
    head = "".join(line + "\r\n" for line in [f"{method} {path} {version}", *lines])
    return f"{head}\r\n{body}".encode()


def stream(chance: Chance, known: Known) -> bytes:
    """Messages one after the other, now and then with changed bytes, or cut off anywhere."""
    text = b"".join(chance.several(lambda chance: text_of(chance, known), 3, 6))
    text = changed(chance, text) if chance.share(15) else text
    return text[: chance.whole(0, len(text))] if chance.share(15) else text


def streams(chance: Chance) -> list[bytes]:
    """The streams of some connections to one desk; the messages that make its fields come first."""
    known = known_fields(chance)
    begin = b"".join(ask_of(line.decode()).text for line in known.lines)
    return [begin, *chance.several(lambda chance: stream(chance, known), 10, 20)]


# ---- what clients ask


def ask(chance: Chance, known: Known) -> Ask:
    """What a client asks. Some questions come again, and some are about nothing that exists; the headers are any."""
    kind = chance.whole(0, 99)
    if kind >= 95:
        text, want = chance.one_of(FIXED)
        return Ask(text, "", want)
    if kind >= 92:
        found = ask_of(f"? sheet {name_of(chance, known)[0]}")
    elif kind >= 65:
        words = view(chance, known)
        found = ask_of(f"? {words if VIEW.fullmatch(words) else 'order 1'}")
    else:
        found = ask_of(known.say(request(chance, known)).decode())
    lines = "".join(f"{header}\r\n" for header in headers(chance, 2))
    return Ask(found.text.replace(b" HTTP/1.1\r\n", f" HTTP/1.1\r\n{lines}".encode(), 1), found.line)


def talks_of(chance: Chance, asks: Sequence[Ask], clients: int) -> list[list[Ask]]:
    """The questions of each client, which are dealt out in turn. The last question of some clients cannot be read."""
    ends = [[Ask(chance.one_of(LAST), "", UNREADABLE)] if chance.share(20) else [] for _ in range(clients)]
    return [[*asks[client::clients], *ends[client]] for client in range(clients)]


def some_known() -> Known:
    """A desk with some fields, which are there before any question."""
    known = Known(SOME)
    for key, words in SOME_FIELDS:
        known.say(f"{key} {words}".encode())
    return known


def load(seed: int, clients: int, count: int) -> list[list[Ask]]:
    """The questions of each client, `count` of them, about some fields."""
    chance, known = Seeded(seed), some_known()
    return talks_of(chance, [ask(chance, known) for _ in range(clients * count)], clients)

"""Scripts in stretches: neighbouring lines that one file of requests can say, and neighbouring lines that no file can say."""

from collections.abc import Iterable

from support.forms import FIELD, HELD, KEY, LEVEL, MOMENT, ORDER, QUANTITY, of_bytes

HEADERS = {
    "orders": "key,order,until,way,branch,article,qty",
    "deliveries": "key,branch,article,qty",
    "bounds": "key,branch,article,lo,hi",
}

# for each kind of file, the requests that its records say
SAID = {
    "orders": of_bytes(f"{KEY} open {ORDER} {MOMENT}(?: {HELD} {QUANTITY}){{1,64}}"),
    "deliveries": of_bytes(f"{KEY} deliver {FIELD} {QUANTITY}"),
    "bounds": of_bytes(f"{KEY} rebound {FIELD} {LEVEL} {LEVEL}"),
}

# the longest line of a script
LONGEST = 4_096


def kind_of(line: bytes) -> str | None:
    """The kind of file that says this line of a script, or None."""
    return next((kind for kind, form in SAID.items() if len(line) <= LONGEST and form.fullmatch(line)), None)


def records_of(kind: str, line: bytes) -> list[list[bytes]]:
    """The records that say the line, one for each line of an order."""
    key, _, *words = line.split(b" ")
    if kind != "orders":
        return [[key, *words]]
    head, held = [key, *words[:2]], words[2:]
    return [head + held[first : first + 4] for first in range(0, len(held), 4)]


def file_of(kind: str, lines: Iterable[bytes]) -> bytes:
    """The file of requests, as bytes, that says the lines."""
    records = [b",".join(record) for line in lines for record in records_of(kind, line)]
    return b"\n".join([HEADERS[kind].encode(), *records, b""])


def key_of(line: bytes) -> bytes:
    return line.split(b" ", 1)[0]


def stretches(lines: Iterable[bytes]) -> list[tuple[str | None, list[bytes]]]:
    """The lines in stretches, each with its kind. Neighbours of one kind are in one stretch, except two orders under one key: in
    a file they would be one order."""
    found: list[tuple[str | None, list[bytes]]] = []
    for line in lines:
        kind = kind_of(line)
        goes_on = bool(found) and found[-1][0] == kind
        if goes_on and not (kind == "orders" and key_of(found[-1][1][-1]) == key_of(line)):
            found[-1][1].append(line)
        else:
            found.append((kind, [line]))
    return found

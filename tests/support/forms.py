"""The forms that lines, replies and HTTP answers have by the rules of the desk."""

import json
import re

from support.messages import compact

BRANCH = "[A-Z0-9]{1,8}"
ARTICLE = "[A-Z0-9][A-Z0-9-]{0,15}"
FIELD = f"{BRANCH} {ARTICLE}"
KEY = "[A-Za-z0-9-]{1,36}"
QUANTITY = "(?:[1-9][0-9]{0,5}|1000000)"
LEVEL = "(?:0|[1-9][0-9]{0,8}|1000000000)"
MOMENT = "(?:0|[1-9][0-9]{0,8}|[1-3][0-9]{9}|4000000000)"
ORDER = "[1-9][0-9]{0,8}"
PLACE = "(?:[1-9][0-9]{0,4}|1[0-9]{5}|200000)"
HELD = f"(?:take|add) {FIELD}"

COMMANDS = [
    f"field {FIELD} {LEVEL} {LEVEL} {LEVEL}",
    f"(?:deliver|writeoff) {FIELD} {QUANTITY}",
    f"rebound {FIELD} {LEVEL} {LEVEL}",
    f"open {ORDER} {MOMENT}(?: {HELD} {QUANTITY}){{1,64}}",
    f"transfer {ORDER} {MOMENT} {ARTICLE} {BRANCH} {BRANCH} {QUANTITY}",
    f"more {ORDER} {HELD} {QUANTITY}",
    f"(?:use|release) {ORDER} {FIELD} {QUANTITY}",
    f"(?:commit|abort|firm) {ORDER}",
    f"expire {MOMENT}",
]

# the names of the refusals, by their codes
REFUSALS = """- KeyReused Full FieldThere NoField BadBounds OrderThere NoOrder Ended Past SameField OtherWay TooManyLines
    TooLittle TooMuch NotHeld OverUse TransferFixed ClockBack Firm BadCommand""".split()
REFUSED = "|".join(f"{code} {name}" for code, name in enumerate(REFUSALS) if name not in ("-", "BadCommand"))
OUTCOME = f"(?:done {PLACE}|refused (?:{REFUSED}) (?:[0-9]|[1-5][0-9]|6[0-4]))"
VIEWS = [
    rf"\? field {FIELD} lo {LEVEL} hi {LEVEL} value {LEVEL} inf {LEVEL} sup {LEVEL}",
    rf"\? order {ORDER} (?:plain|transfer) {MOMENT} (?:open|firm|committed|aborted)(?: {HELD} {LEVEL} {LEVEL}){{1,64}}",
]


def of_bytes(*forms: str) -> re.Pattern[bytes]:
    return re.compile("|".join(forms).encode())


REQUEST = of_bytes(f"({KEY}) (?:{'|'.join(COMMANDS)})")
ASK = of_bytes(rf"\? (?:field {FIELD}|order {ORDER})")
REPLY = of_bytes(f"({KEY}) {OUTCOME}")
VIEW = of_bytes(*VIEWS)
BAD = b"- refused 20 BadCommand 0"
HEAD = of_bytes(
    r"HTTP/1\.1 (200 OK|400 Bad Request|404 Not Found|409 Conflict)\r\n"
    r"content-type: (application/json|text/plain)\r\ncontent-length: (0|[1-9][0-9]*)\r\n\r\n"
)
SHEET = of_bytes(r"(?:[A-Z0-9][A-Z0-9 -]{15}(?: [ 0-9]{9}[0-9]){5}\n)*total {11} [ 0-9]{13}[0-9]\n")

# the members of an object in an answer
MEMBERS = {
    200: [
        {"place"},
        {"article", "branch", "hi", "inf", "lo", "sup", "value"},
        {"kind", "lines", "number", "state", "until"},
    ],
    409: [{"code", "line", "refused"}],
}
UNREADABLE = (400, b'{"error":"message"}')
FIXED = [UNREADABLE, (400, b'{"code":20,"line":0,"refused":"BadCommand"}'), (404, b'{"error":"none"}')]


def is_answer(line: bytes, reply: bytes) -> bool:
    """Whether this may be the reply to a line of a script."""
    if len(line) <= 4_096 and (request := REQUEST.fullmatch(line)):
        found = REPLY.fullmatch(reply)
        return found is not None and found[1] == request[1]
    if ASK.fullmatch(line):
        return reply == b"? none" or reply.startswith(line + b" ") and bool(VIEW.fullmatch(reply))
    return reply == BAD


def is_object(status: int, body: bytes) -> bool:
    """Whether the body is an object in the one spelling that the desk writes, with the members that an answer of this status
    has."""
    if (status, body) in FIXED:
        return True
    value = json.loads(body)
    if status == 409 and f"{value['code']} {value['refused']}" not in REFUSED.split("|"):
        return False
    return set(value) in MEMBERS.get(status, []) and compact(value).encode() == body


def answers_of(text: bytes) -> list[tuple[int, bytes]] | None:
    """The statuses and the bodies of answers that follow one another; None where the text has another form."""
    answers: list[tuple[int, bytes]] = []
    while text:
        head = HEAD.match(text)
        if not head:
            return None
        size, text = int(head[3]), text[head.end() :]
        status, body, text = int(head[1][:3]), text[:size], text[size:]
        is_sheet = head[2] == b"text/plain"
        if len(body) < size or not (status == 200 and SHEET.fullmatch(body) if is_sheet else is_object(status, body)):
            return None
        if (status, body) == UNREADABLE and text:
            return None
        answers.append((status, body))
    return answers

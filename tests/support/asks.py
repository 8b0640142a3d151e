"""What clients ask of a service, each message with the line of a script that asks for the same."""

import json
import math
from dataclasses import dataclass

from support.messages import answer, compact, message, message_of
from support.rules import Rules

NO_MEMORY, STOPPED, NONE, UNREADABLE = (
    answer(status, compact({"error": name}))
    for status, name in [(503, "memory"), (503, "stopped"), (404, "none"), (400, "message")]
)
BAD_COMMAND = answer(400, compact({"code": 20, "line": 0, "refused": "BadCommand"}))
# the moment of what never happened
NEVER = math.inf

# messages with one answer whatever is on the desk, and some after which the connection ends
FIXED = [
    (message("GET /", ""), NONE),
    (message("GET /v1/commands", ""), NONE),
    (message("PUT /v1/commands", compact({"key": "K1", "command": "commit 7"})), NONE),
    (message("POST /v1/commands", ""), BAD_COMMAND),
    (message("POST /v1/commands", "[" * 200), BAD_COMMAND),
    (message("POST /v1/commands", compact({"key": "K1", "command": "commit 7", "more": 1})), BAD_COMMAND),
]
LAST = [
    b"POST /v1/commands HTTP/1.0\r\nContent-Length: 0\r\n\r\n",
    b"POST /v1/commands HTTP/1.1\r\nContent-Length: 16385\r\n\r\n",
    b"GET /v1/orders/7 HTTP/1.1\r\nX: " + b"x" * 8_192,
]
SOME_FIELDS = [(f"F{branch}{article}", f"field N{branch} A-{article} 0 1000 200") for branch in range(4) for article in range(5)]


@dataclass(eq=False, repr=False)
class Ask:
    """A message, with the line of a script that asks for the same, or else with the answer that it has whatever is on the desk;
    the moment when all of it was sent, its answer, and the moment when that was complete."""

    text: bytes
    line: str = ""
    want: bytes = b""
    sent: float = NEVER
    told: float = NEVER
    answer: bytes = b""

    def __repr__(self) -> str:
        return f"{self.line or self.text[:200]!r}, answered {self.answer[-200:]!r}"

    @property
    def is_command(self) -> bool:
        return self.line != "" and not self.line.startswith("? ")

    def again(self) -> "Ask":
        """The same, not sent yet."""
        return Ask(self.text, self.line, self.want)

    def was_sent(self) -> bool:
        return self.sent < NEVER

    def place(self) -> int | None:
        """The place in the answer to a command."""
        body = self.answer.rpartition(b"\r\n\r\n")[2]
        return json.loads(body)["place"] if self.is_command and body.startswith(b'{"place":') else None

    def is_lost(self) -> bool:
        """Whether there is no answer, or an answer that says nothing about the ledger."""
        return self.answer in (b"", NO_MEMORY, STOPPED)

    def fits(self, desk: Rules) -> bool:
        """Whether the desk would answer so now."""
        return self.answer == (desk.answer(self.line) if self.line else self.want)


def ask_of(line: str) -> Ask:
    return Ask(message_of(line), line)

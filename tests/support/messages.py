"""Messages of HTTP and their answers as bytes, and the HTTP answer that stands for each line of a script's answers."""

import json
from typing import Any

REASONS = {
    200: "OK",
    400: "Bad Request",
    404: "Not Found",
    409: "Conflict",
    503: "Service Unavailable",
}


def compact(value: object) -> str:
    """An object in the one spelling that the desk writes."""
    return json.dumps(value, separators=(",", ":"), sort_keys=True)


def message(line: str, body: str) -> bytes:
    return f"{line} HTTP/1.1\r\nContent-Length: {len(body)}\r\n\r\n{body}".encode()


def answer(status: int, body: str) -> bytes:
    kind = "application/json" if body.startswith("{") else "text/plain"
    head = f"HTTP/1.1 {status} {REASONS[status]}\r\ncontent-type: {kind}\r\ncontent-length: {len(body)}\r\n\r\n"
    return (head + body).encode()


def message_of(line: str) -> bytes:
    """The message that asks for the same as this line of a script, or for a sheet: `? sheet BRANCH`."""
    key, command = line.split(" ", 1)
    if key == "?":
        kind, *names = command.split()
        return message("GET " + "/".join(["/v1", f"{kind}s", *names]), "")
    return message("POST /v1/commands", compact({"key": key, "command": command}))


def answer_of(line: str) -> bytes:
    """The answer of HTTP, as bytes, where a script is answered by this line."""
    status, body = answer_to(line)
    return answer(status, compact(body))


def answer_to(line: str) -> tuple[int, dict[str, Any]]:
    """The status and the object of HTTP's answer where a script is answered by this line."""
    _, kind, *words = line.split()
    if kind == "none":
        return 404, {"error": "none"}
    if kind == "field":
        branch, article, *numbers = words
        return 200, {"branch": branch, "article": article, **dict(zip(numbers[::2], map(int, numbers[1::2])))}
    if kind == "order":
        number, kind, until, state, *words = words
        lines = [
            {"way": way, "branch": branch, "article": article, "held": int(held), "used": int(used)}
            for way, branch, article, held, used in zip(*[iter(words)] * 5, strict=True)
        ]
        return 200, {"number": int(number), "kind": kind, "until": int(until), "state": state, "lines": lines}
    if kind == "done":
        return 200, {"place": int(words[0])}
    code, name, number = words
    return 400 if name == "BadCommand" else 409, {"code": int(code), "refused": name, "line": int(number)}

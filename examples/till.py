#!/usr/bin/python3
"""till.py DESK JOURNAL WORDS... sends a till's command to a desk, as 127.0.0.1:8080, or to a front, and writes the answer.

The words are those of the rules; but `open MINUTES take ...` is given the till's next number, and ends so many minutes from now.
JOURNAL begins with a line that has the first number of the till's own. Each command stands there with its key before it is sent,
and then its answer. What has no answer is sent first, under the same key; without WORDS nothing else is. Where a front is asked,
over TLS, DESK_USER in the environment is NAME:PASSWORD."""

import base64
import contextlib
import http.client
import json
import os
import sys
import time
import uuid

USER = os.environ.get("DESK_USER", "")
HEADERS = {"Authorization": "Basic " + base64.b64encode(USER.encode()).decode()} if USER else {}
Connection = http.client.HTTPSConnection if USER else http.client.HTTPConnection


def ask(key: str, command: str) -> tuple[int, str]:
    """Status and body. Without an answer nobody knows whether it was done: it is asked again, under the same key."""
    for _ in range(10):
        with contextlib.suppress(OSError, http.client.HTTPException), contextlib.closing(Connection(desk, timeout=10)) as way:
            way.request("POST", "/v1/commands", json.dumps({"key": key, "command": command}), HEADERS)
            if (told := way.getresponse()).status == 401:
                sys.exit("no such user or password: call again")
            if told.status not in {408, 429, 500, 502, 503, 504}:
                return told.status, told.read().decode()
        time.sleep(0.5)
    sys.exit(f"{command} has no answer: call again")


def keep(*words: str) -> None:
    lines.append(" ".join(words))
    print(lines[-1], file=journal, flush=True)
    os.fsync(journal.fileno())


def answer_last() -> None:
    if lines[-1].startswith("? "):
        _, key, command = lines[-1].split(" ", 2)
        status, body = ask(key, command)
        keep("=", str(status), body)
        print(*command.split()[:2], "is done:" if status == 200 else f"is refused, {status}:", body, flush=True)


desk, path, *given = sys.argv[1:]
with open(path, "r+", encoding="ascii") as journal:
    lines = [line[:-1] for line in journal if line.endswith("\n")]
    journal.seek(journal.truncate(sum(len(line) + 1 for line in lines)))  # a line that was cut short was not kept
    answer_last()
    if given[:1] == ["open"]:  # a number above all that stand in the journal, so that none is taken twice
        numbers = [int(line.split()[3]) for line in lines if line.split()[2:3] == ["open"]]
        given[1:2] = [str(max([int(lines[0]) - 1, *numbers]) + 1), str(int(time.time()) // 60 + int(given[1]))]
    if given:
        keep("?", str(uuid.uuid4()), *given)
        answer_last()

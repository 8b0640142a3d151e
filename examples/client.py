#!/usr/bin/python3
"""client.py DESK COMMANDS JOURNAL sends each line of COMMANDS to a desk, as 127.0.0.1:8080 or HOST/north, and writes answers.

JOURNAL keeps the name of the list, which is made once and begins each key, and then each answer. A client that was cut off and
is called again goes on after the last answer, under the same keys, so what was done is not done twice. With DESK_USER in the
environment, NAME:PASSWORD, it asks a front, over TLS. Where several machines hold the desk, DESK is all, with commas between."""

import base64
import http.client
import json
import os
import secrets
import sys
import time

USER = os.environ.get("DESK_USER", "")
HEADERS = {"Asked-After": "0", **({"Authorization": "Basic " + base64.b64encode(USER.encode()).decode()} if USER else {})}
Connection = http.client.HTTPSConnection if USER else http.client.HTTPConnection


def ask(desks, key, command):
    """Status and body. Without an answer nobody knows whether the command was done, so it is asked again, under the same key."""
    for _ in range(10 * len(desks)):
        host, slash, name = desks[0].partition("/")
        connection = Connection(host, timeout=10)
        try:
            connection.request("POST", f"{slash}{name}/v1/commands", json.dumps({"key": key, "command": command}), HEADERS)
            answer = connection.getresponse()
            status, body, known = answer.status, answer.read().decode(), answer.getheader("Log-Revision", "0")
            HEADERS["Asked-After"] = max(HEADERS["Asked-After"], known, key=int)  # no copy that comes late is done behind it
            if status not in {408, 429, 500, 502, 503, 504}:
                return status, body
        except (OSError, http.client.HTTPException):
            pass
        finally:
            connection.close()
        desks.append(desks.pop(0))
        time.sleep(0.5)
    sys.exit(f"{key} has no answer: call again")


def keep(journal, line):
    print(line, file=journal, flush=True)
    os.fsync(journal.fileno())


desks, commands, path = sys.argv[1].split(","), *sys.argv[2:]
with open(commands, encoding="ascii") as file, open(path, "a+", encoding="ascii") as journal:
    journal.seek(0)
    whole = "".join(line for line in journal.readlines() if line.endswith("\n"))
    journal.truncate(len(whole))  # a line that was cut short was not kept
    name, *answers = whole.splitlines() or [secrets.token_hex(12)]
    if not whole:
        keep(journal, name)
    for number, command in list(enumerate(file.read().splitlines(), 1))[len(answers) :]:
        status, body = ask(desks, f"{name}-{number}", command)
        if status not in (200, 409):
            sys.exit(f"{command}: {status} {body}")  # the list is at fault, or the user
        keep(journal, f"{status} {body}")
        print(command, "is done:" if status == 200 else "is refused:", body, flush=True)

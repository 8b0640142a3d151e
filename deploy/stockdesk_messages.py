"""What clients ask of a machine over HTTP, and what the machine answers beside the desk's answers.

Each answer has in its header Log-Revision the revision that the machine had come to. A client sends the greatest revision of all
answers so far as Asked-After, from 0 on. Then no copy of its commands that comes late on the way to a machine does harm. An
answer 503 says in Retry-After when to ask again."""

import json
import re
from collections.abc import Callable

from aiohttp import web
from stockdesk_desk import Answer
from stockdesk_machine import LATE, Machine

KEY, COMMAND, TARGET = re.compile("[A-Za-z0-9-]{1,36}"), re.compile("[A-Za-z0-9 -]{1,4096}"), re.compile("/v1/[A-Za-z0-9/-]+")
REVISION = re.compile("0|[1-9][0-9]{0,18}")

# the front keeps its connections for an hour, and none may end just when it sends
KEPT_SECONDS = 7_200

BAD_COMMAND = Answer(400, "application/json", b'{"code":20,"line":0,"refused":"BadCommand"}')
NONE = Answer(404, "application/json", b'{"error":"none"}')


def line_of(body: bytes) -> bytes | None:
    """The line of the log that says a message's command, or None where it has none."""
    try:
        told = json.loads(body)
        key, command = told["key"], told["command"]
        if len(told) == 2 and KEY.fullmatch(key) and COMMAND.fullmatch(command):
            return f"{key} {command}".encode()
    except (ValueError, TypeError, KeyError, RecursionError):
        pass
    return None


def known_of(request: web.BaseRequest) -> int | None:
    """How much of the log a client knows: the revision that it says, or 0 where it says something else."""
    told = request.headers.get("Asked-After")
    return None if told is None else int(told) if REVISION.fullmatch(told) else 0


class Http:
    """A machine's answers to messages."""

    def __init__(self, machine: Machine):
        self.machine = machine

    async def answer(self, request: web.BaseRequest) -> web.Response:
        told = await self.answer_of(request)
        headers = {"Log-Revision": str(self.machine.revision)}
        if told.status == 503:
            headers["Retry-After"] = "0" if told == LATE else "1"
        return web.Response(status=told.status, content_type=told.kind, body=told.body, headers=headers)

    async def answer_of(self, request: web.BaseRequest) -> Answer:
        if request.method == "POST" and request.path == "/v1/commands":
            line = line_of(await request.read())
            return BAD_COMMAND if line is None else await self.machine.command(line, known_of(request), is_gone(request))
        if request.method == "GET" and TARGET.fullmatch(request.path):
            return await self.machine.view(request.path)
        if request.method == "GET" and request.path == "/health":
            return await self.machine.is_well()
        return NONE


def is_gone(request: web.BaseRequest) -> Callable[[], bool]:
    """A function that says whether the client no longer waits."""
    return lambda: request.transport is None or request.transport.is_closing()


async def listen(address: str, machine: Machine) -> None:
    """Serves the machine at ADDRESS:PORT."""
    host, _, port = address.rpartition(":")
    runner = web.ServerRunner(web.Server(Http(machine).answer, keepalive_timeout=KEPT_SECONDS))
    await runner.setup()
    await web.TCPSite(runner, host, int(port), reuse_address=True).start()

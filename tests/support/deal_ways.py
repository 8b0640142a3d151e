"""Served desks of a deal, each beside what it has to be by the rules; and ways to them, on which each message of a carrier is
seen before it is delivered."""

import contextlib
import glob
import http.client
import http.server
import json
import os
import shutil
import threading
from collections.abc import Callable

from support.deal_desks import NONE, PLACES, Places, Told, command_in, words_of
from support.desks import Desks
from support.messages import answer, compact
from support.programs import SECONDS, done, expect
from support.rolled import tool_ended
from support.rolls import KEYS
from support.service import TOGETHER, Service

# how long a desk lives at most, in seconds, and how many connections it serves
LIFE = 10 * SECONDS
CONNECTIONS = 1_000_000


class Templates:
    """Files of desks to be copied: an empty desk, and desks with few places left."""

    def __init__(self, program: str, folder: str):
        self.program, self.folder = program, folder
        self.made: dict[int | None, str] = {}
        self.desks: Desks | None = None

    def made_for(self, left: int | None) -> str:
        """The path of a desk with so many places left, or with all of them."""
        if left not in self.made:
            self.made[left] = os.path.join(self.folder, f"template-{left}.db")
            self.make(left)
        return self.made[left]

    def make(self, left: int | None) -> None:
        if left is None:
            done(self.program, ["init", self.made[left]])
            return
        self.desks, taken = self.desks or Desks(self.program, self.folder), PLACES - left
        self.desks.put([f"desk,1,2,0,{taken}", *(f"kept,R{number},{number},expire 0" for number in range(1, taken + 1))])
        os.rename(self.desks.path, self.made[left])


class Served:
    """A desk in a file that is served, beside the same desk by the rules: each answer has to be that of the rules."""

    def __init__(self, templates: Templates, folder: str, number: int, left: int | None = None):
        self.program, self.number = templates.program, number
        self.path = os.path.join(folder, f"desk{number}.db")
        for end in ("", "-wal"):
            with contextlib.suppress(FileNotFoundError):
                os.remove(self.path + end)
        shutil.copyfile(templates.made_for(left), self.path)
        self.rules = Places(PLACES - left if left is not None else 0)
        self.start()

    def start(self) -> None:
        self.service = Service(self.program, self.path, CONNECTIONS, options=TOGETHER, seconds=LIFE)

    def kill(self) -> None:
        self.service.process.kill()
        self.service.end()

    def again(self) -> None:
        self.kill()
        self.start()

    def roll(self, keys: int = KEYS) -> None:
        """Rolls the desk up, which is not served just now, as it is rolled up by the rules."""
        status, out, errors = tool_ended(self.program, [self.path, "--keys", str(keys)])
        expect((status, errors) == (0, b"") and b"rolled up: " in out, f"desk {self.number}: {status}, {out!r}, {errors!r}")
        self.rules.roll(keys)
        for old in glob.glob(os.path.join(os.path.dirname(self.path), "old-*.db")):
            os.remove(old)

    def asked(self, method: str, target: str, body: bytes | str | None = None) -> Told:
        connection = http.client.HTTPConnection("127.0.0.1", self.service.port, timeout=SECONDS)
        try:
            connection.request(method, target, body)
            found = connection.getresponse()
            return found.status, json.loads(found.read())
        finally:
            connection.close()

    def expected(self, method: str, target: str, body: bytes | str | None) -> Told:
        return self.rules.shows(target) if method == "GET" else self.rules.would(*command_in(body))

    def answers(self, method: str, target: str, body: bytes | str | None = None) -> Told:
        """What the desk answers; it has to be what the rules answer."""
        want, found = self.expected(method, target, body), self.asked(method, target, body)
        expect(found == want, f"desk {self.number}: {method} {target} {body!r}: {found} and not {want}")
        if method == "POST":
            self.rules.took(*command_in(body), found)
        return found

    def does(self, key: str, command: str) -> Told:
        return self.answers("POST", "/v1/commands", compact({"key": key, "command": command}))

    def killed_within(self, method: str, target: str, body: bytes | None, seconds: float) -> Told | None:
        """Kills the desk so many seconds after a message, and starts it again. Returns the answer, if it came; what was answered
        is kept."""
        want, found = self.expected(method, target, body), None
        killer = threading.Timer(seconds, self.service.process.kill)
        killer.start()
        with contextlib.suppress(OSError, http.client.HTTPException):
            found = self.asked(method, target, body)
        killer.join()
        self.again()
        expect(found in (None, want), f"desk {self.number}: {method} {target} {body!r}: {found} and not {want}")
        if method == "POST":
            key, command = command_in(body)
            is_kept = self.asked("GET", f"/v1/keys/{key}") != NONE
            expect(is_kept or found is None or found[0] != 200, f"desk {self.number}: {body!r} was answered and is not kept")
            if is_kept:
                self.rules.took(key, command, (200, {}))
        return found

    def expect_same(self) -> None:
        """The desk stands where the rules say it stands."""
        for name in self.rules.fields:
            self.answers("GET", f"/v1/fields/{'/'.join(name)}")
        for number in self.rules.orders:
            self.answers("GET", f"/v1/orders/{number}")
        self.answers("GET", "/v1/desk")

    def field(self, article: int, start: int, room: int) -> None:
        told = self.does(f"F{article}", f"field {words_of(self.number, article)} 0 {room} {start}")
        expect(told[0] == 200, f"no field: {told}")


# what is done with a message on its way to a desk; returns the answer, or None where no answer comes
Deliver = Callable[[int, str, str, bytes | None], Told | None]


class Way:
    """A port of 127.0.0.1 on which each message of a carrier is handed to the run."""

    def __init__(self, number: int, deliver: Deliver):
        class Handler(http.server.BaseHTTPRequestHandler):
            protocol_version = "HTTP/1.1"

            def log_message(self, format: str, *args: object) -> None:
                """Nothing is logged."""

            def do_POST(self) -> None:
                length = int(self.headers.get("Content-Length", 0))
                body = self.rfile.read(length)
                # a carrier may be killed while its message is answered
                told = deliver(number, self.command, self.path, body or None) if len(body) == length else None
                if told is None:
                    self.close_connection = True
                else:
                    self.wfile.write(answer(told[0], compact(told[1])))

            do_GET = do_POST

        class Server(http.server.ThreadingHTTPServer):
            daemon_threads = True

            def handle_error(self, request: object, client_address: object) -> None:
                """A carrier that was killed reads no answer."""

        self.server = Server(("127.0.0.1", 0), Handler)
        self.url = f"http://127.0.0.1:{self.server.server_port}"
        threading.Thread(target=self.server.serve_forever, kwargs={"poll_interval": 0.02}, daemon=True).start()

    def end(self) -> None:
        self.server.shutdown()
        self.server.server_close()

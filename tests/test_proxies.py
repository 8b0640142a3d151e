"""Tests of the built program behind nginx and Caddy, each with as little configuration as it takes: many clients while the desk
is killed and started again, and messages that are none to the desk."""

import concurrent.futures
import contextlib
import http.client
import itertools
import json
import random
import socket
import time
from collections.abc import Callable, Iterator
from typing import Any

from support.cases import ProgramCase, needs
from support.fronts import credentials, free_port, message
from support.programs import SECONDS, done, expect, new_desk, note
from support.proxies import AUTHORITY, KEPT, ONE_EACH, PASSED, Proxy, told_caddy, told_nginx
from support.service import Service

CLIENTS, COMMANDS = 64, 10_000
# every so many of a client's commands are followed by a view
VIEWS = 8
START, MOST = 500, 1_000_000_000
CONNECTIONS, OPTIONS = 1_000_000, ["--together", "256"]
# what is no answer of the desk: the client asks again
NO_ANSWER = [500, 502, 503, 504]
# the seconds for which nobody listens
DOWN = 0.3
USER = "ho"

Answer = tuple[int, dict[str, Any]]
# what is done: its place, its key, its spelling
Done = tuple[int, str, str]


class Desk:
    """A desk with a field for each client, which is served at one port whenever it runs."""

    def __init__(self, program: str, folder: str):
        self.program, self.file, self.port = program, new_desk(program, folder), free_port()
        fields = "".join(f"F{client} field N1 A-{client} 0 {MOST} {START}\n" for client in range(CLIENTS))
        done(program, ["run", self.file], fields)
        self.start()

    def start(self) -> None:
        self.service = Service(self.program, self.file, CONNECTIONS, self.port, options=OPTIONS, seconds=3 * SECONDS)

    def kill(self) -> None:
        self.service.process.kill()
        self.service.end()

    def replies(self, lines: list[str]) -> list[str]:
        """What the desk answers to lines once nobody serves it."""
        return done(self.program, ["run", self.file], "".join(f"{line}\n" for line in lines))


class Client:
    """A client with a connection that stays open; it asks again until there is an answer."""

    def __init__(self, port: int):
        self.connection = http.client.HTTPConnection("127.0.0.1", port, timeout=SECONDS)
        self.lost = 0

    def ask(self, method: str, target: str, body: str | None = None) -> Answer:
        last = time.monotonic() + SECONDS
        while time.monotonic() < last:
            try:
                self.connection.request(method, target, body)
                answer = self.connection.getresponse()
                text = answer.read()
                if answer.status not in NO_ANSWER:
                    return answer.status, json.loads(text)
            except (OSError, http.client.HTTPException):
                self.connection.close()
            self.lost += 1
            time.sleep(0.05)
        raise AssertionError(f"{method} {target}, {body}: no answer in {SECONDS} s")

    def expect_value(self, number: int, value: int) -> None:
        """The field of one client is shown, with this value."""
        want = {"branch": "N1", "article": f"A-{number}", "lo": 0, "hi": MOST, "value": value, "inf": value, "sup": value}
        found = self.ask("GET", f"/v1/fields/N1/A-{number}")
        expect(found == (200, want), f"{found} and not {want}")


def deliveries(client: int, found: list[Done], port: int) -> tuple[int, int]:
    """Sends a client's deliveries, each under a key of its own, and looks at its field, which is nobody else's. Returns the
    field's value behind them, and how many answers were lost."""
    asking, generator, value = Client(port), random.Random(client), START
    for number in range(COMMANDS // CLIENTS + 1):
        quantity = generator.randint(1, 300)
        key, command = f"C{client}-{number}", f"deliver N1 A-{client} {quantity}"
        status, body = asking.ask("POST", "/v1/commands", message(key, command))
        expect(status == 200 and list(body) == ["place"], f"{command}: {status}, {body}")
        found.append((body["place"], key, command))
        value += quantity
        if number % VIEWS == 0:
            asking.expect_value(client, value)
    asking.connection.close()
    return value, asking.lost


def all_delivered(port: int, meanwhile: Callable[[Callable[[], int]], None]) -> tuple[list[Done], list[int], int]:
    """What was done for all clients, in the order of places, the values of their fields, and how many answers were lost, while
    something else goes on, which may see how many were answered."""
    found: list[list[Done]] = [[] for _ in range(CLIENTS)]
    with concurrent.futures.ThreadPoolExecutor(CLIENTS) as pool:
        jobs = [pool.submit(deliveries, client, found[client], port) for client in range(CLIENTS)]
        meanwhile(lambda: COMMANDS if any(job.done() for job in jobs) else sum(map(len, found)))
        ends = [job.result() for job in jobs]
    return sorted(line for lines in found for line in lines), [value for value, _ in ends], sum(lost for _, lost in ends)


class ProxyCase(ProgramCase):
    @contextlib.contextmanager
    def behind(self, name: str, site: str) -> Iterator[tuple[Desk, Proxy]]:
        """A desk, and a proxy in front of it."""
        desk = Desk(self.program, self.folder)
        try:
            with Proxy(name, self.folder, site, desk.port) as proxy:
                yield desk, proxy
        finally:
            desk.kill()


class Restarts(ProxyCase):
    def expect_once(self, name: str, site: str) -> None:
        """64 clients, the desk killed once half of their commands are answered, and started again: each command is done once, and
        each answer is the one to what was asked."""
        with self.behind(name, site) as (desk, proxy):

            def restart(answered: Callable[[], int]) -> None:
                while answered() < COMMANDS // 2:
                    time.sleep(0.005)
                desk.kill()
                time.sleep(DOWN)
                desk.start()

            began = time.monotonic()
            accepted, values, lost = all_delivered(proxy.port, restart)
            note(f"{len(accepted)} commands in {time.monotonic() - began:.1f} s, {lost} answers lost")
        expect(len(accepted) >= COMMANDS and lost > 0, f"{len(accepted)} commands, {lost} answers lost")
        places = [place for place, _, _ in accepted]
        expect(places == list(range(CLIENTS + 1, CLIENTS + 1 + len(places))), "places are missing, or were told twice")
        found = desk.replies([f"{key} {command}" for _, key, command in accepted])
        expect(found == [f"{key} done {place}" for place, key, _ in accepted], "a place was told of another command")
        found = [line.split()[9] for line in desk.replies([f"? field N1 A-{client}" for client in range(CLIENTS)])]
        expect(found == list(map(str, values)), f"the fields have {found} and not {values}")

    @needs("nginx")
    def test_commands_are_done_once_behind_nginx(self):
        self.expect_once("nginx", KEPT)

    @needs("nginx")
    def test_commands_are_done_once_behind_nginx_that_keeps_no_connection(self):
        self.expect_once("nginx", ONE_EACH)

    @needs("caddy")
    def test_commands_are_done_once_behind_caddy(self):
        self.expect_once("caddy", PASSED)


# ---- messages that are none to the desk


def head(line: str, *headers: str) -> bytes:
    return "".join(f"{each}\r\n" for each in [f"{line} HTTP/1.1", "Host: desk", *headers, ""]).encode()


TELL = "POST /v1/commands"
BODY = message("BAD", "deliver N1 A-0 7").encode()
CHUNKED = b"%x\r\n%s\r\n0\r\n\r\n" % (len(BODY), BODY)
WHOLE = head(TELL, f"Content-Length: {len(BODY)}") + BODY
# What is sent, and the statuses that may answer it, or None where no answer may come. The desk closes behind what it cannot read,
# and a proxy that is still sending then answers 502.
MESSAGES: dict[str, tuple[bytes, list[int | None]]] = {
    "the head of a view": (head("HEAD /v1/fields/N1/A-1"), [404]),
    "the head of a command": (head("HEAD /v1/commands", f"Content-Length: {len(BODY)}") + BODY, [404]),
    "a view with a command behind it": (head("GET /v1/fields/N1/A-1", f"Content-Length: {len(WHOLE)}") + WHOLE, [200]),
    "a body that is too large": (head(TELL, "Content-Length: 16385") + BODY.ljust(16_385), [400, 413, 502]),
    "a head that is too large": (head(TELL, f"X: {'x' * 9_000}", f"Content-Length: {len(BODY)}") + BODY, [400, 414, 431, 502]),
    "two lengths": (head(TELL, "Content-Length: 1", f"Content-Length: {len(BODY)}") + BODY, [400]),
    "a length and chunks": (head(TELL, "Content-Length: 4", "Transfer-Encoding: chunked") + CHUNKED, [400, 502]),
    "chunks that are none": (head(TELL, "Transfer-Encoding: chunked") + b"x\r\n" + BODY, [400, 502]),
    "another target": (head("POST /v1/commands/", f"Content-Length: {len(BODY)}") + BODY, [404]),
    "a query": (head("POST /v1/commands?x=1", f"Content-Length: {len(BODY)}") + BODY, [404]),
    "a body that is cut short": (WHOLE[:-1], [None]),
}


def status_of(port: int, text: bytes, is_cut: bool = False) -> int | None:
    """The status of the answer to what is sent, or None where the connection ends without one. Where the message is cut, the
    connection ends, and an answer without a body counts as none: Caddy answers 200 so."""
    found = b""
    with socket.create_connection(("127.0.0.1", port), SECONDS) as connection, contextlib.suppress(ConnectionError):
        connection.sendall(text)
        if is_cut:
            connection.shutdown(socket.SHUT_WR)
        while b"\r\n\r\n" not in found and (part := connection.recv(65_536)):
            found += part
    is_none = not found.startswith(b"HTTP/1.1 ") or is_cut and b"\r\ncontent-length: 0\r\n" in found.lower()
    return None if is_none else int(found.split()[1])


class Messages(ProxyCase):
    def expect_nothing_done(self, name: str, site: str, of_chunks: list[int]) -> None:
        """What is no command to the desk does nothing, and those who ask beside it and behind it get their own answers. A good
        body in chunks is a command where the proxy puts it together: then it is done, once."""
        with self.behind(name, site) as (desk, proxy):
            others = {number: Client(proxy.port) for number in range(1, 5)}
            for row, (text, statuses) in MESSAGES.items():
                found = status_of(proxy.port, text, None in statuses)
                expect(found in statuses, f"{row}: {found}")
                for _, (number, other) in itertools.product(range(2), others.items()):
                    other.expect_value(number, START)
                others[1].expect_value(0, START)
            chunked = head(TELL, "Transfer-Encoding: chunked") + CHUNKED
            found_of_chunks = [status_of(proxy.port, chunked) for _ in range(2)]
            expect(all(found in of_chunks for found in found_of_chunks), f"a body in chunks: {found_of_chunks}")
            others[2].expect_value(0, START + 7 if 200 in of_chunks else START)
            note(f"{sum(other.lost for other in others.values())} answers of others lost")
            for other in others.values():
                other.connection.close()

    @needs("nginx")
    def test_messages_that_are_none_do_nothing_behind_nginx(self):
        self.expect_nothing_done("nginx", KEPT, [200])

    @needs("caddy")
    def test_messages_that_are_none_do_nothing_behind_caddy(self):
        self.expect_nothing_done("caddy", PASSED, [400, 502])


# ---- what the documents tell


class Documents(ProxyCase):
    def expect_users(self, name: str, site: str, authority: str) -> None:
        """Over TLS the desk answers whoever has the password, and nobody else."""
        with self.behind(name, site) as (_, proxy):
            context = proxy.context(authority)

            def ask(user: dict[str, str]) -> tuple[int, str]:
                connection = http.client.HTTPSConnection("localhost", proxy.port, context=context, timeout=SECONDS)
                connection.request("POST", "/v1/commands", message("K1", "deliver N1 A-0 7"), user)
                answer = connection.getresponse()
                found = answer.status, answer.read().decode()
                connection.close()
                return found

            nobody: dict[str, str] = {}
            for user in [nobody, credentials("nobody"), credentials(USER, "other")]:
                expect(ask(user)[0] == 401, f"{user}: {ask(user)}")
            expect(ask(credentials(USER)) == (200, f'{{"place":{CLIENTS + 1}}}'), f"{ask(credentials(USER))}")

    @needs("nginx", "openssl")
    def test_nginx_as_the_documents_tell(self):
        self.expect_users("nginx", told_nginx(self.folder, USER), "certificate")

    @needs("caddy")
    def test_caddy_as_the_documents_tell(self):
        self.expect_users("caddy", told_caddy(USER), AUTHORITY)

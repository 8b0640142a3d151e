"""A desk that is asked over HTTP: directly, or through its front over TLS. Where no answer comes, the message is sent again: each
command has a key, so it is done once."""

import argparse
import base64
import http.client
import json
import socket
import ssl
import time
import urllib.parse
from abc import ABC, abstractmethod
from collections.abc import Iterator
from typing import Any

from stockdesk_tools import Fault

# statuses that do not say whether the command was done
AGAIN = {408, 429, 500, 502, 503, 504}

# statuses of a front that does not let the caller through
REFUSED = {401: "knows no such user and password", 403: "does not let this user do what deals need"}

# what a resolver says where it knows no such name, rather than that it was not reached
UNKNOWN = {socket.EAI_NONAME, socket.EAI_NODATA}

# how many seconds an answer may take, and how many lie between two tries
ANSWER_SECONDS = 20
FIRST_PAUSE, LONGEST_PAUSE = 0.02, 1.0

Told = dict[str, Any]


class NoAnswer(Fault):
    """A desk has not answered in time: call again."""


class NotServed(Fault):
    """Something answers, but not as a desk that serves this caller: the address, the user or the certificate is wrong."""


class Unanswered(Exception):
    """One try got no answer."""


class Desk(ABC):
    """The views of a desk and its commands. `name` is how people call it."""

    def __init__(self, name: str):
        self.name = name

    @abstractmethod
    def ask(self, method: str, target: str, body: str | None = None) -> tuple[int, Told]:
        """The status and the object of the answer. NoAnswer: no answer came in time."""

    def unfit(self, target: str, status: int, told: Told) -> NotServed:
        return NotServed(
            f"{self.name} {REFUSED.get(status, 'answers otherwise than a desk')}: {target} is answered {status} {told}"
        )

    def shown(self, target: str) -> Told | None:
        """What a view shows, or None where the desk has no such thing."""
        status, told = self.ask("GET", target)
        if status not in (200, 404):
            raise self.unfit(target, status, told)
        return told if status == 200 else None

    def order(self, number: int) -> Told | None:
        return self.shown(f"/v1/orders/{number}")

    def has_kept(self, key: str) -> bool:
        """Whether a command was done under this key."""
        return self.shown(f"/v1/keys/{key}") is not None

    def open_orders(self, above: int) -> Iterator[Told]:
        """All open orders with greater numbers, by their numbers."""
        while found := self.shown(f"/v1/open/{above}"):
            yield from found["orders"]
            if not found["orders"]:
                return
            above = found["orders"][-1]["number"]
        raise NotServed(f"{self.name} does not show its open orders: is it an older program?")

    def send(self, key: str, command: str) -> Told | None:
        """Sends a command. Returns the refusal where it is refused."""
        status, told = self.ask("POST", "/v1/commands", json.dumps({"key": key, "command": command}))
        if status not in (200, 409):
            raise self.unfit(command, status, told)
        return told if status == 409 else None


class HttpDesk(Desk):
    """A desk at a URL, whose path may begin with a prefix. The user, as NAME:PASSWORD, is sent over TLS alone."""

    def __init__(
        self,
        url: str,
        patience: float,
        user: str = "",
        certificates: str | None = None,
        seconds: float = ANSWER_SECONDS,
    ):
        super().__init__(url)
        parts = urllib.parse.urlsplit(url)
        self.prefix, self.patience = parts.path.rstrip("/"), patience
        self.headers: dict[str, str] = {}
        self.connection: http.client.HTTPConnection
        if parts.scheme == "https":
            context = ssl.create_default_context(cafile=certificates)
            self.connection = http.client.HTTPSConnection(parts.netloc, timeout=seconds, context=context)
            self.headers["Authorization"] = "Basic " + base64.b64encode(user.encode()).decode()
        else:
            self.connection = http.client.HTTPConnection(parts.netloc, timeout=seconds)

    def close(self) -> None:
        self.connection.close()

    def expect_there(self) -> None:
        """Asks once. NotServed: no desk is there. It asks for something that only a desk has, since whatever else is there
        answers alike about what a desk lacks. What does not answer may be a desk."""
        try:
            status, told = self.ask_once("GET", "/v1/desk", None)
        except Unanswered:
            return
        if status != 200:
            raise NotServed(f"{self.name} is no desk: /v1/desk is answered {status} {told}")

    def ask_once(self, method: str, target: str, body: str | None) -> tuple[int, Told]:
        try:
            self.connection.request(method, self.prefix + target, body, self.headers)
            answer = self.connection.getresponse()
            text = answer.read()
        except ssl.SSLCertVerificationError as fault:
            raise NotServed(f"{self.name}: its certificate is not known: {fault.verify_message}") from fault
        except (OSError, http.client.HTTPException) as fault:
            self.connection.close()
            if isinstance(fault, socket.gaierror) and fault.errno in UNKNOWN:
                raise NotServed(f"{self.name}: its name is not known: {fault.strerror}") from fault
            raise Unanswered(str(fault) or type(fault).__name__) from fault
        if answer.status in AGAIN:
            raise Unanswered(f"status {answer.status}")
        if answer.status in REFUSED:
            raise NotServed(f"{self.name} {REFUSED[answer.status]} (status {answer.status})")
        try:
            told = json.loads(text)
        except ValueError:
            told = None
        if not isinstance(told, dict):
            raise NotServed(f"{self.name} is no desk: it answers {target} by {answer.status} and no object")
        return answer.status, told

    def ask(self, method: str, target: str, body: str | None = None) -> tuple[int, Told]:
        """As in `Desk`. The next call does not wait for a desk that has not answered in time."""
        latest, pause = time.monotonic() + self.patience, FIRST_PAUSE
        while True:
            # a connection that stayed open may have been closed meanwhile, which says nothing about the desk
            was_kept = self.connection.sock is not None
            try:
                return self.ask_once(method, target, body)
            except Unanswered as fault:
                if time.monotonic() > latest:
                    within = f" in {self.patience:g} seconds" if self.patience else ""
                    self.patience, self.connection.timeout = 0.0, LONGEST_PAUSE
                    raise NoAnswer(f"no answer of {self.name}{within} ({fault})") from fault
            if not was_kept or self.connection.sock is not None:
                time.sleep(pause)
                pause = min(2 * pause, LONGEST_PAUSE)


# so long an answer of a desk on this machine may take
NEAR_SECONDS = 5


def port(text: str) -> int:
    """A port, as a word."""
    if not text.isascii() or not text.isdigit() or not 1 <= int(text) <= 65_535:
        raise argparse.ArgumentTypeError(f"{text!r} is no port from 1 to 65535")
    return int(text)


def desk_on(number: int, patience: float) -> HttpDesk:
    """The desk that is served on a port of 127.0.0.1."""
    return HttpDesk(f"http://127.0.0.1:{number}", patience, seconds=NEAR_SECONDS)

"""A desk behind its front, for tests: a certificate, HAProxy with the configuration that is shipped, the program behind it, and
what is asked through both. The users are those of the example; their passwords are their names."""

import base64
import http.client
import json
import os
import signal
import socket
import ssl
import subprocess
import time
import uuid
from collections.abc import Sequence
from typing import Any

from support import DEPLOY
from support.cases import ProgramCase, needs, path_of
from support.programs import SECONDS, done, expect, new_desk

CONFIGURATION, PAGE = os.path.join(DEPLOY, "haproxy.cfg"), os.path.join(DEPLOY, "page")
FIELDS = "".join(f"F{n} field N1 A-{n} 0 1000000 500\n" for n in range(1, 9))

# a user of each group
SHOP, WAREHOUSE, OFFICE, BETWEEN = "n1", "w1", "ho", "bt"

# the front allows so many answers that only the tests of its limits meet a limit
NO_LIMITS = dict.fromkeys(
    ["REQUESTS_BY_USER", "COMMANDS_BY_USER", "UNDER_WAY_BY_USER", "REQUESTS_BY_ADDRESS"]
    + ["CONNECTIONS_BY_ADDRESS", "HANDSHAKES_BY_ADDRESS", "FAILURES_BY_ADDRESS"],
    "1000000",
)

# the options with which the service of systemd serves a desk
TOGETHER = ["--together", "256"]

Body = dict[str, Any]


def is_there() -> bool:
    return bool(path_of("haproxy") and path_of("openssl"))


def free_port() -> int:
    with socket.socket() as found:
        found.bind(("127.0.0.1", 0))
        return found.getsockname()[1]


def credentials(user: str, password: str | None = None) -> dict[str, str]:
    words = f"{user}:{user if password is None else password}"
    return {"Authorization": "Basic " + base64.b64encode(words.encode()).decode()}


def make_certificate(folder: str) -> None:
    """A certificate of this machine with its key, in one file, as HAProxy wants it."""
    key, certificate = os.path.join(folder, "key"), os.path.join(folder, "certificate")
    words = "req -x509 -newkey ec -pkeyopt ec_paramgen_curve:prime256v1 -nodes -days 2 -subj /CN=localhost"
    words += " -addext subjectAltName=DNS:localhost"
    subprocess.run(["openssl", *words.split(), "-keyout", key, "-out", certificate], check=True, stderr=subprocess.DEVNULL)
    with open(os.path.join(folder, "pem"), "w", encoding="ascii") as whole:
        for path in [certificate, key]:
            with open(path, encoding="ascii") as part:
                whole.write(part.read())


def added(folder: str, name: str, more: str) -> str:
    """The path of a copy of a file that is shipped, with `more` appended."""
    path = os.path.join(folder, name)
    with open(os.path.join(DEPLOY, name), encoding="utf-8") as shipped, open(path, "w", encoding="utf-8") as file:
        file.write(shipped.read() + more)
    return path


class Haproxy:
    """HAProxy with the configuration that is shipped, or with another, in front of a desk's port, both on 127.0.0.1. `more` is
    read after the configuration. Each of `shops`, such as "n2 1 N2", is one more user of the shops, with his orders and branches
    if he has any; each of `users`, such as "w2 warehouse", is one more user of another group."""

    def __init__(
        self,
        folder: str,
        desk_port: int,
        limits: dict[str, str] = NO_LIMITS,
        more: str = "",
        shops: Sequence[str] = (),
        configuration: str = CONFIGURATION,
        users: Sequence[str] = (),
    ):
        self.folder = folder
        make_certificate(folder)
        self.context = ssl.create_default_context(cafile=os.path.join(folder, "certificate"))
        self.log_path = os.path.join(folder, "log")
        groups = {line.split()[0]: "shops" for line in shops} | dict(line.split() for line in users)
        more_users = "".join(f"    user {name} insecure-password {name} groups {group}\n" for name, group in groups.items())
        self.words = [str(path_of("haproxy")), "-f", added(folder, "users.cfg", more_users), "-f", configuration]
        if more:
            with open(os.path.join(folder, "more.cfg"), "w", encoding="ascii") as file:
                file.write(more)
            self.words += ["-f", file.name]
        self.port, self.desk_port = free_port(), desk_port
        self.environment = {
            **os.environ,
            **limits,
            "FRONT": f"127.0.0.1:{self.port}",
            "DESK": f"127.0.0.1:{self.desk_port}",
            "PEM": os.path.join(folder, "pem"),
            "PAGE": PAGE,
            "SHOPS": added(folder, "shops.map", "".join(f"{line}\n" for line in shops if " " in line)),
        }

    def start(self) -> None:
        with open(self.log_path, "a", encoding="ascii") as log:
            self.process = subprocess.Popen(self.words, env=self.environment, stdout=log, stderr=subprocess.STDOUT)
        for _ in range(100):
            try:
                socket.create_connection(("127.0.0.1", self.port), SECONDS).close()
                return
            except ConnectionRefusedError:
                time.sleep(0.05)
        expect(False, "no front: " + "".join(self.log()))

    def stop(self) -> None:
        self.process.terminate()
        self.process.wait()

    def log(self) -> list[str]:
        with open(self.log_path, encoding="ascii") as log:
            return log.readlines()

    def connect(self) -> http.client.HTTPSConnection:
        return http.client.HTTPSConnection("localhost", self.port, context=self.context, timeout=2 * SECONDS)

    def socket(self) -> ssl.SSLSocket:
        plain = socket.create_connection(("127.0.0.1", self.port), SECONDS)
        return self.context.wrap_socket(plain, server_hostname="localhost")

    def ask(self, user: str | None, method: str, target: str, body: str | bytes | None = None) -> tuple[int, str]:
        """The status and the body of an answer, on a connection of its own."""
        connection = self.connect()
        connection.request(method, target, body, credentials(user) if user else {})
        answer = connection.getresponse()
        found = answer.status, answer.read().decode()
        connection.close()
        return found

    def tell(self, user: str, command: str, key: str | None = None, desk: str = "") -> tuple[int, Body]:
        """The status and the object that answer a command, sent under a new key if none is given; `desk` is as "/north"."""
        status, body = self.ask(user, "POST", f"{desk}/v1/commands", message(key or str(uuid.uuid4()), command))
        return status, json.loads(body)


def served(program: str, file: str, port: int, **options: Any) -> subprocess.Popen[bytes]:
    """Serves the desk in a file as the service of systemd serves it, and returns the process once it listens."""
    words = [program, "serve", file, "--port", str(port), "--connections", "1000000", *TOGETHER]
    desk = subprocess.Popen(words, stdin=subprocess.DEVNULL, stdout=subprocess.PIPE, stderr=subprocess.PIPE, **options)
    told = desk.stdout and desk.stdout.readline()
    expect(told == f"listening {port}\n".encode(), f"no desk: {told!r}")
    return desk


class Front(Haproxy):
    """A desk in a file with some fields, served to many behind a front."""

    def __init__(
        self,
        program: str,
        folder: str,
        limits: dict[str, str] = NO_LIMITS,
        more: str = "",
        script: str = FIELDS,
        shops: Sequence[str] = (),
    ):
        super().__init__(folder, free_port(), limits, more, shops)
        self.program, self.file = program, new_desk(program, folder)
        done(program, ["run", self.file], script)
        self.desk_start()
        try:
            self.start()
        except BaseException:
            self.desk_kill()
            raise

    def __enter__(self) -> "Front":
        return self

    def __exit__(self, *_: object) -> None:
        self.stop()
        self.desk_kill()

    def desk_start(self, **options: Any) -> None:
        self.desk = served(self.program, self.file, self.desk_port, **options)

    def desk_kill(self) -> None:
        self.desk.send_signal(signal.SIGKILL)
        self.desk.communicate()

    def value(self, article: str = "A-1") -> int:
        status, body = self.ask(OFFICE, "GET", f"/v1/fields/N1/{article}")
        expect(status == 200, f"{status}, {body}")
        return json.loads(body)["value"]


@needs("haproxy", "openssl")
class FrontCase(ProgramCase):
    """Tests of the built program behind its front."""


def message(key: str, command: str) -> str:
    return json.dumps({"key": key, "command": command})


def head_of(user: str, target: str, length: int | None = None) -> bytes:
    lines = [f"{'GET' if length is None else 'POST'} {target} HTTP/1.1", "Host: localhost"]
    lines.append(f"Authorization: {credentials(user)['Authorization']}")
    if length is not None:
        lines.append(f"Content-Length: {length}")
    return "".join(line + "\r\n" for line in lines + [""]).encode()

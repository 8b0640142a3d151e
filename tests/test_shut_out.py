"""Tests of what shuts others out: on a desk's own machine only some users reach its port, and the front does not start while one
of its users has a password of the examples."""

import contextlib
import os
import re
import shlex
import subprocess
import unittest
from collections.abc import Iterator

from support import DEPLOY
from support.cases import ProgramCase, needs
from support.documents import text_of
from support.fronts import TOGETHER
from support.programs import done, expect
from support.replica_network import run
from support.service import Service

CLOSE_PORT = os.path.join(DEPLOY, "close-port")
DROP_IN = os.path.join(DEPLOY, "haproxy.service.d", "own-passwords.conf")

# users of any Debian
USERS = ["root", "backup", "nobody", "www-data"]

# whom the settings of the desk name besides, and who then reaches its port
REACHED_BY = [
    ("", ["root"]),
    ("www-data nobody", ["root", "nobody", "www-data"]),
    ("backup", ["root", "backup"]),
    ("everybody", USERS),
    ("", ["root"]),
]


@contextlib.contextmanager
def space() -> Iterator[list[str]]:
    """A network of its own, which ends with it; yields the words that run a command in it."""
    name = f"shut{os.getpid() % 100_000}"
    inside = ["ip", "netns", "exec", name]
    run("ip", "netns", "add", name)
    try:
        run(*inside, "ip", "link", "set", "lo", "up")
        yield inside
    finally:
        run("ip", "netns", "del", name)


def reaches(inside: list[str], user: str, port: int) -> bool:
    """Whether the desk answers this user; else the connection is refused."""
    words = ["setpriv", f"--reuid={user}", "--clear-groups", "curl", "--silent", "--output", "/dev/null"]
    told = subprocess.run([*inside, *words, f"http://127.0.0.1:{port}/v1/desk"], capture_output=True, check=False)
    expect(told.returncode in (0, 7), f"{user}: {told}")
    return told.returncode == 0


class ShutOut(ProgramCase):
    @needs("curl", "ip", "nft", "setpriv")
    @unittest.skipIf(os.geteuid() != 0, "only root can make a network and be other users")
    def test_few_users_reach_the_port_of_a_desk(self):
        """The desk serves as many connections as there are users that reach it."""
        path, most = os.path.join(self.folder, "desk.db"), sum(len(users) for _, users in REACHED_BY)
        done(self.program, ["init", path])
        with space() as inside:
            service = Service(self.program, path, most, options=TOGETHER, runner=inside)
            for named, users in REACHED_BY:
                run(*inside, CLOSE_PORT, str(service.port), *named.split())
                found = [user for user in USERS if reaches(inside, user, service.port)]
                expect(found == users, f"with {named!r}: {found}")
            service.expect_end()

    def test_the_units_of_a_desk_close_its_port(self):
        for unit in ["stockdesk@.service", "stockdesk-replica@.service"]:
            lines = text_of(os.path.join(DEPLOY, unit)).splitlines()
            expect("ExecStartPre=+/usr/lib/stockdesk/close-port ${PORT} $PORT_USERS" in lines, f"{unit}: {lines}")

    def test_the_front_does_not_start_with_a_password_of_the_examples(self):
        """Not with all of them, and not with one; with others, or without users, it does."""
        examples = text_of(os.path.join(DEPLOY, "users.cfg"))
        passwords = re.findall(r" password (\S+) ", examples)
        expect(len(passwords) == 4, f"{passwords}")
        known, users = os.path.join(self.folder, "known"), os.path.join(self.folder, "users.cfg")
        with open(known, "w", encoding="ascii") as file:
            file.writelines(f"{password}\n" for password in passwords)
        [line] = re.findall("^ExecStartPre=(.*)$", text_of(DROP_IN), re.MULTILINE)
        words = shlex.split(
            line.replace("/usr/share/stockdesk/example-passwords", known).replace("/etc/haproxy/users.cfg", users)
        )
        expect(users in words[2] and known in words[2], f"{words}")
        own = re.sub(r" password \S+ ", " password $5$own$of ", examples)
        one = own.replace("$5$own$of", passwords[2], 1)
        for text, is_refused in [(None, False), (examples, True), (one, True), (own, False)]:
            if text is not None:
                with open(users, "w", encoding="ascii") as file:
                    file.write(text)
            told = subprocess.run(words, capture_output=True, text=True, check=False)
            expect((told.returncode == 1 and "refused" in told.stderr) if is_refused else told.returncode == 0, f"{told}")

"""Tests of the examples: a day of two shops, files of requests, two clients, one in Python and one with curl, and a till. The
answers follow from the rules. Between a client and the desk stands a relay that loses answers, or kills the client."""

import os
import re
import shutil
import ssl
import subprocess
import sys

from support import TOP
from support.blocks import PORT, Shell, blocks_of, free_port
from support.cases import ProgramCase, needs
from support.fronts import Front
from support.relays import Relay
from support.service import Service

EXAMPLES = os.path.join(TOP, "examples")
SECONDS = 60

# the answers to the lines of two_shops.script
DAY = """F1 done 1
F2 done 2
F3 done 3
M1 done 4
A1 done 5
T1 done 6
B1 refused 13 TooLittle 1
T2 done 7
T3 done 8
B1 done 9
? field N2 BOOT-42 lo 0 hi 40 value 9 inf 5 sup 9
A2 done 10
A3 done 11
A4 done 12
A5 done 13
A6 done 14
? order 1 plain 540 committed take N1 BOOT-42 4 1 take N1 CUP 10 10
A7 refused 8 Ended 0
T4 done 15
E1 done 16
? order 3 plain 540 aborted take N2 BOOT-42 4 0
W1 done 17
A1 done 5
A1 refused 1 KeyReused 0
R1 done 18
? field N1 BOOT-42 lo 5 hi 60 value 13 inf 13 sup 13
"""

# each file of requests, with its answers; then all of them again
FILES = [
    ("orders", "G1 done 19\nG2 refused 13 TooLittle 1\n"),
    ("deliveries", "D1 done 20\nD2 refused 14 TooMuch 0\n"),
    ("bounds", "L1 done 21\nL2 refused 14 TooMuch 0\n"),
    # there is room for the cups now, and there are boots
    ("deliveries", "D1 done 20\nD2 done 22\n"),
    ("orders", "G1 done 19\nG2 done 23\n"),
    ("bounds", "L1 done 21\nL2 refused 14 TooMuch 0\n"),
]

SHEETS = [
    (
        ["sheet", "N1"],
        "BOOT-42                   5         60         13         11         13\n"
        "CUP                       0        150        108        104        108\n"
        "total                       121\n",
    ),
    (
        ["article", "BOOT-42"],
        "N1                        5         60         13         11         13\n"
        "N2                        0         40         39         29         39\n"
        "total                        52\n",
    ),
]

# an article's sheet once each file has come
ARTICLE = """N1                        5         60         13         11         13
N2                        0         40         39         39         39
total                        52
"""

# the commands of commands.txt, and the status and the body of the answer to each
COMMANDS = [
    ("field N1 TEA 5 60 15", 200, '{"place":1}'),
    ("open 1 40000000 take N1 TEA 10", 200, '{"place":2}'),
    ("open 2 40000000 take N1 TEA 1", 409, '{"code":13,"line":1,"refused":"TooLittle"}'),
    ("deliver N1 TEA 40", 200, '{"place":3}'),
    ("open 2 40000000 take N1 TEA 1", 200, '{"place":4}'),
    ("use 1 N1 TEA 9", 200, '{"place":5}'),
    ("commit 1", 200, '{"place":6}'),
]
TOLD = ["is done:" if status == 200 else "is refused:" for _, status, _ in COMMANDS]
SAID = [f"{command} {told} {body}\n" for (command, _, body), told in zip(COMMANDS, TOLD)]
KEPT = [f"{status} {body}" for _, status, body in COMMANDS]
FOUND = "? field N1 TEA lo 5 hi 60 value 46 inf 45 sup 46\n"

# a user of a front, and how a message shows the user
USER, SHOWN = "n1:n1", "Basic bjE6bjE="

CLIENTS = {"py": [sys.executable, "client.py"], "sh": ["sh", "client.sh"]}


class Examples(ProgramCase):
    def done(self, words: list[str], text: str = "") -> str:
        words = [self.program, *words]
        run = subprocess.run(words, input=text, cwd=EXAMPLES, capture_output=True, text=True, timeout=SECONDS, check=False)
        self.assertEqual((run.returncode, run.stderr), (0, ""), f"{words}")
        return run.stdout

    def new_desk(self, name: str) -> str:
        path = os.path.join(self.folder, name)
        self.done(["init", path])
        return path

    def test_a_day_of_two_shops(self) -> None:
        """The script, each file of requests, twice, and the sheets after them."""
        path = self.new_desk("day.db")
        with open(os.path.join(EXAMPLES, "two_shops.script"), encoding="ascii") as file:
            self.assertEqual(self.done(["run", path], file.read()), DAY)
        for name, answers in FILES:
            self.assertEqual(self.done([name, path, f"{name}.csv"]), answers, name)
        for (kind, name), sheet in SHEETS:
            self.assertEqual(self.done([kind, path, name]), sheet, name)

    def test_the_commands_that_are_shown(self) -> None:
        """Each block of the examples' README is played in the folder of the examples."""
        copy, path = os.path.join(self.folder, "examples"), os.path.join(self.folder, "path")
        shutil.copytree(EXAMPLES, copy)
        os.mkdir(path)
        os.symlink(self.program, os.path.join(path, "stockdesk"))
        port = free_port()
        day = DAY + "".join(answers for _, answers in FILES[:3]) + ARTICLE
        shell = Shell(path, copy)
        self.addCleanup(shell.end)
        blocks = blocks_of("examples/README.md")
        till = (blocks[-1][1] or "").replace(PORT, port)
        self.assertEqual(till.count("\n"), 5, "what the till writes was not found")
        for number, want in enumerate([day, f"listening {port}\n" + "".join(SAID), till]):
            commands, _ = blocks[number]
            self.assertEqual(shell.play(number, commands.replace(PORT, port), want), want, commands)
        self.assertEqual(len(blocks), 3)

    def test_each_key_of_the_day_is_told(self) -> None:
        """The story has the keys of the script, each by itself or as one between two keys."""
        with open(os.path.join(EXAMPLES, "README.md"), encoding="utf-8") as file:
            story = re.findall(r"^\| ([A-Z]\d.*?) \|", file.read(), re.MULTILINE)
        told = set()
        for cell in story:
            for part in cell.split(", "):
                first, _, last = part.partition(" to ")
                told |= {f"{first[0]}{number}" for number in range(int(first[1:]), int((last or first)[1:]) + 1)}
        with open(os.path.join(EXAMPLES, "two_shops.script"), encoding="ascii") as file:
            keys = {line.split()[0] for line in file} - {"?"}
        self.assertEqual(told, keys)

    def play(self, words: list[str], asked: str, journal: str, relay: Relay | None = None, **more: str) -> tuple[int, str, str]:
        """How a client ends that sends the commands of a file to whoever listens there: its status, and what it writes."""
        client = subprocess.Popen(
            [*words, asked, os.path.join(EXAMPLES, "commands.txt"), journal],
            cwd=EXAMPLES,
            env={**os.environ, "HOME": self.folder, "DESK_USER": "", **more},
            stdin=subprocess.DEVNULL,
            stdout=subprocess.PIPE,
            stderr=subprocess.PIPE,
            text=True,
        )
        if relay:
            relay.client = client
        out, errors = client.communicate(timeout=SECONDS)
        return client.returncode, out, errors

    def expect_all_once(self, kind: str, faults: dict[int, str], connections: int) -> None:
        """Whatever happens to its messages, a client that is called until it is done gets every answer, and each command is done
        once."""
        with self.subTest(kind=kind, faults=faults):
            name = f"{kind}-{'-'.join(faults.values())}"
            path, journal = self.new_desk(f"{name}.db"), os.path.join(self.folder, f"{name}.journal")
            service = Service(self.program, path, connections)
            relay = Relay(service.port, faults)
            try:
                status, said, errors = self.play(CLIENTS[kind], f"127.0.0.1:{relay.server_port}", journal, relay)
                if "killed" in faults.values():
                    self.assertEqual(status, -9)
                    status, more, errors = self.play(CLIENTS[kind], f"127.0.0.1:{relay.server_port}", journal, relay)
                    said += more
            finally:
                relay.end()
                service.expect_end()
            self.assertEqual((status, said, errors), (0, "".join(SAID), ""))
            with open(journal, encoding="ascii") as file:
                first, *kept = file.read().splitlines()
            self.assertRegex(first, "^[0-9a-f]{24}$")
            self.assertEqual(kept, KEPT)
            self.assertEqual(self.done(["run", path], "? field N1 TEA\n"), FOUND)
            # called once more, it has nothing left to ask, and nobody is there
            self.assertEqual(self.play(CLIENTS[kind], "127.0.0.1:1", journal), (0, "", ""))

    def expect_client(self, kind: str) -> None:
        whole = len(COMMANDS)
        self.expect_all_once(kind, {}, whole)
        # the delivery is done, and its answer is lost twice
        self.expect_all_once(kind, {4: "lost", 5: "lost"}, whole + 2)
        # neither of these reaches the desk
        self.expect_all_once(kind, {1: "away", 3: "busy"}, whole)
        # the client is killed when the delivery is done, before it has the answer
        self.expect_all_once(kind, {4: "killed"}, whole + 1)

    def expect_end(self, kind: str, commands: str, asked: str, want: str) -> None:
        """The client ends with status 1, and says why."""
        list_of = os.path.join(self.folder, "list.txt")
        with open(list_of, "w", encoding="ascii") as file:
            file.write(commands)
        journal = os.path.join(self.folder, f"{kind}.journal")
        run = subprocess.run(
            [*CLIENTS[kind], asked, list_of, journal],
            cwd=EXAMPLES,
            env={**os.environ, "HOME": self.folder, "DESK_USER": ""},
            capture_output=True,
            text=True,
            timeout=SECONDS,
            check=False,
        )
        self.assertEqual((run.returncode, run.stdout), (1, ""))
        self.assertRegex(run.stderr, want)

    def expect_ends(self, kind: str) -> None:
        """Where a line is no command, and where no desk is there, the client ends so."""
        service = Service(self.program, self.new_desk(f"{kind}.db"), 1)
        try:
            asked = f"127.0.0.1:{service.port}"
            self.expect_end(kind, "commit 07\n", asked, '^commit 07: 400 {"code":20,"line":0,"refused":"BadCommand"}\n$')
        finally:
            service.expect_end()
        self.expect_end(kind, "commit 7\n", f"127.0.0.1:{service.port}", "^[0-9a-f]{24}-1 has no answer: call again\n$")

    def test_the_client_in_python_loses_nothing(self) -> None:
        with open(os.path.join(EXAMPLES, "client.py"), encoding="utf-8") as file:
            self.assertLessEqual(len(file.readlines()), 60)
        self.expect_client("py")

    def test_the_client_in_python_tells_why_it_ends(self) -> None:
        self.expect_ends("py")

    @needs("curl")
    def test_the_client_with_curl_loses_nothing(self) -> None:
        self.expect_client("sh")

    @needs("curl")
    def test_the_client_with_curl_tells_why_it_ends(self) -> None:
        self.expect_ends("sh")

    @needs("curl", "openssl")
    def test_each_client_asks_a_front(self) -> None:
        """The clients ask over TLS, with a certificate of the front's own, and as a user."""
        key, certificate = (os.path.join(self.folder, name) for name in ["front.key", "front.pem"])
        words = (
            "openssl req -x509 -newkey rsa:3072 -nodes -days 2 -subj /CN=localhost -addext subjectAltName=DNS:localhost".split()
        )
        subprocess.run([*words, "-keyout", key, "-out", certificate], capture_output=True, timeout=SECONDS, check=True)
        with open(os.path.join(self.folder, ".curlrc"), "w", encoding="ascii") as file:
            file.write(f'user = "{USER}"\ncacert = "{certificate}"\n')
        context = ssl.SSLContext(ssl.PROTOCOL_TLS_SERVER)
        context.load_cert_chain(certificate, key)
        for kind, front in [("py", "localhost"), ("sh", "https://localhost")]:
            with self.subTest(kind=kind):
                service = Service(self.program, self.new_desk(f"{kind}.db"), len(COMMANDS))
                relay = Relay(service.port, {}, context)
                journal = os.path.join(self.folder, f"{kind}.journal")
                user = {"DESK_USER": USER, "SSL_CERT_FILE": certificate} if kind == "py" else {}
                try:
                    end = self.play(CLIENTS[kind], f"{front}:{relay.server_port}", journal, relay, **user)
                finally:
                    relay.end()
                    service.expect_end()
                self.assertEqual(end, (0, "".join(SAID), ""))
                self.assertEqual(relay.shown, [SHOWN] * len(COMMANDS))

    def till(self, asked: str, relay: Relay | None, *words: str, **more: str) -> tuple[int, str, str]:
        """How a call of the till ends, as `play`."""
        journal = os.path.join(self.folder, "till.journal")
        if not os.path.exists(journal):
            with open(journal, "w", encoding="ascii") as file:
                file.write("300000\n")
        client = subprocess.Popen(
            [sys.executable, "till.py", asked, journal, *words],
            cwd=EXAMPLES,
            env={**os.environ, "DESK_USER": "", **more},
            stdout=subprocess.PIPE,
            stderr=subprocess.PIPE,
            text=True,
        )
        if relay:
            relay.client = client
        out, errors = client.communicate(timeout=SECONDS)
        return client.returncode, out, errors

    def test_the_till_loses_nothing(self) -> None:
        """Its first number is another's, answers are lost, and it is killed before it has one."""
        with open(os.path.join(EXAMPLES, "till.py"), encoding="utf-8") as file:
            self.assertLessEqual(len(file.readlines()), 60)
        path = self.new_desk("till.db")
        self.done(["run", path], "F field N1 TEA 5 60 15\nX open 300000 40000000 take N1 TEA 1\n")
        service = Service(self.program, path, 6)
        relay = Relay(service.port, {2: "lost", 4: "away", 5: "busy", 7: "killed"})
        asked = f"127.0.0.1:{relay.server_port}"
        opening = ["open", "120", "take", "N1", "TEA", "3"]
        taken = 'open 300000 is refused, 409: {"code":6,"line":0,"refused":"OrderThere"}\n'
        try:
            self.assertEqual(self.till(asked, relay, *opening), (0, taken, ""))
            self.assertEqual(self.till(asked, relay, *opening), (0, 'open 300001 is done: {"place":3}\n', ""))
            self.assertEqual(
                self.till(asked, relay, *"use 300001 N1 TEA 2".split()), (0, 'use 300001 is done: {"place":4}\n', "")
            )
            self.assertEqual(self.till(asked, relay, "commit", "300001")[0], -9)
            self.assertEqual(self.till(asked, relay), (0, 'commit 300001 is done: {"place":5}\n', ""))
        finally:
            relay.end()
            service.expect_end()
        self.assertEqual(self.done(["run", path], "? field N1 TEA\n"), "? field N1 TEA lo 5 hi 60 value 13 inf 12 sup 13\n")

    @needs("haproxy", "openssl")
    def test_the_till_asks_a_front(self) -> None:
        """As a user of the shops, over TLS; what such a user may not send is refused, and so is another password."""
        with Front(self.program, self.folder) as front:
            asked, certificate = f"localhost:{front.port}", os.path.join(self.folder, "certificate")
            user = {"DESK_USER": USER, "SSL_CERT_FILE": certificate}
            opening = ["open", "120", "take", "N1", "A-1", "3"]
            self.assertEqual(self.till(asked, None, *opening, **user), (0, 'open 300000 is done: {"place":9}\n', ""))
            refused = 'firm 300000 is refused, 403: {"error":"group"}\n'
            self.assertEqual(self.till(asked, None, "firm", "300000", **user), (0, refused, ""))
            told = "no such user or password: call again\n"
            other = {**user, "DESK_USER": "n1:other"}
            self.assertEqual(self.till(asked, None, "commit", "300000", **other), (1, "", told))
            self.assertEqual(self.till(asked, None, **user), (0, 'commit 300000 is done: {"place":10}\n', ""))

"""What the tests of copies have in common: a desk that is served, clients that deliver, the tools, and what a copy has to be."""

import contextlib
import http.client
import json
import os
import re
import resource
import signal
import subprocess
import threading
import time
from concurrent.futures import Future, ThreadPoolExecutor
from dataclasses import dataclass, field
from typing import Callable, Iterator

from support import DEPLOY, fronts
from support.fronts import WAREHOUSE, Front, credentials, message
from support.programs import SECONDS, bytes_of, done, expect, new_desk
from support.service import Service
from support.tables import sqlite3

BACKUP, RESTORE = os.path.join(DEPLOY, "stockdesk-backup"), os.path.join(DEPLOY, "stockdesk-restore")
FIELDS = 8
CLIENTS = 4

# how often each client delivers, in seconds
PAUSE = 0.04

# a desk that has not answered for so many seconds stands still; a slow disk stops it for less
STANDS = 10

SMALL_DISK = 64_000_000

NAME = re.compile("desk-[0-9]{8}T[0-9]{6}Z-([0-9]+)[.]db")
HELD = re.compile("stockdesk-backup: the desk was held for ([0-9.]+) ms\n")
NO_COPY = re.compile("stockdesk-backup: no copy was made: .+\n")


@dataclass
class Served:
    """A desk that is served, behind the front where there is one."""

    process: subprocess.Popen
    file: str
    connect: Callable[[], http.client.HTTPConnection]
    clients: int


def desk_of(service: Service, path: str) -> Served:
    return Served(service.process, path, service.connect, 1)


@contextlib.contextmanager
def served(program: str, folder: str) -> Iterator[Served]:
    """A desk that is served. Without a front it serves one client."""
    if fronts.is_there():
        with Front(program, folder) as front:
            yield Served(front.desk, front.file, front.connect, CLIENTS)
        return
    path = new_desk(program, folder)
    done(program, ["run", path], fronts.FIELDS)
    with alone(program, path) as service:
        yield desk_of(service, path)


@contextlib.contextmanager
def alone(program: str, path: str) -> Iterator[Service]:
    service = Service(program, path, 1)
    # these tests go on for longer than the service's clock allows
    service.clock.cancel()
    try:
        yield service
    finally:
        service.process.kill()
        service.process.communicate()


@dataclass
class Load:
    """Clients that deliver, one piece at a time: the keys that they sent, and the places in their answers."""

    desk: Served
    pause: float
    sent: list[str] = field(default_factory=list)
    answered: list[tuple[str, int]] = field(default_factory=list)
    over: threading.Event = field(default_factory=threading.Event)

    def deliver(self, client: int) -> None:
        connection = self.desk.connect()
        while not self.over.wait(self.pause):
            key = f"C{client}-{len(self.sent)}"
            self.sent.append(key)
            told = message(key, f"deliver N1 A-{1 + len(self.sent) % FIELDS} 1")
            connection.request("POST", "/v1/commands", told, credentials(WAREHOUSE))
            answer = connection.getresponse()
            body = answer.read().decode()
            expect(answer.status == 200, f"{told}: {answer.status}, {body}")
            self.answered.append((key, json.loads(body)["place"]))
        connection.close()

    def expect_goes_on(self) -> None:
        """More is answered than what was on its way: a desk that stands still answers nothing."""
        want, latest = len(self.answered) + self.desk.clients + 1, time.monotonic() + STANDS
        while len(self.answered) < want and time.monotonic() < latest:
            time.sleep(0.005)
        expect(len(self.answered) >= want, "the desk does not go on")


@contextlib.contextmanager
def under_load(desk: Served, pause: float = PAUSE) -> Iterator[Load]:
    load = Load(desk, pause)
    with ThreadPoolExecutor(desk.clients) as pool:
        clients: list[Future] = [pool.submit(load.deliver, client) for client in range(desk.clients)]
        try:
            yield load
        finally:
            load.over.set()
            # a client that waits for a desk that stands still would never end
            desk.process.send_signal(signal.SIGCONT)
        for client in clients:
            client.result()


# ---- the tools


def words_of(desk: Served, folder: str, program: str) -> list[str]:
    return [BACKUP, str(desk.process.pid), desk.file, folder, "--program", program]


def ended(words: list[str], limit: int | None = None) -> tuple[int, str, str]:
    """How a tool ends, what it writes and what it says of a fault; a limit may say how many bytes its files may have."""
    bound = None if limit is None else lambda: resource.setrlimit(resource.RLIMIT_FSIZE, (limit, limit))
    run = subprocess.run(words, capture_output=True, timeout=SECONDS, preexec_fn=bound)
    return run.returncode, run.stdout.decode(), run.stderr.decode()


def copied(words: list[str]) -> tuple[str, float]:
    """The path of a copy that the tool makes, and for how many milliseconds it stopped the desk."""
    status, out, told = ended(words)
    held = HELD.fullmatch(told)
    expect((status, bool(held)) == (0, True) and NAME.fullmatch(out.rstrip("\n")), f"{status}, {out!r}, {told!r}")
    return os.path.join(words[3], out.rstrip("\n")), float(held[1] if held else 0)


def stands_still(process: subprocess.Popen) -> bool:
    with open(f"/proc/{process.pid}/stat", encoding="ascii") as file:
        return file.read().rpartition(")")[2].split()[0] == "T"


def until_held(desk: Served, words: list[str]) -> subprocess.Popen:
    """A tool that was started and just now holds the desk still, or has ended."""
    tool = subprocess.Popen(words, stdout=subprocess.DEVNULL, stderr=subprocess.DEVNULL)
    while tool.poll() is None and not stands_still(desk.process):
        pass
    return tool


def expect_copy(program: str, path: str, before: list, sent: list[str]) -> None:
    """The copy is one file, which the program opens. It has all that was answered before, each command at its place, and nothing
    that was not sent; its fields are as these commands make them."""
    expect(not os.path.exists(path + "-wal"), f"{path} has a log")
    shown = done(program, ["run", path], "".join(f"? field N1 A-{n}\n" for n in range(1, FIELDS + 1)))
    with contextlib.closing(sqlite3.connect(path)) as database:
        kept = dict(database.execute("SELECT reqkey, place FROM kept"))
    lost = [key for key, place in before if kept.get(key) != place]
    expect(not lost, f"{path} lacks {len(lost)} of {len(before)} commands that were answered before")
    others = set(kept) - set(sent) - {f"F{n}" for n in range(1, FIELDS + 1)}
    expect(not others, f"{path} has {len(others)} commands that nobody sent")
    told = re.search("-([0-9]+)[.]db$", path)
    places = int(told[1]) if told else len(kept)
    expect(sorted(kept.values()) == list(range(1, places + 1)), f"{path}: {len(kept)} commands")
    found = sum(int(line.split()[9]) for line in shown)
    expect(found == 500 * FIELDS + len(kept) - FIELDS, f"{path}: {found} pieces in {len(kept)} commands")


def contents(folder: str) -> dict[str, bytes | None]:
    """The bytes of each file in a folder, by name, and the names of what else is there; nothing for a folder that does not
    exist."""
    names = os.listdir(folder) if os.path.isdir(folder) else []
    paths = {name: os.path.join(folder, name) for name in names}
    return {name: bytes_of(path) if os.path.isfile(path) else None for name, path in paths.items()}


def expect_refused(words: list[str], want: str) -> None:
    """The tool ends with status 1 and one line, which comes after that of a hold if there was one; the file's folder is as it
    was."""
    before = contents(os.path.dirname(words[2]))
    status, out, told = ended(words)
    line = told.splitlines()[-1] if told else ""
    expect((status, out) == (1, "") and want in line and told.count("\n") <= 2, f"{words[1:]}: {status}, {out!r}, {told!r}")
    expect(line.startswith(os.path.basename(words[0]) + ": no"), f"{line}")
    expect(contents(os.path.dirname(words[2])) == before, f"{words[1:]}: files were changed")

"""A desk that is served as its unit of systemd says: before each start the tool rolls it up where it fills up, and whenever the
service ends, it is started again after a pause."""

import contextlib
import os
import re
import signal
import subprocess
import threading
import time
from collections.abc import Iterator, Sequence
from dataclasses import dataclass

from support import DEPLOY
from support.programs import expect
from support.rolled import TOOL

UNIT = "stockdesk@.service"

# with these statuses the service stays down
STAYS_DOWN = (2, 3)


def settings_of(unit: str, name: str) -> list[str]:
    """The values of a setting in a unit, in their order."""
    with open(os.path.join(DEPLOY, unit), encoding="utf-8") as file:
        return re.findall(rf"^{name}=(.*)$", file.read(), re.MULTILINE)


def seconds_of(name: str) -> float:
    """A setting of the desk's unit that is a time, in seconds."""
    [told] = settings_of(UNIT, name)
    found = re.fullmatch(r"([0-9]+)(ms|s|min)", told)
    assert found, told
    return int(found[1]) * {"ms": 0.001, "s": 1, "min": 60}[found[2]]


@dataclass
class Start:
    """A start of the service: when the one before had ended, what the tool said, how many seconds that took, and when the service
    listened."""

    ended: float
    told: str
    took: float
    listened: float

    def is_roll(self) -> bool:
        return "rolled up: " in self.told

    def down(self) -> float:
        """For how many seconds nobody served."""
        return self.listened - self.ended


class Unit:
    """The unit of a desk in a file, at a port. The words of `look` stand behind those of the tool; those of `instead` take the
    place of words of the service."""

    def __init__(self, program: str, file: str, port: int, look: Sequence[str] = (), instead: dict[str, str] | None = None):
        names = {"/var/lib/stockdesk/%i/desk.db": file, "${PORT}": str(port), "/usr/bin/stockdesk": program}
        names |= {"/usr/bin/stockdesk-rollover": TOOL, **(instead or {})}
        [line] = [line for line in settings_of(UNIT, "ExecStartPre") if "stockdesk-rollover" in line]
        # what fails there is no reason not to serve
        assert line[0] == "-"
        self.look_words = [*(names.get(word, word) for word in line[1:].split()), "--program", program, *look]
        [line] = settings_of(UNIT, "ExecStart")
        self.words = [names.get(word, word) for word in line.split()]
        self.port, self.pause = port, seconds_of("RestartSec")
        self.process: subprocess.Popen[bytes] | None = None
        self.starts: list[Start] = []

    def looking(self) -> subprocess.Popen[bytes]:
        """The tool, in a group of processes of its own."""
        return subprocess.Popen(self.look_words, stdout=subprocess.PIPE, stderr=subprocess.PIPE, start_new_session=True)

    def serve(self) -> bool:
        """Starts the service, and returns whether it listens; it has ended otherwise."""
        words = self.words
        self.process = subprocess.Popen(words, stdin=subprocess.DEVNULL, stdout=subprocess.PIPE, stderr=subprocess.PIPE)
        assert self.process.stdout
        listens = self.process.stdout.readline() == f"listening {self.port}\n".encode()
        if not listens:
            _, errors = self.process.communicate()
            expect(self.process.returncode not in STAYS_DOWN, f"it stays down: {self.process.returncode}, {errors!r}")
        return listens

    def start(self, ended: float) -> None:
        """Looks at the desk and starts the service, until it listens."""
        while True:
            began = time.monotonic()
            out, errors = self.looking().communicate()
            took = time.monotonic() - began
            if self.serve():
                self.starts.append(Start(ended, (out + errors).decode(), took, time.monotonic()))
                return

    def kill(self) -> None:
        if self.process:
            self.process.send_signal(signal.SIGKILL)
            self.process.communicate()


@contextlib.contextmanager
def kept_up(unit: Unit) -> Iterator[None]:
    """The unit is started, and started again whenever the service ends."""
    over, faults = threading.Event(), list[BaseException]()

    def go_on() -> None:
        try:
            while not over.is_set():
                assert unit.process
                unit.process.communicate()
                ended = time.monotonic()
                if not over.wait(unit.pause):
                    unit.start(ended)
        except BaseException as fault:
            faults.append(fault)

    unit.start(time.monotonic())
    thread = threading.Thread(target=go_on)
    thread.start()
    try:
        yield
    finally:
        over.set()
        assert unit.process
        unit.process.send_signal(signal.SIGKILL)
        thread.join()
        unit.kill()
    expect(not faults, f"not kept up: {faults}")

"""Runs of the built program in which calls fail that otherwise would not: allocations, reads and writes, and the calls of its
store; or in which syncs are slow."""

import contextlib
import errno
import os
import shutil
import subprocess
import tempfile
from collections.abc import Callable, Iterable, Iterator, Sequence
from concurrent.futures import ThreadPoolExecutor
from dataclasses import dataclass
from queue import SimpleQueue
from typing import TypeVar

from support import TOP
from support.cases import ProgramCase
from support.disks import IN_MEMORY
from support.programs import End, ended, expect

SOURCE = os.path.join(os.path.dirname(os.path.abspath(__file__)), "failing.c")
SLOW_SOURCE = os.path.join(TOP, "bench", "slow_sync.c")
# a number that no call reaches
NEVER = 1 << 62
# of so many allocations one is refused together with all that follow
FOR_GOOD = 13
LANES = min(4, os.cpu_count() or 1)
# memory comes in few large pieces, which makes a run cheaper
CHEAPER = {"GLIBC_TUNABLES": "glibc.malloc.hugetlb=1", "MALLOC_TOP_PAD_": str(1 << 25)}

T = TypeVar("T")


@dataclass(frozen=True)
class Failure:
    """Which calls of a kind fail, and with what error: the call with this number, counted from 1, alone or with all that
    follow."""

    kind: str
    first: int
    for_good: bool = False
    error: int = errno.EIO

    def __str__(self) -> str:
        return f"{self.kind} {self.first}{' and on' if self.for_good else ''}, error {self.error}"


def refusals(first: int, count: int) -> list[Failure]:
    """Refusals of each allocation from number `first` to number `count`, and of one that never comes; for some of them also
    together with all that follow."""
    alone = [Failure("memory", number) for number in range(first, count + 2)]
    return alone + [Failure("memory", number, for_good=True) for number in range(first, count + 1, FOR_GOOD)]


class NotBuilt(Exception):
    """Why there is no library that makes calls fail."""


def library_in(folder: str, source: str) -> str:
    """The path of the library that makes calls fail, or syncs slow."""
    if not (compiler := shutil.which("cc")):
        raise NotBuilt("cc not here")
    path = os.path.join(folder, os.path.basename(source).replace(".c", ".so"))
    words = [compiler, "-shared", "-fPIC", "-O2", "-o", path, source, "-ldl"]
    if (run := subprocess.run(words, capture_output=True, text=True, check=False)).returncode:
        raise NotBuilt(f"cc builds no library here: {run.stderr.strip()[-200:]}")
    return path


class Failing:
    """The built program, the library that makes its calls fail, and lanes: folders for runs that are tried side by side."""

    def __init__(self, program: str, folder: str):
        self.program, self.library, self.slow = program, library_in(folder, SOURCE), library_in(folder, SLOW_SOURCE)
        self.lanes: SimpleQueue[str] = SimpleQueue()
        for number in range(LANES):
            os.mkdir(os.path.join(folder, str(number)))
            self.lanes.put(os.path.join(folder, str(number)))

    @contextlib.contextmanager
    def lane(self) -> Iterator[str]:
        """A folder that nobody else uses meanwhile."""
        folder = self.lanes.get()
        try:
            yield folder
        finally:
            self.lanes.put(folder)

    def environment(self, failure: Failure, lane: str, micros: int = 0) -> dict[str, str]:
        """The environment in which the program's calls fail so; `micros` microseconds go by after each sync."""
        told = os.path.join(lane, "counted")
        with contextlib.suppress(FileNotFoundError):
            os.remove(told)
        return {
            **os.environ,
            **CHEAPER,
            "LD_PRELOAD": f"{self.slow}:{self.library}" if micros else self.library,
            "SLOW_SYNC": str(micros),
            "FAILING_KIND": failure.kind,
            "FAILING_FROM": str(failure.first),
            "FAILING_TO": str(NEVER if failure.for_good else failure.first),
            "FAILING_ERROR": str(failure.error),
            "FAILING_COUNTED": told,
        }

    def counted(self, lane: str) -> int:
        """How many calls there were in the run that just ended."""
        with open(os.path.join(lane, "counted"), encoding="ascii") as file:
            return int(file.read())

    def ended(self, words: Sequence[str], text: str, failure: Failure, lane: str) -> tuple[End, bool]:
        """How a run ends, and whether a call failed in it."""
        end = ended(self.program, words, text, environment=self.environment(failure, lane))
        return end, failure.first <= self.counted(lane)

    def count(self, kind: str, words: Sequence[str], text: str, lane: str) -> int:
        """How many calls of a kind there are in a run where none fails."""
        status, _, errors = ended(self.program, words, text, environment=self.environment(Failure(kind, NEVER), lane))
        expect(status in (0, 2), f"{words}: {status}, {errors!r}")
        return self.counted(lane)

    def attempt(self, failures: Iterable[Failure], check: Callable[[Failure, str], T]) -> list[T]:
        """Tries each failure, in as many lanes side by side as there are."""

        def check_in_lane(failure: Failure) -> T:
            with self.lane() as lane:
                return check(failure, lane)

        with ThreadPoolExecutor(LANES) as pool:
            return list(pool.map(check_in_lane, failures))


class FailingCase(ProgramCase):
    """Tests of the built program in which calls fail, on files in memory; left out where the library for that cannot be built."""

    failing: Failing
    lacking = ""

    @classmethod
    def setUpClass(cls) -> None:
        super().setUpClass()
        try:
            cls.failing = Failing(cls.program, cls.enterClassContext(tempfile.TemporaryDirectory(dir=IN_MEMORY)))
        except NotBuilt as fault:
            cls.lacking = str(fault)

    def setUp(self) -> None:
        if self.lacking:
            self.skipTest(self.lacking)
        self.folder = self.enterContext(tempfile.TemporaryDirectory(dir=IN_MEMORY))

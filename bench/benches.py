"""What bench/clients and bench/front share: their options, loads on servers that are started for each load, and how a whole run
begins, reports and ends."""

import argparse
import os
import shutil
import signal
import sys
import tempfile
import time
from abc import ABC, abstractmethod
from collections.abc import Callable, Iterator, Sequence
from dataclasses import replace
from types import FrameType

import crowds
import files
import report
from built import build_slow_sync, say
from crowds import FAST, PACES, SLOW, Cell, Figures, Found
from loads import Load, Work
from services import Pace, Server, Syncs, make_desk
from support import BUILT
from support.tables import is_able

# a desk with 10,000 fields has places for 190,000 deliveries
SECONDS, MOST_SECONDS = 5, 8
SLOW_MILLIS = 5
MOST_CLIENTS = 256

# a bench is ended after so many seconds for each run of its cells, whatever hangs; and how many runs there are at most
LIMIT, MOST_RUNS = 900, 9

# as ./stockdesk sets it for the program
os.environ.setdefault("MALLOC_MMAP_THRESHOLD_", "131072")


def number_of_clients(text: str) -> int:
    number = int(text)
    if not 1 <= number <= MOST_CLIENTS:
        raise argparse.ArgumentTypeError(f"numbers of clients are 1 to {MOST_CLIENTS}")
    return number


def seconds_of(text: str) -> int:
    number = int(text)
    if not 1 <= number <= MOST_SECONDS:
        raise argparse.ArgumentTypeError(f"seconds are 1 to {MOST_SECONDS}")
    return number


def parser_of_options(about: str | None, parts: Sequence[str], clients: Sequence[int], together: int) -> argparse.ArgumentParser:
    parser = argparse.ArgumentParser(description=about)
    parser.add_argument("--parts", nargs="+", choices=parts, default=list(parts), help="which parts (default all)")
    parser.add_argument("--paces", nargs="+", choices=PACES, default=PACES, help="which syncs")
    told = f"of the cells: numbers of clients (default {' '.join(map(str, clients))})"
    parser.add_argument("--clients", nargs="+", type=number_of_clients, default=list(clients), help=told)
    parser.add_argument("--seconds", type=seconds_of, default=SECONDS, help="seconds of a cell (default %(default)s)")
    parser.add_argument("--keys", choices=["random", "ordered"], default="random", help="the keys (default %(default)s)")
    parser.add_argument("--together", type=int, default=together, help="most commands in a round (default %(default)s)")
    parser.add_argument(
        "--slow", type=int, default=SLOW_MILLIS, help="milliseconds by which a sync is slower (default %(default)s)"
    )
    parser.add_argument(
        "--write", metavar="FILE", type=argparse.FileType("w", encoding="utf-8"), help="writes tables for docs/PERFORMANCE.md"
    )
    parser.add_argument("--dir", help="the folder for files (default a temporary one)")
    parser.add_argument("--program", default=BUILT, help="the built program (default the repository's)")
    return parser


def read_options(parser: argparse.ArgumentParser, tools: Sequence[str]) -> argparse.Namespace:
    options = parser.parse_args()
    options.program = os.path.abspath(options.program)
    if not os.access(options.program, os.X_OK):
        parser.error(f"{options.program} is not there: build the program, or name it by --program")
    if not is_able():
        parser.error("Python's module sqlite3 is missing, or its SQLite is older than 3.37")
    path = os.environ.get("PATH", "") + ":/usr/sbin"
    if lacking := [tool for tool in tools if not shutil.which(tool, path=path)]:
        parser.error(f"{', '.join(lacking)} not here (Debian has packages of these names)")
    return options


def expect_kept(load: Load, work: Work, clients: int, moves: int, pieces: int) -> None:
    """All that was answered is kept, and beyond that at most what each client waited for at the end; asks leave nothing."""
    least, most = (0, 0) if work.is_asks else (load.told, load.told + clients)
    if not least <= moves == pieces <= most:
        sys.exit(f"bench: {load.told} {work.kind()} were answered, {moves} are kept, and the fields got {pieces} pieces")


def measured(server: Server, pace: Pace, work: Work, clients: int, seconds: int) -> Figures:
    """Starts the server, puts a load on it, and returns what was found."""
    with server:
        before = pace.syncs.counted()
        load = server.load(work, clients, seconds)
        syncs, nanoseconds = [late - early for early, late in zip(before, pace.syncs.counted())]
        expect_kept(load, work, clients, *server.kept())
    if pace.library and nanoseconds < 1e6 * pace.millis * max(syncs, 0 if work.is_asks else 1):
        sys.exit("bench: syncs are not slower: they are not called in the C library")
    return Figures(load, syncs, nanoseconds)


def busy() -> float:
    """How many processors are busy, measured for a second."""

    def idle() -> int:
        with open("/proc/stat", encoding="ascii") as file:
            return sum(map(int, file.readline().split()[4:6]))

    before = idle()
    time.sleep(1)
    return (os.cpu_count() or 1) - (idle() - before) / os.sysconf("SC_CLK_TCK")


class Bench(ABC):
    """What is measured, the folder for it, and what was found."""

    def __init__(self, options: argparse.Namespace, folder: str, works: dict[str, Work]):
        self.options, self.folder, self.works = options, folder, works
        self.loads: list[float] = []
        self.paces = dict(self.able_paces())
        titles = {name: work.title() for name, work in works.items()}
        self.found = Found(titles, {name: pace.name for name, pace in self.paces.items()})

    def able_paces(self) -> Iterator[tuple[str, Pace]]:
        """The paces of syncs that are asked for. There are no slower syncs where there is no compiler."""
        library = build_slow_sync(self.folder)
        syncs = Syncs(os.path.join(self.folder, "syncs"))
        if FAST in self.options.paces:
            yield FAST, Pace("the disk as it is", 0, library, syncs)
        if SLOW in self.options.paces and library:
            yield SLOW, Pace(f"each sync {self.options.slow} ms slower", self.options.slow, library, syncs)

    def make_desk(self, work: Work) -> str:
        path = os.path.join(self.folder, f"desk{work.branches}.db")
        make_desk(self.options.program, path, work.branches, work.articles)
        return path

    @abstractmethod
    def server(self, name: str, pace: Pace) -> Server:
        """The server with that name in `SERVERS`."""

    @abstractmethod
    def rounds(self) -> list[str]:
        """The options with which many clients are served together."""

    @abstractmethod
    def parts(self) -> dict[str, Callable[[], None]]:
        """The parts of a run, by name."""

    @abstractmethod
    def beside(self) -> str:
        """What is measured beside the program."""

    def goals(self) -> list[str]:
        """The goals beside what was found."""
        return crowds.goals_text(self.found)

    @abstractmethod
    def short(self) -> list[str]:
        """All that was found, as docs/PERFORMANCE.md shows it."""

    def measure(self, server: Server, pace: Pace, work: Work, clients: int, name: str, most: int = MOST_SECONDS) -> Figures:
        work = replace(work, has_ordered_keys=self.options.keys == "ordered")
        found = measured(server, pace, work, clients, min(most, self.options.seconds))
        self.loads.append(os.getloadavg()[0])
        told = f"{report.number(found.load.rate())} a second, load {self.loads[-1]:.1f}"
        say(f"{work.title()}, {pace.name}, clients {clients}, {name}: {told}")
        return found

    def measure_cell(self, cell: Cell, most: int = MOST_SECONDS) -> Figures:
        pace, name = self.paces[cell.pace], self.found.servers[cell.server]
        return self.measure(self.server(cell.server, pace), pace, self.works[cell.work], cell.clients, name, most)

    def head(self) -> list[str]:
        """On what machine, and how, it is measured."""
        options = self.options
        first = next(iter(report.surroundings(options.program, files.kind_of(self.folder), None)))
        second = f"Before it {busy():.1f} processors were busy. {self.beside()}; {options.seconds} seconds a cell,"
        third = f"{options.keys} keys; `{' '.join(self.rounds())}`; slow: each sync {options.slow} ms slower."
        return [first, f"{second} {third}", ""]

    def tail(self, began: float) -> str:
        load = f"{min(self.loads):.1f} to {max(self.loads):.1f}" if self.loads else "nothing"
        return f"It took {time.monotonic() - began:.0f} seconds, under a load of {load}, its own with it."

    def play(self) -> None:
        began, head = time.monotonic(), self.head()
        tell(head)
        for part in self.options.parts:
            self.parts()[part]()
        tail = self.tail(began)
        tell([*self.goals(), tail])
        if self.options.write:
            print("\n".join([*head, *self.short(), "", tail]), file=self.options.write, flush=True)


def tell(lines: Sequence[str]) -> None:
    print("\n".join(lines), flush=True)


def end(number: int, _: FrameType | None) -> None:
    """Ends the run, with all processes that it started."""
    sys.exit(f"bench: ended by {signal.Signals(number).name}")


def play(options: argparse.Namespace, bench: Callable[[argparse.Namespace, str], Bench], runs: int = 1) -> None:
    """Plays a bench in a folder that is removed afterwards, within a time that is limited for each of its runs."""
    signal.signal(signal.SIGTERM, end)
    signal.signal(signal.SIGALRM, end)
    signal.alarm(LIMIT * runs)
    folder = tempfile.mkdtemp(prefix="bench-", dir=options.dir)
    # a folder of PostgreSQL may belong to another user
    os.chmod(folder, 0o711)
    try:
        bench(options, folder).play()
    finally:
        shutil.rmtree(folder)

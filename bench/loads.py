"""Deliveries and asks by clients that each wait for their answers, and how long they wait: `wrk` sends requests over HTTP,
`pgbench` deliveries in SQL."""

import glob
import os
import re
import subprocess
import sys
from collections import Counter
from collections.abc import Iterable, Mapping, Sequence
from dataclasses import dataclass

HERE = os.path.dirname(os.path.abspath(__file__))

# how many threads `wrk` and `pgbench` have at most
THREADS = 2

# how many seconds an answer may take
PATIENCE = 20

# how many seconds PostgreSQL works before it is measured
WARMING = 2


@dataclass(frozen=True)
class Work:
    """Deliveries to random fields of so many branches and articles, under random keys or under keys in order; or asks for such
    fields."""

    name: str
    branches: int
    articles: int
    has_ordered_keys: bool = False
    is_asks: bool = False

    def kind(self) -> str:
        return "asks" if self.is_asks else "deliveries"

    def title(self) -> str:
        return f"{self.kind()}, {self.name}"

    def keys(self) -> str:
        return "none" if self.is_asks else "ordered" if self.has_ordered_keys else "random"


@dataclass(frozen=True)
class Load:
    """What clients found: how many seconds were measured, how many requests were answered in these (by the microseconds that they
    waited), and how many were answered in the whole run."""

    seconds: float
    waits: Counter[int]
    told: int

    def commands(self) -> int:
        return self.waits.total()

    def rate(self) -> float:
        """The commands per second."""
        return self.commands() / self.seconds

    def within(self, micros: float) -> float:
        """The share of the commands that waited at most so many microseconds."""
        return sum(count for wait, count in self.waits.items() if wait <= micros) / self.commands()

    def millis(self, share: float) -> float:
        """How many milliseconds suffice for that share of the commands to be answered."""
        wanted, seen = share * self.commands(), 0
        for wait in sorted(self.waits):
            seen += self.waits[wait]
            if seen >= wanted:
                break
        return wait / 1000


def threads_for(clients: int) -> str:
    return str(min(THREADS, clients))


def as_waited(counts: Counter[int], commands: int, expected: int) -> Counter[int]:
    """The waits without those that `wrk` adds. For each wait of more than twice the expected one it adds waits that are shorter
    by the expected one, by twice that, and so on, as if requests had been sent meanwhile."""
    if counts.total() == commands:
        return counts
    found = Counter({wait: count - (counts[wait + expected] if wait > expected else 0) for wait, count in counts.items()})
    if found.total() != commands:
        sys.exit(f"bench: wrk tells {found.total()} waits of {commands} commands")
    return +found


def told_by_wrk(told: str, clients: int) -> Load:
    """The load that requests.lua has printed."""
    if wrong := re.search(r"Non-2xx.*|Socket errors.*", told):
        sys.exit(f"bench: wrk: {wrong[0]} (where the desk is full: take fewer --seconds)")
    [(micros, commands)] = [(int(micros), int(count)) for micros, count in re.findall(r"^run (\d+) (\d+)$", told, re.M)]
    counts = Counter({int(wait): int(count) for wait, count in re.findall(r"^wait (\d+) (\d+)$", told, re.M)})
    if commands < clients:
        sys.exit(f"bench: only {commands} commands of {clients} clients were answered")
    return Load(micros / 1e6, as_waited(counts, commands, micros // (commands // clients)), commands)


def by_wrk(address: str, work: Work, clients: int, seconds: int, header: str | None = None) -> Load:
    """Sends requests to a service for so many seconds, each with a header that names a user if there is one."""
    words = ["wrk", "--threads", threads_for(clients), "--connections", str(clients), "--duration", f"{seconds}s"]
    words += ["--timeout", f"{PATIENCE}s", "--script", os.path.join(HERE, "requests.lua"), address]
    words += ["--", str(work.branches), str(work.articles), work.keys(), *([header] if header else [])]
    ended = subprocess.run(words, check=True, stdout=subprocess.PIPE, text=True, timeout=seconds + 2 * PATIENCE)
    return told_by_wrk(ended.stdout, clients)


def ends_in(paths: Iterable[str]) -> list[tuple[int, int]]:
    """From the logs of `pgbench`, the moment at which each transaction ended and how long it took, in microseconds."""
    found = []
    for path in paths:
        with open(path, encoding="ascii") as file:
            columns = [line.split() for line in file]
        found += [(1_000_000 * int(seconds) + int(micros), int(wait)) for _, _, wait, _, seconds, micros in columns]
        os.remove(path)
    return found


def last_of(ends: Sequence[tuple[int, int]], seconds: int) -> Load:
    """What clients found in the last `seconds` seconds."""
    last = max(end for end, _ in ends)
    first = max(last - 1_000_000 * seconds, min(end for end, _ in ends))
    return Load((last - first) / 1e6, Counter(wait for end, wait in ends if end > first), len(ends))


def by_pgbench(
    command: Sequence[str], environment: Mapping[str, str], folder: str, work: Work, clients: int, seconds: int
) -> Load:
    """Sends deliveries to PostgreSQL; the command is `pgbench` with the options that say where the server is. Before the measured
    seconds begin, the connections open and each plans its statement."""
    logs = os.path.join(folder, "waits")
    words = [*command, "--no-vacuum", "--protocol", "prepared", "--file", os.path.join(HERE, "deliver.sql")]
    words += ["--client", str(clients), "--jobs", threads_for(clients), "--time", str(seconds + WARMING)]
    words += ["--define", f"branches={work.branches}", "--define", f"articles={work.articles}", "--define", "sent=0"]
    words += ["--define", f"ordered={int(work.has_ordered_keys)}", "--log", "--log-prefix", logs]
    ended = subprocess.run(words, env=environment, capture_output=True, text=True, timeout=seconds + 2 * PATIENCE)
    ends = ends_in(glob.glob(logs + ".*"))
    if ended.returncode or not ends:
        sys.exit(f"bench: pgbench: status {ended.returncode}, {len(ends)} transactions, {ended.stderr}")
    return last_of(ends, seconds)

"""Runs over crates: which edits are tried, several crates at a time, and what is written of them."""

import os
import re
import sys
import tempfile
from collections.abc import Callable, Iterable
from concurrent.futures import ThreadPoolExecutor
from dataclasses import dataclass

from wrong_bodies.checks import Libraries, NoCheck, graph_of
from wrong_bodies.edits import Edit, edits_of
from wrong_bodies.functions import Function
from wrong_bodies.results import Results
from wrong_bodies.tries import REFUSED, WANTED, Crate, Tried, try_all

# a check of the largest crate takes 4 GB
ROOM_FOR_CHECK = 4 << 30


@dataclass
class Count:
    """How many tries came to what they should, how many of these were kept, and how many did not."""

    passed: int = 0
    kept: int = 0
    failed: int = 0


def one_of_each(crate: Crate, edits: Iterable[Edit]) -> list[Edit]:
    """One edit of each function, of those that rt ci does not try."""
    taken: set[Function] = set()
    found = []
    for edit in sorted(edits, key=lambda edit: (edit.folder != "must-fail", edit.name)):
        place = crate.place_of(edit)
        if place and not place.turned & taken:
            taken |= place.turned
            found += [edit] if edit.folder != "must-fail" else []
    return found


def named(words: list[str]) -> Callable[[Crate, Iterable[Edit]], list[Edit]]:
    """Chooses the edits whose names have one of these words, or all."""
    return lambda _, edits: [edit for edit in edits if not words or any(word in edit.name for word in words)]


def at_once() -> int:
    """How many checks go on at a time: one for each processor, where there is memory for them."""
    with open("/proc/meminfo", encoding="ascii") as file:
        room = re.search(r"^MemAvailable: *(\d+) kB", file.read(), re.MULTILINE)
    most = int(os.environ.get("RT_JOBS", len(os.sched_getaffinity(0))))
    return max(1, min(most, int(room[1]) * 1024 // ROOM_FOR_CHECK)) if room else 1


def tell(tried: Tried, kind: str) -> str:
    """The line of a try that did not come to what it should."""
    what = {"new": "its wrong body", "control": "its control"}[kind]
    how = {REFUSED: "is refused"}.get(tried.outcome, "is still proved")
    said = f"{what} {how}" if tried.outcome in WANTED.values() else tried.outcome
    return f"{tried.edit}: {said}" + (f": {tried.why[:300]}" if tried.why else "")


def run_crate(libraries: Libraries, crate: Crate, edits: list[Edit], kind: str, results: Results) -> Count:
    """Tries edits of one crate, and writes a line for the crate and one for each that did not come to what it should."""
    count = Count()
    for tried in try_all(libraries, crate, edits, kind, results):
        if tried.outcome == WANTED[kind]:
            count.passed += 1
            count.kept += tried.is_kept
        else:
            count.failed += 1
            print(tell(tried, kind), flush=True)
    what = {"new": "wrong bodies refused", "control": "controls proved"}[kind]
    kept = f", {count.kept} of them in an earlier run" if count.kept else ""
    print(f"{crate.name}: {count.passed} {what}{kept}", flush=True)
    return count


def run(
    top: str, crates: list[str], kind: str, choose: Callable[[Crate, Iterable[Edit]], list[Edit]], proved: str | None = None
) -> tuple[int, int]:
    """Tries the chosen edits of these crates, several crates at a time. Returns how many came to what they should, and how many
    did not. In the folder `proved`, if one is told, `rt ci` has just proved all crates."""
    found = [(crate, choose(crate, edits_of(top, crate.name))) for crate in (Crate(top, name) for name in crates)]
    found = sorted(((crate, edits) for crate, edits in found if edits), key=lambda it: -len(it[0].functions))
    without = [edit for _, edits in found for edit in edits if not edit.has_control]
    for edit in without:
        print(f"{edit}: HAS NO CONTROL", flush=True)
    with tempfile.TemporaryDirectory() as room, ThreadPoolExecutor(at_once()) as pool:
        libraries = Libraries(top, proved or room)
        try:
            if proved is None:
                libraries.prove_below([crate.name for crate, _ in found])
        except NoCheck as why:
            print(f"check: {why}", file=sys.stderr)
            return 0, 1
        results = Results()
        tries = [(crate, [it for it in edits if kind == "new" or it.has_control]) for crate, edits in found]
        counts = list(pool.map(lambda it: run_crate(libraries, it[0], it[1], kind, results), tries))
    return sum(it.passed for it in counts), sum(it.failed for it in counts) + len(without)


def crates_of(top: str) -> list[str]:
    """The crates, lowest first, without that of the tests."""
    return [name for name in graph_of(top) if not name.endswith("_tests")]

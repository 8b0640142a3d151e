"""Power cuts after every system call of the built program. The calls of a run are recorded; after each call, files are laid out
as a power cut at that moment may leave them, and the program opens those files."""

import os
import shutil
import tempfile
from collections.abc import Callable, Iterable, Sequence
from dataclasses import dataclass
from random import Random

from support.programs import NOT_A_DESK, WELL, End, done, ended, expect, new_desk, note
from support.recorded import SYNCS, Call, Disk, record, traced
from support.tables import rows_of, sqlite3

# how many cuts are tried where some syncs are left out
BLIND_CUTS = 200
# in one of so many cuts, the opening that follows is recorded too, and cut in its turn
OPENINGS = 8
NAME = "desk.db"
# why no power cuts are tried
NO_CUTS = "no strace that may trace, or no other SQLite, is here"
# a call that stands among those by which the desk is made
MADE = Call("made", "", "", "", b"", 0)

Found = list[str] | End


def rows_after_each(program: str, folder: str, lines: Iterable[str]) -> list[Found]:
    """The rows of a new desk, and those after each of the lines, each in a session of its own."""
    path = new_desk(program, folder, "undisturbed.db")
    rows: list[Found] = [rows_of(path)]
    for line in lines:
        done(program, ["run", path], line + "\n")
        rows.append(rows_of(path))
    return rows


def calls_of(program: str, words: list[str], text: str = "") -> list[Call]:
    """The calls of a run that does what it is asked for."""
    status, calls = record(program, words, text)
    expect(status == 0, f"{words}: status {status}")
    return calls


def without_some_syncs(calls: Sequence[Call]) -> list[Call]:
    """The same calls, with every other sync left out."""
    left_out = [call for call in calls if call.name in SYNCS][::2]
    return [call for call in calls if call not in left_out]


def may_be_kept(ends: Sequence[int], told: int) -> list[int]:
    """How many requests may be kept, where `told` of them were answered and the batches end at `ends`: a batch is kept before its
    first request is answered, and the next batch only after the last one is."""
    behind = [end for end in ends if end > told][:1]
    return [told, *behind] if told in ends else behind


def lines_in(written: bytes) -> int:
    return written.count(b"\n")


@dataclass
class Recorded:
    """Calls that were recorded, with their folder and its files before the first call; and what may be found, by how many replies
    were written whole (None: the desk is not made yet). The replies are counted in all that the calls wrote: by lines, or by
    something else. Where the desk is made by the first calls: the rows of the new desk."""

    folder: str
    files: dict[str, bytes]
    calls: list[Call]
    may: Callable[[int | None], list[Found]]
    told: Callable[[bytes], int] = lines_in
    new: Found | None = None


class Cuts:
    """Cuts that are tried, and what was found after them."""

    def __init__(self, program: str, folder: str, recorded: Recorded, chance: Random):
        self.program, self.folder, self.recorded, self.chance = program, folder, recorded, chance
        self.tried = self.openings = self.lost = 0

    def laid(self, files: dict[str, bytes]) -> str:
        """The path of the desk's file among these files, in a new folder."""
        folder = tempfile.mkdtemp(dir=self.folder)
        for name, data in files.items():
            with open(os.path.join(folder, name), "wb") as file:
                file.write(data)
        return os.path.join(folder, NAME)

    def opened(self, files: dict[str, bytes]) -> Found:
        """The rows of the desk that the program opens on these files, or how it ends where it opens none."""
        path = self.laid(files)
        end = ended(self.program, ["run", path])
        found: Found = rows_of(path) if end == (0, b"", b"") else end
        shutil.rmtree(os.path.dirname(path))
        return found

    def left_by_an_opening(self, files: dict[str, bytes]) -> dict[str, bytes]:
        """What a power cut leaves that comes while the program opens these files."""
        path = self.laid(files)
        _status, calls = record(self.program, ["run", path], "")
        disk = Disk(os.path.dirname(path), files)
        for call in calls[: self.chance.randint(0, len(calls))]:
            disk.carry_out(call)
        shutil.rmtree(os.path.dirname(path))
        self.openings += 1
        return disk.left(self.chance)

    def is_made_at_last(self, files: dict[str, bytes]) -> bool:
        """Whether the next `init` makes the desk on what a cut left of the first one, or finds it made; also where the desk was
        asked for before."""
        path = self.laid(files)
        if self.chance.randrange(2) == 0:
            ended(self.program, ["run", path])
        ends = ended(self.program, ["init", path]), ended(self.program, ["run", path])
        is_made = ends in [(WELL, WELL), (NOT_A_DESK, WELL)] and rows_of(path) == self.recorded.new
        shutil.rmtree(os.path.dirname(path))
        return is_made

    def cut(self, disk: Disk, replies: int | None) -> None:
        """Cuts the power, and opens what is left. Where the desk was not made yet, the next `init` goes on with that."""
        files = disk.left(self.chance)
        if self.chance.randrange(OPENINGS) == 0:
            files = self.left_by_an_opening(files)
        self.tried += 1
        is_found = self.opened(files) in self.recorded.may(replies)
        if replies is None and self.recorded.new is not None:
            is_found = is_found and self.is_made_at_last(files)
        self.lost += not is_found

    def after_each(self, disk: Disk, calls: Sequence[Call], count: int) -> None:
        """Cuts the power `count` times in all, about equally often after each of the calls, which the disk carries out."""
        written, made = b"", MADE not in calls
        for number, call in enumerate(calls):
            if call is MADE:
                made = True
            else:
                written += disk.carry_out(call)
            for _ in range(count * (number + 1) // len(calls) - count * number // len(calls)):
                self.cut(disk, self.recorded.told(written) if made else None)


def try_cuts(program: str, folder: str, recorded: Recorded, seed: int, count: int, blind_count: int = BLIND_CUTS) -> None:
    cuts, blind = (Cuts(program, folder, recorded, Random(seed)) for _ in range(2))
    cuts.after_each(Disk(recorded.folder, recorded.files), recorded.calls, count)
    expect(cuts.lost == 0, f"seed {seed}: {cuts.lost} of {cuts.tried} cuts lost something")
    blind.after_each(Disk(recorded.folder, recorded.files), without_some_syncs(recorded.calls), blind_count)
    expect(blind.lost > 0, f"seed {seed}: no sync is missed")
    note(f"seed {seed}: {cuts.tried} cuts after {len(recorded.calls)} calls, {cuts.openings} of them in an opening, too")
    note(f"with every other sync left out {blind.lost} of {blind.tried} lose something")


def may_be_cut() -> bool:
    """Whether calls can be recorded here and rows can be read."""
    return sqlite3 is not None and traced()

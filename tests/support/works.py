"""Works on a desk, which write a line for each thing that they do; and what such a work may leave where a call fails within
it."""

import contextlib
import hashlib
import os
import shutil
from dataclasses import dataclass, field

from support.failing import Failing, Failure
from support.power_cuts import Found, rows_after_each
from support.programs import STORE, WELL, End, bytes_of, done, ended, expect, new_desk
from support.tables import rows_of

# lines with each kind of command, each with what is answered
EACH_KIND = [
    ("M1 field N1 A-1 0 100 40", "M1 done 1"),
    ("M2 field N2 A-1 0 50 5", "M2 done 2"),
    ("M3 deliver N1 A-1 10", "M3 done 3"),
    ("M4 writeoff N1 A-1 2", "M4 done 4"),
    ("M5 rebound N1 A-1 10 90", "M5 done 5"),
    ("M6 open 7 120 take N1 A-1 20 add N2 A-1 3", "M6 done 6"),
    ("M7 more 7 take N1 A-1 5", "M7 done 7"),
    ("M8 use 7 N1 A-1 4", "M8 done 8"),
    ("M9 release 7 N1 A-1 6", "M9 done 9"),
    ("M10 transfer 20 900 A-1 N1 N2 10", "M10 done 10"),
    ("M11 firm 20", "M11 done 11"),
    ("? order 7", "? order 7 plain 120 open take N1 A-1 19 4 add N2 A-1 3 0"),
    ("M12 use 20 N2 A-1 4", "M12 done 12"),
    # 40 + 10 - 2, less the 4 that the firm transfer has used; its other 6, and the 19 of order 7, may still be taken
    ("? field N1 A-1", "? field N1 A-1 lo 10 hi 90 value 44 inf 19 sup 44"),
    ("M13 commit 7", "M13 done 13"),
    # the value is 40, from which the 6 of the transfer may still be taken
    ("M14 open 8 500 take N1 A-1 25", "M14 refused 13 TooLittle 1"),
    ("M15 open 9 500 take N1 A-1 1", "M15 done 14"),
    ("M16 abort 9", "M16 done 15"),
    ("M17 open 10 500 take N1 A-1 1", "M17 done 16"),
    ("M18 expire 500", "M18 done 17"),
    ("M3 deliver N1 A-1 10", "M3 done 3"),
    ("M3 deliver N1 A-1 11", "M3 refused 1 KeyReused 0"),
    ("M19  commit 20", "- refused 20 BadCommand 0"),
    ("? order 8", "? none"),
    ("? order 20", "? order 20 transfer 900 firm take N1 A-1 10 4 add N2 A-1 10 4"),
    ("? field N2 A-1", "? field N2 A-1 lo 0 hi 50 value 9 inf 9 sup 15"),
]

OPEN_AND_FIRM = [line for line, _ in EACH_KIND]


@dataclass
class Work:
    """What the program is called with, where `desk` stands for the path of a desk and `requests` for that of a file of requests;
    what that file, or else the input, has in it; and the lines that the program writes, `size` of them at a time."""

    words: list[str]
    text: str
    replies: list[str]
    # the same as a script, which has one line for each line that is written
    script: list[str] = field(default_factory=list)
    size: int = 1
    # the lines by which the desk was made
    before: list[str] = field(default_factory=list)

    @property
    def is_script(self) -> bool:
        return self.words[0] == "run"

    def __str__(self) -> str:
        return " ".join(self.words)


def script_of(rows: list[tuple[str, str]], before: list[str]) -> Work:
    lines = [line for line, _ in rows]
    return Work(["run", "desk"], "".join(line + "\n" for line in lines), [reply for _, reply in rows], lines, 1, before)


def requests_of(kind: str, text: str, rows: list[tuple[str, str]], size: int) -> Work:
    words = [kind, "desk", "requests", *(["--together", str(size)] if size > 1 else [])]
    return Work(words, text, [reply for _, reply in rows], [line for line, _ in rows], size, OPEN_AND_FIRM)


ORDERS = """key,order,until,way,branch,article,qty
G1,50,900,take,N1,A-1,5
G1,50,900,add,N2,A-1,1
G2,51,900,take,N9,A-1,5
G3,52,900,take,N1,A-1,7
"""
DELIVERIES = "key,branch,article,qty\nG1,N1,A-1,5\nG2,N9,A-1,1\nG3,N1,A-1,6\n"
BOUNDS = "key,branch,article,lo,hi\nG1,N1,A-1,0,95\nG2,N9,A-1,0,1\nG3,N1,A-1,1,96\n"

# for files of requests: the answers to a script that asks for the same
FILES = {
    ("orders", ORDERS): [
        ("G1 open 50 900 take N1 A-1 5 add N2 A-1 1", "G1 done 18"),
        ("G2 open 51 900 take N9 A-1 5", "G2 refused 4 NoField 1"),
        ("G3 open 52 900 take N1 A-1 7", "G3 done 19"),
    ],
    ("deliveries", DELIVERIES): [
        ("G1 deliver N1 A-1 5", "G1 done 18"),
        ("G2 deliver N9 A-1 1", "G2 refused 4 NoField 0"),
        ("G3 deliver N1 A-1 6", "G3 done 19"),
    ],
    ("bounds", BOUNDS): [
        ("G1 rebound N1 A-1 0 95", "G1 done 18"),
        ("G2 rebound N9 A-1 0 1", "G2 refused 4 NoField 0"),
        ("G3 rebound N1 A-1 1 96", "G3 done 19"),
    ],
}

# the value 40, from which 6 may be taken, and 9, to which 6 may be added
SHEETS = [
    Work(
        ["sheet", "desk", "N1"],
        "",
        ["A-1                      10         90         40         34         40", "total                        40"],
        before=OPEN_AND_FIRM,
    ),
    Work(
        ["article", "desk", "A-1"],
        "",
        [
            "N1                       10         90         40         34         40",
            "N2                        0         50          9          9         15",
            "total                        49",
        ],
        before=OPEN_AND_FIRM,
    ),
]

SCRIPT = script_of(EACH_KIND, [])
REQUESTS = [requests_of(kind, text, rows, size) for (kind, text), rows in FILES.items() for size in (1, 2)]
WORKS = [*SHEETS, SCRIPT, *REQUESTS]


def remove_desk(path: str) -> None:
    """Removes a desk with its log, where it is there."""
    for end in ("", "-wal"):
        with contextlib.suppress(FileNotFoundError):
            os.remove(path + end)


def copy_desk(path: str, other: str) -> None:
    """Copies a desk, with its log if it has one, in place of another."""
    remove_desk(other)
    for end in ("", "-wal"):
        if os.path.exists(path + end):
            shutil.copyfile(path + end, other + end)


def files_at(path: str) -> bytes:
    """A text that stands for the bytes of a desk and its log."""
    found = hashlib.sha256()
    for end in ("", "-wal"):
        if os.path.exists(path + end):
            found.update(b"%d " % os.path.getsize(path + end) + bytes_of(path + end))
    return found.digest()


class OnCopies:
    """A work, done on copies of one desk. The rows after each of its lines have to be those that an undisturbed script leaves,
    each of whose lines is a session of its own."""

    def __init__(self, failing: Failing, folder: str, work: Work):
        self.failing, self.program, self.work = failing, failing.program, work
        os.mkdir(folder)
        self.desk, self.requests = new_desk(self.program, folder, "new.db"), os.path.join(folder, "requests.csv")
        done(self.program, ["run", self.desk], "".join(line + "\n" for line in work.before))
        self.rows = rows_after_each(self.program, folder, [*work.before, *work.script])[len(work.before) :]
        with open(self.requests, "w", encoding="ascii") as file:
            file.write("" if work.is_script else work.text)
        self.input = work.text if work.is_script else ""
        self.whole = "".join(reply + "\n" for reply in work.replies)
        # files that were looked at already, each with how much was answered, the fault and the kind of call
        self.seen: set[tuple[bytes, int, End, str]] = set()

    def copied(self, lane: str, words: list[str]) -> tuple[str, list[str]]:
        """The path of a copy, and the words in which paths stand for their names."""
        path = os.path.join(lane, "desk.db")
        copy_desk(self.desk, path)
        stands_for = {"desk": path, "requests": self.requests}
        return path, [stands_for.get(word, word) for word in words]

    def expect_done_again(self, path: str, words: list[str], told: int) -> None:
        """The work goes on after the `told` lines that were written, or is done again; then all is written and kept."""
        lines = self.work.replies[told:] if self.work.is_script else self.work.replies
        rest = "".join(line + "\n" for line in self.work.script[told:]) if self.work.is_script else ""
        found = done(self.program, words, rest)
        expect(found == lines, f"{told} told: then {found} and not {lines}")
        expect(rows_of(path) == self.rows[-1], f"{told} told: other rows at last")

    def left_by(self, told: int, fault: End, kind: str) -> list[Found]:
        """The rows that the file may have where `told` lines were written whole and then a call of this kind failed: a write
        fails after what it says is kept, the store fails on the way there."""
        last, list_end = len(self.rows) - 1, (told // self.work.size + 1) * self.work.size
        after, more = self.rows[min(told, last)], self.rows[min(list_end, last)]
        return [more] if kind == "write" else [after, more] if fault == STORE else [after]

    def expect_left(self, path: str, words: list[str], told: int, fault: End, kind: str) -> None:
        """The next run opens the desk and finds all that was answered. Nothing is looked at where exactly the same was left
        before."""
        seen = files_at(path), told, fault, kind
        if seen in self.seen:
            return
        end = ended(self.program, ["run", path])
        expect(end == WELL, f"it opens so: {end}")
        expect(rows_of(path) in self.left_by(told, fault, kind), f"other rows behind {told} lines")
        self.expect_done_again(path, words, told)
        self.seen.add(seen)

    def expect_cut(self, failure: Failure, lane: str, faults: list[End]) -> int | None:
        """Where the call fails, the run ends with one of these faults after a beginning of the answer, and all that was answered
        is kept. Returns how many lines that is; None where the call does not come, or where the run can do without it and ends
        well."""
        path, words = self.copied(lane, self.work.words)
        (status, out, errors), came = self.failing.ended(words, self.input, failure, lane)
        of = f"{self.work}, {failure}: {status}, {out!r}, {errors!r}"
        told, fault = out.count(b"\n"), (status, b"", errors)
        is_cut = came and fault != WELL
        expect(fault == WELL or is_cut and fault in faults, of)
        expect(self.whole.startswith(out.decode()) and (is_cut or out.decode() == self.whole), of)
        try:
            self.expect_left(path, words, told, fault, failure.kind)
        except AssertionError as found:
            raise AssertionError(f"{of}: {found}") from found
        return told if is_cut else None

    def count(self, kind: str, words: list[str], text: str) -> int:
        """How many calls of a kind there are in a run on a copy of the desk where none fails."""
        with self.failing.lane() as lane:
            return self.failing.count(kind, self.copied(lane, words)[1], text, lane)

    def expect_cuts(self, failures: list[Failure], faults: list[End]) -> list[int]:
        """How many lines were written in each run that was cut."""
        told = self.failing.attempt(failures, lambda failure, lane: self.expect_cut(failure, lane, faults))
        cut = [lines for lines in told if lines is not None]
        expect(cut, f"{self.work}: none is cut")
        return cut

    def expect_each_cut(self, kind: str, faults: list[End], error: int) -> list[int]:
        """The same for each call of a kind. The run can do without none of them."""
        count = self.count(kind, self.work.words, self.input)
        told = self.expect_cuts([Failure(kind, number, error=error) for number in range(1, count + 2)], faults)
        expect(len(told) == count, f"{self.work}, {kind}, error {error}: {len(told)} of {count} are cut")
        return told

    def expect_cut_alike(self, kind: str, faults: list[End], error: int) -> None:
        """The same lines are written where a call of the kind fails alone as where all that follow fail too, whichever call it
        is."""
        numbers = range(1, self.count(kind, self.work.words, self.input) + 1)
        alone, for_good = (
            self.expect_cuts([Failure(kind, number, is_for_good, error) for number in numbers], faults)
            for is_for_good in (False, True)
        )
        expect(alone == for_good, f"{self.work}, {kind}: {alone} lines are told, and {for_good} where all behind fail, too")

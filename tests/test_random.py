"""Tests of the built program by random cases: scripts, sessions and files of requests are answered by the rules. Where cases
fail, the smallest script that was found is shown; `support/chance.py` says how to try more cases, and others."""

import contextlib
import os
import re
import shutil
from dataclasses import dataclass
from itertools import zip_longest

from support.cases import ProgramCase, needs_sqlite
from support.chance import Chance, Seen, hypothesis, needs_hypothesis, run_machine, try_cases
from support.desks import Desks, of_desk
from support.forms import ASK, REFUSALS, REPLY, REQUEST
from support.inputs import OPENING, WIDE, Known, fed, names_of, say_lines, script
from support.programs import bytes_of, done, ended, expect, new_desk, note
from support.record_inputs import Records, records
from support.rows import expect_good, faults, rows_by, tables_by
from support.rules import PLACES, Rules
from support.stretches import HEADERS
from support.tables import rows_of

if hypothesis:
    from support.sessions import DeskInAFile

SCRIPTS, SESSIONS, FILES, NEARLY_FULL = 300, 25, 60, 6
# how many places are left on a desk that is nearly full
LEFT = 8
STEPS = 12
RECORD = re.compile(rb"stockdesk: record (?:0|[1-9][0-9]*)\n")

# what is counted in the scripts, so that none of it is missing
SHAPES = ["orders of 64 lines", "lines of odd bytes", "lines said again", "takes and adds just to a bound", "hot fields"]
SHAPES += ["lines beyond 4,096 bytes", "asks", "firm orders that have used all", "expiries that end orders"]


@dataclass
class Script:
    """Lines, the end of the last one, and whether they come to a file."""

    lines: list[bytes]
    end: bytes
    is_on_file: bool

    def text(self) -> bytes:
        return b"\n".join(self.lines) + (self.end if self.lines else b"")

    def __str__(self) -> str:
        return fed(self.text())


def script_case(chance: Chance) -> Script:
    return Script(script(chance, average=80, most=120), chance.one_of([b"\n"] * 4 + [b""]), chance.share(40))


def split(text: bytes) -> list[bytes]:
    """The lines of a script, as the program answers them: where no newline ends the last bytes, an empty line stands for them."""
    *lines, rest = text.split(b"\n")
    return [*lines, b""] if rest else lines


class Watched:
    """A desk by the rules, and which rare shapes come to it."""

    def __init__(self, seen: Seen):
        self.seen, self.desk = seen, Rules()
        self.said: set[bytes] = set()
        self.on: dict[str, int] = {}

    def take(self, text: bytes) -> str:
        before = len(self.desk.open)
        reply = self.desk.take(text)
        self.count_bytes(text)
        if REQUEST.fullmatch(text):
            self.count_request(text.decode().split(" "), reply.split(" "), before)
        self.said.add(text)
        return reply

    def count_bytes(self, text: bytes) -> None:
        self.seen.add("asks", bool(ASK.fullmatch(text)))
        self.seen.add("lines of odd bytes", not re.fullmatch(rb"[ -~]*", text))
        self.seen.add("lines beyond 4,096 bytes", len(text) > 4_096)
        self.seen.add("lines said again", bool(text) and text in self.said)

    def count_request(self, words: list[str], reply: list[str], before: int) -> None:
        verb = words[1]
        if reply[1] == "refused":
            self.seen.add(reply[3])
            return
        self.seen.add("orders of 64 lines", verb == "open" and len(words) == 4 + 4 * 64)
        self.seen.add("expiries that end orders", verb == "expire" and len(self.desk.open) < before)
        if verb in ("deliver", "writeoff"):
            bounds, (_, inf, sup) = self.desk.fields[words[2], words[3]], self.desk.numbers((words[2], words[3]))
            self.seen.add("takes and adds just to a bound", bounds.lo == inf or bounds.hi == sup)
            name = " ".join(words[2:4])
            self.on[name] = self.on.get(name, 0) + 1
            self.seen.add("hot fields", self.on[name] == 5)
        if verb == "firm":
            order = self.desk.orders[int(words[2])]
            self.seen.add("firm orders that have used all", all(line.held == line.used for line in order.lines))


def expect_lines(found: list[str], want: list[str]) -> None:
    odd = [
        f"reply {number}: {it} and not {should}"
        for number, (it, should) in enumerate(zip_longest(found, want), 1)
        if it != should
    ]
    expect(not odd, "".join(odd[:1]))


class RandomCase(ProgramCase):
    """Tests whose cases come to copies of an empty desk."""

    def setUp(self) -> None:
        super().setUp()
        self.empty = new_desk(self.program, self.folder, "empty.db")

    def copy(self, name: str = "desk.db") -> str:
        path = os.path.join(self.folder, name)
        with contextlib.suppress(FileNotFoundError):
            os.remove(f"{path}-wal")
        return shutil.copyfile(self.empty, path)


@needs_hypothesis
@needs_sqlite
class Scripts(RandomCase):
    def test_scripts_are_answered_by_the_rules(self):
        """The script leaves the rows that the rules have, and nothing is wrong with these."""
        self.seen = Seen(*SHAPES, *(name for name in REFUSALS if name not in ("-", "Full", "BadCommand")))
        try_cases(script_case, SCRIPTS, self.expect_answered, str)
        self.seen.expect_all()
        note(str(self.seen))

    def expect_answered(self, case: Script) -> None:
        path, desk = self.copy(), Watched(self.seen)
        found = done(self.program, ["run", path] if case.is_on_file else ["run"], case.text())
        expect_lines(found, [desk.take(each) for each in split(case.text())])
        expect(faults(tables_by(desk.desk)) == [], "the rules lead to rows of no desk")
        expect(not case.is_on_file or rows_of(path) == rows_by(desk.desk), "other rows")

    def test_scripts_on_a_nearly_full_desk_are_answered_by_the_rules(self):
        """Few places are left, and some of these are soon set aside."""
        desks, self.seen = Desks(self.program, self.folder), Seen("Full", "done on a full desk")
        desks.put(of_desk(PLACES - LEFT))
        self.taken, self.full = {f"K{n:06}": (n, "expire 0") for n in range(1, PLACES - LEFT + 1)}, desks.path
        try_cases(self.on_a_nearly_full_desk, NEARLY_FULL, self.expect_full, lambda lines: fed(b"\n".join([*lines, b""])))
        self.seen.expect_all()
        note(str(self.seen))

    def on_a_nearly_full_desk(self, chance: Chance) -> list[bytes]:
        """A script that opens an order before the last places are taken, and ends it at its end."""
        known = Known(chance.one_of([names_of(1, 1), names_of(2, 1)]), OPENING)
        known.desk.kept = dict(self.taken)
        for name in known.names:
            known.say(known.key() + f" field {' '.join(name)} {WIDE}".encode())
        field = " ".join(known.names[0])
        moves = [f"deliver {field} 1"] * chance.whole(LEFT - 4, LEFT)
        for command in [f"open 1 4000000000 take {field} 1", *moves]:
            known.say(known.key() + f" {command}".encode())
        say_lines(chance, known, average=30, most=60)
        known.say(known.key() + b" commit 1")
        return known.lines

    def expect_full(self, case: list[bytes]) -> None:
        path, desk = shutil.copyfile(self.full, os.path.join(self.folder, "full.db")), Rules()
        desk.kept, text = dict(self.taken), b"\n".join([*case, b""])
        found, want = done(self.program, ["run", path], text), [desk.take(each) for each in split(text)]
        expect_lines(found, want)
        expect(rows_of(path) == rows_by(desk), "other rows")
        full = [place for place, reply in enumerate(want) if " Full " in reply]
        self.seen.add("Full", len(full))
        self.seen.add("done on a full desk", sum(" done " in reply for reply in want[min(full, default=len(want)) :]))

    def test_what_is_done_to_a_desk_in_a_file_is_what_the_rules_say(self):
        """Sessions that end or are killed, files of requests in batches, and sheets, one after the other."""
        seen = Seen("lines", "sheets", "kills", *(f"requests of {kind}" for kind in HEADERS))
        run_machine(lambda: DeskInAFile(self.program, self.folder, self.empty, seen), SESSIONS, STEPS)
        seen.expect_all()
        note(str(seen))


@needs_hypothesis
@needs_sqlite
class Files(RandomCase):
    def test_files_of_requests_are_answered_by_the_rules(self):
        """Each file comes twice, one by one or in batches: what is done is done once. A file whose bytes are changed gets replies
        in their form."""
        self.seen = Seen(*HEADERS, "bad files", "requests")
        try_cases(records, FILES, self.expect_answered, str)
        self.seen.expect_all()
        note(str(self.seen))

    def expect_answered(self, case: Records) -> None:
        path, requests = self.copy(), os.path.join(self.folder, "requests.csv")
        desk, before = Rules(), b"\n".join([*case.before, b""])
        expect_lines(done(self.program, ["run", path], before), [desk.take(each) for each in case.before])
        with open(requests, "wb") as out:
            out.write(case.text)
        was = bytes_of(path)
        first, again = (ended(self.program, [case.kind, path, requests, *option]) for option in case.options())
        self.seen.add(case.kind)
        if first[0] == 4:
            self.seen.add("bad files")
            expect(case.said is None and first == again and first[1] == b"", f"{first}, {again}")
            expect(RECORD.fullmatch(first[2]) and bytes_of(path) == was, f"{first[2]!r}, or the desk was changed")
            return
        expect(first[::2] == again[::2] == (0, b""), f"{first}, {again}")
        found, more = (end[1].decode("latin-1").splitlines() for end in (first, again))
        self.seen.add("requests", len(found))
        if case.said is None:
            self.seen.add("changed files that are read")
            expect_in_form(found, more)
        else:
            expect_lines(found, [desk.take(each) for each in case.said])
            expect_lines(more, [desk.take(each) for each in case.said])
            expect(rows_of(path) == rows_by(desk), "other rows")
        expect_good(path, "the desk")


def expect_in_form(found: list[str], more: list[str]) -> None:
    """These lines are replies, and what is done is done once."""
    expect(all(REPLY.fullmatch(reply.encode("latin-1")) for reply in found + more), f"{found}, {more}")
    pairs = zip(found, more, strict=True)
    expect(all(reply == other for reply, other in pairs if " done " in reply), f"{found} and then {more}")

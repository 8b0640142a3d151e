"""Tests of files that a program of version 1 wrote: what each command answers to them, what they are once they are upgraded, and
what makes them files that are not."""

import contextlib
import os
import random
import subprocess
import time

from support.cases import ProgramCase, needs_strict_tables
from support.older import OLDER, older, upgraded
from support.programs import (
    NOT_A_DESK,
    NO_DESK,
    OLD_VERSION,
    STORE,
    bytes_of,
    done,
    ended,
    expect,
    expect_end,
    lines_of,
    new_desk,
    note,
)
from support.tables import rows_of, sqlite3

ROUNDS = 50

# what makes a file no desk of version 1, and how its upgrade ends
CHANGES = [
    ("DROP TABLE kept", NOT_A_DESK),
    ("DELETE FROM desk", NOT_A_DESK),
    ("UPDATE desk SET version = 2", NOT_A_DESK),
    ("UPDATE desk SET version = 0", NOT_A_DESK),
    ("INSERT INTO desk VALUES (2, 1, 0, 0)", NOT_A_DESK),
    ("CREATE TABLE firm (number INTEGER NOT NULL PRIMARY KEY) STRICT", NOT_A_DESK),
    # a table beside those of a version
    ("CREATE TABLE note (n INTEGER) STRICT", STORE),
]


class Upgrades(ProgramCase):
    def test_an_old_version_is_told_and_left_alone(self):
        """Every command says that the version is old, but `init`, to which the file is like any other."""
        records = os.path.join(self.folder, "records.csv")
        for name in OLDER:
            path = older(self.folder, name)
            found = bytes_of(path)
            serve = ["serve", path, "--port", "0", "--connections", "1"]
            for words in [["run", path], ["sheet", path, "N1"], ["article", path, "A-1"], serve]:
                expect_end(self.program, words, OLD_VERSION)
            for command in ["orders", "deliveries", "bounds"]:
                expect_end(self.program, [command, path, records], OLD_VERSION)
            expect_end(self.program, ["init", path], NOT_A_DESK)
            expect(bytes_of(path) == found, f"{name} was changed")

    def test_an_upgraded_file_goes_on(self):
        """An upgraded file has all rows, repeats its answers and answers the rest of its script; upgraded again, it stays as it
        is."""
        for name in OLDER:
            path = upgraded(self.program, older(self.folder, name))
            found = bytes_of(path)
            upgraded(self.program, path)
            expect(bytes_of(path) == found, f"{name}: changed by a second upgrade")
            again = [
                line for line in zip(lines_of(f"{name}.script"), lines_of(f"{name}.replies"), strict=True) if " done " in line[1]
            ]
            replies = done(self.program, ["run", path], "".join(line + "\n" for line, _ in again))
            expect(replies == [reply for _, reply in again], f"{name}: another reply to a repeated line")
            rest = "\n".join(lines_of(f"{name}.rest.script")) + "\n"
            expect(done(self.program, ["run", path], rest) == lines_of(f"{name}.rest.replies"), f"{name}: another reply")
            if sqlite3 is not None:
                rows = [row.replace("desk|1|1|", "desk|1|2|", 1) for row in lines_of(f"{name}.rows")]
                expect(rows_of(path) == rows, f"{name}: other rows")

    def test_only_a_desk_is_upgraded(self):
        path = os.path.join(self.folder, "other.db")
        expect_end(self.program, ["upgrade", path], NOT_A_DESK)
        expect(not os.path.exists(path), "an upgrade made a file")
        expect_end(self.program, ["upgrade", self.folder], STORE)
        for text, end in NO_DESK:
            with open(path, "wb") as file:
                file.write(text)
            expect_end(self.program, ["upgrade", path], end)
            expect(bytes_of(path) == text, f"{text} was changed")
        new = new_desk(self.program, self.folder)
        found = bytes_of(new)
        upgraded(self.program, new)
        expect(bytes_of(new) == found, "a new desk was changed")

    @needs_strict_tables
    def test_only_the_two_versions_are_upgraded(self):
        """A file that is of neither stays as it was."""
        for change, end in CHANGES:
            path = older(self.folder, "transfer")
            with contextlib.closing(sqlite3.connect(path)) as database, database:
                database.execute(change)
            found = bytes_of(path)
            try:
                expect_end(self.program, ["upgrade", path], end)
            except AssertionError as fault:
                raise AssertionError(f"{change}: {fault}") from fault
            expect(bytes_of(path) == found, f"{change}: the file was changed")

    def test_a_killed_upgrade_leaves_either_version(self):
        """What is left is all of version 1, which can then be upgraded, or all of version 2."""
        generator = random.Random(1986)
        began = time.monotonic()
        upgraded(self.program, older(self.folder, "many"))
        took = time.monotonic() - began
        old, new = 0, 0
        for _ in range(ROUNDS):
            path = older(self.folder, "many")
            process = subprocess.Popen([self.program, "upgrade", path])
            time.sleep(generator.uniform(0, 1.2 * took))
            process.kill()
            process.wait()
            end = ended(self.program, ["run", path], "")
            expect(end in [(0, b"", b""), OLD_VERSION], f"{end}")
            old, new = old + (end == OLD_VERSION), new + (end != OLD_VERSION)
            upgraded(self.program, path)
            rest = "\n".join(lines_of("many.rest.script")) + "\n"
            expect(done(self.program, ["run", path], rest) == lines_of("many.rest.replies"), "another reply")
        expect(old > 0, "none was killed in time")
        note(f"{ROUNDS} upgrades killed: {old} left version 1, {new} version 2")

    def test_an_older_file_takes_other_bounds(self):
        """A field of each file gets other bounds: its numbers stay, and this run and the next show it with these bounds."""
        for name in OLDER:
            path = upgraded(self.program, older(self.folder, name))
            sheet = done(self.program, ["article", path, "A-1"])[0].split()
            branch, lo, hi, value, inf, sup = sheet
            ask = f"? field {branch} A-1"
            shown = f"{ask} lo {inf} hi {sup} value {value} inf {inf} sup {sup}"
            first, *found = done(self.program, ["run", path], f"Z1 rebound {branch} A-1 {inf} {sup}\n{ask}\n")
            expect(first.startswith("Z1 done ") and found == [shown], f"{name}: {first}, {found}")
            expect(done(self.program, ["run", path], f"{ask}\n") == [shown], f"{name}: other bounds behind it")
            tighter = done(self.program, ["run", path], f"Z2 rebound {branch} A-1 {int(inf) + 1} {hi}\n{ask}\n")
            expect(tighter == ["Z2 refused 13 TooLittle 0", shown], f"{name}: {tighter}")

    def test_an_upgraded_file_has_firm_orders(self):
        for name in OLDER:
            path = upgraded(self.program, older(self.folder, name))
            script = "Y1 field Y9 Y-1 0 9 9\nY2 open 4000 4000000000 take Y9 Y-1 3\nY3 firm 4000\nY4 abort 4000\n"
            ends = [line.split(" ", 1)[1] for line in done(self.program, ["run", path], script)]
            places = [int(end.split()[1]) for end in ends[:3]]
            expect(
                ends == [f"done {place}" for place in range(places[0], places[0] + 3)] + ["refused 19 Firm 0"], f"{name}: {ends}"
            )
            shown = ["? order 4000 plain 4000000000 firm take Y9 Y-1 3 0"]
            expect(done(self.program, ["run", path], "? order 4000\n") == shown, f"{name}: it is not firm")

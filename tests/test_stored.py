"""Tests of the built program by what another SQLite reads in its file, and writes into it: codes and keys byte for byte, the rows
behind each kind of command, tables and rows that are no desk of this version, rows that are damaged and mended again, and a desk
that is full."""

import contextlib

from support.cases import ProgramCase, needs_strict_tables
from support.programs import DAMAGED, NOT_A_DESK, OLD_VERSION, STORE, bytes_of, done, expect, expect_end, new_desk
from support.tables import KEYS as KEY_COLUMNS
from support.tables import lines_of_rows, rows_of, sqlite3, tables_in

# codes and keys that have every byte of their alphabets, each as long as it may be or shorter
CODES = [
    ("ABCDEFGH", "A-BCDEFGHIJKLMNO"),
    ("IJKLMNOP", "PQRSTUVWXYZ-0123"),
    ("QRSTUVWX", "456789"),
    ("YZ012345", "Z"),
    ("6789", "Z-"),
]
KEYS = ["abcdefghijklmnopqrstuvwxyz-012345678", "9ABCDEFGHIJKLMNOPQRSTUVWXYZ", "K10", "K1", "K"]

# what makes a desk none, or one of the version before, and how a run on it ends
NO_DESK = [
    (["DROP TABLE kept"], NOT_A_DESK),
    (["DROP TABLE desk"], NOT_A_DESK),
    (["DELETE FROM desk"], NOT_A_DESK),
    (["UPDATE desk SET version = 0"], NOT_A_DESK),
    (["UPDATE desk SET version = 3"], NOT_A_DESK),
    (["INSERT INTO desk (one, version, clock, places) VALUES (2, 2, 0, 0)"], NOT_A_DESK),
    (["CREATE TABLE eighth (n INTEGER) STRICT"], STORE),
    (["UPDATE desk SET one = 3"], DAMAGED),
    # each version has its number and its tables; version 1 has all tables but the last
    (["UPDATE desk SET version = 1", "DROP TABLE firm"], OLD_VERSION),
    (["UPDATE desk SET version = 1", "DROP TABLE firm", "UPDATE desk SET one = 3"], OLD_VERSION),
    (["UPDATE desk SET version = 1", "DROP TABLE firm", "UPDATE field SET inf = 41"], OLD_VERSION),
    (["UPDATE desk SET version = 1"], NOT_A_DESK),
    (["DROP TABLE firm"], NOT_A_DESK),
    (["UPDATE desk SET version = 0", "DROP TABLE firm"], NOT_A_DESK),
    (["UPDATE desk SET version = 1", "DROP TABLE firm", "DELETE FROM desk"], NOT_A_DESK),
    (["UPDATE desk SET version = 1", "DROP TABLE firm", "DROP TABLE kept"], NOT_A_DESK),
    (["UPDATE desk SET version = 1", "DROP TABLE firm", "INSERT INTO desk VALUES (2, 1, 0, 0)"], NOT_A_DESK),
    (["UPDATE desk SET version = 1", "DROP TABLE firm", "INSERT INTO desk VALUES (2, 2, 0, 0)"], NOT_A_DESK),
]

# what damages a desk, and what mends it
DAMAGES = [
    ("UPDATE field SET inf = 41", "UPDATE field SET inf = 40"),
    ("UPDATE field SET value = 41, inf = 41, sup = 41", "UPDATE field SET value = 40, inf = 40, sup = 40"),
    ("UPDATE desk SET places = 2", "UPDATE desk SET places = 1"),
    ("UPDATE kept SET words = '''); DROP TABLE kept; --'", "UPDATE kept SET words = 'field N1 A-1 0 100 40'"),
    ("INSERT INTO orders VALUES (7, 0, 120, 0)", "DELETE FROM orders"),
    ("INSERT INTO firm VALUES (7)", "DELETE FROM firm"),
]

# a command of each kind, and the rows that it makes or changes beside that of the desk and that of its key
CHANGED = [
    ("K1 field N1 A-1 0 100 40", ["field,N1,A-1,0,100,40,40,40,40"]),
    ("K2 field S1 A-1 0 50 10", ["field,S1,A-1,0,50,10,10,10,10"]),
    ("k-3 deliver N1 A-1 5", ["field,N1,A-1,0,100,40,45,45,45", "move,3,N1,A-1,5"]),
    ("K4 writeoff S1 A-1 3", ["field,S1,A-1,0,50,10,7,7,7", "move,4,S1,A-1,-3"]),
    # the start, 40, lies outside the new bounds
    ("K5 rebound N1 A-1 44 90", ["field,N1,A-1,44,90,40,45,45,45"]),
    ("K6 rebound N1 A-1 1 90", ["field,N1,A-1,1,90,40,45,45,45"]),
    (
        "K7 open 7 120 add S1 A-1 4 take N1 A-1 30",
        [
            "field,N1,A-1,1,90,40,45,15,45",
            "field,S1,A-1,0,50,10,7,7,11",
            "orders,7,0,120,0",
            "line,7,1,S1,A-1,1,4,0",
            "line,7,2,N1,A-1,0,30,0",
        ],
    ),
    ("K8 use 7 N1 A-1 12", ["line,7,2,N1,A-1,0,30,12"]),
    ("K9 more 7 take N1 A-1 5", ["field,N1,A-1,1,90,40,45,10,45", "line,7,2,N1,A-1,0,35,12"]),
    ("K10 release 7 N1 A-1 3", ["field,N1,A-1,1,90,40,45,13,45", "line,7,2,N1,A-1,0,32,12"]),
    ("K11 commit 7", ["field,N1,A-1,1,90,40,33,33,33", "field,S1,A-1,0,50,10,7,7,7", "orders,7,0,120,1"]),
    (
        "K12 transfer 8 200 A-1 N1 S1 6",
        [
            "field,N1,A-1,1,90,40,33,27,33",
            "field,S1,A-1,0,50,10,7,7,13",
            "orders,8,1,200,0",
            "line,8,1,N1,A-1,0,6,0",
            "line,8,2,S1,A-1,1,6,0",
        ],
    ),
    ("K13 use 8 S1 A-1 2", ["line,8,1,N1,A-1,0,6,2", "line,8,2,S1,A-1,1,6,2"]),
    # what is used is settled as the order is made firm, and from then on at once
    ("K14 firm 8", ["field,N1,A-1,1,90,40,31,27,31", "field,S1,A-1,0,50,10,9,9,13", "firm,8"]),
    (
        "K15 use 8 N1 A-1 1",
        [
            "field,N1,A-1,1,90,40,30,27,30",
            "field,S1,A-1,0,50,10,10,10,13",
            "line,8,1,N1,A-1,0,6,3",
            "line,8,2,S1,A-1,1,6,3",
        ],
    ),
    ("K16 open 9 50 take N1 A-1 10", ["field,N1,A-1,1,90,40,30,17,30", "orders,9,0,50,0", "line,9,1,N1,A-1,0,10,0"]),
    ("K17 use 9 N1 A-1 4", ["line,9,1,N1,A-1,0,10,4"]),
    ("K18 open 4 60 take N1 A-1 1", ["field,N1,A-1,1,90,40,30,16,30", "orders,4,0,60,0", "line,4,1,N1,A-1,0,1,0"]),
    ("K19 abort 4", ["field,N1,A-1,1,90,40,30,17,30", "orders,4,0,60,2"]),
    ("K20 expire 200", ["field,N1,A-1,1,90,40,30,27,30", "orders,9,0,50,2"]),
]

FIELD = "K1 field N1 A-1 0 100 40\n"


def changed(path, *statements):
    """Carries the statements out on the file."""
    with contextlib.closing(sqlite3.connect(path)) as database, database:
        for statement in statements:
            database.execute(statement)


def with_field(program, folder, name):
    path = new_desk(program, folder, name)
    done(program, ["run", path], FIELD)
    return path


def expect_left_alone(program, path, want, of):
    """A run ends like this, and leaves the file as it was."""
    found = bytes_of(path)
    expect_end(program, ["run", path], want)
    expect(bytes_of(path) == found, f"{of}: the file was changed")


@needs_strict_tables
class Stored(ProgramCase):
    def test_codes_and_keys_are_stored_byte_for_byte(self):
        """Rows are stored in the order of their bytes."""
        path = new_desk(self.program, self.folder)
        script = [f"{key} field {branch} {article} 0 9 5" for key, (branch, article) in zip(KEYS, CODES, strict=True)]
        replies = [f"{key} done {place}" for place, key in enumerate(KEYS, 1)]
        expect(done(self.program, ["run", path], "\n".join(script) + "\n") == replies, "another reply")
        rows = ["desk|1|2|0|5", *(f"field|{branch}|{article}|0|9|5|5|5|5" for branch, article in sorted(CODES))]
        kept = [(key, place, line.split(" ", 1)[1]) for place, (key, line) in enumerate(zip(KEYS, script, strict=True), 1)]
        rows += [f"kept|{key}|{place}|{words}" for key, place, words in sorted(kept)]
        expect(rows_of(path) == rows, f"{rows_of(path)} and not {rows}")

    def test_each_command_makes_or_changes_its_rows(self):
        """What it does not make or change stays as it was."""
        path, rows = new_desk(self.program, self.folder), {}
        for place, (line, changes) in enumerate(CHANGED, 1):
            key, words = line.split(" ", 1)
            clock = 200 if words == "expire 200" else 0
            for row in [f"desk,1,2,{clock},{place}", *changes, f"kept,{key},{place},{words}"]:
                table = row.split(",", 1)[0]
                rows[tuple(row.split(",")[: KEY_COLUMNS[table] + 1])] = row
            expect(done(self.program, ["run", path], f"{line}\n") == [f"{key} done {place}"], f"{line}: another reply")
            want = lines_of_rows(tables_in(rows.values()))
            expect(rows_of(path) == want, f"{line}: {rows_of(path)} and not {want}")

    def test_tables_and_rows_that_are_no_desk_are_left_alone(self):
        for number, (statements, want) in enumerate(NO_DESK):
            path = with_field(self.program, self.folder, f"{number}.db")
            changed(path, *statements)
            try:
                expect_left_alone(self.program, path, want, "a run")
            except AssertionError as fault:
                raise AssertionError(f"{statements}: {fault}") from fault

    def test_a_damaged_desk_is_left_alone_and_goes_on_once_it_is_mended(self):
        path = with_field(self.program, self.folder, "desk.db")
        for damage, mend in DAMAGES:
            changed(path, damage)
            expect_left_alone(self.program, path, DAMAGED, damage)
            changed(path, mend)
            expect(done(self.program, ["run", path], FIELD) == ["K1 done 1"], f"{damage}: not mended")
        expect(done(self.program, ["run", path], "K2 deliver N1 A-1 60\n") == ["K2 done 2"], "it does not go on")

    def test_a_full_desk_still_ends_its_order(self):
        """199,999 places are taken, and the last one is set aside for the end of an open order."""
        path = new_desk(self.program, self.folder)
        with contextlib.closing(sqlite3.connect(path)) as database, database:
            database.execute("UPDATE desk SET places = 199999")
            database.execute("INSERT INTO field VALUES ('N1', 'A-1', 0, 100, 40, 40, 35, 40)")
            database.execute("INSERT INTO orders VALUES (7, 0, 120, 0)")
            database.execute("INSERT INTO line VALUES (7, 1, 'N1', 'A-1', 0, 5, 0)")
            kept = [(f"C{place:06}", place, "expire 0") for place in range(1, 200_000)]
            database.executemany("INSERT INTO kept VALUES (?, ?, ?)", kept)
        script = "K1 deliver N1 A-1 1\nK1 firm 7\nK2 expire 120\nK3 commit 7\nK4 deliver N1 A-1 1\n? field N1 A-1\n"
        full = [f"{key} refused 2 Full 0" for key in ["K1", "K1", "K2", "K4"]]
        replies = [*full[:3], "K3 done 200000", *full[3:]]
        shown = "? field N1 A-1 lo 0 hi 100 value 40 inf 40 sup 40"
        expect(done(self.program, ["run", path], script) == [*replies, shown], "another reply")

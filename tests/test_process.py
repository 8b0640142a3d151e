"""Tests of the built program as a process: what its words and its FILE may be, what its help says, a store and memory that are
refused, scripts played line by line in runs of their own, long scripts, files of requests, replies on a pipe that stays open, the
file as another SQLite reads it, and sessions that are killed."""

import contextlib
import os
import random
import resource
import signal
import threading

from support.cases import ProgramCase, needs_sqlite, needs_strict_tables
from support.programs import (
    NOT_A_DESK,
    NO_DESK,
    STORE,
    WELL,
    Session,
    bytes_of,
    done,
    ended,
    expect,
    expect_end,
    lines_of,
    new_desk,
    note,
    write_bytes,
    write_records,
)
from support.service import NOT_CLIENTS, NOT_PLACES, NOT_TOGETHER
from support.tables import COLUMNS, KEYS, TYPES, rows_of, sqlite3

ROUNDS = 50
LINES = 1000
# how many bytes a page of a new desk has
PAGE = 512

# what stands behind the words of a command with a file of requests, and is no number of requests to carry out together
TOGETHER = [
    ["--together"],
    *[["--together", number] for number in [*NOT_TOGETHER, "-1"]],
    ["--together", "1", "--together", "1"],
    ["--together", "1", "2"],
]

# what stands behind the words of a service, likewise
CLIENTS = [
    *[["--clients", number] for number in ["1", *NOT_CLIENTS]],
    *[["--together", "1", "--clients", number] for number in [*NOT_CLIENTS, "-1"]],
    ["--together", "1", "--clients"],
    ["--together", "1", "--clients", "1", "--clients", "1"],
]

# and for the places with which it ends
PLACES = [
    *[["--places", number] for number in ["1", *NOT_PLACES]],
    *[["--together", "1", "--places", number] for number in [*NOT_PLACES, "-1"]],
    ["--together", "1", "--places"],
    ["--together", "1", "--places", "1", "--places", "1"],
    ["--clients", "1", "--places", "1"],
]

# words that ask for nothing that the program does
NO_TASK = [
    [],
    ["Run"],
    ["walk"],
    ["init"],
    ["run", "usage.db", "more"],
    ["init", "usage.db", "more"],
    ["orders", "usage.db"],
    ["deliveries", "usage.db", "file.csv", "more"],
    ["bounds", "usage.db"],
    ["sheet", "usage.db"],
    ["article", "usage.db"],
    ["upgrade"],
    ["upgrade", "usage.db", "more"],
    ["roll", "usage.db"],
    ["roll", "usage.db", "new.db", "more"],
    ["roll", "usage.db", "new.db", "--keys"],
    ["serve", "usage.db"],
    ["serve", "usage.db", "--port", "0"],
    ["serve", "usage.db", "--connections", "1"],
    ["serve", "usage.db", "--port", "--connections", "1"],
    ["serve", "usage.db", "--port", "-1", "--connections", "1"],
    ["serve", "usage.db", "--port", "0", "--port", "0", "--connections", "1"],
    ["serve", "usage.db", "0", "--port", "0", "--connections", "1"],
    *[[word, "usage.db", "file.csv", *words] for word in ["orders", "deliveries", "bounds"] for words in TOGETHER],
    *[["serve", "usage.db", "--port", "0", "--connections", "1", *words] for words in TOGETHER + CLIENTS + PLACES],
    ["serve", "usage.db", "--port", "0", "--together", "1"],
    ["serve", "usage.db", "--connections", "1", "--together", "1"],
    ["deliveries", "--together", "1", "usage.db"],
    ["deliveries", "usage.db", "file.csv", "--together", "1", "--clients", "1"],
    ["run", "usage.db", "--together", "1"],
    ["sheet", "usage.db", "N1", "--together", "1"],
    ["--help"],
    ["--version"],
]

# what each help says, in a line
HELP = [
    (["--help"], ["init", "run", "orders", "deliveries", "bounds", "sheet", "article", "serve", "upgrade", "roll"]),
    (["init", "--help"], ["FILE"]),
    (["run", "--help"], ["FILE"]),
    (["orders", "--help"], ["FILE", "CSV", "--together"]),
    (["deliveries", "--help"], ["FILE", "CSV", "--together"]),
    (["bounds", "--help"], ["FILE", "CSV", "--together"]),
    (["sheet", "--help"], ["FILE", "BRANCH"]),
    (["article", "--help"], ["FILE", "ARTICLE"]),
    (["serve", "--help"], ["FILE", "--port", "--connections", "--together", "--clients", "--places"]),
    (["upgrade", "--help"], ["FILE"]),
    (["roll", "--help"], ["OLD", "NEW", "--keys"]),
]

TRANSFER = """T1 field N1 A-1 0 100 40
T2 field N2 A-1 0 50 5
T3 transfer 20 900 A-1 N1 N2 10
T4 use 20 N2 A-1 4
T5 more 20 take N1 A-1 1
F1 firm 20
T6 commit 20
D1 deliver N1 A-1 3
"""

# what each table holds after that script, by the rules; the tables stand in the order of their making
ROWS = {
    "desk": [(1, 2, 0, 7)],
    "field": [("N1", "A-1", 0, 100, 40, 39, 39, 39), ("N2", "A-1", 0, 50, 5, 9, 9, 9)],
    "move": [(7, "N1", "A-1", 3)],
    "orders": [(20, 1, 900, 1)],
    "line": [(20, 1, "N1", "A-1", 0, 10, 4), (20, 2, "N2", "A-1", 1, 10, 4)],
    "kept": [
        ("D1", 7, "deliver N1 A-1 3"),
        ("F1", 5, "firm 20"),
        ("T1", 1, "field N1 A-1 0 100 40"),
        ("T2", 2, "field N2 A-1 0 50 5"),
        ("T3", 3, "transfer 20 900 A-1 N1 N2 10"),
        ("T4", 4, "use 20 N2 A-1 4"),
        ("T6", 6, "commit 20"),
    ],
    "firm": [(20,)],
}


class Words(ProgramCase):
    def test_other_words_ask_for_nothing(self):
        for words in NO_TASK:
            status, out, errors = ended(self.program, words, folder=self.folder)
            expect((status, out) == (2, b"") and errors, f"{words}: {status}, {out!r}, {errors!r}")
        expect(os.listdir(self.folder) == [], "a file was made")

    def test_the_least_and_the_greatest_are_together(self):
        """One and 1000 are taken; 0 and 1001 are not, as tested above."""
        path, records = new_desk(self.program, self.folder), os.path.join(self.folder, "records.csv")
        done(self.program, ["run", path], "K1 field N1 A-1 0 100 40\n")
        write_records(records, [["key", "branch", "article", "qty"], ["D1", "N1", "A-1", 60], ["D2", "N1", "A-1", 1]])
        for number in ["1", "1000"]:
            found = done(self.program, ["deliveries", path, records, "--together", number])
            expect(found == ["D1 done 2", "D2 refused 14 TooMuch 0"], f"{number}: {found}")

    def test_help_says_what_each_word_does(self):
        for words, names in HELP:
            _, _, errors = ended(self.program, words)
            lines = [line.split() for line in errors.decode().splitlines()]
            for name in names:
                told = [line for line in lines if line and line[0].strip("<[]>") == name and len(line) > 3]
                expect(told, f"{words}: nothing is said of {name}: {errors!r}")


def expect_twice(program, path, words):
    """A long file of orders, called with these words behind the desk, is carried out once, and answered alike when it comes
    again."""
    done(program, ["run", path], "".join(f"F{n} field N{n % 5} A{n // 5:02} 0 1000 500\n" for n in range(50)))
    want = [f"G{n} done {n + 51}" for n in range(2_500)]
    for _ in range(2):
        expect(done(program, ["orders", path, *words]) == want, f"{words}: another reply")
    # each field has 200 of the lines
    sheet = [f"A{n:02}".ljust(16) + "".join(f"{level:11}" for level in [0, 1000, 500, 300, 500]) for n in range(10)]
    sheet.append("total".ljust(16) + f"{5000:15}")
    expect(done(program, ["sheet", path, "N3"]) == sheet, f"{words}: another sheet")


class Stores(ProgramCase):
    def test_a_store_that_fails_is_told(self):
        """Files may not grow so far as a new desk needs: none is a desk, and the next command says so."""
        for size, want in [(0, STORE), (4_096, STORE), (65_536, STORE), (1_048_576, (0, b"", b""))]:
            path = os.path.join(self.folder, f"{size}.db")
            end = ended(self.program, ["init", path], limit=(resource.RLIMIT_FSIZE, size))
            expect(end == want, f"init in {size} bytes: {end}")
            if want == STORE:
                expect_end(self.program, ["run", path], NOT_A_DESK)
                expect_end(self.program, ["init", path], WELL)

    def test_want_of_memory_is_told(self):
        """With less and less memory a script is answered in full, then in part, and the program says what ended it; then nothing
        starts."""
        script = "\n".join(lines_of("long.script")) + "\n"
        replies = "\n".join(lines_of("long.replies")).encode() + b"\n"
        whole, cut = 0, 0
        for size in range(4_194_304, 0, -16_384):
            status, out, errors = ended(self.program, ["run"], script, limit=(resource.RLIMIT_DATA, size))
            if status == 0:
                expect((out, errors) == (replies, b""), f"{size} bytes: {out!r}, {errors!r}")
                whole += 1
            elif status == 1:
                # what was done is answered, in whole lines; want of memory within a commit is a fault of the store
                expect(errors in (b"stockdesk: memory\n", b"stockdesk: store\n"), f"{size} bytes: {errors!r}")
                expect(replies.startswith(out), f"{size} bytes: {out!r}")
                expect(not out or out.endswith(b"\n"), f"{size} bytes: {out!r}")
                cut += 1
            else:
                break
        expect(whole and cut, f"{whole} whole, {cut} told")

    def test_no_other_file_is_touched(self):
        expect_end(self.program, ["init", self.folder], NOT_A_DESK)
        expect_end(self.program, ["run", self.folder], STORE)
        path = os.path.join(self.folder, "other.db")
        expect_end(self.program, ["run", path], NOT_A_DESK)
        expect(not os.path.exists(path), "a run made a file")
        # in a folder that is not there no file can be made
        nowhere = os.path.join(self.folder, "none", "a.db")
        expect_end(self.program, ["init", nowhere], STORE)
        expect_end(self.program, ["run", nowhere], NOT_A_DESK)
        for text, end in NO_DESK:
            with open(path, "wb") as file:
                file.write(text)
            expect_end(self.program, ["run", path], end)
            if text:
                expect_end(self.program, ["init", path], NOT_A_DESK)
            expect(bytes_of(path) == text, f"{text} was changed")

    def test_a_file_of_requests_is_judged_last(self):
        """The program judges first its words, then the desk, then the file of requests; where a file cannot be read, nothing
        changes."""
        path, records = os.path.join(self.folder, "desk.db"), os.path.join(self.folder, "records.csv")
        for command in ["orders", "deliveries", "bounds"]:
            expect_end(self.program, [command, path, records], NOT_A_DESK)
        for words in [["sheet", path, "n1"], ["article", path, "a-1"]]:
            expect_end(self.program, words, (2, b"", b"stockdesk: usage\n"))
        expect_end(self.program, ["sheet", path, "N1"], NOT_A_DESK)
        new_desk(self.program, self.folder)
        found = bytes_of(path)
        for file in [records, self.folder]:
            expect_end(self.program, ["orders", path, file], (4, b"", b"stockdesk: csv\n"))
        write_records(records, [["key", "branch", "article", "qty"], ["D1", "N1", "A-1", "\xf6"]])
        expect_end(self.program, ["deliveries", path, records], (4, b"", b"stockdesk: record 1\n"))
        expect_end(self.program, ["orders", path, records], (4, b"", b"stockdesk: record 0\n"))
        write_records(records, [["key", "branch", "article"]])
        expect_end(self.program, ["deliveries", path, records], (4, b"", b"stockdesk: record 0\n"))
        write_records(records, [["key", "branch", "article", "qty"], ["D4", "N1", "A-1", "1"], ["D5", "N1", "A-1", "05"]])
        expect_end(self.program, ["deliveries", path, records], (4, b"", b"stockdesk: record 2\n"))
        header = ["key", "order", "until", "way", "branch", "article", "qty"]
        write_records(records, [header, ["G4", "54", "500", "take", "N1", "A-1", "5", ""]])
        expect_end(self.program, ["orders", path, records], (4, b"", b"stockdesk: record 1\n"))
        expect(bytes_of(path) == found, "the desk was changed")

    def test_a_long_file_of_orders_may_come_twice(self):
        """10,000 records, as 2,500 orders of four lines, one by one and in batches."""
        records = os.path.join(self.folder, "orders.csv")
        rows = [["key", "order", "until", "way", "branch", "article", "qty"]]
        for n in range(10_000):
            rows.append([f"G{n // 4}", n // 4 + 1, 500, "take", f"N{n % 5}", f"A{n % 50 // 5:02}", 1])
        write_records(records, rows)
        expect_twice(self.program, new_desk(self.program, self.folder, "one_by_one.db"), [records])
        expect_twice(self.program, new_desk(self.program, self.folder, "together.db"), [records, "--together", "1000"])

    def test_an_empty_file_becomes_a_desk_once(self):
        path = os.path.join(self.folder, "empty.db")
        open(path, "wb").close()
        expect_end(self.program, ["init", path], (0, b"", b""))
        desk = bytes_of(path)
        expect_end(self.program, ["init", path], NOT_A_DESK)
        expect(bytes_of(path) == desk, "the desk was changed")

    @needs_sqlite
    def test_what_a_stop_of_init_leaves_becomes_a_desk(self):
        """That is a zero byte, or a database with pages of this length and no tables. Others are left alone."""
        for name, text, end in [("byte", bytes(1), STORE), ("page", self.without_tables(PAGE), NOT_A_DESK)]:
            path = os.path.join(self.folder, f"{name}.db")
            write_bytes(path, text)
            expect_end(self.program, ["run", path], end)
            expect_end(self.program, ["init", path], WELL)
            expect(rows_of(path) == ["desk|1|2|0|0"], f"{name}: another desk")
        for number, text in enumerate([bytes(2), bytes(PAGE), bytes(PAGE + 1), b"S" * PAGE, self.without_tables(2 * PAGE)]):
            path = os.path.join(self.folder, f"{number}.db")
            write_bytes(path, text)
            expect_end(self.program, ["init", path], NOT_A_DESK)
            expect(bytes_of(path) == text, f"{text[:20]!r} was changed")

    def without_tables(self, size: int) -> bytes:
        """A database of another SQLite, with pages of so many bytes and no tables."""
        path = os.path.join(self.folder, f"empty{size}")
        with contextlib.closing(sqlite3.connect(path)) as database:
            database.executescript(f"PRAGMA page_size = {size}; CREATE TABLE t (n); DROP TABLE t; VACUUM")
        return bytes_of(path)

    @needs_strict_tables
    def test_another_sqlite_reads_the_file(self):
        path = new_desk(self.program, self.folder)
        done(self.program, ["run", path], TRANSFER)
        database = sqlite3.connect(path)
        try:
            expect(database.execute("PRAGMA integrity_check").fetchall() == [("ok",)], "the file is not whole")
            names = [name for (name,) in database.execute("SELECT name FROM sqlite_schema WHERE type = 'table' ORDER BY rowid")]
            expect(names == list(ROWS), f"other tables: {names}")
            expect(database.execute("PRAGMA page_size").fetchone() == (PAGE,), "pages of another length")
            for table, rows in ROWS.items():
                columns = COLUMNS[table]
                want = [
                    (name, "TEXT" if kind is str else "INTEGER", 1, place if place <= KEYS[table] else 0)
                    for place, (name, kind) in enumerate(zip(columns, TYPES[table]), 1)
                ]
                found = database.execute(f"SELECT name, type, \"notnull\", pk FROM pragma_table_info('{table}')").fetchall()
                expect(found == want, f"{table} has other columns: {found}")
                order = ", ".join(str(n) for n in range(1, len(columns) + 1))
                found = database.execute(f"SELECT {', '.join(columns)} FROM {table} ORDER BY {order}").fetchall()
                expect(found == rows, f"{table} has other rows: {found}")
        finally:
            database.close()

    @needs_sqlite
    def test_another_database_is_no_desk(self):
        path = os.path.join(self.folder, "other.db")
        database = sqlite3.connect(path)
        database.execute("CREATE TABLE note (id INTEGER)")
        database.commit()
        database.close()
        found = bytes_of(path)
        expect_end(self.program, ["init", path], NOT_A_DESK)
        expect_end(self.program, ["run", path], NOT_A_DESK)
        expect(bytes_of(path) == found, "it was changed")

    def test_an_empty_script_changes_nothing(self):
        """A run that reads nothing writes nothing, and leaves the tables as `init` made them."""
        path = new_desk(self.program, self.folder)
        expect_end(self.program, ["run", path], (0, b"", b""), text="")
        if sqlite3 is not None:
            expect(rows_of(path) == ["desk|1|2|0|0"], "other rows")


def killed(program, path, first, seconds):
    """Delivers one piece after another, from that place on, until the program is killed after so many seconds. Returns how many
    replies came."""
    session = Session(program, path)
    lines = "".join(f"K{place} deliver N1 A-1 1\n" for place in range(first, first + LINES))
    moment = threading.Timer(seconds, session.process.send_signal, [signal.SIGKILL])
    moment.start()
    try:
        session.process.stdin.write(lines.encode())
        session.process.stdin.flush()
    except BrokenPipeError:
        pass
    replies = session.process.stdout.read().decode().split("\n")[:-1]
    moment.join()
    try:
        session.end()
    except BrokenPipeError:
        session.clock.cancel()
    for place, reply in enumerate(replies, first):
        expect(reply == f"K{place} done {place}", f"another reply: {reply}")
    return len(replies)


class Sessions(ProgramCase):
    def test_a_desk_outlives_each_run(self):
        path = new_desk(self.program, self.folder)
        script = lines_of("long.script") + lines_of("long.rest.script")
        replies = lines_of("long.replies") + lines_of("long.rest.replies")
        for line, reply in zip(script, replies, strict=True):
            found = done(self.program, ["run", path], line + "\n")
            expect(found == [reply], f"{line}: {found}")

    def test_long_input_is_answered(self):
        script, replies = [], []
        for number in range(50):
            script.append(f"F{number} field N1 A{number} 0 1000 500")
        for number in range(1950):
            verb = "deliver" if number % 3 else f"open {number + 1} 120 take"
            script.append(f"K{number} {verb} N1 A{number % 50} 1")
        replies = [f"{line.split()[0]} done {place}" for place, line in enumerate(script, 1)]
        script.append("? field N1 A0")
        # of the 39 commands on this field every third is an order
        replies.append("? field N1 A0 lo 0 hi 1000 value 526 inf 513 sup 526")
        # a line too long is bad once, ended or not
        for length in [4_096, 4_097, 10_000]:
            script.append("A" * length)
            replies.append("- refused 20 BadCommand 0")
        found = done(self.program, ["run"], "\n".join(script))
        expect(found == replies, "another reply")

    def test_replies_come_line_by_line(self):
        session = Session(self.program, new_desk(self.program, self.folder))
        try:
            expect(session.ask("K1 field N1 A-1 0 100 40") == "K1 done 1", "no reply to the first line")
            shown = session.ask("? field N1 A-1")
            expect(shown == "? field N1 A-1 lo 0 hi 100 value 40 inf 40 sup 40", f"another field: {shown}")
            expect(session.ask("x") == "- refused 20 BadCommand 0", "no reply to a bad line")
        finally:
            session.end()

    def test_nothing_acknowledged_is_lost(self):
        generator = random.Random(1986)
        path = new_desk(self.program, self.folder)
        done(self.program, ["run", path], "K1 field N1 A-1 0 1000000000 0\n")
        place, cut = 2, 0
        for _ in range(ROUNDS):
            acknowledged = killed(self.program, path, place, generator.uniform(0, 0.15))
            [shown] = done(self.program, ["run", path], "? field N1 A-1\n")
            found = int(shown.split()[9]) - (place - 2)
            expect(acknowledged <= found <= LINES, f"{acknowledged} acknowledged, {found} found")
            # the rows have the first of the commands, each at its place
            again = "".join(f"K{n} deliver N1 A-1 1\n" for n in range(2, place + found))
            want = [f"K{n} done {n}" for n in range(2, place + found)]
            expect(done(self.program, ["run", path], again) == want, "not the first of the commands")
            cut += acknowledged < LINES
            place += found
        note(f"{ROUNDS} sessions, {cut} of them killed before their end, {place - 1} commands")

"""Tests of the built program on lines, each in its one spelling or in none: codes and numbers at the ends of their ranges, words
that are not quite those of a command, every refusal with its number and its name, and what is kept of a command."""

from support.cases import ProgramCase
from support.programs import done, expect, new_desk
from support.tables import rows_of, sqlite3

BAD = "- refused 20 BadCommand 0"

# codes that are read, and texts that are none
BRANCHES = (["N", "N1", "0", "ABCDEFG8"], ["", "n1", "N 1", "N-1", "N_1", "ABCDEFGH9", "\u00c4"])
ARTICLES = (["A", "A-1", "1-", "ABCDEFGHIJKLMNO6"], ["", "-A", "a-1", "A_1", "ABCDEFGHIJKLMNOP7"])
KEYS = (
    ["K1", "-", "a-Z", "0123456789ABCDEFabcdef-0123456789ABC"],
    ["", "?", "K 1", "K1\r", "K_1", "\u00c4", "0123456789ABCDEFabcdef-0123456789ABC7"],
)

# numbers, and whether each is a level, a quantity, a moment and the number of an order
NUMBERS = [
    ("0", True, False, True, False),
    ("1", True, True, True, True),
    ("1000000", True, True, True, True),
    ("1000001", True, False, True, True),
    ("999999999", True, False, True, True),
    ("1000000000", True, False, True, False),
    ("1000000001", False, False, True, False),
    ("4000000000", False, False, True, False),
    ("4000000001", False, False, False, False),
    ("18446744073709551615", False, False, False, False),
    ("99999999999999999999", False, False, False, False),
    ("00", False, False, False, False),
    ("07", False, False, False, False),
    ("+7", False, False, False, False),
    ("-7", False, False, False, False),
    ("7a", False, False, False, False),
    ("7.0", False, False, False, False),
    ("", False, False, False, False),
]

# lines that are no request
BAD_LINES = [
    "",
    " ",
    "K1",
    "K1 ",
    "K1  commit 7",
    "K1 commit  7",
    "K1 commit 7 ",
    " K1 commit 7",
    "K1 commit 7\r",
    "K1\tcommit 7",
    "K1 commit",
    "K1 commit 7 8",
    "K1 Commit 7",
    "K1 commits 7",
    "K1 rollback 7",
    "K1 firm",
    "K1 firm ",
    "K1 firm 07",
    "K1 firm 7 8",
    "K1 firm 7 take N1 A-1 1",
    "K1 firms 7",
    "K1 FIRM 7",
    "K1 firm7",
    "firm 7",
    "K1 field N1 A-1 0 100",
    "K1 field N1 A-1 00 100 40",
    "K1 deliver N1 5",
    "K1 rebound N1 A-1 5",
    "K1 rebound N1 A-1 5 6 7",
    "K1 rebound N1 A-1 05 6",
    "K1 rebound N1 A-1 -5 6",
    "K1 deliver N1 -A 5",
    "K1 transfer 8 2000000000 A-1 N1 5",
    "K1 open 7 2000000000",
    "K1 open 7 2000000000 ",
    "K1 open 7 2000000000 Take N1 A-1 60",
    "K1 open 7 2000000000 take N1 A-1 60 add",
    "K1 open 7 2000000000 take N1 A-1 60  add N2 A-1 5",
    "K1 more 7 takes N1 A-1 1",
    "K1 more 7 ad N1 A-1 1",
    "K1 more 7 N1 A-1 1",
    "K1 expire 4000000001",
    "? field  N1 A-1",
    "? field N1",
    "? field N1 A-1 ",
    "? order 07",
    "? order 0",
    "? order 7 8",
    "?order 7",
    "?",
]

# a command of each kind, all of them done, one after the other
EACH_KIND = [
    "field N1 A-1 0 100 40",
    "field N2 A-1 0 1000000000 1000000",
    "deliver N1 A-1 60",
    "deliver N2 A-1 1000000",
    "writeoff N1 A-1 5",
    "rebound N2 A-1 0 999999999",
    "open 7 2000000000 take N1 A-1 60",
    "open 999999999 4000000000 take N1 A-1 10 add N2 A-1 5",
    "transfer 8 2000000000 A-1 N1 N2 5",
    "more 7 add N2 A-1 1",
    "use 7 N1 A-1 5",
    "release 7 N1 A-1 5",
    "firm 7",
    "commit 7",
    "abort 999999999",
    "firm 8",
    "expire 4000000000",
]

# a script in which every refusal comes but those by limits
REFUSALS = [
    ("K1 field N1 A-1 0 100 40", "K1 done 1"),
    ("K1 field N1 A-1 0 100 41", "K1 refused 1 KeyReused 0"),
    ("k1 field N1 A-1 0 1 0", "k1 refused 3 FieldThere 0"),
    ("K2 deliver N1 B-1 1", "K2 refused 4 NoField 0"),
    ("K2 field N1 B-1 5 4 5", "K2 refused 5 BadBounds 0"),
    ("K2 field N1 B-1 5 9 4", "K2 refused 5 BadBounds 0"),
    ("K2 field N1 B-1 0 4 5", "K2 refused 5 BadBounds 0"),
    ("K2 open 7 120 take N1 A-1 35", "K2 done 2"),
    ("K3 open 7 120 take N1 A-1 1", "K3 refused 6 OrderThere 0"),
    ("K3 commit 8", "K3 refused 7 NoOrder 0"),
    ("K3 open 8 0 take N1 A-1 1", "K3 refused 9 Past 0"),
    ("K3 open 8 120 take N1 A-1 1 take N1 A-1 1", "K3 refused 10 SameField 2"),
    ("K3 open 8 120 take N1 A-1 1 add N1 B-1 1", "K3 refused 4 NoField 2"),
    ("K3 more 7 add N1 A-1 1", "K3 refused 11 OtherWay 0"),
    ("K3 writeoff N1 A-1 6", "K3 refused 13 TooLittle 0"),
    ("K3 deliver N1 A-1 61", "K3 refused 14 TooMuch 0"),
    ("K3 rebound N1 B-1 0 1", "K3 refused 4 NoField 0"),
    ("K3 rebound N1 A-1 41 40", "K3 refused 5 BadBounds 0"),
    ("K3 rebound N1 A-1 6 39", "K3 refused 13 TooLittle 0"),
    ("K3 rebound N1 A-1 5 39", "K3 refused 14 TooMuch 0"),
    ("K3 use 7 N1 B-1 1", "K3 refused 15 NotHeld 0"),
    ("K3 use 7 N1 A-1 36", "K3 refused 16 OverUse 0"),
    ("K3 field N2 A-1 0 100 5", "K3 done 3"),
    ("K4 transfer 9 200 A-1 N1 N2 5", "K4 done 4"),
    ("K5 more 9 take N1 A-1 1", "K5 refused 17 TransferFixed 0"),
    ("K5 firm 8", "K5 refused 7 NoOrder 0"),
    ("K5 firm 9", "K5 done 5"),
    ("K6 firm 9", "K6 refused 19 Firm 0"),
    ("K6 abort 9", "K6 refused 19 Firm 0"),
    ("K6 more 9 take N1 A-1 1", "K6 refused 19 Firm 0"),
    ("K6 expire 110", "K6 done 6"),
    ("K7 expire 109", "K7 refused 18 ClockBack 0"),
    ("K7 commit 7", "K7 done 7"),
    ("K8 abort 7", "K8 refused 8 Ended 0"),
    ("K8 firm 7", "K8 refused 8 Ended 0"),
    ("K8 firm 07", BAD),
]

# codes in the order of their bytes, branches and articles
IN_ORDER = (["9", "A", "AB", "B"], ["1", "A", "A-1", "A1", "B"])

# the longest key, codes and numbers that there are
LONG_KEY = "0123456789ABCDEFabcdef-0123456789ABC"
LONG_OPEN = "open 999999999 4000000000"
LONG_LINE = " take ABCDEFG8 ABCDEFGHIJKLMNO6 1000000"


def expect_replies(program, steps):
    """On a new desk in memory these lines are answered so."""
    found = done(program, ["run"], "".join(line + "\n" for line, _ in steps))
    for (line, want), reply in zip(steps, found, strict=True):
        expect(reply == want, f"{line!r}: {reply} and not {want}")


class Spelling(ProgramCase):
    def test_codes_have_their_form(self):
        steps = []
        for line, (good, bad) in [("K1 deliver {} A-1 5", BRANCHES), ("K1 deliver N1 {} 5", ARTICLES)]:
            steps += [(line.format(code), "K1 refused 4 NoField 0") for code in good]
            steps += [(line.format(code), BAD) for code in bad]
        for line, (good, bad) in [("? field {} A-1", BRANCHES), ("? field N1 {}", ARTICLES)]:
            steps += [(line.format(code), "? none") for code in good]
            steps += [(line.format(code), BAD) for code in bad]
        good, bad = KEYS
        steps += [(f"{key} commit 7", f"{key} refused 7 NoOrder 0") for key in good]
        steps += [(f"{key} commit 7", BAD) for key in bad]
        expect_replies(self.program, steps)

    def test_numbers_are_in_their_ranges(self):
        steps = [("F1 field N1 A-1 0 100 40", "F1 done 1")]
        for number, is_level, is_qty, is_moment, is_order in NUMBERS:
            for line, is_one, want in [
                (f"field N1 A-1 {number} 100 40", is_level, "3 FieldThere 0"),
                (f"field N1 A-1 0 {number} 40", is_level, "3 FieldThere 0"),
                (f"field N1 A-1 0 100 {number}", is_level, "3 FieldThere 0"),
                (f"deliver N2 A-1 {number}", is_qty, "4 NoField 0"),
                (f"rebound N2 A-1 {number} 100", is_level, "4 NoField 0"),
                (f"rebound N2 A-1 0 {number}", is_level, "4 NoField 0"),
                (f"use 7 N1 A-1 {number}", is_qty, "7 NoOrder 0"),
                (f"open 7 9 take N2 A-1 {number}", is_qty, "4 NoField 1"),
                # the clock stands at 0
                (f"open 7 {number} take N2 A-1 1", is_moment, "9 Past 0" if number == "0" else "4 NoField 1"),
                (f"commit {number}", is_order, "7 NoOrder 0"),
                (f"firm {number}", is_order, "7 NoOrder 0"),
            ]:
                steps.append((f"K1 {line}", f"K1 refused {want}" if is_one else BAD))
            steps.append((f"? order {number}", "? none" if is_order else BAD))
        moments = [number for number, _, _, is_moment, _ in NUMBERS if is_moment]
        steps += [(f"E{place} expire {number}", f"E{place} done {place}") for place, number in enumerate(moments, 2)]
        expect_replies(self.program, steps)

    def test_lines_that_are_no_request_are_bad(self):
        steps = [(line, BAD) for line in BAD_LINES]
        steps += [(f"K1 {command} ", BAD) for command in EACH_KIND]
        steps += [(f"K1 {command.replace(' ', '  ', 1)}", BAD) for command in EACH_KIND]
        steps += [(f"K1 {command[0].upper()}{command[1:]}", BAD) for command in EACH_KIND]
        expect_replies(self.program, steps)

    def test_each_kind_is_kept_as_it_was_spelled(self):
        path = new_desk(self.program, self.folder)
        keys = [f"K{place:02}" for place in range(1, len(EACH_KIND) + 1)]
        script = "".join(f"{key} {command}\n" for key, command in zip(keys, EACH_KIND))
        want = [f"{key} done {place}" for place, key in enumerate(keys, 1)]
        expect(done(self.program, ["run", path], script) == want, "not all are done")
        if sqlite3 is None:
            self.skipTest("no other SQLite is here to read what is kept")
        kept = [f"kept|{key}|{place}|{command}" for place, (key, command) in enumerate(zip(keys, EACH_KIND), 1)]
        expect([row for row in rows_of(path) if row.startswith("kept|")] == kept, "something else is kept")

    def test_refusals_have_their_numbers_and_names(self):
        expect_replies(self.program, REFUSALS)

    def test_an_order_has_1_to_64_lines(self):
        """With the longest words, 64 lines have 2,558 bytes; and where all else is good, an order with one line more than 64 is
        none."""
        steps = [(f"{LONG_KEY} {LONG_OPEN}", BAD)]
        for count in range(1, 65):
            steps.append((f"{LONG_KEY} {LONG_OPEN}{LONG_LINE * count}", f"{LONG_KEY} refused 4 NoField 1"))
        expect(len(steps[-1][0]) == 2_558, "another length")
        steps.append((f"{LONG_KEY} {LONG_OPEN}{LONG_LINE * 65}", BAD))
        steps += [(f"F{n} field N1 A{n} 0 9 5", f"F{n} done {n}") for n in range(1, 66)]
        lines = "".join(f" take N1 A{n} 1" for n in range(1, 65))
        steps.append((f"K1 open 7 120{lines} take N1 A65 1", BAD))
        steps.append((f"K1 open 7 120{lines}", "K1 done 66"))
        steps.append(("K2 more 7 take N1 A65 1", "K2 refused 12 TooManyLines 0"))
        steps.append(("K2 more 7 take N1 A64 1", "K2 done 67"))
        expect_replies(self.program, steps)

    def test_codes_are_ordered_by_their_bytes(self):
        """Sheets show the codes in that order."""
        path = new_desk(self.program, self.folder)
        branches, articles = IN_ORDER
        fields = [(branch, "A-1") for branch in branches] + [("N1", article) for article in articles]
        script = "".join(f"K{n} field {b} {a} 0 9 5\n" for n, (b, a) in enumerate(reversed(fields)))
        done(self.program, ["run", path], script)
        found = [line.split()[0] for line in done(self.program, ["article", path, "A-1"])]
        expect(found == [*branches, "N1", "total"], f"{found}")
        found = [line.split()[0] for line in done(self.program, ["sheet", path, "N1"])]
        expect(found == [*articles, "total"], f"{found}")

    def test_a_line_that_never_ends_is_one_bad_line(self):
        """The line has 10,000,000 bytes and no newline; and bytes behind the last newline are bad, whatever they are."""
        for rest in ["A" * 10_000_000, "K9 use 7 N1 A-1 5", "\r", " "]:
            found = done(self.program, ["run"], f"K1 field N1 A-1 0 100 40\n{rest}")
            expect(found == ["K1 done 1", BAD], f"{len(rest)} bytes: {found}")

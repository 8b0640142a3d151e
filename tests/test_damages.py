"""Tests of the built program on files into which another SQLite has put rows. Rows of a good ledger are opened, and shown as they
stand; after each single breach of the rules for them, the file is damaged, and stays as it was."""

import random
import unittest

from support.cases import ProgramCase, needs_sqlite
from support.desks import OPEN_ORDER, Desks, changed, of_desk, of_fields, of_lines, of_orders
from support.ledgers import BAD_FIRMS, BAD_LINES, BAD_ROWS, GOOD, NO_DESK, SHOWN, STILL_GOOD
from support.programs import DAMAGED, NOT_A_DESK, done, expect
from support.rows import desk_of, faults, tables_by
from support.rules import ABORTED, ADD, COMMITTED, FIRM, OPEN, PLAIN, TAKE, Field, Line, Order, Rules
from support.tables import lines_of_rows, rows_of, tables_in

# what a desk answers that has a place for nothing but the end of that order
FULL = [
    ("Z1 deliver N1 A-1 1", "Z1 refused 2 Full 0"),
    ("Z1 expire 120", "Z1 refused 2 Full 0"),
    ("Z1 firm 7", "Z1 refused 2 Full 0"),
    ("Z1 commit 7", "Z1 done 200000"),
    ("? order 7", "? order 7 plain 120 committed take N1 A-1 5 0"),
    ("? field N1 A-1", "? field N1 A-1 lo 0 hi 100 value 40 inf 40 sup 40"),
    # the end of an order is never refused as too much, only for another reason
    ("Z2 commit 7", "Z2 refused 8 Ended 0"),
    ("Z2 firm 7", "Z2 refused 2 Full 0"),
    ("Z2 deliver N1 A-1 1", "Z2 refused 2 Full 0"),
]

# likewise where that order is firm: its abort is not refused as too much either, but for what it is
FULL_OF_A_FIRM_ORDER = [
    ("Z1 firm 7", "Z1 refused 2 Full 0"),
    ("Z1 use 7 N1 A-1 1", "Z1 refused 2 Full 0"),
    ("Z1 abort 7", "Z1 refused 19 Firm 0"),
    ("? order 7", "? order 7 plain 120 firm take N1 A-1 5 0"),
    ("Z1 commit 7", "Z1 done 200000"),
    ("? order 7", "? order 7 plain 120 committed take N1 A-1 5 0"),
    ("Z2 abort 7", "Z2 refused 8 Ended 0"),
]


def large_desk():
    """10,000 fields and 1,000 orders of 64 lines, some of them firm."""
    generator, desk = random.Random(1986), Rules()
    names = [(f"N{number % 2}", f"A{number // 2:04}") for number in range(10_000)]
    desk.fields = {name: Field(0, 1_000_000, 500_000, 500_000) for name in names}
    for number in range(1, 1_001):
        state = generator.choice([OPEN, COMMITTED, ABORTED])
        is_firm = state != ABORTED and generator.random() < 0.5
        lines = [Line(name, generator.choice([TAKE, ADD]), generator.randrange(1_000)) for name in generator.sample(names, 64)]
        for line in lines:
            line.used = generator.randrange(line.held + 1)
        desk.firms |= {number} if is_firm else set()
        desk.add(Order(number, PLAIN, 120, lines, FIRM if is_firm and state == OPEN else state))
    return desk


def full_rows():
    """Rows at a limit."""
    return [of_desk(200_000), of_fields(10_000), of_orders(100_000), of_lines(64)]


def rows_beyond():
    """One row more than that, or one place set aside more."""
    return [of_desk(200_001), [*of_desk(200_000), *OPEN_ORDER], of_fields(10_001), of_orders(100_001), of_lines(65)]


@needs_sqlite
class Damages(ProgramCase):
    def test_good_rows_are_opened(self):
        desks = Desks(self.program, self.folder)
        desks.expect_replies(GOOD.split("\n"), SHOWN)
        for change in STILL_GOOD:
            rows = changed(change)
            desks.expect_replies(rows, [])
            expect(sorted(rows_of(desks.path)) == sorted(row.replace(",", "|") for row in rows), f"{change}: other rows")

    def test_rows_of_no_good_ledger_are_damaged(self):
        desks = Desks(self.program, self.folder)
        for want, changes in [(NOT_A_DESK, NO_DESK), (DAMAGED, BAD_ROWS), (DAMAGED, BAD_LINES), (DAMAGED, BAD_FIRMS)]:
            for change in changes:
                try:
                    desks.expect_end(changed(change), want)
                except AssertionError as fault:
                    raise AssertionError(f"{change}: {fault}") from fault

    def test_numbers_at_the_ends_of_their_columns_are_damaged(self):
        """The least and the greatest number of 64 bits stand in place of each number of the good rows."""
        desks = Desks(self.program, self.folder)
        rows = GOOD.split("\n")
        for index, row in enumerate(rows):
            words = row.split(",")
            for place, word in enumerate(words):
                if not word.lstrip("-").isdigit():
                    continue
                for number in [-(2**63), 2**63 - 1]:
                    put = ",".join([*words[:place], str(number), *words[place + 1 :]])
                    want = NOT_A_DESK if (words[0], place) == ("desk", 2) else DAMAGED
                    desks.expect_end([*rows[:index], put, *rows[index + 1 :]], want)

    def test_limits_are_those_of_the_rules(self):
        """At each limit the rows are good, and with one row more they are damaged."""
        desks = Desks(self.program, self.folder)
        for rows in full_rows():
            desks.expect_replies(rows, [])
        for rows in rows_beyond():
            desks.expect_end(rows, DAMAGED)

    def test_a_full_desk_still_ends_its_order(self):
        desks, rows = Desks(self.program, self.folder), [*of_desk(199_999), *OPEN_ORDER]
        desks.expect_replies(rows, FULL)
        desks.expect_replies([*rows, "firm,7"], FULL_OF_A_FIRM_ORDER)

    def test_the_numbers_of_fields_are_plain_sums(self):
        """Each field and each sheet of a large desk shows plain sums."""
        desks, desk = Desks(self.program, self.folder), large_desk()
        asks = [f"? field {' '.join(name)}" for name in desk.fields]
        desks.expect_replies(lines_of_rows(tables_by(desk), ","), [(ask, desk.reply(ask)) for ask in asks])
        for branch in ["N0", "N1"]:
            found = done(self.program, ["sheet", desks.path, branch])
            expect(found == desk.sheet(branch).splitlines(), f"another sheet of {branch}")


class ByTheRules(unittest.TestCase):
    def test_the_rules_in_python_find_what_is_wrong_with_rows(self):
        """The rules find each single breach, and nothing else; the good rows are those of the desk that they describe."""
        for change in [(), *STILL_GOOD]:
            tables = tables_in(filter(None, changed(change)))
            expect(faults(tables) == [], f"{change}: {faults(tables)}")
            expect(tables_by(desk_of(tables)) == tables, f"{change}: other rows")
        for change in [*NO_DESK, *BAD_ROWS, *BAD_LINES, *BAD_FIRMS]:
            expect(faults(tables_in(filter(None, changed(change)))), f"{change}: nothing is wrong")
        for is_good, rows in [*((True, rows) for rows in full_rows()), *((False, rows) for rows in rows_beyond())]:
            expect(is_good == (faults(tables_in(rows)) == []), f"{rows[:1]}, {rows[-1:]}")

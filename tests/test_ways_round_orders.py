"""Tests of ways round whose an order is: commands of a shop on orders whose numbers are not of its range, and order lines at
branches to which it is not restricted. The front refuses each, and nothing of it reaches the desk; what a shop may do is done."""

import json

from support.fronts import OFFICE, SHOP, WAREHOUSE, Front, FrontCase, message
from support.programs import expect, note

MOST_LINES = 64

# users of the shops beside n1, who has the orders below 1,000,000: their ranges, and the branches to which they are restricted
SHOPS = ["n2 1", "n3 899", "n4 900", "n5 2 N1 N3", "n6", "n7 01", "n8 1-2", "n9 1000", "n10 -1", "n11 N1", "n12 12"]

# fields at three branches, and an order of each that has some
FIELDS = [f"field {branch} A-{n} 0 100000 500" for branch in ["N1", "N2", "N3"] for n in range(1, MOST_LINES + 1)]
OPENED = [
    *["open 7 60 take N1 A-1 9", "open 1000001 60 take N1 A-1 9 take N2 A-1 9", "open 899000007 60 take N1 A-1 9"],
    *["open 2000007 60 take N1 A-1 9 take N2 A-1 9", "open 12000007 60 take N1 A-1 9", "open 900000007 60 take N1 A-1 9"],
]
SCRIPT = "".join(f"S{n} {line}\n" for n, line in enumerate(FIELDS + OPENED))
NUMBERS = [line.split()[1] for line in OPENED]

# each verb on an order of that number
VERBS = [
    "open {} 60 take N1 A-2 1",
    "transfer {} 60 A-2 N1 N3 1",
    "more {} take N1 A-2 1",
    "use {} N1 A-1 1",
    "release {} N1 A-1 1",
    "commit {}",
    "abort {}",
]

# numbers that are not of the range of a user, whatever the verb
NOT_ITS_OWN = {
    "n1": ["0", "00", "1000000", "1000001", "01", "007", "0000007", "9999999", "999999999", "1000000007"],
    "n2": [
        *["999999", "2000000", "7", "2000007", "100000", "10000001", "01000001", "001000001", "0", "1", "1000001000001"],
        # numbers that read as 1,000,001 where one counts in 32, 63 or 64 bits, or stops at other signs than digits
        *["4295967297", "9223372036855775809", "18446744073710551617", "340282366920938463463374607431769211457"],
        *["-1000001", "0x0F4241", "0xF4241", "F4241", "1e6", "1E6", "1000001-", "1000001a", "1-000001", "1000-001"],
        *["", " 1000001", "7 1000001", "a 1000001", "- 1000001", "000 1000001"],
    ],
    "n3": ["900000000", "898999999", "900000007", "8990000", "89900000", "899", "8990000070"],
    "n4": ["900000000", "900000007", "900999999", "90000000", "900", "7"],
    "n6": ["0", "1", "7", "1000001", "900000007", ""],
    "n7": ["1000001", "01000001", "7", "1"],
    "n8": ["1000001", "2000007", "1", "7"],
    "n9": ["1000000000", "1000000007", "1000001", "7"],
    "n10": ["-1000001", "1000001", "7"],
    "n11": ["7", "1000001", "2000007", "1"],
    "n12": ["1000001", "2000007", "1200000", "120000070", "7"],
}

# the same with something before or within the command
MISSPELLED = [" commit 7", "commit  7", "commit 07", "commit 7-7", "commit 7a", "commit", "commit "]
# what no shop may send, whosever the order is
OTHER_VERBS = [
    "-commit 7",
    "commit-7",
    "commit7",
    "firm 7",
    "COMMIT 7",
    "Commit 7",
    "commits 7",
    "commi 7",
    "7 commit",
    "expire 7",
    "commit-commit 7",
]
# a sign that no command has
OTHER_SIGNS = ["commit +7", "commit\t7", "commit 7|2", "commit 7|2 N1", "commit 7.0", "commit 7_0", "commit 7,2", "commit 7\n"]


def lines(*branches: str, way: str = "take") -> str:
    return "".join(f" {way} {branch} A-{n} 1" for n, branch in enumerate(branches, 1))


def with_one(branch: str, place: int) -> str:
    """Order lines at N1, and one at that branch."""
    branches = ["N1"] * MOST_LINES
    branches[place] = branch
    return lines(*branches)


# commands of n5, on its own orders, with a line that is neither at N1 nor at N3
ELSEWHERE = [
    *[f"open 2000000 60{with_one(branch, place)}" for branch in ["N2", "N", "N11"] for place in [0, 1, 31, 62, 63]],
    *[f"open 2000000 60{lines(branch)}" for branch in ["N2", "N", "1", "N11", "N13", "N1N3", "3", "2", "n1", "0", "AN1", "N1-"]],
    *[f"open 2000000 60{lines('N1', branch, way='add')}" for branch in ["N2", "2", "n3"]],
    "open 2000000 60 take N1 A-1 1 add N2 A-1 1",
    "open 2000000 60 add N2 A-1 1 take N1 A-1 1",
    "open 2000000 60 take N1 A-1 1  take N2 A-2 1",
    "open 2000000 60 take N1 A-1 1 TAKE N2 A-2 1",
    "open 2000000 60 take N1 A-1 1 take  N2 A-2 1",
    "open 2000000 60 take N1 A-1 1 take N2 A-2",
    "open 2000000 60 take N1 A-1 take N2 A-2 1",
    "open 2000000 take N2 A-1 1 take N1 A-1 1",
    "open 2000000 60 60 take N2 A-1 1",
    "open 2000000 60 N1 take N2 A-1 1",
    "open 2000000 60 take take N2 A-1 1",
    "open 2000000 60 take N2 N1 1",
    "open 2000000 60 take N2 N3 1 take N1 N1 1",
    "open 2000000 60",
    *[f"more 2000007 {way} {branch} A-3 1" for way in ["take", "add"] for branch in ["N2", "N", "N11", "n1", "2"]],
    "more 2000007 take N1 A-3 1 take N2 A-3 1",
    "more 2000007 60 take N2 A-3 1",
    "more 2000007 N1 take N2 A-3 1",
    *[f"transfer 2000000 60 A-3 {branch} N1 1" for branch in ["N2", "N", "N11", "n1", "2", "A-3"]],
    "transfer 2000000 60 N1 N2 N3 1",
    "transfer 2000000 N1 A-3 N2 N1 1",
    "transfer 2000000 60 A-3  N2 N1 1",
    "transfer 2000000 60 A-3 N2 N1",
    "transfer 2000000 60 A-3 N1 N2 N1 1",
]

# what is done, one after the other
DONE = [
    (SHOP, "open 1 60 take N2 A-1 1"),
    (SHOP, "open 999999 60 take N1 A-1 1"),
    (SHOP, "commit 7"),
    ("n2", "open 1000000 60 take N1 A-1 1 add N2 A-1 1"),
    ("n2", "open 1999999 60 take N3 A-1 1"),
    ("n2", "transfer 1000002 60 A-1 N2 N3 1"),
    ("n2", "more 1000000 take N3 A-1 1"),
    ("n2", "use 1000000 N1 A-1 1"),
    ("n2", "release 1000000 N2 A-1 1"),
    ("n2", "commit 1000000"),
    ("n2", "abort 1999999"),
    ("n3", "open 899000000 60 take N1 A-1 1"),
    ("n3", "open 899999999 60 take N1 A-1 1"),
    ("n3", "abort 899000007"),
    ("n12", "open 12999999 60 take N2 A-1 1"),
    ("n12", "commit 12000007"),
    ("n5", f"open 2000000 60{lines(*['N1', 'N3'] * (MOST_LINES // 2))}"),
    ("n5", "open 2999999 60 add N3 A-1 1"),
    ("n5", "more 2999999 take N1 A-1 1"),
    ("n5", "transfer 2000001 60 A-1 N3 N2 1"),
    ("n5", "transfer 2000002 60 A-1 N1 N3 1"),
    ("n5", "use 2000007 N2 A-1 1"),
    ("n5", "release 2000007 N1 A-1 1"),
    ("n5", "commit 2000007"),
    ("n5", "abort 2000000"),
    (OFFICE, "commit 1000001"),
    (OFFICE, "abort 899999999"),
    (OFFICE, "open 899999998 60 take N2 A-1 1"),
    (OFFICE, "firm 2999999"),
    (WAREHOUSE, "deliver N2 A-1 1"),
]


def state_of(front: Front) -> list[str]:
    """The orders, and the stock of each branch."""
    targets = [f"/v1/orders/{number}" for number in [*NUMBERS, "2000000"]] + [f"/v1/sheets/N{n}" for n in (1, 2, 3)]
    return [front.ask(OFFICE, "GET", target)[1] for target in targets]


def expect_refused(front: Front, user: str, command: str, status: int, error: str) -> None:
    """The front refuses the command, and it has not reached the desk: its key is free."""
    for body in [message("WAY", command), json.dumps({"command": command, "key": "WAY"})]:
        found = front.ask(user, "POST", "/v1/commands", body)
        expect(found == (status, json.dumps({"error": error}, separators=(",", ":"))), f"{user}, {command!r}: {found}")
    own = front.tell(OFFICE, "writeoff N1 A-1 501", "WAY")
    expect(own[0] == 409 and own[1]["refused"] == "TooLittle", f"{user}, {command!r}: its key is taken: {own}")


class WaysRoundOrders(FrontCase):
    def test_no_shop_touches_anothers_orders(self):
        rows = [(user, verb.format(number)) for user, numbers in NOT_ITS_OWN.items() for number in numbers for verb in VERBS]
        rows += [(SHOP, command) for command in MISSPELLED]
        with Front(self.program, self.folder, script=SCRIPT, shops=SHOPS) as front:
            before = state_of(front)
            for user, command in rows:
                expect_refused(front, user, command, 403, "order")
            for command in OTHER_VERBS:
                expect_refused(front, SHOP, command, 403, "group")
            for command in OTHER_SIGNS:
                expect_refused(front, SHOP, command, 400, "request")
            expect(state_of(front) == before, "something was done")
        note(f"{len(rows) + len(OTHER_VERBS) + len(OTHER_SIGNS)} commands")

    def test_no_shop_takes_or_adds_elsewhere(self):
        with Front(self.program, self.folder, script=SCRIPT, shops=SHOPS) as front:
            before = state_of(front)
            for command in ELSEWHERE:
                expect_refused(front, "n5", command, 403, "branch")
            expect(state_of(front) == before, "something was done")
        note(f"{len(ELSEWHERE)} commands")

    def test_each_does_what_it_may(self):
        """A shop acts in its range, and where it is restricted to branches, at these; the office on every order."""
        with Front(self.program, self.folder, script=SCRIPT, shops=SHOPS) as front:
            for user, command in DONE:
                status, body = front.tell(user, command)
                expect(status == 200, f"{user}, {command}: {status}, {body}")

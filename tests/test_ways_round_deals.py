"""Tests of ways round whose the deals are. Only the group between may use orders from 900,000,000 on, and keys that begin with
`between-`; it may use no others. Nobody moves the clock to the last moment. And each key of the clock goes only with its own
expiry. Whatever breaks this is refused by the front, and nothing of it reaches the desk; what the group may do is done."""

import json

from support.chains import Chain
from support.fronts import BETWEEN, OFFICE, SHOP, WAREHOUSE, Front, FrontCase, message
from support.programs import expect, note

DEALS = ["900000000", "900000001", "900000007", "912345678", "999999999"]
OTHERS = ["1", "7", "999999", "1000001", "90000000", "899999999", "9000000000", "90000000a", "a900000007", "9e8", "9-00000007"]

# each verb of an order
VERBS = [
    "open {} 60 take N1 A-2 1",
    "transfer {} 60 A-2 N1 N2 1",
    "more {} take N1 A-2 1",
    "use {} N1 A-1 1",
    "release {} N1 A-1 1",
    "commit {}",
    "abort {}",
    "firm {}",
]
# the verbs of the group between
OWN = {"open", "use", "commit", "abort"}

# an order of a deal with something before or within its number
SPELLED = ["commit  900000007", " commit 900000007", "commit 0900000007", "commit 00900000007", "COMMIT 900000007"]
SPELLED += ["commit 900000007 ", "commit 900000007 7", "-commit 900000007", "commit-7 900000007", "expires 900000007"]

# how the last moment may be spelled
LAST = ["expire 4000000000", "expire 04000000000", "expire  4000000000", " expire 4000000000", "expire 4000000000 "]
LAST += ["expire 4000000000 1"]

KEYS = ["between-900000001-use-1", "between-", "between--", "between-1", "between-" + "a" * 28]
OTHER_KEYS = ["WAY", "between", "Between-900000001-use-1", "BETWEEN-1", "-between-1", "1-between-1", "betwee-n"]

SCRIPT = "".join(f"F{branch}{n} field {branch} A-{n} 0 1000 500\n" for branch in ["N1", "N2"] for n in range(1, 65))
SCRIPT += "O1 open 900000007 60 take N1 A-1 9\nO2 open 7 60 take N1 A-1 9\n"
LINES = " ".join(f"{'take' if n % 2 else 'add'} N1 A-{n} 1" for n in range(1, 65))

# what is done, one after the other
DONE = [
    (BETWEEN, "open 900000000 60 take N1 A-1 7", "between-900000000-0123456789abcdef"),
    (BETWEEN, f"open 900000001 4000000000 {LINES}", "between-900000001-0123456789abcdef"),
    (BETWEEN, "open 999999999 4000000000 add N2 A-1 1", "between-999999999-0123456789abcdef-2"),
    (BETWEEN, "use 900000000 N1 A-1 7", "between-900000000-use-1"),
    (BETWEEN, "use 900000001 N1 A-64 1", "between-900000001-use-64"),
    (BETWEEN, "commit 900000000", "between-900000000-commit"),
    (BETWEEN, "abort 900000001", "between-900000001-abort"),
    (OFFICE, "open 899999999 60 take N1 A-1 7", "betwee-n"),
    (OFFICE, "firm 899999999", "Between-1"),
    (OFFICE, "commit 7", "7"),
    (OFFICE, "expire 59", "K1"),
    (OFFICE, "expire 900000007", "K2"),
    (OFFICE, "expire 900000008", "clock-900000008"),
    (OFFICE, "deliver N1 A-1 1", "clock-"),
    (OFFICE, "deliver N1 A-1 1", "clock-1-1"),
    (OFFICE, "deliver N1 A-1 1", "Clock-1"),
    (OFFICE, "expire 3999999999", "K3"),
]

Row = tuple[str, str, str, int, str]


def rows_of_others() -> list[Row]:
    """What the other groups may not do: user, command, key, and the refusal."""
    rows = [(OFFICE, verb.format(number), "WAY", 403, "order") for verb in VERBS for number in DEALS]
    rows += [(OFFICE, command, "WAY", 403, "order") for command in SPELLED]
    rows += [(SHOP, verb.format("900000007"), "WAY", 403, "group" if verb[:4] == "firm" else "order") for verb in VERBS]
    rows += [(WAREHOUSE, verb.format("900000007"), "WAY", 403, "group") for verb in VERBS]
    mays = [(OFFICE, "deliver N1 A-1 7"), (SHOP, "commit 7"), (WAREHOUSE, "deliver N1 A-1 7"), (OFFICE, "commit 900000007")]
    return rows + [(user, command, key, 403, "key") for user, command in mays for key in KEYS]


def rows_of_between() -> list[Row]:
    """What the group between may not do."""
    rows: list[Row] = []
    for verb in VERBS:
        error = "order" if verb.split()[0] in OWN else "group"
        rows += [(BETWEEN, verb.format(number), "between-1", 403, error) for number in OTHERS]
    others = [
        "more 900000007 take N1 A-2 1",
        "release 900000007 N1 A-1 1",
        "firm 900000007",
        "deliver N1 A-1 7",
        "writeoff N1 A-1 7",
    ]
    others += ["transfer 900000007 60 A-2 N1 N2 1", "field N3 A-1 0 9 9", "rebound N1 A-1 0 9", "expire 1", "expire 900000007"]
    others += ["COMMIT 900000007", "commits 900000007", "", " "]
    rows += [(BETWEEN, command, "between-1", 403, "group") for command in others]
    return rows + [(BETWEEN, "commit 900000007", key, 403, "key") for key in OTHER_KEYS]


def rows_of_moments() -> list[Row]:
    groups = {SHOP: "group", WAREHOUSE: "group", BETWEEN: "group", OFFICE: "moment"}
    keys = {BETWEEN: "between-1"}
    return [(user, command, keys.get(user, "WAY"), 403, error) for user, error in groups.items() for command in LAST]


def rows_of_clock() -> list[Row]:
    """Keys of the clock, under which only the clock's own expiry goes."""
    mays = [(SHOP, "commit 7"), (WAREHOUSE, "deliver N1 A-1 7"), (OFFICE, "deliver N1 A-1 7"), (BETWEEN, "commit 900000007")]
    mays += [(OFFICE, f"expire {moment}") for moment in ["5", "56", "7", "75", "057", "57 ", "57 1"]] + [(OFFICE, " expire 57")]
    return [(user, command, "clock-57", 403, "key") for user, command in mays] + [(OFFICE, "expire 57", "clock-057", 403, "key")]


def state_of(front: Front) -> list[str]:
    targets = ["/v1/orders/7", "/v1/orders/900000007", "/v1/sheets/N1", "/v1/sheets/N2", "/v1/desk", "/v1/open/0"]
    return [front.ask(OFFICE, "GET", target)[1] for target in targets]


class WaysRoundDeals(FrontCase):
    def test_nobody_goes_round(self):
        """One row after the other is refused, and behind each its key is free."""
        rows = rows_of_others() + rows_of_between() + rows_of_moments() + rows_of_clock()
        with Front(self.program, self.folder, script=SCRIPT) as front:
            before = state_of(front)
            for user, command, key, status, error in rows:
                for body in [message(key, command), json.dumps({"command": command, "key": key})]:
                    found = front.ask(user, "POST", "/v1/commands", body)
                    want = (status, json.dumps({"error": error}, separators=(",", ":")))
                    expect(found == want, f"{user}, {command!r} under {key}: {found} and not {want}")
                expect(front.ask(OFFICE, "GET", f"/v1/keys/{key}")[0] == 404, f"{user}, {command!r}: its key is taken")
            expect(state_of(front) == before, "something was done")
        note(f"{len(rows)} commands")

    def test_each_does_what_it_may(self):
        """The group between carries a deal, also with 64 lines, and all see its orders; the office has all orders below these."""
        with Front(self.program, self.folder, script=SCRIPT) as front:
            for user, command, key in DONE:
                status, body = front.tell(user, command, key)
                expect(status == 200, f"{user}, {command}: {status}, {body}")
            for user in [OFFICE, SHOP, WAREHOUSE, BETWEEN]:
                for target in [
                    "/v1/orders/900000000",
                    "/v1/keys/between-900000000-commit",
                    "/v1/open/900000000",
                    "/v1/desk",
                    "/",
                ]:
                    expect(front.ask(user, "GET", target)[0] == 200, f"{user}, {target}")

    def test_at_each_of_several_desks(self):
        """A user who is at both desks carries a deal at both; a user who is at one does nothing at the other."""
        with Chain(self.program, self.folder, users=["b2 between"], at=["b2 north"]) as front:
            for user, desk, want in [
                (BETWEEN, "north", 200),
                (BETWEEN, "south", 200),
                ("b2", "north", 409),
                ("b2", "south", 403),
            ]:
                line = f"open 900000007 60 take {desk[0].upper()}1 A-1 1"
                status, body = front.tell(user, line, f"between-{user}-open", f"/{desk}")
                expect(status == want, f"{user}, {desk}: {status} {body}")
                for command in [line, "commit 900000007", "abort 900000007"]:
                    found = front.tell(OFFICE, command, desk=f"/{desk}")
                    expect(found == (403, {"error": "order"}), f"{command} at {desk}: {found}")
                expect(front.tell(OFFICE, "expire 4000000000", desk=f"/{desk}") == (403, {"error": "moment"}), f"{desk}: moved")

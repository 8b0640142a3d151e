"""Tests of when `stockdesk-rollover` rolls a desk up by itself: where places or orders fill up and a roll gives room; with how
many keys; and deals for which a roll waits."""

import os
import shutil

from support.cases import ProgramCase, needs_strict_tables
from support.copies import alone
from support.desks import Desks, of_desk, of_open, of_orders
from support.programs import done, expect, new_desk
from support.rolled import lying, tool_ended
from support.rolls import expect_rolled
from support.tables import tables_of
from support.units import UNIT, seconds_of, settings_of

from stockdesk_room import Look, keys_for
from stockdesk_rows import PLACES, Counts, Deals

HALF = 100_000

# how many keys stay for so many open orders, where nothing is told: a quarter of 200,000 places is free behind the roll
KEYS = [(0, 100_000), (49_999, 100_000), (50_000, 100_000), (50_001, 99_999), (60_000, 90_000), (100_000, 50_000)]

# places, open orders, all orders, orders of deals that have ended and stay; and whether a desk is rolled up from half of its
# places on
WANTED = [
    # some key goes
    (99_999, 0, 0, 0, False),
    (100_000, 0, 0, 0, False),
    (100_001, 0, 0, 0, True),
    (60_000, 40_000, 40_000, 0, False),
    (190_000, 0, 0, 0, True),
    # less than a quarter of the places is free
    (90_000, 60_000, 60_000, 0, False),
    (90_001, 60_000, 60_000, 0, True),
    (50_001, 100_000, 100_000, 0, True),
    # half of the room for orders is taken, and half of these go
    (60_000, 0, 49_999, 0, False),
    (60_000, 0, 50_000, 0, True),
    (60_000, 25_000, 50_000, 0, True),
    (60_000, 25_001, 50_000, 0, False),
    (60_000, 20_000, 50_000, 5_000, True),
    (60_000, 20_000, 50_000, 5_001, False),
    (60_000, 50_000, 100_000, 0, True),
    (60_000, 50_001, 100_000, 0, False),
]

# as many places as open orders beside them; whether a roll waits for a deal then
WAITING = [(170_000, 9_999, True), (170_000, 10_000, False), (179_999, 0, True), (180_000, 0, False)]

# commands of a deal that is open, and others behind them
OPENED = ["M1 field N1 A-1 0 100 40", "M2 open 900000001 4000000000 take N1 A-1 5"]
OTHERS = [f"D{number} deliver N1 A-1 1" for number in range(4)]
NAMES_IT = "M3 use 900000001 N1 A-1 5"
WAITS = "900000001, open for longer than the last {} commands\n"


def desk_with(program, folder, lines):
    path = new_desk(program, folder)
    replies = done(program, ["run", path], "".join(f"{line}\n" for line in lines))
    expect(all(" done " in reply for reply in replies), f"{replies}")
    return path


class Rules(ProgramCase):
    """What is decided, without a program."""

    def test_open_orders_leave_a_quarter_of_the_places_free(self):
        for count, keys in KEYS:
            counts = Counts(200_000 - count, count, 1, count)
            expect(keys_for(counts, None) == keys, f"{count} open orders: {keys_for(counts, None)} keys and not {keys}")
            expect(min(keys, counts.places) + count <= 150_000, f"{count} open orders leave too little")
            for told in [0, 7, 200_000]:
                expect(keys_for(counts, told) == told, f"{keys_for(counts, told)} keys and not {told}, as told")

    def test_a_roll_comes_where_it_gives_room(self):
        for places, is_open, orders, staying, want in WANTED:
            counts = Counts(places, is_open, 10_000, orders)
            reason = Look(counts, keys_for(counts, None), Deals(staying)).why_not(HALF)
            expect((reason is None) == want, f"{counts}, {staying} stay: {reason}")
            expect(Look(counts, keys_for(counts, None), Deals(staying)).why_not(None) is None, f"{counts}: not rolled by hand")

    def test_a_roll_waits_for_a_deal_up_to_nine_tenths(self):
        for places, is_open, waits in WAITING:
            counts = Counts(places, is_open, 1, is_open)
            reason = Look(counts, keys_for(counts, None), Deals(0, (900_000_001,))).why_not(HALF)
            expect((reason is not None) == waits, f"{counts}: {reason}")

    def test_deals_are_named_in_a_line(self):
        for count, want in [(1, "900000001, "), (5, "900000004, 900000005, "), (7, "900000005 and 2 more, ")]:
            numbers = tuple(range(900_000_001, 900_000_001 + count))
            told = Look(Counts(120_000, count, 1, count), 100_000, Deals(0, numbers)).stuck()
            expect(want in f"{told}, " and told.startswith("900000001"), told)

    def test_rolls_do_not_run_into_the_limit_on_starts(self):
        """Behind a roll at least a quarter of the places is free, and the service ends once a twentieth is. No load fills what
        lies between faster than by 20,000 commands a second; then come the pause and a roll, which takes a second at least. A
        program that ends again and again runs into the limit, if a start takes two seconds at most."""
        [burst] = settings_of(UNIT, "StartLimitBurst")
        within, pause = seconds_of("StartLimitIntervalSec"), seconds_of("RestartSec")
        fastest = (PLACES // 4 - PLACES // 20) / 20_000 + pause + 1
        expect(int(burst) * fastest > within, f"{burst} rolls, one each {fastest:.1f} s, take less than {within} s")
        expect(int(burst) * (pause + 2) <= within, f"{burst} ends take more than {within} s")


@needs_strict_tables
class Wanted(ProgramCase):
    def test_a_roll_is_wanted_of_a_file(self):
        """The desks lie on both sides of each limit, as files; nothing is changed or made."""
        desks = Desks(self.program, self.folder)
        aborted = [row for row in of_orders(50_000) if not row.startswith("desk")]
        deals = [f"orders,{number},0,0,2" for number in range(900_000_001, 900_000_003)]
        named = ["kept,X1,1,commit 900000001", "kept,X2,2,abort 900000002", "kept,X3,3,abort 9000000010"]
        for rows, want, told in [
            (of_desk(100_000), 3, "100000 places are taken, and all their keys would stay"),
            (of_desk(100_001), 0, "100001 places are taken"),
            (of_desk(99_999), 3, "99999 places are taken and 0 set aside, fewer than 100000"),
            (["desk,1,2,0,99999", *of_open(1)], 3, "99999 places are taken, and all their keys would stay"),
            (["desk,1,2,0,90001", *of_open(60_000)], 0, "90001 places are taken"),
            (["desk,1,2,0,90000", *of_open(60_000)], 3, "90000 places are taken, and all their keys would stay"),
            (["desk,1,2,0,0", *aborted], 0, "50000 orders are there, and 50000 of them would go"),
            (["desk,1,2,0,0", *aborted[:-2]], 3, "0 places are taken and 0 set aside, fewer than 100000"),
            (["desk,1,2,0,3", *aborted, *deals, *named], 0, "50002 orders are there, and 50000 of them would go"),
            (["desk,1,2,0,3", *aborted[: 1 + 2 * 24_999], *of_open(25_001, 100_000)[1:], *deals], 0, "50002 orders"),
        ]:
            desks.put(rows)
            status, out, errors = tool_ended(self.program, ["--wants", desks.path, "--from", str(HALF)])
            expect((status, errors) == (want, b"") and told in out.decode(), f"{rows[0]}: {status}, {out!r}, {errors!r}")

    def test_many_open_orders_leave_fewer_keys(self):
        """Of 100,000 keys beside 60,000 open orders 90,000 stay, so that a quarter of the places is free; or as many as are
        told."""
        desks, read = Desks(self.program, self.folder), os.path.join(self.folder, "read.db")
        for words, keys in [(["--from", str(HALF)], 90_000), (["--keys", "95000"], 95_000)]:
            desks.put([*of_desk(100_000), *of_open(60_000)])
            shutil.copyfile(desks.path, read)
            status, out, errors = tool_ended(self.program, [desks.path, *words])
            expect((status, errors) == (0, b""), f"{status}, {out!r}, {errors!r}")
            expect_rolled(read, desks.path, keys)


@needs_strict_tables
class Waits(ProgramCase):
    def test_a_roll_waits_for_a_deal_that_is_open_for_long(self):
        """Carriers know its order by the key under which it was opened: so a roll waits where that key would go, also if a late
        command uses the order. It does not wait for a deal that has ended, nor where nobody told from how many places on."""
        path = desk_with(self.program, self.folder, [*OPENED, *OTHERS])
        for turn, keys in enumerate([4, 5]):
            found, names = lying(path), os.listdir(self.folder)
            for words, start in [([], "nothing is done"), (["--wants"], "no roll is wanted")]:
                end = tool_ended(self.program, [*words, path, "--from", "1", "--keys", str(keys)])
                want = f"{start}: it waits for deals: {WAITS.format(keys)}".encode()
                expect(end == (3 if words else 0, want, b""), f"{words}: {end}")
            expect(lying(path) == found and sorted(os.listdir(self.folder)) == sorted(names), "something was changed")
            words = ["--wants", path, "--from", "1", "--keys", str(keys + 1)]
            expect(tool_ended(self.program, words)[0] == 0, "it waits, though the key stays")
            done(self.program, ["run", path], f"{NAMES_IT}\n" if turn == 0 else "")
        expect_rolls(self.program, path, ["--from", "1", "--keys", "6"], 1)
        expect_rolls(self.program, path, ["--keys", "3"], 1)
        done(self.program, ["run", path], "M4 commit 900000001\nM5 deliver N1 A-1 1\nM6 deliver N1 A-1 1\n")
        expect_rolls(self.program, path, ["--from", "1", "--keys", "1"], 1)

    def test_at_nine_tenths_no_roll_waits(self):
        """179,999 places are taken, and one is set aside for the deal: its order stays, and the tool names it."""
        desks = Desks(self.program, self.folder)
        desks.put([*of_desk(179_999), *of_open(1, 900_000_001)])
        told = expect_rolls(self.program, desks.path, ["--from", str(HALF)], 2)
        expect(told.startswith("somebody has to look at deals: " + WAITS.format(HALF)), told)
        [order] = tables_of(desks.path)["orders"]
        expect((order.number, order.state) == (900_000_001, 0), f"{order}")

    def test_a_look_tells_the_deals_that_hold_a_roll_up(self):
        """So it does of a file and of a desk that is served. Where the file of that one cannot be read, it says so."""
        desks, none = Desks(self.program, self.folder), os.path.join(self.folder, "none.db")
        desks.put([*of_desk(3), *of_open(1, 900_000_001)])
        want = "\ndeals for which a roll waits: " + WAITS.format(HALF)
        status, out, errors = tool_ended(self.program, ["--check", desks.path])
        expect((status, errors) == (3, b"") and out.decode().endswith(want), f"{status}, {out!r}, {errors!r}")
        for path, status, text in [(desks.path, 3, want), (none, 0, "")]:
            with alone(self.program, desks.path) as service:
                end = tool_ended(self.program, ["--check", path, "--port", str(service.port)])
            expect((end[0], end[2]) == (status, b"") and end[1].decode().endswith(text), f"{path}: {end}")
            expect((b"deals are not looked at: " in end[1]) == (path == none), f"{path}: {end}")
        desks.put([*of_orders(90_000), *of_open(1, 900_000_001)[1:]])
        status, out, errors = tool_ended(self.program, ["--check", desks.path])
        expect(b"orders: 90001 of 100000, 90 percent, nearly full: a roll waits for deals\n" in out, f"{out!r}, {errors!r}")
        desks.put([*of_desk(3), *of_open(1, 899_999_999)])
        expect(tool_ended(self.program, ["--check", desks.path])[0] == 0, "told of an order that is no deal's")


def expect_rolls(program, path, words, lines):
    """A run rolls the desk up, and says so in so many lines; returns them."""
    status, out, errors = tool_ended(program, [path, *words])
    expect((status, errors, out.count(b"\n")) == (0, b"", lines), f"{words}: {status}, {out!r}, {errors!r}")
    expect(out.splitlines()[-1].startswith(b"rolled up: "), f"{words}: {out!r}")
    return out.decode()

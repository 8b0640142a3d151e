"""Tests of how `stockdesk-between` is called, before the built program: its words, each way that a deal ends, what it takes up,
and calls through the front."""

import json
import os
import random
import socket
import subprocess
import sys
import time
import unittest
from unittest import mock

from support.cases import ProgramCase
from support.deal_runs import CARRIER, KILLED
from support.deal_chains import Chain, chain
from support.fronts import Front, FrontCase
from support.programs import SECONDS, expect, note

from stockdesk_deals import LATEST, Deal, Line, Side
from stockdesk_remote import HttpDesk, NoAnswer, NotServed

NUMBER = 900_000_001
NEVER = 4_000_000_000
# with more than twice as many as a view shows at once
LEFT = 120
TRANSFERS = 16
URLS = ["http://127.0.0.1:1", "http://127.0.0.1:2"]
MOVE = ["--move", "A-1", "7", "N0", "N1"]

# words that are wrong, and what the tool says about them
NO_WORDS: list[tuple[list[str], str]] = [
    ([], "no number of a deal"),
    (["899999999", *URLS, *MOVE], "no number of a deal"),
    (["1000000000", *URLS, *MOVE], "no number of a deal"),
    (["9", *URLS, *MOVE], "no number of a deal"),
    ([str(NUMBER), *MOVE], "two desks at least are to be named"),
    ([str(NUMBER), URLS[0], *MOVE], "two desks at least are to be named"),
    ([str(NUMBER), URLS[0], f"{URLS[0]}/", *MOVE], "two desks at least are to be named, each once"),
    ([str(NUMBER), URLS[0], "127.0.0.1:2", *MOVE], "no URL of a desk"),
    ([str(NUMBER), URLS[0], "ftp://127.0.0.1", *MOVE], "no URL of a desk"),
    ([str(NUMBER), URLS[0], "http://ho:ho@127.0.0.1:2", *MOVE], "no URL of a desk"),
    ([str(NUMBER), URLS[0], "http://127.0.0.1:2/?x", *MOVE], "no URL of a desk"),
    ([str(NUMBER), URLS[0], "http://127.0.0.1:2/b d", *MOVE], "no URL of a desk"),
    ([str(NUMBER), URLS[0], "http://127.0.0.1:2/\u00e9", *MOVE], "no URL of a desk"),
    ([str(NUMBER), URLS[0], "http://127.0.0.1:65536", *MOVE], "no URL of a desk"),
    ([str(NUMBER), URLS[0], "http://127.0.0.1:x", *MOVE], "no URL of a desk"),
    ([str(NUMBER), URLS[0], "http://a..b", *MOVE], "no URL of a desk"),
    ([str(NUMBER), URLS[0], "http://[::1", *MOVE], "no URL of a desk"),
    ([str(NUMBER), *URLS, "http://127.0.0.1:3", *MOVE], "3 desks, and lines of 2"),
    ([str(NUMBER), *URLS, "--lines", "take", "N0", "A-1", "7"], "2 desks, and lines of 1"),
    ([str(NUMBER), *URLS, "--lines", "take", "N0", "A-1"], "a line is WAY BRANCH ARTICLE QUANTITY"),
    ([str(NUMBER), *URLS, "--move", "A-1", "0", "N0", "N1"], "is no line"),
    ([str(NUMBER), *URLS, "--move", "A-1", "07", "N0", "N1"], "is no line"),
    ([str(NUMBER), *URLS, "--move", "A-1", "1000001", "N0", "N1"], "is no line"),
    ([str(NUMBER), *URLS, "--move", "A_1", "7", "N0", "N1"], "is no line"),
    ([str(NUMBER), *URLS, "--move", "A-1", "7", "n0", "N1"], "is no line"),
    ([str(NUMBER), *URLS, *MOVE, *MOVE], "each on another field"),
    ([str(NUMBER), *URLS, *MOVE, "--lines", "take", "N0", "A-1", "7"], "do not go together"),
    ([str(NUMBER), *URLS, *MOVE, "--hold"], "--hold with --until"),
    ([str(NUMBER), *URLS, "--until", "500"], "--until goes with"),
    ([str(NUMBER), *URLS, *MOVE, "--until", "0"], "none of 1 to"),
    ([str(NUMBER), *URLS, *MOVE, "--until", "3999999999"], "none of 1 to"),
    ([str(NUMBER), *URLS, *MOVE, "--patience", "long"], "no number of seconds"),
    ([str(NUMBER), *URLS, *MOVE, "--certificate", "/nothing"], "no file /nothing"),
    ([str(NUMBER), *URLS, *MOVE, "--res"], "unrecognized"),
    (["--resume-all", URLS[0]], "two desks at least are to be named"),
    (["--resume-all", *URLS, *MOVE], "--resume-all with none"),
]

# a command at one of the desks, 0 or 1, by somebody else while a deal is held, and how the deal then ends
OTHER_HANDS = [
    ((0, "abort {n}"), 1, "somebody gave it up"),
    ((0, "expire 500"), 1, "somebody gave it up"),
    ((1, "abort {n}"), 1, "it was given up"),
    ((1, f"expire {NEVER}"), 1, "it was given up"),
    ((0, "commit {n}"), 4, "has not used all"),
    ((1, "commit {n}"), 4, "is committed, but open at the first desk"),
    ((1, "firm {n}"), 4, "is no deal's: "),
    ((0, "use {n} N0 A-1 3"), 4, "is no deal's: "),
    ((1, "more {n} add N1 A-1 1"), 4, "is another deal's"),
    ((0, "release {n} N0 A-1 1"), 4, "is another deal's"),
]

# what a deal is to do, and why it is refused
REFUSED = [
    (["--move", "A-9", "7", "N0", "N1"], "0 refuses to open it: NoField, line 1"),
    (["--move", "A-1", "41", "N0", "N1"], "0 refuses to open it: TooLittle, line 1"),
    (["--move", "A-1", "7", "N0", "N1", "--move", "A-2", "39", "N0", "N1"], "1 refuses to open it: TooMuch, line 2"),
    (["--move", "A-1", "7", "N0", "N9"], "1 refuses to open it: NoField, line 1"),
    (["--move", "A-1", "7", "N0", "N1", "--until", "9"], "0 refuses to open it: Past"),
]


def called(*words: str, environment: dict[str, str] | None = None) -> tuple[int, str]:
    """The status of a call, and what it writes."""
    ended = subprocess.run(
        [sys.executable, CARRIER, *words], capture_output=True, text=True, timeout=4 * SECONDS, env=environment
    )
    return ended.returncode, ended.stdout + ended.stderr


class Words(unittest.TestCase):
    def test_wrong_words_are_refused(self):
        for words, cause in NO_WORDS:
            status, told = called(*words)
            expect(status == 2 and cause in told, f"{words}: {status} {told}")

    def test_a_name_that_nobody_has(self):
        """The call says so at once. A name that cannot be looked up just now counts as that of a desk that does not answer."""
        for number in (socket.EAI_NONAME, socket.EAI_NODATA, socket.EAI_AGAIN):
            desk = HttpDesk("http://desk.example:8080", 0)
            with mock.patch("socket.getaddrinfo", side_effect=socket.gaierror(number, "as told")):
                if number == socket.EAI_AGAIN:
                    desk.expect_there()
                    self.assertRaises(NoAnswer, desk.order, NUMBER)
                else:
                    self.assertRaisesRegex(NotServed, "its name is not known: as told", desk.expect_there)


class Ends(ProgramCase):
    def test_several_lines_and_desks(self):
        with chain(self.program, self.folder, 3) as desks:
            moves = [*MOVE, "--move", "A-2", "3", "N0", "N1"]
            for _ in range(2):
                expect(called(str(NUMBER), *desks.urls()[:2], *moves) == (0, f"{NUMBER} moved\n"), "not moved")
            lines = ["take N0 A-1 1 add N0 A-2 2", "take N1 A-1 3", "add N2 A-2 4 take N2 A-1 5"]
            words = [word for line in lines for word in ("--lines", *line.split())]
            expect(called(str(NUMBER + 1), *desks.urls(), *words) == (0, f"{NUMBER + 1} moved\n"), "not moved")
            expect(desks.values(1) == [40 - 7 - 1, 40 + 7 - 3, 40 - 5], f"{desks.values(1)}")
            expect(desks.values(2) == [40 - 3 + 2, 40 + 3, 40 + 4], f"{desks.values(2)}")

    def test_what_a_desk_refuses(self):
        with chain(self.program, self.folder) as desks:
            for number, (words, cause) in enumerate(REFUSED, NUMBER):
                status, told = called(str(number), *desks.urls(), *words)
                cause = f"not moved: {desks.urls()[int(cause[0])]}{cause[1:]}"
                expect(status == 1 and cause in told and told.count("\n") == 1, f"{words}: {status} {told}")
                expect(desks.free(), f"{words}: something is held")
            expect(desks.values() == [40, 40], "something is moved")

    def test_a_deal_that_is_held(self):
        """A held deal goes on when it is called again, or is taken up and given back; until then nobody else gets what it
        holds."""
        with chain(self.program, self.folder) as desks:
            for number, last, status, value in [(NUMBER, MOVE, 0, 33), (NUMBER + 1, [], 1, 33)]:
                held = called(str(number), *desks.urls(), *MOVE, "--until", "500", "--hold")
                expect(held == (0, f"{number} held\n"), f"{held}")
                expect(desks.shown(0, "/v1/fields/N0/A-1")["inf"] == desks.values()[0] - 7, "it is not held")
                found = called(str(number), *desks.urls(), *last)
                expect(found[0] == status and desks.values()[0] == value and desks.free(), f"{found}")

    def test_other_hands(self):
        """Somebody else uses the deal's number. Before the decision that only gives the deal up; where something was decided,
        nothing more is done."""
        for number, ((desk, command), status, cause) in enumerate(OTHER_HANDS, NUMBER):
            with chain(self.program, self.folder_of(number)) as desks:
                called(str(number), *desks.urls(), *MOVE, "--until", "500", "--hold")
                desks.tell(desk, command.format(n=number))
                states = [desks.shown(each, f"/v1/orders/{number}") for each in (0, 1)]
                found = called(str(number), *desks.urls(), *MOVE, "--until", "500")
                expect(found[0] == status and cause in found[1], f"{command}: {found}")
                expect(status == 4 or desks.free() and desks.values() == [40, 40], f"{command}: something is held or moved")
                behind = [desks.shown(each, f"/v1/orders/{number}") for each in (0, 1)]
                expect(status == 1 or behind == states, f"{command}: something was done")

    def folder_of(self, number: int) -> str:
        path = os.path.join(self.folder, str(number))
        os.mkdir(path)
        return path

    def test_a_desk_that_does_not_answer(self):
        """The call ends, and the same call goes on when the desk is there again; a call that waits for the desk goes on, too."""
        with chain(self.program, self.folder) as desks:
            urls, port = desks.urls(), desks.services[1].port
            desks.stop(1)
            status, told = called(str(NUMBER), *urls, *MOVE, "--patience", "0.2")
            expect(status == 3 and f"no answer of {urls[1]}" in told and "call again" in told, f"{status} {told}")
            waits = subprocess.Popen([sys.executable, CARRIER, str(NUMBER), *urls, *MOVE], stdout=subprocess.PIPE, text=True)
            time.sleep(1)
            desks.services[1] = desks.serve(1, port)
            out, _ = waits.communicate(timeout=4 * SECONDS)
            expect((waits.returncode, out) == (0, f"{NUMBER} moved\n"), f"{waits.returncode} {out}")

    def test_what_was_never_begun(self):
        with chain(self.program, self.folder) as desks:
            expect(called(str(NUMBER), *desks.urls()) == (1, f"{NUMBER} not moved: no desk has begun it\n"), "another end")

    def test_a_desk_that_is_misspelt(self):
        """The call says at once which desk that is, and begins nothing; also where the other desk is away."""
        with chain(self.program, self.folder) as desks:
            first, other = desks.urls()
            for pair in ([f"{first}/north", other], [first, f"{other}/north"]):
                wrong = next(url for url in pair if url.endswith("north"))
                for words in ([str(NUMBER), *pair], [str(NUMBER), *pair, *MOVE], ["--resume-all", *pair]):
                    status, told = called(*words)
                    expect(status == 2 and f"{wrong} is no desk" in told, f"{words}: {status} {told}")
            expect([desks.shown(each, "/v1/desk")["orders"] for each in (0, 1)] == [0, 0], "something is begun")
            desks.stop(0)
            began = time.monotonic()
            status, told = called(str(NUMBER), first, f"{other}/north", *MOVE)
            expect(status == 2 and f"{other}/north is no desk" in told, f"{status} {told}")
            expect(time.monotonic() - began < SECONDS / 2, "another one was waited for")

    def test_desks_in_any_order_are_taken_up(self):
        """Deals are taken up so, but not begun: where words say what to do, the first desk is the one that decides."""
        with chain(self.program, self.folder) as desks:
            words = [*MOVE, "--until", "500", "--hold"]
            called(str(NUMBER), *desks.urls(), *words)
            swapped = desks.urls()[::-1]
            status, told = called(str(NUMBER), *swapped, "--lines", *"add N1 A-1 7 --lines take N0 A-1 7".split())
            expect(status == 4 and "another deal's" in told, f"{status} {told}")
            status, told = called(str(NUMBER), *swapped)
            expect(status == 1 and desks.free(), f"{status} {told}")


def left(desks: Chain, number: int, stage: str) -> None:
    """A deal that is left somewhere on its way."""
    article = f"A-{1 + number % 2}"
    lines = [(Line("take", "N0", article, 1),), (Line("add", "N1", article, 1),)]
    there = [HttpDesk(url, SECONDS) for url in desks.urls()[:2]]
    sides = [Side(desk, each) for desk, each in zip(there, lines)]
    Deal(number, sides, 500 if stage == "held" else LATEST, holds=True).carry()
    for desk in there:
        desk.close()
    if stage in ("used", "decided"):
        desks.tell(1, f"use {number} N1 {article} 1")
        desks.tell(0, f"use {number} N0 {article} 1")
    if stage in ("decided", "given up"):
        desks.tell(0, f"{'commit' if stage == 'decided' else 'abort'} {number}")


# how a deal ends that is left so
STAGES = {"opened": "aborted", "used": "committed", "decided": "committed", "given up": "aborted"}


class All(ProgramCase):
    """Tests of what is taken up where all open deals are to be."""

    def test_all_that_is_open_is_taken_up(self):
        """There are more deals than a view shows at once, in each stage; two calls take them up at once, one of which is killed,
        with the desks in any order, one of which has no deal. Then nothing is open, and nothing is lost."""
        with chain(self.program, self.folder, 3, start=400, room=900) as desks:
            numbers = dict(zip(range(NUMBER, NUMBER + LEFT), LEFT * list(STAGES)))
            for number, stage in numbers.items():
                left(desks, number, stage)
            urls = [desks.urls()[each] for each in (2, 1, 0)]
            words = [sys.executable, CARRIER, "--resume-all", *urls, "--idle", "0"]
            pipe = subprocess.PIPE
            with subprocess.Popen(words, stdout=pipe) as first, subprocess.Popen(words, stdout=pipe) as second:
                # when it has written about some
                lines = [first.stdout and first.stdout.readline() for _ in range(10)]
                first.kill()
                second.communicate(timeout=4 * SECONDS)
            expect(second.returncode in (0, 1) and all(lines), f"{second.returncode}, {lines}")
            status, told = called("--resume-all", *urls, "--idle", "0")
            expect(status == 0, f"{status} {told}")
            expect(called("--resume-all", *urls) == (0, ""), "something is open")
            for number, stage in numbers.items():
                states = [desks.shown(each, f"/v1/orders/{number}")["state"] for each in (0, 1)]
                expect(states == 2 * [STAGES[stage]], f"{number}, {stage}: {states}")
            for article in (1, 2):
                stages = [stage for number, stage in numbers.items() if 1 + number % 2 == article]
                count = sum(STAGES[stage] == "committed" for stage in stages)
                expect(desks.values(article) == [400 - count, 400 + count, 400], f"A-{article}: {desks.values(article)}")
            note(f"{told.count(' moved')} of {LEFT} deals were left to the last")

    def test_what_is_held_or_under_way_is_left(self):
        """What is left is a deal that waits for a moment, unless it is asked for, and a deal at which somebody is at work."""
        with chain(self.program, self.folder) as desks:
            left(desks, NUMBER, "held")
            left(desks, NUMBER + 1, "opened")
            words = ["--resume-all", *desks.urls()]
            with subprocess.Popen([sys.executable, CARRIER, *words, "--idle", "8"], stdout=subprocess.PIPE, text=True) as call:
                time.sleep(3)
                desks.tell(1, f"use {NUMBER + 1} N1 A-1 1")
                told = call.communicate(timeout=4 * SECONDS)[0].splitlines()
            expect(call.returncode == 1 and len(told) == 2, f"{call.returncode} {told}")
            expect("held: until 500" in told[0] and "under way" in told[1], f"{told}")
            status, text = called(*words, "--idle", "0.1")
            expect(status == 1 and f"{NUMBER + 1} not moved" in text and "held" in text, f"{status} {text}")
            status, text = called(*words, "--idle", "0.1", "--held")
            expect(status == 0 and f"{NUMBER} not moved" in text and desks.free(), f"{status} {text}")

    def test_a_desk_that_is_away_keeps_nobody(self):
        """The deals that are open between the other desks are taken up; of the absent desk's deals, the others keep nothing that
        they may end."""
        with chain(self.program, self.folder, 3) as desks:
            for number, stage in enumerate(STAGES, NUMBER):
                left(desks, number, stage)
            words = [word for number in range(3) for word in ("--lines", "take", f"N{number}", "A-1", "1")]
            called(str(NUMBER + 9), *desks.urls(), *words, "--until", "500", "--hold")
            port = desks.services[2].port
            desks.stop(2)
            status, told = called("--resume-all", *desks.urls()[::-1], "--idle", "0", "--patience", "0.2", "--held")
            expect(status == 3 and f"no answer of {desks.urls()[2]} in 0.2 seconds" in told, f"{status} {told}")
            expect(f"order {NUMBER + 9}: no answer" in told, told)
            for number, stage in [*enumerate(STAGES, NUMBER), (NUMBER + 9, "opened")]:
                states = [desks.shown(each, f"/v1/orders/{number}")["state"] for each in (0, 1)]
                want = "open" if stage == "used" else STAGES[stage]
                expect(states == 2 * [want], f"{number}, {stage}: {states}")
            desks.services[2] = desks.serve(2, port)
            status, told = called("--resume-all", *desks.urls(), "--idle", "0")
            expect(status == 0 and f"{NUMBER + 1} moved" in told, f"{status} {told}")
            expect([desks.shown(each, "/v1/desk")["open"] for each in range(3)] == [0, 0, 0], "something is open")

    def test_other_hands_stop_their_deals_alone(self):
        """Somebody has committed one deal by hand at its other desk, has made one firm there, and has opened an order of such a
        number."""
        with chain(self.program, self.folder) as desks:
            for number in range(NUMBER, NUMBER + 4):
                left(desks, number, "used")
            hands = [f"commit {NUMBER + 1}", f"firm {NUMBER + 2}", f"open {NUMBER + 4} {NEVER} take N1 A-1 1"]
            for command in hands:
                desks.tell(1, command)
            status, told = called("--resume-all", *desks.urls(), "--idle", "0")
            expect(status == 4 and told.count(" moved") == 2, f"{status} {told}")
            expect(all(f"order {number} " in told for number in (NUMBER + 1, NUMBER + 2, NUMBER + 4)), told)
            for number in (NUMBER + 1, NUMBER + 2):
                expect(desks.shown(0, f"/v1/orders/{number}")["state"] == "open", "something was done")


class Fronted(FrontCase):
    """Calls through the front of each desk, over TLS, as a user of it."""

    def setUp(self) -> None:
        super().setUp()
        self.fronts = []
        for number in (0, 1):
            folder = os.path.join(self.folder, str(number))
            os.mkdir(folder)
            script = f"F field N{number} A-1 0 1000 500\n"
            self.fronts.append(self.enterContext(Front(self.program, folder, script=script)))
        # one certificate of each
        self.certificates = os.path.join(self.folder, "certificates")
        with open(self.certificates, "w", encoding="ascii") as file:
            for front in self.fronts:
                with open(os.path.join(front.folder, "certificate"), encoding="ascii") as one:
                    file.write(one.read())

    def words(self, number: int, qty: int = 7, turned: bool = False) -> list[str]:
        sides = [1, 0] if turned else [0, 1]
        urls = [f"https://localhost:{self.fronts[side].port}" for side in sides]
        branches = [f"N{side}" for side in sides]
        return [str(number), *urls, "--move", "A-1", str(qty), *branches, "--certificate", self.certificates]

    def environment(self, user: str = "bt:bt") -> dict[str, str]:
        return {**os.environ, "DESK_USER": user}

    def values(self) -> list[int]:
        found = [front.ask("ho", "GET", f"/v1/fields/N{number}/A-1") for number, front in enumerate(self.fronts)]
        return [json.loads(body)["value"] for _, body in found]

    def test_who_is_let_in(self):
        words = self.words(NUMBER)
        for user, cause in [("bt:other", "knows no such user"), ("", "knows no such user"), ("ho:ho", "does not let this user")]:
            status, told = called(*words, environment=self.environment(user))
            expect(status == 2 and cause in told and "other" not in told, f"{user}: {status} {told}")
        status, told = called(*words[:-2], environment=self.environment())
        expect(status == 2 and "certificate is not known" in told, f"{status} {told}")
        expect(self.values() == [500, 500], "something was done")
        expect(called(*words, environment=self.environment()) == (0, f"{NUMBER} moved\n"), "not moved")
        expect(self.values() == [493, 507], f"{self.values()}")

    def test_desks_and_carriers_are_killed(self):
        """Desks behind the front, and carriers, are killed at any moment: each transfer is moved whole or not at all."""
        chance, moved, killed = random.Random(1986), 0, 0
        for number in range(NUMBER, NUMBER + TRANSFERS):
            quantity, turned = chance.randint(1, 9), chance.random() < 0.5
            words = self.words(number, quantity, turned)
            status = KILLED
            while status == KILLED:
                with subprocess.Popen([sys.executable, CARRIER, *words], env=self.environment(), stdout=subprocess.PIPE) as call:
                    time.sleep(chance.uniform(0.05, 0.2))
                    victim = chance.choice([None, None, *self.fronts])
                    if victim:
                        victim.desk_kill()
                        victim.desk_start()
                    else:
                        call.kill()
                    call.communicate(timeout=4 * SECONDS)
                status = call.returncode
                killed += status == KILLED
            expect(status in (0, 1), f"{number}: status {status}")
            moved += (quantity if turned else -quantity) if status == 0 else 0
            expect(self.values() == [500 + moved, 500 - moved], f"{number}: {self.values()}, {moved}")
        note(f"{TRANSFERS} transfers, {killed} carriers killed")

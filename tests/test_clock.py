"""Tests of `stockdesk-clock`, which ends the orders whose moment has come: at their minute, over desks that are out of service,
with runs that are killed or at once, with clocks that jump, and with whatever may be wrong with the file of what was seen."""

import contextlib
import os
import shlex
import socket
import subprocess
import time

from support.cases import ProgramCase, needs, needs_strict_tables
from support.clocks import DAY, MINUTE, NOTHING, PATIENCE, TOOL, Clock, Desk, at, end_of, expect_ended, expect_fault
from support.desks import OPEN_ORDER, Desks, of_desk
from support.disks import small_disk
from support.programs import expect, note
from support.relays import Relay, false_desk
from support.service import TOGETHER, Service

ROUNDS = 10

# what is no file of what was seen
GARBAGE = [b"", b"\n", b"now\n", b"29979360", b" 29979360\n", b"-1\n", b"1e9\n", b"4000000001\n", b"029979360\n", b"1\n1\n"]
GARBAGE += [bytes(range(256)), b"9" * 100_000]

# the calls at which a run that begins a minute is killed: those that make, sync and name the file of what was seen
CALLS = ["mkdir:when=1", "fsync:when=1", "rename:when=1", "fsync:when=2", "rmdir:when=1"]

# words that are wrong
NO_WORDS = [[], ["8080"], ["--seen", "seen"], ["8080", "--seen"], ["8080", "--seen", "seen", "--jumps"]]
NO_WORDS += [[port, "--seen", "seen"] for port in ["0", "65536", "-1", "x", "", "80 80", "8e3", "٨"]]


class ClockCase(ProgramCase):
    """Tests of a desk with two orders: 1 until MINUTE, 2 until the minute after it. So three places are taken."""

    def setUp(self):
        super().setUp()
        self.desk = Desk(self.program, self.folder)
        self.clock = Clock(0, self.folder)

    @contextlib.contextmanager
    def served(self):
        with self.desk.served():
            self.clock.port = self.desk.port
            yield self.desk

    @contextlib.contextmanager
    def begun(self):
        """The desk is served, and a run has seen the minute before MINUTE."""
        with self.served() as desk:
            for number, until in enumerate([MINUTE, MINUTE + 1], 1):
                desk.open(number, until)
            self.clock.see(MINUTE - 1)
            yield desk


class Minutes(ClockCase):
    def test_orders_end_at_their_minute_and_no_sooner(self):
        """The tool takes a place where something is due and nowhere else, and firm orders stay."""
        with self.begun() as desk:
            desk.open(3, MINUTE)
            desk.call("M3", "firm 3")
            self.clock.see(MINUTE - 1 - DAY)
            places = desk.places()
            for minute, states, spent, clock in [
                (MINUTE - 1, ["open", "open", "firm"], 0, 0),
                (MINUTE, ["aborted", "open", "firm"], 1, MINUTE),
                (MINUTE, ["aborted", "open", "firm"], 1, MINUTE),
                (MINUTE + 1, ["aborted", "aborted", "firm"], 2, MINUTE + 1),
                (MINUTE + 2, ["aborted", "aborted", "firm"], 2, MINUTE + 1),
            ]:
                before, found = desk.places(), self.clock.run(minute)
                if places + spent > before:
                    expect_ended(found, minute, "1")
                    kept = desk.ask(f"/v1/keys/clock-{minute}")
                    expect(kept == {"command": f"expire {minute}", "place": places + spent}, f"{kept}")
                else:
                    expect(found == NOTHING, f"{minute}: {found}")
                desk.expect(states, places + spent, clock)
                self.clock.expect_seen(minute)

    def test_the_minute_is_told_in_words(self):
        with self.begun():
            out = self.clock.run(MINUTE)[1]
            expect(out == f"orders due by {MINUTE} (2027-01-01 00:00 UTC): 1; `expire {MINUTE}` is done\n", out)

    def test_the_clock_of_the_machine_is_asked(self):
        """The program as it is: what was due a minute ago is ended, what is due in an hour stays."""
        with self.served() as desk:
            now = int(time.time()) // 60
            desk.open(1, now - 1)
            desk.open(2, now + 60)
            self.clock.see(now)
            words = [TOOL, str(desk.port), "--seen", self.clock.path]
            run = subprocess.run(words, capture_output=True, text=True, timeout=PATIENCE)
            expect((run.returncode, run.stderr) == (0, "") and "): 1; `expire " in run.stdout, f"{run}")
            expect([desk.state(1), desk.state(2)] == ["aborted", "open"], "other orders")
            expect(now <= desk.ask("/v1/desk")["clock"] <= now + PATIENCE // 60, "another minute")

    def test_more_is_ended_than_a_desk_tells(self):
        """One command ends them; the tool says that it ended fifty or more."""
        with self.served() as desk:
            for number in range(1, 62):
                desk.open(number, MINUTE - number % 3)
            self.clock.see(MINUTE)
            expect_ended(self.clock.run(MINUTE), MINUTE, "50 or more")
            desk.expect(["aborted"] * 61, 1 + 61 + 1, MINUTE)

    def test_an_order_may_go_before_it_is_ended(self):
        """An order is committed between question and command: the command is done, and ends nothing."""
        with self.begun() as desk:
            relay = Relay(desk.port, {2: "late"})
            self.clock.port = relay.server_port
            try:
                run = self.clock.start(MINUTE)
                expect(relay.came.wait(PATIENCE), "no command comes")
                desk.call("C1", "commit 1")
                relay.goes_on.set()
                expect_ended(end_of(run), MINUTE, "1")
            finally:
                relay.end()
            desk.expect(["committed", "open"], 5, MINUTE)


class Faults(ClockCase):
    def test_a_run_killed_anywhere_is_harmless(self):
        """A run is killed before the question, between question and command, or before the answer: the next run, of this minute
        or of the next, ends what is not ended yet, and each order once."""
        for faults, spent in [({1: "ended"}, 0), ({2: "ended"}, 0), ({2: "killed"}, 1)]:
            for later in [0, 1]:
                self.desk = Desk(self.program, self.folder, f"{faults}{later}.db")
                with self.begun() as desk, self.subTest(faults=faults, later=later):
                    relay = Relay(desk.port, faults)
                    self.clock.port, places = relay.server_port, desk.places()
                    try:
                        relay.client = self.clock.start(MINUTE)
                        expect(end_of(relay.client) == (-9, "", ""), "it was not killed")
                    finally:
                        relay.end()
                    self.clock.port = desk.port
                    desk.expect([["open", "aborted"][spent], "open"], places + spent, MINUTE * spent)
                    found = self.clock.run(MINUTE + later)
                    count = (1 - spent) + later
                    if count:
                        expect_ended(found, MINUTE + later, str(count))
                    else:
                        expect(found == NOTHING, f"{found}")
                    now = MINUTE + later if count else MINUTE
                    desk.expect(["aborted", "aborted" if later else "open"], places + spent + min(count, 1), now)

    @needs("strace")
    def test_what_was_seen_is_whole_wherever_a_run_is_killed(self):
        """At each call that changes its file, the old minute or the new one is there, and the next run goes on and leaves nothing
        else."""
        place = os.path.join(self.folder, "place")
        os.mkdir(place)
        with self.begun() as desk:
            self.clock = Clock(desk.port, place)
            for call in CALLS:
                self.clock.see(MINUTE - 2)
                words = ["strace", "-f", "-o", "/dev/null", "-e", f"inject={call.replace(':', ':signal=KILL:')}"]
                run = subprocess.run([*words, *self.clock.words(MINUTE - 1)], capture_output=True, timeout=PATIENCE)
                expect(run.returncode == -9, f"{call}: {run}")
                expect(self.clock.seen() in [f"{MINUTE - 2}\n", f"{MINUTE - 1}\n"], f"{call}: {self.clock.seen()!r}")
                expect(self.clock.run(MINUTE - 1) == NOTHING, f"{call}: another end")
                self.clock.expect_seen(MINUTE - 1)
                expect(os.listdir(place) == ["seen"], f"{call}: {os.listdir(place)} are left")
            expect_ended(self.clock.run(MINUTE), MINUTE, "1")

    def test_many_runs_at_once_are_harmless(self):
        """Runs of two minutes come at once, the earlier of which may say that the clock was set back. Each ends well, and all is
        ended, at most once for each minute."""
        spent = 0
        for number in range(ROUNDS):
            self.desk = Desk(self.program, self.folder, f"{number}.db")
            with self.begun() as desk:
                places = desk.places()
                ends = [end_of(run) for run in [self.clock.start(MINUTE + 1 - it % 2) for it in range(6)]]
                for status, _, errors in ends:
                    told = errors.count("stockdesk-clock: the clock was set back")
                    expect((status, errors.count("\n")) == (0, told), f"{status}, {errors}")
                found = desk.places()
                desk.expect(["aborted", "aborted"], found, MINUTE + 1)
                expect(found - places in [1, 2], f"{found - places} places were spent")
                spent += found - places
        note(f"{spent} places in {ROUNDS} rounds")

    def test_a_clock_that_was_moved_past_it_is_told(self):
        """Another run, of a later minute, comes between question and command."""
        with self.begun() as desk:
            relay = Relay(desk.port, {2: "late"})
            try:
                run = Clock(relay.server_port, self.folder).start(MINUTE)
                expect(relay.came.wait(PATIENCE), "no command comes")
                expect_ended(self.clock.run(MINUTE + 1), MINUTE + 1, "2")
                relay.goes_on.set()
                status, out, errors = end_of(run)
            finally:
                relay.end()
            expect((status, errors) == (0, "") and f"`expire {MINUTE}` is refused, since the desk's clock was" in out, out)
            desk.expect(["aborted", "aborted"], 4, MINUTE + 1)

    def test_a_key_that_others_took_is_told(self):
        """Nothing is ended; the run of the next minute goes on."""
        with self.begun() as desk:
            desk.call(f"clock-{MINUTE}", "writeoff N1 A-1 1")
            expect_fault(self.clock.run(MINUTE), f"`expire {MINUTE}` is refused", "KeyReused")
            expect_ended(self.clock.run(MINUTE + 1), MINUTE + 1, "2")
            desk.expect(["aborted", "aborted"], 5, MINUTE + 1)

    def test_a_desk_that_fails_for_a_while_is_asked_again(self):
        """The desk says that it has stopped, does not hear, or its answer is lost: both at the question and at the command."""
        for number, faults in enumerate([{1: "busy", 3: "busy"}, {1: "away", 3: "away"}, {1: "lost", 3: "lost", 4: "busy"}]):
            self.desk = Desk(self.program, self.folder, f"{number}.db")
            with self.begun() as desk, self.subTest(faults=faults):
                relay = Relay(desk.port, faults)
                self.clock.port = relay.server_port
                try:
                    expect_ended(self.clock.run(MINUTE), MINUTE, "1")
                finally:
                    relay.end()
                desk.expect(["aborted", "open"], 4, MINUTE)

    def test_without_an_answer_a_run_ends(self):
        """Nobody listens, or is silent; or no desk answers, or one that has stopped for good."""
        stopped = b'HTTP/1.1 503 Service Unavailable\r\ncontent-length: 19\r\n\r\n{"error":"stopped"}'
        cut = b'HTTP/1.1 200 OK\r\ncontent-length: 100\r\n\r\n{"orders":['
        older = b'HTTP/1.1 404 Not Found\r\ncontent-length: 16\r\n\r\n{"error":"none"}'
        other = b"HTTP/1.1 200 OK\r\ncontent-length: 2\r\n\r\n[]"
        with contextlib.ExitStack() as stack:
            ports = [stack.enter_context(false_desk(told)) for told in [None, b"", b"SSH-2.0\r\n", stopped, cut, older, other]]
            nobody = stack.enter_context(socket.socket())
            nobody.bind(("127.0.0.1", 0))
            ports.append(nobody.getsockname()[1])
            clocks = [Clock(port, self.folder, f"seen{port}") for port in ports]
            for clock in clocks:
                clock.see(MINUTE - 1)
            runs = [clock.start(MINUTE) for clock in clocks]
            for clock, run in zip(clocks, runs):
                words = {clocks[5]: "does not tell what is due", clocks[6]: "is no desk"}.get(clock, "no answer")
                expect_fault(end_of(run), f"http://127.0.0.1:{clock.port}", words)
                clock.expect_seen(MINUTE)

    def test_a_desk_out_of_service_for_two_days_is_no_jump(self):
        """The runs meanwhile reach no desk and see that the clock goes on, so the first run after them ends what is due."""
        with self.begun():
            pass
        minutes = [MINUTE, MINUTE + 1_000, MINUTE + 2_000, MINUTE + 2 * DAY]
        runs = []
        for minute in minutes:
            runs.append(self.clock.start(minute))
            latest = time.monotonic() + PATIENCE
            while self.clock.seen() != f"{minute}\n" and time.monotonic() < latest:
                time.sleep(0.01)
            self.clock.expect_seen(minute)
        for run in runs:
            expect_fault(end_of(run), f"no answer of http://127.0.0.1:{self.clock.port}")
        with self.served() as desk:
            expect_ended(self.clock.run(minutes[-1] + 1), minutes[-1] + 1, "2")
            desk.expect(["aborted", "aborted"], 4, minutes[-1] + 1)

    @needs_strict_tables
    def test_a_full_desk_is_told(self):
        """One place is left, and then none beside that for the order's own end."""
        desks = Desks(self.program, self.folder)
        for places, is_full in [(199_998, False), (199_999, True)]:
            desks.put([*of_desk(places), *OPEN_ORDER])
            service = Service(self.program, desks.path, 100, options=TOGETHER)
            try:
                clock = Clock(service.port, self.folder)
                clock.see(119)
                found = clock.run(120)
            finally:
                service.process.kill()
                service.end()
            if is_full:
                expect_fault(found, "`expire 120` is refused: the desk is full; roll it up")
            else:
                expect_ended(found, 120, "1")


class Jumps(ClockCase):
    def expect_jump(self, minute, *words):
        """A run is refused and changes nothing; the command that it proposes is done, and the next run goes on."""
        before, seen = self.desk.ask("/v1/desk"), self.clock.seen()
        found = self.clock.run(minute)
        expect_fault(found, *words, "set the clock, or where `date` is right, run once: stockdesk-clock ")
        expect((self.desk.ask("/v1/desk"), self.clock.seen()) == (before, seen), "something was changed")
        told = shlex.split(found[2].partition("run once: ")[2])
        run = subprocess.run([*at(minute), *told[1:]], capture_output=True, text=True, timeout=PATIENCE)
        self.clock.expect_seen(minute)
        return run.returncode, run.stdout, run.stderr

    def test_a_clock_that_jumps_ends_nothing_before_it_is_told(self):
        """A day is no jump, a minute more is one; once the tool was told that the clock is right, it need not be told again."""
        with self.begun() as desk:
            self.clock.see(MINUTE - DAY)
            expect_ended(self.clock.run(MINUTE), MINUTE, "1")
            expect_ended(self.expect_jump(MINUTE + DAY + 1, "more than a day away"), MINUTE + DAY + 1, "1")
            desk.expect(["aborted", "aborted"], 5, MINUTE + DAY + 1)
            expect(self.clock.run(MINUTE + DAY + 2) == NOTHING, "another end")

    def test_a_clock_that_is_set_right_goes_on_by_itself(self):
        """The clock jumped in either direction, and each minute was refused."""
        with self.begun() as desk:
            for minute in [MINUTE + 10 * DAY, MINUTE + 10 * DAY + 1, 0, 1, 4_000_000_000]:
                expect_fault(self.clock.run(minute), "more than a day away")
                self.clock.expect_seen(MINUTE - 1)
            desk.expect(["open", "open"], 3, 0)
            expect_ended(self.clock.run(MINUTE), MINUTE, "1")

    def test_a_clock_that_no_desk_knows_is_refused(self):
        with self.begun():
            for minute in [-1, 4_000_000_001]:
                for options in [[], ["--jump"]]:
                    expect_fault(self.clock.run(minute, *options), f"minute {minute}, which no desk knows")

    def test_a_clock_that_was_set_back_is_told(self):
        """A clock that was set back ends what is due by then, nothing twice and nothing early, and a jump is measured from
        there."""
        with self.begun() as desk:
            expect_ended(self.clock.run(MINUTE), MINUTE, "1")
            status, out, errors = self.clock.run(MINUTE - 60)
            expect((status, out) == (0, "") and "the clock was set back: " in errors and errors.count("\n") == 1, f"{errors}")
            desk.expect(["aborted", "open"], 4, MINUTE)
            self.clock.expect_seen(MINUTE - 60)
            expect(self.clock.run(MINUTE - 59) == NOTHING, "it is told twice")
            self.clock.see(MINUTE - 60)
            expect_fault(self.clock.run(MINUTE - 60 + DAY + 1), "more than a day away")
            expect_ended(self.clock.run(MINUTE + 1), MINUTE + 1, "1")
            desk.expect(["aborted", "aborted"], 5, MINUTE + 1)

    def test_a_first_run_ends_nothing_before_it_is_told(self):
        """This holds where something is due; else the first run just begins."""
        with self.begun() as desk:
            os.remove(self.clock.path)
            expect_ended(self.expect_jump(MINUTE, "orders are due by", "is not there to say"), MINUTE, "1")
            os.remove(self.clock.path)
            expect(self.clock.run(MINUTE) == NOTHING, "another end")
            self.clock.expect_seen(MINUTE)
            desk.expect(["aborted", "open"], 4, MINUTE)

    def test_a_first_run_that_reaches_no_desk_begins_nothing(self):
        with self.begun():
            os.remove(self.clock.path)
        expect_fault(self.clock.run(MINUTE), "no answer")
        expect(self.clock.seen() is None, "something was seen")

    def test_a_file_that_says_no_minute_is_refused(self):
        """The file stays as it is until a run is told that the clock is right."""
        with self.begun() as desk:
            for garbage in GARBAGE:
                with open(self.clock.path, "wb") as file:
                    file.write(garbage)
                expect_fault(self.clock.run(MINUTE), f"{self.clock.path} does not say when the last run was")
                with open(self.clock.path, "rb") as file:
                    expect(file.read() == garbage, "it was changed")
            desk.expect(["open", "open"], 3, 0)
            expect_ended(self.expect_jump(MINUTE, "does not say when"), MINUTE, "1")

    def expect_unkept(self, name, cause):
        """At the minute of the last run, and at the next, the tool, told that the clock is right, fails so."""
        clock = Clock(self.desk.port, self.folder, name)
        expect_fault(clock.run(MINUTE - 1), cause)
        expect_fault(clock.run(MINUTE, "--jump"), cause)

    def test_a_place_where_nothing_can_be_kept_is_refused(self):
        """There is no folder, a folder in the file's place, a full disk, or one that is only read: nothing is ended."""
        with self.begun() as desk, small_disk(self.folder, 8_192) as disk:
            os.mkdir(os.path.join(self.folder, "folder"))
            self.expect_unkept("none/seen", "No such file")
            self.expect_unkept("folder", "Is a directory")
            if disk is None:
                note("no disk can be mounted here")
            else:
                full, read = os.path.join(disk, "full"), os.path.join(disk, "read")
                # each takes half of it
                for path in [full, read]:
                    Clock(desk.port, self.folder, path).see(MINUTE - 1)
                self.expect_unkept(full, "No space left")
                subprocess.run(["mount", "-o", "remount,ro", disk], check=True)
                self.expect_unkept(read, "Read-only file system")
            desk.expect(["open", "open"], 3, 0)

    def test_other_words_are_refused(self):
        names = sorted(os.listdir(self.folder))
        for words in NO_WORDS:
            run = subprocess.run([TOOL, *words], cwd=self.folder, capture_output=True, text=True, timeout=PATIENCE)
            expect((run.returncode, run.stdout) == (2, "") and "usage: stockdesk-clock" in run.stderr, f"{words}: {run}")
        expect(sorted(os.listdir(self.folder)) == names, "something was made")

"""Tests of how full a desk is, as `stockdesk-rollover --check` says it: at nine tenths of each limit, in use, and by itself."""

import os
import socket
import subprocess
import threading
from collections.abc import Callable
from unittest import mock

from support.cases import ProgramCase, needs_strict_tables
from support.copies import alone
from support.desks import OPEN_ORDER, Desks, of_desk, of_fields, of_open, of_orders
from support.programs import Session, bytes_of, expect, new_desk, note
from support.relays import false_desk
from support.rolled import SCRIPT, desk_of, lying, play_and_kill, tool_ended

import stockdesk_tools as tools

# so many rows on both sides of nine tenths of a limit, others beside them, and the status of the check
NEARLY = [
    (of_desk, 179_999, [], 0),
    (of_desk, 180_000, [], 3),
    (of_desk, 179_998, OPEN_ORDER, 0),
    (of_desk, 179_999, OPEN_ORDER, 3),
    (of_fields, 8_999, [], 0),
    (of_fields, 9_000, [], 3),
    (of_orders, 89_999, [], 0),
    (of_orders, 90_000, [], 3),
]

# desks that are nearly full, and whether the next start rolls each up: never for fields, nor where fewer than half of the orders
# have ended
ROOM: list[tuple[Callable[[int], list[str]], int, list[str], bool]] = [
    (of_desk, 180_000, [], True),
    (of_fields, 9_000, [], False),
    (of_orders, 90_000, [], True),
]
ROOM += [(of_orders, 45_000, of_open(45_000, 50_000)[1:], True), (of_orders, 45_000, of_open(45_001, 50_000)[1:], False)]

# how full the desk of SCRIPT is
FULL = b"""places: 8 taken and 3 set aside of 200000, 0 percent
fields: 2 of 10000, 0 percent
orders: 3 of 100000, 0 percent
"""

# answers that do not say how full a desk is: of what is no desk, of a desk that has stopped, or none
TOLD: list[bytes | None] = [
    b"",
    b"SSH-2.0\r\n",
    b'HTTP/1.1 503 Service Unavailable\r\ncontent-length: 19\r\n\r\n{"error":"stopped"}',
]
TOLD += [b'HTTP/1.1 404 Not Found\r\ncontent-length: 16\r\n\r\n{"error":"none"}', b"HTTP/1.1 200 OK\r\n\r\n[]", None]
TOLD += [b"HTTP/1.1 200 OK\r\n\r\n" + b'{"clock":0,"fields":"x","open":0,"orders":0,"places":0}']


def expect_places(program, path, places, words):
    """A check says so many places, and has these words in its first line; all files lie as they lay."""
    found = lying(path)
    status, out, errors = tool_ended(program, ["--check", path])
    told = f"places: {places} taken and 3 set aside of 200000, 0 percent\n" in out.decode()
    expect((status, errors) == (0, b"") and told, f"{status}, {out}, {errors}")
    expect(all(word in out.decode().splitlines()[0] for word in words), f"{out}")
    expect(lying(path) == found, "it was changed")


def deliver(stdin, over):
    number = 0
    while not over.is_set():
        number += 1
        stdin.write(f"D{number} deliver N1 A-1 1\n")
        stdin.flush()


def look(program, path, replies):
    """Whether a check of a desk in use said a number of places that the desk had meanwhile; else it must say to try again."""
    least = len(replies)
    status, out, errors = tool_ended(program, ["--check", path])
    if status == 1:
        expect(errors.endswith(b"try again\n"), f"{errors}")
        return False
    lines = out.decode().splitlines()
    expect(status == 0 and " is in use: these are its numbers at some moment" in lines[0], f"{lines}")
    places = int(lines[1].split()[1])
    # a command is kept before it is answered
    expect(least + 1 <= places <= len(replies) + 1_000, f"{places} places, after {least} and before {len(replies)} answers")
    return True


def put(path, place, number):
    with open(path, "rb+") as file:
        file.seek(place)
        file.write(b"%04d" % number)


class Changing:
    """Copies a desk, and changes it behind each of the first copies."""

    def __init__(self, change, often):
        self.change, self.often, self.copies, self.copy = change, often, 0, tools.copy_desk

    def __call__(self, path, target):
        self.copy(path, target)
        self.copies += 1
        if self.copies <= self.often:
            self.change(self.copies)


@needs_strict_tables
class Fullness(ProgramCase):
    def test_a_look_tells_how_full_a_desk_is(self):
        """The desks lie on both sides of nine tenths, and nothing is changed or made."""
        desks = Desks(self.program, self.folder)
        for make, count, others, want in NEARLY:
            desks.put([*make(count), *others])
            found, names = bytes_of(desks.path), os.listdir(self.folder)
            status, out, errors = tool_ended(self.program, ["--check", desks.path])
            expect((status, errors, b"nearly full" in out) == (want, b"", want == 3), f"{count}: {status}, {out}, {errors}")
            expect(bytes_of(desks.path) == found and sorted(os.listdir(self.folder)) == sorted(names), "something was changed")
        found = tool_ended(self.program, ["--check", desk_of(self.program, self.folder)])
        expect(found == (0, FULL, b""), f"{found}")

    def test_a_look_tells_where_a_second_desk_is_wanted(self):
        """A desk is nearly full; a roll gives it room, or gives none."""
        desks = Desks(self.program, self.folder)
        for make, count, others, has_room in ROOM:
            desks.put([*make(count), *others])
            status, out, errors = tool_ended(self.program, ["--check", desks.path])
            told = [line.partition(", nearly full: ")[2] for line in out.decode().splitlines()]
            text = "the next start rolls it up" if has_room else "a roll gives no room, so the chain wants a second desk"
            expect((status, errors, sorted(told)) == (3, b"", ["", "", text]), f"{count}: {status}, {out!r}, {errors!r}")

    def test_a_desk_that_is_served_is_asked(self):
        """The desks lie on both sides of nine tenths; the file that is named beside the port is not read, and need not be
        there."""
        desks, none = Desks(self.program, self.folder), os.path.join(self.folder, "none.db")
        for make, count, others, want in NEARLY:
            desks.put([*make(count), *others])
            with alone(self.program, desks.path) as service:
                status, out, errors = tool_ended(self.program, ["--check", none, "--port", str(service.port)])
            expect((status, errors, b"nearly full" in out) == (want, b"", want == 3), f"{count}: {status}, {out}, {errors}")
        with alone(self.program, desk_of(self.program, self.folder)) as service:
            found = tool_ended(self.program, ["--check", none, "--port", str(service.port)])
        expect(found == (0, FULL, b""), f"{found}")

    def test_where_no_desk_tells_the_file_is_read(self):
        """Nobody listens there, or who does is silent, has stopped, or says something else."""
        old = desk_of(self.program, self.folder)
        with socket.socket() as nobody:
            nobody.bind(("127.0.0.1", 0))
            found = tool_ended(self.program, ["--check", old, "--port", str(nobody.getsockname()[1])])
        expect(found == (0, FULL, b""), f"{found}")
        for told in TOLD:
            with false_desk(told) as port:
                found = tool_ended(self.program, ["--check", old, "--port", str(port)])
            expect(found == (0, FULL, b""), f"{told}: {found}")

    def test_a_look_reads_the_log(self):
        """What a desk in use has done is at first in its log alone; it goes on, and so does one whose program was killed."""
        old = desk_of(self.program, self.folder)
        found = bytes_of(old)
        session = Session(self.program, old)
        try:
            expect(session.ask("K9 deliver N1 A-1 1") == "K9 done 9", "no reply")
            expect(bytes_of(old) == found, "it is in the file at once")
            expect_places(self.program, old, 9, ["in use"])
            expect(session.ask("K10 deliver N1 A-1 1") == "K10 done 10", "it does not go on")
        finally:
            session.process.kill()
            session.end()
        expect_places(self.program, old, 10, ["places"])

    def test_a_look_disturbs_nobody(self):
        """The desk is in use, also while it takes commands as fast as it can: what the check says was so at some moment, and all
        commands are answered."""
        old = desk_of(self.program, self.folder, "K1 field N1 A-1 0 1000000000 0\n")
        pipe = subprocess.PIPE
        with subprocess.Popen([self.program, "run", old], stdin=pipe, stdout=pipe, text=True) as process:
            replies, over = [], threading.Event()
            reader = threading.Thread(target=lambda: replies.extend(process.stdout))
            writer = threading.Thread(target=deliver, args=(process.stdin, over))
            reader.start()
            writer.start()
            try:
                looks = [look(self.program, old, replies) for _ in range(10)]
            finally:
                over.set()
                writer.join()
                process.stdin.close()
                reader.join()
        expect(replies == [f"D{n} done {n + 1}\n" for n in range(1, len(replies) + 1)], "another reply")
        expect(sum(looks) > 0, "each look was in vain")
        note(f"{len(replies)} commands, {sum(looks)} of {len(looks)} looks among them told how full the desk was")

    def test_a_look_takes_no_copy_of_two_moments(self):
        """Where the file changes while it is copied, or its log is begun anew, it is copied once more, and at last the tool gives
        up."""
        old = new_desk(self.program, self.folder)
        play_and_kill(self.program, old, SCRIPT)
        for name, place in [(old, 68), (f"{old}-wal", 16)]:
            for often in [0, 3, tools.READINGS - 1, tools.READINGS]:
                changing = Changing(lambda number: put(name, place, number), often)
                with mock.patch.multiple(tools, copy_desk=changing, PAUSE=0):
                    expect_copied(old, self.folder, changing)


def expect_copied(old, folder, changing):
    copy = os.path.join(folder, "copy.db")
    try:
        tools.copy_desk_in_use(old, copy)
        expect(changing.copies == changing.often + 1, f"{changing.copies} copies, {changing.often} changes")
        expect(lying(copy) == lying(old), "another copy")
    except tools.Fault as told:
        expect(changing.often == tools.READINGS and str(told).endswith("try again"), f"{changing.often} changes: {told}")

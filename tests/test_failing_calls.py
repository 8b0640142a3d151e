"""Tests of the built program where one read or write fails, or one call of its store, and all calls behind it would succeed. The
program tries none again. It ends with the fault behind a beginning of its answer, and what it answered is kept."""

import contextlib
import errno
import itertools
import os
import shutil
import socket

from support.cases import needs_strict_tables
from support.failing import Failing, FailingCase, Failure
from support.messages import answer, compact, message
from support.older import older, upgraded
from support.programs import IO, SECONDS, STORE, WELL, End, done, expect, new_desk, note
from support.service import NotServed, Service
from support.tables import rows_of
from support.works import REQUESTS, SCRIPT, SHEETS, WORKS, OnCopies, Work, copy_desk

# two of the errors ask for another try; a write with the error 0 takes no byte, which is no error to the system
READ_ERRORS = [errno.EIO, errno.EINTR, errno.EAGAIN]
WRITE_ERRORS = [*READ_ERRORS, 0]

CSV: End = (4, b"", b"stockdesk: csv\n")
PIECE = 512
# How many messages two connections bring, each of which adds a piece to a field. And which calls leave every answer written where
# they fail: the reads that find the ends of the connections.
FIRST, SECOND = 4, 2
TOLD = {"read": [FIRST + 1, FIRST + 1 + SECOND + 1], "write": []}


def deliveries(first: int, count: int) -> list[bytes]:
    bodies = [compact({"key": f"K{n}", "command": "deliver N1 A-1 1"}) for n in range(first, first + count)]
    return [message("POST /v1/commands", body) for body in bodies]


def places(first: int, count: int) -> bytes:
    return b"".join(answer(200, compact({"place": place})) for place in range(first, first + count))


def answered_in_turn(port: int, messages: list[bytes]) -> bytes:
    """What is answered to these messages; each is sent once the one before is answered."""
    found = b""
    with socket.create_connection(("127.0.0.1", port), SECONDS) as connection, contextlib.suppress(ConnectionError):
        for number, text in enumerate(messages, 1):
            connection.sendall(text)
            while whole_answers(found) < number and (part := connection.recv(65_536)):
                found += part
        # where the other end has closed there is nothing to end
        with contextlib.suppress(OSError):
            connection.shutdown(socket.SHUT_WR)
        while part := connection.recv(65_536):
            found += part
    return found


def whole_answers(text: bytes) -> int:
    """How many answers with a place are whole in a beginning of some."""
    return text.count(b"}")


class Connections:
    """Services of two connections on copies of a desk with one field, where reads or writes fail."""

    def __init__(self, failing: Failing, folder: str):
        self.failing, self.program = failing, failing.program
        self.desk = new_desk(self.program, folder, "new.db")
        done(self.program, ["run", self.desk], "K1 field N1 A-1 0 100 0\n")

    def serve(self, failure: Failure) -> tuple[bool, bool]:
        """Whether some answer was not written, and whether the call came. A connection with a failing call ends there, and the
        other connection is served whole. What was done is answered, but for the last answer where a write fails."""
        with self.failing.lane() as lane:
            path = os.path.join(lane, "desk.db")
            copy_desk(self.desk, path)
            try:
                service = Service(self.program, path, 2, environment=self.failing.environment(failure, lane))
            except NotServed as fault:
                expect((fault.end, failure.kind) == (IO, "write"), f"{failure}: {fault}")
                return True, True
            cuts, place = 0, 2
            for count in [FIRST, SECOND]:
                found, whole = answered_in_turn(service.port, deliveries(place, count)), places(place, count)
                expect(whole.startswith(found), f"{failure}: {found!r}")
                cuts += found != whole
                place += whole_answers(found) + (found != whole and failure.kind == "write")
            service.expect_end()
            [shown] = done(self.program, ["run", path], "? field N1 A-1\n")
            expect(shown.split()[9] == str(place - 2), f"{failure}: {place - 2} were done, and then {shown}")
            expect(cuts <= 1, f"{failure}: both connections are cut")
            return cuts == 1, failure.first <= self.failing.counted(lane)

    def expect_cuts(self, kind: str, error: int) -> None:
        told = []
        for first in itertools.count(1):
            is_cut, came = self.serve(Failure(kind, first, error=error))
            if not came:
                break
            told += [] if is_cut else [first]
        expect(told == TOLD[kind] and not is_cut, f"{kind}, error {error}: the connections are not cut by {told}")
        note(f"{kind}, error {error}: {first - 1}")


@needs_strict_tables
class FailingCalls(FailingCase):
    def on_copies(self, work: Work) -> OnCopies:
        return OnCopies(self.failing, os.path.join(self.folder, str(WORKS.index(work))), work)

    def test_a_script_ends_at_a_read_that_fails(self):
        """The lines that had ended before the piece at which the read fails are answered."""
        on_copies = self.on_copies(SCRIPT)
        text = on_copies.input
        pieces = range(0, len(text) + PIECE, PIECE)
        for error in READ_ERRORS:
            told = on_copies.expect_each_cut("read", [IO], error)
            expect(told == [text[:end].count("\n") for end in pieces], f"error {error}: {told} lines are told")

    def test_a_file_of_requests_that_fails_once_is_not_read(self):
        """Nothing is done then."""
        for work in REQUESTS:
            on_copies = self.on_copies(work)
            for error in READ_ERRORS:
                told = on_copies.expect_each_cut("read", [CSV], error)
                expect(set(told) == {0}, f"{work}, error {error}: {told} lines are told")

    def test_a_work_ends_at_a_write_that_fails(self):
        for work in WORKS:
            on_copies = self.on_copies(work)
            for error in WRITE_ERRORS:
                on_copies.expect_each_cut("write", [IO], error)

    def test_a_work_ends_at_a_call_of_its_store_that_fails(self):
        for work in [SHEETS[0], SCRIPT, REQUESTS[1]]:
            self.on_copies(work).expect_cut_alike("store", [STORE], errno.EIO)

    def test_an_upgrade_is_whole_where_a_call_of_its_store_fails(self):
        """It leaves all of version 1, which is then upgraded, or all of version 2."""
        old = older(self.folder, "transfer")
        new = upgraded(self.program, shutil.copyfile(old, os.path.join(self.folder, "new.db")))
        old_rows, new_rows = rows_of(old), rows_of(new)

        def cut(failure: Failure, lane: str) -> bool:
            copy_desk(old, path := os.path.join(lane, "desk.db"))
            end, came = self.failing.ended(["upgrade", path], "", failure, lane)
            expect(end == WELL or came and end == STORE, f"{failure}: {end}")
            expect(rows_of(path) in [new_rows, *([] if end == WELL else [old_rows])], f"{failure}: other rows")
            expect(rows_of(upgraded(self.program, path)) == new_rows, f"{failure}: other rows at last")
            return end == STORE

        with self.failing.lane() as lane:
            copy_desk(old, path := os.path.join(lane, "desk.db"))
            count = self.failing.count("store", ["upgrade", path], "", lane)
        failures = [Failure("store", number, is_for_good) for number in range(1, count + 1) for is_for_good in (False, True)]
        cuts = self.failing.attempt(failures, cut)
        expect(any(cuts), "none was cut")
        note(f"upgrade: {sum(cuts)} of {len(cuts)}")

    def test_a_connection_ends_at_a_read_or_a_write_that_fails(self):
        connections = Connections(self.failing, self.folder)
        for kind, errors in [("read", READ_ERRORS), ("write", WRITE_ERRORS)]:
            for error in errors:
                connections.expect_cuts(kind, error)

"""Tests of the built program among peers and on disks that do their worst: a line without an end, clients that are slow, silent
or gone, heads and bodies at their limits, many connections, a full disk, files that may not be written, a file that vanishes."""

import contextlib
import os
import select
import shutil
import socket
import subprocess
import time
import unittest

from support.cases import ProgramCase
from support.disks import small_disk
from support.processes import files_of, resident
from support.programs import NOT_A_DESK, SECONDS, STORE, Session, bytes_of, done, ended, expect, expect_end, new_desk
from support.service import TOGETHER, Service, answered

CONNECTIONS = 10_000
NOBODY = 65_534
BAD = "- refused 20 BadCommand 0"
FIELD = "K1 field N1 A-1 0 1000000 0\n"

# a field, a sheet and a place, each as the body of an answer
GET = b"GET /v1/fields/N1/A-1 HTTP/1.1\r\n\r\n"
SHOWN = b'{"article":"A-1","branch":"N1","hi":1000000,"inf":0,"lo":0,"sup":0,"value":0}'
PLACE = b'{"place":1}'
UNREADABLE = b'{"error":"message"}'


def with_field(program, folder):
    path = new_desk(program, folder)
    done(program, ["run", path], FIELD)
    return path


def head_of(size):
    """A GET of so many bytes."""
    head = b"GET /v1/fields/N1/A-1 HTTP/1.1\r\nX: \r\n\r\n"
    return head.replace(b"X: ", b"X: " + b"x" * (size - len(head)))


def command_of(size):
    """A command with a body of so many bytes, padded with spaces inside its object."""
    command = b'{"key":"K1","command":"field N1 A-1 0 1000000 0"'
    return b"POST /v1/commands HTTP/1.1\r\nContent-Length: %d\r\n\r\n%b}" % (size, command.ljust(size - 1))


def expect_bodies(port, text, bodies):
    found = [answer.split(b"\r\n\r\n")[-1] for answer in answered(port, [text]).split(b"HTTP/1.1 ")[1:]]
    expect(found == bodies, f"{text[:100]}: {found} and not {bodies}")


class Lines(ProgramCase):
    def test_a_line_without_an_end_is_not_kept(self):
        """The line has 10,000,000 bytes: the resident memory stays as it is, the line is bad once, and the next one is
        answered."""
        session = Session(self.program, new_desk(self.program, self.folder))
        try:
            session.ask(FIELD.rstrip())
            first = None
            for _ in range(100):
                session.process.stdin.write(b"A" * 100_000)
                first = first or resident(session.process)
            last = resident(session.process)
            expect(last - first <= 64, f"{first} KiB, then {last} KiB")
            expect(session.ask("") == BAD, "not bad")
            expect(session.ask("? order 7") == "? none", "no answer to the line behind it")
        finally:
            session.end()


class Peers(ProgramCase):
    """Tests of a service with these options."""

    options: list[str] = []

    def serve(self, connections):
        return Service(self.program, with_field(self.program, self.folder), connections, options=self.options)

    def test_heads_and_bodies_have_limits(self):
        """At the limit a message is answered, and so is the next; over the limit the connection ends with one answer."""
        service = self.serve(4)
        expect_bodies(service.port, head_of(8_192) + GET, [SHOWN, SHOWN])
        expect_bodies(service.port, head_of(8_193) + GET, [UNREADABLE])
        expect_bodies(service.port, command_of(16_384) + GET, [PLACE, SHOWN])
        expect_bodies(service.port, command_of(16_385) + GET, [UNREADABLE])
        service.expect_end()

    def test_a_slow_client_is_answered(self):
        """The client sends one byte at a time. Where connections are served one after the other, another client waits meanwhile,
        and is then answered."""
        service = self.serve(2)
        with socket.create_connection(("127.0.0.1", service.port), SECONDS) as slow:
            other = socket.create_connection(("127.0.0.1", service.port), SECONDS)
            other.sendall(GET)
            for number in range(len(GET)):
                slow.sendall(GET[number : number + 1])
                time.sleep(0.01)
            expect(slow.recv(4_096).endswith(SHOWN), "the slow one is not answered")
            is_answered = bool(select.select([other], [], [], 0.2)[0])
            expect(is_answered == (self.options == TOGETHER), "the other one is answered before its turn, or too late")
        expect(other.recv(4_096).endswith(SHOWN), "the other one is not answered")
        other.close()
        service.expect_end()

    def test_a_client_that_never_reads_holds_up_no_other(self):
        """The client sends until the service takes nothing more, and leaves: the next client is served."""
        service = self.serve(2)
        with socket.create_connection(("127.0.0.1", service.port), 0.5) as silent:
            sent = 0
            with contextlib.suppress(TimeoutError):
                while sent < 100_000_000:
                    sent += silent.send(GET * 1_000)
            expect(sent < 100_000_000, "everything was taken")
        expect_bodies(service.port, GET, [SHOWN])
        service.expect_end()

    def test_many_connections_leave_nothing_behind(self):
        """10,000 connections come one after the other: memory and open files at the end are those of the start."""
        service = self.serve(CONNECTIONS)
        first = None
        for number in range(CONNECTIONS):
            if number == 100:
                first = resident(service.process), files_of(service.process)
            if number == CONNECTIONS - 1:
                last = resident(service.process), files_of(service.process)
            expect(answered(service.port, [GET]).endswith(SHOWN), f"connection {number} is not answered")
        expect(last[1] == first[1] and last[0] - first[0] <= 64, f"{first} KiB and files, then {last}")
        service.expect_end()


class PeersTogether(Peers):
    """Tests of a service of many connections at once."""

    options = TOGETHER


def ended_as_nobody(program, words, text):
    """How a run ends that may do only what anybody may do."""
    run = subprocess.run([program, *words], input=text, capture_output=True, timeout=SECONDS, user=NOBODY, check=False)
    return run.returncode, run.stdout, run.stderr


class Disks(ProgramCase):
    def test_a_full_disk_loses_nothing(self):
        """A script is played on disks of several sizes, each soon full: what was answered is there when there is room again."""
        script = FIELD + "".join(f"K{n} deliver N1 A-1 1\n" for n in range(2, 300))
        for size in [65_536, 262_144, 327_680, 524_288, 786_432]:
            with small_disk(self.folder, size) as point:
                if point is None:
                    self.skipTest("no file system can be mounted here")
                path = os.path.join(point, "desk.db")
                end = ended(self.program, ["init", path])
                if end != (0, b"", b""):
                    expect(end == STORE, f"init in {size} bytes: {end}")
                    continue
                status, out, errors = ended(self.program, ["run", path], script)
                replies = out.decode().splitlines()
                expect((status, errors) == (1, STORE[2]), f"run in {size} bytes: {status}, {errors}")
                expect(replies == [f"K{n} done {n}" for n in range(1, len(replies) + 1)], f"another reply: {replies[-1:]}")
                roomy = os.path.join(self.folder, "roomy.db")
                for end in ["", "-wal"]:
                    with contextlib.suppress(FileNotFoundError):
                        shutil.copyfile(path + end, roomy + end)
                found = done(self.program, ["run", roomy], script)
                expect(found == [f"K{n} done {n}" for n in range(1, 300)], f"{size} bytes: another reply")
                os.remove(roomy)

    @unittest.skipIf(os.getuid() != 0, "only root can be another user")
    def test_what_may_not_be_written_is_left_alone(self):
        """The folder and the file in it have such modes, for a user who owns neither."""
        os.chmod(self.folder, 0o755)
        program = shutil.copy(self.program, os.path.join(self.folder, "stockdesk"))
        shop = os.path.join(self.folder, "shop")
        os.mkdir(shop)
        path = with_field(program, shop)
        found, files = bytes_of(path), os.listdir(shop)
        for folder_mode, mode in [(0o777, 0o444), (0o755, 0o666), (0o755, 0o444), (0o777, 0o000), (0o000, 0o666)]:
            os.chmod(shop, folder_mode)
            os.chmod(path, mode)
            end = ended_as_nobody(program, ["run", path], b"K2 deliver N1 A-1 1\n")
            expect(end == STORE, f"run: {end}")
            expect(bytes_of(path) == found, "the desk was changed")
        os.chmod(shop, 0o755)
        end = ended_as_nobody(program, ["init", os.path.join(shop, "new.db")], b"")
        expect(end == STORE, f"init: {end}")
        expect(os.listdir(shop) == files, f"a file was made: {os.listdir(shop)}")

    def test_a_file_that_vanishes(self):
        """Where the file is gone before a run, there is no desk; a session goes on with the file that it opened, wherever that
        lies."""
        path = with_field(self.program, self.folder)
        session = Session(self.program, path)
        try:
            expect(session.ask("K2 deliver N1 A-1 1") == "K2 done 2", "no reply")
            kept = os.path.join(self.folder, "kept.db")
            os.rename(path, kept)
            expect(session.ask("K3 deliver N1 A-1 1") == "K3 done 3", "no reply")
            expect_end(self.program, ["run", path], NOT_A_DESK)
        finally:
            session.end()
        os.rename(f"{path}-wal", f"{kept}-wal")
        found = done(self.program, ["run", kept], "? field N1 A-1\n")
        expect(found == ["? field N1 A-1 lo 0 hi 1000000 value 2 inf 2 sup 2"], f"{found}")

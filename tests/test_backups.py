"""Tests of the tool that copies a desk while it is served: many copies under load, on a disk that gets full, and where the tool
is killed; which copies stay; what is refused."""

import contextlib
import fcntl
import glob
import os
import random
import signal
import stat
import subprocess
import sys
import time
import types
from concurrent.futures import ThreadPoolExecutor
from datetime import datetime, timedelta, timezone
from importlib.machinery import SourceFileLoader
from typing import Any

from support import fronts
from support.cases import ProgramCase, needs, needs_sqlite
from support.copies import (
    BACKUP,
    NAME,
    NO_COPY,
    RESTORE,
    SMALL_DISK,
    Load,
    alone,
    copied,
    desk_of,
    ended,
    expect_copy,
    expect_refused,
    served,
    stands_still,
    under_load,
    until_held,
    words_of,
)
from support.disks import small_disk
from support.programs import bytes_of, done, expect, new_desk, note
from support.rolled import tool_ended
from support.service import ask
from support.tables import rows_of

# copies under load: without a fault, on a full disk, killed at any moment, killed while the desk is held
ROUNDS = {"whole": 110, "full": 40, "killed": 25, "held": 25}

# the calls by which the tool copies
COPYING = "copy_file_range,sendfile"


# ---- copies under load


class Copies:
    """Rounds of copies under load, each into the folder for copies or onto a small disk, and what is found after them."""

    def __init__(self, program: str, load: Load, folder: str, disk: str | None):
        self.program, self.load, self.folder, self.disk = program, load, folder, disk
        self.random = random.Random(1986)
        self.longest = 0.0
        self.took = 0.2
        self.found: dict[str, int] = {}

    def words(self, folder: str) -> list[str]:
        return words_of(self.load.desk, folder, self.program)

    def whole(self) -> None:
        began = time.monotonic()
        _, held = copied(self.words(self.folder))
        self.took = time.monotonic() - began
        self.longest = max(self.longest, held)

    def full(self) -> None:
        """A copy on a disk with little room left, or with a limit on each file; the room may be just enough."""
        size = sum(os.path.getsize(self.load.desk.file + suffix) for suffix in ["", "-wal"])
        folder, limit = self.folder, None
        if self.disk and self.random.random() < 0.5:
            folder = self.disk
            with open(os.path.join(self.disk, "filler"), "wb") as filler:
                os.posix_fallocate(filler.fileno(), 0, SMALL_DISK - self.random.randint(1, int(1.5 * size)))
        else:
            limit = self.random.randint(1, size)
        status, out, told = ended(self.words(folder), limit)
        is_told = bool(NO_COPY.search(told)) == (status == 1) and status in (0, 1)
        expect(is_told and bool(out) == (status == 0), f"{status}, {out!r}, {told!r}")
        self.count("full", status == 1)
        if folder != self.folder:
            self.look(folder)

    def killed(self) -> None:
        tool = subprocess.Popen(self.words(self.folder), stdout=subprocess.DEVNULL, stderr=subprocess.DEVNULL)
        time.sleep(self.random.uniform(0, self.took))
        tool.kill()
        self.count("killed", tool.wait() == -signal.SIGKILL)

    def held(self) -> None:
        tool = until_held(self.load.desk, self.words(self.folder))
        tool.kill()
        self.count("held", tool.wait() == -signal.SIGKILL)

    def count(self, kind: str, fact: bool) -> None:
        self.found[kind] = self.found.get(kind, 0) + fact

    def look(self, folder: str) -> None:
        """Looks at all copies with a name."""
        sent = list(self.load.sent)
        for name in os.listdir(folder):
            path = os.path.join(folder, name)
            if NAME.fullmatch(name):
                expect_copy(self.program, path, self.before, sent)
                self.count("copies", True)
                os.remove(path)

    def play(self, kind: str) -> None:
        self.before = list(self.load.answered)
        getattr(self, kind)()
        self.load.expect_goes_on()
        self.look(self.folder)


class Copying(ProgramCase):
    @needs_sqlite
    def test_copies_under_load(self):
        """200 copies, some of which find a full disk and some of which are killed: the desk goes on after each, and each copy
        that has a name opens and has what was answered before it began."""
        kinds = [kind for kind, number in ROUNDS.items() for _ in range(number)]
        random.Random(1986).shuffle(kinds)
        copies = os.path.join(self.folder, "copies")
        os.mkdir(copies)
        with served(self.program, self.folder) as desk, small_disk(self.folder, SMALL_DISK) as disk, under_load(desk) as load:
            rounds = Copies(self.program, load, copies, disk)
            for kind in kinds:
                rounds.play(kind)
            # the next copy has removed what the killed ones left
            copied(rounds.words(copies))
            expect(all(NAME.fullmatch(name) for name in os.listdir(copies)), f"left over: {os.listdir(copies)}")
            found = rounds.found
            expect(found["full"] > 0 and found["held"] > 0 and found["copies"] >= ROUNDS["whole"], f"{found}")
            told = f"{found['full']} found a full disk, {found['killed']} killed, {found['held']} more while the desk was held"
            note(f"{len(kinds)} backups, {found['copies']} copies; {told}")
            note(f"{len(load.answered)} commands; the longest hold took {rounds.longest} ms")

    @needs_sqlite
    @needs("strace")
    def test_files_stand_still_while_they_are_copied(self):
        """Each call that copies waits for 30 ms, under a load without a pause: no copy is torn."""
        slow = f"strace -f -o /dev/null -e trace={COPYING} -e inject={COPYING}:delay_enter=30000".split()
        with served(self.program, self.folder) as desk, under_load(desk, 0) as load:
            for _ in range(8):
                before = list(load.answered)
                status, out, told = ended([*slow, *words_of(desk, self.folder, self.program)])
                expect(status == 0, f"{status}, {told!r}")
                load.expect_goes_on()
                expect_copy(self.program, os.path.join(self.folder, out.rstrip("\n")), before, list(load.sent))
            note(f"{len(load.answered)} commands")

    def test_a_backup_that_stands_still_lets_the_desk_go_on(self):
        """The tool is stopped while it holds the desk: within some ten seconds the desk goes on, and no copy gets a name."""
        path = new_desk(self.program, self.folder)
        with alone(self.program, path) as service:
            desk = desk_of(service, path)
            for _ in range(50):
                tool = until_held(desk, words_of(desk, self.folder, self.program))
                tool.send_signal(signal.SIGSTOP)
                if tool.poll() is None and stands_still(service.process):
                    break
                tool.kill()
                tool.wait()
            latest = time.monotonic() + 12
            while stands_still(service.process) and time.monotonic() < latest:
                time.sleep(0.1)
            expect(not stands_still(service.process), "the desk is held for ever")
            copies = {name for name in os.listdir(self.folder) if NAME.fullmatch(name)}
            tool.send_signal(signal.SIGCONT)
            expect(tool.wait() == 1, f"status {tool.returncode}")
            expect({name for name in os.listdir(self.folder) if NAME.fullmatch(name)} == copies, "a copy was made")

    @needs_sqlite
    def test_backups_at_once(self):
        """Four runs copy one desk into one folder, five times: all copies are made, each with a name of its own. A folder of a
        run that was killed is removed, and that of a run that goes on is not."""
        path, copies = new_desk(self.program, self.folder), os.path.join(self.folder, "copies")
        done(self.program, ["run", path], fronts.FIELDS)
        left, alive = (os.path.join(copies, name) for name in [".stockdesk-left", ".stockdesk-alive"])
        os.makedirs(left)
        os.mkdir(alive)
        with open(os.path.join(left, "desk.db"), "wb") as file:
            file.write(b"half of a copy")
        lock = os.open(alive, os.O_RDONLY)
        fcntl.flock(lock, fcntl.LOCK_EX)
        with alone(self.program, path) as service, ThreadPoolExecutor(4) as pool:
            desk = desk_of(service, path)
            jobs = [pool.submit(copied, words_of(desk, copies, self.program)) for _ in range(20)]
            names = [os.path.basename(job.result()[0]) for job in jobs]
        os.close(lock)
        expect(sorted(os.listdir(copies)) == sorted([*names, ".stockdesk-alive"]), f"{os.listdir(copies)} and not {names}")
        rows = rows_of(path)
        for name in names:
            expect(rows_of(os.path.join(copies, name)) == rows, f"{name} has other rows")


# ---- which copies stay


# days and weeks; the moments of copies, the last of which was just made; and which of them stay
KEPT: list[tuple[int, int, str, str]] = [
    # the only copy; all copies of its day
    (1, 0, "0301T10", "0301T10"),
    (1, 0, "0301T00 0301T09 0301T10", "0301T00 0301T09 0301T10"),
    # the newest of each of the newest days, whether or not they follow each other
    (3, 0, "0225T09 0226T01 0226T23 0227T12 0227T11 0301T10", "0226T23 0227T12 0301T10"),
    (2, 0, "0101T09 0102T01 0301T10", "0102T01 0301T10"),
    # then the newest copy of each week before them: 0219 is a Monday, 0218 the Sunday before it
    (2, 2, "0210T09 0217T09 0218T09 0219T09 0221T08 0221T09 0229T09 0301T10", "0218T09 0221T09 0229T09 0301T10"),
    (1, 9, "0218T08 0218T09 0219T09 0301T10", "0218T09 0219T09 0301T10"),
    # a week that both share: 0226 is a Monday
    (2, 1, "0226T09 0227T09 0228T09 0301T10", "0227T09 0228T09 0301T10"),
    # a clock that was wrong once costs one copy of a day
    (2, 1, "0228T09 0229T09 1231T09 0301T10", "0229T09 1231T09 0301T10"),
    (14, 8, "0101T01 0301T10", "0101T01 0301T10"),
]


def moments_of(text: str) -> list[datetime]:
    return [datetime.strptime(f"2024{word}", "%Y%m%dT%H").replace(tzinfo=timezone.utc) for word in text.split()]


def backup_module() -> Any:
    """The tool as a module, which lies beside those that it imports."""
    loader = SourceFileLoader("stockdesk_backup", BACKUP)
    module = types.ModuleType(loader.name)
    loader.exec_module(module)
    return module


class Keeping(ProgramCase):
    def test_which_copies_stay(self):
        tool = backup_module()
        for days, weeks, there, stay in KEPT:
            copies = [(moment, moment.isoformat()) for moment in moments_of(there)]
            found = tool.kept(copies, copies[-1][0], days, weeks)
            expect(sorted(moment for moment, _ in found) == moments_of(" ".join(sorted(stay.split()))), f"{there}: {found}")
        # a copy a day for a year: 14 days, what is left of a week, and 7 Sundays before that
        kept = set()
        first = moments_of("0101T03")[0]
        for day in range(366):
            made = first + timedelta(days=day)
            kept = tool.kept([*kept, (made, "")], made, 14, 8)
        stay = sorted((made - moment).days for moment, _ in kept)
        expect(stay[:14] == list(range(14)) and len(stay) == 14 + 8, f"{stay}")
        expect(all(moment.isoweekday() == 7 for moment, _ in sorted(kept)[:7]), f"{kept}")

    def test_nothing_else_is_removed(self):
        """The rule removes only files whose names are names of copies of this desk."""
        path, copies = new_desk(self.program, self.folder), os.path.join(self.folder, "copies")
        old = ["desk-20010203T040506Z-7.db", "desk-20010204T040506Z-7.db", "desk-20010204T050506Z-8.db"]
        others = ["desk.db", "desk-20010203T040506Z-7.db-wal", "desk-20010203T040506Z.db", "desk-20019903T040506Z-7.db"]
        others += [
            "shop-20010203T040506Z-7.db",
            "desk-a-20010203T040506Z-7.db",
            "desk-20010203T040506Z-7.dbx",
            "xdesk-20010203T040506Z-7.db",
        ]
        os.makedirs(os.path.join(copies, "desk-20010203T040506Z-9.db"))
        for name in old + others:
            with open(os.path.join(copies, name), "wb") as file:
                file.write(b"old")
        with alone(self.program, path) as service:
            desk = desk_of(service, path)
            made, _ = copied([*words_of(desk, copies, self.program), "--days", "1", "--weeks", "1"])
            want = [os.path.basename(made), old[2], "desk-20010203T040506Z-9.db", *others]
            expect(sorted(os.listdir(copies)) == sorted(want), f"{sorted(os.listdir(copies))} and not {sorted(want)}")

    @needs_sqlite
    def test_the_newest_old_file_is_copied_once(self):
        """A roll leaves an old file beside the desk; the next copy of the desk copies it, too, and those after that do not."""
        path, copies = new_desk(self.program, self.folder), os.path.join(self.folder, "copies")
        os.mkdir(copies)
        words = [path, copies, "--program", self.program]
        for number in range(2):
            done(self.program, ["run", path], f"K{number} expire {number}\n")
            told = tool_ended(self.program, [path, "--keys", "0"])
            expect(told[0] == 0, f"not rolled up: {told}")
            newest = max(glob.glob(os.path.join(self.folder, "old-*.db")), key=os.path.getmtime)
            for _ in range(2):
                with alone(self.program, path) as service:
                    end = ended([BACKUP, str(service.process.pid), *words])
                    expect(end[0] == 0, f"no copy: {end}")
                copy = os.path.join(copies, "old", os.path.basename(newest))
                expect(bytes_of(copy) == bytes_of(newest), "another copy")
                expect(stat.S_IMODE(os.stat(copy).st_mode) == 0o600, "others may read it")
            expect(len(os.listdir(os.path.join(copies, "old"))) == number + 1, "other files")


# ---- what is refused

# a process that has files open to write, or to read, until its input ends
HOLDER = "import sys\nfiles = [open(path, sys.argv[1]) for path in sys.argv[2:]]\nprint('open', flush=True)\nsys.stdin.read()\n"


def holding(mode: str, path: str) -> subprocess.Popen:
    words = [sys.executable, "-c", HOLDER, mode, path, path + "-wal"]
    process = subprocess.Popen(words, stdin=subprocess.PIPE, stdout=subprocess.PIPE)
    expect(process.stdout and process.stdout.readline() == b"open\n", "a process does not begin")
    return process


class Refusals(ProgramCase):
    def test_a_backup_of_something_else_is_refused(self):
        """The process is another one, or only reads; it is another file; there is no desk, no folder, no program."""
        path, other, copies = (
            new_desk(self.program, self.folder),
            new_desk(self.program, self.folder, "other.db"),
            os.path.join(self.folder, "copies"),
        )
        text = os.path.join(self.folder, "text.db")
        for name in [text, text + "-wal"]:
            with open(name, "wb") as file:
                file.write(b"this is no database, but some text")
        os.mkdir(copies)
        gone = subprocess.Popen(["true"])
        gone.wait()
        writer, reader = holding("rb+", text), holding("rb", other)
        with alone(self.program, path) as service:
            pid = str(service.process.pid)
            for words, want in [
                ([str(gone.pid), path, copies], f"there is no process {gone.pid}"),
                ([str(writer.pid), path, copies], f"process {writer.pid} does not serve {path}"),
                ([str(reader.pid), other, copies], f"process {reader.pid} does not serve {other}"),
                ([pid, other, copies], f"process {pid} does not serve {other}"),
                ([str(writer.pid), text, copies], "it is no database"),
                ([pid, os.path.join(self.folder, "none.db"), copies], "No such file or directory: "),
                ([pid, path, os.path.join(self.folder, "none")], "No such file or directory: "),
                ([pid, path, other], f"Not a directory: {other}"),
            ]:
                expect_refused([BACKUP, *words, "--program", self.program], want)
                expect(not os.listdir(copies), f"{words}: {os.listdir(copies)}")
            expect_refused([BACKUP, pid, path, copies, "--program", "/none"], "the program /none is not there")
            service.process.send_signal(signal.SIGSTOP)
            expect_refused([BACKUP, pid, path, copies, "--program", self.program], f"process {pid} stands still already")
            service.process.send_signal(signal.SIGCONT)
            copied([BACKUP, pid, path, copies, "--program", self.program])
            # the process waits for its first client all the while
            with contextlib.closing(service.connect()) as connection:
                status, _, body = ask(connection, "GET", "/v1/fields/N1/A-1")
            expect(status == 404, f"{status}, {body}")
        for process in [writer, reader]:
            process.communicate()

    def test_other_words_are_refused(self):
        for words in [
            [],
            ["x", "f", "d"],
            ["0", "f", "d"],
            ["1", "f"],
            ["1", "f", "d", "--days", "0"],
            ["1", "f", "d", "--weeks", "-1"],
        ]:
            status, out, told = ended([BACKUP, *words])
            expect((status, out) == (2, "") and told.startswith("usage: "), f"{words}: {status}, {told!r}")
        for words in [[], ["c"], ["c", "f", "g"]]:
            status, out, told = ended([RESTORE, *words])
            expect((status, out) == (2, "") and told.startswith("usage: "), f"{words}: {status}, {told!r}")
        for tool in [BACKUP, RESTORE]:
            status, out, told = ended([tool, "--help"])
            expect(status == 0 and out.startswith("usage: ") and not told, f"{status}, {told!r}")

    def test_a_file_may_have_another_name(self):
        """A link leads to the desk's file: its log lies beside the file that is meant, and the copy is named by the link."""
        path, link = new_desk(self.program, self.folder), os.path.join(self.folder, "shop")
        done(self.program, ["run", path], fronts.FIELDS)
        os.symlink(path, link)
        with alone(self.program, path) as service:
            status, out, told = ended([BACKUP, str(service.process.pid), link, self.folder, "--program", self.program])
            expect(status == 0 and out.startswith("shop-") and out.endswith("Z-8\n"), f"{status}, {out!r}, {told!r}")

"""Tests of what the tools for desks have in common: what a log has to hold before it may not be left out, what keeps a desk shut,
and the name of a new one."""

import contextlib
import errno
import os
import subprocess
import sys
from unittest import mock

from support.cases import ProgramCase, needs_sqlite, needs_strict_tables
from support.programs import bytes_of, done, expect, new_desk
from support.rolled import play_and_kill
from support.tables import sqlite3

import stockdesk_tools as tools

SCRIPT = "K1 field N1 A-1 0 100 40\n"

# what locks a whole file for reading, waits for nobody, and looks for nobody
SHARES = "import fcntl, sys; fcntl.lockf(open(sys.argv[1], 'rb'), fcntl.LOCK_SH | fcntl.LOCK_NB)"


def a_page_in_its_log(folder):
    """A database with the smallest pages, one of which was written anew and stands in the log alone."""
    path = os.path.join(folder, "small.db")
    with contextlib.closing(sqlite3.connect(path, isolation_level=None)) as database:
        for line in ["PRAGMA page_size = 512", "PRAGMA journal_mode = WAL", "CREATE TABLE t (n)", "INSERT INTO t VALUES (1)"]:
            database.execute(line)
        database.execute("PRAGMA wal_checkpoint(TRUNCATE)")
        database.execute("UPDATE t SET n = 2")
        tools.copy_desk(path, os.path.join(folder, "copy.db"))
    return os.path.join(folder, "copy.db")


def number_in(path):
    with contextlib.closing(sqlite3.connect(path)) as database:
        return database.execute("SELECT n FROM t").fetchone()[0]


class Logs(ProgramCase):
    @needs_sqlite
    def test_a_log_with_a_page_is_no_shorter(self):
        """With one byte less, another SQLite finds nothing in the log."""
        copy = a_page_in_its_log(self.folder)
        expect(os.path.getsize(copy + tools.LOG) == tools.LOG_WITH_A_PAGE, f"{os.path.getsize(copy + tools.LOG)} bytes")
        for less, number in [(0, 2), (1, 1)]:
            cut = os.path.join(self.folder, f"{less}.db")
            tools.copy_desk(copy, cut)
            os.truncate(cut + tools.LOG, tools.LOG_WITH_A_PAGE - less)
            expect(tools.has_pages(cut + tools.LOG) == (number == 2), f"{less} bytes less: pages")
            expect(number_in(cut) == number, f"{less} bytes less: another number")

    @needs_strict_tables
    def test_the_program_leaves_no_page_in_its_log(self):
        """This holds once the program has closed a desk; a killed program leaves pages, and the tools have the program copy them
        first."""
        path = new_desk(self.program, self.folder)
        done(self.program, ["run", path], SCRIPT)
        expect(os.path.exists(path + tools.LOG) and not tools.has_pages(path + tools.LOG), "pages are left")
        play_and_kill(self.program, path, "K2 deliver N1 A-1 1\n")
        expect(tools.has_pages(path + tools.LOG), "no page is left")
        expect(tools.settle(self.program, path, "it") == 2 and not os.path.exists(path + tools.LOG), "it has a log")


class Locks(ProgramCase):
    @needs_strict_tables
    def test_a_desk_that_another_sqlite_writes_is_not_shut(self):
        """Another SQLite writes to the log; its lock beside that is one for reading. Another such lock is granted and finds
        nobody, so a copy under it would be of two moments."""
        path = new_desk(self.program, self.folder)
        done(self.program, ["run", path], SCRIPT)
        with contextlib.closing(sqlite3.connect(path, isolation_level=None)) as database:
            database.execute("PRAGMA journal_mode = WAL")
            database.execute("UPDATE desk SET clock = 1")
            subprocess.run([sys.executable, "-c", SHARES, path], check=True)
            expect(self.refusal_of(path) == f"{path} is in use: end the program that has it open first", "it was kept shut")
        expect(self.refusal_of(path) is None, "nobody has it open")

    def test_a_file_that_is_replaced_is_not_shut(self):
        """Another run puts a new desk there, between the opening of the old one and its lock."""
        path, other = new_desk(self.program, self.folder), new_desk(self.program, self.folder, "other.db")
        opened = tools.opened

        def opened_and_replaced(name):
            file = opened(name)
            os.replace(other, path)
            return file

        with mock.patch.object(tools, "opened", opened_and_replaced), self.assertRaises(tools.Fault), tools.kept_shut(path):
            pass
        with tools.kept_shut(path):
            pass

    def refusal_of(self, path):
        """How a process refuses that is not this one, as which the other SQLite writes."""
        act = "import sys, stockdesk_tools as tools\nwith tools.kept_shut(sys.argv[1]): pass"
        run = subprocess.run(
            [sys.executable, "-B", "-c", act, path], cwd=os.path.dirname(tools.__file__), capture_output=True, text=True
        )
        return run.stderr.splitlines()[-1].partition(": ")[2] if run.returncode else None


class Names(ProgramCase):
    def test_a_name_is_given_to_what_is_new(self):
        """The name is given in one step, or in two where the file system cannot do so in one; never over what is there."""
        path, name = os.path.join(self.folder, "made"), os.path.join(self.folder, "named")
        refused = OSError(errno.EINVAL, "Invalid argument")
        for step in [tools.rename_in_one_step, mock.Mock(side_effect=refused)]:
            with mock.patch.object(tools, "rename_in_one_step", step):
                for text in [b"first", b"second"]:
                    with open(path, "wb") as file:
                        file.write(text)
                    with contextlib.suppress(FileExistsError):
                        tools.rename_new(path, name)
                    expect(bytes_of(name) == b"first" and os.path.exists(path) == (text == b"second"), f"{text}")
            os.remove(name)

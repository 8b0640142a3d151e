"""Tests of the tool that makes a desk of a copy: what it makes, what it leaves alone and refuses, and what is left where it is
killed."""

import contextlib
import os
import random
import shutil
import subprocess
import time
from concurrent.futures import ThreadPoolExecutor

from support import fronts
from support.cases import ProgramCase, needs_sqlite
from support.copies import RESTORE, alone, copied, desk_of, ended, expect_refused, words_of
from support.older import OLDER, older
from support.programs import bytes_of, done, expect, new_desk, note
from support.tables import rows_of, sqlite3


def restore_words(program: str, copy: str, path: str) -> list[str]:
    return [RESTORE, copy, path, "--program", program]


def copy_of_a_desk(program: str, folder: str) -> tuple[str, str]:
    """A desk that was served, and a copy of it that was made then."""
    path = new_desk(program, folder)
    done(program, ["run", path], fronts.FIELDS + "K1 open 7 60 take N1 A-1 30\nK2 firm 7\n")
    with alone(program, path) as service:
        copy, _ = copied(words_of(desk_of(service, path), folder, program))
    return path, copy


class Restores(ProgramCase):
    @needs_sqlite
    def test_a_restored_desk_goes_on(self):
        """The restored desk has the rows of the copy, which stays as it was, and behind the same commands the rows of the desk.
        The same holds for a desk, with its log, that no program has open."""
        path, copy = copy_of_a_desk(self.program, self.folder)
        found, rows = bytes_of(copy), rows_of(copy)
        restored = os.path.join(self.folder, "restored.db")
        expect(ended(restore_words(self.program, copy, restored)) == (0, "", ""), "it is not restored")
        expect(bytes_of(copy) == found, "the copy was changed")
        expect(rows_of(restored) == rows, "other rows")
        rest = "K3 use 7 N1 A-1 10\nK4 abort 7\nK5 commit 7\n"
        expect(done(self.program, ["run", restored], rest) == done(self.program, ["run", path], rest), "other replies")
        expect(rows_of(restored) == rows_of(path), "other rows behind the rest")
        killed = subprocess.Popen([self.program, "run", path], stdin=subprocess.PIPE, stdout=subprocess.PIPE)
        with killed:
            killed.stdin.write(b"K6 deliver N1 A-1 1\n")
            killed.stdin.flush()
            killed.stdout.readline()
            expect_refused(restore_words(self.program, path, os.path.join(self.folder, "open.db")), f"{path} is in use")
            killed.kill()
        again = os.path.join(self.folder, "again.db")
        expect(ended(restore_words(self.program, path, again)) == (0, "", ""), "it is not restored")
        expect("kept|K6|13|deliver N1 A-1 1" in rows_of(again), "the log was left out")

    def test_nothing_is_restored_over_what_is_there(self):
        """There is a desk, its log alone, what else an SQLite leaves, a link to nothing, or a folder."""
        _, copy = copy_of_a_desk(self.program, self.folder)
        path = os.path.join(self.folder, "there", "desk.db")
        for name in ["desk.db", "desk.db-wal", "desk.db-shm", "desk.db-journal"]:
            os.mkdir(os.path.dirname(path))
            with open(os.path.join(self.folder, "there", name), "wb") as file:
                file.write(b"there")
            expect_refused(restore_words(self.program, copy, path), f"{name} is there already")
            shutil.rmtree(os.path.dirname(path))
        os.mkdir(os.path.dirname(path))
        os.symlink("nothing", path)
        expect_refused(restore_words(self.program, copy, path), "desk.db is there already")
        os.remove(path)
        os.mkdir(path)
        expect_refused(restore_words(self.program, copy, path), "desk.db is there already")
        expect(os.listdir(os.path.dirname(path)) == ["desk.db"], "something is left over")

    def test_one_of_two_restores_is_refused(self):
        """Both restore to one name at once, ten times: one succeeds, the other says what is there, or that the copy is in use."""
        _, copy = copy_of_a_desk(self.program, self.folder)
        with ThreadPoolExecutor(2) as pool:
            for number in range(10):
                words = restore_words(self.program, copy, os.path.join(self.folder, f"restored{number}.db"))
                ends = sorted(pool.map(ended, [words, words]))
                expect([end[0] for end in ends] == [0, 1], f"{ends}")
                expect(ends[1][2].endswith(" is there already\n") or f"{copy} is in use: " in ends[1][2], f"{ends}")
                expect(bytes_of(words[2]) == bytes_of(copy), "other bytes")

    @needs_sqlite
    def test_a_copy_that_is_no_good_desk_is_refused(self):
        """The copy is of version 1, has other rows or other bytes, is a part of one, or is not there."""
        _, copy = copy_of_a_desk(self.program, self.folder)
        whole = bytes_of(copy)
        spoiled = os.path.join(self.folder, "spoiled.db")
        path = os.path.join(self.folder, "restored.db")

        def expect_spoiled(data: bytes, want: str) -> None:
            with open(spoiled, "wb") as file:
                file.write(data)
            expect_refused(restore_words(self.program, spoiled, path), want)

        for name in OLDER:
            expect_refused(restore_words(self.program, older(self.folder, name), path), "stockdesk upgrade")
        shutil.copyfile(copy, spoiled)
        with contextlib.closing(sqlite3.connect(spoiled)) as database:
            database.execute("UPDATE field SET value = value + 1 WHERE article = 'A-1'")
            database.commit()
        expect_refused(restore_words(self.program, spoiled, path), "it is damaged: its rows are those of no good ledger")
        expect_spoiled(b"this is no database, but some text", "it is no database")
        expect_spoiled(b"", "it is no desk")
        expect_spoiled(whole[:-4096], ": ")
        for page in range(len(whole) // 4096):
            expect_spoiled(whole[: 4096 * page] + bytes(4096) + whole[4096 * (page + 1) :], ": ")
        expect_refused(restore_words(self.program, os.path.join(self.folder, "none.db"), path), "none.db is not there")
        expect_refused(restore_words(self.program, self.folder, path), f"{self.folder} is no file")
        expect_refused(restore_words(self.program, copy, os.path.join(self.folder, "none", "desk.db")), "none is not there")

    def test_a_killed_restore_leaves_all_or_nothing(self):
        """The tool is killed at any moment, forty times: the file is not there or whole, and the next run removes what was
        left."""
        _, copy = copy_of_a_desk(self.program, self.folder)
        whole, path = bytes_of(copy), os.path.join(self.folder, "new", "desk.db")
        generator = random.Random(1986)
        os.mkdir(os.path.dirname(path))
        began = time.monotonic()
        ended(restore_words(self.program, copy, path))
        took, there = time.monotonic() - began, 0
        for _ in range(40):
            os.remove(path)
            tool = subprocess.Popen(restore_words(self.program, copy, path), stdout=subprocess.DEVNULL)
            time.sleep(generator.uniform(0.3, 1.1) * took)
            tool.kill()
            tool.wait()
            if os.path.exists(path):
                there += 1
            else:
                expect(ended(restore_words(self.program, copy, path)) == (0, "", ""), "no other restore")
                expect(os.listdir(os.path.dirname(path)) == ["desk.db"], f"left over: {os.listdir(os.path.dirname(path))}")
            expect(bytes_of(path) == whole, "a part of a desk")
        note(f"40 killed, {there} of them behind their end")

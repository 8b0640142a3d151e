"""Tests of `stockdesk-rollover`, which rolls a desk up in its place: what FILE and the old file beside it have then, runs that
are killed or stopped, and desks that are refused."""

import contextlib
import os
import random
import re
import shutil
import signal
import stat
import subprocess
import sys
import time

from support import DEPLOY
from support.cases import ProgramCase, needs_strict_tables
from support.chance import Seeded
from support.copies import alone
from support.desks import Desks
from support.full_desks import full_rows
from support.older import older
from support.programs import NO_DESK, Session, bytes_of, done, expect, expect_end, new_desk, note
from support.rolled import (
    SCRIPT,
    TOOL,
    closed,
    desk_of,
    expect_only,
    expect_refused,
    kill_group,
    lying,
    play_and_kill,
    tool_ended,
)
from support.rolls import desk_to_roll, expect_rolled, places_told, rolled_by_rules, some_keys
from support.rows import expect_good
from support.tables import sqlite3, tables_of

SEEDS = range(12)
KILLS = 60

OLD_NAME = re.compile(r"old-[0-9]{8}T[0-9]{6}Z(?:-[0-9]+)?\.db")

# words that are wrong
NO_WORDS = [
    [],
    ["old.db", "new.db"],
    ["--check"],
    ["--wants"],
    ["--check", "--wants", "old.db"],
    ["--check", "old.db", "--from", "1"],
    ["--check", "old.db", "--keys", "1"],
    ["old.db", "--port", "8080"],
    ["--check", "old.db", "--port", "0"],
    ["--wants", "old.db", "--port", "65536"],
    ["old.db", "--from", "200001"],
    ["old.db", "--from", "-1"],
    ["old.db", "--keys", "many"],
    ["old.db", "--keys", "200001"],
    ["old.db", "--fro", "1"],
    ["old.db", "--force"],
]

# ends the tool at the nth of the calls by which it changes names
STEPS = """
import os, sys
from importlib.machinery import SourceFileLoader
from importlib.util import module_from_spec, spec_from_loader
sys.dont_write_bytecode = True
path, last, *words = sys.argv[1:]
sys.path.insert(0, os.path.dirname(path))
sys.argv = [path, *words]
loader = SourceFileLoader("rollover", path)
tool = module_from_spec(spec_from_loader("rollover", loader))
loader.exec_module(tool)
count, put = 0, tool.put_in_place

def counted(act):
    def call(*given):
        global count
        count += 1
        if count == int(last):
            os._exit(9)
        return act(*given)
    return call

def put_in_steps(*given):
    for name in ["remove", "link", "rename", "fsync"]:
        setattr(os, name, counted(getattr(os, name)))
    return put(*given)

tool.put_in_place = put_in_steps
tool.tools.end(tool.run, tool.arguments(), "not done")
"""


def old_names(folder):
    """The old files in a folder, in the order of their moments; of one moment, in the order of their numbers."""
    names = [name for name in os.listdir(folder) if OLD_NAME.fullmatch(name)]
    return sorted(names, key=lambda name: (name[:20], len(name), name))


def copied(program, path, folder):
    """A closed copy of a desk and its log, which is for reading."""
    name = os.path.join(folder, "read.db")
    if os.path.exists(f"{path}-wal"):
        return closed(program, path, name)
    return shutil.copyfile(path, name)


def rolled_up(program, path, *words):
    """Rolls a desk up; returns the line that the tool writes and the path of the old file."""
    folder = os.path.dirname(path)
    before = set(os.listdir(folder))
    status, out, errors = tool_ended(program, [path, *words])
    expect((status, errors) == (0, b"") and out.count(b"\n") == 1, f"{status}, {out!r}, {errors!r}")
    [name] = set(os.listdir(folder)) - before
    expect(OLD_NAME.fullmatch(name) and name in out.decode(), f"{name}: {out!r}")
    expect(not os.path.exists(f"{path}-wal"), "a log was left")
    expect(os.stat(path).st_nlink == 1, "it has another name, too, with which the program refuses it")
    return out.decode(), os.path.join(folder, name)


def with_large_pages(path):
    """Gives a desk pages of the length that they had in older versions."""
    with contextlib.closing(sqlite3.connect(path, isolation_level=None)) as database:
        for line in ["PRAGMA journal_mode = DELETE", "PRAGMA page_size = 4096", "VACUUM"]:
            database.execute(line).fetchall()


def pages_of(path):
    """How many bytes the pages of a file have."""
    with contextlib.closing(sqlite3.connect(path)) as database:
        return database.execute("PRAGMA page_size").fetchone()[0]


def started(program, words):
    """The tool, in a process group of its own."""
    pipe = subprocess.PIPE
    return subprocess.Popen([TOOL, "--program", program, *words], stdout=pipe, stderr=pipe, start_new_session=True)


def longer(program, folder):
    """A desk whose roll takes a while."""
    os.mkdir(folder)
    path = new_desk(program, folder, "desk.db")
    done(program, ["run", path], "".join(f"F{n} field N{n % 20} A-{n // 20} 0 100 40\n" for n in range(2_000)))
    os.remove(f"{path}-wal")
    return path


@needs_strict_tables
class RollOvers(ProgramCase):
    def test_random_desks_are_rolled_up_in_their_place(self):
        """FILE has the rows that the rules give, and the old file those that FILE had, also those that were in its log."""
        for seed in SEEDS:
            folder = os.path.join(self.folder, str(seed))
            os.mkdir(folder)
            chance = Seeded(seed)
            path, read = desk_to_roll(self.program, folder, chance)
            old = tables_of(read)
            keys = some_keys(chance, old["desk"][0].places)
            told, other = rolled_up(self.program, path, "--keys", str(keys))
            expect_rolled(read, path, keys)
            expect_good(path, "the desk")
            expect(tables_of(other) == old, f"{seed}: other rows in the old file")
            new = tables_of(path)
            numbers = old["desk"][0].places, new["desk"][0].places, len(new["field"]), sum(it.state == 0 for it in new["orders"])
            text = "rolled up: {} places were taken, {} are; {} fields and {} open orders stay; the old desk is {}\n"
            expect(told == text.format(*numbers, os.path.basename(other)), told)

    def test_a_full_desk_is_rolled_up(self):
        """199,000 places are taken or set aside; there are 10,000 fields and 90,000 orders."""
        desks = Desks(self.program, self.folder)
        desks.put(full_rows())
        read = shutil.copyfile(desks.path, os.path.join(self.folder, "read.db"))
        began = time.monotonic()
        rolled_up(self.program, desks.path)
        took = time.monotonic() - began
        expect_rolled(read, desks.path)
        note(f"{took:.0f} s")

    def test_a_desk_is_rolled_up_again_and_again(self):
        """Between the rolls the program accepts commands. Nothing is lost or done twice: each key that stays is answered as the
        first time, but for its place; and each key is in the desk or in an old file. Two rolls in a second get two names."""
        path, commands, names = desk_of(self.program, self.folder), [], 0
        for turn in range(8):
            lines = [f"T{turn}-{n} deliver N1 A-1 1\n" for n in range(5)]
            expect(all(places_told(done(self.program, ["run", path], "".join(lines)))), "refused")
            commands += lines
            rolled_up(self.program, path, "--keys", "7")
            # this one comes within the same second
            rolled_up(self.program, path, "--keys", "6")
            names += 2
            expect(len(old_names(self.folder)) == names, "an old file is not there")
            again = done(self.program, ["run", path], "".join(commands[-6:]))
            expect([places_told([line])[0] for line in again] == list(range(7 - len(again), 7)), f"{again}")
            [value] = [row.value for row in tables_of(path)["field"] if row.branch == "N1"]
            expect(value == 40 + len(commands), f"{value} after {len(commands)}")
        olds = [os.path.join(self.folder, name) for name in old_names(self.folder)]
        known = {row.reqkey for desk in [*olds, path] for row in tables_of(desk)["kept"]}
        expect(known == {line.split()[0] for line in [*SCRIPT.splitlines(), *commands]}, "other keys")

    def test_what_a_killed_session_left_is_rolled_up(self):
        """Its commands are in the log alone."""
        path = new_desk(self.program, self.folder)
        play_and_kill(self.program, path, SCRIPT)
        read = copied(self.program, path, self.folder)
        _, other = rolled_up(self.program, path, "--keys", "3")
        expect_rolled(read, path, 3)
        expect(tables_of(other) == tables_of(read), "other rows in the old file")

    def test_a_desk_that_is_not_full_may_wait(self):
        """8 places are taken; nor is anything done where no key would go, as at a start soon after a roll."""
        path = desk_of(self.program, self.folder)
        found, names = lying(path), os.listdir(self.folder)
        for words, reason in [
            (["--from", "12"], b"8 places are taken and 3 set aside, fewer than 12\n"),
            (["--from", "11"], b"8 places are taken, and all their keys would stay\n"),
            (["--from", "8"], b"8 places are taken, and all their keys would stay\n"),
            (["--from", "8", "--keys", "8"], b"8 places are taken, and all their keys would stay\n"),
        ]:
            end = tool_ended(self.program, [path, *words])
            expect(end == (0, b"nothing is done: " + reason, b""), f"{words}: {end}")
            end = tool_ended(self.program, ["--wants", path, *words])
            expect(end == (3, b"no roll is wanted: " + reason, b""), f"{words}: {end}")
            expect(lying(path) == found and sorted(os.listdir(self.folder)) == sorted(names), "something was changed")
        words = ["--from", "8", "--keys", "7"]
        for more, status in [(["--from", "12"], 3), (words, 0)]:
            with alone(self.program, path) as service:
                asked = ["--wants", os.path.join(self.folder, "none.db"), "--port", str(service.port)]
                expect(tool_ended(self.program, [*asked, *more])[0] == status, f"{more}: another status")
        end = tool_ended(self.program, ["--wants", path, *words])
        expect(end == (0, b"a roll is wanted: 8 places are taken\n", b""), f"{end}")
        rolled_up(self.program, path, *words)
        expect(tables_of(path)["desk"][0].places == 7, "other places")

    def test_a_desk_with_large_pages_gets_small_ones(self):
        """All its rows stay, also those that are in its log alone; the old file stays beside it, and the next run does nothing. A
        run by hand, which rolls the desk up, gives small ones too."""
        path = desk_of(self.program, self.folder)
        with_large_pages(path)
        play_and_kill(self.program, path, "K9 deliver N1 A-1 1\n")
        found = tables_of(path)
        out, other = rolled_up(self.program, path, "--from", "100000")
        expect(out.startswith("made anew with small pages: all rows stay; the file with large ones is old-"), out)
        expect((pages_of(path), pages_of(other)) == (512, 4096), "other pages")
        expect(tables_of(path) == tables_of(other) == found, "other rows")
        end = tool_ended(self.program, [path, "--from", "100000"])
        expect(end[0] == 0 and end[1].startswith(b"nothing is done: "), f"{end}")
        expect(done(self.program, ["run", path], "K10 deliver N1 A-1 1\n") == ["K10 done 10"], "another answer")
        with_large_pages(path)
        rolled_up(self.program, path)
        expect(pages_of(path) == 512, "a roll leaves large pages")

    def test_a_desk_is_its_owners_alone(self):
        """So are a desk and an old file whose desk others could read; they have the owner that the desk had."""
        path = desk_of(self.program, self.folder)
        os.chmod(path, 0o644)
        owner = (1234, 1235) if os.geteuid() == 0 else (os.geteuid(), os.getegid())
        os.chown(path, *owner)
        _, other = rolled_up(self.program, path)
        for name in [path, other]:
            found = os.stat(name)
            expect((stat.S_IMODE(found.st_mode), found.st_uid, found.st_gid) == (0o600, *owner), f"{name}: {found}")

    def test_odd_names_are_names(self):
        """A folder and a file have spaces and signs in their names; a link leads to a desk, whose old file lies
        beside the desk itself."""
        here = os.path.join(self.folder, "a b'?#%41")
        os.mkdir(here)
        path = new_desk(self.program, here, "-o&ld ?mode=ro.db")
        play_and_kill(self.program, path, SCRIPT)
        os.symlink(path, link := os.path.join(self.folder, "link.db"))
        end = tool_ended(self.program, [link])
        expect(end[0] == 0 and os.path.islink(link) and len(old_names(here)) == 1, f"{end}")
        run = subprocess.run(
            [TOOL, "--program", self.program, "--", os.path.basename(path)], cwd=here, capture_output=True, check=False
        )
        expect((run.returncode, run.stderr) == (0, b"") and len(old_names(here)) == 2, f"{run}")


@needs_strict_tables
class Stops(ProgramCase):
    def test_a_killed_roll_leaves_the_old_desk_or_the_new_one(self):
        """FILE opens, and has just the rows of one of them; before, some of them are in its log alone. The next run rolls it up,
        and leaves no working folder."""
        generator, first, new = random.Random(1986), longer(self.program, os.path.join(self.folder, "first")), 0
        play_and_kill(self.program, first, "".join(f"D{n} deliver N{n % 20} A-{n} 1\n" for n in range(100)))
        here, left = os.path.dirname(first), lying(first)
        old = tables_of(copied(self.program, first, self.folder))
        wanted = rolled_by_rules(old, 9)
        began = time.monotonic()
        rolled_up(self.program, first, "--keys", "9")
        took = time.monotonic() - began
        for number in range(KILLS):
            shutil.rmtree(here)
            os.mkdir(here)
            lay(first, left)
            process = started(self.program, [first, "--keys", "9"])
            time.sleep(generator.uniform(0, 1.1 * took))
            kill_group(process, first)
            expect_end(self.program, ["run", first], (0, b"", b""), text="")
            found, names = tables_of(first), old_names(here)
            expect(found in (old, wanted), f"{number}: other rows")
            expect(len(names) == (found == wanted), f"{number}: {names}")
            new += found == wanted
            rolled_up(self.program, first, "--keys", "9")
            expect(tables_of(first) == wanted, f"{number}: other rows after the next run")
            expect(tables_of(os.path.join(here, old_names(here)[-1])) == found, f"{number}: other rows in the old file")
            expect(not hidden(here), f"{number}: a folder is left")
        expect(0 < new < KILLS, f"{new} of {KILLS} came to an end")
        note(f"{KILLS} killed: {new} left the new desk")

    def test_the_next_run_finishes_what_each_step_leaves(self):
        """The tool is ended before each call by which it changes names. Once the old file is a second name of FILE, and the next
        run takes that name away."""
        read, twice, ends, step = desk_of(self.program, self.folder), 0, [], 0
        read = copied(self.program, read, self.folder)
        old, wanted = tables_of(read), rolled_by_rules(tables_of(read), 3)
        while not ends or ends[-1] == 9:
            step += 1
            here = os.path.join(self.folder, str(step))
            os.mkdir(here)
            path = shutil.copyfile(read, os.path.join(here, "desk.db"))
            done(self.program, ["run", path])
            words = [TOOL, str(step), path, "--keys", "3", "--program", self.program]
            ends.append(subprocess.run([sys.executable, "-c", STEPS, *words], stdout=subprocess.DEVNULL).returncode)
            names, links = old_names(here), os.stat(path).st_nlink
            is_new = len(names) == 1 and links == 1
            twice += links == 2
            if links == 1:
                expect_end(self.program, ["run", path], (0, b"", b""), text="")
            expect(
                tables_of(shutil.copyfile(path, os.path.join(self.folder, "look.db"))) == (wanted if is_new else old), f"{step}"
            )
            # where nothing is to be done, the second name goes all the same
            expect(tool_ended(self.program, [path, "--from", "9"])[0] == 0, f"{step}: not looked at")
            expect_end(self.program, ["run", path], (0, b"", b""), text="")
            expect(old_names(here) == names * is_new and not hidden(here), f"{step}: {os.listdir(here)}")
            rolled_up(self.program, path, "--keys", "3")
            expect(tables_of(path) == wanted, f"{step}: other rows after the next run")
        expect(ends[-1] == 0 and len(ends) > 5 and twice == 1, f"{ends}, {twice} with two names")

    def test_a_stopped_roll_leaves_nothing_behind(self):
        """Signals that ask for an end stop the tool: the folder beside the desk is gone, too."""
        path, stopped = longer(self.program, os.path.join(self.folder, "here")), 0
        began = time.monotonic()
        rolled_up(self.program, path)
        took = time.monotonic() - began
        for number in range(9):
            before = old_names(os.path.dirname(path))
            process = started(self.program, [path])
            time.sleep((number + 4) * took / 14)
            process.send_signal([signal.SIGTERM, signal.SIGINT, signal.SIGHUP][number % 3])
            _, errors = process.communicate()
            expect(not hidden(os.path.dirname(path)), "a folder is left")
            is_done = process.returncode == 0
            expect(len(old_names(os.path.dirname(path))) == len(before) + is_done, "other old files")
            if not is_done and process.returncode > 0:
                told = errors.startswith(b"stockdesk-rollover: not done: stopped: ") and errors.count(b"\n") == 1
                expect(process.returncode == 1 and told, f"{process.returncode}, {errors}")
                stopped += 1
        expect(stopped > 0, "none was stopped in time")


def lay(path, files):
    """Puts a file there, and what lay beside it."""
    for end, data in files.items():
        with open(path + end, "wb") as file:
            file.write(data)


def hidden(folder):
    return [name for name in os.listdir(folder) if name.startswith(".")]


@needs_strict_tables
class Refusals(ProgramCase):
    def test_a_desk_in_use_is_refused(self):
        """The program has the desk open, and goes on; or another SQLite reads it."""
        path = desk_of(self.program, self.folder)
        session = Session(self.program, path)
        try:
            session.ask("K9 deliver N1 A-1 1")
            found = lying(path)
            for words in [[], ["--from", "100000"]]:
                expect_refused(self.program, [path, *words], "old.db is in use")
            expect(lying(path) == found, "it was changed")
            expect(session.ask("K10 deliver N1 A-1 1") == "K10 done 10", "it does not go on")
        finally:
            session.end()
        with contextlib.closing(sqlite3.connect(path)) as database:
            database.execute("BEGIN").execute("SELECT * FROM desk").fetchall()
            expect_refused(self.program, [path], "old.db is in use")
        done(self.program, ["run", path], "")
        expect_only(self.folder, ["old.db", "old.db-wal"])
        rolled_up(self.program, path)

    def test_no_program_opens_the_desk_meanwhile(self):
        path, told = desk_of(self.program, self.folder), os.path.join(self.folder, "told")
        text = f'[ "$1" = roll ] && program run "{path}" 2>"{told}" </dev/null\nprogram "$@"\n'
        rolled = tool_ended(self.instead(text), [path])
        expect(rolled[0] == 0 and bytes_of(told) == b"stockdesk: store\n", f"{rolled}, {bytes_of(told)}")

    def instead(self, text):
        """A program that is called instead of the real one: a shell script in which `program` is the real one."""
        path = os.path.join(self.folder, "instead")
        with open(path, "w", encoding="utf-8") as file:
            file.write(f"#!/bin/sh\nprogram() {{ '{self.program}' \"$@\"; }}\n{text}")
        os.chmod(path, 0o755)
        return path

    def test_what_is_no_desk_is_refused(self):
        """It is left as it is, and there is nothing beside it."""
        path = desk_of(self.program, self.folder)
        with contextlib.closing(sqlite3.connect(path)) as database, database:
            database.execute("UPDATE field SET inf = inf + 1")
        files = [
            (path, "old.db: it is damaged"),
            (older(self.folder, "many"), "many.db: it is of version 1: `stockdesk upgrade`"),
            (os.path.join(self.folder, "none.db"), "none.db is not there"),
            (self.folder, "is no file"),
            (os.devnull, "is no file"),
        ]
        for number, (text, _) in enumerate(NO_DESK):
            name = os.path.join(self.folder, f"{number}.db")
            # no desk, or no database
            files.append((name, "it is no d"))
            with open(name, "wb") as file:
                file.write(text)
        names = os.listdir(self.folder)
        for name, cause in files:
            found = bytes_of(name) if os.path.isfile(name) else None
            expect_refused(self.program, [name], cause)
            expect(found is None or bytes_of(name) == found, f"{name} was changed")
            # a look does not judge the rows
            if cause != "old.db: it is damaged":
                expect_refused(self.program, ["--check", name], cause)
                expect_refused(self.program, ["--wants", name], cause)
        expect_refused(os.path.join(self.folder, "none"), [path], "none is not there: --program names another")
        expect_only(self.folder, names)

    def test_a_desk_of_two_names_is_refused(self):
        """The tool takes no name away that it does not give."""
        path = desk_of(self.program, self.folder)
        os.link(path, os.path.join(self.folder, "other.db"))
        expect_refused(self.program, [path], "old.db has another name, too")
        os.remove(os.path.join(self.folder, "other.db"))
        rolled_up(self.program, path)

    def test_want_of_room_is_told(self):
        """Files may not grow so far: the desk stays as it is and nothing is left, until a new one fits."""
        path, size, status, told = longer(self.program, os.path.join(self.folder, "here")), 0, 1, []
        found = tables_of(shutil.copyfile(path, os.path.join(self.folder, "read.db")))
        while status == 1:
            status, _, errors = tool_ended(self.program, [path], limit=size)
            if status == 1:
                told.append(errors)
                expect_only(os.path.dirname(path), ["desk.db"])
                expect(tables_of(shutil.copyfile(path, os.path.join(self.folder, "read.db"))) == found, "it was changed")
            size = max(4_096, size * 3 // 2)
        expect(status == 0 and len(told) > 5, f"{status}, {told}")
        for errors in told:
            words = [b"File too large", b"File size limit exceeded", b"its disk is full"]
            expect(errors.count(b"\n") == 1 and any(word in errors for word in words), f"{errors}")

    def test_an_output_that_fails_is_told(self):
        """What is done by then stays done, and the line says so."""
        path = desk_of(self.program, self.folder)
        with open("/dev/full", "wb") as full:
            for words, status, told in [
                (["--check", path], 1, "not done: standard output: No space left on device\n"),
                ([path], 0, "; standard output: No space left on device\n"),
            ]:
                run = subprocess.run([TOOL, "--program", self.program, *words], stdout=full, stderr=subprocess.PIPE, text=True)
                expect(run.returncode == status and run.stderr.endswith(told), f"{run}")
        [name] = old_names(self.folder)
        expect(run.stderr.startswith(f"stockdesk-rollover: done, with the old desk as {name}; "), run.stderr)

    def test_wrong_words_do_nothing(self):
        for words in NO_WORDS:
            run = subprocess.run([TOOL, "--program", self.program, *words], cwd=self.folder, capture_output=True, check=False)
            expect((run.returncode, run.stdout) == (2, b"") and run.stderr, f"{words}: {run}")
        expect_only(self.folder, [])
        told = subprocess.run([TOOL, "--help"], capture_output=True, check=True).stdout.decode()
        names = ["FILE", "--program", "--from", "--keys", "--wants", "--check", "old-MOMENT.db", "Status: 0 done"]
        expect(all(name in told for name in names) and os.path.dirname(TOOL) == DEPLOY, told)

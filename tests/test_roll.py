"""Tests of `roll`: the new desk has the rows of the old one rolled up, and answers as the old one does, but for the places; what
the old file holds stays; and where a roll is refused or killed, there is no new desk, or the whole one."""

import os
import random
import re
import shutil
import subprocess
import time
import unittest

from support.chance import Seeded
from support.desks import Desks
from support.full_desks import full_rows
from support.older import older
from support.programs import NOT_A_DESK, OLD_VERSION, bytes_of, done, ended, expect, new_desk, note
from support.cases import ProgramCase
from support.rolled import acts, commits, desk_in
from support.rolls import DEALS, desk_to_roll, expect_rolled, places_told, simple_desk, some_keys
from support.rows import expect_good
from support.tables import is_able, tables_of

SEEDS = range(24)
KILLS = 40

# a full desk is to be rolled up so fast, on a machine of today; a test on a busy machine gives it longer
SECONDS = 60

# words that are no number of keys
NO_KEYS = ["200001", "-1", "+1", "01", "", "x", "1.0", "99999999999999999999"]


def answers(program: str, path: str, folder: str, text: str) -> list[str]:
    """What a copy of a desk answers."""
    copy = shutil.copyfile(path, os.path.join(folder, "copy.db"))
    return done(program, ["run", copy], text)


@unittest.skipUnless(is_able(), "sqlite3 of Python not here")
class Rolls(ProgramCase):
    def rolled(self, old: str, *words: str) -> str:
        new = os.path.join(self.folder, "rolled.db")
        end = ended(self.program, ["roll", old, new, *words])
        expect(end == (0, b"", b""), f"{words}: {end}")
        return new

    def test_random_desks_are_rolled_up(self):
        """The new desk has the rows that the rules give, its rows are good, and what the old file holds stays."""
        for seed in SEEDS:
            folder = os.path.join(self.folder, str(seed))
            os.mkdir(folder)
            chance = Seeded(seed)
            old, read = desk_to_roll(self.program, folder, chance)
            keys = some_keys(chance, tables_of(read)["desk"][0].places)
            new = os.path.join(folder, "new.db")
            end = ended(self.program, ["roll", old, new, "--keys", str(keys)])
            expect(end == (0, b"", b""), f"{seed}: {end}")
            expect_rolled(read, new, keys)
            expect_good(new, "the new desk")
            expect(tables_of(old) == tables_of(read), f"{seed}: the old desk was changed")

    def test_both_desks_answer_alike(self):
        """Commands that come behind the roll are answered by the new desk as by the old one, but for the places, which are lower
        by as many as went; so are those that come again under keys that stayed."""
        for seed in SEEDS:
            folder = os.path.join(self.folder, str(seed))
            os.mkdir(folder)
            _, old = desk_to_roll(self.program, folder, Seeded(seed))
            tables, new = tables_of(old), os.path.join(folder, "new.db")
            keys = max(1, tables["desk"][0].places // 2)
            gone = tables["desk"][0].places - keys
            done(self.program, ["roll", old, new, "--keys", str(keys)])
            orders, generator = [*desk_in(old).open.values()], random.Random(seed)
            again = "".join(f"{row.reqkey} {row.words}\n" for row in tables["kept"] if row.place > gone)
            for text in [again, commits(orders, generator), acts(orders, desk_in(old).clock, generator)]:
                told = [answers(self.program, path, folder, text) for path in (old, new)]
                bare = [[re.sub(" done [0-9]+$", " done", line) for line in lines] for lines in told]
                expect(bare[0] == bare[1], f"{seed}: other replies")
                pairs = zip(*map(places_told, told), strict=True)
                expect(all(first - second == (gone if first else 0) for first, second in pairs), f"{seed}: other places")

    def test_a_desk_is_rolled_up_again_and_again(self):
        """Each time only the last keys stay, and fields and open orders as they are."""
        old = simple_desk(self.program, self.folder)
        for keys in [8, 5, 5, 1, 0]:
            new = os.path.join(self.folder, f"{keys}-{len(os.listdir(self.folder))}.db")
            done(self.program, ["roll", old, new, "--keys", str(keys)])
            expect_rolled(old, new, keys)
            old = new

    def test_a_full_desk_is_rolled_up(self):
        """199,000 places are taken or set aside, with 10,000 fields and 90,000 orders; all is rolled up in a few seconds."""
        desks = Desks(self.program, self.folder)
        desks.put(full_rows())
        began = time.monotonic()
        new = self.rolled(desks.path)
        took = time.monotonic() - began
        expect_rolled(desks.path, new)
        expect(took < SECONDS, f"{took:.0f} s")
        note(f"{took:.1f} s")

    def test_without_a_word_a_hundred_thousand_keys_stay(self):
        old = simple_desk(self.program, self.folder)
        expect_rolled(old, self.rolled(old), len(DEALS))

    def test_what_is_there_is_left_alone(self):
        old, new = simple_desk(self.program, self.folder), os.path.join(self.folder, "new.db")
        for data in [b"x", b"a text", bytes_of(old)]:
            with open(new, "wb") as file:
                file.write(data)
            end = ended(self.program, ["roll", old, new])
            expect(end == NOT_A_DESK and bytes_of(new) == data, f"{data[:9]!r}: {end}")
        end = ended(self.program, ["roll", old, self.folder])
        expect(end == NOT_A_DESK, f"a folder: {end}")
        end = ended(self.program, ["roll", old, old])
        expect(end[0] != 0 and tables_of(old)["desk"][0].places == len(DEALS), f"itself: {end}")

    def test_what_is_no_desk_is_refused(self):
        """There is no new file then."""
        new, empty = os.path.join(self.folder, "new.db"), os.path.join(self.folder, "empty.db")
        with open(empty, "wb"):
            pass
        for old, want in [
            (os.path.join(self.folder, "none.db"), NOT_A_DESK),
            (empty, NOT_A_DESK),
            (older(self.folder, "transfer"), OLD_VERSION),
        ]:
            end = ended(self.program, ["roll", old, new])
            expect(end == want and not os.path.exists(new), f"{old}: {end}")

    def test_wrong_words_do_nothing(self):
        old, new = simple_desk(self.program, self.folder), os.path.join(self.folder, "new.db")
        for words in [["roll"], ["roll", old], ["roll", old, new, "more"], *(["roll", old, new, "--keys", it] for it in NO_KEYS)]:
            end = ended(self.program, words)
            expect(end[0] == 2 and end[1] == b"" and not os.path.exists(new), f"{words}: {end}")

    def test_a_killed_roll_leaves_a_whole_desk_or_none(self):
        """What the old file holds stays, and it can be rolled up again."""
        old = new_desk(self.program, self.folder, "old.db")
        fields = "".join(f"F{n} field N{n % 20} A-{n // 20} 0 100 40\n" for n in range(4_000))
        done(self.program, ["run", old], fields)
        found, whole, generator = tables_of(old), 0, random.Random(1986)
        began = time.monotonic()
        self.rolled(old)
        took = time.monotonic() - began
        os.remove(os.path.join(self.folder, "rolled.db"))
        for number in range(KILLS):
            new = os.path.join(self.folder, f"{number}.db")
            with subprocess.Popen([self.program, "roll", old, new]) as process:
                time.sleep(generator.uniform(0, 1.2 * took))
                process.kill()
            end = ended(self.program, ["run", new])
            expect(end in [NOT_A_DESK, (0, b"", b"")], f"{number}: {end}")
            if end[0] == 0:
                whole += 1
                expect_rolled(old, new)
        expect(tables_of(old) == found, "the old desk was changed")
        note(f"{KILLS} killed: {whole} left a new desk")

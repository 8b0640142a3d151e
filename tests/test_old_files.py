"""Tests of the questions that the guides ask of an old file, which a roll has left: they are asked as they are written there."""

import contextlib
import os
import re

from support import TOP
from support.cases import ProgramCase, needs_sqlite
from support.documents import text_of
from support.programs import done, expect, new_desk
from support.rolled import tool_ended
from support.tables import sqlite3
from support.writers import files_of

# what was done, under which keys, before the desk was rolled up
COMMANDS = [
    ("F1", "field N1 BOOT-42 0 100 40"),
    ("F2", "field N1 BOOT-421 0 100 40"),
    ("F3", "field N2 BOOT-42 0 100 40"),
    ("K1", "deliver N1 BOOT-42 3"),
    ("K2", "deliver N1 BOOT-421 3"),
    ("K3", "open 300001 60 take N1 BOOT-421 2 add N1 BOOT-42 1"),
    ("K4", "open 3000011 60 take N1 BOOT-421 2"),
    ("K5", "use 300001 N1 BOOT-421 2"),
    ("K6", "commit 300001"),
    ("K7", "transfer 300002 60 BOOT-42 N1 N2 5"),
    ("K8", "open 900000001 4000000000 take N2 BOOT-42 4"),
    ("K9", "use 900000001 N2 BOOT-42 4"),
    ("K10", "commit 900000001"),
]

# by the guides' example, or by another order: the keys of what is answered
ARTICLE, ORDER, TRANSFER = ["F1", "F3", "K1", "K3", "K7", "K8", "K9"], ["K3"], ["K7"]


def questions(guide):
    """What a guide asks an old file by the command `sqlite3`: the name of the file and the query."""
    text = text_of(os.path.join(TOP, "docs", guide))
    return re.findall(r"""sqlite3 '(file:old-MOMENT\.db\?immutable=1)' (?:"([^"]*)"|'([^']*)')""", text)


@needs_sqlite
class Questions(ProgramCase):
    def asked(self, guide, order=None):
        """The answers to a guide's questions, which may be asked about another order than the guide's."""
        path, found = files_of(os.path.join(self.folder, "desk.db"))[0], []
        for name, *queries in questions(guide):
            query = "".join(queries)
            name = name.replace("old-MOMENT.db", os.path.basename(path)).replace("file:", f"file:{self.folder}/")
            with contextlib.closing(sqlite3.connect(name, uri=True)) as database:
                found.append(database.execute(re.sub("[0-9]{6,}", order, query) if order else query).fetchall())
        return found

    def test_an_old_file_answers_the_guides_questions(self):
        path = new_desk(self.program, self.folder)
        replies = done(self.program, ["run", path], "".join(f"{key} {words}\n" for key, words in COMMANDS))
        expect(replies == [f"{key} done {place}" for place, (key, _) in enumerate(COMMANDS, 1)], f"{replies}")
        expect(tool_ended(self.program, [path, "--keys", "0"])[0] == 0 and len(files_of(path)) == 2, "not rolled up")
        words, places = dict(COMMANDS), {key: place for place, (key, _) in enumerate(COMMANDS, 1)}
        for order, keys in [(None, [ARTICLE, ORDER]), ("300002", [ARTICLE, TRANSFER]), ("300003", [ARTICLE, []])]:
            found, want = self.asked("OPERATING.md", order), [[(places[key], key, words[key]) for key in each] for each in keys]
            expect(found == want, f"{order}: {found} and not {want}")
        # committed
        expect(self.asked("CHAIN.md") == [[(1,)]], f"{self.asked('CHAIN.md')}")

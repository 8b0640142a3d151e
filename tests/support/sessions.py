"""A desk in a file, and what is done to it step by step: sessions that end or are killed, files of requests, sheets. Each answer
has to be that of the rules, and so do the rows at the end."""

import contextlib
import os
import shutil
from collections.abc import Callable
from itertools import zip_longest
from typing import Any

from hypothesis import strategies
from hypothesis.stateful import RuleBasedStateMachine, initialize, rule
from support.chance import Chance, Drawn, Seen, T, cases_of
from support.inputs import Known, known_fields, line, name_of, request_of, together
from support.programs import Session, done, expect
from support.rows import expect_good, rows_by
from support.rules import Rules
from support.stretches import HEADERS, file_of
from support.tables import rows_of


@strategies.composite
def at_desk(draw: Callable[[Any], Any], make: Callable[[Chance, Known], T]) -> T:
    """What `make` makes of what is known about the machine's desk."""
    return make(Drawn(draw), draw(strategies.runner()).known)


def lines(chance: Chance, known: Known) -> list[bytes]:
    return chance.several(lambda chance: line(chance, known), 8, 20)


def requests(chance: Chance, known: Known) -> tuple[str, list[bytes]]:
    """A kind of file, and some requests that a file of this kind says."""
    kind = chance.one_of(list(HEADERS))
    return kind, chance.several(lambda chance: request_of(chance, known, kind), 8, 30)


class DeskInAFile(RuleBasedStateMachine):
    """A desk, beside what the rules make of the same lines."""

    def __init__(self, program: str, folder: str, empty: str, seen: Seen):
        super().__init__()
        self.program, self.seen = program, seen
        self.path, self.requests = os.path.join(folder, "desk.db"), os.path.join(folder, "requests.csv")
        with contextlib.suppress(FileNotFoundError):
            os.remove(f"{self.path}-wal")
        shutil.copyfile(empty, self.path)
        self.desk, self.session = Rules(), Session(program, self.path)
        self.told: list[str] = []
        self.is_right = True

    def expect(self, found: list[str], want: list[str]) -> None:
        self.is_right = self.is_right and found == want
        odd = [pair for pair in zip_longest(found, want) if pair[0] != pair[1]][:1]
        expect(found == want, "\n".join([*(f"{it} and not {should} behind" for it, should in odd), *self.told]))

    def closed(self) -> None:
        self.session.end()

    def open(self) -> None:
        self.session = Session(self.program, self.path)

    @initialize(known=cases_of(known_fields))
    def begin(self, known: Known) -> None:
        self.known = known
        for text in known.lines:
            self.say(text)

    def say(self, text: bytes) -> None:
        """Says each line of the text; there may be more than one where bytes were changed."""
        for each in text.split(b"\n"):
            self.told.append(each.decode("latin-1"))
            self.expect([self.session.ask(each)], [self.desk.take(each)])
            self.seen.add("lines")

    @rule(texts=at_desk(lines))
    def lines(self, texts: list[bytes]) -> None:
        for text in texts:
            self.say(text)

    @rule(file=at_desk(requests), most=cases_of(together))
    def file(self, file: tuple[str, list[bytes]], most: int) -> None:
        kind, lines = file
        self.told += [f"# by `{kind} --together {most}`", *(each.decode() for each in lines)]
        with open(self.requests, "wb") as out:
            out.write(file_of(kind, lines))
        self.closed()
        found = done(self.program, [kind, self.path, self.requests, "--together", str(most)])
        self.expect(found, [self.desk.take(each) for each in lines])
        self.open()
        self.seen.add(f"requests of {kind}", len(lines))

    @rule(branch=at_desk(lambda chance, known: name_of(chance, known)[0]))
    def sheet(self, branch: str) -> None:
        self.closed()
        found = done(self.program, ["sheet", self.path, branch])
        self.expect(found, self.desk.sheet(branch).splitlines())
        self.open()
        self.seen.add("sheets")

    @rule()
    def kill(self) -> None:
        self.told.append("# killed")
        self.session.process.kill()
        self.closed()
        self.open()
        self.seen.add("kills")

    def teardown(self) -> None:
        self.closed()
        if self.is_right:
            self.expect(rows_of(self.path), rows_by(self.desk))
            expect_good(self.path, "the desk")

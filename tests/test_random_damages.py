"""Tests of the built program by random damage of a desk's file: of its bytes, of the bytes of its log, or of its rows. With other
rows it is opened where the rules find nothing wrong with these, and then answers by them. What is not opened stays as it was, but
that its log may be copied into it. An upgrade leaves all rows but the version."""

import contextlib
import os
import shutil
import signal
import tempfile
from dataclasses import dataclass

from support.cases import ProgramCase, needs_strict_tables
from support.chance import SEED, Chance, Seeded, Seen, needs_hypothesis, try_cases
from support.damages import RowChange, damaged, mend_sums, row_change
from support.desks import Desks
from support.forms import is_answer
from support.inputs import fed, script
from support.ledgers import GOOD
from support.older import OLDER, older, upgraded
from support.programs import (
    FILES,
    DAMAGED,
    NOT_A_DESK,
    OLD_VERSION,
    STORE,
    WELL,
    End,
    Session,
    bytes_of,
    done,
    ended,
    expect,
    new_desk,
    note,
)
from support.rows import VERSION, desk_of, expect_good, faults
from support.tables import Tables, rows_of, sqlite3, tables_of

ROWS, BYTES = 150, 120
OLD_NAME = "{} of version 1"

NOT_OPENED = [DAMAGED, NOT_A_DESK, OLD_VERSION, STORE]
NOT_UPGRADED = [NOT_A_DESK, STORE]


@dataclass
class Damage:
    """Which of the files is damaged, the bytes of it and of its log after that, whether it is upgraded before it is opened, and
    what it is then asked."""

    name: str
    file: bytes
    log: bytes
    is_upgraded: bool
    lines: list[bytes]

    def __str__(self) -> str:
        first = f"{self.name}, {len(self.file)} bytes and a log of {len(self.log)}{', upgraded' * self.is_upgraded}"
        return f"{first}\n{fed(text_of(self.lines))}"


@dataclass
class Changed:
    """Which of the files gets other rows, how they are made, whether the sums are then mended, and what it is asked."""

    name: str
    changes: list[RowChange]
    is_mended: bool
    lines: list[bytes]

    def __str__(self) -> str:
        mended = ["the sums are mended"] * self.is_mended
        return "\n".join([self.name, *map(str, self.changes), *mended, fed(text_of(self.lines))])


def text_of(lines: list[bytes]) -> bytes:
    return b"".join(line + b"\n" for line in [b"? order 1", *lines])


def lines_in(text: bytes) -> list[bytes]:
    return text.split(b"\n")[:-1]


def read(path: str) -> list[str] | str:
    """The rows of the file and its log, or how another SQLite fails to read them."""
    try:
        return rows_of(path)
    except sqlite3.Error as fault:
        return str(fault)


def others_in(path: str) -> list[str] | str:
    """The rows but for the row of the desk, or how they cannot be read."""
    rows = read(path)
    return rows if isinstance(rows, str) else [row for row in rows if not row.startswith("desk|")]


def end_by_rows(tables: Tables) -> End | None:
    """How a run ends at once on a desk with these rows, by the rules; None where the desk is opened."""
    versions, is_old = [row.version for row in tables["desk"]], "firm" not in tables
    if is_old or versions != [VERSION]:
        return OLD_VERSION if is_old and versions == [1] else NOT_A_DESK
    return DAMAGED if faults(tables) else None


class Bases:
    """Desks in files, each with its log or without: one that was played, one whose session was killed, one with orders of all
    kinds, and those of version 1, as they are and upgraded."""

    def __init__(self, program: str, folder: str):
        self.folder = folder
        made = {"played": new_desk(program, folder, "played.db")}
        done(program, ["run", made["played"]], text_of(script(Seeded(SEED), average=400, most=400)))
        made["killed"] = killed(program, shutil.copyfile(made["played"], os.path.join(folder, "killed.db")))
        desks = Desks(program, folder)
        desks.put(GOOD.split("\n"))
        made["good"] = desks.path
        for name in OLDER:
            made[name] = upgraded(program, older(folder, name))
        self.files = {name: bytes_of(path) for name, path in made.items()}
        self.files |= {OLD_NAME.format(name): bytes_of(os.path.join(FILES, f"{name}.db")) for name in OLDER}
        self.logs = {"killed": bytes_of(f"{made['killed']}-wal")}


def killed(program: str, path: str) -> str:
    """A desk whose session is killed, which leaves its log beside the file."""
    session = Session(program, path)
    for text in script(Seeded(SEED + 1)):
        for each in text.split(b"\n"):
            session.ask(each)
    session.process.send_signal(signal.SIGKILL)
    session.end()
    return path


@needs_hypothesis
@needs_strict_tables
class Damages(ProgramCase):
    def setUp(self) -> None:
        super().setUp()
        os.mkdir(os.path.join(self.folder, "bases"))
        self.bases = Bases(self.program, os.path.join(self.folder, "bases"))
        self.path, self.copy = (os.path.join(self.folder, name) for name in ("desk.db", "copy.db"))

    def put(self, path: str, file: bytes, log: bytes) -> None:
        with contextlib.suppress(FileNotFoundError):
            os.remove(f"{path}-wal")
        for name, data in [(path, file), (f"{path}-wal", log)]:
            if name == path or data:
                with open(name, "wb") as out:
                    out.write(data)

    def expect_as_it_was(self, file: bytes, log: bytes) -> None:
        """The file is as it was, but that its log may be copied into it."""
        if bytes_of(self.path) != file:
            self.put(self.copy, file, log)
            expect(log and read(self.path) == read(self.copy), "it was changed")

    # ---- rows

    def changed(self, chance: Chance) -> Changed:
        name = chance.one_of(["good", "played", *OLDER, "good", "played", OLD_NAME.format(OLDER[0])])
        changes = [row_change(chance) for _ in range(chance.whole(1, 3))]
        return Changed(name, changes, chance.share(60), script(chance, average=10, most=20))

    def test_a_desk_with_other_rows_is_opened_where_the_rules_find_nothing_wrong(self):
        self.seen = Seen("opened", "damaged", "of another version")
        try_cases(self.changed, ROWS, self.expect_by_rows, str)
        self.seen.expect_all()
        note(str(self.seen))

    def expect_by_rows(self, case: Changed) -> None:
        self.put(self.path, self.bases.files[case.name], b"")
        for change in case.changes:
            change.put(self.path)
        if case.is_mended:
            mend_sums(self.path)
        tables, before = tables_of(self.path), bytes_of(self.path)
        end, found = end_by_rows(tables), ended(self.program, ["run", self.path], text_of(case.lines))
        if end is not None:
            self.seen.add("damaged" if end == DAMAGED else "of another version")
            expect(found == end, f"{found} and not {end}: {faults(tables)[:2]}")
            self.expect_as_it_was(before, b"")
            return
        self.seen.add("opened")
        expect(found[::2] == WELL[::2], f"{found}, and nothing is wrong by the rules")
        desk = desk_of(tables)
        want = [desk.take(each) for each in lines_in(text_of(case.lines))]
        expect(found[1].decode().splitlines() == want, f"{found[1]!r} and not {want}")
        expect_good(self.path, case.name)

    # ---- bytes

    def damage(self, chance: Chance) -> Damage:
        name = chance.one_of(["killed", *self.bases.files])
        file, log = self.bases.files[name], self.bases.logs.get(name, b"")
        kind = chance.whole(0, 2) if log else 0
        if kind < 2:
            file = damaged(chance, file)
        if kind > 0:
            log = damaged(chance, log)
        return Damage(name, file, log, chance.share(30), script(chance, average=10, most=20))

    def test_damaged_bytes_do_no_harm(self):
        self.seen = Seen("opened", "not opened", "upgraded", "not upgraded")
        try_cases(self.damage, BYTES, self.expect_no_harm, str)
        self.seen.expect_all()
        note(str(self.seen))

    def expect_no_harm(self, case: Damage) -> None:
        self.put(self.path, case.file, case.log)
        is_new = case.is_upgraded and self.is_upgraded(case)
        file, log = bytes_of(self.path), bytes_of(f"{self.path}-wal") if os.path.exists(f"{self.path}-wal") else b""
        text = text_of(case.lines)
        status, out, errors = ended(self.program, ["run", self.path], text)
        self.seen.add("opened" if out else "not opened")
        if not out:
            expect((status, out, errors) in NOT_OPENED, f"status {status}, {errors!r}")
            expect(not is_new or (status, out, errors) != OLD_VERSION, "old behind its upgrade")
            self.expect_as_it_was(file, log)
            return
        expect((status, errors) in [WELL[::2], STORE[::2]], f"status {status}, {errors!r}")
        if status == 0:
            pairs = zip(lines_in(text), out.split(b"\n")[:-1], strict=True)
            odd = [pair for pair in pairs if not is_answer(*pair)]
            expect(not odd, f"{odd[:1]}")
        expect_good(self.path, case.name)

    def is_upgraded(self, case: Damage) -> bool:
        """Whether the upgrade is done; else the file must be as it was."""
        end = ended(self.program, ["upgrade", self.path])
        self.seen.add("upgraded" if end == WELL else "not upgraded")
        if end != WELL:
            expect(end in NOT_UPGRADED, f"upgrade: {end}")
            self.expect_as_it_was(case.file, case.log)
            return False
        self.put(self.copy, case.file, case.log)
        with tempfile.TemporaryDirectory(dir=self.folder) as folder:
            # who reads a log copies it into its file
            for name in filter(os.path.exists, [self.path, f"{self.path}-wal"]):
                shutil.copy(name, folder)
            found = others_in(os.path.join(folder, os.path.basename(self.path)))
        expect(found == others_in(self.copy), "other rows behind an upgrade")
        return True

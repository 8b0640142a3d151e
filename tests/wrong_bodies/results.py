"""What tries came to, kept under the checksum of all that they stand on: so nothing is tried twice. The file lies beside the
other things that programs keep for their user, outside the sources."""

import contextlib
import hashlib
import os
import sqlite3
from collections.abc import Iterator, Mapping

from wrong_bodies.checks import PARTS, below
from wrong_bodies.edits import Edit

TABLE = "CREATE TABLE IF NOT EXISTS results (sum TEXT PRIMARY KEY, outcome TEXT NOT NULL, day TEXT DEFAULT CURRENT_DATE)"
OLD = "DELETE FROM results WHERE day < date('now', '-60 days')"


def files_in(folder: str) -> Iterator[str]:
    for at, folders, names in os.walk(folder):
        folders.sort()
        yield from (os.path.join(at, name) for name in sorted(names) if name.endswith((".rt", ".antt", ".py")))


def sum_of(*parts: str | bytes) -> str:
    sums = [hashlib.sha256(part.encode() if isinstance(part, str) else part).digest() for part in parts]
    return hashlib.sha256(b"".join(sums)).hexdigest()


def sum_of_files(folder: str) -> str:
    """A checksum of the names and the texts of all sources in a folder."""
    texts: list[str | bytes] = []
    for path in files_in(folder):
        with open(path, "rb") as file:
            texts += [os.path.relpath(path, folder), file.read()]
    return sum_of(*texts)


def sum_of_crate(top: str, crate: str, graph: Mapping[str, list[str]], kit: str) -> str:
    """A checksum of all that a check of a crate reads: the toolchain, this tool, the crate, and those that it stands on."""
    with open(os.path.join(kit, "KIT-ID"), encoding="utf-8") as file:
        parts = [file.read(), sum_of_files(os.path.dirname(__file__))]
    for name in [*below(crate, graph), crate]:
        sums = [sum_of_files(os.path.join(top, "crates", name, part)) for part in PARTS]
        parts += [name, " ".join(graph[name]), *sums]
    return sum_of(*parts)


class Results:
    """The outcomes that are kept. Where the file cannot be used, nothing is kept, and all is tried."""

    def __init__(self) -> None:
        home = os.environ.get("XDG_CACHE_HOME") or os.path.expanduser("~/.cache")
        self.path = os.path.join(home, "stockdesk", "wrong-bodies.db")
        with contextlib.suppress(OSError, sqlite3.Error):
            os.makedirs(os.path.dirname(self.path), exist_ok=True)
            with self.open() as kept:
                kept.execute(TABLE)
                kept.execute(OLD)

    @contextlib.contextmanager
    def open(self) -> Iterator[sqlite3.Connection]:
        with contextlib.closing(sqlite3.connect(self.path, timeout=30)) as kept, kept:
            yield kept

    def find(self, crate_sum: str, edit: Edit, kind: str) -> str | None:
        """What this try came to earlier."""
        with contextlib.suppress(sqlite3.Error), self.open() as kept:
            row = kept.execute("SELECT outcome FROM results WHERE sum = ?", [sum_of(crate_sum, kind, edit.text)]).fetchone()
            return row and str(row[0])
        return None

    def keep(self, crate_sum: str, edit: Edit, kind: str, outcome: str) -> None:
        with contextlib.suppress(sqlite3.Error), self.open() as kept:
            kept.execute("REPLACE INTO results (sum, outcome) VALUES (?, ?)", [sum_of(crate_sum, kind, edit.text), outcome])

"""Where a desk stands in the log, and which lines of the log are late. Both follow from the log and the desk's rows alone, so all
machines find the same.

A desk that was stopped has so many places. Take the log's lines behind a mark at which the desk has stood. A line that is word
for word the next row has taken that row's place; a line between, while rows are left, was refused or repeated. So all these lines
are passed over, and what stands behind the line of the last row is carried out. A late line counts neither as the one nor as the
other.

A desk that was rolled up has other rows than before: the last of them, from the place 1 on. So it stands behind that mark, and
goes on there as from the beginning of a log. At a mark where desks are rolled up, a desk that stands before it lacks the roll."""

import contextlib
import functools
import hashlib
import itertools
import sqlite3
from collections import deque
from collections.abc import Iterable, Sequence

from stockdesk_log import ToldMark
from stockdesk_tools import Fault


def kept_lines(copy: str) -> list[bytes]:
    """The accepted commands of a desk, read in a copy, as lines of the log in the order of their places."""
    try:
        with contextlib.closing(sqlite3.connect(copy)) as database:
            rows = database.execute("SELECT place, reqkey, words FROM kept ORDER BY place").fetchall()
    except sqlite3.Error as fault:
        raise Fault(f"SQLite cannot read the desk: {fault}") from fault
    if any(place != at for at, (place, _, _) in enumerate(rows, 1)):
        raise Fault("the desk's places have a gap")
    return [f"{key} {words}".encode() for _, key, words in rows]


def link(digest: bytes, line: bytes) -> bytes:
    return hashlib.sha256(digest + line).digest()


def digests_of(rows: Iterable[bytes]) -> list[bytes]:
    """The digest behind each place; the first one is that of no places."""
    return list(itertools.accumulate(rows, link, initial=b""))


def digest_of(rows: Iterable[bytes]) -> bytes:
    """The digest behind all of them."""
    return functools.reduce(link, rows, b"")


def has_place(digests: list[bytes], place: int, digest: str) -> bool:
    """Whether the first so many of the rows with these digests have this digest."""
    return place < len(digests) and digests[place].hex() == digest


class Walk:
    """A desk's way along the log: how many places the ledger has behind what was passed over or answered, their digest, and the
    rows that the log has not come to yet."""

    def __init__(self, rows: Sequence[bytes]):
        self.rows = deque(rows)
        self.place, self.digest = 0, b""

    def go_to_mark(self, marks: Sequence[ToldMark]) -> int:
        """Goes to the newest mark at which a desk had exactly the first of these rows, before a roll there or behind it. Returns
        the mark's revision, or 0."""
        digests = digests_of(self.rows)
        before = [(mark.revision, mark.place, mark.digest) for mark in marks]
        behind = [(mark.revision, mark.rolled_place, mark.rolled_digest) for mark in marks if mark.rolled_place]
        fitting = [each[:2] for each in [*before, *behind] if has_place(digests, *each[1:])]
        revision, place = max(fitting, default=(0, 0))
        self.go_to(place, digests)
        return revision

    def begin(self, places: int, digest: str) -> None:
        """Goes to where the log began. Fault: this desk is not the one with which it began."""
        digests = digests_of(self.rows)
        if not has_place(digests, places, digest):
            raise Fault(f"the log begins with {places} places that the desk has not: start from a copy of another machine's")
        self.go_to(places, digests)

    def go_to(self, place: int, digests: list[bytes]) -> None:
        self.place, self.digest = place, digests[place]
        for _ in range(place):
            self.rows.popleft()

    def passes_over(self, line: bytes) -> bool:
        """Whether the desk has carried a line out. It has, as long as rows are left: the line of each row was the first such line
        behind the line of the row before."""
        if not self.rows:
            return False
        if self.rows[0] == line:
            self.rows.popleft()
            self.take_place(line)
        return True

    def take_place(self, line: bytes) -> None:
        self.place, self.digest = self.place + 1, link(self.digest, line)


class Past:
    """What of the log decides which lines are late. Late are lines that were asked for before the last mark; and lines whose key
    stood in another line, which was not late, behind what was known when they were asked for."""

    def __init__(self) -> None:
        self.mark = 0
        self.recent: dict[bytes, int] = {}

    def is_late(self, line: bytes, base: int) -> bool:
        return base < self.mark or self.recent.get(key_of(line), 0) > base

    def note(self, line: bytes, revision: int) -> None:
        self.recent[key_of(line)] = revision

    def set_mark(self, revision: int) -> None:
        self.mark = revision
        self.recent.clear()


def key_of(line: bytes) -> bytes:
    return line.partition(b" ")[0]

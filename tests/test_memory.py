"""Tests of the built program where memory is refused: each allocation in turn, one run for each, this one alone or all from it
on. A run ends with the fault behind a beginning of its answer; a message is answered that memory was refused; and what was
answered as done is kept."""

import os
import threading
from collections.abc import Callable

from support.asks import NO_MEMORY, STOPPED
from support.cases import needs_strict_tables
from support.failing import NEVER, Failing, FailingCase, Failure, refusals
from support.messages import answer_of, message_of
from support.older import older
from support.programs import MEMORY, NOT_A_DESK, STORE, WELL, End, done, ended, expect, expect_end, new_desk, note
from support.service import NotServed, Service, answered
from support.tables import rows_of
from support.works import EACH_KIND, REQUESTS, SCRIPT, SHEETS, OnCopies, copy_desk, files_at

# works, each of which reads and keeps in another way than those before it; want of memory within a commit is a fault of the store
WORKS = [*((sheet, [MEMORY]) for sheet in SHEETS), *((work, [MEMORY, STORE]) for work in [SCRIPT, *REQUESTS[:2], *REQUESTS[3:5]])]
# by how many allocations two tasks may differ until a desk is opened
SPARE = 100

# words that ask for nothing, and all that is written about them
NO_TASKS = [["--version"], ["walk"], ["sheet", "none.db", "n1"], ["serve", "none.db", "--port", "65536", "--connections", "1"]]

# what two connections bring, as lines of a script that ask for the same as the messages
FIRST = [
    "M1 field N1 A-1 0 100 40",
    "M2 open 7 120 take N1 A-1 20",
    "M3 deliver N1 A-1 61",
    "M4 use 7 N1 A-1 4",
    "? field N1 A-1",
    "? order 7",
    "? order 8",
    "M5 deliver N1 A-1 5",
]
SECOND = ["M6 deliver N1 A-1 6", "? field N1 A-1"]


def parts_of(text: bytes) -> list[bytes]:
    """The answers that stand one after the other."""
    return [b"HTTP/1.1 " + part for part in text.split(b"HTTP/1.1 ")[1:]]


class Undisturbed:
    """What desks answer, and hold then, that get only some of the lines."""

    def __init__(self, program: str, folder: str):
        self.program, self.folder = program, folder
        self.known: dict[tuple[str, ...], tuple[list[bytes], list[str]]] = {}
        self.lock = threading.Lock()

    def play(self, lines: tuple[str, ...]) -> tuple[list[bytes], list[str]]:
        """The answers to these lines as messages, and the rows behind them."""
        with self.lock:
            if lines not in self.known:
                path = new_desk(self.program, self.folder, f"undisturbed{len(self.known)}.db")
                found = done(self.program, ["run", path], "".join(line + "\n" for line in lines))
                self.known[lines] = [answer_of(line) for line in found], rows_of(path)
            return self.known[lines]


class Served:
    """A service of two connections to which memory is refused, with what it was sent and has answered."""

    def __init__(self, undisturbed: Undisturbed, of: str):
        self.undisturbed, self.of = undisturbed, of
        # the lines that were answered as ever, and the command at which the desk stopped
        self.done: tuple[str, ...] = ()
        self.stopped_at: tuple[str, ...] = ()
        self.refused = 0
        self.ends_early = False

    def expect_answers(self, lines: list[str], text: bytes, is_single: bool) -> None:
        """Each message is answered as if those for which memory was refused had not come. Behind a command at which the desk
        stopped, all get the answer that it is stopped. A connection that itself lacks memory ends between two answers; where a
        single allocation is refused, it ends before the first answer, since it can do without all allocations behind that."""
        answers = parts_of(text)
        expect(len(answers) <= len(lines), f"{self.of}: {text!r}")
        if len(answers) < len(lines):
            self.ends_early = True
            expect(not answers or not is_single, f"{self.of}: it ends behind {len(answers)} answers")
        for line, found in zip(lines, answers):
            if found == NO_MEMORY:
                self.refused += 1
            elif found == STOPPED:
                self.stopped_at = self.stopped_at or (line,)
                expect(not self.stopped_at[0].startswith("?"), f"{self.of}: {line} stopped the desk")
            else:
                expect(not self.stopped_at, f"{self.of}: {found!r} of a stopped desk")
                self.done += (line,)
                want = self.undisturbed.play(self.done)[0][-1]
                expect(found == want, f"{self.of}, {line}: {found!r} and not {want!r}")
        expect(self.refused <= 1 or not is_single, f"{self.of}: {self.refused} answers lack memory")

    def expect_end(self, end: End) -> None:
        want = STORE if self.stopped_at else WELL
        expect(end == want, f"{self.of}: {end} and not {want}")

    def expect_rows(self, path: str) -> None:
        """What was answered as done is kept, and nothing else but perhaps the command at which the desk stopped."""
        end = ended(self.undisturbed.program, ["run", path])
        expect(end == WELL, f"{self.of}: it opens so: {end}")
        may = [self.undisturbed.play(self.done)[1], self.undisturbed.play(self.done + self.stopped_at)[1]]
        expect(rows_of(path) in may, f"{self.of}: other rows behind {self.done}")


class Services:
    """Services on copies of a new desk, to which memory is refused."""

    def __init__(self, failing: Failing, folder: str):
        self.failing, self.program = failing, failing.program
        self.desk = new_desk(self.program, folder, "new.db")
        self.undisturbed = Undisturbed(self.program, folder)

    def count(self) -> tuple[int, int]:
        """How many allocations there are until the desk is opened, or about so many; and in all."""
        never = Failure("memory", NEVER)
        with self.failing.lane() as lane:
            path = os.path.join(lane, "desk.db")
            copy_desk(self.desk, path)
            opening = self.failing.count("memory", ["run", path], "", lane)
            self.serve(never, lane)
            return opening - SPARE, self.failing.counted(lane)

    def serve(self, failure: Failure, lane: str) -> Served | None:
        """Serves two connections, one after the other; None where the service does not begin."""
        path = os.path.join(lane, "desk.db")
        copy_desk(self.desk, path)
        served = Served(self.undisturbed, f"serve, {failure}")
        try:
            service = Service(self.program, path, 2, environment=self.failing.environment(failure, lane))
        except NotServed as fault:
            expect(fault.end == MEMORY, f"{served.of}: {fault}")
            served.expect_rows(path)
            return None
        for lines in [FIRST, SECOND]:
            # behind a connection that stopped the desk none is served
            if not served.stopped_at:
                text = answered(service.port, [b"".join(map(message_of, lines))])
                served.expect_answers(lines, text, not failure.for_good)
        served.expect_end(service.end())
        served.expect_rows(path)
        is_whole = served.done == (*FIRST, *SECOND)
        expect(is_whole or failure.first <= self.failing.counted(lane), f"{served.of}: {served.done}")
        return served


@needs_strict_tables
class WantOfMemory(FailingCase):
    def test_a_work_is_cut(self):
        """Each work is cut; the first also opens its desk under each refusal."""
        for number, (work, faults) in enumerate(WORKS):
            on_copies = OnCopies(self.failing, os.path.join(self.folder, str(number)), work)
            first = on_copies.count("memory", ["run", "desk"], "") - SPARE if number else 1
            failures = refusals(first, on_copies.count("memory", work.words, on_copies.input))
            told = on_copies.expect_cuts(failures, faults)
            note(f"{work}: {len(told)} of {len(failures)}")

    def test_a_script_in_memory_is_cut(self):
        script, whole = ("".join(row[of] + "\n" for row in EACH_KIND[:4]) for of in (0, 1))
        with self.failing.lane() as lane:
            count = self.failing.count("memory", ["run"], script, lane)

        def check(failure: Failure, lane: str) -> None:
            (status, out, errors), _ = self.failing.ended(["run"], script, failure, lane)
            is_cut = (status, b"", errors) in [MEMORY, STORE] and whole.startswith(out.decode()) and out[-1:] in (b"", b"\n")
            expect(is_cut or (status, out.decode(), errors) == (0, whole, b""), f"{failure}: {status}, {out!r}, {errors!r}")

        self.failing.attempt(refusals(1, count), check)

    def cut_each(self, before: str, words: list[str], look: Callable[[str, str, bool], None]) -> None:
        """Runs without output on copies of a file, under each refusal. `look` gets the path that each leaves, and whether it
        ended well."""

        def ended_on_copy(failure: Failure, lane: str) -> End:
            copy_desk(before, path := os.path.join(lane, "desk.db"))
            end, came = self.failing.ended([path if word == "desk" else word for word in words], "", failure, lane)
            expect(end == WELL or came and end == MEMORY, f"{words}, {failure}: {end}")
            look(f"{words}, {failure}, {end}", path, end == WELL)
            return end

        with self.failing.lane() as lane:
            ended_on_copy(Failure("memory", NEVER), lane)
            count = self.failing.counted(lane)
        ends = self.failing.attempt(refusals(1, count), ended_on_copy)
        note(f"{words[0]}: {len(ends) - ends.count(WELL)} of {len(ends)}")

    def test_a_new_desk_is_made_whole_or_not_at_all(self):
        rows, seen = rows_of(new_desk(self.program, self.folder)), set()

        def look(of: str, path: str, is_made: bool) -> None:
            if (files := (files_at(path), is_made)) in seen:
                return
            end = ended(self.program, ["run", path])
            expect(end == WELL or end == NOT_A_DESK and not is_made, f"{of}: it opens so: {end}")
            expect(end != WELL or rows_of(path) == rows, f"{of}: other rows")
            seen.add(files)

        self.cut_each(os.path.join(self.folder, "none.db"), ["init", "desk"], look)

    def test_a_desk_is_upgraded_whole_or_not_at_all(self):
        old, new = older(self.folder, "transfer"), os.path.join(self.folder, "new.db")
        copy_desk(old, new)
        expect_end(self.program, ["upgrade", new], WELL)
        old_rows, new_rows, seen = rows_of(old), rows_of(new), set()

        def look(of: str, path: str, is_new: bool) -> None:
            if (files := (files_at(path), is_new)) in seen:
                return
            expect(rows_of(path) in [new_rows, *([] if is_new else [old_rows])], f"{of}: other rows")
            expect_end(self.program, ["upgrade", path], WELL)
            expect(rows_of(path) == new_rows, f"{of}: other rows at last")
            seen.add(files)

        self.cut_each(old, ["upgrade", "desk"], look)

    def test_words_are_told_or_lack_memory(self):
        for words in NO_TASKS:
            whole = ended(self.program, words)

            def check(failure: Failure, lane: str) -> None:
                end, came = self.failing.ended(words, "", failure, lane)
                expect(end == whole or came and end == MEMORY, f"{words}, {failure}: {end}")

            with self.failing.lane() as lane:
                count = self.failing.count("memory", words, "", lane)
            self.failing.attempt(refusals(1, count), check)

    def test_a_message_is_answered_that_it_lacks_memory(self):
        services = Services(self.failing, self.folder)
        first, count = services.count()
        served = [one for one in self.failing.attempt(refusals(first, count), services.serve) if one]
        kinds = {
            "answer that they lack memory": sum(one.refused > 0 for one in served),
            "have a connection that ends early": sum(one.ends_early for one in served),
            "stop": sum(one.stopped_at != () for one in served),
            "answer all": sum(one.done == (*FIRST, *SECOND) for one in served),
        }
        expect(all(kinds.values()), f"{kinds}")
        note(f"of {len(served)} services " + ", ".join(f"{number} {kind}" for kind, number in kinds.items()))

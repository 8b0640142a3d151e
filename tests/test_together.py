"""Tests of the built program that carries out the requests of a file in batches. The replies and the rows are those of one by
one; and a kill, a power cut or a reader that goes away leaves the rows behind whole batches."""

import fcntl
import itertools
import os
import resource
import shutil
import subprocess
import tempfile

from support.cases import ProgramCase
from support.chance import Seen, needs_hypothesis, try_cases
from support.inputs import fed, known_fields, request_of
from support.killed import START, Killed, orders_of
from support.power_cuts import NAME, NO_CUTS, Recorded, calls_of, may_be_cut, may_be_kept, rows_after_each, try_cuts
from support.programs import SECONDS, bytes_of, done, ended, expect, new_desk, note
from support.recorded import OUTPUT
from support.rows import rows_by
from support.rules import Rules
from support.stretches import HEADERS, file_of
from support.tables import rows_of, sqlite3

NUMBERS = [1, 2, 7, 100, 1000]
FILES = 4
# what stands behind the command: the option, at every place
CALLS = ["FILE CSV", *(f"FILE CSV --together {number}" for number in [1, 2, 3, 4, 5, 1000])]
CALLS += ["--together 3 FILE CSV", "FILE --together 3 CSV", "FILE CSV --together=3"]
SEED = 1986
# files of orders that are killed, and deliveries in the file that a power cut stops
ROUNDS = 50
CUT = 40
# the bytes that a pipe is made to hold
PIPE = 4_096
# the bytes by which a long file of deliveries makes the log grow
GROWTH = 1 << 20
FIELD = "F1 field N1 A-1 0 1000000000 0"

FIELDS = "F1 field N1 A-1 0 100 40\nF2 field N2 A-1 0 50 5\nF3 field N3 A-1 0 10 0\n"

# of each kind of file one with its replies on a desk with these fields, and what the rules then show of the fields
SMALL = [
    (
        "deliveries",
        """key,branch,article,qty
D1,N1,A-1,10
D2,N1,A-1,51
D3,N9,A-1,1
D4,N1,A-1,50
D5,N2,A-1,45
D6,N2,A-1,1
D4,N1,A-1,50
D4,N1,A-1,49
D7,N3,A-1,10
D2,N1,A-1,51
""",
        """D1 done 4
D2 refused 14 TooMuch 0
D3 refused 4 NoField 0
D4 done 5
D5 done 6
D6 refused 14 TooMuch 0
D4 done 5
D4 refused 1 KeyReused 0
D7 done 7
D2 refused 14 TooMuch 0
""",
        ["lo 0 hi 100 value 100 inf 100 sup 100", "lo 0 hi 50 value 50 inf 50 sup 50", "lo 0 hi 10 value 10 inf 10 sup 10"],
    ),
    (
        "bounds",
        """key,branch,article,lo,hi
B1,N1,A-1,0,60
B2,N1,A-1,41,60
B3,N1,A-1,0,39
B4,N1,A-1,50,49
B5,N9,A-1,0,1
B6,N2,A-1,5,5
B1,N1,A-1,0,60
B1,N1,A-1,0,61
B7,N1,A-1,40,40
B8,N1,A-1,0,39
""",
        """B1 done 4
B2 refused 13 TooLittle 0
B3 refused 14 TooMuch 0
B4 refused 5 BadBounds 0
B5 refused 4 NoField 0
B6 done 5
B1 done 4
B1 refused 1 KeyReused 0
B7 done 6
B8 refused 14 TooMuch 0
""",
        ["lo 40 hi 40 value 40 inf 40 sup 40", "lo 5 hi 5 value 5 inf 5 sup 5", "lo 0 hi 10 value 0 inf 0 sup 0"],
    ),
    (
        "orders",
        """key,order,until,way,branch,article,qty
G1,1,500,take,N1,A-1,30
G2,2,500,take,N1,A-1,11
G3,3,500,add,N1,A-1,60
G3,3,500,take,N2,A-1,5
G4,4,500,add,N2,A-1,1
G4,4,500,add,N1,A-1,1
G5,1,500,take,N1,A-1,1
G6,6,500,add,N2,A-1,1
G6,6,500,add,N2,A-1,1
G7,7,500,take,N9,A-1,1
G8,8,0,take,N1,A-1,1
G1,1,500,take,N1,A-1,30
G9,9,500,take,N1,A-1,10
G1,1,500,take,N1,A-1,29
""",
        """G1 done 4
G2 refused 13 TooLittle 1
G3 done 5
G4 refused 14 TooMuch 2
G5 refused 6 OrderThere 0
G6 refused 10 SameField 2
G7 refused 4 NoField 1
G8 refused 9 Past 0
G1 done 4
G9 done 6
G1 refused 1 KeyReused 0
""",
        ["lo 0 hi 100 value 40 inf 0 sup 100", "lo 0 hi 50 value 5 inf 0 sup 5", "lo 0 hi 10 value 0 inf 0 sup 0"],
    ),
]


def is_accepted(reply, places):
    """Whether a reply says that its request took the next place behind so many."""
    return " done " in reply and int(reply.rsplit(" ", 1)[1]) > places


def ends_of(replies, places, most):
    """Behind how many of the requests with these replies a batch ends, where a batch has at most so many and so many places were
    taken before. The list begins with 0, where the first batch begins."""
    ends, has_refused = [0], False
    for number, reply in enumerate(replies):
        if number == ends[-1] + most or has_refused and is_accepted(reply, places):
            ends.append(number)
            has_refused = False
        has_refused = has_refused or " refused " in reply
        places += is_accepted(reply, places)
    return [*ends, len(replies)]


class Files:
    """Files of requests, each answered on copies of one desk."""

    def __init__(self, program, folder, fields):
        self.program, self.folder = program, folder
        self.desk = new_desk(program, folder)
        self.file = os.path.join(folder, "requests.csv")
        done(program, ["run", self.desk], fields)

    def copy(self, name):
        return shutil.copyfile(self.desk, os.path.join(self.folder, name))

    def write(self, text):
        with open(self.file, "wb") as file:
            file.write(text)

    def answered(self, kind, path, *words):
        """The replies to the file on the desk in a file, and the rows behind them, where they can be read."""
        status, out, errors = ended(self.program, [kind, path, self.file, *words])
        expect((status, errors) == (0, b""), f"{kind} {words}: status {status}, {errors!r}")
        return out.decode(), rows_of(path) if sqlite3 else None


def expect_small(files, kind, replies, shown, call):
    path = files.copy("asked.db")
    words = [kind, *({"FILE": path, "CSV": files.file}.get(word, word) for word in call.split())]
    found = ended(files.program, words)
    expect(found == (0, replies.encode(), b""), f"{words}: {found} and not {replies}")
    asks = [f"? field N{n} A-1" for n in [1, 2, 3]]
    want = [f"{ask} {numbers}" for ask, numbers in zip(asks, shown, strict=True)]
    found = done(files.program, ["run", path], "\n".join([*asks, ""]))
    expect(found == want, f"{words}: {found} and not {want}")


def requests(chance, kind):
    """A kind of file, the lines that make the fields, and requests that such a file has."""
    known = known_fields(chance)
    before = list(known.lines)
    return kind, before, chance.several(lambda chance: request_of(chance, known, kind), 100, 200)


def shown(case):
    kind, before, said = case
    return f"{fed(joined(before))}# by `{kind}`, one by one or together\n{fed(joined(said))}"


def joined(lines):
    return b"\n".join([*lines, b""])


class Answers(ProgramCase):
    def test_small_files_are_answered_by_the_rules(self):
        files = Files(self.program, self.folder, FIELDS)
        for (kind, text, replies, shown), call in itertools.product(SMALL, CALLS):
            files.write(text.encode())
            expect_small(files, kind, replies, shown, call)

    @needs_hypothesis
    def test_random_files_are_answered_by_the_rules(self):
        """Each number of requests together gives what one by one gives, also when the file comes again."""
        self.seen = Seen(*HEADERS, "requests that come again", "batches")
        for kind in HEADERS:
            try_cases(lambda chance, kind=kind: requests(chance, kind), FILES, self.expect_answered, shown)
        self.seen.expect_all()
        note(str(self.seen))

    def expect_answered(self, case):
        kind, before, said = case
        with tempfile.TemporaryDirectory(dir=self.folder) as folder:
            files, desk = Files(self.program, folder, joined(before)), Rules()
            places = sum(desk.take(line).endswith(f" done {len(desk.kept)}") for line in before)
            files.write(file_of(kind, said))
            want = [[desk.take(line) for line in said] for _ in range(2)]
            for number in [None, *NUMBERS]:
                path, option = files.copy("asked.db"), ["--together", str(number)] if number else []
                found = [files.answered(kind, path, *option) for _ in range(2)]
                expect([out.splitlines() for out, _ in found] == want, f"{number} together: {found} and not {want}")
                expect(found[1][1] in (None, rows_by(desk)), f"{number} together: other rows")
        self.count(kind, want[0], places)

    def count(self, kind, replies, places):
        dones = [reply for reply in replies if " done " in reply]
        self.seen.add(kind, len(replies))
        self.seen.add("requests that come again", len(dones) - len(set(dones)))
        # where an accepted request comes behind a refused one a batch ends
        self.seen.add("batches", len(ends_of(replies, places, len(replies))) - 2)


def rows_behind(count, every):
    """The rows, by the rules, behind the first so many orders, one in `every` of which is refused."""
    numbers = [n for n in range(1, count + 1) if n % every]
    held = len(numbers)
    rows = [f"desk|1|2|0|{held + 1}", f"field|N1|A-1|0|1000000000|{START}|{START}|{START - held}|{START}"]
    rows += [f"orders|{n}|0|500|0" for n in numbers]
    rows += [f"line|{n}|1|N1|A-1|0|1|0" for n in numbers]
    kept = [(f"F{n}", place, f"open {n} 500 take N1 A-1 1") for place, n in enumerate(numbers, 2)]
    kept.append(("K1", 1, f"field N1 A-1 0 1000000000 {START}"))
    return rows + [f"kept|{key}|{place}|{words}" for key, place, words in sorted(kept)]


def rows_left(path):
    """The rows of a desk and its log, read in a copy: reading a desk copies the log into it."""
    with tempfile.TemporaryDirectory() as folder:
        for name in filter(os.path.exists, [path, f"{path}-wal"]):
            shutil.copy(name, folder)
        return rows_of(os.path.join(folder, os.path.basename(path)))


class KilledTogether(Killed):
    """Calls that carry orders out in batches and are killed: behind each call the rows are those of some number of batches."""

    MOST, EVERY = 100, 250

    def __init__(self, program, folder):
        super().__init__(program, folder, orders_of(self.EVERY), ["--together", str(self.MOST)])
        self.kept = self.untold = 0

    def until_whole(self, path, seconds):
        """Before the first call no order is kept."""
        self.kept = 0
        return super().until_whole(path, seconds)

    def look(self, path, out):
        """What was written is a beginning of the replies, and the rows are those behind the batches whose replies were written,
        or behind one more."""
        expect(self.replies.startswith(out), f"other replies before the kill: {out[-100:]}")
        if sqlite3 is None:
            return
        places, told = 1 + self.kept - self.kept // self.EVERY, out.count(b"\n")
        ends = ends_of(self.replies.decode().splitlines(), places, self.MOST)
        may = [max(self.kept, end) for end in may_be_kept(ends, told)]
        rows, found = [rows_behind(end, self.EVERY) for end in may], rows_left(path)
        expect(found in rows, f"{told} replies, {found[0]}, and not the rows behind {may} requests")
        self.kept = may[rows.index(found)]
        self.untold += told < self.kept


def deliveries(count, every):
    """So many deliveries, and their replies by the rules on a desk with the one field. One in `every` is on a field that is not
    there, and the 26th is the 20th again."""
    lines, replies, places = [], [], 1
    for n in range(1, count + 1):
        is_there = n % every != 0
        places += is_there
        lines.append(f"D{n} deliver {'N1' if is_there else 'N9'} A-1 1")
        replies.append(f"D{n} done {places}" if is_there else f"D{n} refused 4 NoField 0")
    lines.insert(25, lines[19])
    replies.insert(25, replies[19])
    return lines, replies


def recorded_batches(program, folder, most):
    """A file of deliveries that is carried out in batches of at most so many."""
    lines, replies = deliveries(CUT, 9)
    rows = rows_after_each(program, folder, [FIELD, *lines])[1:]
    files, there = Files(program, folder, FIELD + "\n"), os.path.join(folder, "recorded")
    files.write(file_of("deliveries", [line.encode() for line in lines]))
    os.mkdir(there)
    path = shutil.copyfile(files.desk, os.path.join(there, NAME))
    before = {NAME: bytes_of(path)}
    calls = calls_of(program, ["deliveries", path, files.file, "--together", str(most)])
    written = b"".join(call.data[: call.result] for call in calls if call.name == "write" and call.number == OUTPUT)
    expect(written.decode().splitlines() == replies, f"other replies: {written}")
    ends = ends_of(replies, 1, most)
    return Recorded(there, before, calls, lambda told: [rows[kept] for kept in may_be_kept(ends, told)])


def left_alone(program, words, lines):
    """How a call ends whose reader goes away behind so many lines: its status, and what it writes about a fault."""
    reads, writes = os.pipe()
    # what is not read soon holds the program up
    fcntl.fcntl(writes, fcntl.F_SETPIPE_SZ, PIPE)
    with open(reads, "rb", buffering=0) as reader:
        if lines == 0:
            reader.close()
        process = subprocess.Popen([program, *words], stdout=writes, stderr=subprocess.PIPE)
        os.close(writes)
        for _ in range(lines):
            reader.readline()
    _, errors = process.communicate(timeout=SECONDS)
    return process.returncode, errors


def value_behind(replies):
    """What the one field has behind these replies: each delivery that is done is of one piece, and may come again."""
    return len({reply for reply in replies if " done " in reply})


def values_left(replies, most, read):
    """What values the one field may have where a reader goes away that has read so many of the replies: as many as were written,
    at most as many more as the pipe holds, in whole batches; the first batch where none was ever read."""
    ends, lines = ends_of(replies, 1, most), [reply + "\n" for reply in replies]
    holds = len("".join(lines[:read])) + PIPE if read else 0
    last = may_be_kept(ends, "".join(lines)[:holds].count("\n"))[-1]
    first = may_be_kept(ends, read)[0] if read else last
    return [value_behind(replies[:end]) for end in ends if first <= end <= last]


class Deliveries(Files):
    """A long file of deliveries, its replies by the rules, and the rows that a call leaves which nothing disturbs."""

    def __init__(self, program, folder):
        super().__init__(program, folder, FIELD + "\n")
        lines, self.replies = deliveries(1_000, 250)
        self.write(file_of("deliveries", [line.encode() for line in lines]))
        _, self.rows = self.answered("deliveries", self.copy("one_by_one.db"))

    def words(self, most):
        """The words of a call on a new copy of the desk."""
        return ["deliveries", self.copy("stopped.db"), self.file, "--together", str(most)]

    def told(self, out, of):
        """How many replies were written; they must be the first ones, each of them whole."""
        told = out.count(b"\n")
        expect(out.decode() == "".join(reply + "\n" for reply in self.replies[:told]), f"{of}: other replies: {out[-100:]}")
        return told

    def expect_gone_on(self, words, may, of):
        """The one field of the desk that was left has one of these values, and the same call again gives all replies."""
        [shown] = done(self.program, ["run", words[1]], "? field N1 A-1\n")
        expect(int(shown.split()[9]) in may, f"{of}: {shown}, and not one of {may}")
        found = done(self.program, words)
        expect(found == self.replies, f"{of}: other replies to the file again: {found}")
        expect(sqlite3 is None or rows_of(words[1]) == self.rows, f"{of}: other rows behind the file again")


def with_memory(files, size):
    """The words of a call with so many bytes of memory, and how it ends."""
    words = files.words(100)
    return words, ended(files.program, words, limit=(resource.RLIMIT_DATA, size))


def enough(files):
    """With how many bytes of memory the file is answered whole, but with a MiB less is not."""
    size = 1 << 26
    while with_memory(files, size - (1 << 20))[1][0] == 0:
        size -= 1 << 20
    return size


class Stops(ProgramCase):
    def test_a_killed_file_of_orders_leaves_whole_batches(self):
        killed = KilledTogether(self.program, self.folder)
        killed.play(ROUNDS)
        told = (
            f"{killed.untold} of them behind what was kept and not told"
            if sqlite3
            else "no other SQLite is here to read the rows"
        )
        note(told)

    def test_a_power_cut_leaves_whole_batches(self):
        if not may_be_cut():
            self.skipTest(NO_CUTS)
        recorded = recorded_batches(self.program, self.folder, 7)
        try_cuts(self.program, self.folder, recorded, SEED, 4 * len(recorded.calls))

    def test_a_reader_that_goes_away_leaves_whole_batches(self):
        """The write that fails is reported."""
        files = Deliveries(self.program, self.folder)
        for most, read in [(7, 0), (7, 5), (7, 7), (7, 50), (100, 0), (100, 5), (1000, 0)]:
            words, of = files.words(most), f"{most} together, {read} read"
            end = left_alone(self.program, words, read)
            expect(end == (1, b"stockdesk: io\n"), f"{of}: {end}")
            files.expect_gone_on(words, values_left(files.replies, most, read), of)

    def test_a_store_that_fails_leaves_whole_batches(self):
        """The files may not grow as far as the whole file needs: the replies written are those of whole batches, and one batch
        more may be kept."""
        files, failed = Deliveries(self.program, self.folder), set()
        ends, size = ends_of(files.replies, 1, 10), os.path.getsize(files.desk)
        for limit in range(size, size + GROWTH, GROWTH // 20):
            words, of = files.words(10), f"{limit} bytes"
            status, out, errors = ended(self.program, words, limit=(resource.RLIMIT_FSIZE, limit))
            expect((status, errors) in [(0, b""), (1, b"stockdesk: store\n")], f"{of}: status {status}, {errors}")
            told = files.told(out, of)
            expect(told in ends, f"{of}: {told} replies are those of no batches")
            failed.add(told)
            files.expect_gone_on(words, [value_behind(files.replies[:end]) for end in may_be_kept(ends, told)], of)
        expect(len(failed) > 3, f"it only failed behind {failed}")

    def test_want_of_memory_leaves_what_is_told(self):
        """With less and less memory the file is answered whole, then in part, and then not at all. What is kept is answered, but
        for a batch within whose commit memory was refused, which is a fault of the store."""
        files, cut, told = Deliveries(self.program, self.folder), 0, None
        size = enough(files)
        while told != 0:
            words, (status, out, errors) = with_memory(files, size)
            expect((status, errors) in [(0, b""), (1, b"stockdesk: memory\n"), (1, b"stockdesk: store\n")], f"{size}: {errors}")
            told = files.told(out, f"{size} bytes")
            ends = range(told, told + (101 if b"store" in errors else 1))
            files.expect_gone_on(words, {value_behind(files.replies[:end]) for end in ends}, f"{size} bytes")
            cut += 0 < told < len(files.replies)
            size -= 1 << 15
        expect(cut > 0, "it was never answered in part")

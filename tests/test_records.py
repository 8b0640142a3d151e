"""Tests of the built program on files of requests, each against the script that says the same, and on sheets: forms that CSV may
have, every fault that a record may have, a key that comes back, and numbers that fill their columns."""

import os
import shutil

from support.cases import ProgramCase
from support.programs import bytes_of, done, ended, expect, new_desk
from support.tables import rows_of, sqlite3

ORDERS = b"key,order,until,way,branch,article,qty"
DELIVERIES = b"key,branch,article,qty"
BOUNDS = b"key,branch,article,lo,hi"

FIELDS = "K1 field N1 A-1 0 100 40\nK2 field N1 B-2 0 10 0\n"

# files, and the requests that they say
GOOD = [
    (ORDERS + b"\n", ""),
    (ORDERS + b"\nG1,50,500,take,N1,A-1,5\nG1,50,500,add,N1,B-2,1\n", "G1 open 50 500 take N1 A-1 5 add N1 B-2 1\n"),
    # one key twice, but not as neighbours
    (
        ORDERS + b"\nG1,1,9,take,N1,A-1,1\nG2,2,9,take,N1,A-1,2\nG1,1,9,take,N1,A-1,3\n",
        "G1 open 1 9 take N1 A-1 1\nG2 open 2 9 take N1 A-1 2\nG1 open 1 9 take N1 A-1 3\n",
    ),
    # two order lines on one field, which the ledger refuses
    (ORDERS + b"\nG1,1,9,take,N1,A-1,1\nG1,1,9,take,N1,A-1,1\n", "G1 open 1 9 take N1 A-1 1 take N1 A-1 1\n"),
    (DELIVERIES, ""),
    (DELIVERIES + b"\nD1,N1,A-1,10\nD2,N1,A-1,51\n", "D1 deliver N1 A-1 10\nD2 deliver N1 A-1 51\n"),
    # neighbours with one key stay two deliveries
    (DELIVERIES + b"\nD1,N1,A-1,10\nD1,N1,A-1,10\n", "D1 deliver N1 A-1 10\nD1 deliver N1 A-1 10\n"),
    # as Python's `csv` writes it: CR LF at each end
    (DELIVERIES + b"\r\nD1,N1,A-1,10\r\n", "D1 deliver N1 A-1 10\n"),
    # as LibreOffice writes it with each text quoted, and a mark of UTF-8 in front
    (b'\xef\xbb\xbf"key","branch","article","qty"\n"D1","N1","A-1",10\n', "D1 deliver N1 A-1 10\n"),
    # a last line without its end
    (DELIVERIES + b"\nD1,N1,A-1,10", "D1 deliver N1 A-1 10\n"),
    # blank lines are no records
    (b"\n\r\n" + DELIVERIES + b"\n\n\nD1,N1,A-1,10\n\n", "D1 deliver N1 A-1 10\n"),
    # a lone CR ends a record
    (DELIVERIES + b"\rD1,N1,A-1,10\r", "D1 deliver N1 A-1 10\n"),
    # a quote that is open at the end, and text behind a closing quote
    (DELIVERIES + b'\n"D"1,N1,A-1,"10', "D1 deliver N1 A-1 10\n"),
    (BOUNDS, ""),
    (
        BOUNDS + b"\nB1,N1,A-1,5,40\nB2,N1,A-1,41,40\nB3,N1,C-3,0,1\n",
        "B1 rebound N1 A-1 5 40\nB2 rebound N1 A-1 41 40\nB3 rebound N1 C-3 0 1\n",
    ),
    # 64 lines, of which the second is on the field of the first
    (ORDERS + b"\n" + b"G1,1,9,take,N1,A-1,1\n" * 64, "G1 open 1 9" + " take N1 A-1 1" * 64 + "\n"),
]

# order files without a good header, and delivery files
BAD_HEADERS = (
    [b"", DELIVERIES + b"\n", b"\xef\xbb\xbf" + b"\xef\xbb\xbf" + ORDERS + b"\n"],
    [
        b"",
        b"\n\r\n",
        b"key,branch,article\nD1,N1,A-1\n",
        b"key,branch,article,qty,note\n",
        b"key,branch,article,QTY\n",
        b"key, branch,article,qty\n",
        b"\xef\xbb\xbf\xef\xbb\xbf" + DELIVERIES + b"\n",
        b"D1,N1,A-1,10\n",
    ],
)

# what stands behind the header of an order file, and the number of its first record at fault
BAD_ORDERS = [
    # another end, and another number
    (b"G1,50,500,take,N1,A-1,5\nG1,50,501,add,N1,B-2,1\n", 2),
    (b"G1,50,500,take,N1,A-1,5\nG1,51,500,add,N1,B-2,1\n", 2),
    (b"G1,50,500,give,N1,A-1,5\n", 1),
    # a value too few, and one too many
    (b"G1,50,500,take,N1,A-1,5,x\n", 1),
    (b"G1,50,500,take,N1,A-1\n", 1),
    (b"G1,50,500,take,N1,A-1,5\nG2,51,500,take,N1,A-1\n", 2),
    # bytes that are not UTF-8, and numbers with a zero in front
    (b"G1,50,500,take,N1,A\xff,5\n", 1),
    (b"G1,50,500,take,N1,A-1,05\n", 1),
    (b"G1,50,500,take,N1,A-1,5\nG2,051,500,take,N1,A-1,5\n", 2),
    (b"G1,1,9,take,N1,A-1,1\n" * 65, 65),
]

BAD_DELIVERIES = [
    (b"D1,N1,A-1\n", 1),
    (b"D1,N1,A-1,10,\n", 1),
    (b"D1,N1,A-1,10\nD2,N1,A-1,10,10\n", 2),
    (b"D1,N\xff,A-1,10\n", 1),
    (b"D1,N1,A-1,10\nD2,N1,A\xc3\x28,10\n", 2),
    (b"D1,N1,A-1,05\n", 1),
    (b"D1,N1,A-1,10\nD2,N1,A-1,05\n", 2),
    (b"D1,N1,A-1,0\n", 1),
    (b"D1,N1,A-1,1000001\n", 1),
    (b"D1,N1,A-1, 10\n", 1),
    (b"D_1,N1,A-1,10\n", 1),
    (b'""\n', 1),
    # a record at fault behind good ones, with a worse one behind it
    (b'D1,N1,A-1,10\nD2,N1,A-1,10\nD3,n1,A-1,10\n"\xff', 3),
]

BAD_BOUNDS = [
    (b"B1,N1,A-1,5\n", 1),
    (b"B1,N1,A-1,5,40,\n", 1),
    (b"B1,N1,A-1,5,40\nB2,N1,A-1,05,40\n", 2),
    (b"B1,N1,A-1,5,1000000001\n", 1),
    (b"B1,N1,A-1,-5,40\n", 1),
    (b"B1,N1,A-1,,40\n", 1),
    (b"B1,N1,A\xff,5,40\n", 1),
]

# order files in which the first key comes back: the command is taken as that which was done first
REUSED = [
    (
        b"\nG1,50,500,take,N1,A-1,5\nG2,51,500,take,N1,A-1,5\nG1,52,500,take,N1,A-1,5\n",
        ["G1 done 3", "G2 done 4", "G1 refused 1 KeyReused 0"],
    ),
    (
        b"\nG1,50,500,take,N1,A-1,41\nG2,51,500,take,N1,A-1,5\nG1,52,500,take,N1,A-1,5\n",
        ["G1 refused 13 TooLittle 1", "G2 done 3", "G1 done 4"],
    ),
]

# three fields: one with open orders on it, and one whose numbers fill their columns
WIDE = """K1 field N2 A-1 0 1000000000 1000000000
K2 field N1 A-1 3 90 40
K3 field N1 ABCDEFGHIJKLMNOP 1000000000 1000000000 1000000000
K4 open 7 120 take N1 A-1 35
K5 open 8 120 add N1 A-1 50
"""

SHEETS = [
    (
        ["sheet", "N1"],
        "A-1                       3         90         40          5         90\n"
        "ABCDEFGHIJKLMNOP 1000000000 1000000000 1000000000 1000000000 1000000000\n"
        "total                1000000040\n",
    ),
    (
        ["article", "A-1"],
        "N1                        3         90         40          5         90\n"
        "N2                        0 1000000000 1000000000 1000000000 1000000000\n"
        "total                1000000040\n",
    ),
    (["sheet", "N9"], "total                         0\n"),
    (["article", "B-9"], "total                         0\n"),
]


class Desk:
    """A desk of two fields, which is copied for each file."""

    def __init__(self, program, folder):
        self.program, self.folder = program, folder
        self.path = new_desk(program, folder)
        done(program, ["run", self.path], FIELDS)
        self.file = os.path.join(folder, "records.csv")

    def copy(self, name):
        return shutil.copyfile(self.path, os.path.join(self.folder, name))

    def ended(self, path, file):
        """How the program ends with a file of requests that has these bytes."""
        with open(self.file, "wb") as records:
            records.write(file)
        command = "orders" if b"until" in file else "bounds" if BOUNDS in file else "deliveries"
        return ended(self.program, [command, path, self.file])


def expect_fault(desk, command, file, number):
    with open(desk.file, "wb") as records:
        records.write(file)
    end = ended(desk.program, [command, desk.path, desk.file])
    expect(end == (4, b"", b"stockdesk: record %d\n" % number), f"{command} {file}: {end} and not record {number}")


class Records(ProgramCase):
    def test_files_say_their_requests(self):
        """The replies to a file, and the rows behind it, are those of a script with its requests."""
        desk = Desk(self.program, self.folder)
        for file, script in GOOD:
            asked, played = desk.copy("asked.db"), desk.copy("played.db")
            replies = "".join(line + "\n" for line in done(self.program, ["run", played], script)).encode()
            end = desk.ended(asked, file)
            expect(end == (0, replies, b""), f"{file}: {end} and not {replies}")
            if sqlite3 is not None:
                expect(rows_of(asked) == rows_of(played), f"{file}: other rows")

    def test_the_first_record_at_fault_is_named(self):
        """Nothing is done then: the file is as it was."""
        desk = Desk(self.program, self.folder)
        found = bytes_of(desk.path)
        for command, header, headers, records in [
            ("orders", ORDERS, BAD_HEADERS[0], BAD_ORDERS),
            ("deliveries", DELIVERIES, BAD_HEADERS[1], BAD_DELIVERIES),
            ("bounds", BOUNDS, BAD_HEADERS[1], BAD_BOUNDS),
        ]:
            for file in headers:
                expect_fault(desk, command, file, 0)
            for rows, number in records:
                expect_fault(desk, command, header + b"\n" + rows, number)
        expect(bytes_of(desk.path) == found, "the desk was changed")

    def test_a_key_that_comes_back_is_reused(self):
        desk = Desk(self.program, self.folder)
        for rows, want in REUSED:
            end = desk.ended(desk.copy("asked.db"), ORDERS + rows)
            expect(end == (0, "".join(line + "\n" for line in want).encode(), b""), f"{rows}: {end}")

    def test_sheets_hold_the_greatest_numbers(self):
        path = new_desk(self.program, self.folder)
        done(self.program, ["run", path], WIDE)
        for (command, name), sheet in SHEETS:
            end = ended(self.program, [command, path, name])
            expect(end == (0, sheet.encode(), b""), f"{command} {name}: {end}")

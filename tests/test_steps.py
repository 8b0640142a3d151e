"""Tests of the built program, command after command on one file: what each answers, and that a command which fails or answers
nothing changes no byte."""

import os
from typing import NamedTuple

from support.cases import ProgramCase
from support.programs import NOT_A_DESK, bytes_of, ended

DELIVERIES = "key,branch,article,qty\nD1,N1,A-1,10\nD2,N1,A-1,51\n"

ORDERS = """key,order,until,way,branch,article,qty
G1,50,500,take,N1,A-1,5
G1,50,500,take,N1,A-1,30
G2,50,500,take,N1,A-1,35
"""

BOUNDS = "key,branch,article,lo,hi\nB1,N1,A-1,66,100\nB2,N1,A-1,65,100\n"

ARTICLE = """N1                        0        100        100        100        100
total                       100
"""

SHEET = """A-1                      65        100        100         65        100
total                       100
"""


class Step(NamedTuple):
    """A command, what it reads, the file of requests or the word behind it, and what it writes where it ends well."""

    command: str
    text: str = ""
    output: str = ""
    fault: tuple[int, bytes, bytes] | None = None

    def words(self, path: str, requests: str) -> list[str]:
        if self.command in ["sheet", "article"]:
            return [self.command, path, self.text]
        return [self.command, path, *([requests] if self.command in ["orders", "deliveries", "bounds"] else [])]


STEPS = [
    Step("run", "K1 expire 1\n", fault=NOT_A_DESK),
    Step("init"),
    Step("init", fault=NOT_A_DESK),
    Step("run"),
    Step("run", "K1 field N1 A-1 0 100 40\n", "K1 done 1\n"),
    # a delivery file that comes once, twice, and a third time after a write-off
    Step("deliveries", DELIVERIES, "D1 done 2\nD2 refused 14 TooMuch 0\n"),
    Step("deliveries", DELIVERIES, "D1 done 2\nD2 refused 14 TooMuch 0\n"),
    Step("run", "D3 writeoff N1 A-1 1\n", "D3 done 3\n"),
    Step("deliveries", DELIVERIES, "D1 done 2\nD2 done 4\n"),
    Step("article", "A-1", ARTICLE),
    Step("orders", ORDERS, "G1 refused 10 SameField 2\nG2 done 5\n"),
    Step("bounds", BOUNDS, "B1 refused 13 TooLittle 0\nB2 done 6\n"),
    Step("orders", BOUNDS, fault=(4, b"", b"stockdesk: record 0\n")),
    Step("upgrade"),
    Step("sheet", "N1", SHEET),
]


class Steps(ProgramCase):
    def test_commands_go_on_in_a_file(self):
        path, requests = os.path.join(self.folder, "desk.db"), os.path.join(self.folder, "requests.csv")
        for step in STEPS:
            with open(requests, "w", encoding="ascii") as file:
                file.write(step.text)
            before = bytes_of(path) if os.path.exists(path) else None
            found = ended(self.program, step.words(path, requests), step.text)
            self.assertEqual(found, step.fault or (0, step.output.encode(), b""), step)
            if not step.output and step.command != "init" or step.fault:
                after = bytes_of(path) if os.path.exists(path) else None
                self.assertEqual(after, before, f"{step}: other bytes in the file")

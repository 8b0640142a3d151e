"""Tests of the built program on scripts: played in memory, on a file, and on a file that is opened anew at each line; lines that
are none; and streams where a read or a write fails."""

import resource
import socket
import subprocess
import tempfile

from support.cases import ProgramCase
from support.programs import SECONDS, done, expect, new_desk

BAD = "- refused 20 BadCommand 0"

# lines, each with what is answered to it

# an order that is used and committed, and one that expires
LONG = [
    ("K1 field N1 A-1 0 100 40", "K1 done 1"),
    ("? field N1 A-1", "? field N1 A-1 lo 0 hi 100 value 40 inf 40 sup 40"),
    ("K2 open 7 120 take N1 A-1 35", "K2 done 2"),
    ("? field N1 A-1", "? field N1 A-1 lo 0 hi 100 value 40 inf 5 sup 40"),
    ("? order 7", "? order 7 plain 120 open take N1 A-1 35 0"),
    ("K3 open 8 120 take N1 A-1 6", "K3 refused 13 TooLittle 1"),
    ("K4 open 8 120 take N1 A-1 5", "K4 done 3"),
    ("? field N1 A-1", "? field N1 A-1 lo 0 hi 100 value 40 inf 0 sup 40"),
    ("K5 deliver N1 A-1 60", "K5 done 4"),
    ("? field N1 A-1", "? field N1 A-1 lo 0 hi 100 value 100 inf 60 sup 100"),
    ("K6 deliver N1 A-1 1", "K6 refused 14 TooMuch 0"),
    ("? order 7", "? order 7 plain 120 open take N1 A-1 35 0"),
    ("K7 use 7 N1 A-1 20", "K7 done 5"),
    ("? order 7", "? order 7 plain 120 open take N1 A-1 35 20"),
    ("K8 commit 7", "K8 done 6"),
    ("? field N1 A-1", "? field N1 A-1 lo 0 hi 100 value 80 inf 75 sup 80"),
    ("? order 7", "? order 7 plain 120 committed take N1 A-1 35 20"),
    ("K2 open 7 120 take N1 A-1 35", "K2 done 2"),
    ("K2 open 7 120 take N1 A-1 36", "K2 refused 1 KeyReused 0"),
    ("? order 8", "? order 8 plain 120 open take N1 A-1 5 0"),
    ("K9 expire 120", "K9 done 7"),
    ("? order 8", "? order 8 plain 120 aborted take N1 A-1 5 0"),
    ("? field N1 A-1", "? field N1 A-1 lo 0 hi 100 value 80 inf 80 sup 80"),
    ("K10 open 9 120 take N1 A-1 1", "K10 refused 9 Past 0"),
    ("K11 open 9 500 take N1 A-1 5 take N1 B-9 1", "K11 refused 4 NoField 2"),
    ("? field N1 A-1", "? field N1 A-1 lo 0 hi 100 value 80 inf 80 sup 80"),
    ("? order 9", "? none"),
    ("? field N1 B-9", "? none"),
    ("K8 commit 7", "K8 done 6"),
]

# a transfer, which is used and committed, and one back, which expires
TRANSFER = [
    ("T1 field N1 A-1 0 100 40", "T1 done 1"),
    ("T2 field N2 A-1 0 50 5", "T2 done 2"),
    ("T3 transfer 20 900 A-1 N1 N2 10", "T3 done 3"),
    ("? field N1 A-1", "? field N1 A-1 lo 0 hi 100 value 40 inf 30 sup 40"),
    ("? field N2 A-1", "? field N2 A-1 lo 0 hi 50 value 5 inf 5 sup 15"),
    ("T4 use 20 N2 A-1 4", "T4 done 4"),
    ("? order 20", "? order 20 transfer 900 open take N1 A-1 10 4 add N2 A-1 10 4"),
    ("T5 more 20 take N1 A-1 1", "T5 refused 17 TransferFixed 0"),
    ("T6 commit 20", "T6 done 5"),
    ("? field N1 A-1", "? field N1 A-1 lo 0 hi 100 value 36 inf 36 sup 36"),
    ("? field N2 A-1", "? field N2 A-1 lo 0 hi 50 value 9 inf 9 sup 9"),
    ("T7 transfer 21 900 A-1 N1 N1 1", "T7 refused 10 SameField 2"),
    ("? order 21", "? none"),
    ("T8 transfer 22 900 A-1 N2 N1 9", "T8 done 6"),
    ("? field N1 A-1", "? field N1 A-1 lo 0 hi 100 value 36 inf 36 sup 45"),
    ("? field N2 A-1", "? field N2 A-1 lo 0 hi 50 value 9 inf 0 sup 9"),
    ("T9 release 22 N1 A-1 4", "T9 done 7"),
    ("? field N1 A-1", "? field N1 A-1 lo 0 hi 100 value 36 inf 36 sup 41"),
    ("? field N2 A-1", "? field N2 A-1 lo 0 hi 50 value 9 inf 4 sup 9"),
    ("T10 expire 899", "T10 done 8"),
    ("? order 22", "? order 22 transfer 900 open take N2 A-1 5 0 add N1 A-1 5 0"),
    ("T11 expire 900", "T11 done 9"),
    ("? order 22", "? order 22 transfer 900 aborted take N2 A-1 5 0 add N1 A-1 5 0"),
    ("? field N1 A-1", "? field N1 A-1 lo 0 hi 100 value 36 inf 36 sup 36"),
    ("? field N2 A-1", "? field N2 A-1 lo 0 hi 50 value 9 inf 9 sup 9"),
    ("T12 expire 899", "T12 refused 18 ClockBack 0"),
    ("T13 expire 900", "T13 done 10"),
]

# deliveries and write-offs up to the bounds, and a second field
MOVES = [
    ("K1 field N1 A-1 0 100 40", "K1 done 1"),
    ("K2 deliver N1 A-1 60", "K2 done 2"),
    ("? field N1 A-1", "? field N1 A-1 lo 0 hi 100 value 100 inf 100 sup 100"),
    ("K3 deliver N1 A-1 1", "K3 refused 14 TooMuch 0"),
    ("K4 writeoff N1 A-1 100", "K4 done 3"),
    ("? field N1 A-1", "? field N1 A-1 lo 0 hi 100 value 0 inf 0 sup 0"),
    ("K5 writeoff N1 A-1 1", "K5 refused 13 TooLittle 0"),
    ("K6 field N2 A-1 0 1 0", "K6 done 4"),
    ("K7 deliver N2 A-1 1", "K7 done 5"),
    ("? field N2 A-1", "? field N2 A-1 lo 0 hi 1 value 1 inf 1 sup 1"),
    ("K8 field N2 A-1 0 1 0", "K8 refused 3 FieldThere 0"),
]

# a field of one value holds nothing, either way
TIGHT = [
    ("Z1 field N1 D-1 5 5 5", "Z1 done 1"),
    ("Z2 open 40 500 take N1 D-1 1", "Z2 refused 13 TooLittle 1"),
    ("Z3 open 40 500 add N1 D-1 1", "Z3 refused 14 TooMuch 1"),
    ("Z4 field N1 E-1 5 4 5", "Z4 refused 5 BadBounds 0"),
    ("Z1 field N1 D-1 5 5 5", "Z1 done 1"),
]

# an order that is used, released and aborted
RELEASE = [
    ("P1 field N1 A-1 0 100 40", "P1 done 1"),
    ("P2 field N1 B-2 0 10 0", "P2 done 2"),
    ("P3 open 5 300 take N1 A-1 10", "P3 done 3"),
    ("P4 more 5 take N1 A-1 5", "P4 done 4"),
    ("? field N1 A-1", "? field N1 A-1 lo 0 hi 100 value 40 inf 25 sup 40"),
    ("P5 more 5 add N1 A-1 1", "P5 refused 11 OtherWay 0"),
    ("P6 more 5 add N1 B-2 10", "P6 done 5"),
    ("? field N1 B-2", "? field N1 B-2 lo 0 hi 10 value 0 inf 0 sup 10"),
    ("P7 use 5 N1 A-1 6", "P7 done 6"),
    ("P8 release 5 N1 A-1 10", "P8 refused 16 OverUse 0"),
    ("P9 release 5 N1 A-1 9", "P9 done 7"),
    ("? field N1 A-1", "? field N1 A-1 lo 0 hi 100 value 40 inf 34 sup 40"),
    ("P10 use 5 N1 C-3 1", "P10 refused 15 NotHeld 0"),
    ("P11 deliver N1 B-2 1", "P11 refused 14 TooMuch 0"),
    ("? order 5", "? order 5 plain 300 open take N1 A-1 6 6 add N1 B-2 10 0"),
    ("P12 abort 5", "P12 done 8"),
    ("? field N1 A-1", "? field N1 A-1 lo 0 hi 100 value 40 inf 40 sup 40"),
    ("? field N1 B-2", "? field N1 B-2 lo 0 hi 10 value 0 inf 0 sup 0"),
    ("P13 use 5 N1 A-1 1", "P13 refused 8 Ended 0"),
]

# an order that is firm from some moment on: what it has used is settled, and it only ends by its commit
FIRM = [
    ("H1 field N1 A-1 0 50 40", "H1 done 1"),
    ("H2 open 7 120 take N1 A-1 15", "H2 done 2"),
    ("? field N1 A-1", "? field N1 A-1 lo 0 hi 50 value 40 inf 25 sup 40"),
    ("H3 use 7 N1 A-1 10", "H3 done 3"),
    ("? field N1 A-1", "? field N1 A-1 lo 0 hi 50 value 40 inf 25 sup 40"),
    ("H4 deliver N1 A-1 20", "H4 refused 14 TooMuch 0"),
    ("H5 firm 7", "H5 done 4"),
    ("? field N1 A-1", "? field N1 A-1 lo 0 hi 50 value 30 inf 25 sup 30"),
    ("H6 firm 7", "H6 refused 19 Firm 0"),
    ("H7 abort 7", "H7 refused 19 Firm 0"),
    ("H8 more 7 take N1 A-1 1", "H8 refused 19 Firm 0"),
    # the commit is refused as firm, whatever else is wrong with it
    ("H8 more 7 add N1 B-9 1", "H8 refused 19 Firm 0"),
    ("H4 deliver N1 A-1 20", "H4 done 5"),
    ("? field N1 A-1", "? field N1 A-1 lo 0 hi 50 value 50 inf 45 sup 50"),
    ("H9 expire 120", "H9 done 6"),
    ("? order 7", "? order 7 plain 120 firm take N1 A-1 15 10"),
    ("H10 use 7 N1 A-1 2", "H10 done 7"),
    ("? field N1 A-1", "? field N1 A-1 lo 0 hi 50 value 48 inf 45 sup 48"),
    ("H11 use 7 N1 A-1 4", "H11 refused 16 OverUse 0"),
    ("H11 commit 7", "H11 done 8"),
    ("? field N1 A-1", "? field N1 A-1 lo 0 hi 50 value 48 inf 48 sup 48"),
    ("? order 7", "? order 7 plain 120 committed take N1 A-1 15 12"),
    ("H12 firm 7", "H12 refused 8 Ended 0"),
    ("H12 abort 7", "H12 refused 8 Ended 0"),
    ("H12 more 7 take N1 A-1 1", "H12 refused 8 Ended 0"),
    ("H13 firm 8", "H13 refused 7 NoOrder 0"),
    ("H5 firm 7", "H5 done 4"),
    ("H5 firm 8", "H5 refused 1 KeyReused 0"),
]

# one that takes and adds, with bounds that its uses bring nearer or farther, beside one that is not firm
FIRM_LINES = [
    ("L1 field N1 A-1 10 100 50", "L1 done 1"),
    ("L2 field N1 B-2 10 100 50", "L2 done 2"),
    ("L3 open 5 120 take N1 A-1 30 add N1 B-2 40", "L3 done 3"),
    ("L4 open 6 120 add N1 A-1 20 take N1 B-2 10", "L4 done 4"),
    ("L5 use 5 N1 B-2 25", "L5 done 5"),
    ("L6 use 6 N1 B-2 5", "L6 done 6"),
    ("? field N1 A-1", "? field N1 A-1 lo 10 hi 100 value 50 inf 20 sup 70"),
    ("? field N1 B-2", "? field N1 B-2 lo 10 hi 100 value 50 inf 40 sup 90"),
    ("L7 firm 5", "L7 done 7"),
    # the line that has used nothing leaves its field as it was
    ("? field N1 A-1", "? field N1 A-1 lo 10 hi 100 value 50 inf 20 sup 70"),
    ("? field N1 B-2", "? field N1 B-2 lo 10 hi 100 value 75 inf 65 sup 90"),
    ("L8 writeoff N1 B-2 56", "L8 refused 13 TooLittle 0"),
    ("L8 writeoff N1 B-2 55", "L8 done 8"),
    ("? field N1 B-2", "? field N1 B-2 lo 10 hi 100 value 20 inf 10 sup 35"),
    ("L9 use 5 N1 A-1 30", "L9 done 9"),
    ("? field N1 A-1", "? field N1 A-1 lo 10 hi 100 value 20 inf 20 sup 40"),
    ("L10 deliver N1 A-1 61", "L10 refused 14 TooMuch 0"),
    ("L10 rebound N1 A-1 20 39", "L10 refused 14 TooMuch 0"),
    ("L10 rebound N1 A-1 20 40", "L10 done 10"),
    ("L11 release 5 N1 A-1 1", "L11 refused 16 OverUse 0"),
    ("L11 release 5 N1 B-2 10", "L11 done 11"),
    ("? field N1 B-2", "? field N1 B-2 lo 10 hi 100 value 20 inf 10 sup 25"),
    ("L12 use 5 N1 C-3 1", "L12 refused 15 NotHeld 0"),
    # the other one expires, and this one does not
    ("L13 expire 4000000000", "L13 done 12"),
    ("? field N1 A-1", "? field N1 A-1 lo 20 hi 40 value 20 inf 20 sup 20"),
    ("? field N1 B-2", "? field N1 B-2 lo 10 hi 100 value 20 inf 20 sup 25"),
    ("? order 5", "? order 5 plain 120 firm take N1 A-1 30 30 add N1 B-2 30 25"),
    ("? order 6", "? order 6 plain 120 aborted add N1 A-1 20 0 take N1 B-2 10 5"),
    ("L14 firm 6", "L14 refused 8 Ended 0"),
    ("L14 commit 5", "L14 done 13"),
    ("? field N1 A-1", "? field N1 A-1 lo 20 hi 40 value 20 inf 20 sup 20"),
    ("? field N1 B-2", "? field N1 B-2 lo 10 hi 100 value 20 inf 20 sup 20"),
]

# a transfer that is made firm, used, released, not expired and committed
FIRM_TRANSFER = [
    ("T1 field N1 A-1 0 100 40", "T1 done 1"),
    ("T2 field N2 A-1 0 50 5", "T2 done 2"),
    ("T3 transfer 20 900 A-1 N1 N2 10", "T3 done 3"),
    ("T4 use 20 N2 A-1 4", "T4 done 4"),
    ("? field N1 A-1", "? field N1 A-1 lo 0 hi 100 value 40 inf 30 sup 40"),
    ("? field N2 A-1", "? field N2 A-1 lo 0 hi 50 value 5 inf 5 sup 15"),
    ("T5 firm 20", "T5 done 5"),
    ("? field N1 A-1", "? field N1 A-1 lo 0 hi 100 value 36 inf 30 sup 36"),
    ("? field N2 A-1", "? field N2 A-1 lo 0 hi 50 value 9 inf 9 sup 15"),
    ("T6 use 20 N1 A-1 3", "T6 done 6"),
    ("? field N1 A-1", "? field N1 A-1 lo 0 hi 100 value 33 inf 30 sup 33"),
    ("? field N2 A-1", "? field N2 A-1 lo 0 hi 50 value 12 inf 12 sup 15"),
    ("T7 release 20 N2 A-1 2", "T7 done 7"),
    ("? field N1 A-1", "? field N1 A-1 lo 0 hi 100 value 33 inf 32 sup 33"),
    ("? field N2 A-1", "? field N2 A-1 lo 0 hi 50 value 12 inf 12 sup 13"),
    ("T8 expire 900", "T8 done 8"),
    ("? order 20", "? order 20 transfer 900 firm take N1 A-1 8 7 add N2 A-1 8 7"),
    ("T9 abort 20", "T9 refused 19 Firm 0"),
    ("T9 firm 20", "T9 refused 19 Firm 0"),
    ("T9 more 20 take N1 A-1 1", "T9 refused 19 Firm 0"),
    ("T10 commit 20", "T10 done 9"),
    ("? order 20", "? order 20 transfer 900 committed take N1 A-1 8 7 add N2 A-1 8 7"),
    ("? field N1 A-1", "? field N1 A-1 lo 0 hi 100 value 33 inf 33 sup 33"),
    ("? field N2 A-1", "? field N2 A-1 lo 0 hi 50 value 12 inf 12 sup 12"),
]

# open orders, one of them a transfer that is used
OPEN_ORDERS = [
    ("K1 field N1 A-1 0 100 40", "K1 done 1"),
    ("K2 field N2 A-1 0 50 5", "K2 done 2"),
    ("K3 deliver N1 A-1 10", "K3 done 3"),
    ("K4 open 7 120 take N1 A-1 20", "K4 done 4"),
    ("K5 more 7 take N1 A-1 15", "K5 done 5"),
    ("K6 transfer 20 900 A-1 N1 N2 10", "K6 done 6"),
    ("K7 use 20 N2 A-1 4", "K7 done 7"),
    # 40 + 10, of which 20 + 15 and 10 may be taken
    ("? field N1 A-1", "? field N1 A-1 lo 0 hi 100 value 50 inf 5 sup 50"),
    # 5, to which 10 may be added
    ("? field N2 A-1", "? field N2 A-1 lo 0 hi 50 value 5 inf 5 sup 15"),
    ("? order 20", "? order 20 transfer 900 open take N1 A-1 10 4 add N2 A-1 10 4"),
    ("K7 use 20 N2 A-1 4", "K7 done 7"),
]

# orders that have ended, each in a way of its own
ENDED_ORDERS = [
    ("K1 field N1 A-1 0 100 40", "K1 done 1"),
    ("K2 writeoff N1 A-1 2", "K2 done 2"),
    ("K3 open 7 120 take N1 A-1 9", "K3 done 3"),
    ("K4 open 8 120 take N1 A-1 5", "K4 done 4"),
    ("K5 open 9 130 take N1 A-1 3", "K5 done 5"),
    ("K6 use 7 N1 A-1 4", "K6 done 6"),
    ("K7 release 7 N1 A-1 2", "K7 done 7"),
    ("K8 commit 7", "K8 done 8"),
    ("K9 abort 9", "K9 done 9"),
    ("KA expire 120", "KA done 10"),
    # 40 - 2 - 4, and nothing is held
    ("? field N1 A-1", "? field N1 A-1 lo 0 hi 100 value 34 inf 34 sup 34"),
    ("? order 7", "? order 7 plain 120 committed take N1 A-1 7 4"),
    ("? order 8", "? order 8 plain 120 aborted take N1 A-1 5 0"),
    ("? order 9", "? order 9 plain 130 aborted take N1 A-1 3 0"),
]

# what a desk without fields and orders answers
NOTHING_THERE = [
    ("K1 open 7 120 take N1 A-1 35", "K1 refused 4 NoField 1"),
    ("K2 more 7 take N1 A-1 5", "K2 refused 7 NoOrder 0"),
    ("K3 use 7 N1 A-1 5", "K3 refused 7 NoOrder 0"),
    ("K4 release 7 N1 A-1 5", "K4 refused 7 NoOrder 0"),
    ("K5 commit 7", "K5 refused 7 NoOrder 0"),
    ("K6 abort 7", "K6 refused 7 NoOrder 0"),
    ("K7 firm 7", "K7 refused 7 NoOrder 0"),
    ("? order 7", "? none"),
    ("? field N1 A-1", "? none"),
    ("K1 transfer 8 120 A-1 N1 N2 5", "K1 refused 4 NoField 1"),
    ("K2 expire 120", "K2 done 1"),
    ("K2 expire 121", "K2 refused 1 KeyReused 0"),
]

# refusals that change nothing
REFUSED = [
    ("R1 field N1 A-1 0 100 40", "R1 done 1"),
    ("R2 field N2 A-1 0 10 5", "R2 done 2"),
    ("R3 open 7 120 take N1 A-1 10", "R3 done 3"),
    ("R4 open 7 120 take N1 A-1 10", "R4 refused 6 OrderThere 0"),
    ("R5 more 7 take N1 A-1 31", "R5 refused 13 TooLittle 0"),
    ("R6 more 7 add N2 A-1 6", "R6 refused 14 TooMuch 0"),
    ("R7 use 7 N1 A-1 11", "R7 refused 16 OverUse 0"),
    ("R8 release 7 N2 A-1 1", "R8 refused 15 NotHeld 0"),
    ("R9 transfer 8 120 A-1 N1 N3 1", "R9 refused 4 NoField 2"),
    ("R10 transfer 8 120 A-1 N1 N2 6", "R10 refused 14 TooMuch 2"),
    ("R11 open 8 120 take N1 A-1 1 take N1 A-1 1", "R11 refused 10 SameField 2"),
    ("R12 commit 7", "R12 done 4"),
    ("R13 commit 7", "R13 refused 8 Ended 0"),
    ("R14 abort 7", "R14 refused 8 Ended 0"),
    ("? order 7", "? order 7 plain 120 committed take N1 A-1 10 0"),
    ("? order 8", "? none"),
]

# lines that are no request
NO_REQUESTS = [
    "",
    "K1  commit 7",
    "K1 deliver N1 A-1 05",
    "K1 deliver N1 A-1 0",
    "K1 deliver N1 A-1 1000001",
    "K1 deliver n1 A-1 5",
    "K1 deliver N1 -A 5",
    "K1 commit 7\r",
    "K1 deliver N1 A-1 +5",
    "K1 deliver N1 A-1 5 ",
    "K1 field N1 A-1 00 100 40",
    "K1 field N1 A-1 0 1000000001 40",
    "? field  N1 A-1",
    "? order 07",
    "K1 expire 4000000001",
    "\0",
]

SPELLING = [*((line, BAD) for line in NO_REQUESTS), ("K1 deliver N1 A-1 1000000", "K1 refused 4 NoField 0")]

FIRMS = [FIRM, FIRM_LINES, FIRM_TRANSFER]
SCRIPTS = [[], LONG, MOVES, TIGHT, TRANSFER, RELEASE, *FIRMS, OPEN_ORDERS, ENDED_ORDERS, NOTHING_THERE, REFUSED, SPELLING]

# so many bytes without a newline, what stands behind them, and what is answered to both
FLOODS = [
    (4_096, b"\nK1 field N1 A-1 0 100 40\n", [BAD, "K1 done 1"]),
    (4_097, b"\nK1 field N1 A-1 0 100 40\n", [BAD, "K1 done 1"]),
    # what is too long is one line, whatever its end looks like
    (4_097, b" field N1 A-1 0 100 40\n? order 7\n", [BAD, "? none"]),
    (4_097, b"", [BAD]),
    (10_000_000, b"", [BAD]),
    (10_000_000, b"\nK1 field N1 A-1 0 100 40\n", [BAD, "K1 done 1"]),
    (0, b"\xff\n\0\nK1\tcommit 7\nK\xc3\x84 commit 7\n? order 7\n", [BAD, BAD, BAD, BAD, "? none"]),
    (0, b"K1 field N1 A-1 0 100 40\nK9 use 7 N1 A-1 5", ["K1 done 1", BAD]),
]

FIRST = "K1 field N1 A-1 0 100 40\n? field N1 A-1\n"
FIRST_REPLIES = "K1 done 1\n? field N1 A-1 lo 0 hi 100 value 40 inf 40 sup 40\n"


def expect_io(run, out, want, of):
    """The run was ended by a stream that failed, behind this output."""
    found = (run.returncode, out, run.stderr)
    expect(found == (1, want.encode(), b"stockdesk: io\n"), f"{of}: {found}")


class Scripts(ProgramCase):
    def test_each_script_is_answered(self):
        for number, rows in enumerate(SCRIPTS):
            script, replies = "".join(line + "\n" for line, _ in rows), [reply for _, reply in rows]
            expect(done(self.program, ["run"], script) == replies, f"script {number} in memory")
            path = new_desk(self.program, self.folder, f"{number}.db")
            expect(done(self.program, ["run", path], script) == replies, f"script {number} on a file")

    def test_an_opening_changes_no_answer(self):
        """Each line is answered on a desk that was opened for it."""
        for number, rows in enumerate([TRANSFER, RELEASE, *FIRMS, OPEN_ORDERS, ENDED_ORDERS, REFUSED]):
            path = new_desk(self.program, self.folder, f"{number}.db")
            for line, reply in rows:
                found = done(self.program, ["run", path], line + "\n")
                expect(found == [reply], f"script {number}, {line}: {found}")

    def test_a_firm_transfer_keeps_its_articles_total(self):
        """From its making to its commit, the article's total is 40 + 5 behind each line."""
        path = new_desk(self.program, self.folder)
        for number, (line, reply) in enumerate(FIRM_TRANSFER, 1):
            expect(done(self.program, ["run", path], line + "\n") == [reply], f"{line}: another reply")
            if number > 1:
                total = done(self.program, ["article", path, "A-1"])[-1].split()
                expect(total == ["total", "45"], f"{line}: {total}")

    def test_a_line_that_is_none_is_one_bad_line(self):
        for count, behind, replies in FLOODS:
            run = subprocess.run(
                [self.program, "run"], input=b"A" * count + behind, capture_output=True, timeout=SECONDS, check=False
            )
            found = (run.returncode, run.stdout.decode().splitlines(), run.stderr)
            expect(found == (0, replies, b""), f"{count} bytes and {behind!r}: {found}")

    def test_a_script_is_answered_alike_in_any_pieces(self):
        """The pieces have 1 to 40 bytes; one read takes each."""
        script = "".join(line + "\n" for line, _ in LONG).encode()
        for size in range(1, 41):
            ours, theirs = socket.socketpair(socket.AF_UNIX, socket.SOCK_SEQPACKET)
            with subprocess.Popen([self.program, "run"], stdin=theirs, stdout=subprocess.PIPE) as process, ours:
                theirs.close()
                for at in range(0, len(script), size):
                    ours.sendall(script[at : at + size])
                ours.shutdown(socket.SHUT_WR)
                out, _ = process.communicate(timeout=SECONDS)
            expect(process.returncode == 0, f"{size} bytes: status {process.returncode}")
            expect(out.decode().splitlines() == [reply for _, reply in LONG], f"{size} bytes: {out}")

    def test_a_read_that_fails_ends_a_script(self):
        """The read fails behind each number of bytes: the lines that had ended by then are answered."""
        script = FIRST.encode()
        for size in range(len(script) + 1):
            ours, theirs = socket.socketpair()
            with theirs:
                # what is not read on this side when it closes is a fault of the other's next read
                theirs.sendall(b"x")
                ours.sendall(script[:size])
                ours.close()
                run = subprocess.run([self.program, "run"], stdin=theirs, capture_output=True, timeout=SECONDS, check=False)
            lines = FIRST_REPLIES.splitlines(keepends=True)
            expect_io(run, run.stdout, "".join(lines[: script[:size].count(b"\n")]), f"{size} bytes")

    def test_a_write_that_fails_ends_a_script(self):
        """The write fails behind each number of bytes; these are a beginning of the answer."""
        for size in range(len(FIRST_REPLIES)):
            with tempfile.TemporaryFile() as out:
                run = subprocess.run(
                    [self.program, "run"],
                    input=FIRST.encode(),
                    stdout=out,
                    stderr=subprocess.PIPE,
                    timeout=SECONDS,
                    check=False,
                    # what is over the limit is refused, and is no signal
                    restore_signals=False,
                    preexec_fn=lambda: resource.setrlimit(resource.RLIMIT_FSIZE, (size, size)),
                )
                out.seek(0)
                expect_io(run, out.read(), FIRST_REPLIES[:size], f"{size} bytes")

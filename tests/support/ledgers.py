"""A good ledger as the rows of its tables, what views show of it, and changes of these rows: some leave them good, and each of
the others breaks a single rule for them."""

# A ledger with orders of all kinds and states. The settled values of its fields, in their order, are 40 + 10 - 4 (a committed
# order has used 4), 5, 10 + 4 (an open firm order has used 4), 5 - 2 + 4, and 20 - 4. From the first field 35 may still be taken,
# and to the second 15 added; the firm order, which holds 9 on each of its two fields, may still add 5 to one and take 5 from the
# other.
GOOD = """desk,1,2,100,23
field,N1,A-1,0,100,40,46,11,46
field,N1,B-2,0,20,5,5,5,20
field,N1,D-4,0,30,10,14,14,19
field,N2,A-1,0,50,5,7,7,7
field,N2,C-3,0,30,20,16,11,16
move,4,N2,A-1,-2
move,10,N1,A-1,10
orders,7,0,120,0
orders,20,1,900,1
orders,21,0,130,2
orders,22,1,140,2
orders,23,0,90,0
line,7,1,N1,A-1,0,35,20
line,7,2,N1,B-2,1,15,0
line,20,1,N1,A-1,0,10,4
line,20,2,N2,A-1,1,10,4
line,21,1,N1,A-1,0,3,0
line,22,1,N1,A-1,0,6,2
line,22,2,N2,A-1,1,6,2
line,23,1,N2,C-3,0,9,4
line,23,2,N1,D-4,1,9,4
kept,K01,1,field N1 A-1 0 100 40
kept,K02,2,field N1 B-2 0 20 5
kept,K03,3,field N2 A-1 0 50 5
kept,K04,4,writeoff N2 A-1 2
kept,K05,5,transfer 20 900 A-1 N1 N2 10
kept,K06,6,use 20 N2 A-1 4
kept,K07,7,firm 20
kept,K08,8,commit 20
kept,K09,9,open 7 120 take N1 A-1 35 add N1 B-2 15
kept,K10,10,deliver N1 A-1 10
kept,K11,11,use 7 N1 A-1 20
kept,K12,12,open 21 130 take N1 A-1 3
kept,K13,13,abort 21
kept,K14,14,transfer 22 140 A-1 N1 N2 6
kept,K15,15,use 22 N2 A-1 2
kept,K16,16,abort 22
kept,K17,17,field N1 D-4 0 30 10
kept,K18,18,field N2 C-3 0 30 20
kept,K19,19,open 23 90 take N2 C-3 9 add N1 D-4 9
kept,K20,20,use 23 N2 C-3 4
kept,K21,21,firm 23
kept,K22,22,use 23 N1 D-4 4
kept,K23,23,expire 100
firm,20
firm,23"""

# lines of a script on it, each with its answer
SHOWN = [
    ("? field N1 A-1", "? field N1 A-1 lo 0 hi 100 value 46 inf 11 sup 46"),
    ("? field N1 B-2", "? field N1 B-2 lo 0 hi 20 value 5 inf 5 sup 20"),
    ("? field N2 A-1", "? field N2 A-1 lo 0 hi 50 value 7 inf 7 sup 7"),
    ("? field N2 B-2", "? none"),
    ("? field N1 D-4", "? field N1 D-4 lo 0 hi 30 value 14 inf 14 sup 19"),
    ("? field N2 C-3", "? field N2 C-3 lo 0 hi 30 value 16 inf 11 sup 16"),
    ("? order 7", "? order 7 plain 120 open take N1 A-1 35 20 add N1 B-2 15 0"),
    ("? order 20", "? order 20 transfer 900 committed take N1 A-1 10 4 add N2 A-1 10 4"),
    ("? order 21", "? order 21 plain 130 aborted take N1 A-1 3 0"),
    ("? order 22", "? order 22 transfer 140 aborted take N1 A-1 6 2 add N2 A-1 6 2"),
    ("? order 23", "? order 23 plain 90 firm take N2 C-3 9 4 add N1 D-4 9 4"),
    ("K10 deliver N1 A-1 10", "K10 done 10"),
    ("K10 deliver N1 A-1 11", "K10 refused 1 KeyReused 0"),
    ("K21 firm 23", "K21 done 21"),
    ("K24 expire 99", "K24 refused 18 ClockBack 0"),
    ("K24 firm 20", "K24 refused 8 Ended 0"),
    ("K24 firm 23", "K24 refused 19 Firm 0"),
    ("K24 abort 23", "K24 refused 19 Firm 0"),
    ("K24 commit 7", "K24 done 24"),
    ("? field N1 A-1", "? field N1 A-1 lo 0 hi 100 value 26 inf 26 sup 26"),
    ("K25 use 23 N2 C-3 1", "K25 done 25"),
    ("? field N2 C-3", "? field N2 C-3 lo 0 hi 30 value 15 inf 11 sup 15"),
    ("K26 release 23 N1 D-4 2", "K26 done 26"),
    ("? field N1 D-4", "? field N1 D-4 lo 0 hi 30 value 14 inf 14 sup 17"),
    ("K27 expire 4000000000", "K27 done 27"),
    ("? order 23", "? order 23 plain 90 firm take N2 C-3 9 5 add N1 D-4 7 4"),
    ("K28 commit 23", "K28 done 28"),
    ("? field N1 D-4", "? field N1 D-4 lo 0 hi 30 value 14 inf 14 sup 14"),
    ("? field N2 C-3", "? field N2 C-3 lo 0 hi 30 value 15 inf 15 sup 15"),
]

# parts of the good rows, each with what is put in its place; the rows are still good
STILL_GOOD = [
    ("desk,1,2,100,23", "desk,1,2,0,23"),
    ("desk,1,2,100,23", "desk,1,2,4000000000,23"),
    ("field,N1,A-1,0,100,40,46,11,46", "field,N1,A-1,11,46,40,46,11,46"),
    ("field,N1,B-2,0,20,5,5,5,20", "field,N1,B-2,5,20,5,5,5,20"),
    ("move,4,", "field,Z1234567,ABCDEFGHIJKLMNOP" + ",0" + ",1000000000" * 5 + "\nmove,4,"),
    ("move,4,", "field,Z1,A-1,0,1000000,0" + ",1000000" * 3 + "\nmove,3,Z1,A-1,1000000\nmove,4,"),
    ("move,4,N2,A-1,-2", "move,1,N2,A-1,-2"),
    ("move,10,N1,A-1,10", "move,23,N1,A-1,10"),
    ("orders,7,", "orders,1,0,0,2\nline,1,1,N1,A-1,0,0,0\norders,7,"),
    ("kept,K01,", "orders,999999999,0,4000000000,2\nline,999999999,1,N1,A-1,0,1000000000,1000000000\nkept,K01,"),
    ("kept,K23,23,expire 100", "kept,abcdefghijklmnopqrstuvwxyz-012345678,23,expire 4000000000"),
    ("kept,K15,15,use 22 N2 A-1 2\nkept,K16,16,", "kept,K15,16,use 22 N2 A-1 2\nkept,K16,15,"),
    ("line,21,1,N1,A-1,0,3,0", "line,21,1,N2,A-1,1,3,3"),
    # what a firm order has used does not come back, so a bound may be equal to the value
    ("field,N1,D-4,0,30,10,14,14,19", "field,N1,D-4,14,19,10,14,14,19"),
    ("field,N2,C-3,0,30,20,16,11,16", "field,N2,C-3,11,16,20,16,11,16"),
    # a committed order counts the same, whether it is firm or not
    ("firm,20\n", ""),
    (
        *("orders,23,0,90,0", "orders,23,0,90,1"),
        *("field,N1,D-4,0,30,10,14,14,19", "field,N1,D-4,0,30,10,14,14,14"),
        *("field,N2,C-3,0,30,20,16,11,16", "field,N2,C-3,0,30,20,16,16,16"),
    ),
    # of the two open orders the other one is firm
    (
        *("firm,20\nfirm,23", "firm,7"),
        *("field,N1,A-1,0,100,40,46,11,46", "field,N1,A-1,0,100,40,26,11,26"),
        *("field,N1,D-4,0,30,10,14,14,19", "field,N1,D-4,0,30,10,10,10,19"),
        *("field,N2,C-3,0,30,20,16,11,16", "field,N2,C-3,0,30,20,20,11,20"),
    ),
    # a firm order has used all that it holds on one field, and nothing on the other
    (
        *("line,23,1,N2,C-3,0,9,4\nline,23,2,N1,D-4,1,9,4", "line,23,1,N2,C-3,0,9,9\nline,23,2,N1,D-4,1,9,0"),
        *("field,N1,D-4,0,30,10,14,14,19", "field,N1,D-4,0,30,10,10,10,19"),
        *("field,N2,C-3,0,30,20,16,11,16", "field,N2,C-3,0,30,20,11,11,11"),
    ),
    # a firm transfer
    (
        *("firm,20\nfirm,23", "firm,20\nfirm,22\nfirm,23"),
        *("orders,22,1,140,2", "orders,22,1,140,0"),
        *("field,N1,A-1,0,100,40,46,11,46", "field,N1,A-1,0,100,40,44,5,44"),
        *("field,N2,A-1,0,50,5,7,7,7", "field,N2,A-1,0,50,5,9,9,13"),
    ),
]

# these and all that follow break a rule: there is no longer one row of `desk`, with the version
NO_DESK = [
    ("desk,1,2,100,23\n", ""),
    ("desk,1,2,100,23", "desk,1,2,100,23\ndesk,2,2,100,23"),
    ("desk,1,2,100,23", "desk,1,0,100,23"),
    # the tables are those of version 2
    ("desk,1,2,100,23", "desk,1,1,100,23"),
    ("desk,1,2,100,23", "desk,1,3,100,23"),
]

# here the desk, codes and ranges, moves, orders or kept keys are not allowed
BAD_ROWS = [
    ("desk,1,2,100,23", "desk,0,2,100,23"),
    ("desk,1,2,100,23", "desk,2,2,100,23"),
    ("desk,1,2,100,23", "desk,1,2,-1,23"),
    ("desk,1,2,100,23", "desk,1,2,4000000001,23"),
    # codes of fields
    ("move,4,", "field,,A-1,0,9,0,0,0,0\nmove,4,"),
    ("move,4,", "field,N23456789,A-1,0,9,0,0,0,0\nmove,4,"),
    ("move,4,", "field,n3,A-1,0,9,0,0,0,0\nmove,4,"),
    ("move,4,", "field,N_3,A-1,0,9,0,0,0,0\nmove,4,"),
    ("move,4,", "field,\u00d13,A-1,0,9,0,0,0,0\nmove,4,"),
    ("move,4,", "field,N2,,0,9,0,0,0,0\nmove,4,"),
    ("move,4,", "field,N2,-A,0,9,0,0,0,0\nmove,4,"),
    ("move,4,", "field,N2,ABCDEFGHIJKLMNOPQ,0,9,0,0,0,0\nmove,4,"),
    ("move,4,", "field,N2,A_1,0,9,0,0,0,0\nmove,4,"),
    # numbers of fields
    ("field,N1,A-1,0,100,40,46,11,46", "field,N1,A-1,-1,100,40,46,11,46"),
    ("field,N1,A-1,0,100,40,46,11,46", "field,N1,A-1,0,1000000001,40,46,11,46"),
    ("move,4,", "field,Z1,A-1,0,9,-1,0,0,0\nmove,3,Z1,A-1,1\nmove,4,"),
    ("move,4,", "field,Z1,A-1,0,1000000000,1000000001" + ",1000000000" * 3 + "\nmove,3,Z1,A-1,-1\nmove,4,"),
    # moves
    ("field,N2,A-1,0,50,5,7,7,7", "field,N2,A-1,0,50,5,9,9,9", "move,4,N2,A-1,-2", "move,4,N2,A-1,0"),
    ("move,4,", "field,Z1,A-1,0,1000000000,0" + ",1000001" * 3 + "\nmove,3,Z1,A-1,1000001\nmove,4,"),
    ("move,4,", "field,Z1,A-1,0,1000000000,1000001,0,0,0\nmove,3,Z1,A-1,-1000001\nmove,4,"),
    ("move,4,N2,A-1,-2", "move,0,N2,A-1,-2"),
    ("move,4,N2,A-1,-2", "move,-1,N2,A-1,-2"),
    ("move,10,N1,A-1,10", "move,24,N1,A-1,10"),
    ("field,N2,A-1,0,50,5,7,7,7", "field,N2,A-1,0,50,5,9,9,9", "move,4,N2,A-1,-2", "move,4,N3,A-1,-2"),
    ("field,N2,A-1,0,50,5,7,7,7", "field,N2,A-1,0,50,5,9,9,9", "move,4,N2,A-1,-2", "move,4,N2,A-2,-2"),
    ("field,N2,A-1,0,50,5,7,7,7", "field,N2,A-1,0,50,5,9,9,9", "move,4,N2,A-1,-2", "move,4,n2,A-1,-2"),
    # orders
    ("orders,7,", "orders,0,0,130,2\nline,0,1,N1,A-1,0,0,0\norders,7,"),
    ("orders,7,", "orders,-7,0,130,2\nline,-7,1,N1,A-1,0,0,0\norders,7,"),
    ("orders,7,", "orders,1000000000,0,130,2\nline,1000000000,1,N1,A-1,0,0,0\norders,7,"),
    ("orders,21,0,130,2", "orders,21,3,130,2"),
    ("orders,21,0,130,2", "orders,21,-1,130,2"),
    ("orders,21,0,130,2", "orders,21,2,130,2"),
    ("orders,21,0,130,2", "orders,21,0,130,3"),
    ("orders,21,0,130,2", "orders,21,0,130,-1"),
    ("orders,21,0,130,2", "orders,21,0,-1,2"),
    ("orders,21,0,130,2", "orders,21,0,4000000001,2"),
    # kept keys and their places
    ("desk,1,2,100,23", "desk,1,2,100,22"),
    ("desk,1,2,100,23", "desk,1,2,100,24"),
    ("\nkept,K23,23,expire 100", ""),
    ("kept,K23,23,expire 100", "kept,K23,22,expire 100"),
    ("kept,K23,23,expire 100", "kept,K23,24,expire 100"),
    ("kept,K23,23,expire 100", "kept,K23,0,expire 100"),
    ("kept,K01,1,", "kept,,1,"),
    ("kept,K16,16,abort 22", "kept,K_1,16,abort 22"),
    ("kept,K16,16,abort 22", "kept,K160123456789012345678901234567890123,16,abort 22"),
    # spellings of commands
    ("kept,K16,16,abort 22", "kept,K16,16,"),
    ("kept,K16,16,abort 22", "kept,K16,16,abort 022"),
    ("kept,K16,16,abort 22", "kept,K16,16,abort  22"),
    ("kept,K16,16,abort 22", "kept,K16,16,abort 22 "),
    ("kept,K16,16,abort 22", "kept,K16,16,Abort 22"),
    ("kept,K16,16,abort 22", "kept,K16,16,deliver N1 A-1 1000001"),
    ("kept,K16,16,abort 22", "kept,K16,16,K16 abort 22"),
    ("kept,K21,21,firm 23", "kept,K21,21,firm 023"),
    ("kept,K21,21,firm 23", "kept,K21,21,firm"),
]

# here lines, and the numbers of fields that follow from them
BAD_LINES = [
    ("line,7,1,", "orders,24,0,130,2\nline,7,1,"),
    ("kept,K01,", "line,24,1,N1,A-1,0,0,0\nkept,K01,"),
    ("line,21,1,N1,A-1,0,3,0", "line,21,0,N1,A-1,0,3,0"),
    ("line,21,1,N1,A-1,0,3,0", "line,21,2,N1,A-1,0,3,0"),
    ("line,7,2,N1,B-2,1,15,0", "line,7,3,N1,B-2,1,15,0"),
    ("line,21,1,N1,A-1,0,3,0", "line,21,1,N3,A-1,0,3,0"),
    ("line,21,1,N1,A-1,0,3,0", "line,21,1,N1,C-3,0,3,0"),
    ("line,21,1,N1,A-1,0,3,0", "line,21,1,n1,A-1,0,3,0"),
    ("line,22,1,", "line,21,2,N1,A-1,0,0,0\nline,22,1,"),
    ("line,22,1,", "line,21,2,N1,A-1,1,0,0\nline,22,1,"),
    ("line,21,1,N1,A-1,0,3,0", "line,21,1,N1,A-1,3,3,0"),
    ("line,21,1,N1,A-1,0,3,0", "line,21,1,N1,A-1,-1,3,0"),
    ("line,21,1,N1,A-1,0,3,0", "line,21,1,N1,A-1,2,3,0"),
    ("line,21,1,N1,A-1,0,3,0", "line,21,1,N1,A-1,0,3,4"),
    ("line,21,1,N1,A-1,0,3,0", "line,21,1,N1,A-1,0,3,-1"),
    ("line,21,1,N1,A-1,0,3,0", "line,21,1,N1,A-1,0,-1,-1"),
    ("line,21,1,N1,A-1,0,3,0", "line,21,1,N1,A-1,0,1000000001,0"),
    # transfers
    ("\nline,22,2,N2,A-1,1,6,2", ""),
    ("kept,K01,", "line,22,3,N1,B-2,1,6,2\nkept,K01,"),
    ("line,22,1,N1,A-1,0,6,2\nline,22,2,N2,A-1,1,6,2", "line,22,1,N1,A-1,1,6,2\nline,22,2,N2,A-1,0,6,2"),
    ("line,22,2,N2,A-1,1,6,2", "line,22,2,N2,A-1,0,6,2"),
    ("line,22,1,N1,A-1,0,6,2", "line,22,1,N1,A-1,1,6,2"),
    ("line,22,2,N2,A-1,1,6,2", "line,22,2,N1,B-2,1,6,2"),
    ("line,22,2,N2,A-1,1,6,2", "line,22,2,N2,A-1,1,7,2"),
    ("line,22,2,N2,A-1,1,6,2", "line,22,2,N2,A-1,1,6,1"),
    # bounds that some outcome of the open orders goes beyond
    ("field,N1,A-1,0,100,40,46,11,46", "field,N1,A-1,12,100,40,46,11,46"),
    ("field,N1,A-1,0,100,40,46,11,46", "field,N1,A-1,0,45,40,46,11,46"),
    ("field,N1,B-2,0,20,5,5,5,20", "field,N1,B-2,0,19,5,5,5,20"),
    ("field,N1,B-2,0,20,5,5,5,20", "field,N1,B-2,6,20,5,5,5,20"),
    ("field,N2,A-1,0,50,5,7,7,7", "field,N2,A-1,0,6,5,7,7,7"),
    # numbers that are not those of the moves and lines
    ("field,N1,A-1,0,100,40,46,11,46", "field,N1,A-1,0,100,40,47,11,46"),
    ("field,N1,A-1,0,100,40,46,11,46", "field,N1,A-1,0,100,40,45,11,46"),
    ("field,N1,A-1,0,100,40,46,11,46", "field,N1,A-1,0,100,40,46,12,46"),
    ("field,N1,A-1,0,100,40,46,11,46", "field,N1,A-1,0,100,40,46,10,46"),
    ("field,N1,A-1,0,100,40,46,11,46", "field,N1,A-1,0,100,40,46,11,47"),
    ("field,N1,A-1,0,100,40,46,11,46", "field,N1,A-1,0,100,40,46,11,45"),
    ("field,N1,A-1,0,100,40,46,11,46", "field,N1,A-1,0,100,41,46,11,46"),
    # what an open order has used is not settled, and what a committed order has used is
    ("field,N1,A-1,0,100,40,46,11,46", "field,N1,A-1,0,100,40,26,11,26"),
    ("field,N1,B-2,0,20,5,5,5,20", "field,N1,B-2,0,20,5,5,5,19"),
    ("field,N2,A-1,0,50,5,7,7,7", "field,N2,A-1,0,50,5,3,3,3"),
    ("move,10,N1,A-1,10", "move,10,N1,A-1,11"),
    ("orders,20,1,900,1", "orders,20,1,900,2", "firm,20\n", ""),
]

# here rows of firm orders, and the numbers of fields that follow from them
BAD_FIRMS = [
    # an order that is aborted, and has used nothing or something
    ("firm,23", "firm,21\nfirm,23"),
    ("firm,23", "firm,22\nfirm,23"),
    (
        *("orders,23,0,90,0", "orders,23,0,90,2"),
        *("field,N1,D-4,0,30,10,14,14,19", "field,N1,D-4,0,30,10,10,10,10"),
        *("field,N2,C-3,0,30,20,16,11,16", "field,N2,C-3,0,30,20,20,20,20"),
    ),
    # a number that no order has, and numbers that no order can have
    ("firm,23", "firm,8\nfirm,23"),
    ("firm,23", "firm,23\nfirm,999999999"),
    ("firm,20", "firm,0\nfirm,20"),
    ("firm,20", "firm,-20\nfirm,20"),
    ("firm,23", "firm,23\nfirm,1000000000"),
    # an open order that becomes firm, or is no longer firm, by these rows alone
    ("\nfirm,23", ""),
    ("firm,20", "firm,7\nfirm,20"),
    # what a firm order has used, and what it holds beyond that
    ("field,N1,D-4,0,30,10,14,14,19", "field,N1,D-4,0,30,10,10,10,19"),
    ("field,N1,D-4,0,30,10,14,14,19", "field,N1,D-4,0,30,10,14,10,19"),
    ("field,N1,D-4,0,30,10,14,14,19", "field,N1,D-4,0,30,10,14,14,23"),
    ("field,N1,D-4,0,30,10,14,14,19", "field,N1,D-4,0,30,10,13,13,19"),
    ("field,N1,D-4,0,30,10,14,14,19", "field,N1,D-4,0,30,10,14,13,19"),
    ("field,N1,D-4,0,30,10,14,14,19", "field,N1,D-4,0,30,10,14,14,18"),
    ("field,N1,D-4,0,30,10,14,14,19", "field,N1,D-4,0,30,11,14,14,19"),
    ("field,N2,C-3,0,30,20,16,11,16", "field,N2,C-3,0,30,20,20,11,20"),
    ("field,N2,C-3,0,30,20,16,11,16", "field,N2,C-3,0,30,20,16,11,20"),
    ("field,N2,C-3,0,30,20,16,11,16", "field,N2,C-3,0,30,20,16,7,16"),
    ("field,N2,C-3,0,30,20,16,11,16", "field,N2,C-3,0,30,20,17,11,17"),
    ("field,N2,C-3,0,30,20,16,11,16", "field,N2,C-3,0,30,20,16,12,16"),
    ("field,N2,C-3,0,30,20,16,11,16", "field,N2,C-3,0,30,20,16,11,17"),
    ("line,23,1,N2,C-3,0,9,4", "line,23,1,N2,C-3,0,9,3"),
    ("line,23,1,N2,C-3,0,9,4", "line,23,1,N2,C-3,0,8,4"),
    (
        *("line,23,2,N1,D-4,1,9,4", "line,23,2,N1,D-4,1,9,10"),
        *("field,N1,D-4,0,30,10,14,14,19", "field,N1,D-4,0,30,10,20,20,20"),
    ),
    # bounds that some outcome of the open orders goes beyond
    ("field,N1,D-4,0,30,10,14,14,19", "field,N1,D-4,0,18,10,14,14,19"),
    ("field,N1,D-4,0,30,10,14,14,19", "field,N1,D-4,15,30,10,14,14,19"),
    ("field,N2,C-3,0,30,20,16,11,16", "field,N2,C-3,0,15,20,16,11,16"),
    ("field,N2,C-3,0,30,20,16,11,16", "field,N2,C-3,12,30,20,16,11,16"),
]

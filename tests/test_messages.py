"""Tests of the built program that serves messages: what each is answered, also where it comes in pieces; what a stopped desk
answers; heads that are none, bodies that are cut, and both at their limits; and a service to which no connection comes."""

import contextlib
import resource
import subprocess

from support.cases import ProgramCase
from support.messages import answer, message
from support.programs import SECONDS, done, expect, expect_end, new_desk
from support.service import NOT_CLIENTS, NOT_PLACES, NOT_TOGETHER, TOGETHER, Service, answered

COMMANDS = "POST /v1/commands"
FIRST = '{"command":"field N1 A-1 0 100 40","key":"K1"}'
NONE = '{"error":"none"}'
STOPPED = '{"error":"stopped"}'
UNREADABLE = '{"error":"message"}'
FIRM = '{"code":19,"line":0,"refused":"Firm"}'
BAD_COMMAND = '{"code":20,"line":0,"refused":"BadCommand"}'
NO_ORDERS = '{"orders":[]}'
ORDER_8_LISTED = (
    '{"orders":[{"kind":"plain","lines":[{"article":"A-1","branch":"N1","held":35,"used":0,"way":"take"}],'
    '"number":8,"state":"open","until":120}]}'
)


# a method and a target, a body, and the status and the body of the answer, on one desk
WORKED = [
    (COMMANDS, FIRST, 200, '{"place":1}'),
    (
        "GET /v1/fields/N1/A-1",
        "",
        200,
        '{"article":"A-1","branch":"N1","hi":100,"inf":40,"lo":0,"sup":40,"value":40}',
    ),
    ("GET /v1/orders/7", "", 404, NONE),
    (
        COMMANDS,
        '{"command":"open 7 120 take N1 A-1 41","key":"K2"}',
        409,
        '{"code":13,"line":1,"refused":"TooLittle"}',
    ),
    (COMMANDS, '{"command":"commit 07","key":"K3"}', 400, BAD_COMMAND),
    # a key that comes again
    (COMMANDS, FIRST, 200, '{"place":1}'),
    (
        "GET /v1/sheets/N1",
        "",
        200,
        "A-1                       0        100         40         40         40\ntotal                        40\n",
    ),
    ("GET /v1/sheets/N9", "", 200, "total                         0\n"),
    (
        "GET /v1/articles/A-1",
        "",
        200,
        "N1                        0        100         40         40         40\ntotal                        40\n",
    ),
    ("GET /v1/articles/B-9", "", 200, "total                         0\n"),
    ("GET /v1/branches", "", 200, '{"branches":["N1"]}'),
    ("GET /v1/desk", "", 200, '{"clock":0,"fields":1,"open":0,"orders":0,"places":1}'),
    ("GET /v1/keys/K1", "", 200, '{"command":"field N1 A-1 0 100 40","place":1}'),
    # a refused command's key is not kept
    ("GET /v1/keys/K2", "", 404, NONE),
    ("GET /v1/open/0", "", 200, NO_ORDERS),
    ("GET /v1/due/4000000000", "", 200, NO_ORDERS),
    (COMMANDS, '{"command":"open 8 120 take N1 A-1 35","key":"K4"}', 200, '{"place":2}'),
    (
        "GET /v1/orders/8",
        "",
        200,
        '{"kind":"plain","lines":[{"article":"A-1","branch":"N1","held":35,"used":0,"way":"take"}],'
        '"number":8,"state":"open","until":120}',
    ),
    # an order is listed above each smaller number, and is due from its moment on
    ("GET /v1/open/0", "", 200, ORDER_8_LISTED),
    ("GET /v1/open/7", "", 200, ORDER_8_LISTED),
    ("GET /v1/open/8", "", 200, NO_ORDERS),
    ("GET /v1/open/999999999", "", 200, NO_ORDERS),
    ("GET /v1/due/119", "", 200, NO_ORDERS),
    ("GET /v1/due/120", "", 200, ORDER_8_LISTED),
    # an order that is firm is shown so, and is not aborted
    (COMMANDS, '{"command":"firm 8","key":"K5"}', 200, '{"place":3}'),
    (
        "GET /v1/orders/8",
        "",
        200,
        '{"kind":"plain","lines":[{"article":"A-1","branch":"N1","held":35,"used":0,"way":"take"}],'
        '"number":8,"state":"firm","until":120}',
    ),
    ("GET /v1/open/0", "", 200, ORDER_8_LISTED.replace('"open"', '"firm"')),
    ("GET /v1/due/4000000000", "", 200, NO_ORDERS),
    (COMMANDS, '{"command":"abort 8","key":"K6"}', 409, FIRM),
    (COMMANDS, '{"command":"firm 8","key":"K6"}', 409, FIRM),
    (COMMANDS, '{"command":"more 8 take N1 A-1 1","key":"K6"}', 409, FIRM),
    (COMMANDS, '{"command":"firm 08","key":"K6"}', 400, BAD_COMMAND),
    (COMMANDS, '{"command":"use 8 N1 A-1 12","key":"K6"}', 200, '{"place":4}'),
    ("GET /v1/desk", "", 200, '{"clock":0,"fields":1,"open":1,"orders":1,"places":4}'),
    ("GET /v1/keys/K6", "", 200, '{"command":"use 8 N1 A-1 12","place":4}'),
    # the body of a view is not looked at
    (
        "GET /v1/fields/N1/A-1",
        FIRST,
        200,
        '{"article":"A-1","branch":"N1","hi":100,"inf":5,"lo":0,"sup":28,"value":28}',
    ),
    # targets that lead nowhere, and other methods
    ("GET /v1/sheets/n1", "", 404, NONE),
    ("PUT /v1/commands", FIRST, 404, NONE),
    ("GET /v1/commands", "", 404, NONE),
    ("POST /v1/fields/N1/A-1", FIRST, 404, NONE),
    ("GET /v1/fields/N1/A-1?x=1", "", 404, NONE),
    ("GET /v1/fields/N1/B-9", "", 404, NONE),
    ("GET /v1/fields/N1", "", 404, NONE),
    ("GET /v1/orders/08", "", 404, NONE),
    ("GET /v1/orders/0", "", 404, NONE),
    ("GET /v1/sheets/", "", 404, NONE),
    ("GET /v1/articles/a-1", "", 404, NONE),
    ("GET /v1/articles/", "", 404, NONE),
    ("GET /v1/branches/", "", 404, NONE),
    ("GET /v1/branches/N1", "", 404, NONE),
    ("GET /v1/desk/", "", 404, NONE),
    ("POST /v1/desk", "", 404, NONE),
    ("GET /v1/keys/", "", 404, NONE),
    ("GET /v1/keys/K%31", "", 404, NONE),
    (f"GET /v1/keys/{'K' * 37}", "", 404, NONE),
    ("GET /v1/open/", "", 404, NONE),
    ("GET /v1/open/00", "", 404, NONE),
    ("GET /v1/open/07", "", 404, NONE),
    ("GET /v1/open/1000000000", "", 404, NONE),
    ("GET /v1/open/-1", "", 404, NONE),
    ("GET /v1/due/", "", 404, NONE),
    ("GET /v1/due/00", "", 404, NONE),
    ("GET /v1/due/4000000001", "", 404, NONE),
    ("POST /v1/open/0", "", 404, NONE),
    ("GET /", "", 404, NONE),
    # bodies that are no commands
    (COMMANDS, "", 400, BAD_COMMAND),
    (COMMANDS, '{"command":"field N1 A-1 0 100 40","key":"K1","more":1}', 400, BAD_COMMAND),
    # the last of two members counts, and an escape stands for its character
    (COMMANDS, '{"command":"no","command":"commit\\u00208","key":"K7"}', 200, '{"place":5}'),
    (
        "GET /v1/orders/8",
        "",
        200,
        '{"kind":"plain","lines":[{"article":"A-1","branch":"N1","held":35,"used":12,"way":"take"}],'
        '"number":8,"state":"committed","until":120}',
    ),
    ("GET /v1/open/0", "", 200, NO_ORDERS),
    (COMMANDS, '{"command":"commit 8","key":5}', 400, BAD_COMMAND),
    # branches by their bytes, each once; orders that ended are counted among all
    (COMMANDS, '{"command":"field S1 A-1 0 9 9","key":"K8"}', 200, '{"place":6}'),
    (COMMANDS, '{"command":"field A B-1 0 9 9","key":"K9"}', 200, '{"place":7}'),
    (COMMANDS, '{"command":"field N1 B-1 0 9 9","key":"K10"}', 200, '{"place":8}'),
    (COMMANDS, '{"command":"expire 60","key":"K11"}', 200, '{"place":9}'),
    ("GET /v1/branches", "", 200, '{"branches":["A","N1","S1"]}'),
    ("GET /v1/desk", "", 200, '{"clock":60,"fields":4,"open":0,"orders":1,"places":9}'),
]

# messages on a desk that is stopped
ON_A_STOPPED_DESK = [
    (COMMANDS, FIRST, 503, STOPPED),
    ("GET /v1/fields/N1/A-1", "", 503, STOPPED),
    ("GET /v1/orders/7", "", 503, STOPPED),
    ("GET /v1/sheets/N1", "", 503, STOPPED),
    ("GET /v1/articles/A-1", "", 503, STOPPED),
    ("GET /v1/branches", "", 503, STOPPED),
    ("GET /v1/desk", "", 503, STOPPED),
    ("GET /v1/keys/K1", "", 503, STOPPED),
    ("GET /v1/open/0", "", 503, STOPPED),
    ("GET /v1/due/0", "", 503, STOPPED),
    ("GET /v1/keys/", "", 404, NONE),
    ("GET /v1/sheets/n1", "", 404, NONE),
    (COMMANDS, "[]", 400, BAD_COMMAND),
    ("PUT /v1/commands", FIRST, 404, NONE),
]

# heads that are none, or are of no message; behind each stands the body of the first command, which has 46 bytes
NO_HEADS = [
    b"POST /v1/commands HTTP/1.1\r\nContent-Length: 16385\r\n\r\n",
    b"POST /v1/commands HTTP/1.1\r\nContent-Length: 046\r\n\r\n",
    b"POST /v1/commands HTTP/1.1\r\nContent-Length: +46\r\n\r\n",
    b"POST /v1/commands HTTP/1.1\r\nContent-Length: -46\r\n\r\n",
    b"POST /v1/commands HTTP/1.1\r\nContent-Length: 4 6\r\n\r\n",
    b"POST /v1/commands HTTP/1.1\r\nContent-Length: 46, 46\r\n\r\n",
    b"POST /v1/commands HTTP/1.1\r\nContent-Length: 0x2E\r\n\r\n",
    # 2^64 + 46
    b"POST /v1/commands HTTP/1.1\r\nContent-Length: 18446744073709551662\r\n\r\n",
    b"POST /v1/commands HTTP/1.1\r\nContent-Length: \r\n\r\n",
    b"POST /v1/commands HTTP/1.1\r\nContent-Length:\r\n\r\n",
    b"POST /v1/commands HTTP/1.1\r\nContent-Length: 46\r\ncontent-length: 46\r\n\r\n",
    b"POST /v1/commands HTTP/1.1\r\nContent-Length: 46\r\nA: b\r\nCONTENT-LENGTH: 0\r\n\r\n",
    b"POST /v1/commands HTTP/1.1\r\nTransfer-Encoding: identity\r\nContent-Length: 46\r\n\r\n",
    b"POST /v1/commands HTTP/1.1\r\nContent-Length: 46\r\ntransfer-encoding: chunked\r\n\r\n",
    b"POST /v1/commands HTTP/1.0\r\nContent-Length: 46\r\n\r\n",
    b"POST /v1/commands HTTP/1.1\r\nContent-Length : 46\r\n\r\n",
    b"POST /v1/commands HTTP/1.1\r\nContent-Length 46\r\n\r\n",
    b"POST /v1/commands HTTP/2\r\nContent-Length: 46\r\n\r\n",
    b"POST  /v1/commands HTTP/1.1\r\nContent-Length: 46\r\n\r\n",
    b"POST /v1/\xff HTTP/1.1\r\nContent-Length: 46\r\n\r\n",
    b"\x00",
    b"",
]

# streams that end within a message
CUT = [
    b'POST /v1/commands HTTP/1.1\r\nContent-Length: 46\r\n\r\n{"command":"field N1 A-1 0 100 40","key":"K1"',
    b'POST /v1/commands HTTP/1.1\r\nContent-Length: 47\r\n\r\n{"command":"field N1 A-1 0 100 40","key":"K1"}',
    b"POST /v1/commands HTTP/1.1\r\nContent-Length: 46\r\n",
    b"G",
    b"\r\n",
]

# what stands behind a message, and its answer
BEHIND = b"GET /v1/orders/7 HTTP/1.1\r\n\r\n"

# words that are no port, or no number of connections
NO_NUMBERS = [
    ("65536", "1"),
    ("00", "1"),
    ("+1", "1"),
    ("0x1", "1"),
    ("4294967296", "1"),
    ("0", "0"),
    ("0", "01"),
    ("0", "1000001"),
    ("0", "one"),
    ("0", "1 "),
]

# options of a service of many connections at once that are no numbers, or out of their range
NO_TOGETHER = [
    *[["--together", number] for number in NOT_TOGETHER],
    *[["--together", "1", "--clients", number] for number in NOT_CLIENTS],
    *[["--together", "1", "--places", number] for number in NOT_PLACES],
]


def messages_of(rows):
    return b"".join(message(line, body) for line, body, _, _ in rows)


def answers_of(rows):
    return b"".join(answer(status, body) for _, _, status, body in rows)


def expect_answers(port, stream, want, size=None):
    """This is answered to a connection that brings these bytes, so many at a time."""
    pieces = [stream[at : at + size] for at in range(0, len(stream), size)] if size else [stream]
    found = answered(port, pieces)
    expect(found == want, f"{stream[:200]}: {found} and not {want}")


def expect_each(program, folder, options, streams):
    """Each stream, on a connection of its own and a desk without fields, is answered so; and no field is made."""
    path = new_desk(program, folder)
    service = Service(program, path, len(streams), options=options)
    for stream, want in streams:
        expect_answers(service.port, stream, want)
    service.expect_end()
    expect(done(program, ["run", path], "? field N1 A-1\n") == ["? none"], "a field was made")


def head_of_lines(count):
    return b"GET /v1/orders/7 HTTP/1.1\r\n" + b"A: b\r\n" * count + b"\r\n"


def head_of_bytes(count):
    head = b"GET /v1/orders/7 HTTP/1.1\r\nA: \r\n\r\n"
    return head.replace(b"A: ", b"A: " + b"b" * (count - len(head)))


def body_of(count, bracket, filling, rest):
    """A message with a body of so many bytes: a bracket, then as many bytes of one kind as there is room for, and then the
    rest."""
    body = bracket + filling * (count - len(bracket + rest)) + rest
    return b"POST /v1/commands HTTP/1.1\r\nContent-Length: %d\r\n\r\n%b" % (count, body)


class Messages(ProgramCase):
    """Tests of a service with these options."""

    options: list[str] = []
    # the same, where several commands need several commits
    few = options

    def test_messages_are_answered_in_any_pieces(self):
        for size in [*range(1, 21), 512, None]:
            service = Service(self.program, new_desk(self.program, self.folder, f"{size}.db"), 1, options=self.options)
            expect_answers(service.port, messages_of(WORKED), answers_of(WORKED), size)
            service.expect_end()

    def test_a_stopped_desk_answers_so(self):
        """On one connection, a command finds that the file may not grow; no other connection is served behind that one."""
        path = new_desk(self.program, self.folder)
        done(self.program, ["run", path], "K1 field N1 A-1 0 100000 0\n")
        delivered = "".join(f"K{n} deliver N1 A-1 1\n" for n in range(2, 400))
        service = Service(self.program, path, 2, limit=524_288, options=self.few)
        rows = [(COMMANDS, f'{{"command":"deliver N1 A-1 1","key":"K{n}"}}', 200, f'{{"place":{n}}}') for n in range(2, 400)]
        found = answered(service.port, [messages_of(rows) + messages_of(ON_A_STOPPED_DESK)])
        # as many are done as find room, and none behind one that does not
        told = found.count(b" 200 OK\r\n")
        rows = rows[:told] + [(line, body, 503, STOPPED) for line, body, _, _ in rows[told:]] + ON_A_STOPPED_DESK
        self.expect_told(found, answers_of(rows), answers_of(rows[: told + 1]))
        service.expect_end((1, b"", b"stockdesk: store\n"))
        replies = done(self.program, ["run", path], delivered)
        expect(0 < told < 398 and replies[:told] == [f"K{n} done {n}" for n in range(2, told + 2)], f"{told} were done")

    def expect_told(self, found, want, least):
        """All answers are those of a stopped desk."""
        expect(found == want, f"{found[-2000:]}")

    def test_what_is_unreadable_is_answered_once(self):
        """Nothing behind it is answered or done."""
        streams = [(head + FIRST.encode() + BEHIND, answer(400, UNREADABLE)) for head in NO_HEADS]
        expect_each(self.program, self.folder, self.options, streams + [(stream, answer(400, UNREADABLE)) for stream in CUT])

    def test_a_head_has_its_limits(self):
        """At the limit a message is answered, and so is what stands behind it; over the limit neither is."""
        streams = [(head + BEHIND, answer(404, NONE) * 2) for head in [head_of_lines(32), head_of_bytes(8_192)]]
        streams += [(head + BEHIND, answer(400, UNREADABLE)) for head in [head_of_lines(33), head_of_bytes(8_193)]]
        expect_each(self.program, self.folder, self.options, streams)

    def test_a_connection_goes_on_behind_a_body(self):
        """The bodies are long, deep, or no command for another reason."""
        third = b'"command":"field N1 A-1 0 100 40","key":"K1","more":1}'
        bodies = [
            body_of(200, b"[", b"[", b""),
            body_of(16_384, b"[", b"[", b""),
            body_of(55, b"{", b" ", third),
            body_of(16_384, b"{", b"\xff", FIRST[1:].encode()),
        ]
        streams = [(body + BEHIND, answer(400, BAD_COMMAND) + answer(404, NONE)) for body in bodies]
        streams.append((body_of(16_385, b"{", b" ", FIRST[1:].encode()) + BEHIND, answer(400, UNREADABLE)))
        expect_each(self.program, self.folder, self.options, streams)

    def test_a_long_body_may_be_a_command(self):
        service = Service(self.program, new_desk(self.program, self.folder), 2, options=self.options)
        for count in [46, 16_384]:
            stream = body_of(count, b"{", b" ", FIRST[1:].encode()) + BEHIND
            expect_answers(service.port, stream, answer(200, '{"place":1}') + answer(404, NONE))
        service.expect_end()

    def test_a_service_that_cannot_begin_is_told(self):
        path = new_desk(self.program, self.folder)
        for port, connections in NO_NUMBERS:
            words = ["serve", path, "--port", port, "--connections", connections, *self.options]
            expect_end(self.program, words, (2, b"", b"stockdesk: usage\n"))
        words = ["serve", f"{path}.not", "--port", "0", "--connections", "1", *self.options]
        expect_end(self.program, words, (3, b"", b"stockdesk: not a desk\n"))


class MessagesTogether(Messages):
    """Tests of a service of many connections at once."""

    options = TOGETHER
    few = ["--together", "5"]

    def expect_told(self, found, want, least):
        """The service ends some turns behind the one that stopped the desk: at least that is answered, and perhaps more."""
        expect(want.startswith(found) and found.startswith(least), f"{found[-2000:]}")

    def test_numbers_of_those_together_have_their_range(self):
        path = new_desk(self.program, self.folder)
        for options in NO_TOGETHER:
            words = ["serve", path, "--port", "0", "--connections", "1", *options]
            expect_end(self.program, words, (2, b"", b"stockdesk: usage\n"))


class NoConnection(ProgramCase):
    def test_a_service_to_which_no_connection_comes(self):
        """The service may open no file more than those of the desk and the socket on which it listens."""
        path, ends = new_desk(self.program, self.folder), set()
        for limit in range(4, 9):
            with subprocess.Popen(
                [self.program, "serve", path, "--port", "0", "--connections", "1"],
                stdin=subprocess.DEVNULL,
                stdout=subprocess.PIPE,
                stderr=subprocess.PIPE,
                preexec_fn=lambda: resource.setrlimit(resource.RLIMIT_NOFILE, (limit, limit)),
            ) as service:
                told = service.stdout.readline()
                # where a connection is taken it ends at once
                with contextlib.suppress(OSError, IndexError):
                    answered(int(told.split()[1]), [b""])
                out, errors = service.communicate(timeout=SECONDS)
                ends.add((bool(told), out, service.returncode, errors))
        expect((True, b"", 1, b"stockdesk: io\n") in ends, f"{ends}")

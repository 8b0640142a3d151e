"""Tests of the built program that serves many connections at once, to crowds: 2,000 clients, very many messages, and clients that
are silent, slow, gone, or too many, beside which the others are served as ever."""

import random
import resource
import select
import socket
import time
from collections.abc import Sequence

from support.asks import SOME_FIELDS, ask_of
from support.cases import ProgramCase
from support.chance import SEED
from support.clients import Client, connected, play, reset
from support.message_inputs import load
from support.messages import answer_of
from support.one_order import Order, desk_with, expect_kept, rules_behind, told_order
from support.processes import more_files, resident, seconds_of
from support.programs import done, expect, note
from support.service import TOGETHER, Limit, Service
from support.tables import sqlite3

CROWD = 2_000
# how many clients there are, how many messages each sends at once, and how often
CLIENTS, BATCH, BATCHES = 50, 100, 200
FIELD: Order = [("F", "field N1 A-1 0 1000000000 40")]
# by how many KiB the resident memory may grow
SPARE = 256
# how many milliseconds an answer may take, as the median of several
SOON = 50
# a branch with a long sheet, how many clients do not read it, and how often each asks for it
LARGE: Order = [(f"S{number}", f"field N2 B-{number} 0 9 9") for number in range(2_000)]
UNREAD, SHEETS = 20, 20
# how many files a service may have open, and how many clients come to it
FEW_FILES, FILERS = 24, 40

VIEW = ask_of("? field N1 A-1").text
SHOWN = answer_of("? field N1 A-1 lo 0 hi 1000000000 value 40 inf 40 sup 40")
# messages by which nothing changes: a command that was done before, one that is refused, views, and what is no message
UNCHANGING = ["F field N1 A-1 0 1000000000 40", "K writeoff N1 A-1 41", "? field N1 A-1", "? sheet N1", "K  commit 7"]
COMMAND = ask_of("HALF deliver N1 A-1 7").text


def exactly(connection: socket.socket, size: int) -> bytes:
    """So many bytes that come, or those up to the end."""
    found = b""
    while len(found) < size and (part := connection.recv(size - len(found))):
        found += part
    return found


def expect_view(connection: socket.socket, of: str) -> float:
    """The one field is shown as it is. Returns after how many milliseconds."""
    began = time.monotonic()
    connection.sendall(VIEW)
    found = exactly(connection, len(SHOWN))
    expect(found == SHOWN, f"{of}: {found!r}")
    return 1_000 * (time.monotonic() - began)


def expect_soon(connection: socket.socket, of: str) -> None:
    took = sorted(expect_view(connection, of) for _ in range(41))[20]
    expect(took <= SOON, f"{of}: an answer takes {took:.0f} ms")
    note(f"{of}: {took:.2f} ms")


def expect_idle(service: Service, of: str) -> None:
    """The service waits for its clients without work."""
    before = seconds_of(service.process)
    time.sleep(0.5)
    used = seconds_of(service.process) - before
    expect(used <= 0.1, f"{of}: {used:.2f} of 0.5 seconds are used while nothing comes")


def is_closed(connection: socket.socket) -> bool:
    """Whether the other end has closed it, or soon does."""
    connection.settimeout(5)
    try:
        return connection.recv(1) == b""
    except TimeoutError:
        return False
    except OSError:
        return True


def expect_batches(crowd: Sequence[socket.socket], text: bytes, want: bytes) -> None:
    """All connections send these messages, and then are answered so."""
    for connection in crowd:
        connection.sendall(text)
    for connection in crowd:
        found = exactly(connection, len(want))
        expect(found == want, f"{found[:300]!r} and not {want[:300]!r}")


class CrowdCase(ProgramCase):
    """Services of a desk with some fields."""

    def serve(self, connections: int, *options: str, order: Order = FIELD, limit: Limit | None = None) -> Service:
        self.path = desk_with(self.program, self.folder, order)
        return Service(self.program, self.path, connections, options=[*TOGETHER, *options], limit=limit)


class Crowds(CrowdCase):
    def test_two_thousand_clients_are_answered(self):
        """All clients are there before the first asks."""
        with more_files(CROWD + 100) as is_able:
            if not is_able:
                self.skipTest(f"not so many files may be open here that {CROWD} clients come at once")
            service = self.serve(CROWD, "--clients", str(CROWD))
            talks = [[ask_of(f"K{number} deliver N1 A-1 1"), ask_of("? field N9 A-1")] for number in range(CROWD)]
            crowd = [Client(service.port, asks, 2) for asks in talks]
            began = time.monotonic()
            play(crowd)
            took = time.monotonic() - began
            service.expect_end()
        for client in crowd:
            client.expect_whole()
        expect(len(told_order(FIELD, [ask for asks in talks for ask in asks])) == CROWD + 1, "not all are done")
        [shown] = done(self.program, ["run", self.path], "? field N1 A-1\n")
        expect(shown.split()[9] == str(40 + CROWD), shown)
        note(f"{CROWD} clients in {took:.1f} s")

    def test_memory_does_not_grow_with_messages(self):
        rules = rules_behind(FIELD)
        text = b"".join(ask_of(line).text for line in UNCHANGING) * (BATCH // len(UNCHANGING))
        want = b"".join(rules.answer(line) for line in UNCHANGING) * (BATCH // len(UNCHANGING))
        service, sizes = self.serve(CLIENTS), []
        crowd = [connected(service.port) for _ in range(CLIENTS)]
        for _ in range(BATCHES):
            expect_batches(crowd, text, want)
            sizes.append(resident(service.process))
        for connection in crowd:
            connection.close()
        service.expect_end()
        first, last = sizes[BATCHES // 10], sizes[-1]
        expect(last - first <= SPARE, f"{first} KiB, then {last} KiB")
        note(f"{CLIENTS * BATCHES * BATCH} messages: {first} KiB, then {last} KiB")


class Hostile(CrowdCase):
    def test_who_was_silent_longest_makes_place(self):
        """Four clients have places, and come again in some order; then a fifth and a sixth come."""
        service = self.serve(6, "--clients", "4")
        crowd = [connected(service.port) for _ in range(4)]
        for number in [0, 1, 2, 3, 2, 0, 3, 1]:
            expect_view(crowd[number], f"the client {number}")
        crowd.append(connected(service.port))
        expect_view(crowd[4], "the fifth")
        expect(is_closed(crowd[2]), "the one that was silent longest is not closed")
        for number in [3, 0, 1]:
            expect_view(crowd[number], f"the client {number} beside the fifth")
        crowd.append(connected(service.port))
        expect_view(crowd[5], "the sixth")
        expect(is_closed(crowd[4]), "the fifth is not closed")
        for number in [0, 1, 3, 5]:
            expect_view(crowd[number], f"the client {number} beside the sixth")
        for connection in crowd:
            connection.close()
        service.expect_end()

    def test_a_flood_of_connections_leaves_those_that_ask(self):
        """There are 16 places, and 480 clients come that send half a message. A client that asks meanwhile is served, and the
        others are closed."""
        service, flood = self.serve(481, "--clients", "16"), []
        with connected(service.port) as asking:
            for number in range(480):
                flood.append(connected(service.port))
                flood[-1].sendall(VIEW[: 1 + number % (len(VIEW) - 1)])
                # fewer than half of the places are taken between two answers, and as many are on the way
                if number % 4 == 3:
                    expect_view(asking, f"behind {number + 1} others")
            # of the last clients any may be there, since some have places of clients that were there for as long
            for number, connection in enumerate(flood[:-40]):
                expect(is_closed(connection), f"the client {number} of the flood is not closed")
        for connection in flood:
            connection.close()
        service.expect_end()

    def test_half_messages_hold_nobody_up(self):
        """200 clients have sent nothing, or a part of a head or of a body: an answer comes soon, and the service is idle when
        nobody asks. When the rest comes, it is answered."""
        service = self.serve(201)
        halves = [connected(service.port) for _ in range(200)]
        sizes = [len(COMMAND) * number // 200 for number in range(200)]
        for connection, size in zip(halves, sizes):
            connection.sendall(COMMAND[:size])
        with connected(service.port) as asking:
            expect_soon(asking, "beside 200 half messages")
            expect_idle(service, "with 200 half messages")
            expect_soon(asking, "again")
        want = answer_of("HALF done 2")
        for connection, size in zip(halves, sizes):
            connection.sendall(COMMAND[size:])
            found = exactly(connection, len(want))
            expect(found == want, f"behind {size} bytes and the rest: {found!r}")
            connection.close()
        service.expect_end()

    def test_answers_that_are_not_read_hold_nobody_up(self):
        """20 clients ask 20 times for a long sheet, and do not read it: an answer to another client comes soon, and the service
        holds little for each of them. Every fourth then leaves; the others read all, also those that have said that nothing more
        comes."""
        service = self.serve(UNREAD + 1, order=[*FIELD, *LARGE])
        with connected(service.port) as asking:
            expect_soon(asking, "alone")
            first = resident(service.process)
            waiting = [connected(service.port, room=4_096) for _ in range(UNREAD)]
            for connection in waiting:
                connection.sendall(ask_of("? sheet N2").text * SHEETS)
            time.sleep(0.5)
            expect_soon(asking, f"beside {UNREAD} long answers that are not read")
            expect_idle(service, f"with {UNREAD} answers that are not read")
            grown = resident(service.process) - first
        sheet = rules_behind([*FIELD, *LARGE]).answer("? sheet N2")
        expect(grown * 1_024 <= 4 * UNREAD * len(sheet), f"it grows by {grown} KiB, and a sheet has {len(sheet)} bytes")
        for connection in waiting[::4]:
            reset(connection)
        for connection in waiting[1::4]:
            connection.shutdown(socket.SHUT_WR)
        for connection in waiting[1::4] + waiting[2::4] + waiting[3::4]:
            found = exactly(connection, SHEETS * len(sheet))
            expect(found == sheet * SHEETS, f"{len(found)} bytes and not {SHEETS * len(sheet)}")
            connection.close()
        service.expect_end()

    def test_clients_that_are_gone_hold_nobody_up(self):
        """Of 32 clients, each but every fourth resets its connection anywhere: the others get all answers, what they were
        answered as done is kept, and nothing is kept that was not sent."""
        talks, generator = load(SEED, 32, 60), random.Random(SEED)
        service = self.serve(len(talks), order=SOME_FIELDS)
        leaves = [generator.randrange(sum(len(ask.text) for ask in asks)) if at % 4 else None for at, asks in enumerate(talks)]
        aheads = [generator.choice([1, 10, 100]) for _ in talks]
        crowd = [
            Client(service.port, asks, ahead, generator, leave) for asks, ahead, leave in zip(talks, aheads, leaves, strict=True)
        ]
        play(crowd)
        service.expect_end()
        for client in crowd[::4]:
            client.expect_whole()
        if sqlite3 is not None:
            note(f"{len(expect_kept(self.path, SOME_FIELDS, talks)) - len(SOME_FIELDS)} commands done")

    def test_a_service_goes_on_when_files_come_free(self):
        """The service may have so few files open that only some of 40 clients are let in; as these leave, the others are."""
        service = self.serve(FILERS, limit=(resource.RLIMIT_NOFILE, FEW_FILES))
        crowd = [connected(service.port) for _ in range(FILERS)]
        for connection in crowd:
            connection.sendall(VIEW)
        time.sleep(0.3)
        let_in = select.select(crowd, [], [], 5)[0]
        expect(0 < len(let_in) < FEW_FILES, f"{len(let_in)} are let in")
        note(f"{len(let_in)} of {FILERS} at once")
        while let_in:
            for connection in let_in:
                found = exactly(connection, len(SHOWN))
                expect(found == SHOWN, f"{found!r}")
                connection.close()
                crowd.remove(connection)
            let_in = select.select(crowd, [], [], 5)[0] if crowd else []
        expect(not crowd, f"{len(crowd)} are not let in though files came free")
        service.expect_end()

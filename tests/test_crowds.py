"""Tests of many clients in front of the program: while the desk is killed, while the front stops, beside clients that are slow,
and with those that go away."""

import concurrent.futures
import http.client
import json
import random
import signal
import socket
import ssl
import threading
import time
import unittest
from typing import Callable

from support import fronts
from support.fronts import OFFICE, SHOP, WAREHOUSE, Front, FrontCase, credentials, head_of, message
from support.programs import done, expect, new_desk, note
from support.rolled import tool_ended
from support.tables import is_able, rows_of, sqlite3, tables_of
from support.writers import history

CLIENTS = 64
COMMANDS = 2_000
KILLS = 3
# how often a desk is rolled up, how many keys stay each time, and how many seconds a client may wait meanwhile
ROLLS, KEYS, WAIT = 5, 500, 10
# what the system holds back for a client is little, so the front has to
SMALL_BUFFERS = "global\n    tune.sndbuf.client 16384\n"

# what is done: its place, its key, its spelling
Done = tuple[int, str, str]


def commands_of(client: int) -> list[tuple[str, str]]:
    """What a client sends, with its user: shops open, use and end orders, the warehouse delivers and writes off."""
    generator = random.Random(client)
    told: list[tuple[str, str]] = []
    while len(told) < COMMANDS // CLIENTS + 1:
        field = f"N1 A-{generator.randint(1, 8)}"
        if client % 2:
            told.append((WAREHOUSE, f"{generator.choice(['deliver', 'writeoff'])} {field} {generator.randint(1, 300)}"))
            continue
        order = 1_000 * (client + 1) + len(told)
        told.append((SHOP, f"open {order} 60 {generator.choice(['take', 'add'])} {field} {generator.randint(1, 200)}"))
        told.append((SHOP, f"use {order} {field} {generator.randint(1, 100)}"))
        told.append((SHOP, f"{generator.choice(['commit', 'abort'])} {order}"))
    return told


class Client:
    """A client with a connection that stays open; where there is no answer, it asks again under the same key."""

    def __init__(self, front: Front):
        self.front, self.connection, self.lost = front, front.connect(), 0

    def tell(self, user: str, command: str, key: str, is_patient: bool = False) -> tuple[int, fronts.Body]:
        while True:
            try:
                self.connection.request("POST", "/v1/commands", message(key, command), credentials(user))
                answer = self.connection.getresponse()
                return answer.status, json.loads(answer.read())
            except (OSError, http.client.HTTPException):
                expect(is_patient, f"{command}: no answer")
                self.lost += 1
                self.connection.close()
                time.sleep(0.05)


def told_by(front: Front, client: int, is_patient: bool) -> tuple[list[Done], int]:
    """What was done for a client, each with its place, its key and its spelling, and how many answers were lost."""
    asks, found = Client(front), []
    for nr, (user, command) in enumerate(commands_of(client)):
        key = f"C{client}-{nr}"
        status, body = asks.tell(user, command, key, is_patient)
        expect(status in (200, 409), f"{command}: {status}, {body}")
        if status == 200:
            found.append((body["place"], key, command))
    asks.connection.close()
    return found, asks.lost


def all_told(front: Front, meanwhile: Callable[[], None], is_patient: bool = False) -> tuple[list[Done], int]:
    """What all clients were answered as done, in the order of places, while something else goes on."""
    with concurrent.futures.ThreadPoolExecutor(CLIENTS) as pool:
        jobs = [pool.submit(told_by, front, client, is_patient) for client in range(CLIENTS)]
        meanwhile()
        found = [job.result() for job in jobs]
    return sorted(line for lines, _ in found for line in lines), sum(lost for _, lost in found)


def expect_same_rows(program: str, folder: str, front: Front, accepted: list[Done]) -> None:
    """The tables are those of a script with the same commands, in the order of their places."""
    front.desk_kill()
    played = new_desk(program, folder, "played.db")
    places = [place for place, _, _ in accepted]
    expect(places == list(range(9, len(places) + 9)), "places are missing")
    script = fronts.FIELDS + "".join(f"{key} {command}\n" for _, key, command in accepted)
    expect(len(done(program, ["run", played], script)) == len(places) + 8, "fewer replies")
    # a run that ends copies the log into the file
    done(program, ["run", front.file], "")
    if sqlite3 is not None:
        expect(rows_of(front.file) == rows_of(played), "other rows")


def longest_wait(front: Front, over: threading.Event) -> float:
    """How many seconds the longest of many deliveries took, sent one after the other until `over` is set."""
    longest = 0.0
    while not over.is_set():
        began = time.monotonic()
        expect(front.tell(WAREHOUSE, "deliver N1 A-2 1")[0] == 200, "a delivery is refused")
        longest = max(longest, time.monotonic() - began)
    return longest


def delivered(front: Front, over: threading.Event) -> list[int]:
    """The answers to deliveries, each on a connection of its own, until `over` is set."""
    found = []
    while not over.is_set():
        found.append(front.tell(WAREHOUSE, "deliver N1 A-2 1")[0])
    return found


class Crowds(FrontCase):
    def test_many_clients_outlive_a_killed_desk(self):
        """64 clients of two groups; the desk is killed three times in the middle and started again: each command is answered."""
        with Front(self.program, self.folder) as front:

            def kill():
                for _ in range(KILLS):
                    time.sleep(0.4)
                    front.desk_kill()
                    time.sleep(0.3)
                    front.desk_start()

            began = time.time()
            accepted, _ = all_told(front, kill)
            count = sum(len(commands_of(client)) for client in range(CLIENTS))
            expect(count >= COMMANDS, f"{count} commands")
            note(f"{count} commands in {time.time() - began:.1f} s, {len(accepted)} done, the desk killed {KILLS} times")
            expect_same_rows(self.program, self.folder, front, accepted)

    @unittest.skipUnless(is_able(), "sqlite3 of Python not here")
    def test_a_roll_is_only_a_wait(self):
        """64 clients write as fast as they can; five times the desk is ended, rolled up in its place and started again. Each
        command is answered, and done once: the stock at the end is that of a desk that was never rolled up."""
        with Front(self.program, self.folder) as front:

            def roll():
                over = threading.Event()
                with concurrent.futures.ThreadPoolExecutor(1) as pool:
                    job = pool.submit(longest_wait, front, over)
                    for _ in range(ROLLS):
                        time.sleep(0.4)
                        front.desk_kill()
                        told = tool_ended(self.program, [front.file, "--keys", str(KEYS)])
                        expect((told[0], told[2]) == (0, b""), f"not rolled up: {told}")
                        front.desk_start()
                    over.set()
                    waits.append(job.result())

            waits = list[float]()
            accepted, _ = all_told(front, roll)
            front.desk_kill()
            done(self.program, ["run", front.file], "")
            kept = history(front.file)
            keys = [key for key, _ in kept]
            expect(len(set(keys)) == len(keys), "a command is done twice")
            expect({key for key in keys if key[0] == "C"} == {key for _, key, _ in accepted}, "other commands are done")
            played = new_desk(self.program, self.folder, "played.db")
            done(self.program, ["run", played], "".join(f"{key} {words}\n" for key, words in kept))
            stock = [{row[:4]: row.value for row in tables_of(path)["field"]} for path in (front.file, played)]
            expect(stock[0] == stock[1], "another stock")
            expect(waits[0] < WAIT, f"a client waited for {waits[0]:.1f} s")
            note(f"{len(keys)} commands, {ROLLS} rolls, the longest wait {waits[0]:.1f} s")

    def test_a_single_command_outlives_a_killed_desk(self):
        """The command is sent on an open connection to a desk that stands still, is killed, and starts two seconds later: it is
        answered, and done once."""
        with Front(self.program, self.folder) as front:
            for number in range(3):
                front.value()
                front.desk.send_signal(signal.SIGSTOP)
                with concurrent.futures.ThreadPoolExecutor(1) as pool:
                    job = pool.submit(front.tell, WAREHOUSE, "deliver N1 A-1 1", f"ALONE-{number}")
                    time.sleep(0.3)
                    front.desk_kill()
                    time.sleep(2)
                    front.desk_start()
                    found = job.result()
                expect(found == (200, {"place": 9 + number}), f"{found}")
                expect(front.value() == 501 + number, "not done once")

    def test_clients_outlive_a_front_that_stops(self):
        """The front is stopped and started again under load: who asks again under the same key has each command done once."""
        with Front(self.program, self.folder) as front:

            def stop():
                for _ in range(KILLS):
                    time.sleep(0.3)
                    front.stop()
                    time.sleep(0.2)
                    front.start()

            accepted, lost = all_told(front, stop, is_patient=True)
            expect(lost > 0, "no answer was lost")
            note(f"{len(accepted)} done, {lost} answers lost on the way")
            expect_same_rows(self.program, self.folder, front, accepted)

    def test_a_front_reads_its_files_anew(self):
        """At SIGUSR2, under load: whoever comes is answered, and the shops' orders are those that the file has now."""
        with Front(self.program, self.folder, shops=["n2 1"]) as front:
            front.stop()
            front.words.append("-W")
            front.start()
            expect(front.tell("n2", "open 1000000 60 take N1 A-1 1")[0] == 200, "an order of its range is refused")
            expect(front.tell("n2", "open 2000000 60 take N1 A-1 1")[0] == 403, "an order of another range is done")
            with open(front.environment["SHOPS"], "w", encoding="ascii") as file:
                file.write("n2 2\n")
            over = threading.Event()
            with concurrent.futures.ThreadPoolExecutor(8) as pool:
                jobs = [pool.submit(delivered, front, over) for _ in range(8)]
                for _ in range(KILLS):
                    time.sleep(0.5)
                    front.process.send_signal(signal.SIGUSR2)
                time.sleep(0.5)
                over.set()
                found = [status for job in jobs for status in job.result()]
            expect(found == [200] * len(found), f"{set(found)}")
            expect(front.tell("n2", "open 2000000 60 take N1 A-1 1")[0] == 200, "an order of its new range is refused")
            expect(front.tell("n2", "abort 1000000")[0] == 403, "an order of its old range is ended")
            expect(front.value("A-2") == 500 + len(found), "not each done once")
            note(f"{len(found)} commands, the front read anew {KILLS} times")


# ---- clients that are slow, or gone


def send_slowly(front: Front, over: threading.Event) -> None:
    body = message("SLOW", "deliver N1 A-1 5").encode()
    with front.socket() as client:
        # within the time that a body may take no second byte follows the last but one
        client.sendall(head_of(WAREHOUSE, "/v1/commands", len(body)))
        for byte in body[:-1]:
            if over.wait(1):
                return
            try:
                client.sendall(bytes([byte]))
            except OSError:
                return


def unread(front: Front, count: int) -> ssl.SSLSocket:
    """A client that asks so many times in a row for a long sheet, with little room for it, and never reads."""
    plain = socket.socket()
    plain.setsockopt(socket.SOL_SOCKET, socket.SO_RCVBUF, 4_096)
    plain.connect(("127.0.0.1", front.port))
    client = front.context.wrap_socket(plain, server_hostname="localhost")
    client.sendall(head_of(SHOP, "/v1/sheets/N2") * count)
    return client


def sessions_at_desk(front: Front) -> float:
    """How many messages are at the desk, or have their answers on the way from it."""
    _, page = front.ask(OFFICE, "GET", "/metrics")
    start = 'haproxy_server_current_sessions{proxy="desk",server="desk"}'
    [line] = [line for line in page.splitlines() if line.startswith(start)]
    return float(line.split()[-1])


def median_of_asks(front: Front) -> float:
    """How many milliseconds a view takes on an open connection: the median of 41."""
    connection, took = front.connect(), []
    for _ in range(41):
        began = time.time()
        connection.request("GET", "/v1/fields/N1/A-1", None, credentials(SHOP))
        answer = connection.getresponse()
        expect((answer.status, len(answer.read()) > 0) == (200, True), f"{answer.status}")
        took.append(1_000 * (time.time() - began))
    connection.close()
    return sorted(took)[20]


class SlowClients(FrontCase):
    def test_slow_clients_hold_nobody_up(self):
        """There are 100 idle clients, 20 that send a byte a second, and 20 that never read a long sheet: a view takes no longer
        than 50 ms."""
        script = fronts.FIELDS + "".join(f"S{n} field N2 B-{n} 0 9 9\n" for n in range(2_000))
        with Front(self.program, self.folder, more=SMALL_BUFFERS, script=script) as front:
            alone = median_of_asks(front)
            over = threading.Event()
            slow = [threading.Thread(target=send_slowly, args=(front, over)) for _ in range(20)]
            for thread in slow:
                thread.start()
            idle = [front.socket() for _ in range(100)]
            waiting = [unread(front, 1 + count % 3) for count in range(20)]
            time.sleep(1)
            beside = median_of_asks(front)
            over.set()
            for thread in slow:
                thread.join()
            for client in idle + waiting:
                client.close()
            note(f"an ask took {alone:.1f} ms, and {beside:.1f} ms beside 140 slow clients")
            expect(beside <= 50, f"an ask took {beside:.0f} ms")
            expect(front.value() == 500, "a message that was cut short was done")

    def test_one_user_keeps_few_connections(self):
        """60 clients of one user never read. As many messages as a user may have under way keep a connection to the desk each,
        the other clients get 429, and whoever else asks is answered as ever."""
        script = fronts.FIELDS + "".join(f"S{n} field N2 B-{n} 0 9 9\n" for n in range(9_000))
        limits = {**fronts.NO_LIMITS, "UNDER_WAY_BY_USER": "20"}
        with Front(self.program, self.folder, limits, SMALL_BUFFERS, script) as front:
            waiting = [unread(front, 1) for _ in range(60)]
            time.sleep(1)
            status, _ = front.ask(SHOP, "GET", "/v1/fields/N1/A-1")
            expect(status == 429, f"a user with 20 answers that are not taken is answered {status}")
            found = [front.tell(WAREHOUSE, "deliver N1 A-1 1") for _ in range(20)]
            expect([status for status, _ in found] == [200] * 20, f"{found}")
            kept = sessions_at_desk(front)
            expect(15 <= kept <= 21, f"{kept} connections to the desk are in use")
            for client in waiting:
                client.close()

    def test_a_message_may_come_in_pieces(self):
        """One byte, then the head but for its end, then half of the body, then the rest: the answer is that of a message that
        comes at once."""
        body = message("PIECES", "deliver N1 A-1 5").encode()
        whole = head_of(WAREHOUSE, "/v1/commands", len(body)) + body
        cuts = [0, 1, len(whole) - len(body) - 1, len(whole) - len(body) // 2, len(whole)]
        with Front(self.program, self.folder) as front, front.socket() as client:
            for start, end in zip(cuts, cuts[1:]):
                client.sendall(whole[start:end])
                time.sleep(0.3)
            found = client.recv(65_536)
            expect(found.startswith(b"HTTP/1.1 200 ") and found.endswith(b'{"place":9}'), f"{found!r}")

    def test_clients_may_go_away(self):
        """A client leaves within a message, by a proper close or without: nothing is done. Behind a whole message: the command is
        done, once, whoever asks again."""
        body = message("GONE", "deliver N1 A-1 5").encode()
        whole = head_of(WAREHOUSE, "/v1/commands", len(body)) + body
        with Front(self.program, self.folder) as front:
            for size in [1, 20, len(whole) - len(body), len(whole) - 1]:
                for is_reset in [False, True]:
                    client = front.socket()
                    if is_reset:
                        client.setsockopt(socket.SOL_SOCKET, socket.SO_LINGER, b"\1\0\0\0\0\0\0\0")
                    client.sendall(whole[:size])
                    client.close()
            expect(front.value() == 500, "a message that was cut short was done")
            for _ in range(5):
                client = front.socket()
                client.sendall(whole)
                client.close()
            found = front.tell(WAREHOUSE, "deliver N1 A-1 5", "GONE")
            expect(found == (200, {"place": 9}), f"{found}")
            expect(front.value() == 505, "not done once")

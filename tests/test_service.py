"""Tests of the built program that serves connections: ports, many messages against the same as a
script, `curl`, connections that break off, a store that fails, and services that are killed."""

import contextlib
import http.client
import random
import signal
import socket
import subprocess
import threading

from support.cases import ProgramCase, needs
from support.messages import answer_to, compact
from support.programs import SECONDS, done, expect, expect_end, new_desk, note
from support.service import JSON, TOGETHER, Service, answered, ask, post
from support.tables import rows_of, sqlite3

GREATEST_PORT, MOST_CONNECTIONS = 65_535, 1_000_000
COMMANDS = 2_000
ROUNDS = 20
KILLED_IN = 500

VERBS = "deliver writeoff rebound open open transfer more use use release firm commit abort".split()
FIRST = ("K1", "field N1 A-1 0 100 40")


def connect_once(service):
    with contextlib.closing(service.connect()) as connection:
        connection.connect()


def steps():
    """2,000 commands of all kinds, some of which are refused or come again, each with the field or the order that it names."""
    generator = random.Random(1986)
    fields = [f"N{n % 5} A{n // 5:02}" for n in range(50)]
    made = [(f"F{n}", f"field {field} 0 1000 500", f"field {field}") for n, field in enumerate(fields)]
    orders, held = 0, {}
    while len(made) < COMMANDS:
        verb = generator.choice(VERBS)
        field, quantity, key = generator.choice(fields), generator.randint(1, 60), f"K{len(made)}"
        branch, article = field.split()
        number = orders - int(generator.expovariate(0.1))
        order = f"order {max(1, number)}"
        if len(made) % 20 == 19:
            made.append(generator.choice(made))
        elif len(made) % 20 == 18:
            made.append((generator.choice(made)[0], f"deliver {field} {quantity}", f"field {field}"))
        elif len(made) % 100 == 50:
            made.append((key, f"expire {len(made)}", order))
        elif verb == "rebound":
            made.append((key, f"rebound {field} {quantity} {1000 - quantity}", f"field {field}"))
        elif verb in ("deliver", "writeoff"):
            made.append((key, f"{verb} {field} {quantity}", f"field {field}"))
        elif verb in ("open", "transfer"):
            orders += 1
            until = len(made) + generator.randint(1, 1000)
            held[orders] = [field] if verb == "transfer" else generator.sample(fields, 3)
            lines = " ".join(f"{generator.choice(['take', 'add'])} {f} {quantity}" for f in held[orders])
            pair = f"{article} {branch} N{generator.randrange(5)} {quantity}"
            made.append((key, f"{verb} {orders} {until} {lines if verb == 'open' else pair}", f"order {orders}"))
        elif verb in ("firm", "commit", "abort"):
            made.append((key, f"{verb} {order.split()[1]}", order))
        else:
            way = "take " if verb == "more" else ""
            field = generator.choice(held.get(max(1, number), fields))
            quantity = generator.randint(1, 20)
            made.append((key, f"{verb} {order.split()[1]} {way}{field} {quantity}", order))
    return made


def curl(port, target, *words):
    """What `curl` writes about an answer, with its status in front."""
    options = ["--silent", "--show-error", "--write-out", "%{stderr}%{http_code}"]
    run = subprocess.run(["curl", *options, *words, f"http://127.0.0.1:{port}{target}"], capture_output=True, timeout=SECONDS)
    return run.stderr.decode(), run.stdout.decode()


def killed(service, first, seconds):
    """Delivers one piece after another, from that place on, until the service is killed after so many seconds. Returns how many
    commands were answered."""
    connection = service.connect()
    moment = threading.Timer(seconds, service.process.kill)
    moment.start()
    answered = 0
    try:
        for place in range(first, first + KILLED_IN):
            found = post(connection, f"K{place}", "deliver N1 A-1 1")
            expect(found == (200, JSON, compact({"place": place})), f"{found}")
            answered += 1
    except (OSError, http.client.HTTPException):
        pass
    moment.join()
    connection.close()
    service.process.communicate()
    service.clock.cancel()
    return answered


class Services(ProgramCase):
    """Tests of a service with these options."""

    options: list[str] = []

    def serve(self, path, connections, **more):
        return Service(self.program, path, connections, options=self.options, **more)

    def test_a_port_is_told_and_taken(self):
        """The port is a free one of 127.0.0.1 alone, or the one that is asked for; a port that is taken is a fault."""
        path = new_desk(self.program, self.folder)
        service = self.serve(path, 1)
        words = ["serve", new_desk(self.program, self.folder, "other.db"), "--port", str(service.port), "--connections", "1"]
        words += self.options
        expect_end(self.program, words, (1, b"", b"stockdesk: io\n"))
        try:
            socket.create_connection(("127.0.0.2", service.port), SECONDS).close()
            expect(False, "it listens elsewhere too")
        except ConnectionRefusedError:
            pass
        connect_once(service)
        service.expect_end()
        again = self.serve(path, 1, port=service.port)
        expect(again.port == service.port, f"another port: {again.port}")
        connect_once(again)
        again.expect_end()

    def test_the_greatest_port_and_number_of_connections_are_taken(self):
        """With the greatest port and number, one connection is served, and the service then ended from outside; services with the
        least of both end by themselves."""
        path = new_desk(self.program, self.folder)
        with socket.socket() as free:
            free.setsockopt(socket.SOL_SOCKET, socket.SO_REUSEADDR, 1)
            try:
                free.bind(("127.0.0.1", GREATEST_PORT))
            except OSError as fault:
                self.skipTest(f"port {GREATEST_PORT} is taken: {fault}")
        for port, connections in [(GREATEST_PORT, MOST_CONNECTIONS), (0, 1)]:
            service = self.serve(path, connections, port=port)
            expect(service.port == port or not port, f"another port: {service.port}")
            with contextlib.closing(service.connect()) as connection:
                found = post(connection, *FIRST)
            expect(found == (200, JSON, compact({"place": 1})), f"{found}")
            if connections > 1:
                service.process.terminate()
            service.expect_end((-signal.SIGTERM if connections > 1 else 0, b"", b""))
        expect_end(self.program, ["run", path], (0, b"K1 done 1\n", b""), f"{' '.join(FIRST)}\n")

    def test_messages_are_answered_as_a_script_is(self):
        """One connection stays open at both ends; then the two files hold the same rows."""
        served, played = new_desk(self.program, self.folder), new_desk(self.program, self.folder, "played.db")
        script = "".join(f"{key} {command}\n? {view}\n" for key, command, view in steps())
        lines = iter(done(self.program, ["run", played], script))
        service = self.serve(served, 1)
        connection = service.connect()
        refused = 0
        for key, command, view in steps():
            found = post(connection, key, command)
            status, body = answer_to(next(lines))
            expect(found == (status, JSON, compact(body)), f"{command}: {found} and not {body}")
            refused += status == 409
            kind, *names = view.split()
            found = ask(connection, "GET", "/".join([f"/v1/{kind}s", *names]))
            status, body = answer_to(next(lines))
            expect(found == (status, JSON, compact(body)), f"{view}: {found} and not {body}")
        for branch in range(6):
            found = ask(connection, "GET", f"/v1/sheets/N{branch}")
            sheet = "".join(line + "\n" for line in done(self.program, ["sheet", played, f"N{branch}"]))
            expect(found == (200, "text/plain", sheet), f"another sheet of N{branch}")
        connection.close()
        service.expect_end()
        if sqlite3 is not None:
            expect(rows_of(served) == rows_of(played), "other rows")
        note(f"{COMMANDS} commands, {refused} of them refused")

    @needs("curl")
    def test_curl_is_answered(self):
        """`curl` sends a command, sends it again, asks for a view and a sheet, and sends a body so long that it asks first
        whether it may."""
        key, command = FIRST
        body = compact({"key": key, "command": command})
        sheet = "A-1".ljust(16) + "".join(f"{level:11}" for level in [0, 100, 40, 40, 40]) + "\n"
        sheet += "total".ljust(16) + f"{40:15}\n"
        view = {"branch": "N1", "article": "A-1", "lo": 0, "hi": 100, "value": 40, "inf": 40, "sup": 40}
        asked = [
            (("/v1/commands", "--data", body), ("200", compact({"place": 1}))),
            (("/v1/commands", "--data", body), ("200", compact({"place": 1}))),
            (("/v1/commands", "--data", body.ljust(4_000)), ("200", compact({"place": 1}))),
            (("/v1/fields/N1/A-1",), ("200", compact(view))),
            (("/v1/sheets/N1",), ("200", sheet)),
            (("/v1/orders/7",), ("404", compact({"error": "none"}))),
        ]
        service = self.serve(new_desk(self.program, self.folder), len(asked))
        for words, want in asked:
            found = curl(service.port, *words)
            expect(found == want, f"{words}: {found} and not {want}")
        service.expect_end()

    def test_a_connection_that_breaks_off_is_the_last_of_nothing(self):
        """One connection is reset, one ends within a body, one is no HTTP: the next one is served."""
        service = self.serve(new_desk(self.program, self.folder), 4)
        cut = b"POST /v1/commands HTTP/1.1\r\nContent-Length: 46\r\n\r\n{"
        answered(service.port, [cut], is_reset=True)
        for text in [cut, b"K1 expire 1\n"]:
            found = answered(service.port, [text])
            told = found.startswith(b"HTTP/1.1 400 Bad Request\r\n") and found.endswith(b'{"error":"message"}')
            expect(told, f"{text}: {found}")
        connection = service.connect()
        found = post(connection, *FIRST)
        expect(found == (200, JSON, compact({"place": 1})), f"{found}")
        connection.close()
        service.expect_end()

    def test_a_store_that_fails_ends_the_service(self):
        """A file may not grow: what was answered is kept, the rest is answered as by a stopped desk, and then the service
        ends."""
        path = new_desk(self.program, self.folder)
        done(self.program, ["run", path], "K1 field N1 A-1 0 1000 0\n")
        service = self.serve(path, 2, limit=1_048_576)
        connection = service.connect()
        place, stopped = 2, (503, JSON, compact({"error": "stopped"}))
        while (found := post(connection, f"K{place}", "deliver N1 A-1 1")) != stopped:
            expect(found == (200, JSON, compact({"place": place})), f"{found}")
            place += 1
        self.expect_views(connection, stopped)
        connection.close()
        service.expect_end((1, b"", b"stockdesk: store\n"))
        [shown] = done(self.program, ["run", path], "? field N1 A-1\n")
        found = int(shown.split()[9])
        expect(place > 2 and found in (place - 2, place - 1), f"{place - 2} were answered, {found} are found")

    def expect_views(self, connection, want):
        """Each view is answered so."""
        for target in ["/v1/fields/N1/A-1", "/v1/orders/7", "/v1/sheets/N1"]:
            expect(ask(connection, "GET", target) == want, f"{target} is answered")

    def test_nothing_answered_is_lost(self):
        generator = random.Random(1986)
        path = new_desk(self.program, self.folder)
        done(self.program, ["run", path], "K1 field N1 A-1 0 1000000000 0\n")
        place, cut = 2, 0
        for _ in range(ROUNDS):
            answered = killed(self.serve(path, 1), place, generator.uniform(0, 0.4))
            [shown] = done(self.program, ["run", path], "? field N1 A-1\n")
            found = int(shown.split()[9]) - (place - 2)
            expect(answered <= found <= answered + 1, f"{answered} answered, {found} found")
            # the rows have the first of the commands, each at its place
            again = "".join(f"K{n} deliver N1 A-1 1\n" for n in range(2, place + found))
            want = [f"K{n} done {n}" for n in range(2, place + found)]
            expect(done(self.program, ["run", path], again) == want, "not the first of the commands")
            cut += answered < KILLED_IN
            place += found
        note(f"{ROUNDS} services, {cut} of them killed before their end, {place - 1} commands")


class ServicesTogether(Services):
    """Tests of a service of many connections at once."""

    options = TOGETHER

    def expect_views(self, connection, want):
        """The views that are answered before the service ends, which is soon, are answered so."""
        with contextlib.suppress(OSError, http.client.HTTPException):
            super().expect_views(connection, want)

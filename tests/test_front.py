"""Tests of the front that stands before the program: users and what each group may do, a desk that is stopped, limits, the log,
and what a browser gets."""

import base64
import glob
import json
import os
import re
import resource
import socket
import ssl
import subprocess
import time
import warnings
from http.client import HTTPMessage

from support.cases import needs
from support.fronts import NO_LIMITS, OFFICE, PAGE, SHOP, WAREHOUSE, Front, FrontCase, credentials, head_of, message
from support.programs import SECONDS, expect

SHOPS_MAY = "open more use release commit abort transfer".split()
WAREHOUSE_MAY = "deliver writeoff".split()

# a command of each kind
COMMANDS_OF = [
    "field N2 A-1 0 100 40",
    "deliver N1 A-1 5",
    "writeoff N1 A-1 5",
    "rebound N1 A-1 0 2000",
    "open 1 60 take N1 A-1 5",
    "transfer 2 60 A-1 N1 N2 5",
    "more 1 take N1 A-2 5",
    "use 1 N1 A-1 1",
    "release 1 N1 A-1 1",
    "firm 1",
    "commit 1",
    "abort 2",
    "expire 1",
]


def may(user: str, command: str) -> bool:
    verb = command.split()[0]
    return user == OFFICE or verb in (SHOPS_MAY if user == SHOP else WAREHOUSE_MAY)


class Users(FrontCase):
    def test_each_group_sends_its_commands(self):
        """What a group may send is answered by the desk, and all else is 403; views are for everybody, figures for the office."""
        with Front(self.program, self.folder) as front:
            for command in COMMANDS_OF:
                for user in [SHOP, WAREHOUSE, OFFICE]:
                    status, body = front.tell(user, command)
                    want = (200, 409) if may(user, command) else (403,)
                    expect(status in want, f"{user}, {command}: {status}, {body}")
            for user in [SHOP, WAREHOUSE, OFFICE]:
                for target in ["/v1/fields/N1/A-1", "/v1/orders/1", "/v1/sheets/N1", "/user", "/"]:
                    expect(front.ask(user, "GET", target)[0] == 200, f"{user}, {target}")
                for target in ["/figures", "/figures;csv", "/metrics"]:
                    want = 200 if user == OFFICE else 403
                    expect(front.ask(user, "GET", target)[0] == want, f"{user}, {target}")

    def test_a_user_is_told_who_he_is(self):
        """The front answers a user's name, his group, and for a shop what stands behind the name in the list of shops, whatever
        blanks are between."""
        groups = {SHOP: ("shops", "0"), WAREHOUSE: ("warehouse", ""), OFFICE: ("office", "")}
        groups |= {"n2": ("shops", "1 N2 N3"), "n3": ("shops", ""), "n4": ("shops", "899\tN4")}
        with Front(self.program, self.folder, shops=["n2 1 N2 N3", "n3", "n4 899\tN4"]) as front:
            for user, (group, shop) in groups.items():
                want = {"user": user, "group": group, "shop": shop}
                expect(json.loads(front.ask(user, "GET", "/user")[1]) == want, user)

    def test_nobody_else_is_answered(self):
        """No user, a wrong password, none, or the words of another scheme: the answer is 401 for whatever is asked, and nothing
        is done."""
        others = [
            {},
            credentials(SHOP, "other"),
            credentials(SHOP, ""),
            credentials("nobody"),
            credentials(""),
            {"Authorization": credentials(SHOP)["Authorization"].replace("Basic", "Bearer")},
            {"Authorization": "Basic !"},
            {"Authorization": "Basic " + base64.b64encode(b"ho").decode()},
        ]
        with Front(self.program, self.folder) as front:
            for headers in others:
                for method, target in [("POST", "/v1/commands"), ("GET", "/v1/fields/N1/A-1"), ("GET", "/"), ("GET", "/metrics")]:
                    connection = front.connect()
                    body = message("K1", "deliver N1 A-1 5") if method == "POST" else None
                    connection.request(method, target, body, headers)
                    answer = connection.getresponse()
                    expect(answer.status == 401, f"{headers}, {target}: {answer.status}")
                    expect(answer.getheader("WWW-Authenticate") == 'Basic realm="stockdesk"', "no realm")
                    connection.close()
            expect(front.value() == 500, "something was delivered")

    @needs("curl")
    def test_what_is_refused_is_told_over_http2(self):
        """A client that is still sending its body, as curl does over HTTP/2, gets the refusal, each time."""
        wanted = [("/v1/none", "POST", 404), ("/v1/commands", "PUT", 405), ("/v1/commands", "POST", 413)]
        with Front(self.program, self.folder) as front:
            words = ["curl", "--silent", "--insecure", "--user", "ho:ho", "--output", "/dev/null", "--write-out", "%{http_code}"]
            for target, method, want in wanted:
                body = "x" * (5_000 if want == 413 else 60)
                ask = [*words, "--request", method, "--data", body, f"https://localhost:{front.port}{target}"]
                found = [subprocess.run(ask, capture_output=True, text=True).stdout for _ in range(25)]
                expect(found == [str(want)] * 25, f"{method} {target}: {found}")

    def test_a_stopped_desk_may_start_again(self):
        """A file that may not grow stops the desk. The answer says so, and the desk ends by itself; started again, it does the
        same command once."""
        with Front(self.program, self.folder) as front:
            front.desk_kill()
            size = os.path.getsize(front.file) + 20_000

            def limit():
                resource.setrlimit(resource.RLIMIT_FSIZE, (size, size))

            front.desk_start(restore_signals=False, preexec_fn=limit)
            place = 9
            while (found := front.tell(WAREHOUSE, "deliver N1 A-1 1", f"K{place}"))[0] == 200:
                expect(found == (200, {"place": place}), f"{found}")
                place += 1
            expect(found == (503, {"error": "stopped"}), f"{found}")
            _, errors = front.desk.communicate(timeout=SECONDS)
            expect(errors == b"stockdesk: store\n", "no store fault is told")
            front.desk_start()
            found = front.tell(WAREHOUSE, "deliver N1 A-1 1", f"K{place}")
            expect(found == (200, {"place": place}), f"{found}")
            expect(front.value() == 500 + place - 8, "not done once")


# ---- limits


def statuses(front: Front, user: str, count: int) -> dict[int, int]:
    """How often each status is the answer to so many views that are asked for at once, on one connection."""
    connection = front.connect()
    found: dict[int, int] = {}
    for _ in range(count):
        connection.request("GET", "/user", None, credentials(user))
        answer = connection.getresponse()
        answer.read()
        found[answer.status] = found.get(answer.status, 0) + 1
    connection.close()
    return found


class Limits(FrontCase):
    def test_each_limit_is_told(self):
        limits = {**NO_LIMITS, "REQUESTS_BY_USER": "20", "REQUESTS_BY_ADDRESS": "60", "FAILURES_BY_ADDRESS": "5"}
        with Front(self.program, self.folder, limits) as front:
            time.sleep(1.1)
            found = statuses(front, SHOP, 40)
            expect(found.get(200, 0) >= 20 and found.get(429, 0) > 0, f"one user: {found}")
            time.sleep(2)
            expect(statuses(front, SHOP, 10) == {200: 10}, "the user is not answered later")
            time.sleep(2)
            found = [statuses(front, user, 20) for user in [SHOP, WAREHOUSE, OFFICE, SHOP]]
            expect(found[0] == {200: 20} and found[3].get(429, 0) > 0, f"one address: {found}")
            time.sleep(2)
            long = front.ask(WAREHOUSE, "POST", "/v1/commands", message("K1", "deliver N1 A-1 5").ljust(4_097))
            expect(long == (413, '{"error":"size"}'), f"4,097 bytes: {long}")
            kept = front.ask(WAREHOUSE, "POST", "/v1/commands", message("K1", "deliver N1 A-1 5").ljust(4_096))
            expect(kept[0] == 200, f"4,096 bytes: {kept}")
            for _ in range(7):
                front.ask("nobody", "GET", "/user")
            expect(front.ask(OFFICE, "GET", "/user")[0] == 429, "passwords may be guessed")

    def test_commands_and_what_is_under_way_are_limited(self):
        limits = {**NO_LIMITS, "COMMANDS_BY_USER": "5", "UNDER_WAY_BY_USER": "3"}
        with Front(self.program, self.folder, limits) as front:
            found = [front.tell(WAREHOUSE, "deliver N1 A-1 1")[0] for _ in range(8)]
            expect(found[:5] == [200] * 5 and found[-1] == 429, f"commands: {found}")
            expect(
                front.ask(WAREHOUSE, "GET", "/v1/fields/N1/A-1")[0] == 200, "no view is shown to who has sent too many commands"
            )
            front.desk_kill()
            waiting = [front.socket() for _ in range(3)]
            for client in waiting:
                client.sendall(head_of(SHOP, "/v1/fields/N1/A-1"))
            time.sleep(0.3)
            found = front.ask(SHOP, "GET", "/v1/fields/N1/A-1")
            expect(found == (429, '{"error":"rate"}'), f"a fourth at once: {found}")
            front.desk_start()
            for client in waiting:
                expect(client.recv(65_536).startswith(b"HTTP/1.1 200 "), "one that waited is not answered")
                client.close()

    def test_handshakes_are_limited(self):
        with Front(self.program, self.folder, {**NO_LIMITS, "HANDSHAKES_BY_ADDRESS": "5"}) as front:
            time.sleep(1.1)
            clients = []
            try:
                for _ in range(20):
                    clients.append(front.socket())
                expect(False, "an address may make any number of connections a second")
            except OSError:
                pass
            expect(len(clients) >= 4, f"{len(clients)} connections")
            for client in clients:
                client.close()

    def test_no_page_of_another_origin_sends_commands(self):
        with Front(self.program, self.folder) as front:
            for origin, want in [("cross-site", 403), ("same-site", 403), ("same-origin", 200), ("none", 200)]:
                connection = front.connect()
                headers = {**credentials(OFFICE), "Sec-Fetch-Site": origin}
                connection.request("POST", "/v1/commands", message(f"KEY-{origin}", "deliver N1 A-1 1"), headers)
                answer = connection.getresponse()
                expect(answer.status == want, f"{origin}: {answer.status}, {answer.read()!r}")
                connection.close()
            expect(front.value() == 502, "another number was done")

    def test_time_and_connections_are_limited(self):
        """A client that is silent within a head or a body gets its answer in some five seconds; an address may have so many
        connections."""
        with Front(self.program, self.folder, {**NO_LIMITS, "CONNECTIONS_BY_ADDRESS": "10"}) as front:
            clients = [front.socket(), front.socket()]
            clients[0].sendall(head_of(SHOP, "/user")[:-2])
            clients[1].sendall(head_of(WAREHOUSE, "/v1/commands", 40) + b"{")
            for client in clients:
                began = time.time()
                found = client.recv(65_536)
                expect(found.startswith(b"HTTP/1.1 408 "), f"{found!r}")
                expect(time.time() - began < 10, "no limit in time")
                client.close()
            kept = [front.socket() for _ in range(9)]
            try:
                for _ in range(3):
                    kept.append(front.socket())
                expect(False, "an address may have any number of connections")
            except OSError:
                pass
            for client in kept:
                client.close()


# ---- the log, and what a browser is told


def policy_of(headers: HTTPMessage) -> dict[str, str]:
    """Each part of the policy that tells a browser how to take an answer, by its name."""
    parts = [part.split(" ", 1) for part in str(headers["Content-Security-Policy"]).split("; ")]
    return {name: value for name, value in parts}


class Configuration(FrontCase):
    def test_the_log_names_the_user(self):
        """The log says who asked for what, under which key, and what was answered; it has no password, and of a command only its
        verb."""
        with Front(self.program, self.folder) as front:
            front.tell(SHOP, "open 1 60 take N1 A-1 5", "KEY-1")
            front.tell(SHOP, "deliver N1 A-1 5", "KEY-2")
            front.ask(WAREHOUSE, "GET", "/v1/sheets/N1")
            front.ask("nobody", "GET", "/v1/sheets/N1")
            time.sleep(0.2)
            lines = [line.split()[1:8] + line.split()[8:9] for line in front.log() if "/v1/" in line]
            want = [
                ["127.0.0.1", SHOP, "shops", "POST", "/v1/commands", "200", "KEY-1", "open"],
                ["127.0.0.1", SHOP, "shops", "POST", "/v1/commands", "403", "KEY-2", "deliver"],
                ["127.0.0.1", WAREHOUSE, "warehouse", "GET", "/v1/sheets/N1", "200", "-", "-"],
                ["127.0.0.1", "-", "-", "GET", "/v1/sheets/N1", "401", "-", "-"],
            ]
            # a line is written when its answer is on its way, so two may change places
            expect(sorted(lines) == sorted(want), f"{lines}")
            expect(all(re.match(r"\d{4}-\d\d-\d\dT\d\d:\d\d:\d\dZ ", line) for line in front.log() if "/v1/" in line), "no time")

    def test_a_browser_is_told_to_be_careful(self):
        """Nothing comes from elsewhere, no script or style stands within the page, and no other page may hold this one."""
        nothing = ["default-src", "frame-ancestors", "base-uri", "form-action"]
        want = {**dict.fromkeys(nothing, "'none'"), **dict.fromkeys(["connect-src", "style-src", "script-src"], "'self'")}
        targets = [(SHOP, "/"), (SHOP, "/desk.js"), (SHOP, "/v1/sheets/N1"), (SHOP, "/none"), (None, "/"), (SHOP, "/metrics")]
        with Front(self.program, self.folder) as front:
            for user, target in targets:
                connection = front.connect()
                connection.request("GET", target, None, credentials(user) if user else {})
                answer = connection.getresponse()
                answer.read()
                expect(answer.getheader("Strict-Transport-Security") == "max-age=31536000", f"{target}: no HSTS")
                expect(answer.getheader("X-Content-Type-Options") == "nosniff", f"{target}: its type may be guessed")
                expect(policy_of(answer.headers) == want, f"{target}: {policy_of(answer.headers)}")
                connection.close()

    def test_the_page_is_served_to_users_alone(self):
        """A user gets each file of the page, as it lies there and with its type, and nothing else of the folder."""
        types = {"html": "text/html; charset=utf-8", "css": "text/css; charset=utf-8", "js": "text/javascript; charset=utf-8"}
        with Front(self.program, self.folder) as front:
            for path in sorted(glob.glob(os.path.join(PAGE, "*"))):
                name = os.path.basename(path)
                target = "/" if name == "desk.html" else f"/{name}"
                with open(path, encoding="utf-8") as file:
                    want = file.read()
                for user, status in [(SHOP, 200), (None, 401)]:
                    connection = front.connect()
                    connection.request("GET", target, None, credentials(user) if user else {})
                    answer = connection.getresponse()
                    body = answer.read().decode()
                    connection.close()
                    expect(answer.status == status and (body == want) == (status == 200), f"{target}: {answer.status}")
                    expect(user is None or answer.getheader("Content-Type") == types[name.split(".")[1]], f"{target}: its type")
            for target in ["/desk.html", "/desk", "/words.js/", "/../shops.map", "/shops.map"]:
                expect(front.ask(SHOP, "GET", target)[0] == 404, f"{target} is there")

    def test_the_configuration_is_taken_without_a_warning(self):
        with Front(self.program, self.folder) as front:
            told = subprocess.run([*front.words, "-c"], env=front.environment, capture_output=True, text=True)
            expect(told.returncode == 0 and "WARNING" not in told.stderr, f"{told.stderr}")

    def test_nothing_but_tls_is_spoken(self):
        with Front(self.program, self.folder) as front:
            with socket.create_connection(("127.0.0.1", front.port), SECONDS) as plain:
                plain.sendall(head_of(SHOP, "/user"))
                with_tls = b""
                try:
                    with_tls = plain.recv(65_536)
                except ConnectionResetError:
                    pass
                expect(b"200" not in with_tls and b"shops" not in with_tls, f"{with_tls!r}")
            old = ssl.SSLContext(ssl.PROTOCOL_TLS_CLIENT)
            old.check_hostname, old.verify_mode = False, ssl.CERT_NONE
            with warnings.catch_warnings(action="ignore", category=DeprecationWarning):
                old.minimum_version = old.maximum_version = ssl.TLSVersion.TLSv1_1
            old.set_ciphers("ALL:@SECLEVEL=0")
            try:
                with socket.create_connection(("127.0.0.1", front.port), SECONDS) as plain, old.wrap_socket(plain):
                    expect(False, "TLS 1.1 is spoken")
            except (ssl.SSLError, ConnectionResetError):
                pass

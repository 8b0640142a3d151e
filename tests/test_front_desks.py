"""Tests of a front that stands before several desks: which desks a user sees, that no desk is held up by another one, the log,
the figures, and the page of each desk."""

import glob
import json
import os
import signal
import subprocess
import sys
import time

from support import TOP
from support.cases import needs
from support.chains import SHIPPED, Chain
from support.fronts import BETWEEN, NO_LIMITS, OFFICE, PAGE, SHOP, WAREHOUSE, FrontCase, credentials, head_of, message
from support.programs import SECONDS, expect

NO_DESK, NONE = (403, '{"error":"desk"}'), (404, '{"error":"none"}')

# users beside those of the example: one of each group at one desk, one whose desks are in another order, and those who have none
SHOPS = ["n2 1", "n3 2"]
USERS = ["s1 warehouse", "s2 office", "s3 between", "u1 office", "u2 office"]
AT = ["n2 south", "n3 south\tnorth", "s1 south", "s2 south", "s3 south", "u2 "]
DESKS_OF = {
    **{SHOP: ["north"], WAREHOUSE: ["north", "south"], OFFICE: ["north", "south"], BETWEEN: ["north", "south"]},
    **{"n2": ["south"], "n3": ["south", "north"], "s1": ["south"], "s2": ["south"], "s3": ["south"], "u1": [], "u2": []},
}

# what lies behind each desk's name
TARGETS = ["/", "/user", "/desk.js", "/v1/branches", "/v1/desk", "/v1/orders/7", "/v1/none", "/figures", ""]


class Desks(FrontCase):
    def test_each_user_sees_own_desks_alone(self):
        """At another desk a user gets 403, whatever is asked; at a desk that is not there 404; a user who has no desk gets 403
        everywhere."""
        with Chain(self.program, self.folder, shops=SHOPS, users=USERS, at=AT) as front:
            for user, desks in DESKS_OF.items():
                for desk in ["north", "south"]:
                    for target in TARGETS:
                        found = front.ask(user, "GET", f"/{desk}{target}")
                        expect((found == NO_DESK) == (desk not in desks), f"{user}, /{desk}{target}: {found}")
                    status, body = front.tell(user, "commit 999", desk=f"/{desk}")
                    expect((status, body) == (403, {"error": "desk"}) or desk in desks, f"{user}, {desk}: {status} {body}")
                for target in [
                    "/west/",
                    "/west",
                    "/v1/desk",
                    "/user",
                    "/desk.js",
                    "/norths/v1/desk",
                    "/nort/v1/desk",
                    "//v1/desk",
                ]:
                    found = front.ask(user, "GET", target)
                    expect(found == (NONE if desks else NO_DESK), f"{user}, {target}: {found}")
            expect(front.ask(None, "GET", "/north/v1/desk")[0] == 401, "nobody is answered")

    def test_a_user_is_told_own_desks(self):
        with Chain(self.program, self.folder, shops=SHOPS, users=USERS, at=AT) as front:
            for user, desks in DESKS_OF.items():
                for desk in desks:
                    told = json.loads(front.ask(user, "GET", f"/{desk}/user")[1])
                    expect(told["user"] == user and told["desks"].split() == desks, f"{user} at {desk}: {told}")
                    expect(told["group"] == {"b": "between", "h": "office", "w": "warehouse"}.get(user[0], told["group"]), user)

    def test_each_desk_is_its_own(self):
        """The same order is opened, under the same key, at each of three desks; what is done at one is not done at another."""
        desks = ["north", "south", "east2"]
        with Chain(self.program, self.folder, desks, users=["h2 office"], at=["h2 east2 south north"]) as front:
            for place, desk in enumerate(desks, 1):
                branch = f"{desk[0].upper()}1"
                line = f"open 7 60 take {branch} A-1 {place}"
                expect(front.tell("h2", line, "KEY-1", f"/{desk}")[0] == 200, f"not opened at {desk}")
                for number, other in enumerate(desks, 1):
                    status, body = front.ask("h2", "GET", f"/{other}/v1/orders/7")
                    expect((status == 200) == (number <= place), f"{other} behind {desk}: {status}")
                    expect(status == 404 or json.loads(body)["lines"][0]["held"] == number, f"{other}: {body}")
                branches = json.loads(front.ask("h2", "GET", f"/{desk}/v1/branches")[1])["branches"]
                expect(branches == [f"{desk[0].upper()}{n}" for n in (1, 2)], f"{desk}: {branches}")

    def test_no_desk_holds_another_up(self):
        """While a desk is away, those who ask another one are answered; who asks the absent desk is answered when it is there
        again."""
        with Chain(self.program, self.folder) as front:
            front.desk_kill("north")
            command = message("KEY-1", "deliver N1 A-1 5")
            waiting = [front.socket() for _ in range(10)]
            for client in waiting:
                client.sendall(head_of(WAREHOUSE, "/north/v1/commands", len(command)) + command.encode())
            time.sleep(0.5)
            began = time.monotonic()
            for number in range(50):
                expect(front.tell(WAREHOUSE, "deliver S1 A-1 1", desk="/south")[0] == 200, "the other is not answered")
            expect(time.monotonic() - began < 10, "the other is held up")
            front.desk_start("north")
            for client in waiting:
                expect(b'{"place":5}' in client.recv(65_536), "one that waited is not answered, or was done again")
                client.close()
            targets = ["/north/v1/fields/N1/A-1", "/south/v1/fields/S1/A-1"]
            values = [json.loads(front.ask(OFFICE, "GET", target)[1])["value"] for target in targets]
            expect(values == [505, 550], f"{values}")

    def test_a_desk_that_stands_still_holds_no_other_up(self):
        """More messages wait for a desk than it has connections; those who ask another one are answered, and in the end all
        are."""
        with Chain(self.program, self.folder) as front:
            front.running["north"].send_signal(signal.SIGSTOP)
            waiting = [front.socket() for _ in range(300)]
            for client in waiting:
                client.sendall(head_of(SHOP, "/north/v1/fields/N1/A-1"))
            began = time.monotonic()
            for _ in range(50):
                expect(front.tell(WAREHOUSE, "deliver S1 A-1 1", desk="/south")[0] == 200, "the other is not answered")
            expect(time.monotonic() - began < 10, "the other is held up")
            front.running["north"].send_signal(signal.SIGCONT)
            for client in waiting:
                expect(b'"value":500' in client.recv(65_536), "one that waited is not answered")
                client.close()

    def test_a_desk_more_needs_a_reload(self):
        """A desk's lines, and a user's, are enough. Before the reload the desk is not there, and meanwhile the others are asked
        as ever."""
        chain = Chain(self.program, self.folder, users=["h2 office"], at=["h2 north west"])
        chain.words.append("-W")
        with chain as front:
            expect(front.ask("h2", "GET", "/west/v1/desk") == NONE, "it is there already")
            front.desk_add("west")
            front.process.send_signal(signal.SIGUSR2)
            end = time.monotonic() + SECONDS
            while (found := front.ask("h2", "GET", "/west/v1/fields/W1/A-1"))[0] != 200:
                expect(time.monotonic() < end and found == NONE, f"not there: {found}")
                expect(front.tell("h2", "deliver N1 A-1 1", desk="/north")[0] == 200, "another one is not answered")
            expect(front.ask(OFFICE, "GET", "/west/v1/desk") == NO_DESK, "who is not at it is let in")

    def test_the_log_and_the_figures_name_the_desk(self):
        with Chain(self.program, self.folder) as front:
            front.tell(OFFICE, "deliver N1 A-1 5", "KEY-1", "/north")
            front.tell(OFFICE, "deliver S1 A-1 5", "KEY-1", "/south")
            front.tell(SHOP, "commit 7", "KEY-2", "/south")
            front.ask("nobody", "GET", "/south/v1/desk")
            time.sleep(0.2)
            lines = [line.split()[2:8] for line in front.log() if "/v1/" in line]
            want = [
                [OFFICE, "office", "POST", "/north/v1/commands", "200", "KEY-1"],
                [OFFICE, "office", "POST", "/south/v1/commands", "200", "KEY-1"],
                [SHOP, "shops", "POST", "/south/v1/commands", "403", "-"],
                ["-", "-", "GET", "/south/v1/desk", "401", "-"],
            ]
            expect(sorted(lines) == sorted(want), f"{lines}")
            for target in ["/figures", "/figures;csv", "/metrics"]:
                status, body = front.ask(OFFICE, "GET", target)
                expect(status == 200 and "desk-north" in body and "desk-south" in body, f"{target}: {status}")
                for user in [SHOP, WAREHOUSE, BETWEEN]:
                    expect(front.ask(user, "GET", target) == (403, '{"error":"group"}'), f"{user}, {target}")
                expect(front.ask(OFFICE, "GET", f"/north{target}") == NONE, f"/north{target}")

    def test_limits_are_for_all_desks_together(self):
        with Chain(self.program, self.folder, limits={**NO_LIMITS, "COMMANDS_BY_USER": "5", "UNDER_WAY_BY_USER": "3"}) as front:
            found = [front.tell(WAREHOUSE, "commit 7", desk=f"/{desk}")[0] for desk in ["north", "south"] * 4]
            expect(found[:5] == [403] * 5 and found[-1] == 429, f"{found}")
            front.desk_kill("north")
            waiting = [front.socket() for _ in range(3)]
            for client in waiting:
                client.sendall(head_of(OFFICE, "/north/v1/desk"))
            time.sleep(0.3)
            for user, want in [(OFFICE, 429), (WAREHOUSE, 200)]:
                expect(front.ask(user, "GET", "/south/v1/desk")[0] == want, f"{user} is not answered {want}")
            for client in waiting:
                client.close()


class Clients(FrontCase):
    @needs("curl")
    def test_the_examples_ask_one_of_several(self):
        """Both clients send their commands to the desk that is named, and none to the other."""
        with Chain(self.program, self.folder) as front:
            certificate, commands = os.path.join(self.folder, "certificate"), os.path.join(self.folder, "commands")
            with open(commands, "w", encoding="ascii") as file:
                file.write("deliver S1 A-1 5\nwriteoff S1 A-1 2\n")
            with open(os.path.join(self.folder, ".curlrc"), "w", encoding="ascii") as file:
                file.write(f'user = "ho:ho"\ncacert = "{certificate}"\n')
            calls = {"py": [sys.executable], "sh": ["sh"]}
            environment = {**os.environ, "HOME": self.folder, "DESK_USER": "ho:ho", "SSL_CERT_FILE": certificate}
            for count, (kind, words) in enumerate(calls.items(), 1):
                client = os.path.join(TOP, "examples", f"client.{kind}")
                desk = f"{'https://' if kind == 'sh' else ''}localhost:{front.port}/south"
                journal = os.path.join(self.folder, kind)
                told = subprocess.run([*words, client, desk, commands, journal], env=environment, capture_output=True, text=True)
                expect(told.returncode == 0 and told.stdout.count("is done") == 2, f"{kind}: {told}")
                field = json.loads(front.ask(OFFICE, "GET", "/south/v1/fields/S1/A-1")[1])
                expect(field["value"] == 500 + 3 * count, f"{kind}: {field}")


class Pages(FrontCase):
    def test_each_desk_has_the_page(self):
        """The page is behind each desk's name, each file as it lies there; without a name it is the page of the user's first
        desk."""
        with Chain(self.program, self.folder, shops=SHOPS, users=USERS, at=AT) as front:
            for path in sorted(glob.glob(os.path.join(PAGE, "*"))):
                name = os.path.basename(path).replace("desk.html", "")
                with open(path, encoding="utf-8") as file:
                    want = file.read()
                for desk in ["north", "south"]:
                    expect(front.ask(OFFICE, "GET", f"/{desk}/{name}") == (200, want), f"/{desk}/{name}")
            for user, desks in DESKS_OF.items():
                for target, led in [("/", desks[:1])] + [(f"/{desk}", [desk]) for desk in desks]:
                    connection = front.connect()
                    connection.request("GET", target, None, credentials(user))
                    answer = connection.getresponse()
                    answer.read()
                    place = answer.getheader("Location")
                    want = (302, f"/{led[0]}/") if led else (403, None)
                    expect((answer.status, place) == want, f"{user}, {target}: {answer.status}, {place}")
                    expect(answer.getheader("X-Content-Type-Options") == "nosniff", f"{target}: its type may be guessed")
                    connection.close()

    def test_the_configuration_is_taken_without_a_warning(self):
        """HAProxy takes the configuration as it is shipped, and with three desks."""
        with Chain(self.program, self.folder, ["north", "south", "west"]) as front:
            for words in [front.words, [*front.words[:-1], SHIPPED]]:
                told = subprocess.run([*words, "-c"], env=front.environment, capture_output=True, text=True)
                expect(told.returncode == 0 and not told.stderr, f"{told.stderr}")

"""Tests of `serve` with `--places`: the service ends by itself once so many places are taken or set aside, so that its unit rolls
the desk up; a desk that has as many as it begins is served on."""

import json

from support.asks import ask_of
from support.cases import ProgramCase
from support.programs import done, expect, new_desk
from support.service import TOGETHER, Service, answered, post
from support.tables import tables_of
from support.units import Unit, settings_of

# commands of a desk, and how many places are taken or set aside behind each
COMMANDS = [
    ("F1", "field N1 A-1 0 100 40", 1),
    ("K1", "deliver N1 A-1 1", 2),
    ("K2", "open 7 60 take N1 A-1 1", 4),
    ("K3", "use 7 N1 A-1 1", 5),
    ("K4", "commit 7", 5),
    ("K5", "deliver N1 A-1 1", 6),
    ("K6", "open 8 60 take N1 A-1 1", 8),
    ("K7", "deliver N1 A-1 1", 9),
]
# of how many messages that come at once, and how many there are in a round at the most
SENT, ROUND = 90, 8


class Places(ProgramCase):
    def service(self, path, most, connections=1):
        return Service(self.program, path, connections, options=[*TOGETHER, "--places", str(most)])

    def sent(self, service, commands):
        """Sends commands one by one, each of which has to be done."""
        connection = service.connect()
        for key, command, _ in commands:
            status, _, body = post(connection, key, command)
            expect(status == 200 and "place" in json.loads(body), f"{key} {command}: {status}, {body}")
        return connection

    def test_a_service_ends_once_so_many_places_are_taken(self):
        """Whatever it answered is kept: also the command by which the desk has filled up."""
        for most in range(2, 10):
            path = new_desk(self.program, self.folder, f"{most}.db")
            end = next(number for number, (_, _, taken) in enumerate(COMMANDS, 1) if taken >= most)
            service = self.service(path, most, 1_000)
            connection = self.sent(service, COMMANDS[:end])
            service.expect_end()
            connection.close()
            shown = done(self.program, ["run", path], "".join(f"{key} {command}\n" for key, command, _ in COMMANDS[:end]))
            expect(shown == [f"{key} done {place}" for place, (key, _, _) in enumerate(COMMANDS[:end], 1)], f"{most}: {shown}")

    def test_a_desk_that_is_full_as_it_begins_is_served_on(self):
        """So a desk to which a roll gives no room is not ended again and again."""
        for most in [1, 4, 5]:
            path = new_desk(self.program, self.folder, f"{most}.db")
            done(self.program, ["run", path], "".join(f"{key} {command}\n" for key, command, _ in COMMANDS[:4]))
            service = self.service(path, most)
            self.sent(service, COMMANDS[4:]).close()
            service.expect_end()

    def test_what_is_refused_or_repeated_takes_no_place(self):
        path = new_desk(self.program, self.folder)
        service = self.service(path, 2, 2)
        connection = self.sent(service, COMMANDS[:1] * 3)
        status, _, body = post(connection, "X", "writeoff N1 A-1 41")
        expect(status == 409, f"{status}, {body}")
        connection.close()
        self.sent(service, COMMANDS[1:2]).close()
        service.expect_end()

    def test_it_ends_within_a_round(self):
        """Of many commands that come at once a first part is answered, and what is answered is kept."""
        path, most = new_desk(self.program, self.folder), 20
        done(self.program, ["run", path], "F field N1 A-1 0 100 0\n")
        service = Service(self.program, path, 9, options=[TOGETHER[0], str(ROUND), "--places", str(most)])
        found = answered(service.port, [b"".join(ask_of(f"D{number} deliver N1 A-1 1").text for number in range(SENT))])
        service.expect_end()
        places = tables_of(path)["desk"][0].places
        expect(most <= places < most + ROUND, f"{places} places")
        expect(found.count(b"HTTP/1.1 200 ") < places, f"{places} places, and more answers")

    def test_the_unit_leaves_a_twentieth_of_the_places_free(self):
        """That suffices for the last round, and for the ends of orders."""
        [line] = settings_of("stockdesk@.service", "ExecStart")
        expect("--together 256 " in line and line.endswith(" --places 190000"), line)
        expect("190000" in Unit(self.program, "desk.db", 1).words, "not told to the program")

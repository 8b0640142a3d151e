"""Tests of clients that write while their desk is rolled up, as the unit of systemd has it: through the front a roll of a full
desk is only a wait; and where rolls and services are killed, nothing is lost and nothing is done twice. In the environment
ROLL_KILLS says how many rolls are killed: `ROLL_KILLS=300 ./check tests rolls_crowds.Killed` has 300."""

import http.client
import os
import random
import time
from collections import Counter
from functools import partial

from support.cases import ProgramCase, needs_strict_tables
from support.desks import Desks
from support.fronts import FIELDS, FrontCase, Haproxy, free_port
from support.full_desks import full_rows
from support.programs import SECONDS, done, expect, new_desk, note
from support.rolled import kill_group
from support.units import Unit, kept_up
from support.writers import expect_once, files_of, values_in, writing

# of a full desk: as many orders are open, so many places are taken, and from so many on, taken and set aside, the service ends
OPEN, PLACES, MOST = 55_000, 94_900, 152_000
CLIENTS, ROLLS = 64, 2

# on a machine of today nobody waits longer than 10 seconds; a test on a busy machine allows for more
WAIT = 25

# of a small desk: how many keys stay, how many clients write, and how many rolls are killed
KEYS, WRITERS, KILLS = 1_000, 8, 15


@needs_strict_tables
class Full(FrontCase):
    def test_a_roll_of_a_full_desk_is_only_a_wait(self):
        """64 clients write as fast as they can. Each time that the desk has filled up, it is rolled up and started again as by
        its unit: each command is answered, and done once."""
        desks, port = Desks(self.program, self.folder), free_port()
        desks.put(full_rows(OPEN, PLACES, has_room=True))
        before = values_in(desks.path)
        front, unit = Haproxy(self.folder, port), Unit(self.program, desks.path, port, instead={"190000": str(MOST)})
        with kept_up(unit):
            front.start()
            try:
                with writing(front.connect, CLIENTS, [f"N1 A-{n}" for n in range(8)], is_patient=False) as writers:
                    wait_for_rolls(unit)
            finally:
                front.stop()
        count = expect_once(desks.path, before, writers)
        waited = max(writer.longest for writer in writers)
        expect(waited < WAIT, f"a client waited for {waited:.1f} s")
        took = ", ".join(f"{start.took:.1f} (down {start.down():.1f})" for start in unit.starts if start.is_roll())
        note(f"{count} commands, rolls of {took} s, the longest wait {waited:.1f} s")


def wait_for_rolls(unit):
    """Waits until the desk was rolled up so often, and serves again for a while."""
    latest = time.monotonic() + 3 * SECONDS
    while sum(start.is_roll() for start in unit.starts) < ROLLS:
        expect(time.monotonic() < latest, f"no roll: {unit.starts}")
        time.sleep(0.1)
    time.sleep(1)


@needs_strict_tables
class Killed(ProgramCase):
    def test_kills_leave_nothing_lost_and_nothing_twice(self):
        """Clients write; again and again the service is killed, and then the roll, at a random moment. The unit goes on with what
        it finds; clients ask again under their keys."""
        path, port = new_desk(self.program, self.folder), free_port()
        done(self.program, ["run", path], FIELDS + "".join(f"B{n} deliver N1 A-1 1\n" for n in range(KEYS)))
        before, kills, ends = values_in(path), int(os.environ.get("ROLL_KILLS", KILLS)), Counter[str]()
        unit, generator = Unit(self.program, path, port, look=["--from", str(KEYS), "--keys", str(KEYS)]), random.Random(1986)
        unit.start(time.monotonic())
        # so many seconds after its start a roll is killed at the latest; half of them are to come to an end before
        latest = unit.starts[0].took
        connect = partial(http.client.HTTPConnection, "127.0.0.1", port, timeout=SECONDS)
        with writing(connect, WRITERS, [f"N1 A-{n}" for n in range(1, 9)], is_patient=True) as writers:
            for _ in range(kills):
                time.sleep(generator.uniform(0.05, 0.25))
                left = self.killed(unit, path, generator.uniform(0, latest))
                latest *= 0.9 if left == "the new desk" else 1.1
                ends[left] += 1
            unit.kill()
            unit.start(time.monotonic())
        unit.kill()
        done(self.program, ["run", path], "")
        count, rolls = expect_once(path, before, writers), len(files_of(path)) - 1
        lost = sum(writer.lost for writer in writers)
        note(f"{count} commands, {kills} rolls killed, {rolls} came to an end, {lost} answers lost; {dict(ends)}")
        expect(lost > 0 and len(ends) > 1, f"{ends}")

    def killed(self, unit, path, seconds):
        """Kills the service, and after so many seconds the roll before the next start; starts the service. Returns what the kill
        left."""
        unit.kill()
        names, tool = len(files_of(path)), unit.looking()
        time.sleep(seconds)
        kill_group(tool, path)
        was_new, has_two = len(files_of(path)) > names, os.stat(path).st_nlink > 1
        if not unit.serve():
            expect(has_two, "a desk with one name is not served")
            unit.start(time.monotonic())
        return "two names" if has_two else "the new desk" if was_new else "the old desk"

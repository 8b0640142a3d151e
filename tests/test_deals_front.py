"""Tests of the carrier of deals between desks that stand behind one front: who is let in, and that each transfer is moved whole
or not at all, whatever is killed behind the front."""

import json
import os
import random
import subprocess
import sys
import time

from support import DEPLOY
from support.chains import Chain
from support.fronts import FrontCase
from support.programs import SECONDS, expect, note

CARRIER = os.path.join(DEPLOY, "stockdesk-between")
NUMBER = 900_000_000
TRANSFERS = 20
DESKS = {"north": "N1", "south": "S1"}
KILLED = -9


def words_of(front: Chain, *desks: str) -> list[str]:
    """The words that name the desks to the carrier, and how it knows the front."""
    urls = [f"https://localhost:{front.port}/{desk}" for desk in desks]
    return [*urls, "--certificate", os.path.join(front.folder, "certificate")]


def begun(number: int | str, words: list[str], user: str) -> subprocess.Popen[str]:
    environment = {**os.environ, "DESK_USER": f"{user}:{user}"}
    call = [sys.executable, CARRIER, str(number), *words]
    return subprocess.Popen(call, env=environment, stdout=subprocess.PIPE, stderr=subprocess.STDOUT, text=True)


def called(number: int | str, words: list[str], user: str = "bt") -> tuple[int, str]:
    with begun(number, words, user) as call:
        told, _ = call.communicate(timeout=4 * SECONDS)
    return call.returncode, told


def values(front: Chain) -> list[int]:
    found = [front.ask("ho", "GET", f"/{desk}/v1/fields/{branch}/A-1") for desk, branch in DESKS.items()]
    return [json.loads(body)["value"] for _, body in found]


class DealsFront(FrontCase):
    def test_who_is_let_in(self):
        """The group between is let in at both desks. The office, a shop, and a user who is at one desk alone begin nothing, nor
        does a call with a misspelt desk."""
        with Chain(self.program, self.folder, users=["b2 between", "b3 between"], at=["b2 north"]) as front:
            words = [*words_of(front, *DESKS), "--move", "A-1", "7", *DESKS.values()]
            for user in ["ho", "n1", "w1", "b2", "b3", "nobody"]:
                status, told = called(NUMBER, words, user)
                expect(status == 2, f"{user}: {status} {told}")
                for desk in DESKS:
                    opened = json.loads(front.ask("ho", "GET", f"/{desk}/v1/desk")[1])["open"]
                    expect(opened == 0, f"{user}: {opened} open at {desk}")
            for pair in (["nort", "south"], ["north", "sout"]):
                status, told = called(NUMBER, [*words_of(front, *pair), *words[-5:]])
                expect(status == 2 and "is no desk" in told, f"{pair}: {status} {told}")
            for desk in DESKS:
                expect(json.loads(front.ask("ho", "GET", f"/{desk}/v1/desk")[1])["orders"] == 0, f"begun at {desk}")
            expect(values(front) == [500, 500], f"{values(front)}")
            expect(called(NUMBER + 1, words) == (0, f"{NUMBER + 1} moved\n"), "not moved")
            expect(values(front) == [493, 507], f"{values(front)}")

    def test_desks_and_carriers_are_killed(self):
        chance, moved, killed = random.Random(1991), 0, 0
        with Chain(self.program, self.folder) as front:
            for number in range(NUMBER, NUMBER + TRANSFERS):
                quantity, order = chance.randint(1, 9), chance.choice([1, -1])
                desks = list(DESKS)[::order]
                words = [*words_of(front, *desks), "--move", "A-1", str(quantity), *(DESKS[desk] for desk in desks)]
                status = KILLED
                while status == KILLED:
                    with begun(number, words, "bt") as call:
                        time.sleep(chance.uniform(0.05, 0.3))
                        victim = chance.choice(["", "", *DESKS])
                        if victim:
                            front.desk_kill(victim)
                            front.desk_start(victim)
                        else:
                            call.kill()
                        told, _ = call.communicate(timeout=4 * SECONDS)
                    status = call.returncode
                    killed += status == KILLED
                expect(status in (0, 1), f"{number}: status {status} {told}")
                moved += quantity * order if status == 0 else 0
                expect(values(front) == [500 - moved, 500 + moved], f"{number}: {values(front)}, {moved}")
            status, told = called("--resume-all", [*words_of(front, *DESKS), "--idle", "0"])
            expect(status == 0, f"{status} {told}")
            for desk in DESKS:
                expect(json.loads(front.ask("ho", "GET", f"/{desk}/v1/desk")[1])["open"] == 0, f"{desk}: a deal is open")
        note(f"{TRANSFERS} transfers, {killed} carriers killed")

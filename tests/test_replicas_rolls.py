"""Tests of rolls on three machines: each machine rolls its own desk up where it comes to the roll in the log, also one that was
down, was stopped amid it, or begins again with an old copy. A desk that gets full is rolled up by itself."""

import asyncio
import hashlib
import json
import os
import random
import shutil
from collections import Counter
from collections.abc import Callable, Iterable

from support.chance import SEED, TIMES
from support.programs import expect, note
from support.replica_lives import SECONDS, LifeCase, all_told, ended, shown, told, well
from support.replica_network import MACHINES
from support.replica_wrong import changed_tools
from support.replicas import Machines
from support.tables import tables_of

# an order that stays open, and one that ends; and a name for a file that a roll leaves
FIRST = ["F field N1 A-1 0 1000 500", "O open 7 60 take N1 A-1 5", "P open 8 60 take N1 A-1 2", "Q commit 8"]
OLD_NAME = "old-20260101T000000Z.db"
# how often a machine is killed at some moment of a roll
KILLS = 8

# a program that stands still before it does what the file `hold` names, as long as that file is there; and fails to roll while
# the file `fail` is there
HELD_PROGRAM = """#!/bin/sh
[ "$1" != roll ] || [ ! -e {folder}/fail ] || exit 1
if [ "$1" = "$(cat {folder}/hold 2>/dev/null)" ]; then
    touch {folder}/held
    while [ -e {folder}/hold ]; do sleep 0.02; done
fi
exec {program} "$@"
"""


def delivered(name: str, count: int) -> list[str]:
    return [f"{name}{number} deliver N1 A-1 1" for number in range(count)]


def stand(lines: list[str]) -> str:
    """What a machine tells of a desk that has kept these lines: how many, and their digest."""
    digest = b""
    for line in lines:
        digest = hashlib.sha256(digest + line.encode()).digest()
    return f"{len(lines)} {digest.hex()}"


def rolled(lines: list[str], keys: int) -> str:
    """What a machine tells at a roll of such a desk, of which so many keys stay."""
    return ",".join([stand(lines), *stand(lines[-keys:]).split(" ")])


async def until(fact: Callable[[], bool], what: str) -> None:
    clock = asyncio.get_running_loop()
    latest = clock.time() + SECONDS
    while not await asyncio.to_thread(fact):
        expect(clock.time() < latest, f"not in time: {what}")
        await asyncio.sleep(0.05)


async def fill(machines: Machines, numbers: Iterable[int], lines: list[str], first: int = 1) -> None:
    """Has these machines in turn carry lines out, which get the places from that one on."""
    turns = list(numbers)
    asks = [(turns[at % len(turns)], *line.partition(" ")[::2]) for at, line in enumerate(lines)]
    answers = await all_told(machines, asks)
    wanted = [(200, {"place": first + at}) for at in range(len(lines))]
    expect(answers == wanted, f"{answers}")


async def add(machines: Machines, word: str, *numbers: int) -> int:
    """Adds a mark, or a roll, and waits until these machines have told where they stand there. Returns its revision."""
    newest = max(revision for revision, _ in machines.marks(1))
    machines.etcdctl(1, "put", f"{machines.log}/log", word.format(newest))

    def have_told() -> bool:
        return {f"m{each}" for each in numbers} <= {name for revision, name in machines.told(1) if revision > newest}

    await until(have_told, "all tell where they stand")
    return max(revision for revision, _ in machines.told(1))


async def expect_places(machines: Machines, want: int, *numbers: int) -> None:
    for machine in numbers:
        found = json.loads((await shown(machines, machine, "/v1/desk"))[1])
        expect(found["places"] == want, f"{machine}: {found}")


def expect_told(machines: Machines, revision: int, want: str, *numbers: int) -> None:
    """These machines, and no others, have told this at a mark."""
    found = {name: value for (at, name), value in machines.told(1).items() if at == revision}
    expect(found == {f"m{each}": want for each in numbers}, f"{revision}: {found} and not {want}")


class ReplicasRolls(LifeCase):
    def expect_alike(self, machines: Machines, lines: list[str]) -> None:
        """All desks have kept these lines, and have the same rows."""
        tables = machines.tables()
        expect(tables[0] == tables[1] == tables[2], "other rows")
        kept = sorted(tables_of(machines.desk(1))["kept"], key=lambda row: row.place)
        expect([f"{row.reqkey} {row.words}" for row in kept] == lines, f"{kept}")

    def test_each_machine_rolls_its_desk(self):
        """The last four of nine commands stay, of ten three: also where a machine was down, or has an old copy."""
        lines = [*FIRST, *delivered("A", 5)]
        more = [*lines, "B0 deliver N1 A-1 1"]

        async def live(machines: Machines) -> None:
            await self.begin(machines)
            await fill(machines, MACHINES, lines)
            old_copy = machines.back_up(2)
            await machines.stop("replica", 3)
            revision = await add(machines, "roll {} 4", 1, 2)
            expect_told(machines, revision, rolled(lines, 4), 1, 2)
            await expect_places(machines, 4, 1, 2)
            await self.expect_shown(machines)
            machines.start("replica", 3)
            await well(machines)
            await expect_places(machines, 4, 3)
            await fill(machines, [3], more[-1:], 5)
            # of two at once, the second has an old mark; no key would go at a third one
            revision = await add(machines, "roll {0} 3", *MACHINES)
            machines.etcdctl(1, "put", "desk/1/log", f"roll {revision - 1} 2")
            expect_told(machines, revision, rolled(more[-5:], 3), *MACHINES)
            expect_told(machines, await add(machines, "roll {} 3", *MACHINES), stand(more[-3:]), *MACHINES)
            expect([len(machines.olds(each)) for each in MACHINES] == [2, 2, 2], "other rolls")
            await self.bring_back(machines, old_copy)
            expect_told(machines, await add(machines, "mark {}", *MACHINES), stand(more[-3:]), *MACHINES)

        self.expect_alike(self.run_machines(live), more[-3:])

    async def begin(self, machines: Machines) -> None:
        await machines.begin_log()
        for machine in MACHINES:
            machines.start("replica", machine)
        await well(machines)

    async def expect_shown(self, machines: Machines) -> None:
        """A desk of which the last four commands have stayed."""
        wanted = {"keys/A4": 200, "keys/A0": 404, "keys/O": 404, "orders/7": 200, "orders/8": 404}
        found = {name: (await shown(machines, 2, f"/v1/{name}"))[0] for name in wanted}
        expect(found == wanted, f"{found}")
        expect(await told(machines, 1, "A4", "deliver N1 A-1 1") == (200, {"place": 4}), "another place")

    async def bring_back(self, machines: Machines, copy: str | None) -> None:
        """The second machine begins again with a copy from before all rolls."""
        expect(copy is not None, "no copy was made")
        await machines.stop("replica", 2)
        shutil.rmtree(os.path.dirname(machines.desk(2)))
        machines.restore(2, copy or "")
        machines.start("replica", 2)
        await well(machines)
        expect(len(machines.olds(2)) == 2, "other rolls of the copy")

    def test_a_machine_that_is_stopped_amid_its_roll_goes_on(self):
        """The third machine is killed before its new desk is made, and before that serves. At last its roll fails, and then the
        old desk has two names."""
        lines = [*FIRST, *delivered("A", 5), *delivered("B", 5), *delivered("C", 5)]
        held = os.path.join(self.folder, "held-program")
        with open(held, "w", encoding="utf-8") as file:
            file.write(HELD_PROGRAM.format(folder=self.folder, program=self.program))
        os.chmod(held, 0o700)

        async def live(machines: Machines) -> None:
            await self.begin(machines)
            await fill(machines, [1, 2], lines[:9])
            await self.kill_amid(machines, held, "roll", [])
            await fill(machines, MACHINES, lines[9:14], 5)
            await self.kill_amid(machines, held, "serve", machines.olds(3))
            await fill(machines, MACHINES, lines[14:], 5)
            await self.fails(machines, held)
            os.link(machines.desk(3), os.path.join(os.path.dirname(machines.desk(3)), OLD_NAME))
            machines.start("replica", 3)
            await well(machines)
            expect(
                not any(path.endswith(OLD_NAME) for path in machines.olds(3)) and len(machines.olds(3)) == 3,
                f"{machines.olds(3)}",
            )
            revision = await add(machines, "mark {}", *MACHINES)
            expect_told(machines, revision, stand(lines[-4:]), *MACHINES)

        self.expect_alike(self.run_machines(live), lines[-4:])

    async def fails(self, machines: Machines, held: str) -> None:
        """The third machine's program fails to roll, and so the machine ends, and has its old desk; the others go on."""
        await self.start_with(machines, held)
        with open(os.path.join(self.folder, "fail"), "w", encoding="ascii"):
            pass
        await add(machines, "roll {} 4", *MACHINES)
        status, said = await ended(machines, "replica", 3)
        expect(status == 1 and "the desk is not rolled up" in said, f"{status}: {said}")
        await expect_places(machines, 4, 1, 2)
        expect(tables_of(machines.desk(3))["desk"][0].places == 9, "the desk is another one")

    async def start_with(self, machines: Machines, program: str) -> None:
        """The third machine begins again with this program."""
        right = machines.program
        await machines.stop("replica", 3)
        machines.program = program
        machines.start("replica", 3)
        machines.program = right
        await well(machines)

    async def kill_amid(self, machines: Machines, held: str, word: str, olds: list[str]) -> None:
        """Kills the third machine as its program is to do this at a roll that leaves four keys; it has these old files before."""
        hold = os.path.join(self.folder, "hold")
        await self.start_with(machines, held)
        with open(hold, "w", encoding="ascii") as file:
            file.write(word)
        await add(machines, "roll {} 4", *MACHINES)
        await until(lambda: os.path.exists(os.path.join(self.folder, "held")), f"{word} is held")
        await machines.stop("replica", 3)
        expect(len(machines.olds(3)) == len(olds) + (word == "serve"), f"at {word} are {machines.olds(3)}")
        os.remove(hold)
        os.remove(os.path.join(self.folder, "held"))
        machines.start("replica", 3)
        await well(machines)
        await expect_places(machines, 4, *MACHINES)

    def test_a_machine_is_killed_at_any_moment_of_a_roll(self):
        """The third machine is killed up to a second after a roll was added, again and again."""
        count, sides = KILLS * TIMES, Counter[str]()

        async def live(machines: Machines) -> None:
            moments = random.Random(SEED)
            await self.begin(machines)
            await fill(machines, [1, 2], FIRST)
            for number in range(count):
                await fill(machines, MACHINES, delivered(f"L{number}-", 3), 5)
                machines.add_roll(1)
                await asyncio.sleep(moments.uniform(0, 1))
                await machines.stop("replica", 3)
                sides["behind the roll" if len(machines.olds(3)) > number else "before it"] += 1
                machines.start("replica", 3)
                await well(machines)
                await expect_places(machines, 4, *MACHINES)
            expect([len(machines.olds(each)) for each in MACHINES] == [count] * 3, "other rolls")
            expect(len(set(machines.told(1).values())) == count + 1, "some stand elsewhere")

        last = [*delivered(f"L{count - 2}-", 3), *delivered(f"L{count - 1}-", 3)]
        self.expect_alike(self.run_machines(live, keys=4), last[-4:])
        note(f"{count} kills: {dict(sides)}")

    def test_a_full_desk_is_rolled_up_by_itself(self):
        """At twelve places, two of them set aside, all but six keys go, once; the shops only wait."""
        lines = ["F field N1 A-1 0 1000 500", *(f"O{each} open {each} 60 take N1 A-1 5" for each in (1, 2)), *delivered("A", 17)]

        async def live(machines: Machines) -> None:
            machines.roll_from = 12
            await self.begin(machines)
            await fill(machines, MACHINES, lines[:9])
            await asyncio.sleep(7)
            await expect_places(machines, 9, *MACHINES)
            await fill(machines, MACHINES, lines[9:10], 10)
            await until(lambda: len(self.rolls(machines)) == 3, "the roll")
            expect(self.rolls(machines) == [rolled(lines[:10], 6)] * 3, f"{self.rolls(machines)}")
            await fill(machines, MACHINES, lines[10:13], 7)
            await asyncio.sleep(7)
            expect(len(self.rolls(machines)) == 3, f"{self.rolls(machines)}")

        self.expect_alike(self.run_machines(live, keys=6), lines[4:13])

    def rolls(self, machines: Machines) -> list[str]:
        """What machines have told of desks that they rolled up."""
        return [value for value in machines.told(1).values() if "," in value]

    def test_a_desk_that_goes_astray_is_ended_at_a_roll(self):
        """A machine whose program leaves a command out has other rows behind the roll, and ends with status 4."""
        right = "            if not self.walk.passes_over(line):"
        wrong = "            if b'A2' not in line and not self.walk.passes_over(line):"
        replica = changed_tools(os.path.join(self.folder, "wrong"), "stockdesk_machine", right, wrong)
        lines = [*FIRST, *delivered("A", 5)]

        async def live(machines: Machines) -> None:
            await machines.begin_log()
            for machine in MACHINES:
                machines.replica = replica if machine == 3 else machines.replica
                machines.start("replica", machine)
            await well(machines)
            await fill(machines, [1, 2], lines)
            await add(machines, "roll {} 2", *MACHINES)
            status, said = await ended(machines, "replica", 3)
            expect(status == 4 and "differs" in said, f"{status}: {said}")
            expect(await told(machines, 2, "B0", "writeoff N1 A-1 1") == (200, {"place": 3}), "another place")
            expect(machines.processes["replica", 1].poll() is None, "the right one ended, too")

        self.run_machines(live)

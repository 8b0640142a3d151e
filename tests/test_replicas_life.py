"""Tests of a desk's life on three machines: it comes from one machine, its log is ended, it is rolled over and goes on in another
log; desks of another log, or which go astray; a client that knows several machines; bad messages."""

import asyncio
import hashlib
import json
import os
import shutil
import signal
import subprocess
import sys
from asyncio.subprocess import PIPE
from collections.abc import Callable

from support import TOP
from support.copies import alone
from support.programs import done, expect, new_desk
from support.replica_clients import NO_ANSWER, Known, Wire, commanded
from support.replica_lives import SECONDS, LifeCase, all_told, ended, shown, told, well
from support.replica_network import MACHINES, Failed, run
from support.replica_wrong import changed_tools
from support.replicas import PORT, Machines
from support.tables import rows_of

CLIENT = os.path.join(TOP, "examples", "client.py")
OLD = "F field N1 A-1 0 100 40\nO open 7 60 take N1 A-1 30\nW writeoff N1 A-1 10\nU use 7 N1 A-1 5\n"
ENDED = (503, '{"error":"ended"}')
# how many seconds the tests wait for an end that has to come at once
AT_ONCE_SECONDS = 20
# how long a machine is seen to wait
WAITING_SECONDS = 3


async def answer_of_any(machines: Machines, machine: int) -> tuple[int, str] | None:
    """What a machine answers to a command, or None where it is not there."""
    try:
        return await commanded((machines.address(machine), PORT), "E4", "deliver N1 A-1 1")
    except NO_ANSWER:
        return None


async def begin(machines: Machines, file: str) -> None:
    """The machines take over a desk; the first begins its log."""
    for machine in MACHINES:
        shutil.rmtree(os.path.dirname(machines.desk(machine)), ignore_errors=True)
        os.makedirs(os.path.dirname(machines.desk(machine)))
        shutil.copyfile(file, machines.desk(machine))
    await machines.begin_log()
    for machine in MACHINES:
        machines.start("replica", machine)
    await well(machines)


async def expect_refused_desk(machines: Machines, make: Callable[[], None], want: str) -> None:
    """The third machine has another desk for once, and does not serve it."""
    await machines.stop("replica", 3)
    folder = os.path.dirname(machines.desk(3))
    os.rename(folder, folder + "-aside")
    os.mkdir(folder)
    make()
    machines.start("replica", 3)
    status, said = await ended(machines, "replica", 3)
    expect(status == 1 and want in said, f"{status}: {said}")
    shutil.rmtree(folder)
    os.rename(folder + "-aside", folder)
    machines.start("replica", 3)


async def expect_not_begun(machines: Machines, want: str) -> None:
    """The first machine's desk begins no log, and the tool says so at once; the entries of the log stay."""
    before = machines.etcdctl(1, "get", f"{machines.log}/log")
    try:
        await asyncio.wait_for(machines.begin_log(), AT_ONCE_SECONDS)
    except Failed as failed:
        expect(want in str(failed), f"{failed}")
    else:
        raise AssertionError(f"{machines.log} has begun")
    expect(machines.etcdctl(1, "get", f"{machines.log}/log") == before, f"{machines.log} has a new entry")


async def expect_misnamed(machines: Machines, name: str, *more: str) -> None:
    """The first machine ends where it is called so, with the status behind which its unit stays down, and says why."""
    words = [name if word == "m1" else word for word in machines.words("replica", 1)]
    process = await asyncio.create_subprocess_exec(*machines.network.inside(1), *words, *more, stderr=PIPE)
    said = (await asyncio.wait_for(process.communicate(), AT_ONCE_SECONDS))[1].decode()
    expect(process.returncode == 2 and "MACHINE" in said, f"{name}: {process.returncode}, {said}")
    expect("/" in name or f"MACHINE is {name!r}" in said and "'m1'" in said, f"{name}: {said}")


class ReplicasLife(LifeCase):
    def old_desk(self, name: str = "old.db") -> str:
        path = new_desk(self.program, self.folder, name)
        expect(len(done(self.program, ["run", path], OLD)) == 4, "another desk")
        return path

    def test_a_desk_comes_from_one_machine_and_is_rolled_over(self):
        """The answers follow from the rules: 40 pieces, of which 10 are written off and 30 held."""
        file = self.old_desk()

        async def live(machines: Machines) -> None:
            await begin(machines, file)
            asks = [(2, "W", "writeoff N1 A-1 10"), (3, "D", "deliver N1 A-1 5"), (1, "X", "writeoff N1 A-1 6")]
            answers = await all_told(machines, asks)
            expect([body.get("place") for _, body in answers] == [3, 5, None], f"{answers}")
            expect((await shown(machines, 2, "/v1/keys/D"))[1] == '{"command":"deliver N1 A-1 5","place":5}', "not kept so")
            await expect_refused_desk(machines, lambda: self.put_other(machines, OLD + "Y deliver N1 A-1 6\n"), "another log's")
            # a desk that has nothing is not the one with which the log began
            await expect_refused_desk(machines, lambda: machines.make_desk(3), "begins with 4 places")
            await well(machines)
            await self.end(machines)
            new = os.path.join(self.folder, "new.db")
            done(self.program, ["roll", machines.desk(1), new])
            machines.log = "desk/2"
            await begin(machines, new)
            field = '{"article":"A-1","branch":"N1","hi":100,"inf":5,"lo":0,"sup":35,"value":35}'
            expect(await shown(machines, 3, "/v1/fields/N1/A-1") == (200, field), "another field")

        machines = self.run_machines(live)
        tables = machines.tables()
        expect(tables[0] == tables[1] == tables[2], "other rows")

    def put_other(self, machines: Machines, lines: str) -> None:
        path = new_desk(self.program, os.path.dirname(machines.desk(3)))
        done(self.program, ["run", path], lines)

    async def end(self, machines: Machines) -> None:
        """The log's end stops all; behind its compaction a new desk does not find its way."""
        machines.etcdctl(1, "put", "desk/1/log", "end")
        answers = [
            await Wire((machines.address(each), PORT)).command(f"E{each}", "deliver N1 A-1 1", SECONDS) for each in MACHINES
        ]
        expect(answers == [ENDED] * 3, f"{answers}")
        await machines.try_until(lambda: machines.compact() > 0 and len(machines.marks(1)) >= 4)
        # a machine that starts behind the end knows of it, too
        await machines.stop("replica", 2)
        machines.start("replica", 2)
        while (answer := await answer_of_any(machines, 2)) is None:
            await asyncio.sleep(0.1)
        expect(answer == ENDED, f"{answer}")
        await expect_refused_desk(machines, lambda: machines.make_desk(3), "start from a newer copy")
        for machine in MACHINES:
            await machines.stop("replica", machine)
        found = [rows_of(machines.desk(each)) for each in MACHINES]
        expect(found[0] == found[1] == found[2], "other rows at the end")

    def test_a_log_begins_with_an_empty_desk(self):
        """Each machine starts on an empty desk, and again behind its mark, at which a desk with nothing stood."""

        async def live(machines: Machines) -> None:
            await machines.begin_log()
            for machine in MACHINES:
                machines.start("replica", machine)
            await well(machines)
            await machines.try_until(lambda: len(machines.marks(1)) > 0)
            for machine in MACHINES:
                await machines.stop("replica", machine)
                machines.start("replica", machine)
                await well(machines, machine)
            answers = await all_told(machines, [(1, "K1", "field N1 A-1 0 100 20"), (2, "K2", "deliver N1 A-1 5")])
            expect(answers == [(200, {"place": 1}), (200, {"place": 2})], f"{answers}")
            for machine in MACHINES:
                await machines.stop("replica", machine)
                machines.start("replica", machine)
            await well(machines)
            answers = await all_told(machines, [(3, "K2", "deliver N1 A-1 5"), (3, "K3", "writeoff N1 A-1 25")])
            expect(answers == [(200, {"place": 2}), (200, {"place": 3})], f"{answers}")
            await self.expect_mark(machines, ["K1 field N1 A-1 0 100 20", "K2 deliver N1 A-1 5", "K3 writeoff N1 A-1 25"])

        machines = self.run_machines(live)
        tables = machines.tables()
        expect(tables[0] == tables[1] == tables[2], "other rows")

    async def expect_mark(self, machines: Machines, lines: list[str]) -> None:
        """At a mark that an operator sets each machine tells these lines' number and digest."""
        newest = max(revision for revision, _ in machines.marks(1))
        machines.etcdctl(1, "put", "desk/1/log", f"mark {newest}")
        await machines.try_until(lambda: sum(revision > newest for revision, _ in machines.marks(1)) == len(MACHINES))
        found = machines.etcdctl(1, "get", "--prefix", "--print-value-only", "desk/1/marks/").split("\n")
        digest = b""
        for line in lines:
            digest = hashlib.sha256(digest + line.encode()).digest()
        expect(found.count(f"{len(lines)} {digest.hex()}") == len(MACHINES), f"{found}")

    def test_a_log_does_not_begin_with_a_desk_in_use(self):
        """A machine that serves the desk keeps its log from beginning anew; so does the program alone."""

        async def live(machines: Machines) -> None:
            machines.start("replica", 1)
            await well(machines, 1)
            await expect_not_begun(machines, "is in use")
            await machines.stop("replica", 1)
            # the desk ends a moment later
            await asyncio.to_thread(run, "flock", f"{machines.desk(1)}.lock", "true")
            with alone(self.program, machines.desk(1)):
                await expect_not_begun(machines, "is in use")
            machines.log = "desk/2"
            await machines.begin_log()
            await expect_not_begun(machines, "has begun")

        self.run_machines(live)

    def test_a_machine_has_the_name_of_its_member_of_etcd(self):
        """A machine with another name serves nothing and begins no log; one that cannot ask etcd waits."""

        async def live(machines: Machines) -> None:
            for name in ["M1", "m2", "m9", "", "m/1"]:
                await expect_misnamed(machines, name)
            await expect_misnamed(machines, "m2", "--begin")
            expect(machines.etcdctl(1, "get", "desk/1/log") == "", "the log has begun")
            for machine in MACHINES:
                await machines.stop("etcd", machine)
            machines.start("replica", 1)
            await asyncio.sleep(WAITING_SECONDS)
            expect(machines.processes["replica", 1].poll() is None, f"{machines.said('replica', 1)}")
            for machine in MACHINES:
                machines.start("etcd", machine)
            await well(machines, 1)

        self.run_machines(live)

    def test_a_desk_that_goes_astray_is_ended(self):
        """A machine whose program leaves out a command differs at the next mark, and ends with status 4; the others go on."""
        right = "            if not self.walk.passes_over(line):"
        wrong = "            if b'K2' not in line and not self.walk.passes_over(line):"
        replica = changed_tools(os.path.join(self.folder, "wrong"), "stockdesk_machine", right, wrong)

        async def live(machines: Machines) -> None:
            for machine in MACHINES:
                machines.replica = replica if machine == 3 else machines.replica
                machines.start("replica", machine)
            await well(machines)
            asks = [(1, "K1", "field N1 A-1 0 100 20"), (1, "K2", "deliver N1 A-1 5"), (1, "K3", "deliver N1 A-1 6")]
            answers = await all_told(machines, asks)
            expect([body.get("place") for _, body in answers] == [1, 2, 3], f"{answers}")
            machines.etcdctl(1, "put", "desk/1/log", "mark 0")
            status, said = await ended(machines, "replica", 3)
            expect(status == 4 and "differs" in said, f"{status}: {said}")
            answer = await told(machines, 2, "K4", "writeoff N1 A-1 31")
            expect(answer == (200, {"place": 4}), f"{answer}")
            expect(machines.processes["replica", 1].poll() is None, "the right one ended, too")

        self.run_machines(live)

    def test_the_example_knows_several_machines(self):
        """The client goes on with its list at the next machine while one is gone, and each command is done once."""
        with open(os.path.join(self.folder, "commands"), "w", encoding="ascii") as file:
            file.write("field N1 A-1 0 1000 0\n" + "deliver N1 A-1 1\n" * 40)

        async def live(machines: Machines) -> None:
            for machine in MACHINES:
                machines.start("replica", machine)
            await well(machines)
            places = ",".join(f"{machines.address(each)}:{PORT}" for each in MACHINES)
            words = [sys.executable, CLIENT, places, "commands", "journal"]
            client = subprocess.Popen(words, cwd=self.folder, stdout=subprocess.PIPE, text=True)
            while json.loads((await shown(machines, 2, "/v1/desk"))[1])["places"] < 5:
                await asyncio.sleep(0.001)
            machines.signal("replica", 1, signal.SIGKILL)
            out = (await asyncio.to_thread(client.communicate, None, SECONDS))[0]
            expect((client.returncode, out.count("is done:")) == (0, 41), f"{client.returncode}: {out}")
            expect((await shown(machines, 2, "/v1/desk"))[1].endswith('"places":41}'), "not each is done once")
            machines.start("replica", 1)
            await well(machines)

        self.run_machines(live)

    def test_bad_messages_are_refused_as_by_a_desk(self):
        async def live(machines: Machines) -> None:
            machines.start("replica", 1)
            await well(machines, 1)
            wire = Wire((machines.address(1), PORT))
            bad = (400, '{"code":20,"line":0,"refused":"BadCommand"}')
            bodies = [
                "",
                "[]",
                "{}",
                '{"key":"K1"}',
                '{"key":"K1","command":"commit 7","more":1}',
                '{"key":1,"command":"commit 7"}',
            ]
            bodies += ['{"key":"K 1","command":"commit 7"}', '{"key":"K1","command":"commit\\n7"}', "[" * 3_000]
            for body in [*bodies, '{"key":"K1","command":" commit 7"}', '{"key":"K1","command":"Commit 7"}']:
                expect(await wire.ask("POST", "/v1/commands", body) == bad, f"{body[:60]}")
            for method, target in [("GET", "/"), ("GET", "/v1/commands"), ("PUT", "/v1/commands"), ("GET", "/v1/orders/7")]:
                expect(await wire.ask(method, target) == (404, '{"error":"none"}'), f"{method} {target}")
            # a key that stood in the log behind what a client knows is late; what is no revision is the least
            for key, known, want in [
                ("K2", -1, 200),
                ("K2", -1, 503),
                ("K2", 1 << 62, 200),
                ("K3", 1 << 70, 200),
                ("K3", 0, 503),
            ]:
                wire.known = Known(known)
                answer = await wire.command(key, "expire 0")
                expect(answer[0] == want, f"{known}: {answer}")
            wire.close()

        self.run_machines(live)

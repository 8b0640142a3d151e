"""Tests of a desk on three machines. Processes are killed and stand still, ways are cut, disks are full or lost, and the desk is
rolled up, while clients ask; then all machines have the same rows, and each answer is one that the rules give, in an order that
time allows. In the environment REPLICAS_FAULTS says how many faults there are at the least, in as many lives of new machines as
that takes, and REPLICAS_SEED which faults: `REPLICAS_FAULTS=1000 ./check tests replicas.Replicas` has 1,000. REPLICAS_KEEP names
a folder; in it stays what the processes wrote in a life in which a fault was found."""

import asyncio
import itertools
import os
import random
import shutil
import time
import unittest
from collections import Counter
from importlib.util import find_spec

from support.cases import ProgramCase, needs, needs_sqlite
from support.disks import small_disk
from support.histories import History, judged
from support.programs import expect, note
from support.replica_clients import ARTICLES, BRANCHES, Client, Known, Stock, Wire, asked, wait_until_well
from support.replica_faults import Faults
from support.replica_network import MACHINES
from support.replicas import FRONT_PORT, PORT, UP_SECONDS, Machines
from support.tables import rows_of

SEED = int(os.environ.get("REPLICAS_SEED", "1986"))
CLIENTS, PAUSE = 12, 0.12
# a mark stands behind so many lines, so there are many; and from so many places on the desk is rolled up, with so many keys: more
# than are done while a client asks again
MARK_LINES = 300
ROLL_FROM, KEYS = 700, 500
# etcd reserves so many bytes for its log, twice
DISK = 256 << 20
# how many faults there are at the least, and after how many seconds all clients have their answers
FAULTS, LAST_SECONDS = 60, 120
# each life has all kinds of faults once, twice or three times
MOST_TURNS = 3

LACKING = [name for name in ["aiohttp", "etcd3", "grpc", "uvloop"] if find_spec(name) is None]


def wires_of(machines: Machines, by_front: bool) -> list[Wire]:
    """A client's ways to all machines, which share what it knows of the log."""
    known = Known()
    port = FRONT_PORT if by_front else PORT
    return [Wire((machines.address(each), port), known, machines.fronts[each].context if by_front else None) for each in MACHINES]


async def until_first(*works: asyncio.Task) -> None:
    """Until one of them is done; its fault is raised."""
    done, _ = await asyncio.wait(works, return_when=asyncio.FIRST_COMPLETED)
    for work in done:
        work.result()


async def lived(machines: Machines, history: History, small: str | None, life: int) -> Faults:
    """All faults, while clients ask."""
    seed = SEED + life
    keeper = asyncio.create_task(machines.keep_up())
    places = [(machines.address(each), PORT) for each in MACHINES]
    await wait_until_well(places, UP_SECONDS)
    stock = Stock(random.Random(seed))
    clients = [Client(each, stock, history, wires_of(machines, each % 2 == 0), PAUSE) for each in range(CLIENTS)]
    for number, field in enumerate(f"{branch} {article}" for branch in BRANCHES for article in ARTICLES[:2]):
        await clients[0].ask(f"F{number}", f"field {field} 0 40 20", 1_000)
    lives = [asyncio.create_task(client.live()) for client in clients]
    faults = Faults(machines, seed, small)
    await until_first(asyncio.create_task(faults.live(1 + life % MOST_TURNS)), keeper, *lives)
    for client in clients:
        client.is_over = True
    await asyncio.wait_for(asyncio.gather(*lives), LAST_SECONDS)
    await faults.settle()
    for place in places:
        # once a machine has shown a view, it has carried out all of the log
        await asked(place, "/v1/desk", seconds=LAST_SECONDS)
    for wire in [each for client in clients for each in client.wires]:
        wire.close()
    keeper.cancel()
    return faults


@needs("etcd", "etcdctl", "haproxy", "openssl")
@needs_sqlite
@unittest.skipIf(LACKING, f"{', '.join(LACKING)} of Python not here")
class Replicas(ProgramCase):
    def test_nothing_answered_is_lost_on_three_machines(self):
        wanted, found = int(os.environ.get("REPLICAS_FAULTS", "1")), Counter[str]()
        for life in itertools.count():
            found += self.live(life)
            if found.total() >= wanted:
                break
        if life:
            note(f"{found.total():,} in all: {', '.join(f'{count} {what}' for what, count in sorted(found.items()))}")

    def live(self, life: int) -> Counter[str]:
        """New machines, and what happens to them. Returns how many faults of each kind there were."""
        history, began, folder = History(), time.monotonic(), os.path.join(self.folder, str(life))
        os.mkdir(folder)
        with small_disk(folder, DISK) as small:
            machines = Machines(self.program, folder, MARK_LINES)
            machines.roll_from, machines.keys = ROLL_FROM, KEYS
            try:
                if small:
                    os.symlink(small, machines.folder(MACHINES[-1]))
                machines.make()
                machines.start_all()
                faults = asyncio.run(lived(machines, history, small, life))
            except BaseException:
                keep_logs(machines)
                raise
            finally:
                machines.down()
            tables, olds = machines.tables(), [rows_of(path) for each in MACHINES for path in machines.olds(each)]
        wrong, counts = judged(history, tables, olds)
        # at each mark and roll the machines have compared their digests
        wrong += [line for each in MACHINES for line in machines.said("replica", each) if "differs" in line]
        count = faults.count()
        note(f"{count} faults in {time.monotonic() - began:.0f} s, {counts}")
        if not machines.network.can_cut:
            note("no namespaces here, so no way is cut")
        if wrong:
            keep_logs(machines)
        expect(not wrong, "\n".join([f"seed {SEED}, life {life}", *wrong[:10], *faults.told]))
        expect(count >= FAULTS or not machines.network.can_cut, f"only {count} faults: {faults.counts}")
        expect(counts["places"] > 300 and counts["refused"] > 300, f"little was asked: {counts}")
        expect(counts.get("rolls", 0) > 4, f"there were few rolls: {counts}")
        shutil.rmtree(folder)
        return faults.faults()


def keep_logs(machines: Machines) -> None:
    """Keeps what the processes wrote, for whoever looks for a fault."""
    if folder := os.environ.get("REPLICAS_KEEP"):
        for name in os.listdir(machines.root):
            if name.endswith(".log"):
                shutil.copy(os.path.join(machines.root, name), folder)

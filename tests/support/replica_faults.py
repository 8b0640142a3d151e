"""What can happen to three machines that hold a desk, one after the other, while clients ask."""

import asyncio
import contextlib
import os
import random
import signal
import time
from collections import Counter
from collections.abc import Awaitable, Callable
from functools import partial

from support.replica_clients import wait_until_well
from support.replica_network import MACHINES, Failed
from support.replicas import PORT, UP_SECONDS, Machines

PARTS = ["etcd", "replica", "desk", "front"]
# how much a full disk keeps free, in bytes
SPARE = 4_096

Fault = Callable[[], Awaitable[None]]


class Faults:
    """Faults of the machines, and how many there were of each kind."""

    def __init__(self, machines: Machines, seed: int, small_disk: str | None):
        self.machines, self.random, self.small_disk = machines, random.Random(seed), small_disk
        self.counts: Counter[str] = Counter()
        self.told: list[str] = []
        self.compacted = False

    def note(self, kind: str, text: str) -> None:
        self.counts[kind] += 1
        self.told.append(f"{time.monotonic():.1f} {kind} {text}")

    def machine(self, who: str = "any") -> int:
        """The number of a machine: the leader's, a follower's or any."""
        leader = self.machines.leader() if who != "any" else None
        if leader is None or who == "any":
            return self.random.choice(MACHINES)
        return leader if who == "leader" else self.other(leader)

    def other(self, machine: int) -> int:
        return self.random.choice([each for each in MACHINES if each != machine])

    # ---- kills and pauses

    async def kill(self, part: str, who: str = "any") -> None:
        machine = await asyncio.to_thread(self.machine, who)
        self.machines.signal(part, machine, signal.SIGKILL)
        self.note(f"kill {part}", f"{who} {machine}")

    async def roll(self, part: str | None) -> None:
        """The desks are rolled up; a moment later this part of a machine is killed, amid it or not."""
        machine, kind = self.random.choice(MACHINES), f"roll, and kill {part}" if part else "roll"
        with contextlib.suppress(Failed):
            await asyncio.to_thread(self.machines.add_roll, machine)
            self.note(kind, str(machine))
        await asyncio.sleep(self.random.uniform(0, 1))
        if part:
            self.machines.signal(part, self.random.choice(MACHINES), signal.SIGKILL)

    async def kill_machine(self, who: str = "any") -> None:
        machine = await asyncio.to_thread(self.machine, who)
        for part in ["etcd", "replica", "front"]:
            self.machines.signal(part, machine, signal.SIGKILL)
        self.note("kill machine", f"{who} {machine}")

    async def kill_on_all(self, parts: list[str]) -> None:
        for machine in MACHINES:
            for part in parts:
                self.machines.signal(part, machine, signal.SIGKILL)
        self.note(f"kill {' and '.join(parts)} on all", "")

    async def pause(self, part: str, who: str = "any") -> None:
        machine, seconds = await asyncio.to_thread(self.machine, who), self.random.uniform(0.3, 4)
        if pid := self.machines.pid(part, machine):
            os.kill(pid, signal.SIGSTOP)
            await asyncio.sleep(seconds)
            with contextlib.suppress(ProcessLookupError):
                os.kill(pid, signal.SIGCONT)
            self.note(f"pause {part}", f"{who} {machine} {seconds:.1f}")

    # ---- the network

    async def cut(self, kind: str, who: str, ways: list[str], share: int = 100) -> None:
        """A machine is cut off from its peers, from one of them, or from clients too."""
        machine, seconds = await asyncio.to_thread(self.machine, who), self.random.uniform(0.8, 5)
        network = self.machines.network
        peers = [network.address(each) for each in MACHINES if each != machine]
        others = peers if kind == "peers" else [*peers, network.address(254)] if kind == "all" else [self.random.choice(peers)]
        network.cut(machine, others, ways, share)
        await asyncio.sleep(seconds)
        network.heal()
        self.note(f"{'cut' if share == 100 else 'loss'}: {kind}, {' and '.join(ways)}", f"{who} {machine} {seconds:.1f}")

    # ---- disks

    async def fill_disk(self) -> None:
        """The disk of the last machine is full for some seconds."""
        assert self.small_disk
        path = os.path.join(self.small_disk, "filler")
        with open(path, "wb", 0) as file:
            with contextlib.suppress(OSError):
                while True:
                    file.write(bytes(SPARE))
        await asyncio.sleep(self.random.uniform(2, 5))
        os.remove(path)
        self.note("full disk", "")

    async def back_up(self) -> None:
        machine = self.random.choice(MACHINES)
        made = await asyncio.to_thread(self.machines.back_up, machine)
        self.note("copy" if made else "copy that was not made", str(machine))

    async def compact(self) -> None:
        with contextlib.suppress(Failed):
            if revision := await asyncio.to_thread(self.machines.compact):
                self.compacted = True
                self.note("compaction", str(revision))

    async def wipe(self, by_copy: bool) -> None:
        """A machine loses its disk, and is made anew from another's copy, or from the log alone."""
        await self.settle()
        machine = self.random.choice(MACHINES[:2])
        donor = self.other(machine)
        began = time.monotonic()
        await self.machines.lose_disk(machine, donor)
        self.machines.start("etcd", machine)
        if by_copy:
            copy = await asyncio.to_thread(self.machines.back_up, donor)
            if copy is None:
                raise Failed("no copy was made of a machine that is well")
            await asyncio.to_thread(self.machines.restore, machine, copy)
        else:
            self.machines.make_desk(machine)
        self.machines.start("replica", machine)
        await self.settle()
        self.note(f"lost disk, {'by a copy' if by_copy else 'from nothing'}", f"{machine} {time.monotonic() - began:.1f}")

    async def settle(self) -> None:
        await wait_until_well([(self.machines.address(each), PORT) for each in MACHINES], UP_SECONDS)

    # ---- all of it

    def faults(self) -> Counter[str]:
        """How many faults there were of each kind; copies and compactions are not counted."""
        return Counter({kind: count for kind, count in self.counts.items() if not kind.startswith(("copy", "compaction"))})

    def count(self) -> int:
        return self.faults().total()

    def planned(self) -> list[Fault]:
        """The faults, in any order, except that the log is compacted only after the machine that needs all of it is back."""
        early = [*self.kills(), *self.pauses(), *[self.back_up] * 3, *([self.fill_disk] * 2 if self.small_disk else [])]
        early += self.cuts() if self.machines.network.can_cut else []
        self.random.shuffle(early)
        half = len(early) // 2
        return [*early[:half], partial(self.wipe, self.compacted), self.compact, partial(self.wipe, True), *early[half:]]

    def kills(self) -> list[Fault]:
        found: list[Fault] = [partial(self.kill, part, who) for part in PARTS for who in ["any", "any", "any", "any", "leader"]]
        found += [partial(self.kill, "etcd", "follower"), partial(self.kill_machine, "leader"), *[self.kill_machine] * 2]
        found += [partial(self.kill_on_all, [part]) for part in PARTS]
        found += [partial(self.roll, part) for part in [None, "replica", "desk"]]
        return [*found, partial(self.kill_on_all, ["etcd", "replica", "front"])]

    def pauses(self) -> list[Fault]:
        found: list[Fault] = [partial(self.pause, part) for part in PARTS for _ in range(3)]
        return [*found, *[partial(self.pause, part, "leader") for part in ["etcd", "replica", "desk"]]]

    def cuts(self) -> list[Fault]:
        both = ["in", "out"]
        kinds = [("peers", both), ("all", both), ("peers", ["in"]), ("peers", ["out"]), ("pair", both)]
        found: list[Fault] = [partial(self.cut, kind, who, ways) for who in ["leader", "follower"] for kind, ways in kinds]
        found += [partial(self.cut, kind, "any", both) for kind in ["peers", "all", "pair"] for _ in range(2)]
        return [*found, *[partial(self.cut, "all", who, both, 40) for who in ["leader", "follower", "any"]]]

    async def live(self, turns: int) -> None:
        """All of them, so many times."""
        for _ in range(turns):
            for fault in self.planned():
                await fault()
                await asyncio.sleep(self.random.choice([0.1, 0.5, 1.2]))
        await self.settle()

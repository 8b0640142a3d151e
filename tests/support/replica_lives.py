"""The base of tests of a life of three machines, and what they ask of these."""

import asyncio
import json
import unittest
from collections.abc import Awaitable, Callable
from importlib.util import find_spec

from support.cases import ProgramCase, needs, needs_sqlite
from support.replica_clients import Known, asked, commanded, wait_until_well
from support.replica_network import MACHINES
from support.replicas import PORT, UP_SECONDS, Machines

LACKING = [name for name in ["aiohttp", "etcd3", "grpc", "uvloop"] if find_spec(name) is None]
# how many keys stay at a roll where a test does not say it
KEYS = 100_000
# how many seconds the tests wait for an end
SECONDS = 60


async def told(machines: Machines, machine: int, key: str, command: str) -> tuple[int, dict]:
    """The answer of a machine, which at a mark is asked again."""
    known = Known()
    place = machines.address(machine), PORT
    while (answer := await commanded(place, key, command, known)) == (503, '{"error":"late"}'):
        pass
    return answer[0], json.loads(answer[1])


async def all_told(machines: Machines, asks: list[tuple[int, str, str]]) -> list[tuple[int, dict]]:
    return [await told(machines, *ask) for ask in asks]


async def shown(machines: Machines, machine: int, target: str) -> tuple[int, str]:
    return await asked((machines.address(machine), PORT), target)


async def well(machines: Machines, *numbers: int) -> None:
    await wait_until_well([(machines.address(each), PORT) for each in numbers or MACHINES], UP_SECONDS)


async def ended(machines: Machines, kind: str, machine: int) -> tuple[int | None, str]:
    """The status with which a part ends by itself, and what it said last."""
    status = await asyncio.to_thread(machines.processes[kind, machine].wait, SECONDS)
    return status, machines.said(kind, machine)[-1]


@needs("etcd", "etcdctl", "openssl")
@needs_sqlite
@unittest.skipIf(LACKING, f"{', '.join(LACKING)} of Python not here")
class LifeCase(ProgramCase):
    def run_machines(self, work: Callable[[Machines], Awaitable[None]], keys: int = KEYS) -> Machines:
        """Does a work with three machines, whose members of etcd run; at a roll so many keys stay."""
        machines = Machines(self.program, self.folder, has_fronts=False)
        machines.keys = keys
        try:
            machines.make()
            for machine in MACHINES:
                machines.start("etcd", machine)
            asyncio.run(asyncio.wait_for(self.with_etcd(machines, work), 10 * SECONDS))
        finally:
            machines.down()
        return machines

    async def with_etcd(self, machines: Machines, work: Callable[[Machines], Awaitable[None]]) -> None:
        await machines.try_until(lambda: machines.leader() is not None)
        await work(machines)

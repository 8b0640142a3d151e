"""A machine as a process: it starts the desk, finds the desk's place in the log, serves, and ends at the first fault."""

import argparse
import asyncio
import os
import signal
import traceback
from collections.abc import Coroutine
from typing import Any

import stockdesk_desk
import stockdesk_messages
import stockdesk_tools as tools
import stockdesk_walk
import uvloop
from stockdesk_home import Home, rows_in
from stockdesk_log import Log
from stockdesk_machine import Machine
from stockdesk_rolls import Sizes
from stockdesk_tools import Fault
from stockdesk_walk import Walk


# a machine whose name is not that of its member of etcd ends with this status, as behind other words, and stays down
MISNAMED = 2


async def judge_name(name: str, log: Log) -> None:
    """Ends this machine where its name is not that of its member of etcd. Of two machines with one name, the one would tell its
    marks over those of the other, whose desk would then not be compared; the names of members differ."""
    member = await log.member()
    if name != member:
        tools.say(f"MACHINE is {name!r}, but the name of the member of etcd on this machine is {member!r}: give that name")
        os._exit(MISNAMED)


async def start(options: argparse.Namespace) -> Machine:
    home = Home(tools.find_program(options.program), os.path.abspath(options.file), options.pid)
    rows, desk = await home.start()
    sizes = Sizes(options.mark_lines, options.roll_from, options.keys)
    return Machine(options.machine, Log(options.etcd, options.log), Walk(rows), desk, home, sizes)


async def listen(options: argparse.Namespace, machine: Machine) -> None:
    """Serves HTTP once the desk stands where the log stood. Fault: the desk has what the log has not."""
    began = machine.first
    while (head := await machine.log.head()) is None:
        pass
    await machine.reach(head)
    if rows := machine.walk.rows:
        raise Fault(f"the log lacks {rows[0]!r}, which the desk has at place {machine.walk.place + 1}: it is another log's desk")
    await stockdesk_messages.listen(options.listen, machine)
    tools.say(f"{machine.name} serves {machine.walk.place} places, from {began} to {head} of the log")


async def begin(options: argparse.Namespace) -> None:
    """Has a log begin with this desk. Fault: a program has the desk open, or the log has begun, or etcd does not answer."""
    path = os.path.abspath(options.file)
    stockdesk_desk.lock(path, waits=False)
    with tools.kept_shut(path):
        digests, log = stockdesk_walk.digests_of(rows_in(path)), Log(options.etcd, options.log)
        head = await log.head()
        if head is not None:
            await judge_name(options.machine, log)
        if head:
            raise Fault(f"the log {options.log} has begun")
        if head is None or not await log.put(f"begin {len(digests) - 1} {digests[-1].hex()}".encode()):
            raise Fault("etcd does not answer, so nobody knows whether the log has begun: call again")
    tools.say(f"the log {options.log} begins with {len(digests) - 1} places")


async def serve(options: argparse.Namespace) -> None:
    machine = await start(options)
    await judge_name(options.machine, machine.log)
    await machine.find_mark()
    works: list[Coroutine[Any, Any, None]] = [*machine.works(), listen(options, machine)]
    tasks = [asyncio.create_task(each) for each in works]
    done, _ = await asyncio.wait(tasks, return_when=asyncio.FIRST_EXCEPTION)
    for task in done:
        task.result()


async def work_and_end(options: argparse.Namespace) -> None:
    """Begins a log, or serves until the first fault, and ends the process: nothing that is under way is waited for."""
    try:
        await (begin if options.begin else serve)(options)
        os._exit(0)
    except (Fault, OSError) as fault:
        tools.say(str(fault))
    except Exception:
        traceback.print_exc()
    os._exit(1)


def run(options: argparse.Namespace) -> None:
    uvloop.install()
    # whoever breaks it off finds what a kill leaves
    signal.signal(signal.SIGINT, signal.SIG_DFL)
    asyncio.run(work_and_end(options))

"""The home of a machine's desk: its file, the lock on it, and the program that serves it. A desk is ended, rolled up and started
again without another process coming to its file."""

import asyncio
import os
import subprocess
import sys

import stockdesk_desk
import stockdesk_tools as tools
from stockdesk_desk import Desk
from stockdesk_tools import Fault
from stockdesk_walk import kept_lines

ROLLOVER = os.path.join(os.path.dirname(os.path.realpath(__file__)), "stockdesk-rollover")

# how long a desk may take to end whose connections are closed; and how long a machine waits behind a roll that failed, so that
# its unit does not start it so often that it stays down: in seconds
END_SECONDS, FAILED_SECONDS = 60, 10


class Home:
    """The desk in a file, from the moment at which this process has the lock on it."""

    def __init__(self, program: str, path: str, pid: str | None):
        self.program, self.path, self.pid = program, path, pid
        self.held = stockdesk_desk.lock(path)
        self.process: subprocess.Popen[bytes] | None = None

    async def start(self) -> tuple[list[bytes], Desk]:
        """The rows of the desk, which are read in a copy while it starts, and the desk."""
        self.take_second_name()
        with tools.workplace(os.path.dirname(self.path)) as place:
            copy = os.path.join(place, "desk.db")
            await asyncio.to_thread(tools.copy_desk, self.path, copy)
            self.process = stockdesk_desk.start(self.program, self.path, self.held)
            rows = await asyncio.to_thread(kept_lines, copy)
        if self.pid:
            with open(self.pid, "w", encoding="ascii") as file:
                file.write(f"{self.process.pid}\n")
        return rows, await stockdesk_desk.connect(self.process)

    def take_second_name(self) -> None:
        """Takes from the file the name that a roll gave it which was killed: the program opens no file of two names."""
        path = os.path.realpath(self.path)
        if os.stat(path).st_nlink != 1:
            with tools.kept_shut(path):
                tools.remove_second_name(path)

    async def end(self) -> list[bytes]:
        """The rows of the desk, which ends, since its connections have. Fault: it does not end, or not well."""
        assert self.process and self.process.stdout
        try:
            status = await asyncio.to_thread(self.process.wait, END_SECONDS)
        except subprocess.TimeoutExpired:
            raise Fault("the desk does not end, and so is not rolled up") from None
        if status != 0:
            raise Fault(f"the desk ends with status {status}, and so is not rolled up")
        self.process.stdout.close()
        return await asyncio.to_thread(rows_in, self.path)

    async def roll(self, keys: int) -> None:
        """Rolls the desk up in its place, while it is ended. Fault: it is not rolled up."""
        words = [sys.executable, ROLLOVER, self.path, "--keys", str(keys), "--program", self.program]
        status = await asyncio.to_thread(stockdesk_desk.tied(words, self.held).wait)
        if status != 0:
            await asyncio.sleep(FAILED_SECONDS)
            raise Fault(f"the desk is not rolled up: status {status}")


def rows_in(path: str) -> list[bytes]:
    """The rows of a desk that nobody writes, read in a copy."""
    with tools.workplace(os.path.dirname(path)) as place:
        copy = os.path.join(place, "desk.db")
        tools.copy_desk(path, copy)
        return kept_lines(copy)

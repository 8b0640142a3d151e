"""Desks to be rolled up, how the tool ends on them, and commands for a desk that was rolled up."""

import os
import random
import resource
import shutil
import signal
import subprocess
from collections.abc import Iterable, Sequence
from dataclasses import dataclass

from support import DEPLOY, rows
from support.chance import Chance
from support.inputs import OPENING, known_fields, say_lines
from support.programs import SECONDS, End, bytes_of, done, expect, new_desk
from support.rules import Line, Order, Rules
from support.tables import tables_of

import stockdesk_tools as tools

TOOL = os.path.join(DEPLOY, "stockdesk-rollover")

# a full desk takes long
PATIENCE = 20 * SECONDS

# a desk with open orders of all kinds
SCRIPT = """K1 field N1 A-1 0 100 40
K2 field N2 A-1 0 100 40
K3 open 7 60 take N1 A-1 20 add N2 A-1 5
K4 use 7 N1 A-1 3
K5 open 8 60 take N1 A-1 2
K6 firm 8
K7 transfer 9 60 A-1 N1 N2 1
K8 expire 10
"""


@dataclass
class Old:
    """The commands that make a desk, the last of which leave some fields no room; and whether the session that carries out these
    last ones is killed."""

    lines: list[bytes]
    last: list[bytes]
    is_killed: bool


def joined(lines: Iterable[bytes]) -> bytes:
    return b"".join(line + b"\n" for line in lines)


def old_desk(chance: Chance) -> Old:
    """A script, and then bounds for some fields that are just what their open orders may lead to."""
    known = known_fields(chance, OPENING)
    say_lines(chance, known, average=80, most=150)
    lines, last = list(known.lines), list[bytes]()
    for branch, article in known.desk.fields:
        if chance.share(50):
            _, inf, sup = known.desk.numbers((branch, article))
            last.append(f"T{len(last)} rebound {branch} {article} {inf} {sup}".encode())
    return Old(lines, last, chance.share(25))


def desk_of(program: str, folder: str, text: str = SCRIPT) -> str:
    """The path of a new desk with these commands."""
    path = new_desk(program, folder, "old.db")
    done(program, ["run", path], text)
    return path


def play_and_kill(program: str, path: str, text: str | bytes) -> None:
    """Carries the lines out, and leaves them in the log."""
    data = text.encode() if isinstance(text, str) else text
    with subprocess.Popen([program, "run", path], stdin=subprocess.PIPE, stdout=subprocess.PIPE) as process:
        assert process.stdin and process.stdout
        process.stdin.write(data)
        process.stdin.flush()
        for _ in range(data.count(b"\n")):
            process.stdout.readline()
        process.kill()


def made(program: str, folder: str, old: Old, empty: str) -> tuple[str, str]:
    """Makes the old desk of an empty one; returns its path, and the path of a closed copy, which is for reading."""
    path, name = os.path.join(folder, "old.db"), os.path.join(folder, "closed.db")
    shutil.copyfile(empty, path)
    done(program, ["run", path], joined(old.lines))
    if old.is_killed:
        play_and_kill(program, path, joined(old.last))
        return path, closed(program, path, name)
    done(program, ["run", path], joined(old.last))
    return path, shutil.copyfile(path, name)


def closed(program: str, path: str, name: str) -> str:
    """A copy of a desk, closed: its log is in the file, and none lies beside it."""
    for end in ["", "-wal"]:
        shutil.copyfile(path + end, name + end)
    done(program, ["run", name], "")
    os.remove(f"{name}-wal")
    return name


def tool_ended(program: str, words: Sequence[str], limit: int | None = None) -> End:
    """How the tool ends: its status, its output, and what it says of a fault; a limit may say how many bytes a file may have."""
    run = subprocess.run(
        [TOOL, "--program", program, *words],
        capture_output=True,
        timeout=PATIENCE,
        preexec_fn=None if limit is None else lambda: resource.setrlimit(resource.RLIMIT_FSIZE, (limit, limit)),
    )
    return run.returncode, run.stdout, run.stderr


def kill_group(process: subprocess.Popen[bytes], path: str) -> None:
    """Kills the tool and its program, and waits until neither has the desk open any more."""
    os.killpg(process.pid, signal.SIGKILL)
    process.communicate()
    with open(path, "rb") as file:
        expect(tools.wait_until(lambda: not tools.is_in_use(file), SECONDS), "it is still in use")


def lying(path: str) -> dict[str, bytes]:
    """The bytes of a file and of the files beside it."""
    return {end: bytes_of(path + end) for end in ["", "-wal", "-shm", "-journal"] if os.path.exists(path + end)}


def expect_refused(program: str, words: Sequence[str], cause: str) -> None:
    """The tool does nothing, and one line names the cause."""
    status, out, errors = tool_ended(program, words)
    told = errors.decode()
    expect((status, out) == (1, b"") and cause in told and told.count("\n") == 1, f"{words}: {status}, {out!r}, {told!r}")


def expect_only(folder: str, names: Iterable[str]) -> None:
    found = sorted(os.listdir(folder))
    expect(found == sorted(names), f"in the folder: {found}")


def desk_in(path: str) -> Rules:
    """The desk that the rows of a file describe."""
    return rows.desk_of(tables_of(path))


def asks_of(order: Order) -> list[str]:
    return [f"? field {' '.join(line.name)}\n" for line in order.lines]


def commits(orders: Iterable[Order], generator: random.Random) -> str:
    """Commands that commit each order, and after each a view of each of its fields."""
    chosen = list(orders)
    generator.shuffle(chosen)
    return "".join(f"C{order.number} commit {order.number}\n" + "".join(asks_of(order)) for order in chosen)


def acts_on(order: Order, line: Line) -> list[str]:
    """Commands that act on a line, some accepted and some refused."""
    number, field, left = order.number, " ".join(line.name), line.held - line.used
    acts = [f"{verb} {number} {field} {pieces}" for verb in ["use", "release"] for pieces in (1, max(1, left // 2))]
    acts += [f"use {number} {field} {min(1_000_000, left + 1)}", f"more {number} {line.way} {field} 1"]
    return acts + [f"deliver {field} 1", f"writeoff {field} 1", *(f"{end} {number}" for end in ["firm", "commit", "abort"])]


def acts(orders: Iterable[Order], clock: int, generator: random.Random) -> str:
    """Commands that act on the orders, accepted or refused, in random order; the ends of orders are among them."""
    lines = [(order, line) for order in orders for line in order.lines]
    all_acts = [f"expire {moment}" for moment in [max(0, clock - 1), clock, clock + 30, clock + 100]]
    all_acts += [act for order, line in lines for act in acts_on(order, line)]
    chosen = generator.sample(all_acts, min(len(all_acts), 200))
    fields = sorted({f"? field {' '.join(line.name)}\n" for _, line in lines})
    return "".join(f"A{n} {act}\n" + "".join(fields[:8]) for n, act in enumerate(chosen))

"""A small life of a desk with two rolls, by the rules, for tests of the judgement."""

import copy
from typing import NamedTuple

from support.histories import Attempt, History, View, judged
from support.rolls import rolled_desk
from support.rows import rows_by
from support.rules import Rules

COMMANDS = ["F field N1 A-1 0 100 20", *(f"K{number} deliver N1 A-1 1" for number in range(9))]
# behind which commands the desk is rolled up, and how many keys stay
ROLLS, KEYS = (5, 8), 3


class Rolled(NamedTuple):
    """What was answered, one command after the other; the rows at the end, and those before each roll."""

    history: History
    rows: list[str]
    olds: list[list[str]]


def rolled_life() -> Rolled:
    """Command number N is asked for at 2 N, and answered at 2 N + 1."""
    desk, found = Rules(), Rolled(History(), [], [])
    for number, line in enumerate(COMMANDS):
        key, command = line.split(" ", 1)
        reply = desk.reply(line).removeprefix(f"{key} ")
        desk.carry_out(key, command)
        found.history.attempts.append(Attempt(key, command, 2 * number, 2 * number + 1, reply))
        if number + 1 in ROLLS:
            found.olds.append(rows_by(desk))
            desk = rolled_desk(desk, KEYS)
    found.rows.extend(rows_by(desk))
    return found


def wrong_with(
    replies: dict[int, str] | None = None,
    views: list[tuple[float, int, str]] | None = None,
    olds: list[list[str]] | None = None,
) -> list[str]:
    """What is found wrong where some commands have other answers, the first key was looked at, or other desks were rolled up."""
    life = copy.deepcopy(rolled_life())
    for number, reply in (replies or {}).items():
        life.history.attempts[number].reply = reply
    life.history.views += [View("/v1/keys/F", at, at + 0.2, status, body) for at, status, body in views or []]
    return judged(life.history, [life.rows, life.rows], [*life.olds, *(olds or [])])[0]

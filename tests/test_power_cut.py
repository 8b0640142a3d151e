"""Tests of power cuts after every system call of the making of a desk and of a session on it: the rows that the program then
finds are those after the requests whose replies were written, or after one more. After every call of an upgrade it finds either
version. In the environment STOCKDESK_SEED and STOCKDESK_CUTS ask for other cuts."""

import os
import shutil

from support.cases import ProgramCase
from support.chance import SEED, Seeded
from support.inputs import command
from support.message_inputs import some_known
from support.older import older, upgraded
from support.power_cuts import MADE, NAME, NO_CUTS, Recorded, calls_of, may_be_cut, rows_after_each, try_cuts
from support.programs import NOT_A_DESK, OLD_VERSION, STORE, bytes_of
from support.tables import rows_of

REQUESTS = 60
CUTS = int(os.environ.get("STOCKDESK_CUTS", "1000"))
# how many cuts come after the last call of an upgrade, of all that are tried
DONE, UPGRADE_CUTS = 12, 72


def script_of(seed):
    """Fields, and then requests on them: orders that stay open, are used, made firm, committed and aborted."""
    chance, known = Seeded(seed), some_known()
    while len(known.lines) < REQUESTS:
        words = command(chance, known).encode()
        if len(words) < 400:
            known.say(known.key() + b" " + words)
    return [line.decode() for line in known.lines]


def recorded_script(program, folder, seed):
    """The making of a desk and a session on it."""
    lines = script_of(seed)
    rows = rows_after_each(program, folder, lines)
    there = os.path.join(folder, "recorded")
    os.mkdir(there)
    path = os.path.join(there, NAME)
    played = "".join(line + "\n" for line in lines)
    calls = [*calls_of(program, ["init", path]), MADE, *calls_of(program, ["run", path], played)]

    def may(replies):
        return [NOT_A_DESK, STORE, rows[0]] if replies is None else rows[replies : replies + 2]

    return Recorded(there, {}, calls, may, new=rows[0])


def recorded_upgrade(program, folder):
    """The upgrade of a file of version 1: either version may be found, and once the upgrade has ended the new one."""
    there = os.path.join(folder, "recorded")
    os.mkdir(there)
    path = shutil.copyfile(older(folder, "transfer"), os.path.join(there, NAME))
    before = {NAME: bytes_of(path)}
    calls = calls_of(program, ["upgrade", path])
    rows = rows_of(upgraded(program, older(folder, "transfer")))

    def may(replies):
        return [OLD_VERSION, rows] if replies is None else [rows]

    return Recorded(there, before, [*calls, *[MADE] * (len(calls) * DONE // (UPGRADE_CUTS - DONE))], may)


class PowerCut(ProgramCase):
    def test_a_power_cut_loses_nothing_that_was_answered(self):
        if not may_be_cut():
            self.skipTest(NO_CUTS)
        try_cuts(self.program, self.folder, recorded_script(self.program, self.folder, SEED), SEED, CUTS)

    def test_a_power_cut_in_an_upgrade_leaves_either_version(self):
        if not may_be_cut():
            self.skipTest(NO_CUTS)
        try_cuts(self.program, self.folder, recorded_upgrade(self.program, self.folder), SEED, UPGRADE_CUTS, UPGRADE_CUTS)

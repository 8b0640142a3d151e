"""Wrong programs of machines that hold a desk, which the tests have to find: each is the right one with one thing changed."""

import os
import shutil
import subprocess
import sys

from support import DEPLOY
from support.programs import expect

SECONDS = 300

LATE = "return base < self.mark or self.recent.get(key_of(line), 0) > base"
TOLD_LATE = "tell(ENDED if self.has_ended else LATE)\n"
SAME = "if self.rows[0] == line:"
REST = "if ask.is_gone() or self.past.is_late(ask.line, ask.base):"
WALK = """        if not self.rows:
            return False
        if self.rows[0] == line:
            self.rows.popleft()
            self.take_place(line)
        return True
"""
ALL_AGAIN = "        self.rows.clear()\n        return False\n"
KEPT_OVER = """        if line in self.rows:
            self.rows.remove(line)
            self.take_place(line)
            return True
        return False
"""

DUE = "is_due = revision == self.first and mark.keys is not None and mark.keys < self.walk.place"
TOLD = """        await self.log.tell_mark(told)
        await self.home.roll(keys)
"""
TOLD_AFTER = """        await self.home.roll(keys)
        await self.log.tell_mark(told)
"""
MARKED = """        before = min(self.past.mark, revision - 1)
        self.past.set_mark(revision)
"""
NOT_MARKED = """        before = min(self.past.mark, revision - 1)
        self.past.set_mark(revision if keys is None else self.past.mark)
"""
BY_PLACES = "if each[1] < len(digests)"
IS_ROLLED = "if keys is not None and keys < told.place:"
TAKES_ROLL = "await self.set_mark(entry.revision, told.keys)"
OWN_KEYS = "await self.set_mark(entry.revision, told.keys and self.sizes.keys)"

# for each: how it is tried, its module, a part of that, and what is put in place of the part
STEPS, WALKS = ("support.replica_steps", "150"), ("support.replica_walks", "2000")
WRONG = {
    "older copies count": (STEPS, "stockdesk_walk", LATE, "return base < self.mark"),
    "older copies count behind a mark": (STEPS, "stockdesk_walk", LATE, "return self.recent.get(key_of(line), 0) > base"),
    "what has waited is not judged": (STEPS, "stockdesk_machine", REST, "if ask.is_gone():"),
    "what the client knows is not looked at": (STEPS, "stockdesk_machine", "min(known, self.revision)", "self.revision"),
    "views of what this desk has": (STEPS, "stockdesk_machine", "await self.reach(await looker)", "await looker is not None"),
    "views before what the desk was given": (STEPS, "stockdesk_desk", "self.commands.behind_all(", "(lambda act: act())("),
    "all behind the mark is carried out again": (WALKS, "stockdesk_walk", WALK, ALL_AGAIN),
    "what is kept is passed over, all else is carried out": (WALKS, "stockdesk_walk", WALK, KEPT_OVER),
    "late lines count in the walk": (
        *(WALKS, "stockdesk_machine", TOLD_LATE, TOLD_LATE + "                self.walk.passes_over(line)\n"),
    ),
    "a roll is not done at a start": (WALKS, "stockdesk_machine", DUE, "is_due = False"),
    "a roll is told once it is done": (WALKS, "stockdesk_machine", TOLD, TOLD_AFTER),
    "a desk rolled up is looked for at its old rows": (WALKS, "stockdesk_walk", "[*before, *behind]", "before"),
    "a desk to be rolled up is taken for one that is": (WALKS, "stockdesk_walk", "if has_place(digests, *each[1:])", BY_PLACES),
    "a desk that is rolled up is rolled up again": (WALKS, "stockdesk_machine", IS_ROLLED, "if keys is not None:"),
    "each machine has keys of its own": (WALKS, "stockdesk_machine", TAKES_ROLL, OWN_KEYS),
    "what was asked for before a roll counts behind it": (WALKS, "stockdesk_machine", MARKED, NOT_MARKED),
    "a row is taken by its key alone": (WALKS, "stockdesk_walk", SAME, "if key_of(self.rows[0]) == key_of(line):"),
}


def changed_tools(folder: str, module: str, part: str, other: str) -> str:
    """The path of the tool for several machines, copied into a folder that is made, with a part of one of its modules
    replaced."""
    shutil.copytree(DEPLOY, folder, ignore=shutil.ignore_patterns("page", "__pycache__"))
    path = os.path.join(folder, f"{module}.py")
    with open(path, encoding="utf-8") as file:
        text = file.read()
    expect(text.count(part) == 1, f"{module} has not one {part!r}")
    with open(path, "w", encoding="utf-8") as file:
        file.write(text.replace(part, other))
    return os.path.join(folder, "stockdesk-replica")


def play_wrong(name: str, folder: str) -> str:
    """What the cases of a wrong program find first; its modules lie in a folder that is made."""
    (trial, count), module, part, other = WRONG[name]
    changed_tools(folder, module, part, other)
    tests = os.path.dirname(os.path.dirname(os.path.abspath(__file__)))
    environment = {**os.environ, "PYTHONPATH": f"{folder}{os.pathsep}{tests}", "PYTHONDONTWRITEBYTECODE": "1"}
    words = [sys.executable, "-m", trial, count]
    run = subprocess.run(words, env=environment, capture_output=True, text=True, timeout=SECONDS)
    return "" if run.returncode == 0 else (run.stdout + run.stderr or "nothing is told").splitlines()[0]

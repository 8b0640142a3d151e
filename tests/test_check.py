"""Tests of the gate: which parts it has, in which order, what it says of each, and how it ends. In place of rt, of the tools that
look at Python, and of the tests, stand scripts that note how they were called."""

import contextlib
import importlib.machinery
import importlib.util
import io
import os
import shutil
import subprocess
import tempfile
import unittest
from types import ModuleType

from support import TOP

# notes the call, and which crates its tree has; says what a gate does
TOOL = """#!/bin/sh
[ "$1" = doc ] && echo "$KIT/START-HERE.md" && exit
[ "$2" = --anew ] && [ -n "$OLDER" ] && echo "usage: rt" >&2 && exit 2
[ -d crates ] || exit 2
[ -d crates/top ] && mkdir -p crates/top/out && touch crates/top/out/top && chmod +x crates/top/out/top
echo "${0##*/} $* $(ls crates | tr '\\n' ' ')" >>"$CALLS"
[ "${0##*/} $*" = "$REFUSED" ] && echo "refused" && exit 1
echo "1 passed, 0 failed"
"""
TESTS = """import os
with open(os.environ["CALLS"], "a", encoding="utf-8") as file:
    file.write("tests\\n")
print("all tests passed")
"""


class Gate(unittest.TestCase):
    def setUp(self) -> None:
        self.top = tempfile.mkdtemp()
        self.addCleanup(shutil.rmtree, self.top)
        shutil.copy(os.path.join(TOP, "check"), self.top)
        shutil.copytree(os.path.join(TOP, "tests", "wrong_bodies"), os.path.join(self.top, "tests", "wrong_bodies"))
        for name, text in [
            ("HANDLES", ""),
            ("crates.txt", "escrow: thiserror\ntop: escrow\nall_tests: top\n"),
            ("tests/__main__.py", TESTS),
        ]:
            self.write(name, text)
        for name in ["escrow", "top", "all_tests"]:
            self.write(f"crates/{name}/src/lib.rt", "")
        self.write("crates/escrow/must-fail/two.edit", "")
        self.write("kit/KIT-ID", "")
        for name in ["rt", "black", "flake8", "mypy"]:
            self.write(f"bin/{name}", TOOL)
            os.chmod(os.path.join(self.top, "bin", name), 0o755)

    def write(self, name: str, text: str) -> None:
        path = os.path.join(self.top, name)
        os.makedirs(os.path.dirname(path), exist_ok=True)
        with open(path, "w", encoding="utf-8") as file:
            file.write(text)

    def check(self, *words: str, refused: str = "", older: str = "") -> tuple[int, list[str], list[str]]:
        """How the gate ends, the lines that it writes, and the calls that it makes; with an older toolchain, where a word is
        told for it."""
        calls = os.path.join(self.top, "calls")
        path = f"{self.top}/bin:{os.environ['PATH']}"
        env = {
            **os.environ,
            "PATH": path,
            "CALLS": calls,
            "REFUSED": refused,
            "OLDER": older,
            "KIT": f"{self.top}/kit",
            "XDG_CACHE_HOME": self.top,
        }
        run = subprocess.run([f"{self.top}/check", *words], env=env, capture_output=True, text=True, timeout=60)
        made = []
        if os.path.exists(calls):
            with open(calls, encoding="utf-8") as file:
                made = file.read().splitlines()
        return run.returncode, run.stdout.splitlines(), made

    def test_the_parts_come_in_turn(self) -> None:
        status, lines, calls = self.check()
        self.assertEqual(status, 0, lines)
        looks = [call.split()[0] for call in calls[:3]]
        self.assertEqual(looks, ["black", "flake8", "mypy"])
        wanted = [
            "rt ci --anew escrow ",
            "rt ci escrow top ",
            "rt ci all_tests escrow top ",
            "rt ci all_tests escrow top ",
            "tests",
        ]
        self.assertEqual(calls[3:], wanted)

    def test_an_older_toolchain_proves_all_once(self) -> None:
        status, lines, calls = self.check(older="1")
        self.assertEqual(status, 0, lines)
        self.assertEqual(calls[3:], ["rt ci escrow ", "rt ci all_tests escrow top ", "tests"])
        self.assertTrue(os.access(os.path.join(self.top, "crates", "top", "out", "top"), os.X_OK), "the program is brought here")

    def test_it_says_what_each_part_took(self) -> None:
        _, lines, _ = self.check()
        told = [line for line in lines if "processor seconds" in line]
        self.assertEqual(len(told), 8)
        self.assertRegex(told[1], r"^check: proof of escrow: \d+ processor seconds; 1\.0 times the proof of escrow$")
        self.assertTrue(told[-1].startswith("check: all: "), told)
        self.assertEqual(lines[-1], "1 passed, 0 failed")

    def test_what_is_refused_ends_it(self) -> None:
        status, lines, calls = self.check(refused="rt ci")
        self.assertEqual((status, calls[-1]), (1, "rt ci escrow top "), lines)
        self.assertIn("refused", lines)

    def test_an_unknown_word_is_refused(self) -> None:
        self.assertEqual(self.check("everything")[::2], (2, []))


def gate() -> ModuleType:
    """The gate as a module."""
    loader = importlib.machinery.SourceFileLoader("gate", os.path.join(TOP, "check"))
    module = importlib.util.module_from_spec(importlib.util.spec_from_loader("gate", loader) or unittest.TestCase().fail())
    loader.exec_module(module)
    return module


class Warning(unittest.TestCase):
    def test_it_warns_where_ci_would_soon_end_it(self) -> None:
        for minutes, is_warned in [(125, False), (126, True)]:
            with contextlib.redirect_stdout(io.StringIO()) as out:
                gate().tell({"proof of escrow": 50.0}, minutes * 60)
            self.assertEqual("WARNING" in out.getvalue(), is_warned, minutes)

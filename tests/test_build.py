"""Tests of the first run: a short script is answered before anything is proved. Else each crate is proved once, after those that
it stands on, and a line says so; where a crate is not proved, the run ends with what rt said. In place of rt stands a script
that notes where it was called, and with which words, and builds a program that writes what it reads, behind its words. No two
runs of it are in one tree at a time."""

import os
import shutil
import subprocess
import tempfile
import unittest

from support import TOP
from support.programs import End

CRATES = "# lowest first\nlow: thiserror\nside:\nmid: low itoa\nstockdesk: mid side low\nlow_tests: low\n"
TABLE = "|crate|its proof|by the clock|\n|---|---|---|\n|`low`|9|120|\n|`side`|9|60|\n|`mid`|9|90|\n|`stockdesk`|9|240|\n"
# fails where another run works in the same tree; notes which libraries are there, and makes one
RT = """#!/bin/sh
mkdir ../busy || exit 1
sleep 0.2
rmdir ../busy
echo "${PWD##*/} $*" >>"$CALLS"
for library in ../*/out/rlib; do [ -e "$library" ] && echo "${PWD##*/} $library" >>"$LIBRARIES"; done
[ "$1" = lib ] && mkdir -p out/rlib && touch out/rlib/stamp
if [ "$1" = try ]; then
    echo "${TRIED:-run=ended status=3 runners=1 proved=no}" >&2
    echo tried && exec cat
fi
if [ "$1" = run ]; then
    mkdir -p out && printf '#!/bin/sh\necho program "$@" && exec cat\n' >out/stockdesk && chmod +x out/stockdesk
fi
if [ "${PWD##*/}" = "$REFUSED" ]; then echo "fn f: not proved"; exit 1; fi
"""


class Build(unittest.TestCase):
    def setUp(self) -> None:
        self.folder = tempfile.mkdtemp()
        self.addCleanup(shutil.rmtree, self.folder)
        for name in ["build", "stockdesk"]:
            shutil.copy(os.path.join(TOP, name), self.folder)
        self.write("HANDLES", "Handles allowed: none.\n")
        for name, text in [
            ("crates.txt", CRATES),
            ("docs/PROOFS.md", TABLE),
            ("bin/rt", RT),
            ("crates/stockdesk/src/main.rt", ""),
        ]:
            self.write(name, text)
        for name in ["low", "side", "mid"]:
            self.write(f"crates/{name}/src/lib.rt", "")
        for part in ["specs", "proofs"]:
            self.write(f"crates/low/{part}/Lib.antt", "")
        os.chmod(os.path.join(self.folder, "bin", "rt"), 0o755)

    def write(self, name: str, text: str) -> None:
        path = os.path.join(self.folder, name)
        os.makedirs(os.path.dirname(path), exist_ok=True)
        with open(path, "w", encoding="utf-8") as file:
            file.write(text)

    def program(self, name: str = "stockdesk") -> str:
        return os.path.join(self.folder, "crates", "stockdesk", "out", name)

    def run_script(self, *words: str, given: bytes = b"", path: str = "bin", **settings: str) -> tuple[End, list[str]]:
        """How the run of a script of the repository ends, and the crates for which rt was called, in order, each with the words
        for rt; the last call's tree is kept for the next."""
        calls = os.path.join(self.folder, "calls")
        env = {
            **os.environ,
            "CALLS": calls,
            "LIBRARIES": os.path.join(self.folder, "libraries"),
            "REFUSED": "",
            "PATH": f"{self.folder}/{path}:/usr/bin:/bin",
            **settings,
        }
        command = [os.path.join(self.folder, words[0]), *words[1:]]
        run = subprocess.run(command, env=env, input=given, capture_output=True, timeout=60)
        begun = []
        if os.path.exists(calls):
            with open(calls, encoding="utf-8") as file:
                begun = file.read().splitlines()
            os.remove(calls)
        return (run.returncode, run.stdout, run.stderr), begun

    def build(self, refused: str = "", path: str = "bin") -> tuple[End, list[str]]:
        end, begun = self.run_script("build", path=path, REFUSED=refused)
        return end, [" ".join(line.split()[:2]) for line in begun]

    def test_each_crate_is_proved_behind_those_that_it_stands_on(self) -> None:
        (status, out, told), begun = self.build()
        self.assertEqual((status, out), (0, b""), told)
        self.assertEqual(sorted(begun), ["low lib", "mid lib", "side lib", "stockdesk run"])
        self.assertLess(begun.index("low lib"), begun.index("mid lib"))
        self.assertEqual(begun[-1], "stockdesk run")
        self.assertTrue(os.path.exists(self.program()), "the program is in another tree")
        lines = told.decode().splitlines()
        self.assertEqual(sum("of 4: proving; about" in line for line in lines), 4, told)
        # the longest way is over low and mid: 450 seconds
        self.assertIn("stockdesk: low, 1 of 4: proving; about 8 min left", lines)
        self.assertIn("stockdesk: stockdesk, 4 of 4: proving; about", told.decode())
        self.assertIn("stockdesk: proved in 1 min", lines)

    def test_each_tree_has_the_libraries_that_were_proved(self) -> None:
        self.build()
        with open(os.path.join(self.folder, "libraries"), encoding="utf-8") as file:
            found = set(file.read().splitlines())
        self.assertLessEqual(
            {"mid ../low/out/rlib", *(f"stockdesk ../{name}/out/rlib" for name in ["low", "mid", "side"])}, found
        )

    def test_what_is_not_proved_is_told_and_nothing_above_it_begun(self) -> None:
        (status, out, told), begun = self.build(refused="mid")
        self.assertEqual((status, out), (1, b""))
        self.assertIn(b"fn f: not proved\nstockdesk: mid: not proved\n", told)
        self.assertNotIn("stockdesk run", begun)

    def test_a_crate_that_the_table_lacks_is_proved(self) -> None:
        self.write("docs/PROOFS.md", "no table\n")
        (status, _, told), begun = self.build()
        self.assertEqual((status, len(begun)), (0, 4), told)

    def test_without_the_toolchain_it_says_what_is_missing(self) -> None:
        (status, out, told), begun = self.build(path="nothing")
        self.assertEqual((status, begun), (1, []))
        self.assertIn(b"stockdesk: rt is not on the path", told)

    def test_a_short_script_is_answered_before_anything_is_proved(self) -> None:
        (status, out, told), begun = self.run_script("stockdesk", "run", given=b"K1 expire 1\n")
        self.assertEqual((status, out), (3, b"tried\nK1 expire 1\n"))
        self.assertEqual(begun, ["stockdesk try -- run"])
        # the longest way is over low and mid: 450 seconds
        self.assertEqual(
            told, b"stockdesk: nothing is proved yet: the sources are tried as they are; ./build proves them, in about 8 min\n"
        )

    def test_a_long_script_is_answered_by_the_program(self) -> None:
        script = b"K1 expire 1\n" * 10_000
        (status, out, told), begun = self.run_script("stockdesk", "run", given=script)
        self.assertEqual((status, out), (0, b"program run\n" + script), told)
        self.assertRegex(begun[-1], r"^stockdesk run (--jobs \d+ )?--backend rattle -- run$")
        self.assertTrue(os.path.exists(self.program("stockdesk.quick")) and not os.path.exists(self.program()))
        end, begun = self.run_script("stockdesk", "run", given=b"K1 expire 1\n")
        self.assertEqual((end[:2], begun), ((0, b"program run\nK1 expire 1\n"), []), "it is built anew, or tried")

    def test_a_script_that_cannot_be_tried_is_answered_by_the_program(self) -> None:
        (status, out, told), begun = self.run_script("stockdesk", "run", given=b"K1 expire 1\n", TRIED="run=none proved=no")
        self.assertEqual((status, out), (0, b"program run\nK1 expire 1\n"), told)
        self.assertIn(b"stockdesk: proved in 1 min", told)

    def test_with_a_file_the_program_is_built_first(self) -> None:
        (status, out, told), _ = self.run_script("stockdesk", "run", "shop.db", given=b"K1 expire 1\n")
        self.assertEqual((status, out), (0, b"program run shop.db\nK1 expire 1\n"), told)

    def test_the_program_that_build_makes_comes_first(self) -> None:
        self.run_script("build", "quick")
        self.build()
        with open(self.program(), "a", encoding="utf-8") as file:
            file.write("# the other\n")
        os.remove(self.program("stockdesk.quick"))
        (status, out, told), begun = self.run_script("stockdesk", "run", given=b"K1 expire 1\n")
        self.assertEqual((status, out, begun), (0, b"program run\nK1 expire 1\n", []), told)

"""Tests of the tries of wrong bodies. In place of the prover stands a script that reads a small crate: it refuses each function
whose sum is wrong, and proves all others."""

import contextlib
import io
import os
import shutil
import tempfile
import unittest
from unittest import mock

from support.programs import expect
from wrong_bodies import functions, runs
from wrong_bodies.edits import Edit, swaps_of
from wrong_bodies.tries import Crate

SOURCE = """//! Sums.

pub fn two() -> u8
    ensures { result ≡ 2 }
{
    1 + 1
}

pub fn three() -> u8 {
    two() + 1
}

pub struct Sum<T>(T);

impl<T: Drop> Sum<T> {
    pub fn four(&self) -> u8 {
        2 + 2
    }
}
"""
# Says of each function that is looked at, and of no other, whether its sum is right. A function whose body calls `two` is not
# proved where `two` is not, and of a sum that is `hidden` nothing is said.
PROVER = r"""#!/usr/bin/env python3
import os, re, sys
text = open("src/lib.rt").read()
sums = {"two": r"1 \+ 1|2", "three": r"two\(\) \+ 1|1 \+ two\(\)", "Sum::four": r"2 \+ 2|4"}
found = dict(zip(sums, re.findall(r"(?:u8|^) *\{\s+([^{}]*?)\s+\}\n", text, re.MULTILINE)))
with open(os.environ["CALLS"], "a") as file:
    file.write(" ".join(sys.argv[sys.argv.index("--jobs") + 2:]) + "\n")
if "broken" in text:
    print("error[syntax]: broken")
    sys.exit(1)
wrong = [name for name, sum in sums.items() if not re.fullmatch(sum + r"|unreachable!\(\)", found[name])]
only = [sys.argv[at + 1] for at, word in enumerate(sys.argv) if word == "--only"] or list(sums)
for name in only:
    path = "Rattle.small.proofs." + name.replace("::", ".")
    if name not in wrong and name == "three" and "two" in wrong:
        print("fn small::three: not proved; it stands on `Rattle.small.proofs.two.Answers.returns`, which antt refuses")
    elif name in wrong and "hidden" in text:
        continue
    elif name in wrong:
        print(f"fn small::{name}: not proved; it stands on `{path}.Answers.returns`, which antt refuses")
    elif os.path.exists(f"proofs/{name.replace('::', '/')}/Proof.antt"):
        print(f"fn small::{name}: depends on a hole in `{path}.Proof`")
    else:
        print(f"fn small::{name}: no holes")
print("logic=not-proved" if wrong else "logic=proved")
sys.exit(1 if wrong else 0)
"""
TWO = "file: src/lib.rt\nold: 1 + 1\nnew: 1 + 2\ncontrol: 2\n"
THREE = "file: src/lib.rt\nold: two() + 1\nnew: two() + 2\ncontrol: 1 + two()\n"
FOUR = "file: src/lib.rt\nold: 2 + 2\nnew: 2 + 3\ncontrol: 4\n"


class Tries(unittest.TestCase):
    def setUp(self) -> None:
        self.top = tempfile.mkdtemp()
        self.addCleanup(shutil.rmtree, self.top)
        self.write("crates.txt", "small:\n")
        self.write("HANDLES", "Handles allowed: none.\n")
        self.write("crates/small/src/lib.rt", SOURCE)
        self.write("kit/KIT-ID", "a kit\n")
        self.write("kit/bin/rattle", PROVER)
        self.write("bin/rt", f"#!/bin/sh\necho {self.top}/kit/START-HERE.md\n")
        for name in ["kit/bin/rattle", "bin/rt"]:
            os.chmod(os.path.join(self.top, name), 0o755)
        path = f"{self.top}/bin:{os.environ['PATH']}"
        env = {"PATH": path, "XDG_CACHE_HOME": f"{self.top}/cache", "CALLS": f"{self.top}/calls"}
        patched = mock.patch.dict(os.environ, env)
        patched.start()
        self.addCleanup(patched.stop)

    def write(self, name: str, text: str) -> None:
        path = os.path.join(self.top, name)
        os.makedirs(os.path.dirname(path), exist_ok=True)
        with open(path, "w", encoding="utf-8") as file:
            file.write(text)

    def told(self, edits: dict[str, str], kind: str = "new", words: list[str] | None = None) -> tuple[list[str], tuple[int, int]]:
        """What is written of the crate with these edits, and how many passed and failed."""
        shutil.rmtree(os.path.join(self.top, "crates", "small", "edits"), ignore_errors=True)
        for name, text in edits.items():
            self.write(f"crates/small/edits/{name}.edit", text)
        with contextlib.redirect_stdout(io.StringIO()) as out:
            counts = runs.run(self.top, ["small"], kind, runs.named(words or []))
        return out.getvalue().splitlines(), counts

    def calls(self) -> list[str]:
        """The functions that each check since the last look was to look at."""
        path = os.path.join(self.top, "calls")
        with open(path, encoding="utf-8") as file:
            found = [line.replace("--allow-holes", "").replace("--only", "").split() for line in file]
        os.remove(path)
        return [" ".join(sorted(it)) for it in found]

    def test_edits_of_different_functions_are_tried_in_one_check(self) -> None:
        told = self.told({"two.a": TWO, "three.a": THREE, "Sum.four.a": FOUR})
        expect(told == (["small: 3 wrong bodies refused"], (3, 0)), f"{told}")
        calls = self.calls()
        expect(calls == ["Sum::four three two"], f"{calls}")

    def test_edits_of_one_function_are_tried_apart(self) -> None:
        told = self.told({"two.a": TWO, "two.b": TWO.replace("1 + 2", "1 + 3"), "Sum.four.a": FOUR})
        calls = self.calls()
        expect(told[1] == (3, 0) and calls == ["Sum::four two", "two"], f"{told}, {calls}")

    def test_a_harmless_edit_is_named(self) -> None:
        """Also where it changes a function that calls one that is refused."""
        harmless = THREE.replace("two() + 2", "1 + two()").replace("control: 1 + two()", "control: two()  + 1")
        lines, counts = self.told({"two.a": TWO, "three.a": harmless})
        expect(lines[0] == "small/three.a.edit: its wrong body is still proved" and counts == (1, 1), f"{lines}")
        calls = self.calls()
        expect(calls == ["three two", "three"], f"it is not tried alone: {calls}")

    def test_an_edit_that_does_not_compile_is_named_and_the_others_are_tried(self) -> None:
        lines, counts = self.told({"two.a": TWO, "three.a": THREE, "Sum.four.a": FOUR.replace("2 + 3", "broken")})
        expect(counts == (2, 1) and "small/Sum.four.a.edit: WRONG EDIT: error[syntax]: broken" in lines, f"{lines}")

    def test_what_is_not_seen_by_name_is_tried_on_the_whole_crate(self) -> None:
        told = self.told({"two.a": TWO.replace("new: 1 + 2", "new: 1 + 2 /* hidden */")})
        calls = self.calls()
        expect(told[1] == (1, 0) and calls == ["two", ""], f"{told}, {calls}")

    def test_an_edit_outside_functions_is_tried_on_the_whole_crate(self) -> None:
        self.write("crates/small/specs/Lib.antt", "pub two : 2\n")
        edit = "file: specs/Lib.antt\nold: pub two : 2\nnew: pub two : 3\ncontrol: pub two : 1 + 1\n"
        told = self.told({"two.a": edit})
        calls = self.calls()
        expect(calls == [""] and told[1] == (0, 1), f"{told}, {calls}")

    def test_an_edit_of_a_constant_is_tried_on_the_function_that_its_name_tells(self) -> None:
        self.write("crates/small/src/lib.rt", f"{SOURCE}\npub const HIDDEN: u8 = 2;\n")
        edit = "file: src/lib.rt\nold: pub const HIDDEN: u8 = 2;\nnew: fn none() {\ncontrol: pub const HIDDEN: u8 = 1 + 1;\n"
        told = self.told({"Sum.four.a": edit, "two.a": TWO})
        calls = self.calls()
        expect(calls == ["two", "Sum::four"] and told[1] == (1, 1), f"{told}, {calls}")

    def test_controls_are_tried_in_the_same_way(self) -> None:
        told = self.told({"two.a": TWO, "three.a": THREE}, "control")
        expect(told == (["small: 2 controls proved"], (2, 0)), f"{told}")
        wrong = TWO.replace("control: 2", "control: 3")
        lines, counts = self.told({"two.a": wrong, "three.a": THREE}, "control")
        expect(counts == (1, 1) and lines[0].startswith("small/two.a.edit: its control is refused: "), f"{lines}")

    def test_a_control_is_wanted_that_says_something(self) -> None:
        lines, counts = self.told({"two.a": TWO.replace("control: 2\n", "")}, "control")
        expect(counts == (0, 1) and lines[0] == "small/two.a.edit: HAS NO CONTROL", f"{lines}")
        for control in ["1 + 1", "1 + 2"]:
            lines, counts = self.told({"two.a": TWO.replace("control: 2", f"control: {control}")}, "control")
            expect(counts == (0, 1) and "WRONG EDIT: its control is the" in lines[0], f"{control}: {lines}")

    def test_an_old_text_stands_once(self) -> None:
        lines, counts = self.told({"two.a": TWO.replace("old: 1 + 1", "old: + 1")})
        expect(counts == (0, 1) and "WRONG EDIT: src/lib.rt has its old text 2 times" in lines[0], f"{lines}")

    def test_nothing_is_tried_twice(self) -> None:
        self.told({"two.a": TWO})
        self.calls()
        lines, counts = self.told({"two.a": TWO, "Sum.four.a": FOUR})
        calls = self.calls()
        expect(counts == (2, 0) and lines == ["small: 2 wrong bodies refused, 1 of them in an earlier run"], f"{lines}")
        expect(calls == ["Sum::four"], f"{calls}")
        self.write("crates/small/src/lib.rt", SOURCE.replace("//! Sums.", "//! Sums of numbers."))
        self.told({"two.a": TWO})
        expect(self.calls() == ["two"], "a changed crate is not tried anew")

    def test_a_failure_is_tried_again(self) -> None:
        harmless = {"two.a": TWO.replace("1 + 2", "2").replace("control: 2", "control: 1  + 1")}
        first, second = self.told(harmless), self.told(harmless)
        expect(first == second and first[1] == (0, 1), f"{first}, {second}")


class Choices(unittest.TestCase):
    def test_one_edit_of_each_function_is_chosen(self) -> None:
        """None of a function of which rt ci tries one."""
        crate = mock.Mock(spec=Crate, **{"place_of.side_effect": lambda edit: mock.Mock(turned=frozenset([edit.name[0]]))})
        edits = [
            Edit("c", folder, name, "", [])
            for folder, name in [("edits", "a2"), ("edits", "a1"), ("edits", "b1"), ("must-fail", "b2")]
        ]
        chosen = [edit.name for edit in runs.one_of_each(crate, edits)]
        expect(chosen == ["a1"], f"{chosen}")

    def test_no_edit_is_chosen_that_is_of_no_function(self) -> None:
        crate = mock.Mock(spec=Crate, **{"place_of.return_value": None})
        expect(not runs.one_of_each(crate, [Edit("c", "edits", "limits.a.edit", "", [])]), "chosen")


NAMED = {
    "src/lib.rt": "pub struct Desk<K>(K);\n",
    "src/run.rt": """impl<K: Keep> Desk<K> {
    pub fn run(&mut self, requests: &[Request]) -> Run
    where
        K: Drop,
        ensures { all }
    {
        1
    }
}

impl<K: Keep> Desk<Deferred<K>> {
    fn settle(self) {
        1
    }
}

impl<T: Drop> From<AllocFailed<T>> for Memory {
    fn from(
        fault: AllocFailed<T>,
    ) -> Memory {
        Memory
    }
}

impl Told<KeptRow> for (Key, KeptEntry) {
    fn read() {}
}

impl<'a> Words<'a> {
    fn first(&self) -> &'a str {
        1
    }
}

pub trait Keep {
    fn load(&self) -> u8
        ensures { record {
          one = 1;
        } };

    fn make_room(&self) -> u8 {
        1
    }
}

pub fn law()
    ensures { true }
{}
""",
}


class Reading(unittest.TestCase):
    def test_functions_have_the_names_of_their_proofs(self) -> None:
        found = [it.name for it in functions.functions_of("c", NAMED)]
        want = ["Desk::run", "Desk+Deferred+K::settle", "run::MemoryFromAllocFailed::from"]
        want += ["run::Tuple2KeyKeptEntryToldKeptRow::read", "run::Words::first", "run::Keep::make_room"]
        want += ["run::law"]
        expect(found == want, f"{found}")

    def test_lines_of_another_kind_are_remarks(self) -> None:
        swaps = swaps_of("A remark.\nfile: a\nold: 1\nnew: 2\ncontrol: 3\nold: 4\nnew: 5\n")
        found = [(it.file, it.old, it.new, it.control) for it in swaps]
        expect(found == [("a", "1", "2", "3"), ("a", "4", "5", "")], f"{found}")

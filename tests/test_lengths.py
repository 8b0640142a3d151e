"""Tests of the sources: how long functions, files and lines of proofs are, as CONTRIBUTING.md says it, and how many loops a
function has."""

import ast
import glob
import os
import re
import unittest
from collections.abc import Iterator

from support import TOP
from support.documents import text_of
from support.programs import expect

MOST_IN_A_FUNCTION = 39
MOST_IN_A_FILE = 500
# characters in a line of a definition or a proof, apart from a line that only names what is used, or has a worked text whole
MOST_IN_A_PROOF_LINE = 160

# Functions of Rattle that are longer: two are one `match` with an arm for each command or table, of two the contract is long.
LONGER = [
    "crates/rounds/src/places.rt: round",
    "crates/rounds/src/service.rt: serve",
    "crates/sql_keep/src/description.rt: columns_of",
    "crates/words/src/write.rt: push_stock",
]

FUNCTION = re.compile(r"( *)(?:pub(?:\([a-z]+\))? )?fn (\w+)")
# what may be longer
WHOLE = re.compile(r' *(?:pub )?use | *\(codes "')
LOOP = re.compile(r" *(?:'\w+: )?(?:for|while|loop)\b")


def rattle_files() -> list[str]:
    return sorted(glob.glob(os.path.join(TOP, "crates", "*", "src", "**", "*.rt"), recursive=True))


def is_python(path: str) -> bool:
    """Whether it is a module, or a program that begins with the name of Python."""
    if path.endswith(".py"):
        return True
    if not os.path.isfile(path):
        return False
    with open(path, "rb") as file:
        return re.match(rb"#!.*python3$", file.readline().rstrip()) is not None


def python_files() -> list[str]:
    folders = ["", "bench", "deploy", "examples", "tests", os.path.join("tests", "support")]
    found = [path for folder in folders for path in glob.glob(os.path.join(TOP, folder, "*"))]
    return sorted(filter(is_python, found))


def proof_files() -> list[str]:
    """The files of definitions and of proofs."""
    patterns = [os.path.join(TOP, "crates", "*", folder, "**", "*.antt") for folder in ["proofs", "specs"]]
    return sorted(path for pattern in patterns for path in glob.glob(pattern, recursive=True))


def long_lines(path: str) -> Iterator[str]:
    """Each line that is longer than it may be, by its number."""
    for number, line in enumerate(text_of(path).splitlines(), 1):
        if len(line) > MOST_IN_A_PROOF_LINE and not WHOLE.match(line):
            yield f"{os.path.relpath(path, TOP)}:{number}"


def end_of(lines: list[str], first: int, margin: str) -> int | None:
    """The line of the brace that closes the function which begins at that line; None where it has no body, as in a trait."""
    if lines[first].endswith("}"):
        return first
    for number in range(first + 1, len(lines)):
        line = lines[number]
        if line in (margin + "}", margin + "{}"):
            return number
        begins_another = (named := FUNCTION.match(line)) is not None and named[1] == margin
        if begins_another or (line and not line.startswith(margin)):
            return None
    return None


def rattle_functions(path: str) -> Iterator[tuple[str, list[str]]]:
    """The name and the lines of each function, from `fn` to the closing brace."""
    lines = text_of(path).splitlines()
    for first, line in enumerate(lines):
        if named := FUNCTION.match(line):
            last = end_of(lines, first, named[1])
            if last is not None:
                yield f"{os.path.relpath(path, TOP)}: {named[2]}", lines[first : last + 1]


def lines_of_text(function: ast.FunctionDef | ast.AsyncFunctionDef) -> int:
    """How many lines the docstring has."""
    if ast.get_docstring(function) is None:
        return 0
    text = function.body[0]
    return (text.end_lineno or text.lineno) - text.lineno + 1


def python_functions(path: str) -> Iterator[tuple[str, int]]:
    """The name of each function, and how many lines it has without its docstring."""
    for node in ast.walk(ast.parse(text_of(path))):
        if isinstance(node, (ast.FunctionDef, ast.AsyncFunctionDef)):
            lines = (node.end_lineno or node.lineno) - node.lineno + 1
            yield f"{os.path.relpath(path, TOP)}: {node.name}", lines - lines_of_text(node)


class Lengths(unittest.TestCase):
    def test_functions_of_rattle(self) -> None:
        functions = [found for path in rattle_files() for found in rattle_functions(path)]
        expect(len(functions) > 1000, "the functions were not found")
        longer = [name for name, lines in functions if len(lines) > MOST_IN_A_FUNCTION]
        expect(longer == LONGER, f"of over {MOST_IN_A_FUNCTION} lines are {longer}")

    def test_loops_of_rattle(self) -> None:
        functions = [found for path in rattle_files() for found in rattle_functions(path)]
        loops = [(name, sum(LOOP.match(line) is not None for line in lines)) for name, lines in functions]
        expect(any(count == 1 for _, count in loops), "the loops were not found")
        more = [name for name, count in loops if count > 1]
        expect(not more, f"of more than one loop are {more}")

    def test_functions_of_python(self) -> None:
        functions = [found for path in python_files() for found in python_functions(path)]
        expect(len(functions) > 1000, "the functions were not found")
        longer = [name for name, lines in functions if lines > MOST_IN_A_FUNCTION]
        expect(not longer, f"of over {MOST_IN_A_FUNCTION} lines are {longer}")

    def test_files(self) -> None:
        files = rattle_files() + python_files()
        longer = [path for path in files if len(text_of(path).splitlines()) > MOST_IN_A_FILE]
        expect(not longer, f"of over {MOST_IN_A_FILE} lines are {longer}")

    def test_lines_of_proofs(self) -> None:
        files = proof_files()
        expect(len(files) > 500, "the proofs were not found")
        longer = [line for path in files for line in long_lines(path)]
        expect(not longer, f"of over {MOST_IN_A_PROOF_LINE} characters are {len(longer)} lines: {' '.join(longer[:40])}")

"""Tests of the documents: each link leads somewhere, and each call, clause, law and definition that is named is there."""

import glob
import os
import re
import unittest

from support import TOP
from support.documents import LINK, headings_of, links_of, text_of
from support.programs import expect

NAME = re.compile(r"`([^`]*)`")
# the documents that do not lie in docs/
BESIDE = ["README.md", "CHANGELOG.md", "CONTRIBUTING.md", os.path.join("examples", "README.md")]

# what is named among definitions and is a crate
CRATES = ["csv", "clap", "matchit"]


def documents():
    return [os.path.join(TOP, name) for name in BESIDE] + sorted(glob.glob(os.path.join(TOP, "docs", "*.md")))


def clauses_of(path):
    """The functions of a file, each with the names of its clauses; under `law` the laws of its trait."""
    found = {"law": set()}
    function = None
    for line in text_of(path).splitlines():
        if named := re.search(r"\bfn (\w+)", line):
            function = named[1]
            found.setdefault(function, set())
        if law := re.match(r"\s*ghost (\w+):", line):
            found["law"].add(law[1])
        if clause := re.match(r"\s*(?:ensures|requires) (\w+) \{", line):
            found[function].add(clause[1])
    return found


def rows_of_promises():
    """Each row of the promises: the promise, its calls and its definitions."""
    for line in text_of(os.path.join(TOP, "docs", "PROMISES.md")).splitlines():
        if line.startswith("|") and not line.startswith(("|promise|", "|---|")):
            cells = line[1:-1].split("|")
            expect(line.endswith("|") and len(cells) == 3, f"no row of three cells: {line}")
            yield cells


def linked_files(cell):
    return [os.path.normpath(os.path.join(TOP, "docs", target)) for _, target in LINK.findall(cell)]


def check_calls(promise, cell):
    files = [clauses_of(path) for path in linked_files(cell)]
    expect(files, f"no call carries: {promise}")
    for entry in cell.split("; "):
        head, _, clauses = LINK.sub(r"\1", entry).partition(": ")
        calls = [name.split("::")[-1] for name in NAME.findall(head)]
        if head.startswith("law"):
            calls, clauses = ["law"], head
        for call in calls:
            # a type may stand for its file, as a trait whose laws are named next
            there = any(call in file for file in files) or any(
                re.search(rf"\b(trait|struct) {call}\b", text_of(path)) for path in linked_files(cell)
            )
            expect(there, f"there is no {call}: {promise}")
        for clause in NAME.findall(clauses):
            expect(any(clause in file.get(call, ()) for file in files for call in calls), f"no clause {clause}: {promise}")


def check_definitions(text, path):
    source = text_of(path)
    for name in NAME.findall(text):
        expect(
            re.search(rf"^(?:\w+ )*(?:pub )?(?:record |struct )?{re.escape(name)}\b", source, re.MULTILINE),
            f"no {name} in {path}",
        )


def proofs_told():
    """What is told of proofs, line by line: the crates that the line, or the one that it stands below, names, and the text."""
    crates = []
    for line in text_of(os.path.join(TOP, "docs", "PROOFS.md")).splitlines():
        head, _, text = line.partition("**: ")
        if line.startswith("- **"):
            crates = NAME.findall(head)
            yield crates, text
        elif line.startswith("  - ") and crates:
            yield crates, line
        else:
            crates = []


def check_items(text, path):
    """What a link to a file of code names beside the file itself: functions, or the type to which they belong."""
    source = text_of(path)
    for name in NAME.findall(text):
        item = name.split("::")[-1]
        expect(re.search(rf"\b(fn|trait|struct|enum|const|type) {item}\b", source), f"there is no {name} in {path}")


def edits_shown(path):
    """Each edit that a document shows in a block of code: the file to which the document links last before it, and the text."""
    text = text_of(path)
    for block in re.finditer(r"^```text\n(file: .*?)^```$", text, re.MULTILINE | re.DOTALL):
        links = [target for _, target in LINK.findall(text[: block.start()]) if target.endswith(".edit")]
        yield os.path.join(os.path.dirname(path), links[-1]), block[1]


class Documents(unittest.TestCase):
    def test_the_documents_lead_somewhere(self):
        for document in documents():
            for text, path, heading in links_of(document):
                expect(os.path.exists(path), f"{document}: {text} leads to no file")
                expect(not heading or heading in headings_of(path), f"{document}: {text} leads to no heading")
                if path.endswith(".antt"):
                    check_definitions(text, path)
                if path.endswith(".rt"):
                    check_items(text, path)

    def test_the_definitions_are_where_they_are_said_to_be(self):
        document = os.path.join(TOP, "docs", "DEFINITIONS.md")
        for line in text_of(document).splitlines():
            paths = [os.path.join(TOP, "docs", target) for _, target in LINK.findall(line)]
            if line.startswith("- ") and paths:
                sources = "\n".join(text_of(path) for path in paths)
                for name in NAME.findall(LINK.sub("", line)):
                    found = re.search(rf"^(?:\w+ )*pub (?:record |data )?{name}\b", sources, re.MULTILINE)
                    expect(found or name in CRATES, f"no {name} in {line}")

    def test_the_proofs_are_where_they_are_said_to_be(self):
        for crates, text in proofs_told():
            for name in NAME.findall(text):
                files = [os.path.join(TOP, "crates", crate, "proofs", f"{name}.antt") for crate in crates]
                expect(name[0].islower() or any(map(os.path.exists, files)), f"no {name} among the proofs of {crates}")

    def test_the_promises_name_what_is_there(self):
        rows = list(rows_of_promises())
        expect(len(rows) > 50, "the promises were not found")
        for promise, calls, _definitions in rows:
            check_calls(promise, calls)

    def test_an_edit_that_is_shown_is_that_file(self):
        shown = list(edits_shown(os.path.join(TOP, "CONTRIBUTING.md")))
        expect(len(shown) == 1, f"{len(shown)} edits are shown")
        for path, text in shown:
            expect(text == text_of(path), f"{path} has another text")

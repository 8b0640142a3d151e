"""Edits: files that say which text of a crate is put in place of which. The new text makes a wrong body, which the prover has to
refuse; the control has the right meaning in other words, and has to be proved."""

import glob
import os
import re
from collections.abc import Callable
from dataclasses import dataclass

LINE = re.compile(r"(file|old|new|control): ?(.*)")
# where a crate's edits are: rt ci tries those of the first folder one by one
FOLDERS = ["must-fail", "edits"]


class BadEdit(Exception):
    """What is wrong with an edit file."""


@dataclass
class Swap:
    """A place in a file, and the texts that are put there."""

    file: str
    old: str
    new: str = ""
    control: str = ""


@dataclass
class Edit:
    """A wrong body and its control."""

    crate: str
    folder: str
    name: str
    text: str
    swaps: list[Swap]

    @property
    def has_control(self) -> bool:
        return bool(self.swaps) and all(swap.control for swap in self.swaps)

    def __str__(self) -> str:
        return f"{self.crate}/{self.name}"


def swaps_of(text: str) -> list[Swap]:
    """The replacements that an edit file asks for; lines of another kind are remarks."""
    file, swaps = "", []
    for line in text.splitlines():
        kind, value = found.groups() if (found := LINE.match(line)) else ("", "")
        if kind == "file":
            file = value
        elif kind == "old":
            swaps.append(Swap(file, value))
        elif kind and swaps:
            setattr(swaps[-1], kind, value)
    return swaps


def edits_of(top: str, crate: str) -> list[Edit]:
    """The edits of a crate in both folders, by their names."""
    found = []
    for folder in FOLDERS:
        for path in glob.glob(os.path.join(top, "crates", crate, folder, "*.edit")):
            with open(path, encoding="utf-8") as file:
                text = file.read()
            found.append(Edit(crate, folder, os.path.basename(path), text, swaps_of(text)))
    return sorted(found, key=lambda edit: (edit.name, edit.folder))


def swapped(edit: Edit, kind: str, read: Callable[[str], str]) -> dict[str, str]:
    """The files that an edit ("new") or its control ("control") changes, by their paths in the crate; `read` returns a file's
    text."""
    texts: dict[str, str] = {}
    for swap in edit.swaps:
        text = texts.get(swap.file) or read(swap.file)
        if text.count(swap.old) != 1:
            raise BadEdit(f"{swap.file} has its old text {text.count(swap.old)} times")
        texts[swap.file] = text.replace(swap.old, getattr(swap, kind))
    if all(text == read(path) for path, text in texts.items()):
        raise BadEdit("it changes nothing" if kind == "new" else "its control is the old text")
    if kind == "control" and texts == swapped(edit, "new", read):
        raise BadEdit("its control is the new text")
    return texts

"""Tries of edits: as many together as change different functions, and alone what shows nothing there."""

import itertools
import os
import re
from collections.abc import Callable, Iterable, Iterator, Mapping
from dataclasses import dataclass, replace

from wrong_bodies.checks import AT_LIMIT, Libraries, Told, check
from wrong_bodies.edits import BadEdit, Edit, swapped
from wrong_bodies.functions import Function, functions_of, sources_in
from wrong_bodies.results import Results, sum_of_crate

# what a try can come to: an edit that is wrong says nothing
REFUSED, PROVED, WRONG = "refused", "proved", "WRONG EDIT"
# what is wanted of a wrong body, and of a control
WANTED = {"new": REFUSED, "control": PROVED}
Checking = Callable[[Libraries, str, Mapping[str, str], frozenset[Function] | None], Told]


@dataclass(frozen=True)
class Place:
    """The functions that an edit changes, and those of them in which the wrong body and its control differ. Where it changes
    something else, as a constant or a definition, these are the function that its name tells, and it is tried alone."""

    changed: frozenset[Function]
    turned: frozenset[Function]
    is_alone: bool = False


@dataclass(frozen=True)
class Tried:
    """What the try of an edit came to, and what was said."""

    edit: Edit
    outcome: str
    why: str = ""
    is_kept: bool = False


class Crate:
    """A crate's functions and texts."""

    def __init__(self, top: str, name: str):
        self.name, self.folder = name, os.path.join(top, "crates", name)
        self.texts = sources_in(self.folder)
        self.functions = functions_of(name, self.texts)

    def read(self, path: str) -> str:
        if path not in self.texts:
            with open(os.path.join(self.folder, path), encoding="utf-8") as file:
                self.texts[path] = file.read()
        return self.texts[path]

    def changes_of(self, edit: Edit, kind: str) -> dict[Function, str] | None:
        """The texts that an edit gives the functions in which all its places stand; none where one stands in no function."""
        spans = {it: (it.begin, it.end) for it in self.functions}
        texts = {swap.file: self.read(swap.file) for swap in edit.swaps}
        changed = set()
        for swap in edit.swaps:
            at, new = texts[swap.file].find(swap.old), getattr(swap, kind)
            function = next((it for it, span in spans.items() if it.file == swap.file and span[0] <= at < span[1]), None)
            if function is None:
                return None
            more = len(new) - len(swap.old)
            for other, (begin, end) in spans.items():
                if other.file == swap.file:
                    spans[other] = (begin + more * (begin > at), end + more * (end > at))
            texts[swap.file] = texts[swap.file].replace(swap.old, new, 1)
            changed.add(function)
        return {it: texts[it.file][spans[it][0] : spans[it][1]] for it in changed}

    def place_of(self, edit: Edit) -> Place | None:
        """The functions that an edit changes, perhaps with their proofs."""
        bodies = replace(edit, swaps=[swap for swap in edit.swaps if not swap.file.startswith("proofs/")])
        new, control = self.changes_of(bodies, "new"), self.changes_of(bodies, "control")
        folders = {os.path.dirname(swap.file) for swap in edit.swaps if swap not in bodies.swaps}
        if new and control and folders <= {it.folder for it in new}:
            return Place(frozenset(new), frozenset(it for it in new if new[it] != control[it]))
        found = frozenset(it for it in self.functions if it.is_told_by(edit.name))
        return Place(found, found, is_alone=True) if len(found) == 1 else None

    def merged(self, edits: list[Edit], kind: str) -> dict[str, str]:
        """The texts of the files that one edit changes, or several of different functions."""
        if len(edits) == 1:
            return swapped(edits[0], kind, self.read)
        texts: dict[str, str] = {}
        bodies: dict[Function, str] = {}
        for edit in edits:
            edited = swapped(edit, kind, self.read)
            texts |= {path: text for path, text in edited.items() if path.startswith("proofs/")}
            bodies |= self.changes_of(replace(edit, swaps=[it for it in edit.swaps if it.file not in texts]), kind) or {}
        for function in sorted(bodies, key=lambda it: -it.begin):
            text = texts.get(function.file) or self.read(function.file)
            texts[function.file] = text[: function.begin] + bodies[function] + text[function.end :]
        return texts

    def has_line(self, function: Function, file: str, line: int) -> bool:
        """Whether a line of a source stands in a function. (No edit changes the number of lines.)"""
        text = self.read(function.file)
        first, last = (text.count("\n", 0, at) + 1 for at in (function.begin, function.end))
        return file == function.file and first <= line <= last


class Tries:
    """The tries of one crate's edits, or of their controls, whose texts are of this kind."""

    def __init__(self, libraries: Libraries, crate: Crate, kind: str, places: Mapping[str, Place], check_with: Checking = check):
        self.libraries, self.crate, self.kind, self.places, self.check_with = libraries, crate, kind, places, check_with

    def check(self, edits: list[Edit]) -> Told:
        looked_at = frozenset(it for edit in edits for it in self.places[edit.name].changed)
        return self.check_with(self.libraries, self.crate.name, self.crate.merged(edits, self.kind), looked_at)

    def seen(self, edit: Edit, told: Told, is_alone: bool) -> Tried | None:
        """What a check says of an edit by the names of its functions, where that is clear. Where it was tried alone, whatever
        keeps one of them from being proved comes from it."""
        place = self.places[edit.name]
        for function in place.turned:
            if told.refuses(function) or is_alone and told.fails(function):
                return Tried(edit, REFUSED, told.why(function))
        return Tried(edit, PROVED) if all(told.proves(it) for it in place.changed) else None

    def stops(self, edit: Edit, told: Told) -> bool:
        """Whether a check came to no proof for what an edit has made of its functions."""
        lines = [
            (path, int(number)) for path, number in re.findall(r"^(?:\./)?(src/\S+):(\d+):\d+: error", told.text, re.MULTILINE)
        ]
        return any(
            f"`{it.crate}::{it.name}`" in told.text or any(self.crate.has_line(it, *line) for line in lines)
            for it in self.places[edit.name].changed
        )

    def together(self, edits: list[Edit]) -> Iterator[Tried]:
        """Tries edits of different functions, and alone those of which this shows nothing."""
        told = self.check(edits)
        if not told.has_read and len(edits) > 1:
            apart = [edit for edit in edits if self.stops(edit, told)] or edits[: len(edits) // 2]
            if len(apart) < len(edits):
                yield from self.together([edit for edit in edits if edit not in apart])
            for edit in apart:
                yield from self.together([edit])
            return
        for edit in edits:
            is_alone = len(edits) == 1
            tried = self.seen(edit, told, is_alone)
            if not is_alone and (tried is None or tried.outcome != WANTED[self.kind]):
                tried = self.seen(edit, self.check([edit]), is_alone=True)
            yield tried or self.alone(edit)

    def alone(self, edit: Edit) -> Tried:
        """Tries one edit on the whole crate."""
        told = self.check_with(self.libraries, self.crate.name, swapped(edit, self.kind, self.crate.read), None)
        if told.status == 0:
            return Tried(edit, PROVED)
        lines = [line for line in told.text.splitlines() if "error" in line or AT_LIMIT.search(line)]
        why = (lines or told.text.splitlines()[-1:] or [""])[0]
        is_refused = told.has_verdict or AT_LIMIT.search(told.text)
        return Tried(edit, REFUSED if is_refused else WRONG, why)


def batches(places: Mapping[str, Place], edits: Iterable[Edit]) -> list[list[Edit]]:
    """The edits in lots, each of edits that change different functions."""
    lots: list[tuple[set[Function], list[Edit]]] = []
    for edit in sorted(edits, key=lambda edit: places[edit.name].is_alone):
        changed = places[edit.name].changed
        lot = next((lot for lot in lots if not lot[0] & changed), None)
        if lot is None or places[edit.name].is_alone:
            lot = (set(), [])
            lots.append(lot)
        lot[0].update(changed)
        lot[1].append(edit)
    return [edits for _, edits in lots]


def faults_of(crate: Crate, edits: list[Edit], kind: str) -> tuple[list[Edit], list[Tried]]:
    """The edits that can be made, and of each other one what is wrong with it."""
    good, wrong = [], []
    for edit in edits:
        try:
            swapped(edit, kind, crate.read)
            good.append(edit)
        except (BadEdit, OSError) as error:
            wrong.append(Tried(edit, WRONG, str(error)))
    return good, wrong


def try_all(libraries: Libraries, crate: Crate, edits: list[Edit], kind: str, results: Results) -> Iterator[Tried]:
    """Tries these edits of a crate, or their controls, but for those whose outcome is kept."""
    stands_on = sum_of_crate(libraries.top, crate.name, libraries.graph, libraries.kit)
    good, wrong = faults_of(crate, edits, kind)
    yield from wrong
    known = {edit.name: outcome for edit in good if (outcome := results.find(stands_on, edit, kind))}
    yield from (Tried(edit, known[edit.name], is_kept=True) for edit in good if edit.name in known)
    left = [edit for edit in good if edit.name not in known]
    places = {edit.name: place for edit in left if (place := crate.place_of(edit))}
    tries = Tries(libraries, crate, kind, places)
    lots = [tries.together(lot) for lot in batches(places, [edit for edit in left if edit.name in places])]
    apart = (tries.alone(edit) for edit in left if edit.name not in places)
    for tried in itertools.chain(*lots, apart):
        if tried.outcome == WANTED[kind]:
            results.keep(stands_on, tried.edit, kind, tried.outcome)
        yield tried

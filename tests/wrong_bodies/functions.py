"""The functions of a crate's sources, as rt fmt lays them out: their names, as the prover tells them, and where they stand."""

import glob
import os
import re
from collections.abc import Mapping
from dataclasses import dataclass

FUNCTION = re.compile(r"^( *)(?:pub(?:\([^)]*\))? )?(?:const )?fn (\w+)(.*)$", re.MULTILINE)
OWNER = re.compile(r"^(?:pub(?:\([^)]*\))? )?((impl|trait)\b.*)$", re.MULTILINE)
TYPE = re.compile(r"^(?:pub(?:\([^)]*\))? )?(?:struct|enum) (\w+)", re.MULTILINE)
IMPL = re.compile(r"impl(<(?:[^<>]|<[^<>]*>)*>)? (?:(.*) for )?(.*?)(?: where .*)?(?: \{)?$")


@dataclass(frozen=True)
class Function:
    """A function with a body: the words of its name below the crate, and where in its file its text begins, its body begins,
    and both end."""

    crate: str
    words: tuple[str, ...]
    file: str
    begin: int
    body: int
    end: int

    @property
    def name(self) -> str:
        """Its name below the crate, as the prover has it."""
        return "::".join(self.words)

    def is_told_by(self, name: str) -> bool:
        """Whether the name of an edit begins with this function and its type or module, as `Desk.call.` and `tasks.read.`"""
        above, _, last = name.rpartition(".edit")[0].rpartition(".")[0].rpartition(".")
        return self.words[-1] == last and any(word.startswith(above) for word in self.words[:-1] if above)

    @property
    def folder(self) -> str:
        """The folder of its proof, in the crate."""
        return "/".join(["proofs", *self.words])


def words_of_type(text: str, parameters: set[str]) -> list[str]:
    """The names in a type or a trait, without the parameters and lifetimes of its impl; a tuple is named for its length."""
    tuple_of = [f"Tuple{text.count(',') + 1}"] if text.startswith("(") else []
    return [*tuple_of, *(word for word in re.findall(r"(?<!')\b\w+", text) if word not in parameters)]


def owner_of(head: str, modules: list[str], homes: dict[str, list[str]]) -> list[str]:
    """The words before the names of the functions of an impl or a trait: what a type itself has stands below the type."""
    if head.startswith("trait"):
        return [*modules, re.findall(r"\w+", head)[1]]
    found = IMPL.match(head)
    if not found:
        raise ValueError(f"no impl: {head}")
    parameters = {*re.findall(r"[<,] *(?:const )?(\w+)", found[1] or "")}
    names = words_of_type(found[3], parameters)
    if found[2]:
        return [*modules, "".join(names + words_of_type(found[2], parameters))]
    return [*homes.get(names[0], modules), names[0] if len(names) == 1 else "+".join(re.findall(r"\w+", found[3]))]


def modules_of(file: str) -> list[str]:
    """The modules that a source file stands for."""
    path = re.sub(r"(/mod)?\.rt$", "", file.removeprefix("src/"))
    return [] if path in ("lib", "main") else path.split("/")


def body_of(text: str, head: re.Match[str]) -> tuple[int, int] | None:
    """Where the body behind this head begins and ends; none where a semicolon stands in its place, as in a trait."""
    if head[3].endswith("}"):
        return text.index("{", head.start(3)), head.end()
    # the next line that stands as far left, and is not the end of the parameters or `where`
    begin = re.compile(rf"^{head[1]}(?!where$|\)[^{{]*$)[^ \n].*$", re.MULTILINE).search(text, head.end())
    if begin and begin[0].endswith("{}"):
        return begin.end() - 2, begin.end()
    end = text.find(f"\n{head[1]}}}\n", head.end()) + len(head[1]) + 2
    if head[3].endswith(" {"):
        return head.end() - 1, end
    if begin and re.fullmatch(r"(\).* )?\{", begin[0].strip()):
        return begin.end() - 1, end
    return None


def functions_in(crate: str, file: str, text: str, homes: dict[str, list[str]]) -> list[Function]:
    """The functions with bodies in a source file; `homes` has the modules of the crate's types."""
    owners = [(line.start(), line[1]) for line in OWNER.finditer(text)]
    found = []
    for head in FUNCTION.finditer(text):
        body = body_of(text, head)
        above = [line for at, line in owners if at < head.start()] if head[1] else []
        place = owner_of(above[-1], modules_of(file), homes) if above else modules_of(file)
        if body:
            found.append(Function(crate, (*place, head[2]), file, head.start(), *body))
    return found


def sources_in(folder: str) -> dict[str, str]:
    """The texts of the sources of the crate in a folder, by their paths there."""
    texts = {}
    for path in sorted(glob.glob(f"{folder}/src/**/*.rt", recursive=True)):
        with open(path, encoding="utf-8") as file:
            texts[os.path.relpath(path, folder)] = file.read()
    return texts


def homes_of(texts: Mapping[str, str]) -> dict[str, list[str]]:
    """The modules of the types that sources declare, by the types' names."""
    return {name: modules_of(file) for file, text in texts.items() for name in TYPE.findall(text)}


def functions_of(crate: str, texts: Mapping[str, str]) -> list[Function]:
    """All functions with bodies of a crate with these sources."""
    homes = homes_of(texts)
    return [it for file, text in texts.items() for it in functions_in(crate, file, text, homes)]

"""Checks of a crate in a copy, in which each function that is not looked at has no body, and a hole for its proof. The prover
then takes it by its contract, and proves the functions that are looked at alone."""

import contextlib
import os
import re
import resource
import shutil
import subprocess
import tempfile
from collections.abc import Collection, Iterable, Mapping
from dataclasses import dataclass

from wrong_bodies.functions import Function, functions_of, sources_in

PARTS = ["src", "specs", "proofs"]
# a proof whose only word is a hole
STUB = """use Rattle.{crate}.proofs.{path}.Statement.{{statement}}

pub {name}_spec : {{M : Type 1}} → statement M
{name}_spec 𝓤 𝓛 𝓜 𝓡 w = ?
"""
LINE = re.compile(r"^fn (\S+): (.*)$", re.MULTILINE)
PROVED = re.compile(r"proved|no holes|depends on a hole in ")
# a limit of the prover's own, at which it gives no verdict
AT_LIMIT = re.compile(r"antt ran out of|outgrew the memory limit|stopped at the step limit")


class NoCheck(Exception):
    """Why a check could not be made."""


@dataclass(frozen=True)
class Told:
    """What a check said: of each function by its name, and all of it; whether it found the crate proved."""

    status: int
    text: str
    lines: Mapping[str, str]

    @property
    def has_read(self) -> bool:
        """Whether the crate compiled and its definitions could be read, so that something is told of proofs."""
        return bool(self.lines)

    @property
    def has_verdict(self) -> bool:
        """Whether the prover ended with the crate not proved, and not because its text could not be read."""
        return self.text.rstrip().rpartition("\n")[2].startswith("logic=not-proved")

    def about(self, function: Function) -> dict[str, str]:
        """What is said of a function and of its closures, by the names of their proofs."""
        own = ".".join(function.words)
        names = {key.partition("::")[2].replace("::", "."): said for key, said in self.lines.items()}
        return {name: said for name, said in names.items() if name == own or is_closure_of(name, function)}

    def why(self, function: Function) -> str:
        """What is said against a function: the first error in its proof or in its source, or else what its own line says."""
        files = rf"^(?:\./)?(?:{re.escape(function.folder)}/|{re.escape(function.file)}:)\S+ error: .*$"
        found = re.search(files, self.text, re.MULTILINE)
        return found[0] if found else "; ".join(self.about(function).values())

    def refuses(self, function: Function) -> bool:
        """Whether something in the function's own proof was refused or is missing. (A function that only calls one that is
        refused is not proved either; but then the other alone is named.)"""
        return any(
            not PROVED.match(said) and (f"Rattle.{function.crate}.proofs.{name}." in said or says_own_lack(said))
            for name, said in self.about(function).items()
        )

    def fails(self, function: Function) -> bool:
        """Whether the function was not proved, for whatever cause."""
        return any(not PROVED.match(said) for said in self.about(function).values())

    def proves(self, function: Function) -> bool:
        """Whether the function and its closures were proved, given the contracts of the others."""
        about = self.about(function)
        return bool(about) and all(PROVED.match(said) for said in about.values())


def is_closure_of(name: str, function: Function) -> bool:
    """Whether this is the name of a closure's proof: the word `fn` stands before the function's own words."""
    for at in range(len(function.words)):
        before, own = function.words[:at], function.words[at:]
        if name.startswith(".".join([*before, "fn", *own, ""])):
            return True
    return False


def says_own_lack(said: str) -> bool:
    """Whether the line says that goals of the function itself are open, or that the prover met its own limit at it."""
    return said.startswith(("no proof", "could not tell")) or "`search` did not prove" in said


def kit() -> str:
    """The folder of the toolchain."""
    return os.path.dirname(subprocess.run(["rt", "doc"], capture_output=True, text=True, check=True).stdout.strip())


def graph_of(top: str) -> dict[str, list[str]]:
    """Each crate with the names on its line of crates.txt."""
    with open(os.path.join(top, "crates.txt"), encoding="utf-8") as file:
        return {name: below.split() for name, below in re.findall(r"^(\w+):(.*)$", file.read(), re.MULTILINE)}


def below(crate: str, graph: Mapping[str, list[str]]) -> list[str]:
    """The repository's crates that a crate stands on, directly or not, lowest first."""
    found: list[str] = []
    for name in graph[crate]:
        if name in graph:
            found += [it for it in [*below(name, graph), name] if it not in found]
    return found


class Libraries:
    """The crates below those that are looked at, as `rt ci` builds them. They lie in a folder of their own."""

    def __init__(self, top: str, room: str):
        self.top, self.room, self.kit, self.graph = top, room, kit(), graph_of(top)

    def prove_below(self, crates: Collection[str]) -> None:
        """Has `rt ci` prove what these crates stand on; that of some toolchains takes over what it has proved before, on this
        machine. NoCheck: a crate is not proved."""
        wanted = {it for crate in crates for it in below(crate, self.graph)}
        with open(os.path.join(self.room, "crates.txt"), "w", encoding="utf-8") as file:
            file.writelines(f"{name}: {' '.join(on)}\n" for name, on in self.graph.items() if name in wanted)
        shutil.copy(os.path.join(self.top, "HANDLES"), self.room)
        for name in wanted:
            copy_parts(os.path.join(self.top, "crates", name), os.path.join(self.room, "crates", name))
        if wanted:
            run = subprocess.run(
                ["rt", "ci"], cwd=self.room, stdin=subprocess.DEVNULL, capture_output=True, text=True, check=False
            )
            if run.returncode:
                raise NoCheck(f"the crates below {' '.join(crates)} are not proved: {run.stdout[-2000:]}{run.stderr[-500:]}")

    def words(self, crate: str) -> list[str]:
        """How rattle is called to check a crate."""
        root = "src/main.rt" if os.path.exists(os.path.join(self.top, "crates", crate, "src", "main.rt")) else "src/lib.rt"
        folders = {it: os.path.join(self.room, "crates", it, "out", "rlib") for it in below(crate, self.graph)}
        found = ["--crate-name", crate, root, "--links", f"{crate}=", "-L", f"dependency={self.kit}/rlibs"]
        for name in ["std", *self.graph[crate]]:
            found += ["--extern", f"{name}={folders.get(name, f'{self.kit}/rlibs')}/{name}.rlib"]
        for folder in folders.values():
            found += ["-L", f"dependency={folder}"]
        logic = [f"{self.kit}/rattle/logic/antt-project.json", "--logic-built", f"{self.kit}/logic_built"]
        return [*found, "--antt-project", *logic, "--jobs", "1"]


def copy_parts(folder: str, to: str) -> None:
    for part in PARTS:
        if os.path.isdir(os.path.join(folder, part)):
            shutil.copytree(os.path.join(folder, part), os.path.join(to, part))


def without_body(text: str, function: Function) -> str:
    """The text of a source in which a function does nothing, on as many lines as before."""
    lines = text.count("\n", function.body, function.end)
    return text[: function.body] + "{ unreachable!()" + "\n" * lines + " }" + text[function.end :]


def write_stubs(room: str, functions: Iterable[Function]) -> None:
    """Takes the bodies of these functions away, and puts holes in the place of their proofs."""
    for function in sorted(functions, key=lambda it: -it.begin):
        write_hole(room, function)
        path = os.path.join(room, function.file)
        with open(path, encoding="utf-8") as file:
            text = file.read()
        if text[function.body : function.end] != "{}":
            with open(path, "w", encoding="utf-8") as file:
                file.write(without_body(text, function))


def write_hole(folder: str, function: Function) -> None:
    """Puts a hole in the place of a function's proof."""
    place = os.path.join(folder, function.folder)
    os.makedirs(place, exist_ok=True)
    for name in ["Answers.antt", "Invariants.antt"]:
        with contextlib.suppress(FileNotFoundError):
            os.remove(os.path.join(place, name))
    path = ".".join(f"«{word}»" if "+" in word else word for word in function.words)
    with open(os.path.join(place, "Proof.antt"), "w", encoding="utf-8") as file:
        file.write(STUB.format(crate=function.crate, path=path, name=function.words[-1]))


def check(libraries: Libraries, crate: str, texts: Mapping[str, str], looked_at: Collection[Function] | None) -> Told:
    """Checks a crate with these texts in place of its own: the functions that are looked at, or, with None, all of it."""
    with tempfile.TemporaryDirectory() as room:
        copy_parts(os.path.join(libraries.top, "crates", crate), room)
        for path, text in texts.items():
            with open(os.path.join(room, path), "w", encoding="utf-8") as file:
                file.write(text)
        words = [os.path.join(libraries.kit, "bin", "rattle"), "check", *libraries.words(crate)]
        if looked_at is not None:
            own = {it.words for it in looked_at}
            write_stubs(room, (it for it in functions_of(crate, sources_in(room)) if it.words not in own))
            words += ["--allow-holes", *(word for it in looked_at for word in ("--only", it.name))]
        run = subprocess.run(
            words,
            cwd=room,
            stdin=subprocess.DEVNULL,
            stdout=subprocess.PIPE,
            stderr=subprocess.STDOUT,
            text=True,
            errors="replace",
            check=False,
        )
    return Told(run.returncode, run.stdout, dict(LINE.findall(run.stdout)))


def seconds_used() -> float:
    """The processor seconds of all commands that were run and have ended."""
    used = resource.getrusage(resource.RUSAGE_CHILDREN)
    return used.ru_utime + used.ru_stime

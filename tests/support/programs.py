"""Runs of the built program and their ends, the files that they read and write, and what a test reports beside its outcome."""

import csv
import os
import resource
import subprocess
import sys
import threading
from collections.abc import Iterable, Sequence

SECONDS = 30
FILES = os.path.join(os.path.dirname(os.path.dirname(os.path.abspath(__file__))), "files")

# how a program ends: its status, its output, and what it says of a fault
End = tuple[int, bytes, bytes]

# how a program ends that writes nothing except this fault
WELL: End = (0, b"", b"")
NOT_A_DESK: End = (3, b"", b"stockdesk: not a desk\n")
OLD_VERSION: End = (3, b"", b"stockdesk: old version\n")
DAMAGED: End = (3, b"", b"stockdesk: damaged\n")
STORE: End = (1, b"", b"stockdesk: store\n")
MEMORY: End = (1, b"", b"stockdesk: memory\n")
IO: End = (1, b"", b"stockdesk: io\n")

# files whose bytes are no desk, each with how a run on it ends
NO_DESK = [(b"this is no database, but some text", STORE), (b"S", STORE), (b"", NOT_A_DESK)]


def note(text: str) -> None:
    """Writes a number that was found on the line on which the test is reported."""
    print(f"{text}; ", end="", file=sys.stderr, flush=True)


def expect(fact: object, text: str) -> None:
    if not fact:
        raise AssertionError(text)


def ended(
    program: str,
    words: Sequence[str],
    text: str | bytes = "",
    folder: str | None = None,
    limit: tuple[int, int] | None = None,
    environment: dict[str, str] | None = None,
) -> End:
    """The status of a run, its output and what it says of a fault; under a limit, for example on the bytes that a file may have,
    or in another environment."""
    run = subprocess.run(
        [program, *words],
        input=text.encode() if isinstance(text, str) else text,
        cwd=folder,
        env=environment,
        capture_output=True,
        # a large script may take long on a busy machine
        timeout=4 * SECONDS,
        # what goes beyond the limit is refused, and raises no signal
        restore_signals=limit is None,
        preexec_fn=limit and (lambda: resource.setrlimit(limit[0], (limit[1], limit[1]))),
    )
    return run.returncode, run.stdout, run.stderr


def done(program: str, words: Sequence[str], text: str | bytes = "") -> list[str]:
    """The lines of a run that ends with status 0."""
    status, out, errors = ended(program, words, text)
    expect(status == 0, f"{words}: status {status}, {errors!r}")
    return out.decode().splitlines()


def expect_end(program: str, words: Sequence[str], want: End, text: str = "K1 expire 1\n") -> None:
    found = ended(program, words, text)
    expect(found == want, f"{words}: {found} and not {want}")


class Session:
    """A run on a file whose input stays open."""

    def __init__(self, program: str, path: str):
        self.process = subprocess.Popen([program, "run", path], stdin=subprocess.PIPE, stdout=subprocess.PIPE)
        assert self.process.stdin and self.process.stdout
        self.input, self.output = self.process.stdin, self.process.stdout
        # a reply that never comes ends the test
        self.clock = threading.Timer(SECONDS, self.process.kill)
        self.clock.start()

    def ask(self, line: str | bytes) -> str:
        self.input.write((line.encode() if isinstance(line, str) else line) + b"\n")
        self.input.flush()
        return self.output.readline().decode().rstrip("\n")

    def end(self) -> None:
        self.input.close()
        self.process.wait()
        self.output.close()
        self.clock.cancel()


def lines_of(name: str) -> list[str]:
    with open(os.path.join(FILES, name), encoding="ascii") as file:
        return file.read().splitlines()


def write_records(path: str, records: Iterable[Iterable[object]]) -> None:
    with open(path, "w", encoding="latin-1", newline="") as file:
        csv.writer(file).writerows(records)


def bytes_of(path: str) -> bytes:
    with open(path, "rb") as file:
        return file.read()


def write_bytes(path: str, data: bytes) -> None:
    with open(path, "wb") as file:
        file.write(data)


def new_desk(program: str, folder: str, name: str = "desk.db") -> str:
    path = os.path.join(folder, name)
    done(program, ["init", path])
    return path

"""The system calls by which a run may change files, with their bytes, as strace records them; and a disk that carries these calls
out and may lose what was not synced."""

import os
import re
import shutil
import subprocess
import tempfile
from dataclasses import dataclass
from random import Random

from support.programs import SECONDS, expect

SECTOR = 512

# all calls by which a program changes files or names; a recorded call that is not understood ends the test
CHANGES = (
    "open,openat,creat,write,writev,pwrite64,pwritev,pwritev2,truncate,ftruncate,fallocate,fsync,fdatasync,rename,renameat,"
    "renameat2,unlink,unlinkat,link,linkat,mkdir,mkdirat,sync_file_range,copy_file_range,sendfile"
)
SYNCS = ("fsync", "fdatasync")
# with the calls by which a service sends
SENDS = ("write", "sendto")
LONGEST = 1 << 20
CALL = re.compile(r"(\w+)\((.*)\)\s+= (-?\d+)(?:<([^>]*)>)?")
FILE = re.compile(r"(\d+)<([^>]*)>")
TEXT = re.compile(r'"((?:\\x[0-9a-f]{2})*)"')
OUTPUT = "1"


def bytes_in(text: str) -> bytes:
    return bytes.fromhex(text.replace("\\x", ""))


@dataclass(eq=False)
class Call:
    """A call: its name, the number and the path of its file, its words, the bytes among these, and what it returned."""

    name: str
    number: str
    path: str
    words: str
    data: bytes
    result: int


def read_call(line: str) -> Call | None:
    """The call on a line of strace, if there is one. The path of an opening is that of the file it opened."""
    if not (found := CALL.match(line)):
        return None
    name, words, result, opened = found.groups()
    file = FILE.match(words)
    number, path = (file[1], file[2]) if file else ("", opened or "")
    data = TEXT.search(words)
    return Call(name, number, bytes_in(path).decode(), words, bytes_in(data[1]) if data else b"", int(result))


def traced() -> bool:
    """Whether strace is here and may trace."""
    if not shutil.which("strace"):
        return False
    return subprocess.run(["strace", "-o", os.devnull, "true"], capture_output=True, check=False).returncode == 0


def recorder(path: str) -> list[str]:
    """The words that stand in front of a program to record its calls in a file; the program stays the child of the process that
    begins it."""
    return ["strace", "-D", "-y", "-xx", "-s", str(LONGEST), "-o", path, "-e", f"trace={CHANGES},sendto,sendmsg,sendmmsg"]


def recorded_in(path: str) -> list[Call]:
    """The calls, in their order."""
    with open(path, encoding="ascii") as file:
        return [call for call in map(read_call, file) if call]


def record(program: str, words: list[str], text: str) -> tuple[int, list[Call]]:
    """The status of a run, and its calls."""
    with tempfile.TemporaryDirectory() as folder:
        path = os.path.join(folder, "calls")
        strace = [*recorder(path), program, *words]
        run = subprocess.run(strace, input=text.encode(), capture_output=True, timeout=SECONDS, check=False)
        return run.returncode, recorded_in(path)


class File:
    """The bytes of a file that were synced, and what was written since then: parts with their places, and lengths."""

    def __init__(self, data: bytes = b"") -> None:
        self.synced = data
        self.data = bytearray(data)
        self.parts: list[tuple[int, bytes]] = []
        self.lengths: list[int] = []

    def write(self, at: int, data: bytes) -> None:
        end = at + len(data)
        self.data.extend(bytes(max(0, end - len(self.data))))
        self.data[at:end] = data
        self.parts.append((at, data))
        self.lengths.append(len(self.data))

    def cut(self, length: int) -> None:
        self.data = bytearray(self.data[:length].ljust(length, b"\0"))
        self.lengths.append(length)

    def sync(self) -> None:
        self.synced = bytes(self.data)
        self.parts, self.lengths = [], []

    def left(self, chance: Random) -> bytes:
        """What a power cut leaves: any of the sectors that were not synced, and any length that the file had since."""
        share = chance.choice([0, 1, chance.random()])
        length = chance.choice([len(self.synced), *self.lengths])
        ends = [at + len(data) for at, data in self.parts]
        left = bytearray(self.synced.ljust(max([length, *ends]), b"\0"))
        for at, data in self.parts:
            for begin in range(at - at % SECTOR, at + len(data), SECTOR):
                low, high = max(begin, at), min(begin + SECTOR, at + len(data))
                if chance.random() < share:
                    left[low:high] = data[low - at : high - at]
        return bytes(left[:length])


class Disk:
    """A folder: its files, which of their names were synced, and which names were given since. Calls on other paths are
    ignored."""

    def __init__(self, folder: str, files: dict[str, bytes]) -> None:
        self.folder = os.path.realpath(folder)
        self.names = {name: File(data) for name, data in files.items()}
        self.synced = dict(self.names)

    def open(self, name: str, call: Call) -> None:
        if name not in self.names:
            expect("O_CREAT" in call.words, f"{name} was there, and is not known")
            self.names[name] = File()
        expect("O_TRUNC" not in call.words, f"{name} is opened without its bytes")

    def change(self, file: File, call: Call) -> None:
        """Carries out a call on a file; the last word of the call is a place or a length."""
        if call.name in SYNCS:
            file.sync()
        elif call.name == "pwrite64":
            file.write(int(call.words.rsplit(", ", 1)[1]), call.data[: call.result])
        elif call.name == "ftruncate":
            file.cut(int(call.words.rsplit(", ", 1)[1]))
        else:
            raise AssertionError(f"a call that is not understood: {call}")

    def carry_out(self, call: Call) -> bytes:
        """Carries out a call, and returns what it wrote on standard output or sent."""
        if call.name in SENDS and (call.number == OUTPUT or call.path.startswith(("socket:", "TCP"))):
            return call.data[: max(0, call.result)]
        if call.path == self.folder and call.name in SYNCS:
            self.synced = dict(self.names)
        elif os.path.dirname(call.path) == self.folder and call.result >= 0:
            name = os.path.basename(call.path)
            if call.name == "openat":
                self.open(name, call)
            else:
                self.change(self.names[name], call)
        else:
            expect(call.number or call.name == "openat", f"a call that is not understood: {call}")
        return b""

    def left(self, chance: Random) -> dict[str, bytes]:
        """The files, by name, that a power cut leaves: any of the names that were not synced."""
        share = chance.choice([0, 1, chance.random()])
        names = {name: file for name, file in self.names.items() if name in self.synced or chance.random() < share}
        return {name: file.left(chance) for name, file in names.items()}

"""The blocks of commands that a document shows, and a shell that runs them."""

import contextlib
import os
import queue
import re
import signal
import socket
import subprocess
import threading
import time

from support import TOP

SECONDS = 30
# the port that the documents name; a free port is used in its place
PORT = "8080"

FENCE = re.compile(r"^```(\w*)\n(.*?)^```\n", re.DOTALL | re.MULTILINE)


def blocks_of(name: str, heading: str = "") -> list[tuple[str, str | None]]:
    """The commands of each code block of a document, or of one section, with the output that is shown after them, if any."""
    with open(os.path.join(TOP, name), encoding="utf-8") as file:
        text = file.read()
    if heading:
        text = text.partition(f"\n## {heading}\n")[2].partition("\n## ")[0]
    blocks: list[tuple[str, str | None]] = []
    for kind, body in FENCE.findall(text):
        if kind == "sh":
            blocks.append((body, None))
        elif kind == "text":
            blocks[-1] = (blocks[-1][0], body)
    return blocks


def free_port() -> str:
    with socket.create_server(("127.0.0.1", 0)) as listener:
        return str(listener.getsockname()[1])


class Shell:
    """A shell that is given one block after the other, with a folder first on its path."""

    def __init__(self, path: str, folder: str):
        self.process = subprocess.Popen(
            ["sh"],
            stdin=subprocess.PIPE,
            stdout=subprocess.PIPE,
            stderr=subprocess.STDOUT,
            cwd=folder,
            env={**os.environ, "PATH": f"{path}:{os.environ['PATH']}", "CURL_HOME": folder},
            text=True,
            start_new_session=True,
        )
        self.lines: queue.Queue[str] = queue.Queue()
        self.reader = threading.Thread(target=self.read)
        self.reader.start()

    def read(self) -> None:
        assert self.process.stdout
        for line in self.process.stdout:
            self.lines.put(line)

    def play(self, number: int, commands: str, want: str) -> str:
        """What a block writes, once its last command has ended and all that is wanted has come."""
        end = f"the end of block {number}\n"
        assert self.process.stdin
        self.process.stdin.write(f"{commands}\necho {end}")
        self.process.stdin.flush()
        found, is_ended, last = "", False, time.monotonic() + SECONDS
        while not is_ended or len(found) < len(want):
            try:
                line = self.lines.get(timeout=max(0, last - time.monotonic()))
            except queue.Empty:
                return found
            if line == end:
                is_ended = True
            else:
                found += line
        return found

    def end(self) -> None:
        """All blocks are run: ends the shell, and all that it began."""
        os.killpg(self.process.pid, signal.SIGKILL)
        self.process.wait()
        self.reader.join()
        for stream in [self.process.stdout, self.process.stdin]:
            with contextlib.suppress(BrokenPipeError):
                if stream:
                    stream.close()

"""What the system says about a process that runs; and how many files this process may open."""

import contextlib
import os
import re
import resource
import subprocess
from collections.abc import Iterator


def resident(process: subprocess.Popen) -> int:
    """The memory of a process, in KiB."""
    with open(f"/proc/{process.pid}/status", encoding="ascii") as file:
        found = re.search(r"VmRSS:\s+(\d+) kB", file.read())
    return int(found[1]) if found else 0


def files_of(process: subprocess.Popen) -> int:
    """How many files a process has open."""
    return len(os.listdir(f"/proc/{process.pid}/fd"))


def seconds_of(process: subprocess.Popen) -> float:
    """How many seconds of processor time a process has used."""
    with open(f"/proc/{process.pid}/stat", encoding="ascii") as file:
        words = file.read().rpartition(")")[2].split()
    return (int(words[11]) + int(words[12])) / os.sysconf("SC_CLK_TCK")


@contextlib.contextmanager
def more_files(count: int) -> Iterator[bool]:
    """Lets this process, and those that it begins meanwhile, open so many files, if the system allows that. Yields whether it
    does."""
    soft, hard = resource.getrlimit(resource.RLIMIT_NOFILE)
    most = count if hard == resource.RLIM_INFINITY else min(count, hard)
    resource.setrlimit(resource.RLIMIT_NOFILE, (max(soft, most), hard))
    try:
        yield most == count
    finally:
        resource.setrlimit(resource.RLIMIT_NOFILE, (soft, hard))

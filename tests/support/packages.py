"""The package, as its one command builds it, and fresh Debian systems in which it is built and installed."""

import contextlib
import os
import re
import shutil
import subprocess
import unittest
from collections.abc import Callable, Iterator, Sequence
from typing import Any

from support import DEPLOY, TOP
from support.programs import expect

PACKAGE = os.path.join(DEPLOY, "package")

# what the package is built from, beside the program
SOURCES = ["CHANGELOG.md", "CONTRIBUTING.md", "README.md", "crates.txt", "debian", "deploy", "docs", "examples"]

BUILT = os.path.join("crates", "stockdesk", "out", "stockdesk")

# the Debian that the package is for, 12 and 13
SUITES = ["bookworm", "trixie"]

# runs a line of shell and returns its output
Inside = Callable[[str], str]


def run(words: Sequence[str], **options: Any) -> subprocess.CompletedProcess[str]:
    return subprocess.run(words, capture_output=True, text=True, **options)


def built(folder: str) -> str:
    """The path of the package, built in that folder."""
    told = run([PACKAGE, folder])
    expect(told.returncode == 0, f"no package: {told.stderr}")
    return told.stdout.strip()


def put_sources(folder: str, program: str | None = None) -> None:
    """Copies what the package is built from into a new folder, with a program where there is one."""
    os.mkdir(folder)
    for name in SOURCES:
        source, copy = os.path.join(TOP, name), os.path.join(folder, name)
        if os.path.isdir(source):
            shutil.copytree(source, copy)
        else:
            shutil.copy(source, copy)
    if program:
        os.makedirs(os.path.dirname(os.path.join(folder, BUILT)))
        shutil.copy(program, os.path.join(folder, BUILT))


def newer(path: str, folder: str) -> str:
    """The same package with a later version."""
    tree = os.path.join(folder, "newer")
    run(["dpkg-deb", "--raw-extract", path, tree])
    control = os.path.join(tree, "DEBIAN/control")
    with open(control, encoding="utf-8") as file:
        text = re.sub(r"^Version: .*$", "Version: 99.0.0", file.read(), flags=re.MULTILINE)
    with open(control, "w", encoding="utf-8") as file:
        file.write(text)
    later = os.path.join(folder, "later.deb")
    run(["dpkg-deb", "--root-owner-group", "--build", tree, later], check=True)
    return later


@contextlib.contextmanager
def fresh_debian(suite: str, root: str, *options: str) -> Iterator[Inside]:
    """A fresh Debian of that suite in a new folder, made with these options; yields what runs a line in it."""
    made = run(["mmdebstrap", "--variant=minbase", *options, suite, root])
    if made.returncode != 0:
        raise unittest.SkipTest(f"no Debian {suite} could be fetched: {made.stderr[-200:]}")

    def inside(line: str) -> str:
        path = "/usr/local/bin:/usr/sbin:/usr/bin:/sbin:/bin"
        told = run(["chroot", root, "/bin/sh", "-ec", line], env={"PATH": path})
        expect(told.returncode == 0, f"{line}: {told}")
        return told.stdout

    run(["mount", "-t", "proc", "proc", os.path.join(root, "proc")], check=True)
    try:
        yield inside
    finally:
        run(["umount", os.path.join(root, "proc")], check=True)

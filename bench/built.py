"""What is compiled from C for the measures: the program that puts rows in, and slower syncs."""

import os
import shutil
import subprocess
import sys

HERE = os.path.dirname(os.path.abspath(__file__))


def say(text):
    print(f"bench: {text}", file=sys.stderr, flush=True)


def compiled(source, path, options, libraries):
    """How the compiler ended, or None where there is no compiler."""
    compiler = shutil.which("cc")
    if compiler is None:
        say("without C, since there is no C compiler `cc`")
        return None
    words = [compiler, "-O2", *options, os.path.join(HERE, source), "-o", path, *libraries]
    return subprocess.run(words, capture_output=True, text=True)


def build_rows(folder):
    """The path of the C program, or None where something that it needs is missing."""
    path = os.path.join(folder, "rows")
    end = compiled("rows.c", path, [], ["-lsqlite3"])
    if end is None or end.returncode == 0:
        return end and path
    if "sqlite3.h" in end.stderr or "lsqlite3" in end.stderr:
        say("without C, since SQLite's header or library is missing (Debian: libsqlite3-dev)")
        return None
    raise SystemExit(f"bench: rows.c does not build:\n{end.stderr}")


def build_slow_sync(folder):
    """The path of the library that makes syncs slower, or None where there is no compiler."""
    path = os.path.join(folder, "slow_sync.so")
    end = compiled("slow_sync.c", path, ["-shared", "-fPIC"], ["-ldl"])
    if end is None or end.returncode == 0:
        return end and path
    raise SystemExit(f"bench: slow_sync.c does not build:\n{end.stderr}")


def library_of(rows):
    return subprocess.run([rows, "version"], capture_output=True, text=True, check=True).stdout.strip() if rows else None

"""Desks in files: made from rows and spoiled, with Python's own SQLite."""

import os
import shutil
import subprocess
from contextlib import closing

from support.tables import put_rows, sqlite3

# the program recognises a desk of another version by the table that it reads first
OTHER_VERSION = ["UPDATE desk SET version = 3"]

# rows that are not good, in the first of the tables that the ledger looks at, whichever that is
NO_GOOD_ROWS = [
    "UPDATE desk SET clock = 4000000001",
    "UPDATE field SET lo = -1 WHERE rowid = (SELECT rowid FROM field ORDER BY branch, article LIMIT 1)",
]


def init(program, path):
    """A new desk in the file, made by the program."""
    subprocess.run([program, "init", path], check=True)


def alter(path, act):
    """Calls `act` on the file's database in one transaction, and copies the log into the file."""
    with closing(sqlite3.connect(path, isolation_level=None)) as database:
        database.execute("BEGIN")
        act(database)
        database.execute("COMMIT")
        database.execute("PRAGMA wal_checkpoint(TRUNCATE)")
    settle(path)


def settle(path):
    """Waits until the file's bytes are on the disk, so that no later wait is due to them."""
    with open(path, "rb+") as file:
        os.fsync(file.fileno())


def write(program, path, rows):
    """Writes a desk with these rows into a new file."""
    init(program, path)
    alter(path, lambda database: put_rows(database, rows))


def copy(source, path, changes=()):
    """Copies a closed desk, with these changes to its rows, in place of what was there."""
    for name in [path, path + "-wal", path + "-shm"]:
        if os.path.exists(name):
            os.remove(name)
    shutil.copyfile(source, path)
    settle(path)
    if changes:
        alter(path, lambda database: [database.execute(change) for change in changes])
    return path


def kind_of(folder):
    """The kind of file system that a folder is on, where the system says it."""
    try:
        with open("/proc/mounts", encoding="utf-8") as file:
            mounts = [line.split()[1:3] for line in file]
    except OSError:
        return "an unknown file system"
    path = os.path.realpath(folder)
    holding = [(len(point), kind) for point, kind in mounts if os.path.commonpath([point, path]) == point]
    return max(holding)[1] if holding else "an unknown file system"

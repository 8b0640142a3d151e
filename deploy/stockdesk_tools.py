"""What the tools for a desk have in common: how they end, the program and what it says about a file, locks, copies, syncs and
names. A desk is a FILE and its log FILE-wal."""

import argparse
import contextlib
import ctypes
import errno
import fcntl
import filecmp
import os
import pathlib
import re
import shutil
import signal
import sqlite3
import stat
import struct
import subprocess
import sys
import tempfile
import time
from typing import BinaryIO, Callable, Iterator, NoReturn

LOG = "-wal"

# what may lie beside a database and belong to it
BESIDE = [LOG, "-shm", "-journal"]

# each time that its pages were copied into the file, a log begins with another head
LOG_HEAD = 32

# the least bytes of a log that holds a page: behind its head a page's head, and the smallest page there is
LOG_WITH_A_PAGE = LOG_HEAD + 24 + 512

# how many bytes the system is asked for at once
CHUNK = 1 << 30

# names of the files that rolls leave beside a desk
OLD_FILE = re.compile(r"old-[0-9]{8}T[0-9]{6}Z(-[0-9]+)?\.db")

# how often a desk in use is copied again, and how many seconds lie between two tries
READINGS = 20
PAUSE = 0.05

# what may be done with a desk's file: its owner alone may read and write it
OWN = 0o600

# folders of runs, for files that have no name yet
WORKPLACE = ".stockdesk-"

# how long another run may hold a lock, and how often this one looks, in seconds
LOCK_SECONDS = 60
LOOK_SECONDS = 0.0002

# `struct flock` of Linux
LOCK = "hhqqi0q"

# of `renameat2`
THIS_FOLDER, NO_REPLACE = -100, 1

# what the program says about a file, in other words
FAULTS = {
    "not a desk": "it is no desk",
    "old version": "it is of version 1: `stockdesk upgrade` makes it one of version 2",
    "damaged": "it is damaged: its rows are those of no good ledger",
    "store": "its store fails: it is no database, or in use, or its disk is full or fails",
    "memory": "the program lacks memory",
    "io": "the program cannot read or write",
}


class Fault(Exception):
    """Why a tool gives up, in plain words."""


def say(text: str) -> None:
    """Writes a line to standard error, the name of the tool in front."""
    print(f"{os.path.basename(sys.argv[0])}: {' '.join(text.splitlines())}", file=sys.stderr, flush=True)


def end(act: Callable[[argparse.Namespace], int | None], options: argparse.Namespace, failed: str) -> NoReturn:
    """Runs a tool and ends the process: with the status that the tool gives, or 0; or with 1 and a line that says what failed and
    why."""
    # whoever breaks it off finds what a kill leaves
    signal.signal(signal.SIGINT, signal.SIG_DFL)
    try:
        sys.exit(act(options))
    except Fault as fault:
        say(f"{failed}: {fault}")
    except OSError as fault:
        say(f"{failed}: {fault.strerror or fault}" + (f": {fault.filename}" if fault.filename else ""))
    sys.exit(1)


# ---- the program


def find_program(name: str) -> str:
    """The path of a program that is named by its path, or found on PATH. Fault: there is none."""
    found = shutil.which(name)
    if found is None:
        raise Fault(f"the program {name} is not there: --program names another")
    return os.path.abspath(found)


def fault_of(run: subprocess.Popen | subprocess.CompletedProcess, errors: str) -> str | None:
    """Why the program did not end well, or None where it did; `errors` is what it wrote to standard error."""
    if run.returncode == 0 and not errors:
        return None
    if run.returncode < 0:
        return f"the program was stopped: {signal.strsignal(-run.returncode)}"
    words = errors.strip().removeprefix("stockdesk: ")
    return FAULTS.get(words, f"the program ended with status {run.returncode}: {words or 'nothing is said'}")


def open_desk(program: str, path: str, name: str) -> None:
    """Has the program open the desk in a file and close it again: so the program judges the rows, and copies the log into the
    file. Fault: it does not; `name` is what the fault calls the file."""
    # so no name begins as an option does
    words, folder = [program, "run", os.path.join(".", os.path.basename(path))], os.path.dirname(path)
    run = subprocess.run(words, cwd=folder, stdin=subprocess.DEVNULL, capture_output=True, check=False)
    fault = fault_of(run, run.stderr.decode(errors="replace"))
    if fault is None and has_pages(path + LOG):
        fault = "the program left pages in its log"
    if fault is not None:
        raise Fault(f"{name}: {fault}")


def places_in(path: str, name: str) -> int:
    """How many places the desk has taken, in a file that nobody writes, without the log. Fault: another SQLite looks at the whole
    of the file and finds something wrong."""
    # so it neither locks the file nor makes others beside it
    uri = pathlib.Path(path).absolute().as_uri() + "?immutable=1"
    try:
        with contextlib.closing(sqlite3.connect(uri, uri=True)) as database:
            [told], *_ = database.execute("PRAGMA integrity_check").fetchall()
            if told != "ok":
                raise Fault(f"{name}: SQLite finds it damaged: {told}".splitlines()[0])
            [[places]] = database.execute("SELECT places FROM desk").fetchall()
            return places
    except sqlite3.Error as fault:
        raise Fault(f"{name}: SQLite cannot read it: {fault}") from fault


def settle(program: str, path: str, name: str) -> int:
    """Makes the desk in a file that nobody else uses one file without a log. The program and another SQLite judge it, and it is
    synced with its folder. Returns how many places it has taken. Fault: it is no good desk; `name` is what the fault calls the
    file."""
    sync(path)
    open_desk(program, path, name)
    with contextlib.suppress(FileNotFoundError):
        os.remove(path + LOG)
    places = places_in(path, name)
    sync(path)
    sync(os.path.dirname(path))
    return places


# ---- the log


def has_pages(log: str) -> bool:
    """Whether a log is there that holds a page."""
    return os.path.exists(log) and os.path.getsize(log) >= LOG_WITH_A_PAGE


def head_of_log(path: str) -> bytes:
    """The head of a desk's log. As long as the log has this head, it also has what was written since."""
    with contextlib.suppress(FileNotFoundError), open(os.path.realpath(path) + LOG, "rb", 0) as file:
        return file.read(LOG_HEAD)
    return b""


# ---- the lock that programs have on a desk


def opened(path: str) -> BinaryIO:
    """Opens a file to be read; never waits for what is no file. Fault: it is none."""
    try:
        is_file = stat.S_ISREG(os.stat(path).st_mode)
    except FileNotFoundError:
        raise Fault(f"{path} is not there") from None
    if not is_file:
        raise Fault(f"{path} is no file")
    return open(path, "rb")


def lock_of(kind: int) -> bytes:
    """A lock on a whole file, in the form in which the system takes it."""
    return struct.pack(LOCK, kind, os.SEEK_SET, 0, 0, 0)


def is_in_use(file: BinaryIO) -> bool:
    """Whether the program, or another SQLite, has a lock of any kind on the file. Asking takes none."""
    answer = fcntl.fcntl(file, fcntl.F_OFD_GETLK, lock_of(fcntl.F_WRLCK))
    return struct.unpack(LOCK, answer)[0] != fcntl.F_UNLCK


@contextlib.contextmanager
def kept_shut(path: str) -> Iterator[None]:
    """Lets no program open the desk meanwhile, by a lock for reading, which changes nothing and ends with this process. Fault: a
    program has it open. Another SQLite that writes to the log may itself have no more than such a lock, so this looks for one."""
    with opened(path) as file:
        try:
            fcntl.fcntl(file, fcntl.F_OFD_SETLK, lock_of(fcntl.F_RDLCK))
            # a run that put another file there meanwhile had the old one shut
            is_free = not is_in_use(file) and os.path.samestat(os.fstat(file.fileno()), os.stat(path))
        except (BlockingIOError, PermissionError):
            is_free = False
        if not is_free:
            raise Fault(f"{path} is in use: end the program that has it open first")
        yield


def remove_second_name(path: str) -> None:
    """Takes from a desk that is kept shut the name that a killed roll gave it. Fault: it has yet another name."""
    desk, folder = os.stat(path), os.path.dirname(path)
    for name in os.listdir(folder):
        other = os.path.join(folder, name)
        if OLD_FILE.fullmatch(name) and other != path and os.path.samestat(os.lstat(other), desk):
            os.remove(other)
            sync(folder)
    if os.stat(path).st_nlink != 1:
        raise Fault(f"{path} has another name, too, so the program does not open it: remove the other")


# ---- copies


def copy(source: str, target: str) -> None:
    """Copies a file's bytes over those of another, or into a new one, by the fastest means that the system has for the two. Only
    the owner of the copy may read and write it. The copy is not synced."""
    with open(source, "rb", 0) as old, open(os.open(target, os.O_WRONLY | os.O_CREAT, 0o600), "wb", 0) as new:
        # where a file system, or a pair of them, cannot do so, the next call goes on; that call also reports a full disk
        with contextlib.suppress(OSError):
            while os.copy_file_range(old.fileno(), new.fileno(), CHUNK):
                pass
        while os.sendfile(new.fileno(), old.fileno(), None, CHUNK):
            pass
        new.truncate()
        os.fchmod(new.fileno(), OWN)


def copy_desk(path: str, target: str) -> None:
    """Copies a desk and the log that lies beside it; where a link leads to the desk, the log beside the file that it leads to. A
    log of the target is removed."""
    source = os.path.realpath(path)
    copy(source, target)
    with contextlib.suppress(FileNotFoundError):
        os.remove(target + LOG)
    with contextlib.suppress(FileNotFoundError):
        copy(source + LOG, target + LOG)


def is_copy_of_a_moment(path: str, target: str) -> bool:
    """Whether the file stood still, from before its log was read until after that, and the log was not begun anew. Then the copy
    is what a stop of the program would have left."""
    # what was found out about a file of the same size and time is not asked for again
    filecmp.clear_cache()
    return filecmp.cmp(os.path.realpath(path), target, shallow=False) and head_of_log(path) == head_of_log(target)


def copy_desk_in_use(path: str, target: str) -> None:
    """Copies a desk that may change meanwhile, without a lock or a signal to anybody. Fault: the desk changes too fast."""
    opened(path).close()
    for _ in range(READINGS):
        copy_desk(path, target)
        if is_copy_of_a_moment(path, target):
            return
        time.sleep(PAUSE)
    raise Fault(f"{path} changes faster than it is read: try again")


def sync(path: str) -> None:
    """Waits until the bytes of a file, or the names in a folder, are on the disk."""
    handle = os.open(path, os.O_RDONLY)
    try:
        os.fsync(handle)
    finally:
        os.close(handle)


# ---- names


def refuse_what_is_there(path: str) -> None:
    """Fault: a new desk of that name would take the place of something, or would find beside it what would be taken for a part of
    it, or has no folder."""
    there = [name for name in [path, *(path + end for end in BESIDE)] if os.path.lexists(name)]
    if there:
        raise Fault(f"{there[0]} is there already")
    folder = os.path.dirname(os.path.abspath(path))
    if not os.path.isdir(folder):
        raise Fault(f"the folder {folder} is not there")


def rename_in_one_step(source: str, target: str) -> None:
    """Renames a file so that it never has two names, with which the program does not open it. FileExistsError: something has that
    name."""
    library = ctypes.CDLL(None, use_errno=True)
    if library.renameat2(THIS_FOLDER, os.fsencode(source), THIS_FOLDER, os.fsencode(target), NO_REPLACE):
        number = ctypes.get_errno()
        raise OSError(number, os.strerror(number), target)


def rename_new(source: str, target: str) -> None:
    """Gives a file another name, but never the name of a thing that is there. Where a file system cannot do so in one step, a
    stop between the two steps leaves both names. FileExistsError: something has that name."""
    try:
        rename_in_one_step(source, target)
    except OSError as fault:
        if fault.errno not in [errno.EINVAL, errno.ENOSYS]:
            raise
        os.link(source, target)
        os.remove(source)


def give_name(source: str, target: str) -> None:
    """Gives a desk in one file, which is whole and on the disk, its name, where nothing is. A stop leaves the whole desk there,
    or nothing. Fault: something is there."""
    refuse_what_is_there(target)
    try:
        rename_new(source, target)
    except FileExistsError:
        raise Fault(f"{target} is there already") from None
    try:
        sync(os.path.dirname(os.path.abspath(target)))
    except OSError:
        os.remove(target)
        raise


# ---- other runs


def wait_until(fact: Callable[[], bool], seconds: float) -> bool:
    """Waits until the fact is so, for so many seconds at most. Returns whether it is."""
    latest = time.monotonic() + seconds
    while not (found := fact()) and time.monotonic() < latest:
        time.sleep(LOOK_SECONDS)
    return found


def has_locked(handle: int) -> bool:
    """Whether an open file or folder could be locked for this process and for those that it forks, until all of them have closed
    it. This lock is another than the program's own."""
    try:
        fcntl.flock(handle, fcntl.LOCK_EX | fcntl.LOCK_NB)
        return True
    except BlockingIOError:
        return False


@contextlib.contextmanager
def locked(path: str) -> Iterator[None]:
    """While this lasts, no other run has this file or folder locked. Fault: another run keeps it for a minute."""
    handle = os.open(path, os.O_RDONLY)
    try:
        if not wait_until(lambda: has_locked(handle), LOCK_SECONDS):
            raise Fault(f"another process keeps {path} locked")
        yield
    finally:
        os.close(handle)


def remove_left(path: str) -> None:
    """Removes the folder of a run that is gone; a run that goes on has its own folder locked."""
    handle = os.open(path, os.O_RDONLY)
    try:
        if has_locked(handle):
            shutil.rmtree(path, ignore_errors=True)
    finally:
        os.close(handle)


@contextlib.contextmanager
def workplace(folder: str) -> Iterator[str]:
    """The path of a new folder inside that one, for files that have no name yet; it is removed at the end. Before, what killed
    runs left there is removed."""
    with contextlib.ExitStack() as stack:
        # so no other run finds it before it is locked
        with locked(folder):
            for name in os.listdir(folder):
                if name.startswith(WORKPLACE):
                    with contextlib.suppress(FileNotFoundError, PermissionError):
                        remove_left(os.path.join(folder, name))
            path = tempfile.mkdtemp(prefix=WORKPLACE, dir=os.path.abspath(folder))
            stack.enter_context(locked(path))
        try:
            yield path
        finally:
            # the next run tries again
            shutil.rmtree(path, ignore_errors=True)

"""Files that a program of version 1 wrote."""

import contextlib
import os
import shutil

from support.programs import FILES, expect_end

# each with the script that made it
OLDER = ["long", "transfer", "many"]


def older(folder: str, name: str) -> str:
    """The path of a copy of a file that a program of version 1 wrote; what lay beside an earlier copy is removed."""
    path = os.path.join(folder, f"{name}.db")
    with contextlib.suppress(FileNotFoundError):
        os.remove(f"{path}-wal")
    return shutil.copyfile(os.path.join(FILES, f"{name}.db"), path)


def upgraded(program: str, path: str) -> str:
    expect_end(program, ["upgrade", path], (0, b"", b""))
    return path

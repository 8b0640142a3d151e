"""The base of the tests of the built program: the program, a fresh folder for each test, and what is left out where a tool is
missing."""

import os
import shutil
import tempfile
import unittest
from collections.abc import Callable
from typing import Any

from support import BUILT
from support.tables import is_able, sqlite3

needs_sqlite = unittest.skipIf(sqlite3 is None, "no other SQLite is here")
needs_strict_tables = unittest.skipUnless(is_able(), "no other SQLite with strict tables is here")


def path_of(name: str) -> str | None:
    """The path of a program, if it is here; the system administrator's programs count too."""
    return shutil.which(name, path=os.environ.get("PATH", "") + ":/usr/local/sbin:/usr/sbin:/sbin")


def needs(*names: str) -> Callable[[Any], Any]:
    """Leaves tests out where one of these programs is not here."""
    lacking = [name for name in names if path_of(name) is None]
    return unittest.skipIf(lacking, f"{', '.join(lacking)} not here")


def built_program() -> str:
    """The path of the program under test: the repository's, or what STOCKDESK_PROGRAM names in the environment."""
    path = os.path.abspath(os.environ.get("STOCKDESK_PROGRAM") or BUILT)
    if not os.access(path, os.X_OK):
        raise AssertionError(f"{path} is not there: ./stockdesk or ./check builds it, or STOCKDESK_PROGRAM names another")
    return path


class ProgramCase(unittest.TestCase):
    """Tests of the built program: `program` is its path, and `folder` is the path of a new folder, which is removed after each
    test."""

    program: str
    folder: str

    @classmethod
    def setUpClass(cls) -> None:
        cls.program = built_program()

    def setUp(self) -> None:
        self.folder = self.enterContext(tempfile.TemporaryDirectory())

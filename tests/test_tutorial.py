"""Tests of the tutorial, of a till's promise through a front, and of what the README shows: one shell plays every command in
order in an empty folder, and each writes what is shown after it, byte by byte. A block of `sh` has commands; the block of `text`
that follows has all that they write. Without one they write nothing."""

import os
import shutil

from support.blocks import PORT, Shell, blocks_of, free_port
from support.cases import ProgramCase, needs
from support.fronts import Front, FrontCase


class Documents(ProgramCase):
    def play(self, blocks: list[tuple[str, str | None]]) -> None:
        port = free_port()
        path, empty = os.path.join(self.folder, "path"), os.path.join(self.folder, "empty")
        os.mkdir(path)
        os.mkdir(empty)
        for name in [path, empty]:
            os.symlink(self.program, os.path.join(name, "stockdesk"))
        shell = Shell(path, empty)
        self.addCleanup(shell.end)
        for number, (commands, output) in enumerate(blocks):
            want = (output or "").replace(PORT, port)
            found = shell.play(number, commands.replace(PORT, port), want)
            self.assertEqual(found, want, f"behind {commands}")

    def test_the_readme_shows_what_comes(self) -> None:
        shown = [block for block in blocks_of("README.md") if block[1] is not None]
        self.assertTrue(shown, "nothing is shown")
        self.play(shown)

    @needs("curl")
    def test_the_tutorial_shows_what_comes(self) -> None:
        blocks = blocks_of("docs/TUTORIAL.md")
        self.assertGreater(len(blocks), 6, "the tutorial's blocks were not found")
        self.play(blocks)


class Till(FrontCase):
    @needs("curl")
    def test_a_tills_promise_shows_what_comes(self) -> None:
        """Behind the front of the five commands, on the desk that these leave."""
        blocks = blocks_of("docs/SERVICE.md", "A till's promise, from start to end")
        self.assertGreater(len(blocks), 6, "the till's blocks were not found")
        folder = os.path.join(self.folder, "till")
        os.mkdir(folder)
        with Front(self.program, self.folder, script="K1 field N1 A-1 0 100 40\n") as front:
            shutil.copy(os.path.join(self.folder, "certificate"), os.path.join(folder, "shop.pem"))
            shell = Shell(folder, folder)
            self.addCleanup(shell.end)
            for number, (commands, output) in enumerate(blocks):
                found = shell.play(number, commands.replace("8443", str(front.port)), output or "")
                self.assertEqual(found, output or "", f"behind {commands}")

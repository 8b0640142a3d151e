"""Several desks behind one front, for tests: HAProxy with the configuration that is shipped, and for each desk the lines that are
shipped for the first one."""

import os
import subprocess
from collections.abc import Sequence

from support import DEPLOY
from support.fronts import NO_LIMITS, Haproxy, added, free_port, served
from support.programs import done, new_desk

SHIPPED = os.path.join(DEPLOY, "desks.cfg")
# the first desk that is shipped, and its address
NAME, ADDRESS = "north", "127.0.0.1:8080"


def script_of(desk: str) -> str:
    """The commands that make fields of a desk: its branches begin with the first letter of its name, as N1."""
    branches = [f"{desk[0].upper()}{n}" for n in (1, 2)]
    return "".join(f"F{branch}-{n} field {branch} A-{n} 0 1000000 500\n" for branch in branches for n in (1, 2))


def lines_of(desk: str, port: int) -> str:
    """The lines that configure a desk of that name and port."""
    with open(SHIPPED, encoding="utf-8") as file:
        text = file.read()
    first = text[text.index("backend ") :].split("\n\n")[0]
    return first.replace(NAME, desk).replace(ADDRESS, f"127.0.0.1:{port}") + "\n"


class Chain(Haproxy):
    """Desks of these names, served to many clients behind one front. Each text of `at`, such as "n2 south", names a user and his
    desks."""

    def __init__(
        self,
        program: str,
        folder: str,
        desks: Sequence[str] = ("north", "south"),
        limits: dict[str, str] = NO_LIMITS,
        shops: Sequence[str] = (),
        users: Sequence[str] = (),
        at: Sequence[str] = (),
    ):
        self.program = program
        self.ports = {desk: free_port() for desk in desks}
        super().__init__(folder, 0, limits, "".join(map(lines_of, self.ports, self.ports.values())), shops, users=users)
        del self.environment["DESK"]
        self.environment["DESKS"] = added(folder, "desks.map", "".join(f"{line}\n" for line in at))
        self.running: dict[str, subprocess.Popen[bytes]] = {}
        for desk in desks:
            self.desk_make(desk)

    def desk_make(self, desk: str) -> None:
        done(self.program, ["run", new_desk(self.program, self.folder, f"{desk}.db")], script_of(desk))

    def __enter__(self) -> "Chain":
        try:
            for desk in self.ports:
                self.desk_start(desk)
            self.start()
        except BaseException:
            self.desks_kill()
            raise
        return self

    def __exit__(self, *_: object) -> None:
        self.stop()
        self.desks_kill()

    def desk_start(self, desk: str) -> None:
        self.running[desk] = served(self.program, os.path.join(self.folder, f"{desk}.db"), self.ports[desk])

    def desk_add(self, desk: str) -> None:
        """One more desk, which the front serves after its next reload."""
        self.ports[desk] = free_port()
        self.desk_make(desk)
        self.desk_start(desk)
        with open(os.path.join(self.folder, "more.cfg"), "a", encoding="ascii") as file:
            file.write(lines_of(desk, self.ports[desk]))

    def desk_kill(self, desk: str) -> None:
        process = self.running.pop(desk)
        process.kill()
        process.communicate()

    def desks_kill(self) -> None:
        for desk in list(self.running):
            self.desk_kill(desk)

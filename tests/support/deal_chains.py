"""Desks of a chain that are served, for calls of `stockdesk-between`."""

import contextlib
import json
from collections.abc import Iterator

from support.programs import SECONDS, done, expect, new_desk
from support.service import TOGETHER, Service, ask, post


class Chain:
    """Desks that are served, each with two articles at one branch; the clock is at 10."""

    def __init__(self, program: str, folder: str, count: int, start: int, room: int):
        self.program, self.keys = program, 0
        self.files = [new_desk(program, folder, f"desk{number}.db") for number in range(count)]
        for number, file in enumerate(self.files):
            done(
                program,
                ["run", file],
                "".join(f"F{n} field N{number} A-{n} 0 {room} {start}\n" for n in (1, 2)) + "C expire 10\n",
            )
        self.services = [self.serve(number) for number in range(count)]

    def serve(self, number: int, port: int = 0) -> Service:
        return Service(self.program, self.files[number], 1_000_000, port, options=TOGETHER, seconds=10 * SECONDS)

    def urls(self) -> list[str]:
        return [f"http://127.0.0.1:{service.port}" for service in self.services]

    def tell(self, number: int, command: str) -> None:
        self.keys += 1
        with contextlib.closing(self.services[number].connect()) as connection:
            status, _, body = post(connection, f"K{self.keys}", command)
        expect(status == 200, f"{command}: {status} {body}")

    def shown(self, number: int, target: str) -> dict:
        with contextlib.closing(self.services[number].connect()) as connection:
            return json.loads(ask(connection, "GET", target)[2])

    def values(self, article: int = 1) -> list[int]:
        return [self.shown(number, f"/v1/fields/N{number}/A-{article}")["value"] for number in range(len(self.services))]

    def free(self) -> bool:
        """Whether no order holds anything any more."""
        fields = [self.shown(number, f"/v1/fields/N{number}/A-1") for number in range(len(self.services))]
        return all(field["inf"] == field["value"] == field["sup"] for field in fields)

    def stop(self, number: int) -> None:
        self.services[number].process.kill()
        self.services[number].end()


@contextlib.contextmanager
def chain(program: str, folder: str, count: int = 2, start: int = 40, room: int = 78) -> Iterator[Chain]:
    """Serves such desks. By default there is room for 38 pieces more on each field."""
    desks = Chain(program, folder, count, start, room)
    try:
        yield desks
    finally:
        for number in range(count):
            desks.stop(number)

"""Tests of the built program by random streams of HTTP messages, some of which are changed or cut. Each is answered in its form;
the same bytes come whole, in pieces, and to a service of many connections at once; and a stream that breaks off harms nothing."""

import tempfile
from dataclasses import dataclass

from support.cases import ProgramCase, needs_sqlite
from support.chance import Chance, Seen, needs_hypothesis, try_cases
from support.forms import answers_of
from support.inputs import cut, fed
from support.message_inputs import streams
from support.programs import expect, new_desk, note
from support.rows import expect_good
from support.service import TOGETHER, Service, answered
from support.tables import rows_of

CASES = 30

# what the streams come to: whole, in pieces, in pieces among many connections, and cut behind some bytes
FORMS: dict[str, list[str]] = {"whole": [], "pieces": [], "rounds": TOGETHER, "broken": TOGETHER}


@dataclass
class Stream:
    """The bytes of a connection, twice in pieces, and after how many bytes the stream breaks off."""

    text: bytes
    pieces: list[list[bytes]]
    broken: int


def stream_cases(chance: Chance) -> list[Stream]:
    return [Stream(text, [cut(chance, text) for _ in range(2)], chance.whole(0, len(text))) for text in streams(chance)]


def shown(case: list[Stream]) -> str:
    return "\n".join(f"{fed(stream.text)}\n# cut: {[len(piece) for piece in stream.pieces[0]]}" for stream in case)


def statuses(found: bytes) -> list[int]:
    answers = answers_of(found)
    expect(answers is not None, f"{found!r}")
    return [status for status, _ in answers or []]


@needs_hypothesis
@needs_sqlite
class Streams(ProgramCase):
    def test_streams_are_answered_alike_however_they_come(self):
        self.seen = Seen("streams", "answers 200", "answers 400", "answers 404", "answers 409")
        try_cases(stream_cases, CASES, self.expect_answered, shown)
        self.seen.expect_all()
        note(str(self.seen))

    def expect_answered(self, case: list[Stream]) -> None:
        with tempfile.TemporaryDirectory(dir=self.folder) as folder:
            paths = {name: new_desk(self.program, folder, f"{name}.db") for name in FORMS}
            services = {name: Service(self.program, paths[name], len(case), options=FORMS[name]) for name in FORMS}
            try:
                for stream in case:
                    self.expect_alike(stream, services)
                for service in services.values():
                    service.expect_end()
            finally:
                for service in services.values():
                    service.process.kill()
                    service.clock.cancel()
            for name, path in paths.items():
                expect_good(path, name)
            expect(rows_of(paths["whole"]) == rows_of(paths["pieces"]) == rows_of(paths["rounds"]), "other rows in pieces")

    def expect_alike(self, stream: Stream, services: dict[str, Service]) -> None:
        found = answered(services["whole"].port, [stream.text])
        self.seen.add("streams")
        for status in statuses(found):
            self.seen.add(f"answers {status}")
        for name, pieces in zip(["pieces", "rounds"], stream.pieces, strict=True):
            other = answered(services[name].port, pieces)
            expect(found == other, f"whole {found!r}, in {name} {other!r}: {stream.text!r}")
        answered(services["broken"].port, [stream.text[: stream.broken]], is_reset=True)

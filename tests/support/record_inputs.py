"""Random files of requests, most of them well formed."""

from dataclasses import dataclass

from support.chance import Chance
from support.inputs import changed, fed, known_fields, request_of, together
from support.stretches import HEADERS, file_of


@dataclass
class Records:
    """A file of requests of a kind; the lines that make the fields before it; the lines that it says, or None where its bytes
    were changed; and, for each time that it is given to the program, how many requests are carried out together."""

    kind: str
    before: list[bytes]
    said: list[bytes] | None
    text: bytes
    most: list[int | None]

    def options(self) -> list[list[str]]:
        return [["--together", str(most)] if most else [] for most in self.most]

    def __str__(self) -> str:
        fields = fed(b"\n".join([*self.before, b""]))
        return f"{fields}# by `{self.kind}`, with {self.options()}, a file of\n{fed(self.text)}"


def records(chance: Chance) -> Records:
    known = known_fields(chance)
    before, kind = list(known.lines), chance.one_of(list(HEADERS))
    said = chance.several(lambda chance: request_of(chance, known, kind), 10, 60)
    text = file_of(kind, said)
    if chance.share(25):
        text = text.replace(b"\n", b"\r\n")
    if chance.share(20):
        text = text.removesuffix(b"\n")
    most = [together(chance) if chance.share(60) else None for _ in range(2)]
    if chance.share(30):
        return Records(kind, before, None, changed(chance, text), most)
    return Records(kind, before, said, text, most)

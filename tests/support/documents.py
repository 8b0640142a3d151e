"""Documents: their text, their links and their headings."""

import os
import re
from collections.abc import Iterator

LINK = re.compile(r"\[([^\]]*)\]\(([^)]*)\)")
CODE = re.compile(r"```.*?```", re.DOTALL)


def text_of(path: str) -> str:
    with open(path, encoding="utf-8") as file:
        return file.read()


def links_of(document: str) -> Iterator[tuple[str, str, str]]:
    """Each link outside of blocks of code: its text, and the file and the heading to which it leads."""
    for text, target in LINK.findall(CODE.sub("", text_of(document))):
        path, _, heading = target.partition("#")
        yield text, os.path.normpath(os.path.join(os.path.dirname(document), path)) if path else document, heading


def headings_of(document: str) -> list[str]:
    """The names by which headings are linked: in small letters, with a hyphen for each space and without other signs."""
    titles = re.findall(r"^#+ (.*)$", CODE.sub("", text_of(document)), re.MULTILINE)
    return [re.sub(r"[^\w\- ]", "", title.lower()).replace(" ", "-") for title in titles]

"""What was found, as Markdown."""

import os
import platform
import time
from dataclasses import dataclass, field
from statistics import median

from desks import ASKS, KINDS

FILE, HTTP, C_FILE, MEMORY, C_MEMORY = "file", "HTTP on a file", "C on a file", "memory", "C in memory"
GROWTH = 1.3
EXPIRY_GROWTH = 3
DELIVERY = 1.2
OPENING = 0.3
RESIDENT = 4
# a message takes at most so many times as long as its line, which leaves at least 0.8 times as many a second
MESSAGE = 1.25
LONG_RUN = 1.01
COMMANDS = [kind for kind in KINDS if kind != "ask"]
NAMES = {
    "ask": "ask",
    "all": "ask, each field once",
    "deliver": "delivery",
    "rebound": "other bounds",
    "open": "order of four lines",
    "use": "use",
    "release": "release",
    "commit": "commit of four lines",
    "abort": "abort of four lines",
    "firm": "four lines made firm",
    "expire": "expiry of one order",
}


@dataclass
class Found:
    """What was found, by size and player; and how many seconds runs took that end at three points of the opening."""

    sizes: list
    limit: int
    counts: dict = field(default_factory=dict)
    bytes: dict = field(default_factory=dict)
    played: dict = field(default_factory=dict)
    runs: dict = field(default_factory=dict)
    # how many messages were sent, how many more after these, and the resident bytes after the first and after the last of them
    long: tuple = ()

    def of(self, size, player, name, choose=median):
        """The median of one number over the sessions, or what `choose` makes of it; None where there were no sessions."""
        played = self.played.get((size, player), [])
        return choose(getattr(each, name) for each in played) if played else None

    def parts(self, size, player, kind):
        return [micros for each in self.played.get((size, player), []) for micros in each.micros[kind]]

    def micros(self, size, player, kind):
        """The median over all parts of the batches, or None where there were none."""
        parts = self.parts(size, player, kind)
        return median(parts) if parts else None

    def against(self, size, player, beside, *kinds):
        """The median of the ratios to that part of the other player which was played right after each, or None."""
        pairs = [pair for kind in kinds for pair in zip(self.parts(size, player, kind), self.parts(size, beside, kind))]
        return median(one / other for one, other in pairs) if pairs else None

    def run_seconds(self, size):
        """The least seconds up to the end of the store's opening, of its selects, and of the whole opening. These times are long
        and close to one another, and other work on the machine adds least to the least of them."""
        return [min(seconds) for seconds in zip(*self.runs[size])]

    def beyond(self, size):
        """How many seconds an opening takes beyond the store's opening and selects, and their ratio to these."""
        _, selects, whole = self.run_seconds(size)
        return whole - selects, whole / selects - 1


def over(one, other):
    return None if one is None or not other else one / other


def number(value):
    if value is None:
        return "-"
    return f"{value:,.0f}" if value >= 100 else f"{value:.1f}"


def ratio(value):
    return "-" if value is None else f"{value:.2f}"


def seconds(value):
    return "-" if value is None else f"{value:.3f}"


def mebibytes(value):
    return "-" if value is None else f"{value / 2**20:,.1f}"


def table(heads, rows):
    lines = [heads, ["---"] + ["---:"] * (len(heads) - 1), *rows]
    return ["| " + " | ".join(line) + " |" for line in lines] + [""]


def processor():
    try:
        with open("/proc/cpuinfo", encoding="utf-8") as file:
            return next(line.split(":", 1)[1].strip() for line in file if line.startswith("model name"))
    except (OSError, StopIteration):
        return platform.processor() or platform.machine()


def surroundings(program, file_system, library):
    """What was measured, on what machine, and when."""
    machine = f"{os.cpu_count()} processors, {processor()}, load {os.getloadavg()[0]:.1f}"
    system = f"{platform.system()} {platform.release()}, files on {file_system}"
    yield f"{time.strftime('%Y-%m-%d %H:%M')}; {machine}; {system}."
    yield f"The program has {os.path.getsize(program):,} bytes. C: {f'SQLite {library}' if library else 'not there'}."


def head(program, file_system, library, rounds, batch):
    yield from surroundings(program, file_system, library)
    yield f"Medians of {rounds} rounds, each on new copies of the desks; batches of {batch} commands, or {batch * ASKS} asks."
    yield "A ratio to C is the median of the ratios of parts of batches that were played one right behind the other."
    yield ""


def desks(found):
    heads = ["size", "places taken", "open orders", "made firm", "fields", "orders", "lines", "moves", "file, MiB"]
    rows = [
        [f"{size:,}", *(f"{value:,}" for value in found.counts[size].values()), mebibytes(found.bytes[size])]
        for size in found.sizes
    ]
    return table(heads, rows)


def cells(found, size, kind, player, beside):
    """The cells of the microseconds of the program and of C, and of their ratio."""
    own, other = found.micros(size, player, kind), found.micros(size, beside, kind)
    return [number(own), number(other), ratio(found.against(size, player, beside, kind))]


def commands(found, player, beside, name="C"):
    heads = ["microseconds"]
    for size in found.sizes:
        heads += [f"{size:,}", name, "ratio"]
    rows = []
    for kind in ["all", *KINDS]:
        rows.append([NAMES[kind], *(cell for size in found.sizes for cell in cells(found, size, kind, player, beside))])
    return table(heads, rows)


def openings(found):
    heads = ["least seconds", "first answer", "C", "ratio", "whole run", "store opened", "rows selected", "beyond", "ratio"]
    rows = []
    for size in found.sizes:
        first, c = [found.of(size, player, "opening", min) for player in (FILE, C_FILE)]
        store, selects, whole = [seconds(value) for value in found.run_seconds(size)]
        beyond, share = found.beyond(size)
        split = [whole, store, selects, seconds(beyond), ratio(share)]
        rows.append([f"{size:,}", seconds(first), seconds(c), ratio(over(first, c)), *split])
    return table(heads, rows)


def memories(found):
    heads = ["size", "resident, MiB", "most, MiB", "of the file", "made in memory, s", "resident, MiB", "most, MiB"]
    rows = []
    for size in found.sizes:
        resident = found.of(size, FILE, "resident")
        own = [mebibytes(resident), mebibytes(found.of(size, FILE, "peak")), ratio(resident / found.bytes[size])]
        made = found.of(size, MEMORY, "opening")
        making = f"not made in {found.limit} s" if made is None else seconds(made)
        more = [mebibytes(found.of(size, MEMORY, name)) for name in ("resident", "peak")]
        rows.append([f"{size:,}", *own, making, *more])
    return table(heads, rows)


def services(found):
    first, more, before, after = found.long
    heads = ["messages", "resident, MiB"]
    return table(heads, [[f"{first:,}", mebibytes(before)], [f"{first + more:,}", mebibytes(after)]])


def growths(found):
    """Rows of each command at the greatest size against the least, where there are two sizes."""
    least, most = min(found.sizes), max(found.sizes)
    for player, where in [(FILE, "on a file"), (MEMORY, "in memory")] if least < most else []:
        for kind in KINDS:
            value = over(found.micros(most, player, kind), found.micros(least, player, kind))
            limit = EXPIRY_GROWTH if kind == "expire" else GROWTH
            yield f"{NAMES[kind]} {where}, {most:,} against {least:,}", limit, value


def over_http(found):
    """Rows of commands as messages against the same as lines, of an ask at the greatest size against the least, and of the
    memory."""
    for size in found.sizes:
        yield f"commands over HTTP against a script's, {size:,}", MESSAGE, found.against(size, HTTP, FILE, *COMMANDS)
    least, most = min(found.sizes), max(found.sizes)
    if least < most:
        value = over(found.micros(most, HTTP, "ask"), found.micros(least, HTTP, "ask"))
        yield f"ask over HTTP, {most:,} against {least:,}", GROWTH, value
    _, _, before, after = found.long
    yield "resident memory of a service, behind many messages against the first", LONG_RUN, after / before


def targets(found):
    """Rows of each target, with its limit and what was found."""
    size = max(found.sizes)
    yield from growths(found)
    yield from over_http(found)
    yield f"delivery on a file against C, {size:,}", DELIVERY, found.against(size, FILE, C_FILE, "deliver")
    asking = found.micros(size, FILE, "all") * found.counts[size]["fields"] / 1000
    yield f"asking every field once on a file, {size:,}, milliseconds", None, asking
    yield f"opening beyond the store's opening and selects, {size:,}", OPENING, found.beyond(size)[1]
    yield f"resident memory against the file, {size:,}", RESIDENT, found.of(size, FILE, "resident") / found.bytes[size]


def reached(limit, value):
    if value is None:
        return "not measured"
    return "-" if limit is None else "yes" if value <= limit else "no"


def reckoning(found):
    rows = []
    for target, limit, value in targets(found):
        rows.append([target, str(limit or "-"), ratio(value) if limit else number(value), reached(limit, value)])
    return table(["target", "at most", "found", "reached"], rows)


def text(found):
    """The tables, each with its heading."""
    parts = [
        ("Desks", desks(found)),
        ("On a file", commands(found, FILE, C_FILE)),
        ("Over HTTP", commands(found, HTTP, FILE, "script")),
        ("In memory", commands(found, MEMORY, C_MEMORY)),
        ("Opening", openings(found)),
        ("Memory", memories(found)),
        ("Memory of a service", services(found)),
        ("Targets", reckoning(found)),
    ]
    return [line for name, lines in parts for line in [f"### {name}", "", *lines]]

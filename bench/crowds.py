"""What was found with many clients, as Markdown: as bench/clients and bench/front print it, and shorter, as docs/PERFORMANCE.md
shows it."""

from collections.abc import Callable, Iterator, Sequence
from dataclasses import dataclass, field
from statistics import median

from loads import Load
from report import number, over, ratio, table

PLAIN, ROUNDS, POSTGRES, FRONT, OLDER = "serve", "together", "postgres", "front", "older"
SERVERS = {
    FRONT: "through the front",
    OLDER: "through the older front",
    PLAIN: "`serve`",
    ROUNDS: "`--together`",
    POSTGRES: "PostgreSQL",
}
FAST, SLOW = "fast", "slow"
PACES = [FAST, SLOW]

# the works of bench/clients: all fields of the desk, and few
SPREAD, HOT = "spread", "hot"

# the goals: `--together` against `serve` with one client; and, with so many clients, the share of waits that last at most so many
# syncs and so many microseconds more
ONE_GOAL = 0.95
WAITERS, WAITS_GOAL, SYNCS, MICROS = 64, 0.99, 3, 20_000

# the works of bench/front, and its goals with so many clients: deliveries against those without the front, and through an older
# front; asks a second; the share of waits of at most so many microseconds; and how many milliseconds a slow reader may add
DELIVERIES, ASKS = "deliveries", "asks"
WITHOUT_GOAL, OLDER_GOAL, ASKS_GOAL, FRONT_MICROS, ADDED_GOAL = 0.7, 4.0, 20_000, 30_000, 5.0

SPEED, LONGEST, SYNCED = ["a second", "p50 ms", "p99 ms"], "longest ms", ["syncs a second", "a sync, ms", "commands a sync"]


@dataclass(frozen=True)
class Figures:
    """What was found under a load: the load, how many syncs there were meanwhile, and how many nanoseconds these took."""

    load: Load
    syncs: int
    nanoseconds: int

    def rate(self) -> float:
        return self.load.rate()

    def half(self) -> float:
        """The milliseconds that half of the waits do not exceed."""
        return self.load.millis(0.5)

    def most(self) -> float:
        """The same for 99 in 100 waits."""
        return self.load.millis(0.99)

    def longest(self) -> float:
        return self.load.millis(1)

    def together(self) -> float | None:
        """The commands per sync."""
        return over(self.load.told, self.syncs)

    def syncs_a_second(self) -> float | None:
        return over(self.rate(), self.together())

    def sync_millis(self) -> float | None:
        """The milliseconds per sync."""
        return over(self.nanoseconds / 1e6, self.syncs)

    def in_time(self) -> float:
        """The share of the waits that are within the goal."""
        return self.load.within(SYNCS * 1000 * (self.sync_millis() or 0) + MICROS)


class Runs:
    """What was found for a cell in each run of all cells."""

    def __init__(self) -> None:
        self.figures: list[Figures] = []

    def each(self, of: Callable[[Figures], float | None]) -> list[float]:
        """That number of each run that has it."""
        return [value for figures in self.figures if (value := of(figures)) is not None]

    def middle(self, of: Callable[[Figures], float | None]) -> float | None:
        """The median of that number."""
        values = self.each(of)
        return median(values) if values else None

    def rate(self) -> float:
        return median(self.each(Figures.rate))


@dataclass(frozen=True)
class Cell:
    """The requests, how many clients send them, what answers them, and the pace of the syncs."""

    work: str
    clients: int
    server: str
    pace: str


@dataclass
class Found:
    """The names of works, of paces and of servers, and what was found: for cells; for one client, by pace, its loads with `serve`
    and then together; for clients that never read, by their number, the load of those beside them; and the loads of others alone
    and then beside a client that reads slowly."""

    works: dict[str, str]
    paces: dict[str, str]
    servers: dict[str, str] = field(default_factory=lambda: dict(SERVERS))
    cells: dict[Cell, Runs] = field(default_factory=dict)
    one: dict[str, list[tuple[Load, Load]]] = field(default_factory=dict)
    unread: dict[int, Load] = field(default_factory=dict)
    slow: list[tuple[Load, Load]] = field(default_factory=list)

    def add(self, cell: Cell, figures: Figures) -> None:
        """Adds what one more run has found."""
        self.cells.setdefault(cell, Runs()).figures.append(figures)

    def has_runs(self) -> bool:
        """Whether there were several."""
        return any(len(runs.figures) > 1 for runs in self.cells.values())

    def crowds(self, work: str) -> list[tuple[int, str]]:
        """The numbers of clients and the servers of the work's cells, as tables list them."""
        servers = list(self.servers)
        rows = sorted({(cell.clients, servers.index(cell.server)) for cell in self.cells if cell.work == work})
        return [(clients, servers[index]) for clients, index in rows]

    def title(self, clients: int, server: str) -> str:
        return f"{clients}, {self.servers[server]}"

    def rows(self, work: str) -> list[tuple[str, list[Runs | None]]]:
        """For each number of clients and each server, its title and the runs of each pace."""
        return [(self.title(*crowd), self.paces_of(work, *crowd)) for crowd in self.crowds(work)]

    def has_slow(self, work: str) -> bool:
        return any(cell.work == work and cell.pace == SLOW for cell in self.cells)

    def paces_of(self, work: str, clients: int, server: str) -> list[Runs | None]:
        return [self.cells.get(Cell(work, clients, server, pace)) for pace in PACES]

    def rate(self, work: str, server: str, pace: str = FAST) -> float | None:
        """The requests a second with the number of clients that the goals are about."""
        found = self.cells.get(Cell(work, WAITERS, server, pace))
        return found.rate() if found else None

    def slow_added(self, share: float) -> float:
        """The median of the milliseconds that a client that reads slowly adds to the waits of that share."""
        return median(beside.millis(share) - alone.millis(share) for alone, beside in self.slow)

    def one_rates(self, pace: str) -> tuple[float, float, float]:
        """The medians of the commands a second of one client, with `serve` and together, and the median of their ratios."""
        pairs = [(one.rate(), many.rate()) for one, many in self.one[pace]]
        return *medians(pairs), median(many / one for one, many in pairs)

    def one_waits(self, pace: str) -> tuple[float, float, float]:
        """The same for the microseconds within which half of the client's commands are answered; other work on the machine
        changes these less."""
        pairs = [(1000 * one.millis(0.5), 1000 * many.millis(0.5)) for one, many in self.one[pace]]
        return *medians(pairs), median(one / many for one, many in pairs)


def medians(pairs: Sequence[tuple[float, float]]) -> tuple[float, float]:
    return median(one for one, _ in pairs), median(other for _, other in pairs)


def millis(value: float | None) -> str:
    return f"{value:.2f}" if value is not None and value < 10 else number(value)


def speed(load: Load) -> list[str]:
    """The cells of the commands a second, and of the waits that half and 99 in 100 do not exceed."""
    return [number(load.rate()), millis(load.millis(0.5)), millis(load.millis(0.99))]


def spread(values: Sequence[float], told: Callable[[float], str]) -> str:
    return f"{told(min(values))} to {told(max(values))}"


def middle_text(values: Sequence[float], told: Callable[[float], str]) -> str:
    """The median, and behind it the spread of several."""
    return told(median(values)) + (f" ({spread(values, told)})" if len(values) > 1 else "")


def speed_heads(found: Found) -> list[str]:
    return [*SPEED, *([LONGEST] if found.has_runs() else [])]


def speed_of(runs: Runs) -> list[str]:
    """The cells of `speed_heads`: medians, and of several runs the longest wait of all."""
    cells = [middle_text(runs.each(Figures.rate), number), millis(runs.middle(Figures.half)), millis(runs.middle(Figures.most))]
    return cells + ([millis(max(runs.each(Figures.longest)))] if len(runs.figures) > 1 else [])


def synced_of(runs: Runs) -> list[str]:
    """The cells of `SYNCED`."""
    syncs, took, together = Figures.syncs_a_second, Figures.sync_millis, Figures.together
    return [number(runs.middle(syncs)), millis(runs.middle(took)), number(runs.middle(together))]


def cells_of(runs: Runs | None, heads: Sequence[str]) -> list[str]:
    return ["-"] * len(heads) if runs is None else [*speed_of(runs), *synced_of(runs)]


def cells_text(found: Found, work: str) -> list[str]:
    columns = [*speed_heads(found), *SYNCED]
    heads = ["clients", *columns] + ([f"slow: {columns[0]}", *columns[1:]] if found.has_slow(work) else [])
    rows = [[name, *(cell for one in runs for cell in cells_of(one, columns))][: len(heads)] for name, runs in found.rows(work)]
    return [f"### {found.works[work].capitalize()}", "", *table(heads, rows)]


def one_text(found: Found) -> list[str]:
    heads = ["one client", SERVERS[PLAIN], SERVERS[ROUNDS], "ratio", "p50, microseconds", "together", "ratio"]
    rows = []
    for pace in found.one:
        (plain, many, share), (wait, wait_of_many, share_of_waits) = found.one_rates(pace), found.one_waits(pace)
        cells = [number(plain), number(many), ratio(share), number(wait), number(wait_of_many), ratio(share_of_waits)]
        rows.append([found.paces[pace], *cells])
    return ["### One client, commands a second", "", *table(heads, rows)]


def added(load: Load, alone: Load) -> list[str]:
    """The cells of the milliseconds that are added to the waits that half and 99 in 100 do not exceed."""
    return [f"{load.millis(share) - alone.millis(share):+.2f}" for share in (0.5, 0.99)]


def unread_text(found: Found, readers: int) -> list[str]:
    heads = [f"{readers} clients beside", *SPEED, LONGEST, "p50 added", "p99 added"]
    rows = []
    for unread, load in found.unread.items():
        name = f"{unread} that never read" if unread else "none"
        rows.append([name, *speed(load), millis(load.millis(1)), *added(load, found.unread[0])])
    return ["### Beside clients that ask for large sheets and never read", "", *table(heads, rows)]


def slow_text(found: Found, readers: int) -> list[str]:
    heads = [f"{readers} clients, each pair in turn", *SPEED, LONGEST, "p50 added", "p99 added"]
    rows = []
    for alone, beside in found.slow:
        rows.append(["alone", *speed(alone), millis(alone.millis(1)), "", ""])
        rows.append(["beside it", *speed(beside), millis(beside.millis(1)), *added(beside, alone)])
    return ["### Beside a client that reads a sheet of 720 KB, a byte a second", "", *table(heads, rows)]


@dataclass(frozen=True)
class Goal:
    """A goal, with the least or the most that it allows, and what was found."""

    name: str
    limit: float
    value: float
    is_most: bool = False

    def bound(self) -> str:
        return f"at {'most' if self.is_most else 'least'} {self.limit:,}"

    def found(self) -> str:
        return number(self.value) if self.limit >= 100 else f"{self.value:.3f}"

    def is_reached(self) -> bool:
        return self.value <= self.limit if self.is_most else self.value >= self.limit


def goals(found: Found) -> Iterator[Goal]:
    for pace in found.one:
        yield Goal(f"one client, together against `serve`, {found.paces[pace]}", ONE_GOAL, found.one_rates(pace)[2])
    for cell, runs in found.cells.items():
        if (cell.clients, cell.server) == (WAITERS, ROUNDS) and cell.work != ASKS:
            name = f"waits of {WAITERS} clients within three syncs and 20 ms, {found.works[cell.work]}, {found.paces[cell.pace]}"
            yield Goal(name, WAITS_GOAL, median(runs.each(Figures.in_time)))
    yield from front_goals(found)


def front_goals(found: Found) -> Iterator[Goal]:
    for pace in found.paces:
        through, without = [found.rate(DELIVERIES, server, pace) for server in (FRONT, ROUNDS)]
        if through and without:
            yield Goal(
                f"{WAITERS} clients through the front against without, {found.paces[pace]}", WITHOUT_GOAL, through / without
            )
    through, older = [found.rate(DELIVERIES, server) for server in (FRONT, OLDER)]
    if through and older:
        yield Goal(f"{WAITERS} clients through the front against the older front", OLDER_GOAL, through / older)
    if asks := found.rate(ASKS, FRONT):
        yield Goal(f"asks a second of {WAITERS} clients through the front", ASKS_GOAL, asks)
    if runs := found.cells.get(Cell(DELIVERIES, WAITERS, FRONT, FAST)):
        in_time = median(figures.load.within(FRONT_MICROS) for figures in runs.figures)
        yield Goal(f"waits of {WAITERS} clients through the front within 30 ms", WAITS_GOAL, in_time)
    if found.slow:
        yield Goal("ms added at p99 by a client that reads a byte a second", ADDED_GOAL, found.slow_added(0.99), is_most=True)


def goals_text(found: Found) -> list[str]:
    rows = [[goal.name, goal.bound(), goal.found(), "yes" if goal.is_reached() else "no"] for goal in goals(found)]
    return ["### Goals", "", *table(["goal", "to be", "found", "reached"], rows)] if rows else []


def narrow(heads: Sequence[str], rows: Sequence[Sequence[str]]) -> list[str]:
    """A table as the documents write it."""
    return ["|" + "|".join(line) + "|" for line in [heads, ["---"] * len(heads), *rows]] + [""]


def short_cells(found: Found, work: str) -> list[str]:
    """The table of a work, shorter; where there are slower syncs, it has their commands per sync too."""
    columns = speed_heads(found)
    slow_heads = [f"slow: {columns[0]}", *columns[1:], SYNCED[-1]] if found.has_slow(work) else []
    heads = ["clients", *columns, *slow_heads]
    rows = []
    for name, (fast, slow) in found.rows(work):
        cells = [cells_of(runs, [*columns, *SYNCED]) for runs in (fast, slow)]
        rows.append([name, *(cell for each in cells for cell in each[: len(columns)]), cells[1][-1]][: len(heads)])
    return [f"{found.works[work].capitalize()}:", "", *narrow(heads, rows)]


def short_unread(found: Found, readers: int) -> list[str]:
    rows = [[str(unread), *speed(load)] for unread, load in found.unread.items()]
    return narrow([f"never read, beside {readers}", *SPEED], rows)


def short_slow(found: Found, readers: int) -> list[str]:
    rows = [[name, *speed(load)] for pair in found.slow for name, load in zip(["alone", "beside it"], pair)]
    return narrow([f"{readers} clients", *SPEED], rows)


def short_text(found: Found, readers: int) -> list[str]:
    """All that was found, as docs/PERFORMANCE.md shows it."""
    lines = [line for work in found.works if found.rows(work) for line in short_cells(found, work)]
    lines += short_unread(found, readers) if found.unread else []
    lines += short_slow(found, readers) if found.slow else []
    return lines + [f"- {goal.name}: {goal.found()}, to be {goal.bound()}" for goal in goals(found)]

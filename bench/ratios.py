"""Deliveries with `--together` against those by PostgreSQL, as Markdown: the ratio of each run of bench/clients, the median of
these ratios, and the ratio that is aimed at."""

from collections.abc import Callable, Iterator
from dataclasses import dataclass, replace
from statistics import median

from crowds import FAST, HOT, PLAIN, POSTGRES, ROUNDS, SLOW, SPREAD, Cell, Figures, Found, Goal, middle_text, narrow, spread
from report import number, table

# the ratios aimed at: of deliveries a second, at least, by work, number of clients and pace; and in one cell, of the milliseconds
# within which 99 of 100 waits end, at most
AIMS = {
    (SPREAD, 1): {SLOW: 0.98, FAST: 0.95},
    (SPREAD, 64): {SLOW: 1.2, FAST: 1.2},
    (SPREAD, 256): {SLOW: 1.2, FAST: 2.0},
    (HOT, 64): {SLOW: 25.0, FAST: 10.0},
    (HOT, 256): {SLOW: 40.0, FAST: 12.0},
}
WAITS_CELL, WAITS_AIM = Cell(SPREAD, 64, ROUNDS, SLOW), 1.0

HEADS = ["to PostgreSQL", "clients", "syncs", "each run", "median", "least to greatest", "to be", "reached"]


@dataclass(frozen=True)
class Ratios:
    """The ratios of a cell's runs to PostgreSQL's, in turn; and their aim, where there is one."""

    cell: Cell
    values: list[float]
    aim: float | None
    is_waits: bool = False

    def goal(self) -> Goal | None:
        return None if self.aim is None else Goal("", self.aim, median(self.values), is_most=self.is_waits)

    def reached(self) -> list[str]:
        """What it is to be, and whether it is so."""
        goal = self.goal()
        return ["-", "-"] if goal is None else [goal.bound(), "yes" if goal.is_reached() else "no"]


def share(value: float) -> str:
    return f"{value:.3f}" if value < 10 else number(value)


def values_of(found: Found, cell: Cell, of: Callable[[Figures], float]) -> list[float]:
    """The ratios of that number, run by run; none where `--together` or PostgreSQL was not measured."""
    own, beside = found.cells.get(cell), found.cells.get(replace(cell, server=POSTGRES))
    if own is None or beside is None or cell.server in (PLAIN, POSTGRES):
        return []
    return [of(one) / of(other) for one, other in zip(own.figures, beside.figures)]


def rates(found: Found, cell: Cell) -> Ratios | None:
    """The ratios of the deliveries a second, where there are any."""
    values = values_of(found, cell, Figures.rate)
    return Ratios(cell, values, AIMS.get((cell.work, cell.clients), {}).get(cell.pace)) if values else None


def waits(found: Found) -> Iterator[Ratios]:
    """The ratios of the milliseconds within which 99 of 100 waits end."""
    for cell in found.cells:
        if cell == replace(WAITS_CELL, server=cell.server) and (values := values_of(found, cell, Figures.most)):
            yield Ratios(cell, values, WAITS_AIM, is_waits=True)


def row(found: Found, ratios: Ratios) -> list[str]:
    cell, values = ratios.cell, ratios.values
    name = ("p99 of " if ratios.is_waits else "") + found.works[cell.work]
    names = [name, found.title(cell.clients, cell.server), found.paces[cell.pace]]
    return [*names, ", ".join(map(share, values)), share(median(values)), spread(values, share), *ratios.reached()]


def text(found: Found) -> list[str]:
    """The table of all ratios, where there were several runs."""
    all_rates = [ratios for cell in found.cells if (ratios := rates(found, cell))]
    rows = [row(found, ratios) for ratios in [*all_rates, *waits(found)]] if found.has_runs() else []
    return ["### Ratio to PostgreSQL", "", *table(HEADS, rows)] if rows else []


def short_cells(ratios: Ratios | None) -> list[str]:
    """The median with the spread, and the aim."""
    if ratios is None:
        return ["-", "-"]
    return [middle_text(ratios.values, share), "-" if ratios.aim is None else f"{ratios.aim:g}"]


def short_rows(found: Found, work: str) -> Iterator[list[str]]:
    for clients, server in found.crowds(work):
        ratios = [rates(found, Cell(work, clients, server, pace)) for pace in found.paces]
        if any(ratios):
            yield [found.works[work], found.title(clients, server), *(cell for each in ratios for cell in short_cells(each))]


def short_waits(found: Found, ratios: Ratios) -> str:
    cell, (bound, _) = ratios.cell, ratios.reached()
    where = f"{found.works[cell.work]}, {found.title(cell.clients, cell.server)}, {found.paces[cell.pace]}"
    return f"- p99 to PostgreSQL's, {where}: {middle_text(ratios.values, share)}, to be {bound}"


def short_text(found: Found) -> list[str]:
    """The same ratios, as docs/PERFORMANCE.md shows them."""
    rows = [cells for work in found.works for cells in short_rows(found, work)] if found.has_runs() else []
    heads = [head for pace in found.paces for head in (f"{'slow: ' * (pace == SLOW)}a second", "aimed at")]
    return (
        ["", *narrow(["to PostgreSQL", "clients", *heads], rows), *(short_waits(found, each) for each in waits(found))]
        if rows
        else []
    )

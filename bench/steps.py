"""Commands that a desk accepts. The rules carry each out, and a step tells its line, its answer, and the rows that the program
puts in for it."""

from collections.abc import Iterable
from dataclasses import dataclass

from support.rows import desk_row, field_row, kept_row, line_rows, move_row, order_row, rows_as_they_came
from support.rules import FIRM, Name, Order, Rules
from support.tables import FirmRow, Tables

# some fields, and rows of tables
Changes = tuple[Iterable[Name], Tables]


@dataclass(slots=True)
class Step:
    """A line of a script, its answer, and the rows that the program puts in for the command, table by table in its order. An ask
    has the name of its field in their place."""

    line: str
    answer: str
    rows: Tables


class Roomy(Rules):
    """The rules for commands on fields that have room for all that the measures send. No check sums the numbers of such a field,
    since a full desk would then take twice as long to make."""

    def check_room(self, name: Name, way: str, quantity: int, nr: int = 0) -> None:
        self.field_at(name, nr)


class Desk:
    """A desk by the rules. It remembers in which order the lines of its orders came."""

    def __init__(self) -> None:
        self.rules = Roomy()
        # the place of each line among all, by the number of its order and its own
        self.lines: dict[tuple[int, int], int] = {}

    def carry_out(self, key: str, command: str) -> str:
        """Carries out a command, which the desk accepts, and tells its line."""
        self.rules.carry_out(key, command)
        verb, number, *_ = command.split(maxsplit=2)
        if verb in ("open", "transfer", "more"):
            for nr in range(1, len(self.rules.orders[int(number)].lines) + 1):
                self.lines.setdefault((int(number), nr), len(self.lines))
        return f"{key} {command}"

    def step(self, key: str, command: str) -> Step:
        """Carries out a command, which the desk accepts, and tells all of it."""
        were_open = set(self.rules.open if command.startswith("expire ") else [])
        line = self.carry_out(key, command)
        names, others = changes(self.rules, command, were_open)
        fields = [field_row(self.rules, name) for name in sorted(names)]
        rows: Tables = {"desk": [desk_row(self.rules)], "field": fields, **others, "kept": [kept_row(self.rules, key)]}
        return Step(line, self.rules.reply(line), rows)

    def ask(self, name: Name) -> Step:
        line = f"? field {' '.join(name)}"
        return Step(line, self.rules.reply(line), {"ask": [name]})

    def rows(self) -> Tables:
        """All rows, those of each table in the order in which they came."""
        tables = rows_as_they_came(self.rules)
        tables["line"].sort(key=lambda row: self.lines[row.number, row.nr])
        return tables


# ---- what a command changes, as crates/laws/specs/RowsByCommand.antt has it


def changes(desk: Rules, command: str, were_open: set[int]) -> Changes:
    """The fields whose numbers the last command has made anew, and the rows of other tables that it has changed, but for the row
    of the desk and that of the command itself. An expiry also needs the orders that were open before it."""
    verb, *words = command.split()
    if verb in ("field", "deliver", "writeoff", "rebound"):
        moves = [move_row(*desk.moves[-1])] if verb in ("deliver", "writeoff") else []
        return [(words[0], words[1])], {"move": moves}
    if verb in ("more", "use", "release"):
        return changes_of_lines(desk.orders[int(words[0])], verb, (words[-3], words[-2]))
    numbers = sorted(were_open - desk.open.keys()) if verb == "expire" else [int(words[0])]
    orders = [desk.orders[number] for number in numbers]
    names = {line.name for order in orders for line in order.lines}
    if verb == "firm":
        return names, {"firm": [FirmRow(order.number) for order in orders]}
    lines = [row for order in orders for row in line_rows(order)] if verb in ("open", "transfer") else []
    return names, {"orders": [order_row(order) for order in orders], "line": lines}


def changes_of_lines(order: Order, verb: str, name: Name) -> Changes:
    """Likewise of a command on the order's line on a field. A use changes the numbers of a field only where the order is firm."""
    line = order.line_on(name)
    assert line
    names = {each.name for each in order.together(line)}
    rows = [row for row in line_rows(order) if (row.branch, row.article) in names]
    return names if verb != "use" or order.state == FIRM else [], {"line": rows}

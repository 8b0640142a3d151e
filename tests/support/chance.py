"""Random cases. Those that hypothesis draws are made as small as possible where one fails; the loads of a service, whose outcome
depends on timing too, are drawn from a seed. The gate tries the same cases each time. In the environment STOCKDESK_TIMES says how
many times as many cases are tried, and STOCKDESK_SEED chooses other cases:

    STOCKDESK_TIMES=20 STOCKDESK_SEED=7 ./check tests test_random"""

import os
import random
import unittest
from collections import Counter
from collections.abc import Callable, Sequence
from functools import cache
from typing import Any, TypeVar

try:
    import hypothesis
    from hypothesis import stateful, strategies
except ImportError:
    hypothesis = stateful = strategies = None  # type: ignore[assignment]

TIMES = int(os.environ.get("STOCKDESK_TIMES", "1"))
SEED = int(os.environ.get("STOCKDESK_SEED", "1986"))
# hypothesis begins with about so many small cases
SMALL = 10

needs_hypothesis = unittest.skipIf(hypothesis is None, "python3-hypothesis is not here")

T = TypeVar("T")


class Chance:
    """Draws numbers, and with them everything else."""

    def whole(self, least: int, most: int) -> int:
        """A whole number from `least` to `most`; `least` in a smaller case."""
        raise NotImplementedError

    def part(self, make: "Callable[[Chance], T]") -> T:
        """What `make` draws. A smaller case may leave it out as a whole."""
        return make(self)

    def share(self, percent: int) -> bool:
        """True in so many percent of cases; false in a smaller case."""
        return self.whole(0, 99) >= 100 - percent

    def one_of(self, values: Sequence[T]) -> T:
        """One of the values; in a smaller case one that stands earlier."""
        return values[self.whole(0, len(values) - 1)]

    def several(self, make: "Callable[[Chance], T]", average: int, most: int) -> list[T]:
        """About `average` things that are made, and at most `most`. A smaller case leaves some of them out."""
        found: list[T] = []

        def one_more(chance: Chance) -> bool:
            is_there = chance.whole(0, average) > 0
            if is_there:
                found.append(make(chance))
            return is_there

        while len(found) < most and self.part(one_more):
            pass
        return found


class Seeded(Chance):
    """Chance that a seed determines."""

    def __init__(self, seed: int):
        self.random = random.Random(seed)

    def whole(self, least: int, most: int) -> int:
        return self.random.randint(least, most)


class Drawn(Chance):
    """Chance that hypothesis guides."""

    def __init__(self, draw: Callable[[Any], Any]):
        self.draw = draw

    def whole(self, least: int, most: int) -> int:
        return self.draw(whole_numbers(least, most))

    def part(self, make: Callable[[Chance], T]) -> T:
        return self.draw(cases_of(make))


@cache
def whole_numbers(least: int, most: int) -> "strategies.SearchStrategy[int]":
    return strategies.integers(least, most)


def drawn(draw: Callable[[Any], Any], make: Callable[[Chance], T]) -> T:
    return make(Drawn(draw))


# what a function makes in this way, as a strategy of hypothesis
cases_of: Any = strategies.composite(drawn) if hypothesis else None


def settings(count: int) -> "hypothesis.settings":
    """Settings for so many cases, or as many times more as are asked for; each case may take as long as it needs."""
    return hypothesis.settings(
        max_examples=SMALL + TIMES * count,
        database=None,
        deadline=None,
        print_blob=False,
        report_multiple_bugs=False,
        suppress_health_check=list(hypothesis.HealthCheck),
    )


def try_cases(make: Callable[[Chance], T], count: int, act: Callable[[T], None], show: Callable[[T], str] = repr) -> None:
    """Calls `act` on so many cases. AssertionError: it fails for one; the smallest such case that was found is shown."""

    def each(case: T) -> None:
        try:
            act(case)
        except AssertionError as fault:
            raise AssertionError(f"{fault}\n{show(case)}") from fault

    hypothesis.seed(SEED)(settings(count)(hypothesis.given(cases_of(make))(each)))()


def run_machine(make: "Callable[[], stateful.RuleBasedStateMachine]", count: int, steps: int) -> None:
    """Runs so many machines, each so many steps."""
    hypothesis.seed(SEED)(make)
    stateful.run_state_machine_as_test(make, settings=hypothesis.settings(settings(count), stateful_step_count=steps))


class Seen:
    """Counts what the cases of a test had; none of what they ought to have may be missing."""

    def __init__(self, *names: str):
        self.counts = Counter({name: 0 for name in names})

    def add(self, name: str, number: int = 1) -> None:
        self.counts[name] += number

    def expect_all(self) -> None:
        lacking = [name for name, count in self.counts.items() if not count]
        if lacking:
            raise AssertionError(f"no case had {', '.join(lacking)}: {self}")

    def __str__(self) -> str:
        return ", ".join(f"{count:,} {name}" for name, count in self.counts.items())

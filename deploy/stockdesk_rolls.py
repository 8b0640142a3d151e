"""When a machine adds a roll to the log: where its desk gets full, and at night where it is half full."""

import time
from typing import NamedTuple

import stockdesk_rows as rows
from stockdesk_room import BEHIND

# from so many orders on a roll makes room for others, at night and at any time, where half of them have ended
HALF_OF_ORDERS, MOST_ORDERS = rows.ORDERS // 2, rows.ORDERS * 19 // 20

# the hour of the day at which the night begins, by this machine's time, and how long it lasts, in seconds
NIGHT_HOUR, NIGHT_SECONDS = 4, 1_800
# how long before a roll for orders, or one at night, no other may have been done: the clocks of other machines differ, and a roll
# may have made little room for orders
REST_SECONDS = 3_600


class Sizes(NamedTuple):
    """Behind how many lines a machine adds a mark to the log; from how many places, taken or set aside, it adds a roll at any
    time; and how many keys stay then at the most."""

    mark_lines: int
    roll_from: int
    keys: int

    def keys_for(self, counts: rows.Counts, rest: "Rest") -> int | None:
        """How many keys are to stay at a roll of a desk that is so full; None where no roll is wanted. At least one goes."""
        keys = max(1, min(self.keys, BEHIND - counts.set_aside))
        is_full = rest.is_night or counts.places + counts.set_aside >= self.roll_from
        wants_places, wants_orders = keys < counts.places and is_full, rest.wants_orders(counts) and counts.places > 1
        return min(keys, counts.places - 1) if wants_places or wants_orders else None


class Rest(NamedTuple):
    """What a moment allows: whether no roll was done for long, and whether it is night, too."""

    is_long: bool
    is_night: bool

    def wants_orders(self, counts: rows.Counts) -> bool:
        """Whether there are so many orders now that a roll is wanted, and half of them would go."""
        least = HALF_OF_ORDERS if self.is_night else MOST_ORDERS
        return self.is_long and counts.orders >= least and 2 * counts.set_aside <= counts.orders


class Rests:
    """How long ago the last roll was done. So there is one each night, though each command takes a place more than a roll has
    left. A machine that has begun a short time ago does not know, and leaves it to the others."""

    def __init__(self, now: float | None = None):
        self.last = 0.0
        self.note(now)

    def note(self, now: float | None = None) -> None:
        """A roll was done now."""
        self.last = time.time() if now is None else now

    def at(self, now: float | None = None) -> Rest:
        moment = time.time() if now is None else now
        begin = night_of(moment)
        is_night = begin <= moment < begin + NIGHT_SECONDS and self.last < begin - REST_SECONDS
        return Rest(self.last < moment - REST_SECONDS, is_night)


def night_of(now: float) -> float:
    """The moment at which the night of this day begins."""
    year, month, day, *_ = time.localtime(now)
    return time.mktime((year, month, day, NIGHT_HOUR, 0, 0, 0, 0, -1))

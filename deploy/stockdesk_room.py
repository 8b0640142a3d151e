"""What room a roll gives a desk, whether the roll is wanted, and what holds it up."""

from typing import NamedTuple

import stockdesk_rows as rows
from stockdesk_rows import Counts, Deals

# where nothing is told: how many keys stay at the most, and how many places are taken or set aside then: a quarter is free
KEYS, BEHIND = 100_000, rows.PLACES * 3 // 4

# how many deals a line names
NAMED = 5


def keys_for(counts: Counts, told: int | None) -> int:
    """How many keys stay at a roll: as many as were told, or fewer than usual where open orders would leave too little room."""
    return max(0, min(KEYS, BEHIND - counts.set_aside)) if told is None else told


def is_near(count: int, most: int) -> bool:
    """Whether nine tenths of a limit are taken."""
    return 10 * count >= 9 * most


class Look(NamedTuple):
    """A desk before a roll: how full it is, how many keys would stay, and its deals."""

    counts: Counts
    keys: int
    deals: Deals = Deals()

    @property
    def taken(self) -> int:
        return self.counts.places + self.counts.set_aside

    @property
    def gone(self) -> int:
        """How many orders would go."""
        return self.counts.orders - self.counts.set_aside - self.deals.staying

    def gives_places(self) -> bool:
        return self.counts.places > self.keys

    def gives_orders(self) -> bool:
        """Whether at least half of the room for orders is taken, and half of these would go."""
        return 2 * self.counts.orders >= rows.ORDERS and 2 * self.gone >= self.counts.orders

    def waits(self) -> bool:
        """Whether a roll waits for deals. It does not where nine tenths of the places are taken or set aside."""
        return bool(self.deals.long_open) and not is_near(self.taken, rows.PLACES)

    def stuck(self) -> str:
        """The deals that hold a roll up, in words."""
        numbers = self.deals.long_open
        more = f" and {len(numbers) - NAMED} more" if len(numbers) > NAMED else ""
        return f"{', '.join(map(str, numbers[:NAMED]))}{more}, open for longer than the last {self.keys} commands"

    def why(self) -> str:
        """Why a roll is wanted, where it is."""
        if self.gives_places():
            return f"{self.counts.places} places are taken"
        return f"{self.counts.orders} orders are there, and {self.gone} of them would go"

    def why_not(self, least: int | None) -> str | None:
        """Why a desk is not to be rolled up from so many places on, if it is not. Without a number it is rolled up at once."""
        if least is None:
            return None
        if not self.gives_orders():
            if self.taken < least:
                return f"{self.counts.places} places are taken and {self.counts.set_aside} set aside, fewer than {least}"
            if not self.gives_places():
                return f"{self.counts.places} places are taken, and all their keys would stay"
        return f"it waits for deals: {self.stuck()}" if self.waits() else None

"""Tests of the built program that lists orders: those that are open, fifty at a time, and those that are due."""

import http.client
import json
import random

from support.cases import ProgramCase
from support.programs import new_desk
from support.service import Service, ask, post

ORDERS, LISTED = 170, 50
LAST = 999_999_999


def begin(connection: http.client.HTTPConnection, numbers: list[int], untils: dict[int, int]) -> None:
    """Makes a field, and for each number an order that takes one piece of it."""
    commands = ["field N1 A-1 0 1000 1000"] + [f"open {number} {untils[number]} take N1 A-1 1" for number in numbers]
    for place, command in enumerate(commands, 1):
        found = post(connection, f"K{place}", command)
        assert found[::2] == (200, f'{{"place":{place}}}'), found


def listed(connection: http.client.HTTPConnection, target: str) -> list[int]:
    """The numbers of the orders that a view lists; each order must be as its own view shows it."""
    status, _, text = ask(connection, "GET", target)
    assert status == 200, (target, status, text)
    orders = json.loads(text)["orders"]
    for order in orders[:3]:
        assert json.loads(ask(connection, "GET", f"/v1/orders/{order['number']}")[2]) == order
    return [order["number"] for order in orders]


def paged(connection: http.client.HTTPConnection) -> list[int]:
    """The numbers of all open orders, list by list."""
    found: list[int] = []
    while more := listed(connection, f"/v1/open/{found[-1] if found else 0}"):
        found += more
    return found


class Lists(ProgramCase):
    def test_open_and_due_orders_are_listed_by_their_numbers(self):
        generator = random.Random(7)
        numbers = generator.sample(range(1, LAST), ORDERS - 2) + [1, LAST]
        untils = {number: generator.randint(1, 1_000) for number in numbers}
        service = Service(self.program, new_desk(self.program, self.folder, "desk.db"), 1)
        connection = service.connect()
        begin(connection, numbers, untils)
        self.assertEqual(listed(connection, "/v1/open/0"), sorted(numbers)[:LISTED])
        self.assertEqual(paged(connection), sorted(numbers))
        # some end, and some are made firm
        ended, firm = set(numbers[:40]), set(numbers[40:60])
        for number in sorted(ended | firm):
            verb = "firm" if number in firm else "commit" if number % 2 else "abort"
            self.assertEqual(post(connection, f"E{number}", f"{verb} {number}")[0], 200)
        left = sorted(set(numbers) - ended)
        self.assertEqual(paged(connection), left)
        for floor in [left[0] - 1, left[0], left[70] - 1, left[70], left[-1], LAST]:
            self.assertEqual(listed(connection, f"/v1/open/{floor}"), [number for number in left if number > floor][:LISTED])
        for moment in [0, 100, 500, 1_000, 4_000_000_000]:
            due = [number for number in left if number not in firm and untils[number] <= moment]
            self.assertEqual(listed(connection, f"/v1/due/{moment}"), due[:LISTED])
        # what is listed as due is what the expiry aborts
        self.assertEqual(post(connection, "CLOCK", "expire 500")[0], 200)
        left = [number for number in left if number in firm or untils[number] > 500]
        self.assertEqual(paged(connection), left)
        self.assertEqual(listed(connection, "/v1/due/500"), [])
        connection.close()
        service.expect_end()

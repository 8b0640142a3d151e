"""Tests of the built program that is killed in a file of orders, and called again with the same file until it ends by itself."""

from support.cases import ProgramCase
from support.killed import Killed, orders_of

ROUNDS = 30


class Resumed(ProgramCase):
    def test_a_killed_file_of_orders_is_called_again(self):
        Killed(self.program, self.folder, orders_of(40), []).play(ROUNDS)

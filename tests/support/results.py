"""How tests are reported: each on a line, by the name by which it can be chosen, with what it notes and, if it is slow, its
time."""

import time
import unittest
from typing import Any

# the time is written for tests that take so many seconds or more
SLOW = 5.0


class TimedResult(unittest.TextTestResult):
    """Writes a test's name, then its notes, its time and its outcome, as they come."""

    began: float | None = None

    def getDescription(self, test: unittest.TestCase) -> str:
        return test.id()

    def startTest(self, test: unittest.TestCase) -> None:
        self.began = time.monotonic()
        super().startTest(test)

    def tell_time(self) -> None:
        """Writes the time of the test that ends; nothing where a class could not begin."""
        took = time.monotonic() - self.began if self.began else 0
        if self.showAll and took >= SLOW:
            self.stream.write(f"{took:.0f} s; ")

    def addSuccess(self, test: unittest.TestCase) -> None:
        self.tell_time()
        super().addSuccess(test)

    def addFailure(self, test: unittest.TestCase, err: Any) -> None:
        self.tell_time()
        super().addFailure(test, err)

    def addError(self, test: unittest.TestCase, err: Any) -> None:
        self.tell_time()
        super().addError(test, err)

    def stopTest(self, test: unittest.TestCase) -> None:
        self.began = None
        super().stopTest(test)


class TimedRunner(unittest.TextTestRunner):
    resultclass = TimedResult

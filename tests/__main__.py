"""python3 tests [-k NAME].. [OPTION]..: runs the tests, or those whose names contain one of these; each is reported on a line,
slow ones with their time. The options are those of `python3 -m unittest discover -s tests`, which runs the same tests."""

import os
import sys
import unittest

# no folder of compiled modules is made beside the sources
sys.dont_write_bytecode = True

from support.results import TimedRunner


def main() -> None:
    words = ["tests", "discover", "-s", os.path.dirname(os.path.abspath(__file__)), *sys.argv[1:]]
    result = unittest.main(None, argv=words, testRunner=TimedRunner, verbosity=2, exit=False).result
    if result.wasSuccessful() and not result.testsRun:
        sys.exit("tests: no test has such a name")
    sys.exit(not result.wasSuccessful())


if __name__ == "__main__":
    main()

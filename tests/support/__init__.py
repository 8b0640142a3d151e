"""What the tests of the built program, and the measures of bench/, have in common; none of it is a test."""

import os
import sys

# no folder of compiled modules beside the sources
sys.dont_write_bytecode = True

TOP = os.path.dirname(os.path.dirname(os.path.dirname(os.path.abspath(__file__))))
BUILT = os.path.join(TOP, "crates", "stockdesk", "out", "stockdesk")
DEPLOY = os.path.join(TOP, "deploy")

# for tests of what the tools call
sys.path.append(DEPLOY)

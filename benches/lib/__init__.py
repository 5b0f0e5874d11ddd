"""What all benches share. A bench finds what all tests share as modules of `lib` too, and the packages of tests beside."""
import os
import sys

TESTS = os.path.join(os.path.dirname(os.path.dirname(os.path.dirname(os.path.abspath(__file__)))), "tests")
__path__.append(os.path.join(TESTS, "lib"))
sys.path.append(TESTS)

import lib.places  # noqa: E402

"""The parts of tools/test, and what they share: gate/README.md tells of each. `python3 -m unittest gate` runs them all,
on the program that ./pathserve runs or PATHSERVE_PROGRAM names, and `python3 -m unittest gate.try_keep` one."""
import unittest
from typing import Optional


def load_tests(loader: unittest.TestLoader, tests: unittest.TestSuite, pattern: Optional[str]) -> unittest.TestSuite:
    from tools import test

    parts = [it.words[0].replace("/", ".") for it in (*test.FREE, *test.PARTS)]
    return unittest.TestSuite(loader.loadTestsFromName(it) for it in parts)

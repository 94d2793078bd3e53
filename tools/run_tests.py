#!/usr/bin/env python3
"""Runs the tests of this folder. Its last line is `N passed, N failed`."""

import pathlib
import sys
import unittest

HERE = pathlib.Path(__file__).resolve().parent


def main():
    tests = unittest.defaultTestLoader.discover(str(HERE))
    result = unittest.TextTestRunner(stream=sys.stdout, verbosity=2).run(tests)
    # What failed in several of its cases is one test. What could not be set up is no test.
    bad = {getattr(test, "test_case", test) for test, _ in result.failures + result.errors}
    passed = result.testsRun - sum(isinstance(test, unittest.TestCase) for test in bad)
    # Where nothing ran, something is wrong.
    failed = len(bad) or int(passed == 0)
    print(f"{passed} passed, {failed} failed")
    return 1 if failed else 0


if __name__ == "__main__":
    sys.exit(main())

"""Runs the tests: `python3 -m tlutflow.tests [NAME ..]`. The status is 1 where one failed."""

import argparse
import os
import sys
import unittest

FOLDER = os.path.dirname(os.path.abspath(__file__))
DESCRIPTION = """Runs the tests of the companion and of the wrapper, all of them or those that are named. Tests that need a program which
isn't installed, or tlut before it is built, are left out and listed. The exit status is 1 if a test failed."""
EXAMPLE = """examples:
  python3 -m tlutflow.tests                     # all, in some minutes
  python3 -m tlutflow.tests test_verilog        # those of one file
  python3 -m tlutflow.tests test_abc.Check      # those of one class, or of one method"""


def parser() -> argparse.ArgumentParser:
    """The parser of the arguments."""
    words = argparse.ArgumentParser(
        prog="python3 -m tlutflow.tests", description=DESCRIPTION, epilog=EXAMPLE, formatter_class=argparse.RawDescriptionHelpFormatter
    )
    words.add_argument("names", metavar="NAME", nargs="*", help="a file, a class or a method of the tests (default: all)")
    words.add_argument("-v", "--verbose", action="store_true", help="print the name of each test, and its outcome")
    words.add_argument("--list", action="store_true", help="print the names of the tests, and run none")
    return words


def chosen(names: list[str]) -> unittest.TestSuite:
    """The tests of these names, or all."""
    loader = unittest.TestLoader()
    if not names:
        return loader.discover(FOLDER, top_level_dir=os.path.dirname(os.path.dirname(FOLDER)))
    return loader.loadTestsFromNames([f"tlutflow.tests.{name.removeprefix('tlutflow.tests.')}" for name in names])


def listed(suite: unittest.TestSuite) -> list[str]:
    """The names of the tests of a suite."""
    return [name for it in suite for name in (listed(it) if isinstance(it, unittest.TestSuite) else [it.id().removeprefix("tlutflow.tests.")])]


def main() -> int:
    given = parser().parse_args()
    suite = chosen(given.names)
    if given.list:
        print("\n".join(listed(suite)))
        return 0
    result = unittest.TextTestRunner(verbosity=2 if given.verbose else 0).run(suite)
    for test, reason in result.skipped:
        print(f"left out: {test.id()}: {reason}")
    left_out = f", {len(result.skipped)} left out" if result.skipped else ""
    failed = len(result.failures) + len(result.errors)
    print(f"the companion: {result.testsRun - failed - len(result.skipped)} tests passed, {failed} failed{left_out}")
    return 0 if result.wasSuccessful() else 1


if __name__ == "__main__":
    sys.exit(main())

"""Runs the tests of this folder by this interpreter: says which fail, which were not run, and how many passed."""
import collections
import os
import pathlib
import platform
import sys
import time
import unittest
from typing import Any

sys.dont_write_bytecode = True
HERE = pathlib.Path(__file__).resolve().parent
sys.path.insert(0, str(HERE))


class Outcomes(unittest.TextTestResult):
    """Counts what passed."""

    passed = 0

    def addSuccess(self, test):
        super().addSuccess(test)
        self.passed += 1


def level():
    """Which code the library takes: that of x86-64-v2 if it is told to, and else what the processor has."""
    from mldsa import _library

    wanted, choose = int(os.environ.get("MLDSA_LEVEL", 3)), getattr(_library._LIBRARY, "mldsa_x86_64_level", None)
    return f"{platform.machine()}-v{choose(wanted)}" if choose else platform.machine()


def main():
    suite, name = unittest.defaultTestLoader.discover(str(HERE), "test_*.py"), f"Python {platform.python_version()}"
    name, start = f"{name} on {level()}", time.monotonic()
    with open("/dev/null", "w", encoding="utf-8") as nowhere:
        result: Any = unittest.TextTestRunner(nowhere, resultclass=Outcomes).run(suite)
    for test, reason in [*result.failures, *result.errors]:
        print(f"{name}: FAILED: {test}\n{reason}")
    for reason, count in collections.Counter(reason for _, reason in result.skipped).items():
        print(f"{name}: NOT RUN, {count} of the tests: {reason}")
    failed = len({str(test) for test, _ in [*result.failures, *result.errors]})
    seconds = time.monotonic() - start
    print(f"{name}: {result.passed} passed, {failed} failed, {len(result.skipped)} not run; {seconds:.0f} s")
    return 1 if failed or not result.passed else 0


sys.exit(main())

"""Runs the tests of one module, and writes what became of each to a file.

usage: ci/module_tests.py MODULE REPORT

The current folder is the one from which MODULE is imported. The tests' output is unittest's. REPORT
gets a JSON object with three objects, `passed`, `failed` and `skipped`: in each the names of tests,
without the package, with the reason of a skip. A test whose class or module could not be set up is
listed as what the setup was: failed or skipped. The exit status is 1 if a test failed.
"""
import json
import os
import pathlib
import re
import sys
import unittest

# What a test has become, the last of them if it has become several: one of its parts may be
# skipped, and another fail.
KINDS = ("passed", "skipped", "failed")
# The name of a setup in the place of a test: 'setUpClass (tests.test_door.Strangers)'.
SETUP = re.compile(r"\w+ \((.*)\)")


class Result(unittest.TextTestResult):
    """What became of each test."""

    def __init__(self, *words, **named):
        super().__init__(*words, **named)
        self.outcomes = {}

    def note(self, kind, test, reason=""):
        """Notes what a test, or a part of one, has become."""
        name = getattr(test, "test_case", test).id()
        before = self.outcomes.get(name, ("passed", ""))
        if KINDS.index(kind) >= KINDS.index(before[0]):
            self.outcomes[name] = (kind, reason)

    def addSuccess(self, test):
        super().addSuccess(test)
        self.note("passed", test)

    def addExpectedFailure(self, test, error):
        super().addExpectedFailure(test, error)
        self.note("passed", test)

    def addUnexpectedSuccess(self, test):
        super().addUnexpectedSuccess(test)
        self.note("failed", test)

    def addError(self, test, error):
        super().addError(test, error)
        self.note("failed", test)

    def addFailure(self, test, error):
        super().addFailure(test, error)
        self.note("failed", test)

    def addSubTest(self, test, subtest, error):
        super().addSubTest(test, subtest, error)
        if error is not None:
            self.note("failed", test)

    def addSkip(self, test, reason):
        super().addSkip(test, reason)
        self.note("skipped", test, reason)


def names_of(suite):
    """Returns the names of all tests of a suite."""
    if isinstance(suite, unittest.TestCase):
        return [suite.id()]
    return [name for each in suite for name in names_of(each)]


def complete(outcomes, names):
    """Returns the outcome of each of these tests, and of each setup or teardown that failed."""
    setups = {SETUP.fullmatch(name)[1]: it for name, it in outcomes.items() if SETUP.fullmatch(name)}
    found = {name: it for name, it in outcomes.items() if name in names}
    for name in names:
        own = [it for setup, it in setups.items() if name.startswith(f"{setup}.")]
        found.setdefault(name, own[0] if own else ("failed", ""))
    is_explained = any(kind == "failed" for kind, _ in found.values())
    for name, it in outcomes.items():
        if name not in names and it[0] == "failed" and not is_explained:
            found[name] = it
    return found


def main(module, file):
    sys.path[0] = os.getcwd()
    suite = unittest.defaultTestLoader.loadTestsFromName(module)
    names = names_of(suite)
    result = unittest.TextTestRunner(resultclass=Result).run(suite)
    report = {kind: {} for kind in KINDS}
    for name, (kind, reason) in complete(result.outcomes, names).items():
        report[kind][name.partition(".")[2] or name] = reason
    pathlib.Path(file).write_text(json.dumps(report))
    return 1 if report["failed"] else 0


if __name__ == "__main__":
    sys.exit(main(*sys.argv[1:]))

"""Runs tests of unittest, and prints a line `ok NAME`, `FAILED NAME: why` or `skipped NAME: why` for
each."""
import os
import sys
import unittest


class Lines(unittest.TextTestResult):
    """Prints a line for each test."""

    prefix = ""

    def say(self, word, test, why=""):
        name = test.id().split(".")[-1][5:].replace("_", " ")
        print(f"{word} {self.prefix}{name}{': ' if why else ''}{' '.join(str(why).split())[:300]}", flush=True)

    def addSuccess(self, test):
        super().addSuccess(test)
        if not any(test is getattr(it, "test_case", it) for it, _ in self.failures + self.errors):
            self.say("ok", test)

    def addFailure(self, test, err):
        super().addFailure(test, err)
        self.say("FAILED", test, f"{err[0].__name__}: {err[1]}")

    addError = addFailure

    def addSubTest(self, test, subtest, err):
        super().addSubTest(test, subtest, err)
        if err is not None:
            self.say("FAILED", test, f"{subtest.id()}: {err[0].__name__}: {err[1]}")

    def addSkip(self, test, reason):
        super().addSkip(test, reason)
        self.say("skipped", test, reason)


def run(prefix=""):
    """Runs all tests of the program that was started; `prefix` begins each name. Returns whether
    they passed."""
    Lines.prefix = prefix
    tests = unittest.defaultTestLoader.loadTestsFromModule(sys.modules["__main__"])
    with open(os.devnull, "w") as none:
        return unittest.TextTestRunner(stream=none, resultclass=Lines, warnings="ignore").run(tests).wasSuccessful()

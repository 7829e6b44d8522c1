"""Tests by `unittest`, of which each prints a line as it ends, and so does each part of one (`subTest`); those that the
library in C has in each of its forms; and what pages show to be typed."""
import hashlib
import os
import re
import subprocess
import traceback
import unittest

from common import ACCUMULATED, recorded_rows, text


class Result(unittest.TestResult):
    """Prints what each test came to, by the first line of its comment, or each of its parts by its words.

    A test may have a `front`, which stands before its lines, and an `outcome`, which stands in the place of `passed`.
    """

    def __init__(self, failfast):
        super().__init__()
        self.failfast, self.parts = failfast, 0

    def startTest(self, test):
        super().startTest(test)
        self.parts = 0

    def note(self, test, error=None):
        """Prints that a test or a part of one passed, or what is wrong."""
        case = getattr(test, "test_case", test)
        words = test.params.values() if case is not test else [(test.shortDescription() or test.id()).rstrip(".")]
        outcome = "FAILED" if error else getattr(case, "outcome", "passed")
        print(f"{getattr(case, 'front', '')}{', '.join(map(str, words))}: {outcome}", flush=True)
        if error:
            of_test = issubclass(error[0], AssertionError)
            print(str(error[1]) if of_test else "".join(traceback.format_exception(*error)), flush=True)

    def addSuccess(self, test):
        super().addSuccess(test)
        if not self.parts:
            self.note(test)

    def addSubTest(self, test, subtest, err):
        super().addSubTest(test, subtest, err)
        self.parts += 1
        self.note(subtest, err)

    def addFailure(self, test, err):
        super().addFailure(test, err)
        self.note(test, err)

    def addError(self, test, err):
        super().addError(test, err)
        self.note(test, err)

    def addSkip(self, test, reason):
        super().addSkip(test, reason)
        self.parts += 1
        print(f"{getattr(test, 'front', '')}NOT RUN, since {reason}", flush=True)


def run(*cases, failfast=False):
    """Runs the tests of these classes, each in the order in which they are written, and gives how many failed; one
    where there is none."""
    result = Result(failfast)
    for case in cases:
        names = [name for kind in reversed(case.__mro__) for name in vars(kind) if name.startswith("test_")]
        unittest.TestSuite(map(case, names)).run(result)
    return len(result.failures) + len(result.errors) if result.testsRun else 1


def blocks(page, heading):
    """The blocks of indented lines under a heading of a page, each as its lines; none between fences."""
    said = f"\n{text(page)}".partition(f"\n{heading}\n")[2].partition("\n## ")[0]
    said = re.sub(r"^(```|~~~).*?^\1$", "", said, flags=re.M | re.S)
    return [re.findall(r"^ {4}(.*)$", block, re.M) for block in re.findall(r"(?:^ {4}.*\n)+", said, re.M)]


def fenced(page, language):
    """The first block of a language on a page."""
    return re.search(rf"^(```|~~~){language}\n(.*?)^\1$", page, re.M | re.S)[2]


def ran(words, stderr=subprocess.PIPE, **more):
    """A program that has ended: its status and what it printed."""
    return subprocess.run([str(word) for word in words], stdout=subprocess.PIPE, stderr=stderr, text=True, timeout=1800,
                          check=False, **more)


def ended(words):
    """What is wrong with the end of a program that prints nothing and ends with status 0 where all is well. On standard
    error qemu may warn."""
    try:
        # Memory that is not given back when a program ends is no fault of a test.
        done = ran(words, env=dict(os.environ, ASAN_OPTIONS="detect_leaks=0"))
    except subprocess.TimeoutExpired as expired:
        return f"it did not end in {expired.timeout} s"
    return f"status {done.returncode}\n{done.stdout}{done.stderr}" if done.returncode or done.stdout else None


class InC(unittest.TestCase):
    """Tests that are programs in C. A class of them for a processor has the words before their names as its `front`."""

    front: str

    @classmethod
    def of(cls, **facts):
        """These tests with these facts."""
        return type(cls.__name__, (cls,), facts)

    def part(self, what, fault=None):
        """A part of a test, of which this is wrong, if anything is."""
        with self.subTest(part=what):
            if fault:
                self.fail(fault)

    def passes(self, what, words):
        """A part that is a program."""
        self.part(what, ended(words))


class Answers(InC):
    """The recorded and published keys and signatures, by c/tests/answers.c."""

    def program(self, name):
        """The words that run a program of c/tests over the library."""
        raise NotImplementedError

    def answers(self, lines):
        """The public key, the private key and the signature of each line, whose verdict has to be yes."""
        done = ran(self.program("answers"), input="\n".join(map("\t".join, lines)) + "\n")
        found = [line.split("\t") for line in done.stdout.splitlines()]
        self.assertEqual((done.returncode, [len(fields) for fields in found]), (0, [4] * len(lines)))
        self.assertEqual({verdict for *_, verdict in found}, {"1"})
        return [[bytes.fromhex(field) for field in fields[:3]] for fields in found]

    def test_recorded(self):
        """72 recorded keys and signatures, and those of digests"""
        rows = recorded_rows()
        self.assertEqual(sum(len(row) == 8 for row in rows), 72)
        for row, fields in zip(rows, self.answers([row[:5] + row[8:] for row in rows])):
            self.assertEqual([hashlib.sha256(field).hexdigest() for field in fields], row[5:8], row[:5])

    def test_accumulated(self):
        seeds, zeros = hashlib.shake_128(b"").digest(3200).hex(), "00" * 32
        for number, value in ACCUMULATED.items():
            with self.subTest(part=f"the published value of 100 keys and signatures of ML-DSA-{number}"):
                found = self.answers([[number, seeds[at:at + 64], zeros, "", ""] for at in range(0, 6400, 64)])
                accumulated = b"".join(public + signature for public, _, signature in found)
                self.assertEqual(hashlib.shake_128(accumulated).hexdigest(32), value)

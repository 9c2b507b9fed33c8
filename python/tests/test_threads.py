"""Tests of threads that use one set of patterns, or the same ignore files, at once: python test_threads.py

Each pair of calls runs in two threads each. A call returns what it returns in one thread, and raises nothing.
"""

from __future__ import annotations

import copy
import sys
import threading
import time
import unittest
from itertools import combinations_with_replacement
from typing import Callable

import osbytes
from osbytes import GlobSet, Ignore, VerdictKind

SECONDS = 0.1
ADDED = 150
# Longer than what the extension module takes.
LONG = "x/" * 40_000

# A call, which gets the number of its thread and how many were made before it there, and returns whether its result is right.
Made = Callable[[int, int], bool]


def wrong(calls: list[Made]) -> list[str]:
    """Runs calls in threads at once, each again and again, and returns what was wrong."""
    found, begun, end = [], threading.Barrier(len(calls)), time.monotonic() + SECONDS

    def run(number: int) -> None:
        try:
            begun.wait()
            turn = 0
            while turn < 2 or time.monotonic() < end:
                if not calls[number](number, turn):
                    found.append(f"{calls[number].__name__}: a wrong result")
                turn += 1
        except BaseException as error:
            found.append(f"{calls[number].__name__}: {error!r}")

    threads = [threading.Thread(target=run, args=(number,)) for number in range(len(calls))]
    for thread in threads:
        thread.start()
    for thread in threads:
        thread.join()
    return found


class Threads(unittest.TestCase):
    def setUp(self) -> None:
        self.addCleanup(sys.setswitchinterval, sys.getswitchinterval())
        sys.setswitchinterval(1e-5)

    def assert_right(self, calls: list[Made], after: Callable[[], None] = lambda: None) -> None:
        """Asserts that each pair of calls is right. `after` is called after each pair."""
        for pair in combinations_with_replacement(calls, 2):
            with self.subTest(pair=[call.__name__ for call in pair]):
                self.assertEqual(wrong([*pair, *pair]), [])
                after()

    def test_sets(self) -> None:
        globs = GlobSet(["**/*.c", "*.h", "a?b*c*"])
        paths = ["a/b.h", "c.h", "x.c", LONG] * 50

        def is_match(number: int, turn: int) -> bool:
            return globs.is_match("a/b/c.c") is True and globs.is_match("a/b.h") is False

        def is_long_match(number: int, turn: int) -> bool:
            return globs.is_match(LONG + "b.c") is True

        def matches(number: int, turn: int) -> bool:
            return globs.matches(paths) == [False, True, True, False] * 50

        def copied(number: int, turn: int) -> bool:
            return copy.copy(globs).is_match("a/b/c.c") is True

        self.assert_right([is_match, is_long_match, matches, copied])

    def test_ignore_files(self) -> None:
        def made() -> Ignore:
            return Ignore("\n*.o\n!keep.o\nfoo/\n" + "no/such/?*\n" * 200)

        ignore, log = made(), "*.log\n"

        def is_ignored(number: int, turn: int) -> bool:
            return ignore.is_ignored("a/b.o") is True and ignore.is_ignored("a/keep.o") is False

        def verdict(number: int, turn: int) -> bool:
            return ignore.verdict("a/b.o") == (VerdictKind.IGNORED, 2, 0)

        def matched(number: int, turn: int) -> bool:
            return [it.line for it in ignore.matched(["a/b.o", "keep.o", "foo/", "a"])] == [2, 3, 4, 0]

        def copied(number: int, turn: int) -> bool:
            return copy.copy(ignore).verdict("a/b.o") == (VerdictKind.IGNORED, 2, 0)

        def add(number: int, turn: int) -> bool:
            if turn < ADDED:
                ignore.add(log, f"{number}/{turn}")
            return True

        def decide() -> None:
            """Asserts that each file that was added decides, by its number, and begins anew."""
            nonlocal ignore
            files = ignore.__reduce__()[1][0]
            found = [ignore.verdict(place + b"/x.log") for _, place in files[1:]]
            self.assertEqual(found, [(VerdictKind.IGNORED, 1, number) for number in range(1, len(files))])
            ignore = made()

        self.assert_right([is_ignored, verdict, matched, copied, add], decide)

    def test_calls(self) -> None:
        def escape(number: int, turn: int) -> bool:
            return osbytes.escape(f"\\{turn}" * number) == f"\\\\{turn}" * number

        def shell_join(number: int, turn: int) -> bool:
            return osbytes.shell_join([f"a {turn}"] * number) == " ".join([f"'a {turn}'"] * number)

        self.assertEqual(wrong([escape, shell_join] * 4), [])


if __name__ == "__main__":
    unittest.main()

"""Tests of the memory that the package's calls use: python test_memory.py

The sizes are those beside which buffers end. With PYTHONMALLOC=debug Python ends where a call has written past a block of its
memory. An interpreter that was built to debug counts references, too.
"""

from __future__ import annotations

import copy
import gc
import resource
import sys
import tracemalloc
import unittest
from typing import Callable

import osbytes
from osbytes import WINDOWS, FaultError, GlobSet, Ignore, NulError, Options

# Lists of as many items as there are views on the stack, and results as long as a buffer there.
COUNTS = sorted({0, 1, 2, 640, 1000, *(full + more for full in (64, 128, 256) for more in (-1, 0, 1))})
LENS = [full + more for full in (64, 4096, 8192, 1 << 16) for more in (-1, 0, 1)]
PATTERNS = [f"*{number:04}*" for number in range(400)]
GLOBS, IGNORE = GlobSet(["a", "c"]), Ignore("a")


def made_set() -> None:
    GlobSet(PATTERNS).matches(["a", "b/0001"])


def made_files() -> None:
    Ignore("\n".join(PATTERNS)).is_ignored("a0001")


def walked() -> None:
    """Walks over strings and words that nothing else has."""
    text = "b\udcff" * 300
    assert [shown(it) for it in osbytes.symbols(text.encode("utf-8", "surrogateescape"))] == ["b", "255"] * 300
    assert b"".join(part + text.encode() for part, text in osbytes.chunks(f"a{text}".encode("utf-8", "surrogateescape"))).count(b"b") == 300
    options = Options([f"-{letter}=1" for letter in "abc" * 50])
    other = copy.copy(options)
    del text
    for one in (options, other):
        assert [(option.name, one.value()) for option in one] == [(f"-{letter}", "1") for letter in "abc" * 50]


class Named:
    """An object with a path. One of `pathlib` adds to a table of Python, which grows now and then."""

    def __fspath__(self) -> str:
        return "a/b" * COUNTS[-1]


def shown(symbol: osbytes.Character | osbytes.Unit) -> str:
    return str(symbol[0])


def checked() -> None:
    checker = osbytes.Checker()
    for piece in (b"\xed", b"\xa0\x80"):
        checker.feed(piece)
    checker.finish()


def refused(call: Callable[[], object], error: type[Exception]) -> Callable[[], None]:
    """Returns what makes a call that raises an error."""

    def make() -> None:
        try:
            call()
        except error:
            return
        raise AssertionError(f"{call} didn't raise {error.__name__}")

    return make


# A call of each form, with a result of each size, and without a result.
CALLS: list[Callable[[], object]] = [
    lambda: osbytes.escape("a" * 100), lambda: osbytes.escape(b"a" * 5000), lambda: osbytes.escape(b"\xff\\"),
    lambda: osbytes.shell_quote("a b" * 2000), lambda: osbytes.shell_join(["a"] * 64), lambda: osbytes.shell_join(["a" * 100] * 64),
    lambda: osbytes.shell_join(["a"] * 65), lambda: osbytes.windows_command_line("a", ["b"] * 5),
    lambda: osbytes.path_join("a" * 5000, "b"), lambda: osbytes.path_clean(b"a/../b"), lambda: osbytes.path_relative("/a", "b"),
    lambda: osbytes.path_components("a/b" * 60), lambda: osbytes.path_components(b"a/b" * 200), lambda: osbytes.path_parent("/"),
    lambda: osbytes.path_strip_prefix("a/b", "a"), lambda: osbytes.path_has_root("a"), lambda: osbytes.path_starts_with("a/b", "a"),
    lambda: osbytes.split(b"a,b" * 300, ","), lambda: osbytes.find(b"abc", "c"), lambda: osbytes.compare(b"a", b"b"),
    lambda: osbytes.contains(b"abc", b"d"), lambda: osbytes.is_string(b"\xff", WINDOWS), lambda: osbytes.path_convert("a/b", to=WINDOWS),
    refused(lambda: osbytes.check(b"\xff", WINDOWS), FaultError), refused(lambda: osbytes.shell_quote("a\0"), NulError),
    refused(lambda: osbytes.split("a", ","), TypeError), refused(lambda: osbytes.shell_join(["a"] * 100 + [b"b" * len(PATTERNS)]), TypeError),
    lambda: osbytes.windows_command_line("a" * 3000, ["b"] * 2000), lambda: GLOBS.matches(["a"] * 100),
    lambda: IGNORE.matched(["a"] * 100), lambda: osbytes.rsplit(b"a,b", ","), made_set, made_files, walked, checked,
    lambda: osbytes.from_units([0x20AC] * 3000), lambda: osbytes.to_units("a" * 3000), lambda: osbytes.unescape("\\xFF" * 2000),
    lambda: osbytes.shell_words("a b " * 2000), lambda: osbytes.windows_arguments("a b " * 2000), lambda: osbytes.powershell_quote("'" * 3000),
    lambda: osbytes.windows_quote(b"a b" * 2000), lambda: osbytes.encode("\udcff" * 300), lambda: osbytes.decode(b"\xff" * 300),
    lambda: osbytes.path_parent(Named()), lambda: IGNORE.verdict("a/b"), lambda: osbytes.split(b"a,b,c" * 100, ",", 5),
    refused(lambda: osbytes.find(b"a", "\ud800"), osbytes.PatternError), refused(lambda: osbytes.shell_join(["a", "\ud800" * 100]), FaultError),
    refused(lambda: GlobSet(["a" * 100, "[" * 100]), osbytes.GlobError), refused(lambda: osbytes.path_join("a" * 100, b"b" * 100), TypeError),
]  # fmt: skip


def again(call: Callable[[], object], times: int) -> None:
    for _ in range(times):
        call()
    gc.collect()


def greatest() -> int:
    """Returns the bytes of memory that the process has had at once."""
    return 1024 * resource.getrusage(resource.RUSAGE_SELF).ru_maxrss


class Sizes(unittest.TestCase):
    def test_lists(self) -> None:
        for count in COUNTS:
            for name in ("a", b"a"):
                self.assertEqual(osbytes.shell_join([name] * count), (" " if name == "a" else b" ").join([name] * count) or "")
            self.assertEqual(osbytes.windows_command_line("a", ["b"] * count), '"a"' + " b" * count)
            self.assertEqual(osbytes.split(b",".join([b"a"] * (count + 1)), ","), [b"a"] * (count + 1))
            for name, separator in (("a", "/"), (b"a", b"/")):
                parts = osbytes.path_components(separator.join([name] * count))
                self.assertEqual([tuple(part) for part in parts], [(osbytes.Kind.NAME, name)] * count)
                self.assertEqual(GLOBS.matches([name] * count), [True] * count)
                self.assertEqual([tuple(verdict) for verdict in IGNORE.matched([name] * count)], [(1, 1, 0)] * count)

    def test_results(self) -> None:
        for size in LENS:
            text = "a" * size
            for string in (text, text.encode()):
                end = "/b" if string == text else b"/b"
                self.assertEqual(osbytes.escape(string), text)
                self.assertEqual(osbytes.path_clean(string), string)
                self.assertEqual(osbytes.path_join(string[:-2], end[1:]), string[:-2] + end)
                self.assertEqual(osbytes.shell_quote(string), string)
                self.assertEqual(osbytes.path_parent(string + end), string)
                self.assertEqual(osbytes.shell_join([string[:-2], end[1:]]), string[:-2] + (" b" if end == "/b" else b" b"))
            self.assertEqual(osbytes.windows_command_line(text[:-2]), f'"{text[:-2]}"')
            self.assertEqual(osbytes.find(text.encode() + b"b", "b"), size)
            self.assertIs(GlobSet(["a*b"]).is_match(text + "b"), True)
            self.assertIs(Ignore("a*b").is_ignored(text + "b"), True)
            self.assertEqual(osbytes.from_units([0x20AC] * size), "\u20ac".encode() * size)
            self.assertEqual(osbytes.to_units(text), [ord("a")] * size)
            self.assertEqual(osbytes.unescape(text), text.encode())
            self.assertEqual(len(list(osbytes.symbols(text))), size)
            self.assertEqual(osbytes.shell_words(text), [text])
            self.assertEqual(osbytes.windows_arguments(text), [text])


class Leaks(unittest.TestCase):
    def assert_none(self, call: Callable[[], object], count: Callable[[], int], times: int, most: int) -> None:
        """Asserts that a call leaves nothing behind, by what a function counts before and after it is made again and again."""
        again(call, 50)
        before = count()
        again(call, times)
        self.assertLess(count() - before, most, call.__code__)

    def test_memory_of_python(self) -> None:
        tracemalloc.start()
        self.addCleanup(tracemalloc.stop)
        for call in CALLS:
            self.assert_none(call, lambda: tracemalloc.get_traced_memory()[0], 200, 4000)

    def test_memory_of_sets(self) -> None:
        """A set of 400 patterns has more than 40,000 bytes, and ignore files of as many lines, too."""
        for call in (made_set, made_files):
            self.assert_none(call, greatest, 300, 6 << 20)

    @unittest.skipUnless(hasattr(sys, "gettotalrefcount"), "this interpreter counts no references")
    def test_references(self) -> None:
        for call in CALLS:
            self.assert_none(call, getattr(sys, "gettotalrefcount"), 150, 60)


if __name__ == "__main__":
    unittest.main()

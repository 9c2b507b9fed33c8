"""Runs CPython's own tests of paths, patterns and words of a shell on the package: python cpython.py [--list]

The tests are those of the interpreter's package `test`, which are loaded, not copied: test_pathlib on `UnixPath` and
`WindowsPath`, and test_posixpath, test_ntpath, test_fnmatch and test_shlex with the package's calls in the places of those
that they are about. Each assertion counts for itself, and a test goes on after one that fails. What fails must be what
cpython-failures.tsv lists: the suite, the test, the line of it, what was raised, and the reason why it is meant. The list is for
one version of Python, and by another, or without those tests, nothing is run and a line reports that. With --list what fails is
printed as rows of the list, with the reasons that it has. The status is 1 if the list differs.
"""

from __future__ import annotations

import importlib
import io
import ntpath
import pathlib
import posixpath
import re
import shlex
import sys
import traceback
import unittest
from collections import Counter
from pathlib import Path
from types import ModuleType, SimpleNamespace
from typing import Any, Callable, Iterator

import osbytes
from osbytes import UNIX, WINDOWS, Glob, Platform

ROWS = Path(__file__).with_name("cpython-failures.tsv")
VERSION = (3, 11)
ASSERTIONS = [name for name in dir(unittest.TestCase) if re.fullmatch(r"assert[A-Z]\w+", name)]
# An address in a message.
ADDRESS = re.compile(r" at 0x[0-9a-f]+")

Row = tuple[str, str, str, str]


class Asked:
    """What was asked, and what failed."""

    def __init__(self) -> None:
        self.count = 0
        self.failed: dict[Row, None] = {}

    def fail(self, suite: str, test: str, line: str, why: str) -> None:
        words = (suite, test, line, ADDRESS.sub("", why))
        self.failed[tuple(" ".join(it.split())[:160] for it in words)] = None  # type: ignore[index]


def soft(asked: Asked, suite: str) -> dict[str, Any]:
    """Returns the assertions of a suite, which note that they fail and go on."""

    def of(name: str) -> Callable[..., Any]:
        hard = getattr(unittest.TestCase, name)

        def assertion(self: unittest.TestCase, *given: Any, **named: Any) -> Any:
            asked.count += 1
            try:
                return hard(self, *given, **named)
            except Exception as why:
                own = [at for at in traceback.extract_stack() if "/test/test_" in at.filename][-1]
                asked.fail(suite, self._testMethodName, own.line or "", f"{type(why).__name__}: {str(why).partition(chr(10))[0]}")

        return assertion

    return {name: of(name) for name in ASSERTIONS}


def run(asked: Asked, suite: str, cases: list[type[unittest.TestCase]], names: str, more: dict[str, Any]) -> None:
    """Runs the tests of these cases whose names match."""
    tests = unittest.TestSuite()
    for case in cases:
        made = type(case.__name__, (case,), {**soft(asked, suite), **more})
        tests.addTests(test for test in unittest.defaultTestLoader.loadTestsFromTestCase(made) if re.search(names, test.id()))
    ended = unittest.TextTestRunner(stream=io.StringIO(), verbosity=0).run(tests)
    for test, said in ended.failures + ended.errors:
        lines = said.strip().splitlines()
        own = [lines[at + 1].strip() for at, line in enumerate(lines[:-1]) if "/test/test_" in line]
        asked.fail(suite, getattr(test, "_testMethodName", str(test)), own[-1] if own else "", f"ends: {lines[-1]}")


def replaced(module: ModuleType, **calls: Any) -> Any:
    """Returns the names of a module, with these calls in the places of its own."""
    return SimpleNamespace(**{**vars(module), **calls})


def joining(platform: Platform) -> Callable[..., Any]:
    def join(path: Any, *more: Any) -> Any:
        for it in more:
            path = osbytes.path_join(path, it, platform)
        return path

    return join


def relpath(path: Any, start: Any = None) -> Any:
    if not path:
        raise ValueError("no path specified")
    here = path[:0] + ("." if isinstance(path, str) else b".")
    whole = [osbytes.path_clean(posixpath.abspath(it)) for it in (path, here if start is None else start)]
    return osbytes.path_relative(*whole) or here


def splitdrive(path: Any) -> Any:
    drive = osbytes.path_prefix(path, WINDOWS) or path[:0]
    return drive, path[len(drive) :]


def split(line: Any, comments: bool = False, posix: bool = True) -> list[Any]:
    if line is None:
        raise ValueError
    return osbytes.shell_words(line, specials=True) if posix and not comments else shlex.split(line, comments, posix)


def ask(asked: Asked) -> None:
    """Runs the tests."""
    of = {name: importlib.import_module(f"test.test_{name}") for name in ("pathlib", "posixpath", "ntpath", "fnmatch", "shlex")}
    for case, path, flavour in (
        (of["pathlib"].PurePosixPathTest, osbytes.UnixPath, pathlib._posix_flavour),  # type: ignore[attr-defined]
        (of["pathlib"].PureWindowsPathTest, osbytes.WindowsPath, pathlib._windows_flavour),  # type: ignore[attr-defined]
    ):
        # the tests read the separators there, and the classes by their names here
        path._flavour = flavour  # type: ignore[attr-defined]
        setattr(pathlib, path.__name__, path)
        run(asked, "pathlib", [case], "", {"cls": path})
    unix = {"join": joining(UNIX), "normpath": osbytes.path_clean, "isabs": osbytes.path_is_absolute, "relpath": relpath}
    of["posixpath"].posixpath = replaced(posixpath, **unix)
    run(asked, "posixpath", [of["posixpath"].PosixPathTest], "join|normpath|isabs|relpath", {})
    windows: dict[str, Any] = {
        "join": joining(WINDOWS),
        "normpath": lambda path: osbytes.path_clean(path, WINDOWS),
        "isabs": lambda path: osbytes.path_is_absolute(path, WINDOWS),
        "splitdrive": splitdrive,
    }
    of["ntpath"].ntpath = replaced(ntpath, **windows)
    of["ntpath"].tester = table_of_ntpath(asked, of["ntpath"].tester)
    run(asked, "ntpath", [of["ntpath"].TestNtpath], "test_(join|normpath|isabs|splitdrive)", {})
    is_match: Callable[[Any, Any], bool] = lambda name, pattern: Glob(pattern, 0).is_match(name)
    of["fnmatch"].fnmatch = of["fnmatch"].fnmatchcase = is_match
    of["fnmatch"].filter = lambda names, pattern: [name for name in names if is_match(name, pattern)]
    run(asked, "fnmatch", [of["fnmatch"].FnmatchTestCase, of["fnmatch"].FilterTestCase], "", {})
    of["shlex"].shlex = replaced(shlex, quote=osbytes.shell_quote, join=osbytes.shell_join, split=split)
    run(asked, "shlex", [of["shlex"].ShlexTest], "Quote|Join|Split(Posix|$)", {})


def table_of_ntpath(asked: Asked, tester: Callable[[str, object], None]) -> Callable[[str, object], None]:
    """Returns the function by which test_ntpath compares a call, given as a text, with a value."""

    def compare(call: str, wanted: object) -> None:
        asked.count += 1
        try:
            tester(call, wanted)
        except Exception as why:
            test = next(at.name for at in traceback.extract_stack() if at.name.startswith("test_"))
            asked.fail("ntpath", test, call, str(why).replace("\n", " ").removeprefix(f"{call} "))

    return compare


def listed() -> dict[Row, str]:
    """Returns the rows of the list, and the reason of each."""
    found = {}
    for line in ROWS.read_text(encoding="utf-8").splitlines():
        if not line.startswith("#"):
            suite, test, at, why, reason = line.split("\t")
            found[suite, test, at, why] = reason
    return found


def differences(failed: dict[Row, None], meant: dict[Row, str]) -> Iterator[str]:
    yield from (f"fails, and isn't listed: {' | '.join(row)}" for row in failed if row not in meant)
    yield from (f"is listed, and doesn't fail: {' | '.join(row)}" for row in meant if row not in failed)
    yield from (f"has no reason: {' | '.join(row)}" for row, reason in meant.items() if not reason.strip())


def main(words: list[str]) -> int:
    if sys.version_info[:2] != VERSION:
        print(f"cpython.py: left out, since this isn't Python {VERSION[0]}.{VERSION[1]}: CPython's own tests")
        return 0
    asked, meant = Asked(), listed()
    try:
        ask(asked)
    except ImportError as why:
        print(f"cpython.py: left out, since there is no {why.name}: CPython's own tests")
        return 0
    if words == ["--list"]:
        for row in asked.failed:
            print(*row, meant.get(row, ""), sep="\t")
        return 0
    found = list(differences(asked.failed, meant))
    print(*found, sep="\n", end="\n" if found else "")
    suites = ", ".join(f"{suite} {count}" for suite, count in Counter(row[0] for row in asked.failed).items())
    print(f"CPython's own tests: {asked.count} assertions, {len(asked.failed)} meant to fail: {suites}" if not found else "CPython's own tests: FAILED")
    return 1 if found else 0


if __name__ == "__main__":
    sys.exit(main(sys.argv[1:]))

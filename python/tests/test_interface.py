"""Tests of what the package's calls take, return and raise: python test_interface.py"""

from __future__ import annotations

import copy
import importlib
import inspect
import ntpath
import os
import pickle
import random
import subprocess
import sys
import unittest
from concurrent.futures import ProcessPoolExecutor
from pathlib import Path, PurePosixPath, PureWindowsPath
from tempfile import TemporaryDirectory
from typing import Any, Callable

import osbytes
from osbytes import UNIX, WASM, WINDOWS, Glob, GlobFlag, GlobSet, Ignore, NulError, OsBytesError, Options, PatternError

HUGE = (2**64, 2**64 + 1, 2**200, -(2**64))


def refusals() -> dict[type[OsBytesError], Callable[[], object]]:
    """Returns a call for each exception, which raises it."""

    def unexpected() -> None:
        options = Options(["-v=1"])
        next(options)
        next(options)

    return {
        osbytes.FaultError: lambda: osbytes.check(b"ab\xff", WASM),
        osbytes.PatternError: lambda: osbytes.find(b"a", b"b\xff"),
        osbytes.BadEscapeError: lambda: osbytes.unescape("\u00e9\\q"),
        osbytes.NoStringError: lambda: osbytes.unescape("\\x61"),
        osbytes.JoinError: lambda: osbytes.path_join_checked("/srv", "../a"),
        osbytes.ConvertError: lambda: osbytes.path_convert("/a/b\\c", to=WINDOWS),
        osbytes.ExtensionError: lambda: osbytes.path_with_extension("a", "b/c"),
        osbytes.GlobError: lambda: GlobSet(["a", "\u00e9[c"]),
        osbytes.NulError: lambda: osbytes.shell_join(["a", "\u00e9\0"]),
        osbytes.QuoteError: lambda: osbytes.windows_command_line('\u00e9"b'),
        osbytes.UnexpectedValueError: unexpected,
        osbytes.MissingValueError: lambda: Options([]).value(),
        osbytes.LineError: lambda: osbytes.shell_words("\u00e9 $b"),
    }


def raised(call: Callable[[], object]) -> Exception:
    try:
        call()
    except Exception as error:
        return error
    raise AssertionError("nothing was raised")


def raise_in_worker(name: str) -> None:
    next(call for error, call in refusals().items() if error.__name__ == name)()


def attributes(error: BaseException) -> tuple[object, ...]:
    return type(error), str(error), error.__dict__


class WrongAnswers(unittest.TestCase):
    """What once gave a wrong result without an error."""

    def test_patterns_of_bytes(self) -> None:
        self.assertEqual((osbytes.find(b"a.b", b"."), osbytes.rfind(b"a.b.", b".")), (1, 3))
        self.assertTrue(osbytes.contains(b"a.b", b"."))
        self.assertEqual(osbytes.split(b"a.b", b"."), [b"a", b"b"])
        for call in (osbytes.find, osbytes.rfind, osbytes.contains, osbytes.split, osbytes.rsplit):
            for pattern in (b"\xff", b"a\xff"):
                with self.assertRaises(PatternError) as refused:
                    call(b"a\xffb", pattern)
                self.assertEqual(refused.exception.index, len(pattern) - 1)
            with self.assertRaises(PatternError):
                call(b"a", "\ud83d")
            for wrong in (1, None, bytearray(b".")):
                self.assertRaises(TypeError, call, b"a.b", wrong)
                self.assertRaises(TypeError, call, wrong, ".")

    def test_unknown_platforms(self) -> None:
        calls: list[Callable[[Any], object]] = [
            lambda of: osbytes.is_string(b"x", of),
            lambda of: osbytes.check(b"x", of),
            lambda of: osbytes.encode(b"x", of),
            lambda of: osbytes.decode(b"x", of),
            lambda of: osbytes.escape("x", of),
            lambda of: osbytes.display(b"x", of),
            lambda of: osbytes.unescape("x", of),
            lambda of: osbytes.starts_with("x", "x", of),
            lambda of: osbytes.symbols("x", of),
            lambda of: osbytes.path_has_root("/x", of),
            lambda of: osbytes.path_parent("/x", of),
            lambda of: osbytes.path_components("/x", of),
            lambda of: osbytes.path_join("/x", "y", of),
            lambda of: osbytes.path_clean("/x", of),
            lambda of: osbytes.path_starts_with("/x", "/", of),
            lambda of: osbytes.path_join_checked("/x", "y", of),
            lambda of: osbytes.path_convert("/x", to=of),
            lambda of: osbytes.path_convert("/x", to=UNIX, platform=of),
            lambda of: Glob("x", platform=of),
            lambda of: Options(["x"], of),
        ]
        for call in calls:
            for unknown in (3, 7, -1, *HUGE):
                self.assertRaises(ValueError, call, unknown)
            for wrong in ("unix", None, True, 1.0, b""):
                self.assertRaises(TypeError, call, wrong)
            call(0)
            call(UNIX)

    def test_one_string_for_a_list(self) -> None:
        calls: list[Callable[[Any], object]] = [
            GlobSet,
            Options,
            osbytes.shell_join,
            Glob("a").matches,
            Ignore("a").matched,
            osbytes.from_units,
            lambda wrong: osbytes.windows_command_line("E", wrong),
        ]
        for call in calls:
            for wrong in ("*.c", b"*.c", bytearray(b"*"), Path("a")):
                self.assertRaises(TypeError, call, wrong)
            self.assertRaises(TypeError, call, [None])
            self.assertRaises(TypeError, call, None)

    def test_ignore_files(self) -> None:
        with TemporaryDirectory() as top:
            file = Path(top, ".gitignore")
            file.write_bytes(b"build/\n\xff\n")
            for given in (file, str(file), os.fsencode(file)):
                ignore = Ignore.read(given)
                self.assertTrue(ignore.is_ignored("build/x.c"))
                self.assertTrue(ignore.is_ignored(b"\xff"))
        self.assertEqual(Ignore(text="a").verdict("a"), (1, 1, 0))
        self.assertRaises(TypeError, Ignore, Path("a"))
        self.assertRaises(OSError, Ignore.read, "/none/.gitignore")
        ignore = Ignore("/a.o\nd/\n")
        self.assertTrue(ignore.is_ignored("./a.o") and ignore.is_ignored(".//./a.o") and ignore.is_ignored(Path("a.o")))
        self.assertTrue(ignore.is_ignored("d", is_dir=True) and not ignore.is_ignored("d") and not ignore.is_ignored("."))
        with self.assertRaises(NulError) as refused:
            ignore.matched(["a", "\u00e9\0"])
        self.assertEqual((refused.exception.which, refused.exception.index), (1, 1))

    def test_several_ignore_files(self) -> None:
        ignore = Ignore("*.o\n!b.o\n")
        ignore.add(b"!a.o\nx\n", "sub")
        for made in (ignore, copy.copy(ignore), pickle.loads(pickle.dumps(ignore))):
            self.assertEqual(made.verdict("a.o"), (1, 1, 0))
            self.assertEqual(made.verdict("sub/a.o"), (2, 1, 1))
            self.assertEqual(made.verdict("./sub/x"), (1, 2, 1))
            self.assertEqual(made.verdict("x"), (0, 0, 0))
            ignored = [path for path in ("a.o", "sub/a.o", "sub/x", "x", "b.o") if made.is_ignored(path)]
            self.assertEqual(ignored, ["a.o", "sub/x"])
        self.assertFalse(Ignore().is_ignored("a"))

    def test_integers(self) -> None:
        for number in HUGE:
            self.assertFalse(osbytes.is_boundary(b"ab", number))
            self.assertRaises(OverflowError, osbytes.from_units, [number])
            self.assertRaises(ValueError, GlobSet, ["a"], number)
        self.assertEqual([osbytes.is_boundary(b"ab", at) for at in (-1, 0, 1, 2, 3)], [False, True, True, True, False])
        for flags in (64, -1, 2**32, 2**32 + 1):
            self.assertRaises(ValueError, GlobSet, ["a"], flags)
        for wrong in ("1", 1.0, None):
            self.assertRaises(TypeError, osbytes.is_boundary, b"ab", wrong)
        for wrong in ("1", 1.0, True):
            self.assertRaises(TypeError, GlobSet, ["a"], wrong)
        for call in (osbytes.split, osbytes.rsplit):
            self.assertRaises(TypeError, call, b"a,b", ",", "1")
            self.assertEqual(call(b"a,b,c", ",", 2**70), [b"a", b"b", b"c"])
            self.assertEqual(call(b"a,b,c", ",", -5), [b"a", b"b", b"c"])

    def test_rsplit(self) -> None:
        self.assertEqual(osbytes.rsplit(b"a,b,c", ","), [b"a", b"b", b"c"])
        self.assertEqual(osbytes.rsplit(b"a,b,c", ",", 1), [b"a,b", b"c"])
        self.assertEqual(osbytes.split(b"a,b,c", ",", maxsplit=1), [b"a", b"b,c"])
        many = b",".join(b"%d" % number for number in range(3000))
        for most in (0, 15, 16, 17, 600, 2999, 3000, 5000):
            self.assertEqual(osbytes.split(many, ",", most), many.split(b",", most))
            self.assertEqual(osbytes.rsplit(many, ",", most), many.rsplit(b",", most))

    def test_platforms_by_keyword(self) -> None:
        self.assertRaises(TypeError, osbytes.path_convert, "a", WINDOWS)
        self.assertEqual(osbytes.path_convert("a\\b", platform=WINDOWS, to=UNIX), "a/b")

    def test_eager_errors(self) -> None:
        self.assertRaises(osbytes.FaultError, osbytes.symbols, b"\xff", WASM)
        self.assertRaises(TypeError, osbytes.symbols, None)
        self.assertRaises(TypeError, osbytes.chunks, "a")


class Errors(unittest.TestCase):
    def test_every_exception_is_listed(self) -> None:
        named = {getattr(osbytes, name) for name in osbytes.__all__}
        errors = {it for it in named if isinstance(it, type) and issubclass(it, Exception)} - {OsBytesError}
        self.assertEqual(errors, set(refusals()))
        for error in errors:
            self.assertTrue(issubclass(error, OsBytesError) and issubclass(error, ValueError))
            self.assertTrue(inspect.getdoc(error))

    def test_copies(self) -> None:
        for kind, call in refusals().items():
            error = raised(call)
            self.assertIs(type(error), kind)
            self.assertTrue(str(error))
            self.assertTrue(hasattr(error, "index") and hasattr(error, "which"))
            for made in (copy.copy(error), copy.deepcopy(error), *(pickle.loads(pickle.dumps(error, way)) for way in range(6))):
                self.assertEqual(attributes(made), attributes(error))

    def test_process_pools(self) -> None:
        with ProcessPoolExecutor(1) as pool:
            for kind, call in refusals().items():
                error = pool.submit(raise_in_worker, kind.__name__).exception()
                assert error is not None
                self.assertEqual(attributes(error)[:2], attributes(raised(call))[:2])
            self.assertEqual(pool.submit(osbytes.shell_quote, "a b").result(), "'a b'")

    def test_attributes(self) -> None:
        """Indices are those of the argument: characters of a `str`, bytes of `bytes`."""
        wanted = {
            osbytes.FaultError: (2, None),
            osbytes.PatternError: (1, None),
            osbytes.BadEscapeError: (1, None),
            osbytes.GlobError: (1, 1),
            osbytes.NulError: (1, 1),
            osbytes.QuoteError: (1, None),
            osbytes.LineError: (2, None),
        }
        for kind, call in refusals().items():
            error: Any = raised(call)
            self.assertEqual((error.index, error.which), wanted.get(kind, (None, None)), kind)
        of_bytes: list[tuple[Callable[[], object], int, int | None]] = [
            (lambda: osbytes.shell_join([b"a", b"\xc3\xa9\0"]), 2, 1),
            (lambda: osbytes.shell_quote(b"\xc3\xa9\0"), 2, None),
            (lambda: osbytes.shell_words(b"\xc3\xa9 $b"), 3, None),
            (lambda: GlobSet([b"a", b"\xc3\xa9[c"]), 2, 1),
            (lambda: GlobSet([b"a", b"\xc3\xa9\0"]), 2, 1),
            (lambda: osbytes.windows_command_line(b"E", [b"\xc3\xa9\0"]), 2, 1),
            (lambda: osbytes.windows_command_line(b"E", [b"a", b"\xff"]), 0, 2),
            (lambda: osbytes.windows_quote("\u00e9\0"), 1, None),
            (lambda: osbytes.powershell_quote("\u00e9\ud83d"), 1, None),
            (lambda: osbytes.encode("a\ud83d"), 1, None),
            (lambda: osbytes.encode("\u00e9\udcff", WASM), 1, None),
            (lambda: osbytes.symbols("\u00e9\udcff", WASM), 1, None),
            (lambda: Glob("a").matches(["a", "\u00e9\0"]), 1, 1),
            (lambda: Glob("a", platform=WASM).matches([b"a", b"b\xff"]), 1, 1),
            (lambda: Glob("a").is_match("\u00e9\0"), 1, None),
        ]
        for call, index, which in of_bytes:
            error = raised(call)
            self.assertIsInstance(error, OsBytesError)
            self.assertEqual((error.index, error.which), (index, which), str(error))

    def test_texts(self) -> None:
        """The texts are the library's own, or name what is wrong."""
        for kind, call in refusals().items():
            self.assertNotRegex(str(raised(call)), r"status \d|refuses it|_")

    def test_wrong_types(self) -> None:
        """A wrong type is a `TypeError`, and never another exception."""
        of_names = [
            name for name in osbytes.__all__ if name.startswith(("path_", "shell_", "windows_", "fish", "power", "display", "escape"))
        ]
        of_bytes = ["check", "is_string", "chunks"]
        of_text = ["unescape", "unescape_line"]
        for name in [*of_names, *of_bytes, *of_text, "encode", "decode", "to_units", "symbols"]:
            call = getattr(osbytes, name)
            needed = [it for it in inspect.signature(call).parameters.values() if it.default is it.empty and it.name != "to"]
            more = {"to": UNIX} if name == "path_convert" else {}
            for wrong in (None, 1, 1.5, bytearray(b"a"), memoryview(b"a"), ["a", 1], object()):
                with self.assertRaises(TypeError, msg=(name, wrong)):
                    call(*[wrong] * len(needed), **more)
        for name in of_bytes:
            self.assertRaises(TypeError, getattr(osbytes, name), "a")
        for name in of_text:
            self.assertRaises(TypeError, getattr(osbytes, name), b"a")
        for call in (osbytes.compare, osbytes.is_boundary):
            self.assertRaises(TypeError, call, "a", "b")
        for wrong in (None, 1, ["a"]):
            self.assertRaises(TypeError, Glob, wrong)
            self.assertRaises(TypeError, Ignore().add, wrong)
            self.assertRaises(TypeError, Glob("a").is_match, wrong)
            self.assertRaises(TypeError, osbytes.Checker().feed, wrong)
        self.assertRaises(TypeError, osbytes.Checker().feed, "a")


class Types(unittest.TestCase):
    """A `str` gives a `str`, `bytes` give `bytes`, and a path object what its `__fspath__` returns."""

    def calls(self) -> list[Callable[[Any, Any], Any]]:
        return [
            lambda a, b: osbytes.path_parent(a),
            lambda a, b: osbytes.path_file_name(a),
            lambda a, b: osbytes.path_file_stem(a),
            lambda a, b: osbytes.path_extension(a),
            lambda a, b: osbytes.path_strip_prefix(a, b),
            lambda a, b: osbytes.path_relative(a, b),
            lambda a, b: osbytes.path_join(a, b),
            lambda a, b: osbytes.path_join_checked(b, b),
            lambda a, b: osbytes.path_normalize(a),
            lambda a, b: osbytes.path_clean(a),
            lambda a, b: osbytes.path_convert(a, to=WINDOWS),
            lambda a, b: osbytes.path_with_file_name(a, b),
            lambda a, b: osbytes.path_with_extension(a, b),
            lambda a, b: osbytes.path_with_added_extension(a, b),
            lambda a, b: osbytes.path_components(a)[-1].text,
            *(lambda a, b, quote=quote: quote(a) for name, quote in vars(osbytes).items() if name.startswith(("shell_quote", "fish_quote"))),
            lambda a, b: osbytes.shell_join([a, b]),
            lambda a, b: osbytes.shell_words(b)[0],
            lambda a, b: osbytes.windows_quote(b),
            lambda a, b: osbytes.windows_command_line(b, [a]),
            lambda a, b: osbytes.windows_arguments(b)[0],
            lambda a, b: next(Options([a, b])).text,
        ]

    def test_types(self) -> None:
        for call in self.calls():
            of_str = call("a/x.txt", "a")
            self.assertIs(type(of_str), str)
            self.assertEqual(call(b"a/x.txt", b"a"), of_str.encode())
            self.assertEqual(call(PurePosixPath("a/x.txt"), PurePosixPath("a")), of_str)
            self.assertEqual(call(osbytes.UnixPath("a/x.txt"), "a"), of_str)
            long = "b" * 9000
            self.assertEqual(call(f"a/{long}.txt".encode(), b"a"), call(f"a/{long}.txt", "a").encode())

    def test_names_that_are_not_text(self) -> None:
        self.assertEqual(osbytes.path_join("a\udcff", "b"), "a\udcff/b")
        self.assertEqual(osbytes.path_parent("\udcff/b"), "\udcff")
        self.assertEqual(osbytes.shell_quote("\udcff"), "'\udcff'")
        self.assertEqual(osbytes.path_file_name("C:\\\ud83d.txt", WINDOWS), "\ud83d.txt")
        self.assertEqual(osbytes.path_join("a", "\ud83d", WINDOWS), "a\\\ud83d")
        self.assertEqual(osbytes.windows_arguments(osbytes.windows_command_line("E", ["\ud83d x"])), ["E", "\ud83d x"])
        self.assertEqual(osbytes.shell_words("'\udcff'"), ["\udcff"])
        # the halves of a pair are one character
        self.assertEqual(osbytes.path_join("a", "\ud83d\ude00", WINDOWS), "a\\\U0001f600")

    def test_mixed_types(self) -> None:
        calls: list[Callable[[Any, Any], object]] = [
            osbytes.path_join,
            osbytes.path_join_checked,
            osbytes.path_relative,
            osbytes.path_strip_prefix,
            osbytes.path_starts_with,
            osbytes.path_ends_with,
            osbytes.path_with_file_name,
            osbytes.path_with_extension,
            osbytes.starts_with,
            osbytes.ends_with,
            lambda a, b: osbytes.shell_join([a, b]),
            lambda a, b: osbytes.windows_command_line(a, [b]),
            lambda a, b: Options([a, b]),
        ]
        for call in calls:
            self.assertRaises(TypeError, call, "a", b"a")
            self.assertRaises(TypeError, call, b"a", "a")
            call("a", "a")
            call(b"a", b"a")

    def test_nothing(self) -> None:
        self.assertEqual(osbytes.shell_join([]), "")
        self.assertEqual(osbytes.path_join("", ""), "")
        self.assertEqual(osbytes.path_join(b"", b""), b"")
        self.assertEqual(osbytes.escape(""), "")
        self.assertEqual(list(Options([])), [])

    def test_shown(self) -> None:
        self.assertEqual(osbytes.__version__, osbytes.version())
        self.assertEqual(repr(Ignore("a\n", "b")), "<Ignore of [(b'a\\n', b'b')]>")
        self.assertEqual(repr(osbytes.path_components("a")[0]), f"Component({osbytes.Kind.NAME!r}, 'a')")
        self.assertTrue(repr(GlobSet(["*.c", "*.h"])).startswith("GlobSet([b'*.c', b'*.h'], "))
        self.assertTrue(repr(Glob("*.c")).startswith("Glob(b'*.c', "))
        kind, text = osbytes.path_components("a")[0]
        self.assertEqual((kind, text), (osbytes.Kind.NAME, "a"))


class Objects(unittest.TestCase):
    def test_sets(self) -> None:
        globs = GlobSet(["*.c", "A?"], GlobFlag.SLASH | GlobFlag.ANY_CASE)
        for made in (globs, copy.copy(globs), copy.deepcopy(globs), pickle.loads(pickle.dumps(globs))):
            self.assertEqual(made.matches(["a.C", "ab", "b"]), [True, True, False])
            self.assertEqual([made.is_match(path) for path in ("a.C", "ab", "b", Path("x.c"))], [True, True, False, True])
            self.assertEqual(repr(made), repr(globs))
        glob = pickle.loads(pickle.dumps(Glob("*.c", platform=WINDOWS)))
        self.assertEqual((type(glob), glob.is_match("a.c"), glob.is_match("b\\a.c")), (Glob, True, False))

    def test_options(self) -> None:
        options = Options(["-a", "b", "-c"])
        next(options)
        other = copy.deepcopy(options)
        self.assertEqual([option.text for option in options], ["b", "c"])
        self.assertEqual([option.text for option in other], ["b", "c"])


class Interpreters(unittest.TestCase):
    def test_another(self) -> None:
        """The package works in another interpreter of the process, beside this one and after it has ended."""
        try:
            interpreters: Any = importlib.import_module("_interpreters" if sys.version_info >= (3, 13) else "_xxsubinterpreters")
        except ImportError:
            self.skipTest("this Python makes no other interpreter")
        code = f"""import sys
sys.path[:] = {sys.path!r}
import osbytes
assert osbytes.shell_join(["a b", "c"] * 50) == " ".join(["'a b' c"] * 50)
try:
    osbytes.shell_quote("a\\0")
except osbytes.NulError as error:
    assert error.index == 1
osbytes.UnixPath("a") / "\\udcff", osbytes.GlobSet(["*"]).matches(["a"]), list(osbytes.symbols(b"\\xff"))
"""
        for _ in range(3):
            one = interpreters.create()
            self.assertIsNone(interpreters.run_string(one, code))
            self.assertEqual(osbytes.shell_quote("a b"), "'a b'")
            interpreters.destroy(one)


def without_current(path: str, platform: osbytes.Platform) -> list[Any]:
    """Returns the components of a path, without a `.` that it begins with."""
    parts = [part for part in osbytes.path_components(path, platform)]
    if parts and parts[0].kind == osbytes.Kind.CURRENT:
        parts = parts[1:]
    slash = "\\" if platform == WINDOWS else "/"
    roots = {osbytes.Kind.ROOT: slash}
    return [(kind, roots.get(kind) or (text.replace("/", slash) if kind == osbytes.Kind.PREFIX else text)) for kind, text in parts]


class Paths(unittest.TestCase):
    def made_up(self, pieces: list[str], seed: int) -> list[str]:
        numbers = random.Random(seed)
        return ["".join(numbers.choice(pieces) for _ in range(numbers.randint(0, 7))) for _ in range(4000)]

    def test_beside_pathlib(self) -> None:
        unix = [path for path in self.made_up(["/", "/", "a", "b.txt", ".x", "..", ".", "x.tar.gz"], 1) if not path.startswith("//")]
        windows = self.made_up(["\\", "/", "a", "b.txt", ".x", "..", "x.tar.gz"], 2)
        windows = [f"{drive}{path}" for drive in ("", "C:") for path in windows if path[:2].replace("\\", "/") != "//"]
        for of, python, paths in ((osbytes.UnixPath, PurePosixPath, unix), (osbytes.WindowsPath, PureWindowsPath, windows)):
            for text, other in zip(paths, paths[1:]):
                path, wanted = of(text), python(text)
                self.assertEqual(str(path), str(wanted), text)
                self.assertEqual(os.fspath(path), os.fspath(wanted))
                self.assertEqual(path.parts, wanted.parts)
                self.assertEqual((path.drive, path.root, path.anchor), (wanted.drive, wanted.root, wanted.anchor))
                self.assertEqual(path.name, wanted.name)
                self.assertEqual(str(path.parent), str(wanted.parent))
                self.assertEqual([str(it) for it in path.parents], [str(it) for it in wanted.parents])
                self.assertEqual(path.is_absolute(), wanted.is_absolute())
                self.assertEqual(bytes(path), str(wanted).encode())
                if not path.name.endswith(".") and not path.name.startswith(".."):
                    self.assertEqual((path.suffix, path.stem), (wanted.suffix, wanted.stem), text)
                    if path.name:
                        self.assertEqual(str(path.with_suffix(".gz")), str(wanted.with_suffix(".gz")))
                        self.assertEqual(str(path.with_suffix("")), str(wanted.with_suffix("")))
                        self.assertEqual(str(path.with_stem("s")), str(wanted.with_stem("s")))
                if path.name:
                    self.assertEqual(str(path.with_name("n.x")), str(wanted.with_name("n.x")))
                if not python(other).drive or python(other).root:
                    self.assertEqual(str(path / other), str(wanted / other), (text, other))
                    self.assertEqual(str(path.joinpath(other, "c")), str(wanted.joinpath(other, "c")))
                for base in (other, *path.parents):
                    theirs = python(str(base))
                    if sys.version_info >= (3, 12) and theirs.drive and not theirs.root and wanted.root:
                        continue  # C:\\ is no longer below C: there
                    self.assertEqual(path.is_relative_to(base), wanted.is_relative_to(theirs), (text, base))
                    if wanted.is_relative_to(theirs):
                        self.assertEqual(str(path.relative_to(base)), str(wanted.relative_to(theirs)))
                    else:
                        self.assertRaises(ValueError, path.relative_to, base)
                self.assertEqual(path == of(other), wanted == python(other))
                if of is osbytes.UnixPath and path.root == of(other).root:
                    self.assertEqual(path < of(other), wanted < python(other))

    def test_suffix_beside_path_with_extension(self) -> None:
        pieces = ["/", "\\", ".", "..", "a", "C:", ":", "?", " ", "\u00e9", ".x", "\udcff"]
        numbers = random.Random(3)
        for of in (osbytes.UnixPath, osbytes.WindowsPath):
            for text, suffix in zip(self.made_up(pieces, 3), self.made_up(pieces, 4)):
                path, suffix = of(text), "." * numbers.randint(0, 1) + suffix
                if path.name in ("", "..") or (suffix and (suffix[0] != "." or suffix == ".")):
                    self.assertRaises(OsBytesError, path.with_suffix, suffix)
                    continue
                try:
                    wanted = of(osbytes.path_with_extension(str(path), suffix[1:], of.platform))
                except osbytes.ExtensionError as error:
                    with self.assertRaises(osbytes.ExtensionError) as raised:
                        path.with_suffix(suffix)
                    self.assertEqual(str(raised.exception), str(error))
                    continue
                made = path.with_suffix(suffix)
                self.assertEqual((made, str(made), made.parts), (wanted, str(wanted), wanted.parts), (text, suffix))

    def test_more_beside_pathlib(self) -> None:
        unix, windows = ["/", "/", "a", "b.txt", ".x", "x.tar.gz"], ["\\", "/", "a", "b.txt", ".x", "x.tar.gz", "nul", "C:", "a."]
        for of, python, pieces in ((osbytes.UnixPath, PurePosixPath, unix), (osbytes.WindowsPath, PureWindowsPath, windows)):
            patterns = self.made_up([*pieces, "*", "?", "**", "/**/"], 5)
            for text, pattern in zip(self.made_up(pieces, 4), patterns):
                path, wanted = of(text), python(text)
                if str(path) != str(wanted):
                    continue
                self.assertEqual(path.as_posix(), wanted.as_posix())
                if path.is_absolute():
                    self.assertEqual(path.as_uri(), wanted.as_uri())
                else:
                    self.assertRaises(ValueError, path.as_uri)
                if not path.name.endswith("."):
                    self.assertEqual(path.suffixes, wanted.suffixes, text)
                if of is osbytes.UnixPath:
                    self.assertIs(path.is_reserved(), False)
                elif sys.version_info >= (3, 13):
                    self.assertEqual(path.is_reserved(), ntpath.isreserved(text), text)
                own = of(pattern)
                if own.anchor or not own.parts or str(own) != str(python(pattern)):
                    continue
                if "**" in pattern and sys.version_info[:2] == (3, 12):
                    continue  # `match` reads it otherwise there
                if not wanted.anchor or len(own.parts) < len(path.parts):
                    self.assertEqual(path.match(pattern), wanted.match(pattern), (text, pattern))
                if path.parts and not wanted.anchor and hasattr(wanted, "full_match"):
                    self.assertEqual(path.full_match(pattern), wanted.full_match(pattern), (text, pattern))
        path = osbytes.UnixPath("/usr/lib/x.tar.gz")
        parents = path.parents
        self.assertEqual([str(it) for it in (parents[0], parents[-1], *parents[1:])], ["/usr/lib", "/", "/usr", "/"])
        self.assertRaises(IndexError, parents.__getitem__, 3)
        self.assertEqual((len(parents), repr(parents), path.parent in parents), (3, "<UnixPath.parents>", True))
        self.assertEqual(str(osbytes.UnixPath("a/" * 20_000).parents[-2]), "a")
        self.assertEqual([path.match(it) for it in ("*.gz", "lib/*", "/usr/*", "/usr/**/*", "*/lib/*")], [True, True, False, True, True])
        self.assertEqual([path.full_match(it) for it in ("*.gz", "/usr/**", "/**/*.gz", "**")], [False, True, True, False])
        self.assertEqual([path.match(it) for it in ("*.{xz,gz}", b"*.g[x-z]", "*.GZ")], [True, True, False])
        self.assertRaises(osbytes.GlobError, path.match, "[a")
        self.assertRaises(OsBytesError, path.match, "")
        self.assertEqual(osbytes.UnixPath("/a b/\udcff").as_uri(), "file:///a%20b/%FF")
        self.assertEqual(osbytes.WindowsPath("c:/work").match("C:\\w*"), True)

    def test_beside_the_library(self) -> None:
        """The text of a path has its components, and paths are equal exactly if the library compares them so."""
        pieces = ["\\", "/", "C:", "c:", "a", ".", "..", "\\\\", "\\\\?\\", "//", "?", "s", "UNC", "\ud83d", "A", ".\\"]
        paths = self.made_up(pieces, 3)
        paths += [f"{begin}{path}" for begin in ("\\\\?\\C:\\", "\\\\s\\t", "//s/t", "\\\\?\\UNC\\s\\t\\", "c:") for path in paths[:300]]
        for of, own in ((osbytes.UnixPath, [path for path in paths if "\ud83d" not in path]), (osbytes.WindowsPath, paths)):
            platform = of.platform
            for text, other in zip(own, [*own[1:], own[0]]):
                path = of(text)
                self.assertEqual(without_current(str(path), platform), without_current(text, platform) or without_current(".", platform))
                self.assertEqual(of(str(path)), path)
                self.assertEqual(of(path), path)
                for beside in (other, text.replace("C:", "c:")):
                    a, b = str(path), str(of(beside))
                    lengths = len({len(osbytes.path_components(it, platform)) for it in (a, b)}) == 1
                    self.assertEqual(path == of(beside), lengths and osbytes.path_starts_with(a, b, platform), (a, b))
                    if path == of(beside):
                        self.assertEqual(hash(path), hash(of(beside)))

    def test_objects(self) -> None:
        path = osbytes.UnixPath("a") / b"\xff" / PurePosixPath("b.txt")
        self.assertEqual(repr(path), "UnixPath('a/\\udcff/b.txt')")
        self.assertEqual(bytes(path), b"a/\xff/b.txt")
        for made in (copy.copy(path), pickle.loads(pickle.dumps(path)), eval(repr(path), vars(osbytes))):
            self.assertEqual(made, path)
        self.assertEqual("x" / path, osbytes.UnixPath("x/a/\udcff/b.txt"))
        self.assertEqual(sorted([osbytes.UnixPath("b"), osbytes.UnixPath("a/c"), osbytes.UnixPath("a")])[0], osbytes.UnixPath("a"))
        self.assertEqual(len({osbytes.UnixPath("a//b/"), osbytes.UnixPath("./a/b")}), 1)
        self.assertNotEqual(osbytes.UnixPath("a"), "a")
        self.assertNotEqual(osbytes.UnixPath("a"), osbytes.WindowsPath("a"))
        self.assertEqual((str(osbytes.UnixPath()), osbytes.UnixPath(), str(osbytes.UnixPath("a").parent)), (".", osbytes.UnixPath("."), "."))
        self.assertRaises(TypeError, osbytes.OsPath, "a")
        for wrong in (1, None):
            self.assertRaises(TypeError, osbytes.UnixPath, wrong)
            self.assertRaises(TypeError, lambda: path / wrong)
        self.assertRaises(TypeError, osbytes.UnixPath, osbytes.WindowsPath("a"))
        self.assertRaises(osbytes.FaultError, osbytes.UnixPath, "\ud83d")
        self.assertRaises(AttributeError, setattr, path, "other", 1)
        with TemporaryDirectory() as top:
            file = osbytes.UnixPath(top) / b"\xff"
            with open(file, "w", encoding="utf-8") as opened:
                opened.write("x")
            self.assertEqual(os.listdir(os.fsencode(top)), [b"\xff"])

    def test_checked(self) -> None:
        base = osbytes.WindowsPath("C:\\srv")
        self.assertEqual(str(base.joinpath_checked("./a/../b")), "C:\\srv\\b")
        for wrong in ("..", "/a", "C:a", "a:b", "nul.txt"):
            self.assertRaises(osbytes.JoinError, base.joinpath_checked, wrong)
        self.assertEqual(osbytes.UnixPath("/a/b").relative_to("/a/c/d", walk_up=True), osbytes.UnixPath("../../b"))
        self.assertEqual(osbytes.WindowsPath("a\\b").convert(osbytes.UnixPath), osbytes.UnixPath("a/b"))
        self.assertRaises(osbytes.ConvertError, osbytes.WindowsPath("C:\\a").convert, osbytes.UnixPath)
        for wrong in ("", "a/b", "..", ".", "/"):
            self.assertRaises(ValueError, osbytes.UnixPath("x").with_name, wrong)
        self.assertRaises(ValueError, osbytes.WindowsPath("x").with_name, "C:a")
        for wrong in ("gz", ".", "./a"):
            self.assertRaises(ValueError, osbytes.UnixPath("x").with_suffix, wrong)
        self.assertRaises(ValueError, osbytes.UnixPath("/").with_suffix, ".gz")
        self.assertEqual(osbytes.WindowsPath(".\\C:x").name, "C:x")
        self.assertEqual(osbytes.WindowsPath("C:\\a") / "C:b", osbytes.WindowsPath("C:b"))


if __name__ == "__main__":
    unittest.main()

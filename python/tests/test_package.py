"""Tests of the package, which is installed, beside Python's own codecs and searches: python test_package.py"""

from __future__ import annotations

import codecs
import doctest
import fnmatch
import getopt
import ntpath
import os
import posixpath
import random
import shlex
import sys
import unittest
from pathlib import PurePosixPath, PureWindowsPath

import osbytes
from osbytes import UNIX, WASM, WINDOWS, BadEscapeError, Character, Checker, FaultError, Kind, LineError, LineKind, NoStringError
from osbytes import ConvertError, ExtensionError, JoinError, JoinReason, MissingValueError, NulError, Option, OptionKind, Options
from osbytes import Glob, GlobError, GlobFaultKind, GlobFlag, GlobSet, Ignore, QuoteError, UnexpectedValueError, Unit

FORMS = [text.encode("utf-8", "surrogatepass") for text in "a,b\\\n\u00e9\u20ac\u2028\U000e0041\ud800\udc00\U0001f600"]
FORMS += [b"\xc0", b"\xe2\x82", b"\xed", b"\xf4\x90", b"\x80", b"\0"]


def made_up(numbers: random.Random) -> bytes:
    several = numbers.sample(FORMS, numbers.randint(1, 4))
    return b"".join(numbers.choice(several) for _ in range(numbers.randint(0, 40)))


def units_by_python(string: bytes) -> bytes:
    return string.decode("utf-8", "surrogatepass").encode("utf-16-le", "surrogatepass")


def is_wtf8_by_python(string: bytes) -> bool:
    """Python takes the halves of a pair too, which WTF-8 leaves to the four bytes."""
    try:
        wide = units_by_python(string)
    except UnicodeDecodeError:
        return False
    return wide.decode("utf-16-le", "surrogatepass").encode("utf-8", "surrogatepass") == string


def read_options(words: list[str]) -> tuple[list[tuple[str, str]], list[str]]:
    """Reads words as `getopt.gnu_getopt` does, where `-b` and `--by` take a value."""
    options, read, operands = Options(words), [], []
    for option in options:
        if option.name in ("-b", "--by"):
            read.append((option.name, options.value()))
        elif option.kind == OptionKind.OPERAND:
            operands.append(option.text)
        else:
            read.append((option.name, ""))
    return read, operands


class Examples(unittest.TestCase):
    def test_examples_of_the_docs(self) -> None:
        paths = (osbytes._paths, osbytes._path_building, osbytes._path_classes)
        modules = (osbytes, osbytes._calls, osbytes._globs, osbytes._ignore, osbytes._lines, osbytes._options)
        for module in (*modules, *paths):
            failed, tried = doctest.testmod(module, extraglobs={"WINDOWS": WINDOWS}, optionflags=doctest.IGNORE_EXCEPTION_DETAIL)
            self.assertEqual(failed, 0, module)
            self.assertGreater(tried, 0, module)


class BesidePython(unittest.TestCase):
    def test_texts(self) -> None:
        numbers = random.Random(1)
        for _ in range(20000):
            string = made_up(numbers)
            self.assertEqual(osbytes.decode(string), codecs.decode(string, "utf-8", "surrogateescape"))
            self.assertEqual(osbytes.encode(osbytes.decode(string)), string)
            self.assertEqual(osbytes.display(string), string.decode("utf-8", "replace"))
            self.assertEqual(osbytes.unescape(osbytes.escape(string)), string)
            line = osbytes.escape_line(string)
            self.assertEqual(osbytes.unescape_line(line), string)
            self.assertEqual(len(line.splitlines()), 1 if string else 0)
            self.assertEqual(line.rstrip(), line)
            self.assertEqual(b"".join(part + text.encode() for part, text in osbytes.chunks(string)), string)

    def test_file_system_names(self) -> None:
        numbers = random.Random(2)
        for _ in range(2000):
            string = made_up(numbers)
            if sys.getfilesystemencoding() == "utf-8":
                self.assertEqual(osbytes.decode(string), os.fsdecode(string))
                self.assertEqual(osbytes.encode(os.fsdecode(string)), os.fsencode(os.fsdecode(string)))

    def test_windows(self) -> None:
        numbers = random.Random(3)
        for _ in range(20000):
            string = made_up(numbers)
            self.assertEqual(osbytes.is_string(string, WINDOWS), is_wtf8_by_python(string))
            if is_wtf8_by_python(string):
                units = units_by_python(string)
                wide = [int.from_bytes(units[at : at + 2], "little") for at in range(0, len(units), 2)]
                self.assertEqual(osbytes.to_units(string), wide)
                self.assertEqual(osbytes.from_units(wide), string)
                self.assertEqual(osbytes.encode(osbytes.decode(string, WINDOWS), WINDOWS), string)

    def test_searches(self) -> None:
        numbers = random.Random(4)
        for _ in range(20000):
            string, pattern = made_up(numbers), numbers.choice([",", "a", "ab", "\u00e9", "\U0001f600"])
            raw = pattern.encode()
            self.assertEqual(osbytes.find(string, pattern), string.find(raw))
            self.assertEqual(osbytes.rfind(string, pattern), string.rfind(raw))
            self.assertEqual(osbytes.contains(string, pattern), raw in string)
            self.assertEqual(osbytes.split(string, pattern), string.split(raw))
            self.assertEqual(osbytes.rsplit(string, pattern), string.rsplit(raw))
            for most in (0, 1, 2, 3):
                self.assertEqual(osbytes.split(string, pattern, most), string.split(raw, most))
                self.assertEqual(osbytes.rsplit(string, raw, most), string.rsplit(raw, most))
            self.assertEqual(osbytes.starts_with(string, raw), string.startswith(raw))
            self.assertEqual(osbytes.ends_with(string, raw), string.endswith(raw))
            other = made_up(numbers)
            self.assertEqual(osbytes.compare(string, other), (string > other) - (string < other))

    def test_paths(self) -> None:
        numbers = random.Random(6)
        for _ in range(5000):
            path = "".join(numbers.choice(["/", "/", "a", "b", ".x"]) for _ in range(numbers.randint(0, 12)))
            if path.startswith("//"):
                # a root of its own to pathlib
                path = path.lstrip("/")
            parts = osbytes.path_components(path)
            python = PurePosixPath(path)
            names = [part.text for part in parts if part.kind == Kind.NAME]
            self.assertEqual(names, [part for part in python.parts if part != "/"])
            self.assertEqual(osbytes.path_is_absolute(path), python.is_absolute())
            self.assertEqual(osbytes.path_has_root(path), python.root != "")
            self.assertEqual(osbytes.path_file_name(path) or "", python.name)
            self.assertIsNone(osbytes.path_prefix(path))
            if parts and parts[-1].kind == Kind.NAME:
                parent = osbytes.path_parent(path)
                self.assertEqual(PurePosixPath(parent or "."), python.parent)
                self.assertTrue(osbytes.path_starts_with(path, parent or ""))
                self.assertTrue(osbytes.path_ends_with(path, parts[-1].text))
                self.assertEqual(osbytes.path_strip_prefix(path, parent or ""), parts[-1].text)
            base = numbers.choice([python, *python.parents])
            rest = osbytes.path_strip_prefix(path, "" if base == PurePosixPath() else str(base))
            self.assertEqual(PurePosixPath(rest or ""), python.relative_to(base))
            self.assertIsNone(osbytes.path_strip_prefix(path, path + "/c"))

    def test_built_paths(self) -> None:
        """Beside `posixpath` and `ntpath`, where these mean the same: no path but a root ends with a separator, none begins
        with two, and each of Windows that has a drive has a root."""
        numbers = random.Random(8)
        names = ["a", "b.txt", ".x", "..", ".", "x.tar.gz", "\u00e9", "no dot"]
        for platform, module, roots in ((UNIX, posixpath, ["", "/"]), (WINDOWS, ntpath, ["", "C:\\", "c:/"])):

            def made() -> str:
                below = (numbers.choice(names) for _ in range(numbers.randint(1, 5)))
                return numbers.choice(roots) + numbers.choice(module.sep + (module.altsep or "")).join(below)

            for _ in range(5000):
                path, other = made(), made()
                self.assertEqual(osbytes.path_clean(path, platform), module.normpath(path))
                if not module.splitdrive(other)[0]:
                    self.assertEqual(osbytes.path_join(path, other, platform), module.join(path, other))
                normal = osbytes.path_normalize(path, platform)
                if normal is not None:
                    self.assertEqual(osbytes.path_clean(normal, platform), module.normpath(path))
                if not module.isabs(other):
                    try:
                        below = osbytes.path_join_checked(roots[-1], other, platform)
                    except JoinError:
                        self.assertIn("..", other)
                        continue
                    wanted = module.normpath(module.join(roots[-1], other))
                    self.assertEqual(osbytes.path_clean(below, platform), wanted)

    def test_path_names(self) -> None:
        numbers = random.Random(9)
        for _ in range(2000):
            path = "/".join(numbers.choice(["a", "b.txt", ".x", "x.tar.gz", "no dot"]) for _ in range(numbers.randint(1, 4)))
            for platform, python in ((UNIX, PurePosixPath(path)), (WINDOWS, PureWindowsPath(path))):
                name = osbytes.path_with_file_name(path, "c", platform)
                self.assertEqual(type(python)(name), python.with_name("c"))
                for extension in ("", "rs"):
                    made = osbytes.path_with_extension(path, extension, platform)
                    self.assertEqual(type(python)(made), python.with_suffix(extension and "." + extension))
                added = osbytes.path_with_added_extension(path, "gz", platform)
                self.assertEqual(type(python)(added), python.with_name(python.name + ".gz"))
                base = numbers.choice([python, *python.parents])
                way = osbytes.path_relative(path, "" if str(base) == "." else str(base), platform)
                self.assertEqual(type(python)(way or ""), python.relative_to(base))
            windows = osbytes.path_convert(path, to=WINDOWS)
            self.assertEqual(windows, str(PureWindowsPath(path)))
            self.assertEqual(osbytes.path_convert(windows, to=UNIX, platform=WINDOWS), path)

    def test_refused_paths(self) -> None:
        refusals = [("b", "C:a", JoinReason.PREFIX, None), ("b", "/a", JoinReason.ROOT, None), ("\\\\s", "a", JoinReason.BASE, None)]
        refusals += [("b", "a/../..", JoinReason.LEAVES, 2), ("b", "..", JoinReason.LEAVES, 0), ("b", "aa:b", JoinReason.STREAM, 0)]
        refusals += [("b", "./a//b:c/..", JoinReason.STREAM, 2), ("b", "a/nul.txt", JoinReason.RESERVED, 1)]
        refusals += [("b", f"a/b/{name}/../..", JoinReason.RESERVED, 2) for name in ("a<b", "a?", "a\n", "a ", "a.", "...")]
        for base, path, reason, component in refusals:
            with self.assertRaises(JoinError) as refused:
                osbytes.path_join_checked(base, path, WINDOWS)
            self.assertEqual((refused.exception.reason, refused.exception.component), (reason, component))
            self.assertEqual(str(refused.exception).endswith(f" at component {component}"), component is not None)
            self.assertIsNone(refused.exception.index)
        for base, path, reason in (("\u00e9", "\u00e9\0", JoinReason.NUL), ("\u00e9\0", "b\0", JoinReason.BASE_NUL)):
            with self.assertRaises(JoinError) as refused:
                osbytes.path_join_checked(base, path)
            self.assertEqual((refused.exception.reason, refused.exception.index), (reason, 1))
        self.assertEqual(osbytes.path_join_checked("b", "nul.txt"), "b/nul.txt")
        with self.assertRaises(ConvertError) as unlike:
            osbytes.path_convert("/a/b\\c", to=WINDOWS)
        self.assertEqual(unlike.exception.component, 2)
        with self.assertRaises(FaultError) as fault:
            osbytes.path_convert(b"a/\xc0", to=WINDOWS)
        self.assertEqual(fault.exception.index, 2)
        for call in (osbytes.path_with_extension, osbytes.path_with_added_extension):
            with self.assertRaises(ExtensionError):
                call("a", "b/c")
        self.assertIsNone(osbytes.path_relative("a", "/b"))
        self.assertIsNone(osbytes.path_normalize(".."))
        long = "a/" * 50000
        self.assertEqual(len(osbytes.path_join(long, long)), 4 * 50000)

    def test_words(self) -> None:
        numbers = random.Random(7)
        for _ in range(2000):
            name = made_up(numbers).replace(b"\0", b"'")
            word = osbytes.shell_quote(name)
            self.assertEqual(shlex.split(osbytes.decode(word)), [osbytes.decode(name)])
            line = osbytes.shell_quote_line(name)
            self.assertEqual(len(line.decode().splitlines()), 1)
        with self.assertRaises(NulError) as refused:
            osbytes.shell_quote(b"a\0b\0")
        self.assertEqual(refused.exception.index, 1)

    def test_lines(self) -> None:
        numbers = random.Random(8)
        for _ in range(2000):
            names = [made_up(numbers).replace(b"\0", b"'") for _ in range(numbers.randint(0, 3))]
            line = b" ".join(map(osbytes.shell_quote, names))
            self.assertEqual(osbytes.shell_words(line), names)
            self.assertEqual(osbytes.shell_join(names) or b"", line)
            shown = b"\t".join(map(osbytes.shell_quote_line, names))
            self.assertEqual(osbytes.shell_words(shown, dollar_quotes=True), names)
            program, *words = [name for name in [b"E", *names] if osbytes.is_string(name, WINDOWS)]
            line = osbytes.windows_command_line(program, words)
            self.assertEqual(osbytes.windows_arguments(line), [program, *words])
            self.assertEqual(line, b" ".join([b'"E"', *map(osbytes.windows_quote, words)]))
        text = "".join(numbers.choice("ab' \"\\") for _ in range(20))
        self.assertEqual(osbytes.powershell_quote(text), "'" + text.replace("'", "''") + "'")

    def test_reserved_words(self) -> None:
        """A first name that a shell wouldn't run is quoted, and any other isn't."""
        self.assertEqual(osbytes.shell_join(["if", "if", "a"]), "'if' if a")
        self.assertEqual(osbytes.shell_join([b"time"]), b"'time'")
        self.assertEqual(osbytes.shell_join(["cp", "time"]), "cp time")

    def test_refused_lines(self) -> None:
        with self.assertRaises(LineError) as refused:
            osbytes.shell_words("a $b")
        self.assertEqual((refused.exception.kind, refused.exception.index), (LineKind.SPECIAL, 2))
        self.assertEqual(osbytes.shell_words("a $b", specials=True), ["a", "$b"])
        with self.assertRaises(QuoteError):
            osbytes.windows_command_line('a"b')
        with self.assertRaises(FaultError):
            osbytes.powershell_quote("\ud83d")
        for call in (osbytes.fish_quote, osbytes.powershell_quote, osbytes.shell_words, osbytes.windows_quote, osbytes.windows_arguments):
            with self.assertRaises(NulError) as nul:
                call(b"ab\0")
            self.assertEqual(nul.exception.index, 2)

    def test_options(self) -> None:
        numbers = random.Random(9)
        words = ["-a", "-b", "-abv", "-b-", "--all", "--by=v", "--by=", "--by", "--", "-", "v", "", "\udcff"]
        for _ in range(5000):
            given = [numbers.choice(words) for _ in range(numbers.randint(0, 5))]
            try:
                wanted = getopt.gnu_getopt(given, "ab:", ["all", "by="])
            except getopt.GetoptError:
                with self.assertRaises(MissingValueError):
                    read_options(given)
            else:
                self.assertEqual(read_options(given), wanted)

    def test_refused_options(self) -> None:
        options = Options(["-v=1", "--n\udcff", "-a\udcffb", "-5"])
        self.assertEqual(next(options), Option(OptionKind.SHORT, "v"))
        with self.assertRaises(UnexpectedValueError) as refused:
            next(options)
        self.assertEqual(refused.exception.value, "1")
        read = [(option.kind, option.text, option.name) for option in options]
        self.assertEqual(read[0], (OptionKind.LONG_BYTES, "n\udcff", None))
        self.assertEqual(read[2], (OptionKind.SHORT_BYTES, "\udcffb", None))
        self.assertEqual(read[3], (OptionKind.SHORT, "5", "-5"))
        self.assertEqual(next(Options(["-5"], numbers=True)), Option(OptionKind.OPERAND, "-5"))
        options = Options(["-n\ud83d"], WINDOWS)
        self.assertEqual((next(options).name, options.optional_value()), ("-n", "\ud83d"))

    def test_globs(self) -> None:
        numbers = random.Random(65)
        for _ in range(300):
            pattern = "".join(numbers.choice(["a", "b", "*", "?", "[ab]", "[!a]", "."]) for _ in range(numbers.randint(0, 6)))
            names = ["".join(numbers.choice("abc./") for _ in range(numbers.randint(0, 6))) for _ in range(20)]
            wanted = [fnmatch.fnmatchcase(name, pattern) for name in names]
            self.assertEqual(Glob(pattern, 0).matches(names), wanted, (pattern, names))
            self.assertEqual(GlobSet(["aaaaaaa", pattern], 0).matches(names), wanted)
        self.assertEqual(Glob("a/?", platform=WINDOWS).matches(["a\\\ud83d", "a/b", "ab"]), [True, True, False])
        self.assertEqual(Glob("a", GlobFlag.ANY_CASE).matches([b"A", b""]), [True, False])
        self.assertEqual((GlobSet([]).matches(["", "a"]), Glob("").matches([""])), ([False, False], [True]))
        with self.assertRaises(GlobError) as raised:
            GlobSet(["a", "b[c"])
        error = raised.exception
        self.assertEqual((error.which, error.index, error.kind), (1, 1, GlobFaultKind.UNCLOSED_CLASS))
        for wrong in (lambda: Glob(b"a\0"), lambda: Glob("a").matches([b"\0"])):
            self.assertRaises(NulError, wrong)
        for wrong in (lambda: Glob(b"\xff", platform=WASM), lambda: Glob("a", platform=WINDOWS).is_match(b"\xff")):
            self.assertRaises(FaultError, wrong)
        self.assertRaises(ValueError, lambda: Glob("a", GlobFlag.BACKSLASH))

    def test_ignore_files(self) -> None:
        ignore = Ignore(b"*.log\n\xff/\n!keep.log\n")
        asked = [b"a/b.log", b"\xff", b"\xff/", b"\xff/keep.log", b"keep.log", b""]
        self.assertEqual([tuple(verdict)[:2] for verdict in ignore.matched(asked)], [(1, 1), (0, 0), (1, 2), (1, 2), (2, 3), (0, 0)])
        self.assertTrue(ignore.is_ignored("a.log") and not ignore.is_ignored("keep.log"))
        self.assertEqual(ignore.matched([]), [])
        self.assertRaises(NulError, lambda: ignore.is_ignored(b"\0"))

    def test_symbols(self) -> None:
        self.assertEqual(list(osbytes.symbols(b"a\xff\xc3\xa9")), [Character("a"), Unit(0xFF), Character("\u00e9")])
        self.assertEqual(list(osbytes.symbols("\ud83d\U0001f600", WINDOWS)), [Unit(0xD83D), Character("\U0001f600")])


class Refusals(unittest.TestCase):
    def test_faults(self) -> None:
        numbers = random.Random(5)
        for _ in range(5000):
            string = made_up(numbers)
            try:
                string.decode("utf-8")
                osbytes.check(string, WASM)
            except UnicodeDecodeError as error:
                with self.assertRaises(FaultError) as refused:
                    osbytes.check(string, WASM)
                self.assertEqual((refused.exception.index, refused.exception.count), (error.start, error.end - error.start))

    def test_escapes(self) -> None:
        with self.assertRaises(BadEscapeError) as refused:
            osbytes.unescape("\u00e9\\q")
        self.assertEqual(refused.exception.index, 1)
        for text in ("\\x61", "\\uD800"):
            with self.assertRaises(NoStringError):
                osbytes.unescape(text)
        self.assertEqual(osbytes.unescape("\\uD800", WINDOWS), b"\xed\xa0\x80")

    def test_checkers(self) -> None:
        checker = Checker()
        checker.feed(b"a\xed\xa0")
        with self.assertRaises(FaultError):
            checker.feed(b"\x80\xed\xb0\x80")
        with self.assertRaises(FaultError):
            checker.finish()

    def test_values(self) -> None:
        with self.assertRaises(OverflowError):
            osbytes.from_units([0x10000])
        with self.assertRaises(ValueError):
            osbytes.split(b"a", "")
        self.assertFalse(osbytes.is_boundary(b"a", -1))
        self.assertFalse(osbytes.is_boundary(b"a", 2))

    def test_empty(self) -> None:
        for platform in (UNIX, WINDOWS, WASM):
            self.assertEqual(osbytes.escape(b"", platform), "")
            self.assertEqual(osbytes.unescape("", platform), b"")
            self.assertEqual(osbytes.display(b"", platform), "")
        self.assertEqual(osbytes.to_units(b""), [])
        self.assertEqual(osbytes.from_units([]), b"")
        self.assertEqual(list(osbytes.chunks(b"")), [])
        self.assertEqual(osbytes.split(b"", ","), [b""])

    def test_long(self) -> None:
        string = b"\xff\n" * (1 << 20)
        self.assertEqual(osbytes.unescape_line(osbytes.escape_line(string)), string)


if __name__ == "__main__":
    unittest.main()

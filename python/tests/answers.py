"""Compares the package's calls with the rows of result files: answers.py FILE ..

The columns of each kind of file are named in its second line. The status is 1 where a row differs.
"""

from __future__ import annotations

import sys
from pathlib import Path
from typing import Iterable, Iterator

import osbytes
from osbytes import UNIX, WASM, WINDOWS, BadEscapeError, Checker, FaultError, Kind, LineError, LineKind, NoStringError, NulError

# The result of a call, and that of a row.
Answers = Iterator[tuple[object, str]]

PLATFORMS = {"unix": UNIX, "windows": WINDOWS, "wasm": WASM}


def raw(column: str) -> bytes:
    return b"" if column == "-" else bytes.fromhex(column)


def shown(answer: bytes) -> str:
    return answer.hex() or "-"


def joined(answers: Iterable[bytes]) -> str:
    return ",".join(map(shown, answers))


def wide(string: bytes) -> str:
    return "".join(f"{unit:04x}" for unit in osbytes.to_units(string)) or "-"


def index(at: int) -> str:
    return "!" if at == -1 else str(at)


def told(answer: bool) -> str:
    return "1" if answer else "0"


def decode(string: str, before: str, _fault: str) -> Answers:
    prefix = raw(string)
    try:
        osbytes.check(prefix, WINDOWS)
    except FaultError as error:
        prefix = prefix[: error.index]
    yield wide(prefix), before


def string_of(units: str) -> bytes:
    given = raw(units)
    return osbytes.from_units([given[at] << 8 | given[at + 1] for at in range(0, len(given), 2)])


def encode(units: str, string: str) -> Answers:
    yield shown(string_of(units)), string


def search(_platform: str, string: str, pattern: str, *wanted: str) -> Answers:
    given, text = raw(string), raw(pattern).decode()
    yield index(osbytes.find(given, text)), wanted[0]
    yield index(osbytes.rfind(given, text)), wanted[1]
    yield told(osbytes.contains(given, text)), wanted[2]
    yield joined(osbytes.split(given, text)) if text else "!", wanted[10]
    yield joined(reversed(osbytes.rsplit(given, text))) if text else "!", wanted[11]


def strings(platform: str, string: str, boundaries: str, pairs: str, _units: str, _text: str, lossy: str, *_: str) -> Answers:
    given = raw(string)
    yield "".join(told(osbytes.is_boundary(given, at)) for at in range(len(given) + 2)), boundaries
    found = osbytes.chunks(given)
    yield ",".join(f"{shown(part)}:{shown(text.encode())}" for part, text in found) or "!", pairs
    yield shown(osbytes.display(given, PLATFORMS[platform]).encode()), lossy


def lossies(string: str, utf8: str, text: str, _checked: str, _reading: str) -> Answers:
    given = raw(string)
    yield told(osbytes.is_string(given, WASM)), told(utf8 == "ok")
    yield shown(osbytes.display(given).encode()), text


def pieces(parts: str, wanted: str) -> Answers:
    checker, answers = Checker(), []
    for call in [*(lambda part=part: checker.feed(part) for part in map(raw, parts.split(","))), checker.finish]:
        try:
            call()
            answers.append("ok")
        except FaultError:
            answers.append("faulty")
    yield answers, ["ok" if answer == "ok" else "faulty" for answer in wanted.split(";")]


def prefix(string: str, pattern: str, starts: str, ends: str) -> Answers:
    yield told(osbytes.starts_with(raw(string), raw(pattern), WINDOWS)), starts
    yield told(osbytes.ends_with(raw(string), raw(pattern), WINDOWS)), ends


def join(a: str, b: str, _pushed: str, _repeated: str, wanted: str) -> Answers:
    yield "<=>"[osbytes.compare(raw(a), raw(b)) + 1], wanted


def quote(platform: str, string: str, wanted: str) -> Answers:
    yield shown(osbytes.escape(raw(string), PLATFORMS[platform]).encode()), wanted


def unquote(platform: str, text: str, wanted: str) -> Answers:
    given = raw(text).decode()
    try:
        yield f"ok {shown(osbytes.unescape(given, PLATFORMS[platform]))}", wanted
    except BadEscapeError as error:
        yield f"bad {len(given[: error.index].encode())}", wanted
    except NoStringError:
        yield "notcanonical", wanted


def part(answer: bytes | None) -> str:
    return "!" if answer is None else shown(answer)


def components(path: bytes, platform: osbytes.Platform) -> str:
    letters = {Kind.PREFIX: "P", Kind.ROOT: "R", Kind.CURRENT: "C", Kind.PARENT: "U", Kind.NAME: "N"}
    found = osbytes.path_components(path, platform)
    told_parts = (letters[kind] + (bytes.hex() if kind in (Kind.PREFIX, Kind.NAME) else "") for kind, bytes in found)
    return ",".join(told_parts) or "!"


PARTS = {
    "parent": osbytes.path_parent,
    "file_name": osbytes.path_file_name,
    "file_stem": osbytes.path_file_stem,
    "extension": osbytes.path_extension,
}
TESTS = {"has_root": osbytes.path_has_root, "is_absolute": osbytes.path_is_absolute}
COMPARISONS = {"starts_with": osbytes.path_starts_with, "ends_with": osbytes.path_ends_with}
BUILT_OF_TWO = {
    "join": osbytes.path_join,
    "relative_from": osbytes.path_relative,
    "with_file_name": osbytes.path_with_file_name,
    "set_file_name": osbytes.path_with_file_name,
    "with_extension": osbytes.path_with_extension,
}
BUILT_OF_ONE = {"normalize_lexically": osbytes.path_normalize, "clean": osbytes.path_clean}
# In place: the result begins with whether it was done.
IN_PLACE = {"set_extension": osbytes.path_with_extension, "add_extension": osbytes.path_with_added_extension}


def is_lost(path: str, extension: str, wanted: str) -> bool:
    """Whether with_extension of std loses the extension, since `..` is left of the name. Its set_extension doesn't."""
    return extension != "-" and wanted != path and raw(wanted).endswith(b"\\..")


def paths(platform: str, call: str, path: str, *more: str) -> Answers:
    """A row of another call isn't compared."""
    given, whose = raw(path), PLATFORMS[platform]
    if call == "components":
        yield components(given, whose), more[0]
    elif call == "prefix":
        yield told(osbytes.path_prefix(given, whose) is None), told(more[0] == "!")
    elif call in PARTS:
        yield part(PARTS[call](given, whose)), more[0]
    elif call in TESTS:
        yield told(TESTS[call](given, whose)), more[0]
    elif call in COMPARISONS:
        yield told(COMPARISONS[call](given, raw(more[0]), whose)), more[1]
    elif call == "strip_prefix":
        yield part(osbytes.path_strip_prefix(given, raw(more[0]), whose)), more[1]
    elif call in BUILT_OF_TWO:
        lost = more[0] if call == "with_extension" and is_lost(path, *more) else ""
        yield part(BUILT_OF_TWO[call](given, raw(more[0]), whose)), more[1] + lost
    elif call in BUILT_OF_ONE:
        yield part(BUILT_OF_ONE[call](given, whose)), more[0]
    elif call in IN_PLACE:
        yield part(IN_PLACE[call](given, raw(more[0]), whose)), more[1].partition(":")[2]


def words(name: str, word: str, line: str, fish: str) -> Answers:
    for call, wanted in ((osbytes.shell_quote, word), (osbytes.shell_quote_line, line), (osbytes.fish_quote, fish)):
        try:
            yield shown(call(raw(name))), wanted
        except NulError as error:
            yield f"nul {error.index}", wanted
    # a first name is written as another word where it is a reserved one
    yield osbytes.shell_join([b"a b", raw(name), raw(name)]), b"'a b' " + raw(word) + b" " + raw(word)


LINE_FAULTS = {
    LineKind.SINGLE_QUOTE: "unclosed_single",
    LineKind.DOUBLE_QUOTE: "unclosed_double",
    LineKind.BACKSLASH: "trailing_backslash",
    LineKind.SPECIAL: "metacharacter",
}


def lines(text: str, refused: str, kept: str) -> Answers:
    """A line with a NUL, which isn't read here, isn't compared."""
    for specials, wanted in ((False, refused), (True, kept)):
        try:
            yield "ok " + (joined(osbytes.shell_words(raw(text), specials=specials)) or "none"), wanted
        except LineError as error:
            yield f"{LINE_FAULTS[LineKind(error.kind)]} {error.index}", wanted
        except NulError:
            return


def windows_split(text: str, name: str, arguments: str) -> Answers:
    program, *others = osbytes.windows_arguments(string_of(text))
    yield wide(program), name
    yield ",".join(map(wide, others)) or "!", arguments


def windows_quote(argument: str, text: str, _quoted: str) -> Answers:
    yield wide(osbytes.windows_quote(string_of(argument))), text


def windows_line(arguments: str, wanted: str) -> Answers:
    given = [] if arguments == "!" else map(string_of, arguments.split(","))
    yield wide(osbytes.windows_command_line(b"E", given)), wanted


def glob(pattern: str, path: str, separators: str, dot: str, escapes: str, ignore_case: str, answer: str) -> Answers:
    flags = (0, 1, 3)[int(separators)] + 4 * int(dot) + 8 * int(escapes) + 32 * int(ignore_case)
    try:
        yield str(int(osbytes.Glob(raw(pattern), flags).is_match(raw(path)))), answer
    except osbytes.GlobError:
        yield "error", answer


def ignore(file: str, path: str, is_dir: str, answer: str) -> Answers:
    kind, line, _ = osbytes.Ignore(raw(file)).matched([raw(path) + b"/" * int(is_dir)])[0]
    yield "-iw"[kind] + str(line or ""), answer


FILES = {
    "windows_decode": decode,
    "windows_encode": encode,
    "search": search,
    "strings": strings,
    "lossy": lossies,
    "checker": pieces,
    "windows_prefix": prefix,
    "windows_join": join,
    "quote": quote,
    "unquote": unquote,
    "paths": paths,
    "paths_std_tests": paths,
    "posix_quote": words,
    "posix_words": lines,
    "windows_split": windows_split,
    "windows_quote": windows_quote,
    "windows_line": windows_line,
    "glob": glob,
    "glob-symbols": glob,
    "ignore": ignore,
}


def main(*files: str) -> int:
    asked = differ = 0
    for name in files:
        for row in Path(name).read_text(encoding="utf-8").splitlines():
            if row.startswith("#"):
                continue
            answers = list(FILES[Path(name).stem](*row.split("\t")))
            asked += len(answers) > 0
            if any(answer != wanted for answer, wanted in answers):
                differ += 1
                if differ < 20:
                    print(f"{name}: {row}\n    {answers}")
    print(f"the Python package: {asked} rows asked, {differ} differ")
    return 1 if differ else 0


if __name__ == "__main__":
    sys.exit(main(*sys.argv[1:]))

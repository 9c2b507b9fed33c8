#!/usr/bin/env python3
"""Asks libosbytes.so, by ctypes, what answer files say of its calls: answers.py LIBRARY FILE ..

The columns of each kind of file are named in its second line. The status is 1 where a row differs.
"""

from __future__ import annotations

import sys
from ctypes import CDLL, Array, byref, c_char_p, c_int32, c_size_t, c_uint16, c_void_p, cast, create_string_buffer
from pathlib import Path
from typing import Callable, Iterable, Iterator, Sequence

from smoke import (
    BAD_ESCAPE,
    BAD_LINE,
    BAD_PATTERN,
    FAULTY,
    HAS_NUL,
    NO_ROOM,
    NO_STRING,
    NONE,
    OK,
    UNIX,
    WASM,
    WINDOWS,
    Checker,
    Component,
    Fault,
    LineFault,
    Verdict,
    View,
    chunks,
    escape,
    from_wide,
    load,
    lossy,
    rsplit,
    split,
    unescape,
)

# A call of the library, and what a row wants beside what was answered.
Call = Callable[..., int]
Answers = Iterator[tuple[object, str]]

PLATFORMS = {"unix": UNIX, "windows": WINDOWS, "wasm": WASM}
KINDS = {1: "byte {:02x}", 2: "cp {:04x}", 3: "end"}


def raw(column: str) -> bytes:
    return b"" if column == "-" else bytes.fromhex(column)


def shown(answer: bytes) -> str:
    return answer.hex() or "-"


def joined(answers: Iterable[bytes]) -> str:
    return ",".join(map(shown, answers))


def fault_text(fault: Fault) -> str:
    return KINDS[fault.kind].format(fault.value)


def check(osb: CDLL, platform: int, string: bytes) -> Fault | None:
    fault = Fault()
    status = osb.osb_check(platform, string, len(string), byref(fault))
    assert status in (OK, FAULTY), status
    return fault if status == FAULTY else None


def windows_fault(osb: CDLL, string: bytes) -> str:
    fault = check(osb, WINDOWS, string)
    return fault_text(fault) if fault else "ok"


def utf8_fault(osb: CDLL, string: bytes) -> str:
    fault = check(osb, WASM, string)
    if not fault:
        return "ok"
    return f"utf8 {fault.index} {fault.count if fault.kind == 4 else 'none'}"


def units(osb: CDLL, string: bytes, digits: int = 4) -> str | None:
    """The units of a string, as digits; None where it is refused."""
    room = len(string)
    out, count = (c_uint16 * room)(), c_size_t()
    if osb.osb_to_wide(string, len(string), out, room, byref(count), None) != OK:
        return None
    return "".join(f"{unit:0{digits}x}" for unit in out[: count.value]) or "-"


def index(call: Call, string: bytes, pattern: bytes) -> str:
    at = c_size_t()
    status = call(string, len(string), pattern, len(pattern), byref(at))
    assert status in (OK, NONE), status
    return str(at.value) if status == OK else "!"


def told(answer: int) -> str:
    assert answer in (0, 1), answer
    return str(answer)


def decode(osb: CDLL, string: str, before: str, fault: str) -> Answers:
    string = raw(string)
    yield windows_fault(osb, string), fault
    well = check(osb, WINDOWS, string)
    prefix = string[: well.index] if well else string
    yield units(osb, prefix), before


def encode(osb: CDLL, wide: str, string: str) -> Answers:
    swapped = b"".join(raw(wide)[i : i + 2][::-1] for i in range(0, len(raw(wide)), 2))
    yield shown(from_wide(osb, swapped)), string


def search(osb: CDLL, platform: str, string: str, pattern: str, *wanted: str) -> Answers:
    string, pattern = raw(string), raw(pattern)
    asked = string, len(string), pattern, len(pattern)
    yield index(osb.osb_find, string, pattern), wanted[0]
    yield index(osb.osb_rfind, string, pattern), wanted[1]
    yield told(osb.osb_contains(*asked)), wanted[2]
    yield told(osb.osb_starts_with(*asked)), wanted[3]
    yield told(osb.osb_ends_with(*asked)), wanted[4]
    yield joined(split(osb, string, pattern)) if pattern else "!", wanted[10]
    yield joined(rsplit(osb, string, pattern)) if pattern else "!", wanted[11]


def strings(
    osb: CDLL, platform: str, string: str, boundaries: str, pairs: str, parts_units: str, _text: str, lossy_text: str, *_: str
) -> Answers:
    string = raw(string)
    digits = (told(osb.osb_is_boundary(string, len(string), at)) for at in range(len(string) + 2))
    yield "".join(digits), boundaries
    found = chunks(osb, string)
    yield ",".join(f"{shown(part)}:{shown(text)}" for part, text in found) or "!", pairs
    if platform == "windows":
        yield ",".join(units(osb, part) for part, _ in found) or "!", parts_units
    yield shown(lossy(osb, PLATFORMS[platform], string)), lossy_text


def lossies(osb: CDLL, string: str, utf8: str, text: str, checked: str, _reading: str) -> Answers:
    string = raw(string)
    yield utf8_fault(osb, string), utf8
    yield shown(lossy(osb, UNIX, string)), text
    yield windows_fault(osb, string), checked


def pieces(osb: CDLL, parts: str, wanted: str) -> Answers:
    checker, fault, answers = Checker(), Fault(), []
    assert osb.osb_checker_start(byref(checker)) == OK
    for part in map(raw, parts.split(",")):
        status = osb.osb_checker_feed(byref(checker), part, len(part), byref(fault))
        answers.append(fault_text(fault) if status == FAULTY else "ok")
    status = osb.osb_checker_finish(byref(checker), byref(fault))
    answers.append(fault_text(fault) if status == FAULTY else "ok")
    yield ";".join(answers), wanted


def prefix(osb: CDLL, string: str, pattern: str, starts: str, ends: str) -> Answers:
    string, pattern = raw(string), raw(pattern)
    asked = WINDOWS, string, len(string), pattern, len(pattern)
    yield told(osb.osb_starts_with_units(*asked)), starts
    yield told(osb.osb_ends_with_units(*asked)), ends


def join(osb: CDLL, a: str, b: str, _pushed: str, _repeated: str, wanted: str) -> Answers:
    a, b, order = raw(a), raw(b), c_int32()
    assert osb.osb_compare(a, len(a), b, len(b), byref(order)) == OK
    yield "<=>"[order.value + 1], wanted


def quote(osb: CDLL, platform: str, string: str, wanted: str) -> Answers:
    yield shown(escape(osb.osb_escape, PLATFORMS[platform], raw(string))), wanted


def unquote(osb: CDLL, platform: str, text: str, wanted: str) -> Answers:
    status, answer = unescape(osb.osb_unescape, PLATFORMS[platform], raw(text))
    yield {OK: f"ok {shown(answer)}" if status == OK else "", BAD_ESCAPE: f"bad {answer}", NO_STRING: "notcanonical"}[status], wanted


def components(osb: CDLL, platform: int, path: bytes) -> str:
    room = len(path) + 1
    out, count = (Component * room)(), c_size_t()
    assert osb.osb_path_components(platform, path, len(path), out, room, byref(count)) == OK
    names = ((part, path[part.start : part.end].hex() if part.kind in (1, 5) else "") for part in out[: count.value])
    return ",".join("?PRCUN"[part.kind] + name for part, name in names) or "!"


# What builds a path, by the column for it, and the same in place, whose answer begins with whether it was done.
BUILT = {"join": "join", "relative_from": "relative", "normalize_lexically": "normalize", "clean": "clean"}
BUILT |= {name: name for name in ("with_file_name", "with_extension")} | {"set_file_name": "with_file_name"}
IN_PLACE = {"set_extension": "with_extension", "add_extension": "with_added_extension"}


def built(call: Call, platform: int, *strings: bytes) -> str:
    given = [argument for string in strings for argument in (string, len(string))]
    room = sum(map(len, strings)) + 4
    out, count = create_string_buffer(room), c_size_t()
    if call(platform, *given, out, room, byref(count)) == NO_ROOM:
        room = count.value
        out = create_string_buffer(room)
    status = call(platform, *given, out, room, byref(count))
    assert status in (OK, NONE), status
    return shown(out.raw[: count.value]) if status == OK else "!"


def is_lost(path: str, extension: str, wanted: str) -> bool:
    """Whether with_extension of std loses the extension, since `..` is left of the name. Its set_extension doesn't."""
    return extension != "-" and wanted != path and raw(wanted).endswith(b"\\..")


def paths(osb: CDLL, platform: str, call: str, path: str, *more: str) -> Answers:
    """A row of a call that the library doesn't have isn't asked."""
    string, whose, part = raw(path), PLATFORMS[platform], View()
    if call == "components":
        yield components(osb, whose, string), more[0]
    elif call in ("parent", "file_name", "file_stem", "extension", "prefix"):
        status = getattr(osb, f"osb_path_{call}")(whose, string, len(string), byref(part))
        assert status in (OK, NONE), status
        if call == "prefix":
            yield told(int(status == OK)), "0" if more[0] == "!" else "1"
        else:
            yield shown(bytes(part)) if status == OK else "!", more[0]
    elif call in ("has_root", "is_absolute"):
        yield told(getattr(osb, f"osb_path_{call}")(whose, string, len(string))), more[0]
    elif call in ("starts_with", "ends_with"):
        other = raw(more[0])
        yield told(getattr(osb, f"osb_path_{call}")(whose, string, len(string), other, len(other))), more[1]
    elif call == "strip_prefix":
        base = raw(more[0])
        status = osb.osb_path_strip_prefix(whose, string, len(string), base, len(base), byref(part))
        assert status in (OK, NONE), status
        yield shown(bytes(part)) if status == OK else "!", more[1]
    elif call in BUILT:
        lost = more[0] if call == "with_extension" and is_lost(path, *more) else ""
        yield built(getattr(osb, f"osb_path_{BUILT[call]}"), whose, string, *map(raw, more[:-1])), more[-1] + lost
    elif call in IN_PLACE:
        yield built(getattr(osb, f"osb_path_{IN_PLACE[call]}"), whose, string, raw(more[0])), more[1].partition(":")[2]


def word(call: Call, room: int, name: bytes) -> str:
    out, count, index = create_string_buffer(room), c_size_t(), c_size_t()
    status = call(name, len(name), out, room, byref(count), byref(index))
    assert status in (OK, HAS_NUL), status
    return shown(out.raw[: count.value]) if status == OK else f"nul {index.value}"


def views_of(words: Sequence[bytes]) -> Array[View]:
    return (View * len(words))(*(View(cast(c_char_p(word), c_void_p), len(word)) for word in words))


def line_of(osb: CDLL, *names: bytes) -> bytes:
    room = sum(osb.osb_shell_bound(len(name)) + 1 for name in names)
    out, count = create_string_buffer(room), c_size_t()
    assert osb.osb_shell_join(views_of(names), len(names), out, room, byref(count), None, None) == OK
    return out.raw[: count.value]


def words(osb: CDLL, name: str, plain: str, line: str, fish: str) -> Answers:
    room = osb.osb_shell_bound(len(raw(name)))
    yield word(osb.osb_shell_quote, room, raw(name)), plain
    yield word(osb.osb_shell_quote_line, room, raw(name)), line
    yield word(osb.osb_fish_quote, room, raw(name)), fish
    yield line_of(osb, b"a b", raw(name), raw(name)), b"'a b' " + raw(plain) + b" " + raw(plain)
    # first on a line a reserved word is in quotes
    yield line_of(osb, raw(name)) in (raw(plain), b"'" + raw(name) + b"'"), True


LINE_FAULTS = dict(enumerate(("unclosed_single", "unclosed_double", "unclosed_dollar", "trailing_backslash", "metacharacter"), 1))


def line(osb: CDLL, options: int, text: bytes) -> str:
    room = osb.osb_words_bound(len(text))
    out, count, fault = create_string_buffer(room), c_size_t(), LineFault()
    status = osb.osb_shell_words(options, text, len(text), out, room, byref(count), byref(fault))
    assert status in (OK, BAD_LINE), status
    if status == BAD_LINE:
        return f"{LINE_FAULTS[fault.kind]} {fault.index}"
    return "ok " + (joined(out.raw[: count.value].split(b"\0")[:-1]) or "none")


def lines(osb: CDLL, text: str, refused: str, kept: str) -> Answers:
    """A line with a NUL, which isn't read here, isn't asked."""
    if b"\0" not in raw(text):
        yield line(osb, 0, raw(text)), refused
        yield line(osb, 1, raw(text)), kept


def string_of(osb: CDLL, wide: str) -> bytes:
    return from_wide(osb, b"".join(raw(wide)[at : at + 2][::-1] for at in range(0, len(raw(wide)), 2)))


def wide_answer(call: Call, room: int, *given: object) -> list[int]:
    out, count = (c_uint16 * room)(), c_size_t()
    assert call(*given, out, room, byref(count), None, None) == OK
    return out[: count.value]


def wide_text(units: Iterable[int]) -> str:
    return "".join(f"{unit:04x}" for unit in units) or "-"


def windows_split(osb: CDLL, text: str, name: str, arguments: str) -> Answers:
    given = string_of(osb, text)
    words: list[list[int]] = [[]]
    for unit in wide_answer(osb.osb_windows_arguments, osb.osb_words_bound(len(given)), given, len(given)):
        words.append([]) if unit == 0 else words[-1].append(unit)
    program, *others, _ = words
    yield wide_text(program), name
    yield ",".join(map(wide_text, others)) or "!", arguments


def windows_quote(osb: CDLL, argument: str, text: str, _quoted: str) -> Answers:
    given = string_of(osb, argument)
    yield wide_text(wide_answer(osb.osb_windows_quote, osb.osb_windows_bound(len(given)), given, len(given))), text


def windows_line(osb: CDLL, arguments: str, wanted: str) -> Answers:
    words = [b"E"] + ([] if arguments == "!" else [string_of(osb, argument) for argument in arguments.split(",")])
    views = views_of(words)
    room = sum(osb.osb_windows_bound(len(word)) + 1 for word in words)

    def call(*given: object) -> int:
        return osb.osb_windows_command_line(views, len(words), *given[:3], None, *given[3:])

    yield wide_text(wide_answer(call, room)), wanted


def glob(
    osb: CDLL, pattern: str, path: str, separators: str, dot: str, escapes: str, ignore_case: str, answer: str
) -> Answers:
    options = (0, 1, 3)[int(separators)] + 4 * int(dot) + 8 * int(escapes) + 32 * int(ignore_case)
    patterns, paths, told = views_of([raw(pattern)]), views_of([raw(path)]), create_string_buffer(1)
    status = osb.osb_glob_matches(UNIX, options, patterns, 1, paths, 1, told, None)
    assert status in (OK, BAD_PATTERN), status
    yield str(told.raw[0]) if status == OK else "error", answer
    kept, string = c_void_p(), raw(path)
    status = osb.osb_globs_new(UNIX, options, patterns, 1, byref(kept), None)
    assert status in (OK, BAD_PATTERN), status
    yield str(osb.osb_globs_is_match(kept, string, len(string))) if status == OK else "error", answer
    osb.osb_globs_free(kept)


def ignore(osb: CDLL, file: str, path: str, is_dir: str, answer: str) -> Answers:
    lines, flags, told = raw(file), bytes([int(is_dir)]), Verdict()
    assert osb.osb_ignore_matches(lines, len(lines), views_of([raw(path)]), 1, flags, byref(told)) == OK
    yield "-iw"[told.kind] + str(told.line or ""), answer


FILES = {
    "windows_decode": decode,
    "windows_encode": encode,
    "search": search,
    "strings": strings,
    "lossy": lossies,
    "checker": pieces,
    "windows_prefix": prefix,
    "windows_join": join,
    "quote": quote,
    "unquote": unquote,
    "paths": paths,
    "paths_std_tests": paths,
    "posix_quote": words,
    "posix_words": lines,
    "windows_split": windows_split,
    "windows_quote": windows_quote,
    "windows_line": windows_line,
    "glob": glob,
    "glob-symbols": glob,
    "ignore": ignore,
}


def main(library: str, *files: str) -> int:
    osb = load(library)
    asked = differ = 0
    for name in files:
        for row in Path(name).read_text(encoding="utf-8").splitlines():
            if row.startswith("#"):
                continue
            answers = list(FILES[Path(name).stem](osb, *row.split("\t")))
            asked += len(answers) > 0
            if any(answer != wanted for answer, wanted in answers):
                differ += 1
                if differ < 20:
                    print(f"{name}: {row}\n    {answers}")
    print(f"answers.py: {asked} rows asked, {differ} differ")
    return 1 if differ else 0


if __name__ == "__main__":
    sys.exit(main(*sys.argv[1:]))

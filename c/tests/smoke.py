#!/usr/bin/env python3
"""Calls libosbytes.so by ctypes, as a program outside would: smoke.py LIBRARY.

What it expects comes from Python's own codecs, searches and splits.
"""

from __future__ import annotations

import ctypes
import random
import re
import sys
from ctypes import CDLL, POINTER, Structure, byref, c_char_p, c_int32, c_size_t, c_uint16, c_uint32, c_void_p
from typing import Callable, Iterator

# A call of the library.
Call = Callable[..., int]


class View(Structure):
    _fields_ = [("at", c_void_p), ("len", c_size_t)]

    def __bytes__(self) -> bytes:
        return ctypes.string_at(self.at, self.len)


class Fault(Structure):
    _fields_ = [("kind", c_uint32), ("value", c_uint32), ("index", c_size_t), ("count", c_size_t)]


class Checker(Structure):
    _fields_ = [("state", c_uint32), ("bits", c_uint32), ("kind", c_uint32), ("value", c_uint32)]


class Split(Structure):
    _fields_ = [("string", View), ("pattern", View), ("next", c_size_t), ("ended", c_uint32)]


class Chunks(Structure):
    _fields_ = [("string", View), ("next", c_size_t)]


class Chunk(Structure):
    _fields_ = [("part", View), ("text", View)]


class Symbols(Structure):
    _fields_ = [("string", View), ("next", c_size_t), ("platform", c_uint32)]


class Symbol(Structure):
    _fields_ = [("kind", c_uint32), ("value", c_uint32), ("bytes", View)]


class Component(Structure):
    _fields_ = [("kind", c_uint32), ("start", c_size_t), ("end", c_size_t)]


class Verdict(Structure):
    _fields_ = [("kind", c_uint32), ("line", c_size_t)]


class LineFault(Structure):
    _fields_ = [("kind", c_uint32), ("index", c_size_t)]


UNIX, WINDOWS, WASM = range(3)
CHARACTER, UNIT = 1, 2
OK, FAULTY, NO_ROOM, NONE, ENDED, BAD_ESCAPE, NO_STRING, HAS_NUL, BAD_LINE, HAS_QUOTE = range(10)
BAD_PATTERN = 17


def load(name: str) -> CDLL:
    osb = CDLL(name)
    osb.osb_check.argtypes = [c_uint32, c_char_p, c_size_t, POINTER(Fault)]
    osb.osb_fault_text.argtypes = [POINTER(Fault), c_char_p, c_size_t, POINTER(c_size_t)]
    osb.osb_wide_bound.argtypes = [c_size_t]
    osb.osb_wide_bound.restype = c_size_t
    osb.osb_to_wide.argtypes = [c_char_p, c_size_t, POINTER(c_uint16), c_size_t, POINTER(c_size_t), POINTER(Fault)]
    osb.osb_find.argtypes = [c_char_p, c_size_t, c_char_p, c_size_t, POINTER(c_size_t)]
    osb.osb_split_start.argtypes = [POINTER(Split), c_char_p, c_size_t, c_char_p, c_size_t]
    osb.osb_split_next.argtypes = [POINTER(Split), POINTER(View)]
    osb.osb_chunks_start.argtypes = [POINTER(Chunks), c_char_p, c_size_t]
    osb.osb_chunks_next.argtypes = [POINTER(Chunks), POINTER(Chunk)]
    osb.osb_rfind.argtypes = osb.osb_find.argtypes
    osb.osb_from_wide.argtypes = [POINTER(c_uint16), c_size_t, c_char_p, c_size_t, POINTER(c_size_t)]
    osb.osb_lossy.argtypes = [c_uint32, c_char_p, c_size_t, c_char_p, c_size_t, POINTER(c_size_t), POINTER(Fault)]
    osb.osb_escape.argtypes = osb.osb_escape_line.argtypes = osb.osb_lossy.argtypes
    osb.osb_unescape.argtypes = [c_uint32, c_char_p, c_size_t, c_char_p, c_size_t, POINTER(c_size_t), POINTER(c_size_t)]
    osb.osb_unescape_line.argtypes = osb.osb_unescape.argtypes
    osb.osb_symbols_start.argtypes = [POINTER(Symbols), c_uint32, c_char_p, c_size_t, POINTER(Fault)]
    osb.osb_symbols_next.argtypes = [POINTER(Symbols), POINTER(Symbol)]
    osb.osb_contains.argtypes = [c_char_p, c_size_t, c_char_p, c_size_t]
    osb.osb_starts_with.argtypes = osb.osb_ends_with.argtypes = osb.osb_contains.argtypes
    osb.osb_starts_with_units.argtypes = [c_uint32, c_char_p, c_size_t, c_char_p, c_size_t]
    osb.osb_ends_with_units.argtypes = osb.osb_starts_with_units.argtypes
    osb.osb_compare.argtypes = [c_char_p, c_size_t, c_char_p, c_size_t, POINTER(c_int32)]
    osb.osb_is_boundary.argtypes = [c_char_p, c_size_t, c_size_t]
    given = [c_char_p, c_size_t]
    views = [POINTER(View), c_size_t]
    osb.osb_ignore_matches.argtypes = [*given, *views, c_char_p, POINTER(Verdict)]
    osb.osb_glob_matches.argtypes = [c_uint32, c_uint32, *views, *views, c_char_p, c_void_p]
    osb.osb_globs_new.argtypes = [c_uint32, c_uint32, *views, POINTER(c_void_p), c_void_p]
    osb.osb_globs_is_match.argtypes = [c_void_p, *given]
    osb.osb_globs_free.argtypes = [c_void_p]
    osb.osb_globs_free.restype = None
    osb.osb_rsplit_start.argtypes = osb.osb_split_start.argtypes
    osb.osb_rsplit_next.argtypes = osb.osb_split_next.argtypes
    osb.osb_checker_start.argtypes = [POINTER(Checker)]
    osb.osb_checker_feed.argtypes = [POINTER(Checker), c_char_p, c_size_t, POINTER(Fault)]
    osb.osb_checker_finish.argtypes = [POINTER(Checker), POINTER(Fault)]
    osb.osb_path_components.argtypes = [c_uint32, c_char_p, c_size_t, POINTER(Component), c_size_t, POINTER(c_size_t)]
    for part in ("parent", "prefix", "file_name", "file_stem", "extension"):
        getattr(osb, f"osb_path_{part}").argtypes = [c_uint32, c_char_p, c_size_t, POINTER(View)]
    osb.osb_path_has_root.argtypes = osb.osb_path_is_absolute.argtypes = [c_uint32, c_char_p, c_size_t]
    osb.osb_path_starts_with.argtypes = osb.osb_path_ends_with.argtypes = osb.osb_starts_with_units.argtypes
    osb.osb_path_strip_prefix.argtypes = [*osb.osb_starts_with_units.argtypes, POINTER(View)]
    built = [c_char_p, c_size_t, POINTER(c_size_t)]
    for name in ("join", "relative", "with_file_name", "with_extension", "with_added_extension"):
        getattr(osb, f"osb_path_{name}").argtypes = [c_uint32, c_char_p, c_size_t, c_char_p, c_size_t, *built]
    osb.osb_path_normalize.argtypes = osb.osb_path_clean.argtypes = [c_uint32, c_char_p, c_size_t, *built]
    osb.osb_shell_bound.argtypes = [c_size_t]
    osb.osb_shell_bound.restype = c_size_t
    osb.osb_shell_quote.argtypes = [c_char_p, c_size_t, c_char_p, c_size_t, POINTER(c_size_t), POINTER(c_size_t)]
    osb.osb_shell_quote_line.argtypes = osb.osb_fish_quote.argtypes = osb.osb_shell_quote.argtypes
    osb.osb_powershell_quote.argtypes = osb.osb_shell_quote.argtypes
    for bound in (osb.osb_words_bound, osb.osb_windows_bound):
        bound.argtypes, bound.restype = [c_size_t], c_size_t
    osb.osb_shell_words.argtypes = [c_uint32, c_char_p, c_size_t, c_char_p, c_size_t, POINTER(c_size_t), POINTER(LineFault)]
    written = [POINTER(c_uint16), c_size_t, POINTER(c_size_t)]
    osb.osb_windows_quote.argtypes = [c_char_p, c_size_t, *written, POINTER(c_size_t), POINTER(Fault)]
    osb.osb_windows_arguments.argtypes = osb.osb_windows_quote.argtypes
    words = [POINTER(View), c_size_t]
    osb.osb_windows_command_line.argtypes = [*words, *written, POINTER(c_size_t), POINTER(c_size_t), POINTER(Fault)]
    osb.osb_shell_join.argtypes = [*words, c_char_p, c_size_t, POINTER(c_size_t), POINTER(c_size_t), POINTER(c_size_t)]
    return osb


def to_wide(osb: CDLL, string: bytes) -> bytes:
    room = osb.osb_wide_bound(len(string))
    out, count = (c_uint16 * room)(), c_size_t()
    status = osb.osb_to_wide(string, len(string), out, room, byref(count), None)
    assert status == OK, status
    return b"".join(unit.to_bytes(2, "little") for unit in out[: count.value])


def split(osb: CDLL, string: bytes, pattern: bytes) -> list[bytes]:
    it, piece, pieces = Split(), View(), []
    assert osb.osb_split_start(byref(it), string, len(string), pattern, len(pattern)) == OK
    while osb.osb_split_next(byref(it), byref(piece)) == OK:
        pieces.append(bytes(piece))
    return pieces


def rsplit(osb: CDLL, string: bytes, pattern: bytes) -> list[bytes]:
    it, piece, pieces = Split(), View(), []
    assert osb.osb_rsplit_start(byref(it), string, len(string), pattern, len(pattern)) == OK
    while osb.osb_rsplit_next(byref(it), byref(piece)) == OK:
        pieces.append(bytes(piece))
    return pieces


def rsplit_by_python(string: bytes, pattern: bytes) -> list[bytes]:
    pieces = []
    while (at := string.rfind(pattern)) != -1:
        pieces.append(string[at + len(pattern) :])
        string = string[:at]
    return pieces + [string]


def from_wide(osb: CDLL, units: bytes) -> bytes:
    """The bytes of the string with the units that these bytes are, little-endian."""
    count = len(units) // 2
    wide = (c_uint16 * count).from_buffer_copy(units)
    out, length = ctypes.create_string_buffer(3 * count + 1), c_size_t()
    assert osb.osb_from_wide(wide, count, out, 3 * count, byref(length)) == OK
    return out.raw[: length.value]


def lossy(osb: CDLL, platform: int, string: bytes) -> bytes | None:
    out, length = ctypes.create_string_buffer(3 * len(string) + 1), c_size_t()
    status = osb.osb_lossy(platform, string, len(string), out, 3 * len(string), byref(length), None)
    return out.raw[: length.value] if status == OK else None


def escape(call: Call, platform: int, string: bytes) -> bytes:
    out, length = ctypes.create_string_buffer(6 * len(string) + 1), c_size_t()
    assert call(platform, string, len(string), out, 6 * len(string), byref(length), None) == OK
    return out.raw[: length.value]


# the characters that are hidden by Unicode 18.0: the first and the last of each range
HIDDEN = """0-1F 7F-A0 AD 34F 600-605 61C 6DD 70F 890-891 8E2 115F-1160 1680 17B4-17B5 180B-180F 2000-200F
    2028-202F 205F-206F 2800 3000 3164 E000-F8FF FDD0-FDEF FE00-FE0F FEFF FFA0 FFF0-FFFB FFFE-FFFF 110BD 110CD
    13430-1343F 13441-13442 1BCA0-1BCA3 1D159 1D173-1D17A 1FFFE-1FFFF 2FFFE-2FFFF 3FFFE-3FFFF 40000-10FFFF"""
RANGES = [(int(words[0], 16), int(words[-1], 16)) for words in (word.split("-") for word in HIDDEN.split())]


def stays_on_line(character: str) -> bool:
    return not any(first <= ord(character) <= last for first, last in RANGES)


def escape_by_python(platform: int, string: bytes, on_line: bool) -> bytes:
    """The escape of a string of Unix or Windows, by Python's codecs."""

    def written(character: str) -> str:
        code = ord(character)
        if character == "\\":
            return "\\\\"
        if 0xD800 <= code <= 0xDFFF:
            return f"\\x{code - 0xDC00:02X}" if platform == UNIX else f"\\u{code:04X}"
        if on_line and not stays_on_line(character):
            return f"\\u{code:04X}" if code < 0x10000 else f"\\u{{{code:X}}}"
        return character

    text = string.decode("utf-8", "surrogateescape" if platform == UNIX else "surrogatepass")
    shown = "".join(map(written, text))
    if on_line and shown.endswith(" "):
        shown = shown[:-1] + r"\u0020"
    return shown.encode()


def unescape(call: Call, platform: int, escape: bytes) -> tuple[int, bytes | int | None]:
    """The status of an escape, and its string or the index of a backslash."""
    room = len(escape)
    out, length, index = ctypes.create_string_buffer(room + 1), c_size_t(), c_size_t()
    status = call(platform, escape, len(escape), out, room, byref(length), byref(index))
    return status, {OK: out.raw[: length.value], BAD_ESCAPE: index.value}.get(status)


def unescape_by_python(platform: int, escape: bytes, on_line: bool) -> tuple[int, bytes | int | None]:
    """The same, by Python's codecs: what an escape means, and whether that has this escape."""

    def meaning(token: str) -> bytes:
        if token[1] in "\\x":
            return b"\\" if token[1] == "\\" else bytes.fromhex(token[2:])
        return chr(int(token[2:].strip("{}"), 16)).encode("utf-8", "surrogatepass")

    text, string, at = escape.decode(), b"", 0
    long = r"|u\{(?:[1-9A-F]|10)[0-9A-F]{4}\}" if on_line else ""
    token = re.compile(rf"\\(?:\\|x[0-9A-F]{{2}}|u[0-9A-F]{{4}}{long})")
    while (slash := text.find("\\", at)) != -1:
        found = token.match(text, slash)
        if not found:
            return BAD_ESCAPE, len(text[:slash].encode())
        string += text[at:slash].encode() + meaning(found[0])
        at = found.end()
    string += text[at:].encode()
    if platform == WINDOWS and not is_wtf8_by_python(string):
        return NO_STRING, None
    return (OK, string) if escape_by_python(platform, string, on_line) == escape else (NO_STRING, None)


def is_wtf8_by_python(string: bytes) -> bool:
    """Python takes the halves of a pair too, which WTF-8 leaves to the four bytes."""
    try:
        wide = string.decode("utf-8", "surrogatepass").encode("utf-16-le", "surrogatepass")
    except UnicodeDecodeError:
        return False
    return wide.decode("utf-16-le", "surrogatepass").encode("utf-8", "surrogatepass") == string


def made_wrong(numbers: random.Random, escape: bytes) -> bytes:
    """An escape in which some characters are others."""
    text = list(escape.decode())
    for _ in range(numbers.randint(0, 2)):
        at = numbers.randint(0, len(text))
        text[at : at + numbers.randint(0, 2)] = numbers.choice(["", "\\", "\\x80", "\\uD800", "\\u{E0041}", "\n", "4", "}"])
    return "".join(text).encode()


def symbols(osb: CDLL, platform: int, string: bytes) -> list[tuple[int, int, bytes]]:
    it, symbol, found = Symbols(), Symbol(), []
    assert osb.osb_symbols_start(byref(it), platform, string, len(string), None) == OK
    while (status := osb.osb_symbols_next(byref(it), byref(symbol))) == OK:
        found.append((symbol.kind, symbol.value, bytes(symbol.bytes)))
    assert status == ENDED, status
    return found


def symbols_by_python(platform: int, string: bytes) -> Iterator[tuple[int, int, bytes]]:
    """The symbols of a string of Unix or Windows, by Python's codecs."""
    errors = "surrogateescape" if platform == UNIX else "surrogatepass"
    for character in string.decode("utf-8", errors):
        code, encoded = ord(character), character.encode("utf-8", errors)
        if 0xD800 <= code <= 0xDFFF:
            yield UNIT, code - 0xDC00 if platform == UNIX else code, encoded
        else:
            yield CHARACTER, code, encoded


def is_wtf8(osb: CDLL, string: bytes, numbers: random.Random) -> bool:
    """Whether a string is WTF-8, by pieces."""
    checker = Checker()
    assert osb.osb_checker_start(byref(checker)) == OK
    while string:
        size = numbers.randint(1, 5)
        osb.osb_checker_feed(byref(checker), string[:size], len(string[:size]), None)
        string = string[size:]
    return osb.osb_checker_finish(byref(checker), None) == OK


def units_of(string: bytes) -> bytes:
    return string.decode("utf-8", "surrogatepass").encode("utf-16-le", "surrogatepass")


def compare_more(osb: CDLL, numbers: random.Random, string: bytes, other: bytes, pattern: bytes) -> None:
    """Compares the calls that need no codec of their own."""
    index, order = c_size_t(), c_int32()
    found = osb.osb_rfind(string, len(string), pattern, len(pattern), byref(index))
    assert (index.value if found == OK else -1) == string.rfind(pattern), (string, pattern)
    asked = string, len(string), pattern, len(pattern)
    assert (osb.osb_contains(*asked) == 1) == (pattern in string), asked
    assert (osb.osb_starts_with(*asked) == 1) == string.startswith(pattern), asked
    assert (osb.osb_ends_with(*asked) == 1) == string.endswith(pattern), asked
    assert rsplit(osb, string, pattern) == rsplit_by_python(string, pattern), asked
    assert osb.osb_compare(string, len(string), other, len(other), byref(order)) == OK
    assert order.value == (string > other) - (string < other), (string, other)
    # surrogateescape keeps what isn't UTF-8, and replace writes U+FFFD for each maximal part.
    text = string.decode("utf-8", "surrogateescape")
    joined = b"".join(part + text for part, text in chunks(osb, string))
    assert joined == text.encode("utf-8", "surrogateescape"), string
    assert lossy(osb, UNIX, string) == string.decode("utf-8", "replace").encode(), string
    whole = osb.osb_check(WINDOWS, string, len(string), None) == OK
    assert is_wtf8(osb, string, numbers) == whole, string
    for platform in [UNIX, WINDOWS] if whole else [UNIX]:
        for call, on_line in [(osb.osb_escape, False), (osb.osb_escape_line, True)]:
            assert escape(call, platform, string) == escape_by_python(platform, string, on_line), string
        for call, on_line in [(osb.osb_unescape, False), (osb.osb_unescape_line, True)]:
            text = escape_by_python(platform, string, on_line)
            assert unescape(call, platform, text) == (OK, string), text
            text = made_wrong(numbers, text)
            assert unescape(call, platform, text) == unescape_by_python(platform, text, on_line), text
        assert symbols(osb, platform, string) == list(symbols_by_python(platform, string)), string
    if whole:
        units = units_of(string)
        assert from_wide(osb, units) == string, string
        shown = units.decode("utf-16-le", "surrogatepass").encode("utf-16-le", "surrogatepass")
        assert lossy(osb, WINDOWS, string) == bytes(
            "".join("\ufffd" if "\ud800" <= c <= "\udfff" else c for c in shown.decode("utf-16-le", "surrogatepass")),
            "utf-8",
        ), string
        if osb.osb_check(WINDOWS, other, len(other), None) == OK:
            asked = WINDOWS, string, len(string), other, len(other)
            assert (osb.osb_starts_with_units(*asked) == 1) == units.startswith(units_of(other)), asked
            ends = units.endswith(units_of(other))
            assert (osb.osb_ends_with_units(*asked) == 1) == ends, asked


def chunks(osb: CDLL, string: bytes) -> list[tuple[bytes, bytes]]:
    it, chunk, found = Chunks(), Chunk(), []
    assert osb.osb_chunks_start(byref(it), string, len(string)) == OK
    while osb.osb_chunks_next(byref(it), byref(chunk)) == OK:
        found.append((bytes(chunk.part), bytes(chunk.text)))
    return found


def compare_random(osb: CDLL, rows: int) -> None:
    """Asks about random bytes, and compares with Python's answers."""
    numbers = random.Random(1)
    forms = [text.encode("utf-8", "surrogatepass") for text in "a,b\\\n\u00e9\u20ac\u2028\U000e0041\ud800\udc00\U0001f600"]
    forms += [b"\xc0", b"\xe2\x82", b"\xed", b"\xf4\x90", b"\x80"]
    for _ in range(rows):
        several = numbers.sample(forms, numbers.randint(1, 4))
        string = b"".join(numbers.choice(several) for _ in range(numbers.randint(0, 40)))
        fault = Fault()
        status = osb.osb_check(WASM, string, len(string), byref(fault))
        try:
            string.decode("utf-8")
            assert status == OK, string
        except UnicodeDecodeError as error:
            assert status == FAULTY and fault.index == error.start, (string, fault.index, error)
            # A prefix of a character at the end is one part, which Python counts so too.
            assert fault.count == error.end - error.start, (string, fault.count, error)
        if is_wtf8_by_python(string):
            assert to_wide(osb, string) == units_of(string), string
        else:
            assert osb.osb_check(WINDOWS, string, len(string), None) == FAULTY, string
        pattern = numbers.choice([b",", b"a", b"ab", b"\xc3\xa9", b"\xf0\x9f\x98\x80"])
        index = c_size_t()
        found = osb.osb_find(string, len(string), pattern, len(pattern), byref(index))
        assert (index.value if found == OK else -1) == string.find(pattern), (string, pattern)
        assert split(osb, string, pattern) == string.split(pattern), (string, pattern)
        assert b"".join(part + text for part, text in chunks(osb, string)) == string
        for part, text in chunks(osb, string):
            text.decode("utf-8")
        other = b"".join(numbers.choice(several) for _ in range(numbers.randint(0, 2)))
        compare_more(osb, numbers, string, other, pattern)


def main(name: str) -> None:
    osb = load(name)
    fault, out, count = Fault(), ctypes.create_string_buffer(129), c_size_t()
    assert osb.osb_check(WASM, b"a\xe2\x82A", 4, byref(fault)) == FAULTY
    assert osb.osb_fault_text(byref(fault), out, 129, byref(count)) == OK
    assert out.value == b"invalid utf-8 sequence of 2 bytes from index 1", out.value
    for text in ["", "a", "h\u00e9llo", "\U0001f600\ud83d", "x" * 300 + "\u20ac"]:
        string = text.encode("utf-8", "surrogatepass")
        assert osb.osb_check(WINDOWS, string, len(string), None) == OK
        assert to_wide(osb, string) == text.encode("utf-16-le", "surrogatepass"), text
    index = c_size_t()
    assert osb.osb_find(b"foobar", 6, b"bar", 3, byref(index)) == OK and index.value == 3
    assert osb.osb_find(b"foobar", 6, b"x", 1, byref(index)) == NONE
    assert split(osb, b"a,\xff,,b", b",") == b"a,\xff,,b".split(b",")
    assert chunks(osb, b"ab\xff\xc3\xa9") == [(b"", b"ab"), (b"\xff", "\u00e9".encode())]
    compare_random(osb, 20000)
    print("smoke.py: as expected")


if __name__ == "__main__":
    main(sys.argv[1])

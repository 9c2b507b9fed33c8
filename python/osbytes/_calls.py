"""Checks, conversions, escapes, searches and iterators over strings."""

# mypy: disable-error-code="no-any-return"
from __future__ import annotations

from array import array
from functools import partial
from itertools import chain
from typing import Dict, Iterable, Iterator, NamedTuple, Union

from . import _core
from ._strings import UNIX, AnyOsName, OsString, Platform, only_list

__all__ = [
    "Character", "Checker", "Unit", "check", "chunks", "compare", "contains", "decode", "display", "encode", "ends_with",
    "escape", "escape_line", "find", "from_units", "is_boundary", "is_string", "rfind", "rsplit", "split", "starts_with",
    "symbols", "to_units", "unescape", "unescape_line", "version",
]  # fmt: skip


def encode(string: AnyOsName, platform: Platform = UNIX) -> bytes:
    """Returns the bytes of a string of the platform.

    A `str` is read as `os.fsencode` reads it on the platform: for Unix and wasm by `surrogateescape`, for Windows by
    `surrogatepass`, where the two halves of a surrogate pair become one character. `bytes` are returned as they are.

    Raises `FaultError` if the argument isn't a string of the platform.

    >>> encode("\\udcff")
    b'\\xff'
    >>> encode("\\ud83d", WINDOWS)
    b'\\xed\\xa0\\xbd'
    """
    return _core.encode(string, platform)


def decode(string: AnyOsName, platform: Platform = UNIX) -> str:
    """Returns the `str` that Python makes of a string of the platform, as `os.fsdecode` does. `encode` reverses it.

    Raises `FaultError` if the argument isn't a string of the platform.

    >>> decode(b"a\\xff")
    'a\\udcff'
    """
    return _core.decode(string, platform)


def is_string(string: bytes, platform: Platform = UNIX) -> bool:
    """Returns whether bytes are a string of the platform.

    >>> is_string(b"\\xff"), is_string(b"\\xff", WINDOWS)
    (True, False)
    """
    return _core.is_string(string, platform)


def check(string: bytes, platform: Platform = UNIX) -> None:
    """Raises `FaultError`, with the first fault, unless bytes are a string of the platform.

    >>> check(b"\\xed\\xa0\\x80", WINDOWS)
    """
    _core.check(string, platform)


class Checker:
    """Checks bytes that arrive in pieces, for Windows (WTF-8).

    >>> checker = Checker()
    >>> checker.feed(b"\\xed\\xa0")
    >>> checker.feed(b"\\x80")
    >>> checker.finish()
    """

    def __init__(self) -> None:
        self._state = _core.checker_new()

    def feed(self, piece: bytes) -> None:
        """Reads one more piece.

        Raises `FaultError`, in this call and in each later one, as soon as no further byte can make the bytes WTF-8.
        """
        _core.checker_feed(self._state, piece)

    def finish(self) -> None:
        """Raises `FaultError` unless all the pieces, joined, are WTF-8."""
        _core.checker_finish(self._state)


def to_units(string: AnyOsName) -> list[int]:
    """Returns the 16-bit code units of a string of Windows.

    Raises `FaultError` if bytes aren't WTF-8.

    >>> [hex(unit) for unit in to_units("\\U0001f600")]
    ['0xd83d', '0xde00']
    """
    return _core.to_units(string)


def from_units(units: Iterable[int]) -> bytes:
    """Returns the string of Windows that has these 16-bit code units, which may be any.

    Raises `OverflowError` if a number isn't a code unit.

    >>> from_units([0x61, 0xD83D])
    b'a\\xed\\xa0\\xbd'
    """
    only_list(units)
    return _core.from_wide(array("H", units).tobytes())


def display(string: AnyOsName, platform: Platform = UNIX) -> str:
    """Returns the text that shows a string to people. U+FFFD replaces whatever isn't text.

    Raises `FaultError` if the argument isn't a string of the platform.

    >>> display(b"a\\xffb")
    'a\\ufffdb'
    """
    return _core.display(string, platform)


def escape(string: AnyOsName, platform: Platform = UNIX) -> str:
    """Returns the escape of a string, a text that no other string of the platform has. `unescape` reverses it.

    Each backslash is doubled. A unit that isn't part of a text is written `\\\\xHH` below 100 (hexadecimal), and `\\\\uHHHH`
    from there on. Everything else is unchanged.

    Raises `FaultError` if the argument isn't a string of the platform.

    >>> escape(b"a\\\\\\xff\\n")
    'a\\\\\\\\\\\\xFF\\n'
    """
    return _core.escape(string, platform)


def escape_line(string: AnyOsName, platform: Platform = UNIX) -> str:
    """Returns the escape of a string on one line, for logs and terminals. `unescape_line` reverses it.

    As `escape`, but characters that don't show, or that move what is shown, are also written `\\\\uHHHH` or `\\\\u{HHHHH}`.
    These are control characters, line separators, bidirectional controls, private use and such, and a space at the end. It
    doesn't find names that look alike.

    Raises `FaultError` if the argument isn't a string of the platform.

    >>> escape_line("a\\u202eb\\n")
    'a\\\\u202Eb\\\\u000A'
    """
    return _core.escape_line(string, platform)


def unescape(text: str, platform: Platform = UNIX) -> bytes:
    """Returns the string of the platform that has this escape. An escape is a `str`, of `bytes` too; the result is `bytes`.

    Raises `BadEscapeError` if a backslash doesn't begin a token, and `NoStringError` if no string has this escape.

    >>> unescape("a\\\\xFF")
    b'a\\xff'
    """
    return _core.unescape(text, platform)


def unescape_line(text: str, platform: Platform = UNIX) -> bytes:
    """Returns the string of the platform that has this escape on one line. Raises as `unescape` does.

    >>> unescape_line("a\\\\u000A")
    b'a\\n'
    """
    return _core.unescape_line(text, platform)


def find(string: bytes, pattern: OsString) -> int:
    """Returns the index of the first occurrence of a text in the bytes of a string, or -1.

    The text is a `str`, or the `bytes` of one. Raises `PatternError` if it isn't valid UTF-8, since a string can't be
    cut there.

    >>> find(b"a\\xff.txt", ".")
    2
    """
    return _core.find(string, pattern)


def rfind(string: bytes, pattern: OsString) -> int:
    """Returns the index of the last occurrence of a text in the bytes of a string, or -1. Raises as `find` does.

    >>> rfind(b"a.tar.gz", ".")
    5
    """
    return _core.rfind(string, pattern)


def contains(string: bytes, pattern: OsString) -> bool:
    """Returns whether a text occurs in a string. Raises as `find` does.

    >>> contains(b"a.tar.gz", ".tar")
    True
    """
    return _core.contains(string, pattern)


def starts_with(string: AnyOsName, prefix: AnyOsName, platform: Platform = UNIX) -> bool:
    """Returns whether the units of a string start with those of another. On Windows half of a surrogate pair counts.

    Both are `str`, or both `bytes`. Raises `FaultError` if one isn't a string of the platform.

    >>> starts_with("\\U0001f600", "\\ud83d", WINDOWS)
    True
    """
    return _core.starts_with(string, prefix, platform)


def ends_with(string: AnyOsName, suffix: AnyOsName, platform: Platform = UNIX) -> bool:
    """Returns whether the units of a string end with those of another. Raises as `starts_with` does.

    >>> ends_with(b"a.txt", b".txt")
    True
    """
    return _core.ends_with(string, suffix, platform)


def is_boundary(string: bytes, index: int) -> bool:
    """Returns whether the bytes of a string may be cut at an index. An index that is negative or past the end isn't one.

    >>> is_boundary("\\xe9".encode(), 1)
    False
    """
    return _core.is_boundary(string, index)


def compare(a: bytes, b: bytes) -> int:
    """Returns -1, 0 or 1 as the bytes of a string are less than, equal to or greater than those of another.

    >>> compare(b"a", b"b")
    -1
    """
    return _core.compare(a, b)


def split(string: bytes, pattern: OsString, maxsplit: int = -1) -> list[bytes]:
    """Returns the pieces of a string between the occurrences of a text, as `bytes.split` does.

    At most `maxsplit` occurrences, from the start on, are taken if it isn't negative. Raises `PatternError` if the text
    is empty or isn't valid UTF-8.

    >>> split(b"a,\\xff,,b", ",")
    [b'a', b'\\xff', b'', b'b']
    >>> split(b"a,b,c", ",", 1)
    [b'a', b'b,c']
    """
    return _core.split(string, pattern, maxsplit)


def rsplit(string: bytes, pattern: OsString, maxsplit: int = -1) -> list[bytes]:
    """Returns the pieces of a string between the occurrences of a text, as `bytes.rsplit` does: in their order.

    Occurrences are found from the end, and at most `maxsplit` of them if it isn't negative. Raises as `split` does.

    >>> rsplit(b"a,b,c", ","), rsplit(b"a,b,c", ",", 1)
    ([b'a', b'b', b'c'], [b'a,b', b'c'])
    """
    return _core.rsplit(string, pattern, maxsplit)


def chunks(string: bytes) -> Iterator[tuple[bytes, str]]:
    """Iterates over the chunks of a string: a part without whole characters, and the text after it.

    >>> list(chunks(b"ab\\xffc"))
    [(b'', 'ab'), (b'\\xff', 'c')]
    """
    return chain.from_iterable(iter(partial(_core.more_chunks, _core.chunks(string)), None))


class Character(NamedTuple):
    """A whole character of a string."""

    text: str


class Unit(NamedTuple):
    """A unit that isn't part of a text: a byte of Unix, or a lone surrogate."""

    value: int


def symbols(string: AnyOsName, platform: Platform = UNIX) -> Iterator[Character | Unit]:
    """Iterates over the symbols of a string: its whole characters, and the units of whatever isn't text.

    Raises `FaultError`, in the call itself, if the argument isn't a string of the platform.

    >>> list(symbols(b"a\\xff"))
    [Character(text='a'), Unit(value=255)]
    """
    items: Iterator[str | int] = chain.from_iterable(iter(partial(_core.more_symbols, _core.symbols(string, platform)), None))
    return map(_SYMBOLS.__getitem__, items)


class _Symbols(Dict[Union[str, int], Union[Character, Unit]]):
    """The symbols by what the module gives for each: a text or a number. It keeps those that are used most."""

    def __missing__(self, of: str | int) -> Character | Unit:
        symbol: Character | Unit = Character(of) if isinstance(of, str) else Unit(of)
        return self.setdefault(of, symbol) if len(self) < 4096 else symbol


_SYMBOLS = _Symbols()


def version() -> str:
    """Returns the version of libosbytes, as `0.3.0`.

    >>> version().count(".")
    2
    """
    return _core.version()

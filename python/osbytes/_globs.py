"""Path patterns."""

# mypy: disable-error-code="no-any-return"
from __future__ import annotations

from enum import IntFlag
from typing import Any, Iterable

from . import _core
from ._strings import UNIX, WINDOWS, AnyOsName, Platform, as_platform

__all__ = [
    "Glob", "GlobFlag", "GlobSet",
]  # fmt: skip


class GlobFlag(IntFlag):
    """How patterns are read and matched."""

    SLASH = 1
    BACKSLASH = 2
    LITERAL_DOT = 4
    ESCAPES = 8
    CLASS_ESCAPES = 16
    ANY_CASE = 32


_BAD_OPTION = 22


class GlobSet:
    """Path patterns that are compiled once and matched together. A path matches if one of them matches all of it.

    `?` is any character and `*` any characters, but no separator. `[a-z]` and `[!a-z]` are classes, `{a,b}` is either, and
    a component `**` is any number of components. By default a `/` separates, on Windows a `\\` does too, and elsewhere a
    `\\` quotes the next character. `GlobFlag`s, added, replace these defaults.

    Raises `GlobError` if a pattern is malformed, and `NulError` if one has a NUL. A set can be used by any number of
    threads, and can be pickled and copied.

    >>> globs = GlobSet(["**/*.c", "*.h"])
    >>> globs.is_match("a/b.c"), globs.matches(["a/b.h", "c.h"])
    (True, [False, True])
    """

    def __init__(self, patterns: Iterable[AnyOsName], flags: int | None = None, platform: Platform = UNIX) -> None:
        platform = as_platform(platform)
        usual = GlobFlag.SLASH | (GlobFlag.BACKSLASH if platform == WINDOWS else GlobFlag.ESCAPES)
        if flags is not None and (not isinstance(flags, int) or isinstance(flags, bool)):
            raise TypeError(f"expected GlobFlag or None, not {type(flags).__name__}")
        if flags is not None and not 0 <= flags < 2 * GlobFlag.ANY_CASE:
            raise ValueError(_core.status_text(_BAD_OPTION))
        self._platform = platform
        self._flags = GlobFlag(usual if flags is None else flags)
        self._handle, self._patterns = _core.globs_new(patterns, self._flags, platform)

    def __reduce__(self) -> tuple[Any, ...]:
        return _remade, (type(self), self._patterns, int(self._flags), self._platform)

    def __repr__(self) -> str:
        return f"{type(self).__name__}({self._shown()}, {self._flags!r}, {self._platform!r})"

    def _shown(self) -> str:
        return repr(self._patterns)

    def matches(self, paths: Iterable[AnyOsName]) -> list[bool]:
        """Returns for each path whether it matches, by one call of the library: faster than `is_match` from about ten paths on."""
        return _core.globs_matches(self._handle, paths)

    def is_match(self, path: AnyOsName) -> bool:
        """Returns whether a path matches.

        Raises `NulError` if it has a NUL, and `FaultError` if it isn't a string of the platform.
        """
        return _core.globs_is_match(self._handle, path)


class Glob(GlobSet):
    """A path pattern, compiled once: a `GlobSet` of one.

    >>> Glob("*.{c,h}").is_match("a.h"), Glob("*.c").is_match("a/b.c"), Glob("?").is_match(b"\\xff")
    (True, False, True)
    """

    def __init__(self, pattern: AnyOsName, flags: int | None = None, platform: Platform = UNIX) -> None:
        super().__init__([pattern], flags, platform)

    def _shown(self) -> str:
        return repr(self._patterns[0])


def _remade(of: type[GlobSet], patterns: list[bytes], flags: int, platform: Platform) -> GlobSet:
    """Returns a set again that was pickled."""
    return Glob(patterns[0], flags, platform) if issubclass(of, Glob) else of(patterns, flags, platform)

"""The exceptions of this package."""

from __future__ import annotations

from enum import IntEnum
from typing import Any

__all__ = [
    "BadEscapeError", "ConvertError", "ExtensionError", "FaultError", "GlobError", "GlobFaultKind", "JoinError",
    "JoinReason", "LineError", "LineKind", "MissingValueError", "NoStringError", "NulError", "OsBytesError", "PatternError",
    "QuoteError", "UnexpectedValueError",
]  # fmt: skip


class JoinReason(IntEnum):
    """Why a path isn't below a base. `RESERVED` is also a name that has one of `<>"|?*` or a control character, or ends with a
    space or a dot."""

    PREFIX = 1
    ROOT = 2
    LEAVES = 3
    STREAM = 4
    RESERVED = 5
    BASE = 6
    NUL = 7
    BASE_NUL = 8


class GlobFaultKind(IntEnum):
    """What is wrong with a pattern."""

    UNCLOSED_CLASS = 1
    REVERSED_RANGE = 2
    UNKNOWN_CLASS = 3
    DANGLING_ESCAPE = 4
    UNCLOSED_BRACE = 5
    UNOPENED_BRACE = 6
    TOO_MANY = 7


class LineKind(IntEnum):
    """What begins at the index of a `LineError`."""

    SINGLE_QUOTE = 1
    DOUBLE_QUOTE = 2
    DOLLAR_QUOTE = 3
    BACKSLASH = 4
    SPECIAL = 5
    ESCAPE = 6


class OsBytesError(ValueError):
    """The base class of this package's exceptions, which is a `ValueError`.

    `index` is where in an argument the error is: a byte of `bytes`, a character of a `str`. `which` is the number of the
    argument in a list of them. Both count from 0, and are `None` where they mean nothing. An exception can be pickled
    and copied, with its attributes.
    """

    def __init__(self, text: str = "", *, index: int | None = None, which: int | None = None, **more: Any) -> None:
        super().__init__(text)
        self.index = index
        self.which = which
        # The attributes that a class declares. Pickle restores them after a call with the text alone.
        self.__dict__.update(more)


class FaultError(OsBytesError):
    """The argument isn't a string of the platform.

    `index` is the length of the prefix that is well formed, and `count` is the number of bytes that are rejected with
    it. Both are `None` if a `Checker` raised the error, since it keeps no bytes.
    """

    count: int | None = None


class PatternError(OsBytesError):
    """The text to search for is empty where it may not be, or isn't valid UTF-8."""


class BadEscapeError(OsBytesError):
    """The text isn't an escape, since the backslash at `index` doesn't begin a token."""


class NoStringError(OsBytesError):
    """The text isn't the escape of a string of the platform, although each backslash in it begins a token."""


class JoinError(OsBytesError):
    """The path isn't below its base. `reason` is a `JoinReason`. If it is a NUL, `index` is the first one. If a component of
    the path is at fault, `component` is the number, from 0, of the first one."""

    reason: JoinReason | None = None
    component: int | None = None


class ConvertError(OsBytesError):
    """The other platform has no such path. `component` is the number, from 0, of the first component that it can't have."""

    component: int | None = None


class ExtensionError(OsBytesError):
    """The extension contains a separator."""


class GlobError(OsBytesError):
    """A pattern is malformed. `which` is the pattern's number in the list, and `kind`, a `GlobFaultKind`, is the error at
    `index`."""

    kind: GlobFaultKind | None = None


class NulError(OsBytesError):
    """A NUL is where none can be: in a word of a shell, an argument, a pattern, or a path that is matched. `index` is the
    first one."""


class QuoteError(OsBytesError):
    """The name of a program contains a quotation mark, which a command line of Windows can't have there. `index` is the
    first one."""


class UnexpectedValueError(OsBytesError):
    """An option has a `value` that wasn't taken: `--name=value` where the option takes none. `value` has the type of the
    arguments."""

    value: Any = None


class MissingValueError(OsBytesError):
    """An option needs a value, and no argument is left."""


class LineError(OsBytesError):
    """The line isn't a list of words. `kind` is a `LineKind`: what begins at `index`."""

    kind: LineKind | None = None


# What the numbers of the kinds mean, from 1 on.
_REASONS = (
    "",
    "the path has a prefix",
    "the path has a root",
    "the path leaves the base",
    "the path has a colon",
    "the path has a name that Windows reserves, rejects or changes",
    "the base isn't a place of its own",
    "the path has a NUL",
    "the base has a NUL",
)
_LINES = (
    "",
    "unclosed single quote",
    "unclosed double quote",
    "unclosed $'",
    "backslash at the end",
    "special character",
    "unknown escape in $'..'",
)
# The exceptions of statuses of the library.
_OF_STATUSES: dict[int, type[OsBytesError]] = {
    5: BadEscapeError,
    6: NoStringError,
    7: NulError,
    9: QuoteError,
    17: PatternError,
    23: ExtensionError,
}
_FAULTY, _BAD_LINE, _BAD_PATH, _BAD_PATTERN = 1, 8, 12, 17


def refusal(status: int, text: str | None, index: int, which: int, kind: int, count: int) -> OsBytesError:
    """Returns the exception for a status of the library, with its text. A place that isn't known is -1."""
    at, item = (None if index < 0 else index), (None if which < 0 else which)
    if status == _FAULTY:
        return FaultError(text or f"invalid UTF-8 from index {at}", index=at, which=item, count=None if count < 0 else count)
    if status == _BAD_LINE:
        return LineError(f"{_LINES[kind]} (index {at})", kind=LineKind(kind), index=at)
    if status == _BAD_PATH and not kind:
        return ConvertError(text or "", component=at)
    if status == _BAD_PATH:
        reason = JoinReason(kind)
        if reason in (JoinReason.NUL, JoinReason.BASE_NUL):
            return JoinError(_REASONS[kind], reason=reason, index=at)
        if reason in (JoinReason.LEAVES, JoinReason.STREAM, JoinReason.RESERVED):
            return JoinError(f"{_REASONS[kind]} at component {at}", reason=reason, component=at)
        return JoinError(_REASONS[kind], reason=reason)
    if status == _BAD_PATTERN and kind:
        fault = GlobFaultKind(kind)
        text = f"{fault.name.lower().replace('_', ' ')} (pattern {item}, index {at})"
        return GlobError(text, kind=fault, which=item, index=at)
    found = [f"{name} {place}" for name, place in (("argument", item), ("index", at)) if place is not None]
    return _OF_STATUSES.get(status, OsBytesError)(f"{text} ({', '.join(found)})" if found else text or "", index=at, which=item)

"""Platforms and their strings, and what the module `_core` asks for: an error, and the bytes of a `str` that isn't UTF-8."""

from __future__ import annotations

import os
from enum import IntEnum
from typing import AnyStr, Final, Union

from ._errors import FaultError, refusal

__all__ = [
    "OsName", "OsString", "Platform", "UNIX", "WASM", "WINDOWS",
]  # fmt: skip


class Platform(IntEnum):
    """The platform whose strings a call takes."""

    UNIX = 0
    WINDOWS = 1
    WASM = 2


UNIX: Final = Platform.UNIX
WINDOWS: Final = Platform.WINDOWS
WASM: Final = Platform.WASM

# A string of a platform: its bytes, or the `str` that Python makes of them.
OsString = Union[str, bytes]
# The same, or an object with `__fspath__`, where a call returns the type that it was given.
OsName = Union[AnyStr, os.PathLike[AnyStr]]
# Any of these, where it doesn't matter which.
AnyOsName = Union[OsString, os.PathLike[str], os.PathLike[bytes]]


def as_platform(platform: object) -> Platform:
    """Returns a platform, also of its number. Any other value raises `TypeError` or `ValueError`."""
    if isinstance(platform, Platform):
        return platform
    if isinstance(platform, int) and not isinstance(platform, bool):
        return Platform(platform)
    raise TypeError(f"expected a Platform, not {type(platform).__name__}")


def bytes_of(text: str, platform: int, which: int) -> bytes:
    """Returns the bytes of a `str` with surrogates, the item of a list of this number unless it is -1."""
    if platform == WINDOWS:
        units = text.encode("utf-16-le", "surrogatepass")
        return units.decode("utf-16-le", "surrogatepass").encode("utf-8", "surrogatepass")
    try:
        return text.encode("utf-8", "surrogateescape")
    except UnicodeEncodeError as error:
        surrogate, name = f"U+{ord(text[error.start]):04X}", Platform(platform).name.title()
        said = f"a string of {name} can't have the surrogate {surrogate} at index {error.start}"
        at, count = error.start, error.end - error.start
        raise FaultError(said, index=at, count=count, which=None if which < 0 else which) from None


def only_list(items: object) -> None:
    """Raises `TypeError` if one string is given for a list."""
    if isinstance(items, (str, bytes, bytearray, memoryview, os.PathLike)):
        raise TypeError(f"expected an iterable of items, not {type(items).__name__}")

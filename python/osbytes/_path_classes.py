"""Paths as objects with the names of `pathlib.PurePath` (README.md lists the differences), of either platform on any platform."""

from __future__ import annotations

import os
from functools import total_ordering
from typing import Any, ClassVar, Sequence, TypeVar, overload
from urllib.parse import quote_from_bytes

from . import _core
from ._calls import decode, encode
from ._errors import ExtensionError, JoinError, JoinReason, OsBytesError
from ._globs import Glob, GlobFlag
from ._path_building import path_convert, path_join_checked, path_relative
from ._paths import (
    Kind,
    path_components,
    path_ends_with,
    path_extension,
    path_is_absolute,
    path_prefix,
    path_starts_with,
    path_strip_prefix,
)
from ._strings import UNIX, WINDOWS, AnyOsName, OsString, Platform

__all__ = [
    "OsPath", "UnixPath", "WindowsPath",
]  # fmt: skip

_BAD_EXTENSION = 23
# The kinds as the module gives them.
_PREFIX, _ROOT, _CURRENT = map(int, (Kind.PREFIX, Kind.ROOT, Kind.CURRENT))

P = TypeVar("P", bound="OsPath")
Q = TypeVar("Q", bound="OsPath")


@total_ordering
class OsPath:
    """What `UnixPath` and `WindowsPath` have in common. A path never touches the file system, and never changes."""

    __slots__ = ("_drive", "_names", "_root", "_text")

    platform: ClassVar[Platform]
    _separator: ClassVar[str]
    _drive: str
    _root: str
    _names: tuple[str, ...]
    _text: str

    def __new__(cls: type[P], *segments: AnyOsName) -> P:
        """Returns the path of segments, each joined to those before it; of none, the current directory.

        A segment is a `str`, `bytes`, or an object with `__fspath__`. Raises `FaultError` if it isn't a string of the
        platform, and `TypeError` if it is a path of the other platform: `convert` makes one of it.
        """
        if cls is OsPath:
            raise TypeError("OsPath is a base class: use UnixPath or WindowsPath")
        text = ""
        for segment in segments:
            read = cls._read(segment)
            text = _core.path_join(text, read, cls.platform) if text else read
        return cls._made(text)

    @classmethod
    def _read(cls, segment: AnyOsName) -> str:
        if isinstance(segment, OsPath) and segment.platform != cls.platform:
            raise TypeError(f"expected a path of {cls.platform.name.title()}, not {type(segment).__name__}")
        text: str = _core.decode(segment, cls.platform)
        return text

    @classmethod
    def _made(cls: type[P], text: str) -> P:
        """Returns the path of a text: its components, with one separator between them."""
        fields = _core.path_components(text, cls.platform)
        drive, root, is_current, first = "", "", False, 0
        # a prefix, a root and a dot come before the names, each at most once
        if fields and fields[0] == _PREFIX:
            drive, first = fields[1] if fields[1].startswith("\\\\?\\") else fields[1].replace("/", "\\"), 2
        if fields[first : first + 1] == [_ROOT]:
            root, first = cls._separator, first + 2
        elif not drive and fields[:1] == [_CURRENT]:
            is_current, first = True, 2
        names = tuple(fields[first + 1 :: 2])
        path = object.__new__(cls)
        path._drive, path._root, path._names = drive, root, names
        text = drive + root + cls._separator.join(names)
        if cls.platform is WINDOWS and not drive and not root and path_prefix(text, WINDOWS) is not None:
            # a first name such as `C:` would be a drive
            text = f".{cls._separator}{text}"
        elif is_current and not names:
            text = ""
        path._text = text
        return path

    def _with(self: P, names: tuple[str, ...]) -> P:
        """Returns the path that begins as this one and has these names."""
        path = object.__new__(type(self))
        path._drive, path._root, path._names = self._drive, self._root, names
        begins = "." + self._separator if self._text.startswith("." + self._separator) and names else ""
        path._text = begins + self._drive + self._root + self._separator.join(names)
        return path

    def __str__(self) -> str:
        return self._text or "."

    def __fspath__(self) -> str:
        return self._text or "."

    def __bytes__(self) -> bytes:
        return encode(str(self), self.platform)

    def __repr__(self) -> str:
        return f"{type(self).__name__}({str(self)!r})"

    def __reduce__(self) -> tuple[Any, ...]:
        return type(self), (self._text,)

    def _key(self) -> tuple[str, str, tuple[str, ...]]:
        # the drives C: and c: are equal
        is_drive = self._drive[-1:] == ":" and len(self._drive.removeprefix("\\\\?\\")) == 2
        return self._drive.upper() if is_drive else self._drive, self._root, self._names

    def __eq__(self, other: object) -> bool:
        if not isinstance(other, OsPath) or other.platform != self.platform:
            return NotImplemented
        return self._key() == other._key()

    def __lt__(self, other: object) -> bool:
        if not isinstance(other, OsPath) or other.platform != self.platform:
            return NotImplemented
        return self._key() < other._key()

    def __hash__(self) -> int:
        return hash(self._key())

    def __truediv__(self: P, segment: AnyOsName) -> P:
        if not isinstance(segment, (str, bytes, os.PathLike)):
            return NotImplemented
        return self.joinpath(segment)

    def __rtruediv__(self: P, base: AnyOsName) -> P:
        if not isinstance(base, (str, bytes, os.PathLike)):
            return NotImplemented
        return type(self)(base, self)

    @property
    def drive(self) -> str:
        """The prefix of a path of Windows, as `C:` or `\\\\\\\\server\\\\share`, or the empty string."""
        return self._drive

    @property
    def root(self) -> str:
        """The root, or the empty string."""
        return self._root

    @property
    def anchor(self) -> str:
        """The drive and the root."""
        return self._drive + self._root

    @property
    def parts(self) -> tuple[str, ...]:
        """The anchor, if there is one, and the names."""
        return (self.anchor, *self._names) if self.anchor else self._names

    @property
    def parent(self: P) -> P:
        """The path without its last name; a path without names is its own parent."""
        return self._with(self._names[:-1]) if self._names else self

    @property
    def parents(self: P) -> Sequence[P]:
        """The parent, its parent, and so on. Each is made when it is used."""
        return Parents(self)

    @property
    def name(self) -> str:
        """The last name, or the empty string."""
        return self._names[-1] if self._names else ""

    @property
    def suffix(self) -> str:
        """The last dot of the name and what follows it, or the empty string if the name has none after its first character."""
        extension = path_extension(self._text, self.platform) if self.name not in ("", "..") else None
        return "" if extension is None else f".{extension}"

    @property
    def stem(self) -> str:
        """The name without its suffix."""
        return self.name[: len(self.name) - len(self.suffix)]

    @property
    def suffixes(self) -> list[str]:
        """The suffixes of the name, as `.tar` and `.gz` of `x.tar.gz`. Dots at its start begin none."""
        return [f".{suffix}" for suffix in self.name.lstrip(".").split(".")[1:]]

    def as_posix(self) -> str:
        """Returns the text of the path with `/` as its separator."""
        return str(self).replace(self._separator, "/")

    def as_uri(self) -> str:
        """Returns the `file:` URI of the path (RFC 8089), whose bytes are escaped. Raises `OsBytesError` if it isn't absolute."""
        if not self.is_absolute():
            raise OsBytesError("relative path can't be expressed as a file URI")
        raw = encode(self.as_posix(), self.platform)
        if self._drive[1:] == ":":
            return f"file:///{self._drive}{quote_from_bytes(raw[2:])}"
        return ("file:" if self._drive else "file://") + quote_from_bytes(raw)

    def is_reserved(self) -> bool:
        """Returns whether Windows reserves a name of the path, as `nul.txt`, rejects or changes it, as `os.path.isreserved` of
        Python 3.13 does. On Unix none is reserved."""
        return self.platform is WINDOWS and any(_is_reserved(name) for name in self._names)

    def match(self, pattern: AnyOsName) -> bool:
        """Returns whether the last names match those of a pattern. If it has an anchor, that is equal and all names match.

        Names are matched by the patterns of `Glob`, without separators and escapes: `{a,b}` is either, and upper and lower
        case differ, also on Windows. `**` is `*`. Raises `GlobError` if a name of the pattern is malformed, and `OsBytesError` if there is none.
        """
        wanted = self._made(self._read(pattern))
        if not wanted.anchor and not wanted._names:
            raise OsBytesError("empty pattern")
        count = len(wanted._names)
        if wanted.anchor and (wanted._key()[:2] != self._key()[:2] or count != len(self._names)) or count > len(self._names):
            return False
        last = self._names[len(self._names) - count :]
        return all(Glob(own, 0, self.platform).is_match(name) for own, name in zip(wanted._names, last))

    def full_match(self, pattern: AnyOsName) -> bool:
        """Returns whether the whole path matches a pattern, in which `**` is any number of names. Else as `match`."""
        wanted = self._made(self._read(pattern))
        if wanted._key()[:2] != self._key()[:2]:
            return False
        if not self._names:
            return all(name == "**" for name in wanted._names)
        return Glob("/".join(wanted._names), GlobFlag.SLASH, self.platform).is_match("/".join(self._names))

    def is_absolute(self) -> bool:
        """Returns whether the path has a root, and on Windows a drive too."""
        return path_is_absolute(self._text, self.platform)

    def joinpath(self: P, *segments: AnyOsName) -> P:
        """Returns the path of this one and these segments, as `/` does."""
        text = self._text
        for segment in segments:
            text = _core.path_join(text, self._read(segment), self.platform)
        return self._made(text)

    def joinpath_checked(self: P, path: AnyOsName) -> P:
        """Returns a path below this one, whatever `path` is. Raises `JoinError` as `path_join_checked` does."""
        return self._made(path_join_checked(self._text, self._read(path), self.platform))

    def is_relative_to(self, other: AnyOsName) -> bool:
        """Returns whether the path begins with the components of another."""
        base = self._made(self._read(other))
        return self._may_begin_with(base) and path_starts_with(self._text, base._text, self.platform)

    def _may_begin_with(self, base: OsPath) -> bool:
        """Returns whether the anchors allow it: as in pathlib, a path with an anchor isn't relative to the current directory."""
        return not self.anchor or bool(base.anchor)

    def relative_to(self: P, other: AnyOsName, *, walk_up: bool = False) -> P:
        """Returns the path relative to another, with `..` where it has to if `walk_up` is true.

        Raises `OsBytesError`, which is a `ValueError`, if there is none.
        """
        base = self._made(self._read(other))
        rest = path_strip_prefix(self._text, base._text, self.platform) if self._may_begin_with(base) else None
        if rest is None and walk_up:
            rest = path_relative(self._text, base._text, self.platform)
        if rest is None:
            raise OsBytesError(f"{str(self)!r} is not in the subpath of {str(base)!r}")
        return self._made(f".{self._separator}{rest}" if rest and path_prefix(rest, self.platform) else rest)

    def with_name(self: P, name: OsString) -> P:
        """Returns the path with another last name. Raises `OsBytesError` if there is none, or `name` isn't one name."""
        text = decode(name, self.platform)
        kinds = [part.kind for part in path_components(text, self.platform)]
        if not self.name:
            raise OsBytesError(f"{str(self)!r} has an empty name")
        if kinds != [Kind.NAME] or not path_ends_with(text, text, self.platform) or text[-1] in ("/", self._separator):
            raise OsBytesError(f"Invalid name {text!r}")
        return self._with((*self._names[:-1], text))

    def with_stem(self: P, stem: OsString) -> P:
        """Returns the path with another stem of its last name. Raises as `with_name` does."""
        return self.with_name(decode(stem, self.platform) + self.suffix)

    def with_suffix(self: P, suffix: OsString) -> P:
        """Returns the path with another suffix of its last name, as `.gz`. An empty one removes it.

        Raises `OsBytesError` if there is no last name, or the suffix doesn't begin with a dot or is one dot, and
        `ExtensionError` if it has a separator.
        """
        text = decode(suffix, self.platform)
        if text and (not text.startswith(".") or text == "."):
            raise OsBytesError(f"Invalid suffix {text!r}")
        if self.name in ("", ".."):
            raise OsBytesError(f"{str(self)!r} has an empty name")
        if "/" in text or self._separator in text:
            raise ExtensionError(_core.status_text(_BAD_EXTENSION))
        name = self.stem + text
        # `..x` without its suffix is the current directory
        return self._with((*self._names[:-1], name) if name != "." else self._names[:-1])

    def convert(self, to: type[Q]) -> Q:
        """Returns the path of the class `to` that has the same components. Raises `ConvertError` if there is none."""
        return to(path_convert(self._text, platform=self.platform, to=to.platform))


class Parents(Sequence[P]):
    """The parents of a path."""

    __slots__ = ("_path",)

    def __init__(self, path: P) -> None:
        self._path = path

    def __len__(self) -> int:
        return len(self._path._names)

    @overload
    def __getitem__(self, index: int) -> P: ...

    @overload
    def __getitem__(self, index: slice) -> tuple[P, ...]: ...

    def __getitem__(self, index: int | slice) -> P | tuple[P, ...]:
        if isinstance(index, slice):
            return tuple(self[it] for it in range(*index.indices(len(self))))
        names = range(len(self) - 1, -1, -1)[index]
        return self._path._with(self._path._names[:names])

    def __repr__(self) -> str:
        return f"<{type(self._path).__name__}.parents>"


def _is_reserved(name: str) -> bool:
    """Returns whether Windows reserves a name or changes it."""
    try:
        path_join_checked(".", name, WINDOWS)
    except JoinError as error:
        return error.reason in (JoinReason.PREFIX, JoinReason.RESERVED, JoinReason.STREAM)
    return False


class UnixPath(OsPath):
    """A path of Unix, on any platform.

    >>> path = UnixPath("/usr") / "lib//x.tar.gz"
    >>> path, path.name, path.suffix, path.parent
    (UnixPath('/usr/lib/x.tar.gz'), 'x.tar.gz', '.gz', UnixPath('/usr/lib'))
    >>> UnixPath(b"a/\\xff").parts
    ('a', '\\udcff')
    """

    __slots__ = ()
    platform = UNIX
    _separator = "/"


class WindowsPath(OsPath):
    """A path of Windows, on any platform, of any 16-bit code units.

    Two rules differ from those of `pathlib.PureWindowsPath`. Names that differ in case are different, since a directory of
    Windows can be case sensitive; drives are equal in either case. A segment with a drive replaces the path before it,
    also if the drives are equal.

    >>> path = WindowsPath("C:/work") / "x\\ud83d.txt"
    >>> path, path.parts, path.with_suffix(".gz").name
    (WindowsPath('C:\\\\work\\\\x\\ud83d.txt'), ('C:\\\\', 'work', 'x\\ud83d.txt'), 'x\\ud83d.gz')
    """

    __slots__ = ()
    platform = WINDOWS
    _separator = "\\"

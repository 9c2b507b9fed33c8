"""Parts of paths, and comparisons of paths."""

# mypy: disable-error-code="no-any-return"
from __future__ import annotations

from enum import IntEnum
from typing import Any, AnyStr, Generic, Iterator

from . import _core
from ._strings import UNIX, AnyOsName, OsName, Platform

__all__ = [
    "Component", "Kind", "path_components", "path_ends_with", "path_extension", "path_file_name", "path_file_stem",
    "path_has_root", "path_is_absolute", "path_parent", "path_prefix", "path_starts_with", "path_strip_prefix",
]  # fmt: skip


class Kind(IntEnum):
    """What a component of a path is."""

    PREFIX = 1
    ROOT = 2
    CURRENT = 3
    PARENT = 4
    NAME = 5


# By their numbers, which begin at 1.
_KINDS = (Kind.NAME, *Kind)


class Component(Generic[AnyStr]):
    """A component of a path: its `kind` and its `text`, which is empty for a root that a prefix implies.

    It is unpacked as `kind, text`.
    """

    __slots__ = ("kind", "text")
    kind: Kind
    text: AnyStr

    def __init__(self, kind: Kind, text: AnyStr) -> None:
        self.kind = kind
        self.text = text

    def __iter__(self) -> Iterator[Any]:
        return iter((self.kind, self.text))

    def __eq__(self, other: object) -> bool:
        return isinstance(other, Component) and (self.kind, self.text) == (other.kind, other.text)

    def __hash__(self) -> int:
        return hash((self.kind, self.text))

    def __repr__(self) -> str:
        return f"Component({self.kind!r}, {self.text!r})"


def path_components(path: OsName[AnyStr], platform: Platform = UNIX) -> list[Component[AnyStr]]:
    """Returns the components of a path, as Rust's `std::path` takes it apart.

    Raises `FaultError`, as each call for paths does, if an argument isn't a string of the platform.

    >>> [part.text for part in path_components(r"C:\\a/.\\..", Platform.WINDOWS)]
    ['C:', '\\\\', 'a', '..']
    """
    fields = iter(_core.path_components(path, platform))
    return [Component(_KINDS[kind], text) for kind, text in zip(fields, fields)]


def path_parent(path: OsName[AnyStr], platform: Platform = UNIX) -> AnyStr | None:
    """Returns the path without its last component, or None if there is none, or it is a prefix or a root.

    The parent of a single name is empty.

    >>> path_parent("/usr//lib/")
    '/usr'
    """
    part: AnyStr | None = _core.path_parent(path, platform)
    return part


def path_prefix(path: OsName[AnyStr], platform: Platform = UNIX) -> AnyStr | None:
    """Returns the prefix of a path of Windows, as `C:` or `\\\\\\\\server\\\\share`, or None.

    >>> path_prefix("C:a", Platform.WINDOWS)
    'C:'
    """
    part: AnyStr | None = _core.path_prefix(path, platform)
    return part


def path_file_name(path: OsName[AnyStr], platform: Platform = UNIX) -> AnyStr | None:
    """Returns the last component of a path if it is a name, or None.

    >>> path_file_name("/usr/lib/")
    'lib'
    """
    part: AnyStr | None = _core.path_file_name(path, platform)
    return part


def path_file_stem(path: OsName[AnyStr], platform: Platform = UNIX) -> AnyStr | None:
    """Returns the file name without its extension, or None if there is no file name.

    >>> path_file_stem("a.tar.gz")
    'a.tar'
    """
    part: AnyStr | None = _core.path_file_stem(path, platform)
    return part


def path_extension(path: OsName[AnyStr], platform: Platform = UNIX) -> AnyStr | None:
    """Returns what follows the last dot of the file name, without that dot.

    It is None if there is no dot, or if the name begins with its only one.

    >>> path_extension("a.tar.gz")
    'gz'
    """
    part: AnyStr | None = _core.path_extension(path, platform)
    return part


def path_has_root(path: AnyOsName, platform: Platform = UNIX) -> bool:
    """Returns whether a path has a root.

    >>> path_has_root("/a"), path_has_root("C:a", Platform.WINDOWS)
    (True, False)
    """
    return _core.path_has_root(path, platform)


def path_is_absolute(path: AnyOsName, platform: Platform = UNIX) -> bool:
    """Returns whether a path is absolute: it has a root, and on Windows a prefix too.

    >>> path_is_absolute("C:/a", Platform.WINDOWS), path_is_absolute("/a", Platform.WINDOWS)
    (True, False)
    """
    return _core.path_is_absolute(path, platform)


def path_starts_with(path: AnyOsName, base: AnyOsName, platform: Platform = UNIX) -> bool:
    """Returns whether the first components of a path are those of a base. The drives `C:` and `c:` are equal.

    >>> path_starts_with("/usr/lib", "/usr/"), path_starts_with("/usr/lib", "/us")
    (True, False)
    """
    return _core.path_starts_with(path, base, platform)


def path_ends_with(path: AnyOsName, child: AnyOsName, platform: Platform = UNIX) -> bool:
    """Returns whether the last components of a path are those of a child.

    >>> path_ends_with("/usr/lib/", "lib"), path_ends_with("/usr/lib", "ib")
    (True, False)
    """
    return _core.path_ends_with(path, child, platform)


def path_strip_prefix(path: OsName[AnyStr], base: OsName[AnyStr], platform: Platform = UNIX) -> AnyStr | None:
    """Returns what follows the components of a base in a path, or None if the path doesn't begin with them.

    >>> path_strip_prefix("/usr//lib/a/", "/usr"), path_strip_prefix("/usr/lib", "/us")
    ('lib/a', None)
    """
    return _core.path_strip_prefix(path, base, platform)

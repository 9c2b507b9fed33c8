"""Paths that are built of others."""

# mypy: disable-error-code="no-any-return"
from __future__ import annotations

from typing import Any, AnyStr, overload

from . import _core
from ._strings import UNIX, AnyOsName, OsName, OsString, Platform

__all__ = [
    "path_clean", "path_convert", "path_join", "path_join_checked", "path_normalize", "path_relative",
    "path_with_added_extension", "path_with_extension", "path_with_file_name",
]  # fmt: skip


@overload
def path_join(base: OsName[str], path: OsName[str], platform: Platform = UNIX) -> str: ...


@overload
def path_join(base: OsName[bytes], path: OsName[bytes], platform: Platform = UNIX) -> bytes: ...


@overload  # a str beside bytes has no result
def path_join(base: OsName[str], path: OsName[bytes], platform: Platform = UNIX) -> None: ...  # type: ignore[misc]


@overload
def path_join(base: OsName[bytes], path: OsName[str], platform: Platform = UNIX) -> None: ...  # type: ignore[misc]


@overload
def path_join(base: OsString, path: OsString, platform: Platform = UNIX) -> OsString: ...


def path_join(base: AnyOsName, path: AnyOsName, platform: Platform = UNIX) -> Any:
    """Returns a path after a base, as Rust's `Path::join` and `os.path.join` do.

    A path with a prefix replaces the base, and one with a root all but the base's prefix. Both arguments are `str`, or
    both `bytes`.

    >>> path_join("/usr", "lib"), path_join("/usr", "/lib"), path_join("C:", "a", Platform.WINDOWS)
    ('/usr/lib', '/lib', 'C:a')
    """
    return _core.path_join(base, path, platform)


@overload
def path_join_checked(base: OsName[str], path: OsName[str], platform: Platform = UNIX) -> str: ...


@overload
def path_join_checked(base: OsName[bytes], path: OsName[bytes], platform: Platform = UNIX) -> bytes: ...


@overload  # a str beside bytes has no result
def path_join_checked(base: OsName[str], path: OsName[bytes], platform: Platform = UNIX) -> None: ...  # type: ignore[misc]


@overload
def path_join_checked(base: OsName[bytes], path: OsName[str], platform: Platform = UNIX) -> None: ...  # type: ignore[misc]


@overload
def path_join_checked(base: OsString, path: OsString, platform: Platform = UNIX) -> OsString: ...


def path_join_checked(base: AnyOsName, path: AnyOsName, platform: Platform = UNIX) -> Any:
    """Returns a path below a base, with `.` and `..` resolved, for names that come from an archive or a request.

    Raises `JoinError`, with the reason, if the path has a prefix or a root, or a `..` would leave the base, and on Windows
    also if a name has a colon, is reserved as `nul.txt`, has one of `<>"|?*` or a control character or ends with a space or a
    dot, which Windows rejects or removes, or the base isn't a place of its own, as `\\\\server`. `component` is the number
    of the first component at fault. A NUL in either is rejected, with its index. The file system isn't read, so a symbolic
    link below the base can still lead elsewhere.

    >>> path_join_checked("/srv/files", "./a/../b//c")
    '/srv/files/b/c'
    """
    return _core.path_join_checked(base, path, platform)


def path_relative(path: OsName[AnyStr], base: OsName[AnyStr], platform: Platform = UNIX) -> AnyStr | None:
    """Returns the relative path that leads from a base to a path, or None if there is none.

    From the base to itself it is the empty path.

    >>> path_relative("/usr/lib/a", "/usr/bin"), path_relative("a", "/usr")
    ('../lib/a', None)
    """
    return _core.path_relative(path, base, platform)


def path_normalize(path: OsName[AnyStr], platform: Platform = UNIX) -> AnyStr | None:
    """Returns the normal form of a path: without each `..` and the name before it, and without `.` but at the start.

    It is None if a `..` has no name before it.

    >>> path_normalize("/usr//./lib/../bin/"), path_normalize("a/../..")
    ('/usr/bin', None)
    """
    return _core.path_normalize(path, platform)


def path_clean(path: OsName[AnyStr], platform: Platform = UNIX) -> AnyStr:
    """Returns the path cleaned, as Go's `path.Clean` does. A `..` without a name before it is kept, but not at a root.

    On Unix the result is that of `posixpath.normpath`, but two slashes at the start become one. On Windows it is that of
    `ntpath.normpath`, but what the prefix of a path is follows Rust's std, and nothing is resolved of a path that begins with
    `\\\\.\\` or `//?/`, with a name that has a colon, or with two separators and no prefix, as `\\\\server`.

    >>> path_clean("./../a//b/.."), path_clean("/.."), path_clean("")
    ('../a', '/', '.')
    """
    return _core.path_clean(path, platform)


def path_convert(path: OsName[AnyStr], *, to: Platform, platform: Platform = UNIX) -> AnyStr:
    """Returns the path of the platform `to` that has the same components as a path of `platform`.

    Raises `ConvertError` if `to` has no such path, and `FaultError` if the bytes aren't a string of it.

    >>> path_convert("/usr//lib/..", to=Platform.WINDOWS)
    '\\\\usr\\\\lib\\\\..'
    >>> path_convert(r"lib\\a", platform=Platform.WINDOWS, to=Platform.UNIX)
    'lib/a'
    """
    return _core.path_convert(path, platform, to)


def path_with_file_name(path: OsName[AnyStr], name: OsName[AnyStr], platform: Platform = UNIX) -> AnyStr:
    """Returns a path with another last name. If the path doesn't end in a name, it is added.

    >>> path_with_file_name("/tmp/a.txt", "b"), path_with_file_name("/", "b")
    ('/tmp/b', '/b')
    """
    return _core.path_with_file_name(path, name, platform)


def path_with_extension(path: OsName[AnyStr], extension: OsName[AnyStr], platform: Platform = UNIX) -> AnyStr:
    """Returns a path with another extension of its last name. An empty one removes it.

    The extension is written without its dot, as in Rust: `"gz"`, where `with_suffix` of `UnixPath` and of `pathlib` takes
    `".gz"`. A path that doesn't end in a name is unchanged. Raises `ExtensionError` if the extension has a separator.

    >>> path_with_extension("a/b.txt/", "rs"), path_with_extension("a/b.txt", "")
    ('a/b.rs', 'a/b')
    """
    return _core.path_with_extension(path, extension, platform)


def path_with_added_extension(path: OsName[AnyStr], extension: OsName[AnyStr], platform: Platform = UNIX) -> AnyStr:
    """Returns a path with one more extension after its last name, without its dot. Raises as `path_with_extension` does.

    >>> path_with_added_extension("a/b.tar", "gz")
    'a/b.tar.gz'
    """
    return _core.path_with_added_extension(path, extension, platform)

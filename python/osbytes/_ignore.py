"""Ignore files."""

# mypy: disable-error-code="no-any-return"
from __future__ import annotations

import os
from enum import IntEnum
from threading import Lock
from typing import Any, Iterable, NamedTuple

from . import _core
from ._strings import AnyOsName, OsString

__all__ = [
    "Ignore", "Verdict", "VerdictKind",
]  # fmt: skip


class VerdictKind(IntEnum):
    """What ignore files decide for a path."""

    NEITHER = 0
    IGNORED = 1
    TAKEN_IN = 2


class Verdict(NamedTuple):
    """What ignore files decide for a path.

    `line` is the number, from 1, of the line that decides it, and `file` the number, from 0, of that line's file in the
    order in which they were added. If no line decides, both are 0.
    """

    kind: VerdictKind
    line: int
    file: int = 0


_KINDS = tuple(VerdictKind)


class Ignore:
    """The lines of `.gitignore` files, as git reads them, compiled once.

    `text` is the content of a file, not its path: `Ignore.read` reads one. No line is an error. A file decides for the
    paths below its `directory`, which is relative to the top of the tree, and `add` adds the file of another directory.

    Paths are relative to the top of the tree, and a leading `./` is skipped. A path is a directory if it ends with `/` or
    if `is_dir` is true. An object can be used by any number of threads, and can be pickled and copied.

    >>> ignore = Ignore("*.log\\ntarget/\\n!keep.log")
    >>> [verdict.line for verdict in ignore.matched(["a/b.log", "target", "target/", "keep.log"])]
    [1, 0, 2, 3]
    >>> ignore.is_ignored("target", is_dir=True), ignore.is_ignored("./keep.log")
    (True, False)
    >>> ignore.add("!*.log", "logs")
    >>> ignore.verdict("logs/a.log")
    Verdict(kind=<VerdictKind.TAKEN_IN: 2>, line=1, file=1)
    """

    def __init__(self, text: OsString | None = None, directory: AnyOsName = "") -> None:
        self._lock, self._files, self._handle = Lock(), list[tuple[bytes, bytes]](), _core.ignores_new()
        if text is not None:
            self.add(text, directory)

    @classmethod
    def read(cls, path: AnyOsName, directory: AnyOsName = "") -> Ignore:
        """Reads the ignore file at a path, that of a directory of the tree. Raises `OSError` if it can't be read."""
        ignore = cls()
        ignore.add_file(path, directory)
        return ignore

    def add(self, text: OsString, directory: AnyOsName = "") -> None:
        """Adds the content of an ignore file, that of a directory of the tree. The file of a deeper directory decides first."""
        if not isinstance(text, (str, bytes)):
            raise TypeError(f"expected str or bytes, not {type(text).__name__}")
        # so that the files are listed in the order of their numbers
        with self._lock:
            self._files.append(_core.ignores_add(self._handle, text, directory))

    def add_file(self, path: AnyOsName, directory: AnyOsName = "") -> None:
        """Reads the ignore file at a path, and adds it as `add` does. Raises `OSError` if it can't be read."""
        with open(os.fspath(path), "rb") as file:
            self.add(file.read(), directory)

    def __reduce__(self) -> tuple[Any, ...]:
        return _remade, (self._files.copy(),)

    def __repr__(self) -> str:
        return f"<Ignore of {self._files!r}>"

    def verdict(self, path: AnyOsName, is_dir: bool = False) -> Verdict:
        """Returns what the lines decide for a path. Raises `NulError` if it has a NUL."""
        kind, line, file = _core.ignores_verdict(self._handle, path, is_dir)
        return Verdict(_KINDS[kind], line, file)

    def matched(self, paths: Iterable[AnyOsName]) -> list[Verdict]:
        """Returns what the lines decide for each path. Raises `NulError` if one has a NUL."""
        verdicts = _core.ignores_matched(self._handle, paths)
        return [Verdict(_KINDS[kind], line, file) for kind, line, file in verdicts]

    def is_ignored(self, path: AnyOsName, is_dir: bool = False) -> bool:
        """Returns whether a path is ignored. Raises `NulError` if it has a NUL."""
        return _core.ignores_is_ignored(self._handle, path, is_dir)


def _remade(files: list[tuple[bytes, bytes]]) -> Ignore:
    """Returns ignore files again that were pickled."""
    ignore = Ignore()
    for text, directory in files:
        ignore.add(text, directory)
    return ignore

"""Programs of this checkout that are compiled with checks and without a proof, and kept in out/unproved.

A program is kept in out/unproved/NAME, in a folder that is named by the sum of the sources that it was compiled from.
So an edit of one of them compiles it again. What is older is removed then. The folder is made under another name, so
it is whole or absent.
"""

from __future__ import annotations

import fcntl
import hashlib
import os
import shutil
from contextlib import contextmanager
from pathlib import Path
from typing import Iterator

from sources import CRATES, LIST, ROOT, crates, files_of

ROOM = ROOT / "out" / "unproved"
# The files of a folder: the program, and a text with the kit's folder, whose loader and libraries it runs with, and a
# stamp of the kit.
PROGRAM, KIT = "program", "kit"
LOADER = "ld-linux-x86-64.so.2"


def report(line: str) -> None:
    """Prints a line on standard error, if it can be written to."""
    try:
        os.write(2, f"{line}\n".encode(errors="surrogateescape"))
    except OSError:
        pass


def closure(name: str) -> list[str]:
    """Returns a crate and the crates of this repository that it depends on."""
    listed, found = crates(), [name]
    for it in found:
        found += [below for below in listed[it].uses if below in listed and below not in found]
    return found


def sum_of_sources(name: str) -> str:
    """Returns the sum of the sources that a program is compiled from, and of their lines of crates.txt."""
    listed, of = crates(), closure(name)
    sum = hashlib.sha256(repr([(it, listed[it]) for it in of]).encode())
    for path in (path for it in of for path in files_of(it)):
        sum.update(repr((str(path.relative_to(CRATES)), path.read_bytes())).encode())
    return sum.hexdigest()[:32]


def stamp_of_kit() -> str:
    """Returns what recognizes the kit of `rt`, or nothing if there is no `rt`."""
    place = shutil.which("rt")
    return f"{(real := Path(place).resolve())} {real.stat().st_mtime_ns}" if place else ""


def is_kept(folder: Path) -> bool:
    """Returns whether a folder has a program that can run: with this kit or, if there is no `rt`, with its own."""
    if not (folder / KIT).exists():
        return False
    kit, stamp = (folder / KIT).read_text(encoding="utf-8").splitlines()
    return Path(kit, "toolchain", "lib", LOADER).exists() and stamp_of_kit() in ("", stamp)


def start_words(program: Path, name: str, kit: Path) -> list[str]:
    """Returns the words that start a compiled program by a name."""
    library = kit / "toolchain" / "lib"
    return [f"{library}/{LOADER}", "--inhibit-cache", "--library-path", str(library), "--argv0", name, str(program)]


@contextmanager
def held(folder: Path, name: str) -> Iterator[None]:
    """Locks a folder, and reports if another start has locked it."""
    lock = os.open(folder, os.O_RDONLY)
    try:
        try:
            fcntl.flock(lock, fcntl.LOCK_EX | fcntl.LOCK_NB)
        except BlockingIOError:
            report(f"{name}: waiting for another start, which compiles it")
            fcntl.flock(lock, fcntl.LOCK_EX)
        yield
    finally:
        os.close(lock)


def make(name: str, folder: Path) -> None:
    """Compiles a program into a new folder, and removes what is beside it."""
    # what only a compilation needs would slow each start
    from tempfile import TemporaryDirectory

    from laid_in import compile_checked, copy, kit

    at = kit()
    report(f"{name}: compiling it without a proof, once, which takes about a minute")
    # before a compilation that may have been interrupted
    for path in folder.parent.iterdir():
        shutil.rmtree(path)
    with TemporaryDirectory(prefix="new-", dir=folder.parent) as made:
        stamp = stamp_of_kit()
        with copy() as room:
            compile_checked(room, name, Path(made, PROGRAM))
        Path(made, KIT).write_text(f"{at}\n{stamp}\n", encoding="utf-8")
        os.rename(made, folder)


def kept(name: str) -> list[str]:
    """Returns the words that start a program, which is compiled if it isn't kept."""
    folder = ROOM / name / sum_of_sources(name)
    if not is_kept(folder):
        folder.parent.mkdir(parents=True, exist_ok=True)
        with held(folder.parent, name):
            if not is_kept(folder):
                make(name, folder)
    kit, _ = (folder / KIT).read_text(encoding="utf-8").splitlines()
    return start_words(folder / PROGRAM, name, Path(kit))


def is_proved(name: str) -> bool:
    """Returns whether a program is proved and built, and newer than everything that it was built from."""
    program = CRATES / name / "out" / name
    if not os.access(program, os.X_OK):
        return False
    folders = (CRATES / it / part for it in closure(name) for part in ("src", "specs", "proofs"))
    of = [LIST, *(path for folder in folders if folder.is_dir() for path in (folder, *folder.rglob("*")))]
    return program.stat().st_mtime >= max(path.stat().st_mtime for path in of)

"""The readers of tar files on the machine: what each lists of an archive, and which files appear when it extracts it.

Archives are extracted into a temporary folder, deep below its top, by a process without the rights of root. So neither
a name with `..` nor one with a root can write outside: what appears beside the folder is found and reported too.
"""

import io
import multiprocessing
import os
import re
import shutil
import subprocess
import tarfile
import tempfile
from itertools import islice
from pathlib import Path
from typing import Callable, Iterable, NamedTuple

from sources import processors

# a reader that loops in a damaged archive is stopped after this number of names, or of seconds
MOST, SECONDS = 50, 20
ENVIRONMENT = {"PATH": os.environ.get("PATH", ""), "LC_ALL": "C.UTF-8"}
DEEP = "1/2/3/4/5/6"
NOBODY = 65534
ESCAPE = re.compile(rb"\\([0-7]{3}|.)")
SIGNS = {b"a": b"\a", b"b": b"\b", b"f": b"\f", b"n": b"\n", b"r": b"\r", b"t": b"\t", b"v": b"\v"}
UNSAFE = re.compile(rb"(?:/|\.\./|.*?/\.\./)+", re.S)


class Listed(NamedTuple):
    """What a reader lists of an archive, and what it reports."""

    names: list[bytes]
    report: str


class Found(NamedTuple):
    """Something that an extraction made: its path below the folder, and whether it is a directory."""

    path: bytes
    is_directory: bool


class Reader(NamedTuple):
    """A reader: what it lists and extracts, whether it reads each form of archives, and the lines that it prints of a name."""

    lists: Callable[[bytes], Listed]
    extracts: Callable[[bytes, Path], None]
    knows_all: bool = True
    printed: Callable[[bytes], list[bytes]] = lambda name: [name]


def by_words(*words: str, undo: Callable[[bytes], bytes] = lambda name: name) -> Callable[[bytes], Listed]:
    """Returns what lists an archive by a command that prints a name on each line."""

    def lists(held: bytes) -> Listed:
        ended = subprocess.run(words, input=held, env=ENVIRONMENT, stdout=subprocess.PIPE, stderr=subprocess.PIPE, timeout=SECONDS)
        return Listed([undo(line) for line in ended.stdout.split(b"\n")[:-1]], ended.stderr.decode(errors="replace").strip())

    return lists


def into(*words: str) -> Callable[[bytes, Path], None]:
    """Returns what extracts an archive by a command that runs in a folder."""

    def extracts(held: bytes, folder: Path) -> None:
        subprocess.run(words, input=held, env=ENVIRONMENT, cwd=folder, stdout=subprocess.DEVNULL, stderr=subprocess.DEVNULL, timeout=SECONDS)

    return extracts


def by_tarfile(held: bytes) -> Listed:
    """Returns what tarfile returns, up to an error."""
    names: list[bytes] = []
    try:
        with tarfile.open(fileobj=io.BytesIO(held), mode="r:", encoding="utf-8", errors="surrogateescape") as archive:
            for it in islice(archive, MOST):
                names.append(it.name.encode("utf-8", "surrogateescape"))
    except (tarfile.TarError, ValueError, RecursionError, OverflowError, OSError, EOFError) as error:
        return Listed(names, f"{type(error).__name__}: {error}")
    return Listed(names, "")


def into_by_tarfile(held: bytes, folder: Path) -> None:
    """Extracts by tarfile, whose filter skips what leaves the folder."""
    try:
        with tarfile.open(fileobj=io.BytesIO(held), mode="r:", encoding="utf-8", errors="surrogateescape", errorlevel=0) as archive:
            for it in islice(archive, MOST):
                archive.extract(it, folder, set_attrs=False, filter="data")
    except (tarfile.TarError, ValueError, RecursionError, OverflowError, OSError, EOFError, KeyError):
        pass


def unescaped(name: bytes) -> bytes:
    """Returns a name whose escape bsdtar prints."""
    return ESCAPE.sub(lambda it: bytes([int(it[1], 8)]) if len(it[1]) == 3 else SIGNS.get(it[1], it[1]), name)


def lines_of(name: bytes) -> list[bytes]:
    """Returns the lines that busybox prints of a name: without what leads out of the folder."""
    return UNSAFE.sub(b"", name, count=1).split(b"\n") if UNSAFE.match(name) else name.split(b"\n")


READERS: dict[str, Reader] = {
    "GNU tar": Reader(by_words("tar", "--quoting-style=escape", "-tPf", "-", undo=unescaped), into("tar", "--no-same-owner", "-xf", "-")),
    "tarfile": Reader(by_tarfile, into_by_tarfile),
    "bsdtar": Reader(by_words("bsdtar", "-tf", "-", undo=unescaped), into("bsdtar", "--no-same-owner", "-xf", "-")),
    "busybox": Reader(by_words("busybox", "tar", "-tf", "-"), into("busybox", "tar", "-oxf", "-"), False, lines_of),
}  # fmt: skip


def missing() -> list[str]:
    """Returns the readers that the machine lacks."""
    version = subprocess.run(["tar", "--version"], stdout=subprocess.PIPE).stdout if shutil.which("tar") else b""
    lacks = {"GNU tar": b"GNU tar" not in version, "tarfile": not hasattr(tarfile, "data_filter")}
    return [name for name in READERS if (lacks[name] if name in lacks else not shutil.which(name))]


def found_in(room: Path, folder: Path) -> list[Found]:
    """Returns what there is in a folder and around it, by its path from the folder."""
    found: list[Found] = []
    for at, folders, files in os.walk(os.fsencode(room)):
        for name in folders:
            path = os.path.join(at, name)
            if not os.path.islink(path):
                os.chmod(path, 0o700)
            if not os.fsencode(folder).startswith(path):
                found.append(Found(os.path.relpath(path, os.fsencode(folder)), not os.path.islink(path)))
        found += [Found(os.path.relpath(os.path.join(at, name), os.fsencode(folder)), False) for name in files]
    return found


def extracted(held: bytes, names: list[str]) -> dict[str, list[Found]]:
    """Returns what appears when these readers extract an archive."""
    appears = {}
    for name in names:
        room = Path(tempfile.mkdtemp(prefix="tars-"))
        folder = room / DEEP
        folder.mkdir(parents=True)
        READERS[name].extracts(held, folder)
        appears[name] = found_in(room, folder)
        shutil.rmtree(room)
    return appears


def without_rights(top: str) -> None:
    """Gives up the rights of root, and makes temporary folders below this one."""
    tempfile.tempdir = top
    if os.getuid() == 0:
        os.setgroups([])
        os.setgid(NOBODY)
        os.setuid(NOBODY)


def all_extracted(archives: Iterable[tuple[bytes, list[str]]]) -> list[dict[str, list[Found]]]:
    """Returns what appears when readers extract archives, in processes without the rights of root."""
    with tempfile.TemporaryDirectory(prefix="tars-") as top:
        os.chmod(top, 0o777)
        with multiprocessing.get_context("fork").Pool(processors(), without_rights, (top,)) as pool:
            return pool.starmap(extracted, archives, chunksize=8)

"""Crates, checked and built over the libraries that are built in this checkout."""

from __future__ import annotations

import fcntl
import hashlib
import json
import os
import shutil
import subprocess
import sys
from functools import cache
from pathlib import Path
from typing import Callable, Iterable

from laid_in import kit as toolchain
from sources import CRATES, LIST, ROOT, crates, processors

PARTS = ("src", "specs", "proofs")
# Names a file with the places of the libraries that tools/prove/quick has built, by their names.
PLACES = "BUILT_AT"


class Failure(Exception):
    """Why what is tried, or the crate that it is in, does not pass."""


def hold(crates: Iterable[str]) -> list[int]:
    """Locks the folders of these crates, as each `rt` does, until the returned descriptors are closed."""
    held = []
    for name in sorted(crates):
        held.append(os.open(CRATES / name, os.O_RDONLY))
        fcntl.flock(held[-1], fcntl.LOCK_EX)
    return held


def copy_sources(name: str, to: Path) -> None:
    """Copies what a crate is compiled from."""
    for part in PARTS:
        if (CRATES / name / part).is_dir():
            shutil.copytree(CRATES / name / part, to / part)


def uses() -> dict[str, list[str]]:
    """Returns the libraries that crates.txt gives each crate."""
    return {name: crate.uses for name, crate in crates().items()}


def below(name: str) -> list[str]:
    """Returns the libraries of this repository that a crate depends on, lowest first."""
    libraries = uses()
    found: dict[str, None] = {}
    for it in libraries[name]:
        if it in libraries:
            found.update(dict.fromkeys([*below(it), it]))
    return list(found)


def is_program(name: str) -> bool:
    return (CRATES / name / "src" / "main.rt").exists()


def is_archive(name: str) -> bool:
    return crates()[name].is_archive


def is_library(name: str) -> bool:
    return not is_program(name) and not is_archive(name)


@cache
def places() -> dict[str, str]:
    """Returns the places of the libraries that tools/prove/quick has built, if it has started this tool."""
    place = os.environ.get(PLACES)
    return json.loads(Path(place).read_text(encoding="utf-8")) if place else {}


def built(name: str) -> Path:
    """Returns what is built of a crate: a library where `rt ci` leaves it, a program or an archive."""
    if name in places():
        return Path(places()[name])
    out = CRATES / name / "out"
    if is_program(name):
        return out / name
    return out / f"lib{name}.a" if is_archive(name) else out / "rlib" / f"{name}.rlib"


def build_of(library: Path) -> str:
    """Returns the line of a library's format that names the prover's build, which alone can read it, if there is one."""
    form = library / "format"
    return form.read_text(encoding="utf-8").splitlines()[1] if form.exists() else ""


def is_built(name: str) -> bool:
    """Returns whether a library exists, built by this toolchain."""
    return build_of(built(name)) == build_of(toolchain() / "rlibs" / "std.rlib")


def files_of(name: str, top: Path = ROOT) -> list[Path]:
    """Returns the files that a crate of a repository is compiled from."""
    folders = (top / "crates" / name / part for part in PARTS)
    return [path for folder in folders for path in sorted(folder.rglob("*")) if path.is_file()]


def own_sum(name: str) -> str:
    """Returns the sum of a crate's sources and of its line of crates.txt, without the libraries below it."""
    sum = hashlib.sha256(repr(tuple(crates()[name])).encode())
    for path in files_of(name):
        sum.update(repr((str(path.relative_to(CRATES)), path.read_bytes())).encode())
    return sum.hexdigest()


def stamps(top: Path, names: Iterable[str]) -> dict[str, str]:
    """Returns the stamp of each of these libraries of a repository, as the kit's `rt` computes it.

    It is the sum of all that a library is made from: its sources, its line of crates.txt, the kit and the
    stamps of the libraries below it. `rt` takes a library as built that has this stamp beside it.
    """
    sys.path.insert(0, f"{toolchain()}/bin")
    import rtlib

    known: dict[str, rtlib.Crate] = {}
    found = {}
    for name in names:
        folder = f"{top}/crates/{name}"
        if folder not in known:
            known[folder] = rtlib.Crate(folder, str(top), known)
        found[name] = stamp = known[folder].stamp()
        # the libraries above read it again
        known[folder].stamp = lambda stamp=stamp: stamp
    return found


def stamp_now(name: str) -> str:
    """Returns the stamp that a crate of this checkout has now."""
    return stamps(ROOT, [name])[name]


def note_built(name: str, stamp: str) -> None:
    """Notes that a library was built from sources with a stamp, if they still have it, and its own sum."""
    if stamp == stamp_now(name):
        built(name).with_name("stamp").write_text(stamp, encoding="utf-8")
        built(name).with_name("own").write_text(own_sum(name), encoding="utf-8")


def stamp_beside(library: Path) -> str:
    """Returns the stamp that is beside a library, or nothing where none is."""
    stamp = library.with_name("stamp")
    return stamp.read_text(encoding="utf-8") if stamp.exists() else ""


def is_current(name: str) -> bool:
    """Returns whether a library exists that is built from its present sources.

    The stamp beside it shows that or, without one, as `rt ci` leaves it, the times.
    """
    if not is_built(name):
        return False
    if stamp := stamp_beside(built(name)):
        return stamp == stamp_now(name)
    parts = (path for part in PARTS if (path := CRATES / name / part).is_dir())
    sources = (path for part in parts for path in (part, *part.rglob("*")))
    needed = [LIST, *sources, *(built(it) / "format" for it in below(name))]
    return (built(name) / "format").stat().st_mtime >= max(path.stat().st_mtime for path in needed)


def over_libraries(name: str, at: Callable[[str], Path] = built) -> list[str]:
    """Returns the arguments that name a crate and its libraries, as `rt ci` has built them.

    `rt check` would prove them again, since it uses no proof of `rt ci`.
    """
    kit = toolchain()
    root = "src/main.rt" if is_program(name) else "src/lib.rt"
    words = ["--crate-name", name, root, "--links", f"{name}="]
    words += ["--extern", f"std={kit}/rlibs/std.rlib", "-L", f"dependency={kit}/rlibs"]
    libraries = uses()
    for it in libraries[name]:
        words += ["--extern", f"{it}={at(it) if it in libraries else kit / 'rlibs' / f'{it}.rlib'}"]
    for it in below(name):
        words += ["-L", f"dependency={at(it).parent}"]
    return [*words, "--antt-project", f"{kit}/rattle/logic/antt-project.json", "--logic-built", f"{kit}/logic_built"]


def check(name: str, jobs: int) -> list[str]:
    """Returns the check of a crate in the current folder, over the libraries as `rt ci` has built them."""
    return [str(toolchain() / "bin" / "rattle"), "check", *over_libraries(name), "--jobs", str(jobs)]


def said_by(words: list[str], folder: Path) -> str:
    """Returns what a check in a folder prints."""
    pipes = {"stdin": subprocess.DEVNULL, "stdout": subprocess.PIPE, "stderr": subprocess.STDOUT}
    return subprocess.run(words, cwd=folder, text=True, errors="replace", **pipes).stdout

"""What users get of this repository: the libraries, as files with their sums, and their built form.

A folder for users has the lines of the libraries in `crates.txt`, their sources in `crates/NAME/src`, `specs` and
`proofs`, and in `crates/NAME/out/rlib` the built library with the stamp by which `rt` recognizes that it is built from
these sources, lines and kit.
"""

from __future__ import annotations

import hashlib
import re
import subprocess
from pathlib import Path
from typing import Iterator, NamedTuple

from compiling import CRATES, LIST, PARTS, built, is_current, stamp_beside, stamps
from replacing import copy_folder
from sources import ROOT, libraries

PROJECT = "os_str_bytes"
# The program logic that the libraries are proved in, as `rt version` ends.
LOGIC = "logic dac8208d650f15bf"
# The file with the sums of the sources that were copied into a repository: `sha256sum -c` reads it at the top.
SUMS = f"crates/{PROJECT}.sha256"
# What each copy that is handed on has: the terms, the texts of both licences and the copyright lines.
LICENCE = ("LICENSE.md", "LICENSE-APACHE", "LICENSE-MIT", "NOTICE")
# The same, in one file, beside the libraries that were copied into a repository.
LICENCE_BESIDE = f"crates/{PROJECT}.licence"
ROW = re.compile(r"([0-9a-f]{64})  (.+)")
VERSION = re.compile(r"^# .* version (\S+)$", re.M)


class Mark(NamedTuple):
    """What a file states of the gate: a label after the version in its name, and a note before its page."""

    label: str = ""
    note: str = ""


PASSED = Mark()
NO_GATE = Mark(
    "+nogate",
    "**No gate has passed on these files.** They were made from what was proved for them alone, by "
    "`tools/release/release --only`, and weren't tested.\n\n",
)


class Refusal(Exception):
    """Why nothing was done."""


def version() -> str:
    """Returns the version of this checkout, which only the file VERSION has."""
    path = ROOT / "VERSION"
    return path.read_text(encoding="utf-8").split()[0] if path.exists() else "unnumbered"


def kit_line() -> str:
    """Returns the line of the kit of `rt`, if that has the program logic of the libraries."""
    try:
        line = subprocess.run(["rt", "version"], stdout=subprocess.PIPE, text=True, check=True).stdout.strip()
    except (OSError, subprocess.CalledProcessError) as error:
        raise Refusal(f"there is no kit, whose command is rt: {error}") from None
    if not line.endswith(LOGIC):
        raise Refusal(f"the libraries are proved in another program logic: this kit is {line}, and they need {LOGIC}")
    return line


def sum_of_checkout() -> str:
    """Returns the sum of the files that git tracks or would, and of the kit's line."""
    sum = hashlib.sha256(kit_line().encode())
    for name in tracked():
        path = ROOT / name
        sum.update(repr((name, path.read_bytes() if path.is_file() else None)).encode())
    return sum.hexdigest()


def lines_of(text: str) -> dict[str, str]:
    """Returns the lines of a crates.txt by the crates that they name, without comments."""
    return {row[1]: row[0].strip() for row in re.finditer(r"^(\w+)[^:\n#]*:[^\n#]*", text, re.M)}


def sum_of(path: Path) -> str:
    return hashlib.sha256(path.read_bytes()).hexdigest()


def sums_of(top: Path, paths: list[Path]) -> dict[str, str]:
    """Returns the sums of files by their paths below a folder."""
    return {str(path.relative_to(top)): sum_of(path) for path in paths}


def sums_text(sums: dict[str, str], version: str) -> str:
    """Returns sums as the lines that `sha256sum` writes and reads, after the version and the kit's line."""
    head = f"# {PROJECT} in Rattle, version {version}\n# {kit_line()}\n"
    return head + "".join(f"{sum}  {path}\n" for path, sum in sums.items())


def read_sums(text: str) -> dict[str, str]:
    """Returns the sums of such lines by their paths."""
    return {row[2]: row[1] for line in text.splitlines() if (row := ROW.fullmatch(line))}


def version_in(text: str) -> str:
    """Returns the version before such lines."""
    found = VERSION.search(text)
    return found[1] if found else "unnumbered"


def licence_text() -> str:
    """Returns the terms, the texts of both licences and the copyright lines, one after the other."""
    return "\n\n".join((ROOT / name).read_text(encoding="utf-8") for name in LICENCE)


def gather(room: Path) -> None:
    """Copies the libraries of this checkout for users into an empty folder: sources, and their built form."""
    of = libraries()
    lines = lines_of(LIST.read_text(encoding="utf-8"))
    (room / "crates.txt").write_text("".join(f"{lines[name]}\n" for name in of), encoding="utf-8")
    (room / "crates").mkdir()
    (room / LICENCE_BESIDE).write_text(licence_text(), encoding="utf-8")
    for name in of:
        for part in PARTS:
            if (CRATES / name / part).is_dir():
                copy_folder(CRATES / name / part, room / "crates" / name / part)
    copy_built(room)


def copy_built(room: Path) -> None:
    """Copies the built form of the libraries of this checkout into a folder that has their sources."""
    for name, stamp in stamps(room, libraries()).items():
        if is_current(name):
            rlib = room / "crates" / name / "out" / "rlib"
            copy_folder(built(name), rlib / built(name).name)
            (rlib / "stamp").write_text(stamp, encoding="utf-8")


def tracked() -> list[str]:
    """Returns the names of the files that git tracks or would."""
    words = ["git", "-C", str(ROOT), "ls-files", "-z", "--cached", "--others", "--exclude-standard"]
    listed = subprocess.run(words, stdout=subprocess.PIPE, check=True).stdout
    return sorted(set(listed.decode().split("\0")) - {""})


def is_laid_built(top: Path, name: str, stamp: str) -> bool:
    """Returns whether a repository has a library built, with this stamp."""
    rlib = top / "crates" / name / "out" / "rlib"
    return (rlib / f"{name}.rlib" / "format").exists() and stamp_beside(rlib / f"{name}.rlib") == stamp


def files_below(folder: Path) -> Iterator[Path]:
    return (path for path in sorted(folder.rglob("*")) if path.is_file())

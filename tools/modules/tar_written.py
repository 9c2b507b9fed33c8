"""Ordinary archives, as the tar programs of the machine write them."""

import io
import os
import shutil
import subprocess
import tarfile
import tempfile
from itertools import product
from pathlib import Path
from typing import Iterator

from tar_blocks import END, INNER, LAST, STEPS, Archive, entry, header, long_name, pax

# programs that write archives, and the words by which they write each form to a file
WRITERS: dict[str, tuple[list[str], tuple[str, ...]]] = {
    "tar": (["tar", "-cf", "{file}", "--format={form}", "."], ("oldgnu", "gnu", "ustar", "pax")),
    "bsdtar": (["bsdtar", "-cf", "{file}", "--format={form}", "."], ("ustar", "pax", "gnutar", "v7")),
    "busybox": (["busybox", "tar", "-cf", "{file}", "."], ("gnu",)),
    "pax": (["pax", "-w", "-x", "{form}", "-f", "{file}", "."], ("ustar", "tar")),
}


def lay_files(room: Path) -> None:
    """Writes files whose names are short, long, not ASCII, or have a newline, and links to them."""
    (room / "folder").mkdir()
    (room / "folder" / "file").write_bytes(b"content")
    (room / ("n" * 60)).mkdir()
    for name in ("m" * 60, "new\nline", "\u00e9" * 20, "o" * 99, "p" * 100, "q" * 101, "\u00e9\nline" + "r" * 90):
        (room / ("n" * 60) / name).write_bytes(b"content")
    (room / ("d" * 49) / ("e" * 49)).mkdir(parents=True)
    (room / ("d" * 49) / ("e" * 49) / "file").write_bytes(b"content")
    os.link(room / "folder" / "file", room / "linked")
    os.symlink("folder/file", room / "link")
    os.mkfifo(room / "pipe")


def written() -> Iterator[Archive]:
    """Yields what the installed programs write of such files."""
    with tempfile.TemporaryDirectory(prefix="tars-") as own:
        room, file = Path(own, "files"), Path(own, "archive")
        room.mkdir()
        lay_files(room)
        for program, (words, forms) in WRITERS.items():
            for form in forms if shutil.which(program) else ():
                line = [word.format(file=file, form=form) for word in words]
                # a form may have no room for a name: the program says so and leaves it out
                subprocess.run(line, cwd=room, stdout=subprocess.DEVNULL, stderr=subprocess.DEVNULL)
                yield Archive(f"by {program}, {form}", file.read_bytes(), True)


def ordinary() -> Iterator[Archive]:
    """Yields archives that every reader must list: those that tar programs write, and some that are made."""
    long = b"long/" * 40 + b"name"
    for title, form in {"ustar": tarfile.USTAR_FORMAT, "GNU": tarfile.GNU_FORMAT, "pax": tarfile.PAX_FORMAT}.items():
        held = io.BytesIO()
        names = ["a", "b/c", "d" * 100, "e/" * 60 + "f", "\u00e9"] + ([long.decode()] if form != tarfile.USTAR_FORMAT else [])
        with tarfile.open(fileobj=held, mode="w", format=form) as archive:
            for name, kind in product(names, (tarfile.REGTYPE, tarfile.DIRTYPE, tarfile.SYMTYPE, tarfile.LNKTYPE, tarfile.FIFOTYPE)):
                it = tarfile.TarInfo(name)
                it.type, it.linkname, it.mtime = kind, "a", 1.5 if form == tarfile.PAX_FORMAT else 1
                it.size = 700 if kind == tarfile.REGTYPE else 0
                archive.addfile(it, io.BytesIO(bytes(700)))
        yield Archive(f"by tarfile, {title}", held.getvalue(), True)
    yield from written()
    for title, held in {
        "a path of pax": pax((b"path", b"p")) + entry(b"a"), "the last path": pax((b"path", b"p"), (b"path", b"q")) + entry(b"a"),
        "a size of pax": pax((b"size", b"512")) + entry(b"a") + INNER, "a size of zero": pax((b"size", b"0")) + header(b"0", b"a", 512),
        "a long name": long_name(long) + entry(b"a"), "a comment for all": STEPS["g comment"] + entry(b"a"), "K": STEPS["K"] + entry(b"a", b"2"),
        "a long name and a size": long_name(long) + STEPS["x size"] + entry(b"a") + INNER, "spaces": header(b"0", b"a", b"      01000 ") + INNER,
        "a comment, a long name": STEPS["x comment"] + long_name(long) + entry(b"a"),
    }.items():  # fmt: skip
        yield Archive(f"ordinary: {title}", held + LAST + END, True)

"""The files for users without the kit: archives of the C library, a Python package, and an archive of the programs.

The first two are made from a folder in which `tools/check/c-library` has built libosbytes.a, the shared object and its
name, and in its folder `windows` the DLL. An archive has the header, the libraries, files for pkg-config and CMake,
c/GUIDE.md and the examples, and at its top a README, the changes and the licence. For Linux it also has man pages made
from the header's comments. A link of a document to a file that isn't in the archive becomes plain text. The Python package
is a wheel of the sources in python/osbytes with the shared library beside them. The archive of the programs has them, their
man pages and completions, a README and the licence.
"""

from __future__ import annotations

import gzip
import hashlib
import io
import lzma
import posixpath
import re
import sys
import tarfile
import zipfile
from pathlib import Path
from typing import NamedTuple

from found_by import found_by
from handed_on import LICENCE, PASSED, Mark, sum_of, version
from program_pages import PROGRAMS, files_of
from roff import as_roff, as_shown, page
from sources import ROOT

sys.path.insert(0, str(ROOT / "python"))
import build_backend

HEADER = ROOT / "c" / "include" / "osbytes.h"
# The first comment of a header, a comment before declarations, a declaration of a call, and a type with its comment.
OPENING = re.compile(r"/\* osbytes\.h: (.*?)\*/", re.S)
SAID = r"/\*(?P<said>(?:(?!\*/).)*)\*/\n"
DECLARATION = r"(?:OSB_NODISCARD )?(?P<type>[a-z][\w ]*?\*?)(?P<name>osb_\w+)\([^;]*\);"
BLOCK = re.compile(SAID + r"(?P<calls>(?:" + re.sub(r"\?P<\w+>", "", DECLARATION) + r"\n)+)", re.S)
CALL = re.compile(DECLARATION, re.S)
TYPE = re.compile(r"(?:" + SAID + r")?(?P<text>typedef (?:struct|enum) (?P<name>osb_\w+)(?: \{[^}]*\} (?P=name)| (?P=name));)\n", re.S)
STATUS = re.compile(r"^    (OSB_\w+) = \d+,?\s+/\* (.*?) \*/", re.S | re.M)
# The lines on the syntax of patterns.
SYNTAX = re.compile(r"^// Path patterns\..*?\n(?!//)", re.S | re.M)
LINK = re.compile(r"\[([^\]]*)\]\(([^)#\s]+)(#[^)\s]*)?\)")
# The libraries of a wheel name no C library, and glibc 2.17 and musl 1.1 have what they take: the ones of this tag.
# The extension module has the stable ABI of Python 3.10, of which 3.9 exports what is taken, though its DLL for Windows doesn't.
TAG = "cp39-abi3-manylinux2014_{0}.musllinux_1_1_{0}"
WINDOWS_TAG = "cp310-abi3-win_amd64"


class Entry(NamedTuple):
    """A file of an archive, or where a link leads."""

    content: bytes
    mode: int = 0o644
    link: str = ""


def words_of(comment: str) -> str:
    """Returns the text of a comment, its paragraphs divided by an empty line."""
    lines = (line.strip().removeprefix("*").strip() for line in comment.strip().splitlines())
    return "\n".join(lines).strip()


def first_words(said: str) -> str:
    """Returns the start of a comment for the line of names: up to a colon or the end of a sentence."""
    first = re.split(r"(?<=[.:;])\s", " ".join(said.split()), maxsplit=1)[0].rstrip(".:;")
    if len(first) > 100:
        first = first[: first.rfind(",", 0, 100)] if "," in first[:100] else first
    return first[:1].lower() + first[1:]


def statuses(header: str) -> dict[str, str]:
    """Returns what each status means."""
    listed = header[header.index("typedef enum osb_status {") : header.index("} osb_status;")]
    return {name: " ".join(re.sub(r"\n\s*\*", " ", said).split()) for name, said in STATUS.findall(listed)}


def return_value(result: str, said: str, header: str) -> str:
    """Returns the section on what a call returns, by the type of its result and the statuses that its comment names."""
    means = statuses(header)
    named = [name for name in dict.fromkeys(re.findall(r"OSB_[A-Z_]+", said)) if name in means]
    minus = ""
    if result == "int":
        lines, minus = [".TP\n1\nit holds", ".TP\n0\nit doesn't hold"], "\\-"
    elif result == "osb_status":
        lines = [".TP\nOSB_OK\nsuccess"]
    else:
        return ""
    named = [name for name in [*named, "OSB_BAD_POINTER"] if name != "OSB_OK"]
    return "\n".join([*lines, *(f".TP\n{minus}{name}\n{as_roff(means[name])}" for name in dict.fromkeys(named))])


def types_in(synopsis: str, types: dict[str, tuple[str, str]]) -> str:
    """Returns the section on the structs and enums that a declaration names, and those that they name."""
    found: dict[str, None] = {}

    def find(text: str) -> None:
        for name in re.findall(r"\bosb_\w+\b", text):
            if name in types and name not in found and name != "osb_status":
                found[name] = None
                find(types[name][1])

    find(synopsis)
    return "\n.PP\n".join((as_roff(types[name][0]) + "\n.PP\n" if types[name][0] else "") + as_shown(types[name][1]) for name in found)


def man_pages() -> dict[str, str]:
    """Returns the man pages by their names: one of the library, and one for each call."""
    header = HEADER.read_text(encoding="utf-8")
    opening = words_of(OPENING.search(header)[1])
    types = {it["name"]: (words_of(it["said"] or ""), it["text"]) for it in TYPE.finditer(header)}
    syntax = "\n".join(line.removeprefix("//").removeprefix(" ") for line in SYNTAX.search(header)[0].splitlines() if line.startswith("//"))
    pages = {}
    for block in BLOCK.finditer(header):
        said = words_of(block["said"])
        marked = "OSB_NODISCARD "
        calls = [call[0].removeprefix(marked).replace("\n" + " " * len(marked), "\n") for call in CALL.finditer(block["calls"])]
        for call in CALL.finditer(block["calls"]):
            name, synopsis = call["name"], "\n".join(calls)
            pages[name] = page(name, 3, {
                "NAME": f"{name} \\- {as_roff(first_words(said))}",
                "SYNOPSIS": as_shown(f"#include <osbytes.h>\n\n{synopsis}"),
                "DESCRIPTION": as_roff(said),
                "RETURN VALUE": return_value(call["type"].strip(), said, header),
                "TYPES": types_in(synopsis, types),
                "PATTERNS": as_shown(syntax) if "glob" in name else "",
                "SEE ALSO": ".BR osbytes (3)",
            })
    calls = {call["name"] for call in CALL.finditer(header)}
    if missing := calls - pages.keys():
        raise ValueError(f"no comment stands before {', '.join(sorted(missing))}")
    named = ",\n".join(f".BR {name} (3)" for name in sorted(pages))
    library = page("osbytes", 3, {
        "NAME": f"osbytes \\- {as_roff(first_words(opening))}",
        "SYNOPSIS": as_shown("#include <osbytes.h>\n\ncc ... -losbytes"),
        "DESCRIPTION": as_shown(opening),
        "SEE ALSO": named,
    })
    return {"osbytes": library, **pages}


# The documents and the examples of the archive, by where they are in the repository, and where in it.
DOCUMENTS = {
    "c/README.md": "README.md",
    "CHANGES.md": "CHANGES.md",
    **{name: name for name in LICENCE},
    "c/GUIDE.md": "share/doc/osbytes/GUIDE.md",
    "c/examples/names.c": "share/doc/osbytes/names.c",
    "c/examples/below.c": "share/doc/osbytes/below.c",
    "c/examples/matching.c": "share/doc/osbytes/matching.c",
    "c/examples/walk.c": "share/doc/osbytes/walk.c",
    "c/examples/outside.c": "share/doc/osbytes/outside.c",
    "c/examples/outside.cc": "share/doc/osbytes/outside.cc",
    "c/examples/outside.go": "share/doc/osbytes/outside.go",
    "c/examples/outside.rs": "share/doc/osbytes/outside.rs",
    "c/include/osbytes.h": "include/osbytes.h",
}


def with_links(text: str, document: str, places: dict[str, str]) -> str:
    """Returns a document whose links lead to files of an archive with these; any other link becomes plain text."""
    here = posixpath.dirname(document)

    def linked(link: re.Match[str]) -> str:
        if ":" in link[2]:
            return link[0]
        leads_to = places.get(posixpath.normpath(posixpath.join(here, link[2])))
        if leads_to is None or not (ROOT / posixpath.normpath(posixpath.join(here, link[2]))).exists():
            return link[1]
        return f"[{link[1]}]({posixpath.relpath(leads_to, posixpath.dirname(places[document]) or '.')}{link[3] or ''})"

    return LINK.sub(linked, text)


def documents(places: dict[str, str]) -> dict[str, Entry]:
    """Returns those of the documents and examples that are there, by where they are in an archive."""
    there = {path: to for path, to in places.items() if (ROOT / path).exists()}
    texts = {path: (ROOT / path).read_text(encoding="utf-8") for path in there}
    return {to: Entry((with_links(texts[path], path, places) if path.endswith(".md") else texts[path]).encode()) for path, to in there.items()}


def finished(entries: dict[str, Entry], project: str, mark: Mark = PASSED) -> dict[str, Entry]:
    """Returns the files of an archive, with the note of a mark before the page at its top, and one with their sums."""
    page = entries["README.md"]
    entries = {**entries, "README.md": page._replace(content=mark.note.encode() + page.content)}
    sums = "".join(f"{hashlib.sha256(entry.content).hexdigest()}  {path}\n" for path, entry in entries.items() if not entry.link)
    return {**entries, f"share/doc/{project}/SHA256SUMS": Entry(sums.encode())}


def library_entries(built: Path) -> dict[str, Entry]:
    """Returns what the archive has of a library that is built in a folder, by paths in it."""
    soname = f"libosbytes.so.{version().rsplit('.', 1)[0]}"
    entries = {
        **documents(DOCUMENTS),
        "lib/libosbytes.a": Entry((built / "libosbytes.a").read_bytes()),
        f"lib/{soname}": Entry((built / soname).read_bytes(), 0o755),
        "lib/libosbytes.so": Entry(b"", 0o777, soname),
        **{path: Entry(text.encode()) for path, text in found_by("Linux").items()},
    }
    for name, text in man_pages().items():
        entries[f"share/man/man3/{name}.3"] = Entry(text.encode())
    return entries


def windows_entries(built: Path) -> dict[str, Entry]:
    """Returns what the archive has of a library that is built for Windows in a folder, by paths in it."""
    return {
        **documents(DOCUMENTS),
        "bin/osbytes.dll": Entry((built / "osbytes.dll").read_bytes(), 0o755),
        **{f"lib/{name}": Entry((built / name).read_bytes()) for name in ("libosbytes.a", "libosbytes.dll.a", "osbytes.lib")},
        **{path: Entry(text.encode()) for path, text in found_by("Windows").items()},
    }


def zip_entries(folder: Path, top: str, entries: dict[str, Entry]) -> Path:
    """Makes a zip file of these files in a folder, and returns it."""
    file = folder / f"{top}.zip"
    with zipfile.ZipFile(file, "w", zipfile.ZIP_DEFLATED) as made:
        for path, entry in entries.items():
            member = zipfile.ZipInfo(f"{top}/{path}", build_backend.MADE)
            member.external_attr = entry.mode << 16
            made.writestr(member, entry.content, zipfile.ZIP_DEFLATED, 9)
    return file


def pack_entries(folder: Path, top: str, entries: dict[str, Entry], ending: str = "tar.gz") -> Path:
    """Makes an archive of these files in a folder, a .tar.gz or a .tar.xz, and returns it."""
    file = folder / f"{top}.{ending}"
    with file.open("wb") as made, gzip.GzipFile("", "wb", 9, made, 0) if ending == "tar.gz" else lzma.open(made, "wb") as packed:
        with tarfile.open(fileobj=packed, mode="w") as members:
            for path, entry in entries.items():
                member = tarfile.TarInfo(f"{top}/{path}")
                member.size, member.mode = len(entry.content), entry.mode
                if entry.link:
                    member.type, member.linkname = tarfile.SYMTYPE, entry.link
                members.addfile(member, io.BytesIO(entry.content))
    return file


def make_archive(built: Path, folder: Path, processor: str, mark: Mark = PASSED) -> Path:
    """Makes the archive of a library that is built in a folder."""
    entries = finished(library_entries(built), "osbytes", mark)
    return pack_entries(folder, f"libosbytes-{version()}{mark.label}-linux-{processor}", entries)


def make_wheel(built: Path, folder: Path, processor: str, mark: Mark = PASSED) -> Path:
    """Makes the Python package with a library that is built in a folder."""
    by = build_backend.compiler_for(processor)
    return build_backend.make_wheel(folder, built / "libosbytes.so", TAG.format(processor), by, *mark)


def make_for_windows(built: Path, folder: Path) -> list[Path]:
    """Makes the archive and the wheel of a library that is built for Windows in a folder."""
    archive = zip_entries(folder, f"libosbytes-{version()}-windows-x86_64", finished(windows_entries(built), "osbytes"))
    by = "x86_64-w64-mingw32-gcc"
    return [archive, *([build_backend.make_wheel(folder, built / "osbytes.dll", WINDOWS_TAG, by)] if build_backend.includes() else [])]


def make_packages(built: Path, folder: Path) -> list[Path]:
    """Makes the archives and the wheels of what is built in a folder, for each processor that is there and for Windows,
    and the source distribution of the Python package. Without Python's headers there is nothing of Python."""
    rooms = {"x86_64": built, "aarch64": built / "aarch64"}
    there = {processor: room for processor, room in rooms.items() if (room / "libosbytes.so").exists()}
    kinds = (make_archive, make_wheel) if build_backend.includes() else (make_archive,)
    made = [make(room, folder, processor) for processor, room in there.items() for make in kinds]
    if (built / "windows" / "osbytes.dll").exists():
        made += make_for_windows(built / "windows", folder)
    libraries = [(processor, room / "libosbytes.so") for processor, room in there.items()]
    return [*made, build_backend.make_sdist(folder, libraries)] if make_wheel in kinds and libraries else made


# The documents of the archive of the programs.
PROGRAM_DOCUMENTS = {
    "docs/programs/README.md": "README.md",
    "CHANGES.md": "CHANGES.md",
    **{name: name for name in LICENCE},
}
# Where tools/release/program-archive leaves the sums of the programs that it has used.
TRIED_PROGRAMS = ROOT / "out" / "programs"


def sums_of_programs(places: dict[str, Path]) -> list[str]:
    """Returns a line for each program that is there: its sum and its name."""
    return [f"{sum_of(place)}  {name}" for name, place in places.items() if place.exists()]


def program_entries(programs: dict[str, bytes]) -> dict[str, Entry]:
    """Returns what the archive of the programs has, by paths in it."""
    entries = {**documents(PROGRAM_DOCUMENTS), **{f"bin/{name}": Entry(content, 0o755) for name, content in programs.items()}}
    for name in PROGRAMS:
        entries |= {f"share/{path}": Entry(text.encode()) for path, text in files_of(name).items()}
    return entries


def make_programs(places: dict[str, Path], folder: Path, mark: Mark = PASSED) -> Path:
    """Makes the archive of the programs, which are at these places, for Linux on x86-64."""
    programs = {name: place.read_bytes() for name, place in places.items()}
    entries = finished(program_entries(programs), "osbytes-programs", mark)
    return pack_entries(folder, f"osbytes-programs-{version()}{mark.label}-linux-x86_64", entries)

"""The proved programs, linked with musl, so that they run on each Linux on x86-64 and need no library."""

import struct
import subprocess
import tempfile
from pathlib import Path

from compiling import built
from laid_in import kit
from program_pages import PROGRAMS
from sources import ROOT

MUSL = "musl-gcc"
START = ROOT / "tools" / "release" / "static-start.c"
PLACES = {name: built(name).parent / "static" / name for name in PROGRAMS}
# A program is linked within so many seconds after its object was compiled.
LINKED_WITHIN = 60
# Kinds of program headers: what the loader links, and the loader.
PT_DYNAMIC, PT_INTERP = 2, 3


def object_of(name: str) -> Path:
    """Returns the object that a program was proved and compiled into. A program that `rt ci` has kept has none, so it is proved again."""
    program = built(name)
    made = program.with_name(f"{name}.o")
    if not made.exists() or made.stat().st_mtime < program.stat().st_mtime - LINKED_WITHIN:
        subprocess.run([ROOT / "tools" / "prove" / "prove", "--over-built", name], check=True, stdout=subprocess.DEVNULL)
    return made


def link_static(name: str) -> None:
    """Links a program, of the object that it was proved and compiled into."""
    PLACES[name].parent.mkdir(exist_ok=True)
    compiled = object_of(name)
    with tempfile.TemporaryDirectory(prefix="static-") as room:
        start = f"{room}/start.o"
        subprocess.run([MUSL, "-std=c11", "-O2", "-Wall", "-Wextra", "-Werror", "-c", START, "-o", start], check=True)
        linked = [compiled, start, kit() / "c" / "libos_c.a", kit() / "c" / "liblibc_c.a"]
        subprocess.run([MUSL, "-static", "-s", "-Wl,--wrap=main", *linked, "-o", PLACES[name]], check=True)


def is_static(program: bytes) -> bool:
    """Returns whether a program needs no loader and no library, by the headers of its file."""
    at, size, count = struct.unpack_from("<Q14xHH", program, 32)
    kinds = [struct.unpack_from("<I", program, at + size * i)[0] for i in range(count)]
    return program[:4] == b"\x7fELF" and not {PT_DYNAMIC, PT_INTERP} & {*kinds}

"""Prints names, one per line, each as its escape, and reads such lines.

usage: python -m osbytes [NAME ..]
       python -m osbytes join

Without arguments the names are read from standard input, each ended by a NUL byte, as `find -print0` writes them. A name
is printed as soon as it has arrived. `join` reverses it: it reads lines from standard input, and writes the names, each
ended by a NUL byte. To print the name `join` itself, or one that begins with a dash, write `--` before the names. On
Windows the arguments are strings of Windows; what is read is bytes, as on Unix.

Exit status: 0 success, 1 invalid input, 2 usage, 4 I/O error (silent on a closed pipe).
"""

from __future__ import annotations

import os
import sys
from typing import Iterator

from . import UNIX, WINDOWS, OsBytesError, Platform, __version__, escape_line, unescape_line

BLOCK = 1 << 16
INVALID, USAGE, IO = 1, 2, 4
# The platform whose strings the arguments are.
HERE = WINDOWS if os.name == "nt" else UNIX


def items_in(file: int, end: bytes) -> Iterator[list[bytes]]:
    """Iterates over the items of a file, each ended by a byte, in groups as they arrive. The last may lack the byte."""
    left: list[bytes] = []
    while block := os.read(file, BLOCK):
        first, *others = block.split(end)
        left.append(first)
        if others:
            whole = [b"".join(left), *others[:-1]]
            left = [others[-1]]
            yield whole
    if last := b"".join(left):
        yield [last]


def write(data: bytes) -> None:
    """Writes all of these bytes to standard output."""
    view = memoryview(data)
    while view:
        view = view[os.write(1, view) :]


def complain(text: str) -> None:
    """Writes a line to standard error, if that is open."""
    try:
        os.write(2, f"osbytes: {text}\n".encode("utf-8", "backslashreplace"))
    except OSError:
        pass


def list_names(groups: Iterator[list[bytes]], platform: Platform) -> int:
    for names in groups:
        write("".join(escape_line(name, platform) + "\n" for name in names).encode())
    return 0


def join_names(groups: Iterator[list[bytes]]) -> int:
    number = 0
    for lines in groups:
        names = []
        for number, line in enumerate(lines, number + 1):
            try:
                names.append(unescape_line(line.decode()))
            except (OsBytesError, UnicodeDecodeError) as error:
                write(b"".join(name + b"\0" for name in names))
                complain(f"line {number}: {error}")
                return INVALID
        write(b"".join(name + b"\0" for name in names))
    return 0


def run(words: list[str]) -> int:
    if words in (["--help"], ["-h"]):
        write((__doc__ or "").encode())
        return 0
    if words == ["--version"]:
        write(f"osbytes {__version__}\n".encode())
        return 0
    if words == ["join"]:
        return join_names(items_in(0, b"\n"))
    if words and words[0] != "--" and (words[0] == "join" or any(word.startswith("-") for word in words)):
        unknown = words[1] if words[0] == "join" else next(word for word in words if word.startswith("-"))
        complain(f"unexpected argument {escape_line(unknown, HERE)} (see --help)")
        return USAGE
    if words:
        names = words[1:] if words[0] == "--" else words
        return list_names(iter([[os.fsencode(name) for name in names]]), HERE)
    return list_names(items_in(0, b"\0"), UNIX)


def main() -> int:
    try:
        return run(sys.argv[1:])
    except BrokenPipeError:
        return IO
    except OSError as error:
        complain(error.strerror or str(error))
        return IO
    except KeyboardInterrupt:
        return 130


if __name__ == "__main__":
    sys.exit(main())

"""Prints how long calls of the package take beside Python's own, as a table: python times.py

A time is processor time in nanoseconds, the least of many runs, for short names unless the row states otherwise. A
ratio above 1 means that Python's own call is faster.
"""

from __future__ import annotations

import fnmatch
import os
import posixpath
import re
import shlex
import subprocess
import time
import timeit
from pathlib import PurePosixPath
from typing import Any, Callable

import osbytes

NAME, SHOWN, OTHER = "src/lib/a b.rs", b"src/lib/a b.rs", b"src/lib/a c.rs"
PATH, BASE = "/usr/share/doc/readme.txt", "/usr/share"
LONG = b"/usr/share/doc/readme.txt" * 40_000
MEGABYTE = LONG.decode()
THREE = ["cp", "a b", "c'd"]
GLOB, IGNORE = osbytes.Glob("*.rs", 0), osbytes.Ignore("*.log\ntarget/\n!keep.log\n" * 9)
COMPILED = re.compile(fnmatch.translate("*.rs"))
UNIX_PATH = getattr(osbytes, "UnixPath", None)
MADE_PATH, OWN_PATH = UNIX_PATH(PATH) if UNIX_PATH else None, PurePosixPath(PATH)
LINES = b"/usr/share/doc/readme.txt\n" * 40_000
MANY = [f"src/lib/a b{number}.rs" for number in range(1000)]

ROWS: list[tuple[str, Callable[[], Any], str, Callable[[], Any] | None]] = [
    ("`shell_quote`", lambda: osbytes.shell_quote(NAME), "`shlex.quote`", lambda: shlex.quote(NAME)),
    ("`shell_join` of 3", lambda: osbytes.shell_join(THREE), "`shlex.join`", lambda: shlex.join(THREE)),
    ("`shell_words`", lambda: osbytes.shell_words("cp 'a b' c"), "`shlex.split`", lambda: shlex.split("cp 'a b' c")),
    ("`windows_command_line` of 3", lambda: osbytes.windows_command_line("E", THREE), "`list2cmdline`", lambda: subprocess.list2cmdline(THREE)),
    ("`encode`", lambda: osbytes.encode(NAME), "`os.fsencode`", lambda: os.fsencode(NAME)),
    ("`decode`", lambda: osbytes.decode(SHOWN), "`os.fsdecode`", lambda: os.fsdecode(SHOWN)),
    ("`escape_line`", lambda: osbytes.escape_line(SHOWN), "`decode(.., backslashreplace)`", lambda: SHOWN.decode("utf-8", "backslashreplace")),
    ("`display`", lambda: osbytes.display(SHOWN), "`decode(.., replace)`", lambda: SHOWN.decode("utf-8", "replace")),
    ("`is_string`", lambda: osbytes.is_string(SHOWN, osbytes.WASM), "`decode`", lambda: SHOWN.decode()),
    ("`find`", lambda: osbytes.find(SHOWN, "."), "`bytes.find`", lambda: SHOWN.find(b".")),
    ("`contains`", lambda: osbytes.contains(SHOWN, "."), "`in`", lambda: b"." in SHOWN),
    ("`starts_with`", lambda: osbytes.starts_with(SHOWN, b"src"), "`bytes.startswith`", lambda: SHOWN.startswith(b"src")),
    ("`compare`", lambda: osbytes.compare(SHOWN, OTHER), "`<`", lambda: SHOWN < OTHER),
    ("`rsplit` of 3", lambda: osbytes.rsplit(SHOWN, "/"), "`bytes.rsplit`", lambda: SHOWN.rsplit(b"/")),
    ("`symbols` of 14 bytes", lambda: list(osbytes.symbols(SHOWN)), "`list`", lambda: list(NAME)),
    ("`to_units`", lambda: osbytes.to_units(SHOWN), "`list` of `encode(utf-16)`", lambda: list(memoryview(NAME.encode("utf-16-le")).cast("H"))),
    ("`split` of 3", lambda: osbytes.split(SHOWN, "/"), "`bytes.split`", lambda: SHOWN.split(b"/")),
    ("`path_parent`", lambda: osbytes.path_parent(PATH), "`posixpath.dirname`", lambda: posixpath.dirname(PATH)),
    ("`path_file_name`", lambda: osbytes.path_file_name(PATH), "`posixpath.basename`", lambda: posixpath.basename(PATH)),
    ("`path_join`", lambda: osbytes.path_join(BASE, "a"), "`posixpath.join`", lambda: posixpath.join(BASE, "a")),
    ("`path_clean`", lambda: osbytes.path_clean(PATH), "`posixpath.normpath`", lambda: posixpath.normpath(PATH)),
    ("`path_relative`", lambda: osbytes.path_relative(PATH, BASE), "`posixpath.relpath`", lambda: posixpath.relpath(PATH, BASE)),
    ("`path_components`", lambda: osbytes.path_components(PATH), "`PurePosixPath.parts`", lambda: PurePosixPath(PATH).parts),
    ("`UnixPath(..).parent`", (lambda: UNIX_PATH(PATH).parent) if UNIX_PATH else lambda: None, "`PurePosixPath(..).parent`", lambda: PurePosixPath(PATH).parent),
    ("`UnixPath(..) / \"a\"`", (lambda: MADE_PATH / "a") if UNIX_PATH else lambda: None, "`PurePosixPath(..) / \"a\"`", lambda: OWN_PATH / "a"),
    ("`UnixPath.with_suffix`", (lambda: MADE_PATH.with_suffix(".md")) if UNIX_PATH else lambda: None, "`PurePosixPath.with_suffix`", lambda: OWN_PATH.with_suffix(".md")),
    ("`Glob.is_match`", lambda: GLOB.is_match("a/b.rs"), "`fnmatchcase`", lambda: fnmatch.fnmatchcase("a/b.rs", "*.rs")),
    ("`GlobSet.matches` of 1000", lambda: GLOB.matches(MANY), "a loop of `fnmatchcase`", lambda: [fnmatch.fnmatchcase(name, "*.rs") for name in MANY]),
    ("`shell_join` of 1000", lambda: osbytes.shell_join(MANY), "`shlex.join`", lambda: shlex.join(MANY)),
    ("`Ignore.is_ignored`, 27 lines", lambda: IGNORE.is_ignored("a/b.rs"), "", None),
    ("`escape_line` of 1 MB", lambda: osbytes.escape_line(LONG), "`decode(.., backslashreplace)`", lambda: LONG.decode("utf-8", "backslashreplace")),
    ("`escape_line` of 1 MB in lines", lambda: osbytes.escape_line(LINES), "`decode(.., backslashreplace)`", lambda: LINES.decode("utf-8", "backslashreplace")),
    ("`shell_quote` of 1 MB", lambda: osbytes.shell_quote(MEGABYTE), "`shlex.quote`", lambda: shlex.quote(MEGABYTE)),
    ("`split` of 1 MB", lambda: osbytes.split(LONG, "/"), "`bytes.split`", lambda: LONG.split(b"/")),
    ("`to_units` of 1 MB", lambda: osbytes.to_units(LONG), "`list` of `encode(utf-16)`", lambda: list(memoryview(MEGABYTE.encode("utf-16-le")).cast("H"))),
    ("`symbols` of 1 MB", lambda: [0 for _ in osbytes.symbols(LONG)], "iteration", lambda: [0 for _ in MEGABYTE]),
]  # fmt: skip


def least(call: Callable[[], Any]) -> float:
    """Returns the least time of a call, in nanoseconds."""
    count, took = 1, 0.0
    while took < 0.01:
        count *= 4
        took = timeit.timeit(call, number=count, timer=time.process_time)
    return min(timeit.repeat(call, number=count, repeat=11, timer=time.process_time)) / count * 1e9


def shown(nanoseconds: float) -> str:
    return f"{nanoseconds:,.0f}" if nanoseconds < 1e6 else f"{nanoseconds / 1e6:,.1f} ms"


def main() -> None:
    print("| call | ns | Python's own | ns | ratio |")
    print("|---|---|---|---|---|")
    for name, call, other, own in ROWS:
        ours = least(call)
        theirs = least(own) if own else 0
        print(f"| {name} | {shown(ours)} | {other} | {shown(theirs) if own else ''} | {f'{ours / theirs:.1f}' if own else ''} |", flush=True)


if __name__ == "__main__":
    main()

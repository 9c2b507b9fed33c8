"""The sources as the tools read them: the crates of crates.txt, and the items of .rt files.

A call is found by the line on which its head begins, as `rt fmt` formats it: at the margin, or indented by four columns
within a trait or an `impl`.
"""

from __future__ import annotations

import os
import re
import sys
from functools import cache
from pathlib import Path
from typing import Iterator, NamedTuple

ROOT = Path(__file__).resolve().parents[2]
CRATES = ROOT / "crates"
LIST = ROOT / "crates.txt"
# The comment of crates.txt before the crates that are no part of the product.
TRYING = "# To try it."
# Modules that are open for the crates above alone: os_str_bytes doesn't export them, and no user calls them.
INNER = {("wtf8_core", "first_character"), ("wtf8_core", "vectors")}
FENCE = "```"
CRATE = re.compile(r"^(\w+)( staticlib)?:(.*)$", re.M)
DEFINED = re.compile(r"^pub (?:const |unsafe |extern \"C\" )*(?:fn|struct|enum|trait|type|const|static) (\w+)", re.M)
MODULE = re.compile(r"^(?:pub )?mod (\w+);", re.M)
PUBLIC_MODULE = re.compile(r"^pub mod (\w+);", re.M)
USE = re.compile(r"^pub use ([\w:]+?)(?:::\{([^}]*)\}| as (\w+))?;", re.M)
DOC = re.compile(r" *(?:///|//!) ?(.*)")
MODIFIERS = r"(?:(?:pub(?:\(crate\))?|final|unsafe|const|extern \"C\") )*"
CALL = re.compile(rf"( {{4}})?({MODIFIERS})fn (\w+)")
OWNER = re.compile(r"(pub )?(?:unsafe )?(trait|impl)\b(.*)")
CLAUSE = re.compile(r"(?:requires|ensures)\b")
TYPE = re.compile(r"(?:pub )?(?:trait|struct|enum) (\w+)")
ALIAS = re.compile(r"pub type (\w+)<.*> = (\w+)<")
IMPL = re.compile(r"impl\b(.*?)(?: \{.*)?$")
DERIVE = re.compile(r"#\[derive(?:_where)?\(([\w, ]+)")


def usage(text: str) -> int:
    """Prints how a tool is used, and returns the status for that."""
    print(text, file=sys.stderr)
    return 2


def processors() -> int:
    """Returns the number of processors that a tool uses: all, or JOBS of the environment."""
    return int(os.environ.get("JOBS") or len(os.sched_getaffinity(0)))


class Listed(NamedTuple):
    """A line of crates.txt: the libraries that a crate uses, and whether it is an archive for C."""

    uses: list[str]
    is_archive: bool


def listed(text: str) -> dict[str, Listed]:
    """Returns the crates of the text of a crates.txt, in its order."""
    lines = CRATE.findall(re.sub(r"#.*", "", text))
    return {name: Listed(below.split(), bool(archive)) for name, archive, below in lines}


def crates() -> dict[str, Listed]:
    """Returns the crates of this repository, lowest first."""
    return listed(LIST.read_text(encoding="utf-8"))


def product() -> list[str]:
    """Returns the libraries of the product: those that are listed before what is for tests, but for the examples."""
    before, _, _ = LIST.read_text(encoding="utf-8").partition(TRYING)
    return [name for name in listed(before) if root_of(name).exists()]


def libraries() -> list[str]:
    """Returns the libraries that users link, lowest first: the first group of crates.txt."""
    return list(listed(LIST.read_text(encoding="utf-8").split("\n\n")[0]))


def root_of(crate: str) -> Path:
    """Returns the root file of a library."""
    return CRATES / crate / "src" / "lib.rt"


def files_of(crate: str) -> list[Path]:
    return sorted((CRATES / crate / "src").rglob("*.rt"))


# An item, by the crate and the path that it is defined at: os_str_ext, chunks, Utf8Chunks.
Path_ = tuple[str, ...]


def file_of(at: Path_) -> Path:
    """Returns the file that a module would be."""
    crate, *inner = at
    return CRATES.joinpath(crate, "src", *(inner or ["lib"])).with_suffix(".rt")


def source(at: Path_) -> str:
    """Returns the source of a module; of what is none, nothing."""
    return file_of(at).read_text(encoding="utf-8") if file_of(at).exists() else ""


def uses(text: str) -> list[tuple[list[str], str]]:
    """Returns the paths that a module re-exports, each with the name that it has there."""
    found = []
    for path, names, renamed in USE.findall(text):
        for name in [it.strip() for it in names.split(",") if it.strip()] or [f"as {renamed}" if renamed else ""]:
            inner, _, other = name.partition("as ")
            whole = [*path.split("::"), *inner.split()]
            found.append((whole, other or whole[-1]))
    return found


@cache
def exports(at: Path_) -> dict[str, Path_]:
    """Returns the names that a module exports, and the items and modules that these are."""
    text = source(at)
    found = {name: (*at, name) for name in DEFINED.findall(text) + PUBLIC_MODULE.findall(text)}
    for path, name in uses(text):
        if item := resolved(at, path):
            found[name] = item
    return found


def resolved(at: Path_, path: list[str]) -> Path_ | None:
    """Returns the item that a path in a module names; for the kit's crates, nothing."""
    first, *rest = path
    if first == "crate":
        here: Path_ = at[:1]
    elif first in MODULE.findall(source(at)):
        here = (*at, first)
    elif (CRATES / first / "src" / "lib.rt").exists():
        here = (first,)
    else:
        return None
    for name in rest:
        found = exports(here).get(name)
        if found is None and name in MODULE.findall(source(here)):
            found = (*here, name)
        if found is None:
            return None
        here = found
    return here


def reached(at: Path_) -> set[Path_]:
    """Returns the items that a module exports, itself or by its modules."""
    items = set()
    for item in exports(at).values():
        items |= reached(item) if source(item) else {item}
    return items


def doc_before(lines: list[str], at: int) -> list[str]:
    """Returns the doc comment before a line."""
    start = at
    while start and (DOC.fullmatch(lines[start - 1]) or lines[start - 1].lstrip().startswith("#[")):
        start -= 1
    return [found[1] for line in lines[start:at] if (found := DOC.fullmatch(line))]


class Call(NamedTuple):
    """A function of a file: where its head begins (a line counted from 0), and what it belongs to."""

    lines: list[str]
    at: int
    name: str
    # The type of its `impl`, or the trait that declares it; nothing for a function of its own.
    owner: str
    # The trait that it is a member of.
    trait: str
    is_declared: bool
    is_pub: bool

    @property
    def is_open(self) -> bool:
        """Whether it can be called if its owner can be named: the contract of an `impl` is in its trait."""
        return self.is_pub or self.is_declared

    @property
    def doc(self) -> list[str]:
        """Its doc comment, line by line."""
        return doc_before(self.lines, self.at)

    @property
    def has_example(self) -> bool:
        return any(line.strip() == FENCE for line in self.doc)

    def head(self) -> tuple[str, int | None]:
        """Returns the text of its head up to its clauses, and the line of its body's brace, if it has a body."""
        head, is_stated = [], False
        for at in range(self.at, len(self.lines)):
            line = self.lines[at].strip()
            is_stated = is_stated or line == "where" or CLAUSE.match(line) is not None
            if not is_stated and not line.startswith("//"):
                head.append(line)
            if line == "{" or not is_stated and line.endswith("{"):
                return " ".join(head), at
            if line == "{}" or line.endswith(";"):
                return " ".join(head), None
        raise ValueError(f"a function has no end: {self.lines[self.at]}")

    def clauses(self) -> Iterator[str]:
        """Yields the lines of its clauses."""
        is_clause = False
        for line in self.lines[self.at :]:
            if line.strip() in ("{", "{}", "}", ""):
                return
            is_clause = is_clause or CLAUSE.match(line.strip()) is not None
            if is_clause:
                yield line


def without_parameters(head: str) -> str:
    """Returns the head of an `impl` or a trait, after that word, without the parameters before its name."""
    depth, at = 0, 0
    while at < len(head) and (depth or head[at] == "<"):
        depth += {"<": 1, ">": -1}.get(head[at], 0)
        at += 1
    return head[at:].strip()


def name_in(head: str) -> str:
    """Returns the first name of a type: the last part of a path, without a reference or a lifetime."""
    found = re.match(r"&?(?:'\w+ )?(?:\w+::)*(\w+)", head)
    return found[1] if found else ""


def calls_of(path: Path) -> Iterator[Call]:
    """Yields the functions of a file."""
    lines = path.read_text(encoding="utf-8").splitlines()
    owner, trait, is_declared = "", "", False
    for at, line in enumerate(lines):
        if found := OWNER.match(line):
            head = without_parameters(found[3])
            is_declared = found[2] == "trait" and found[1] is not None
            of_trait, _, of_type = head.rpartition(" for ") if found[2] == "impl" else (head, "", head)
            owner, trait = name_in(of_type), name_in(of_trait)
        elif line.startswith("}"):
            owner, trait, is_declared = "", "", False
        elif call := CALL.match(line):
            is_member = call[1] is not None
            words = call[2].split()
            is_pub = "pub" in words or is_member and is_declared
            if is_member:
                yield Call(lines, at, call[3], owner, trait, is_declared, is_pub)
            else:
                yield Call(lines, at, call[3], "", "", False, "pub" in words)


class Head(NamedTuple):
    """A type, a trait, an alias or an `impl`: its name, the type of an alias, and the traits that it has."""

    name: str
    of: str
    traits: list[str]


def heads_of(path: Path) -> Iterator[Head]:
    """Yields the types, traits and `impl`s of a file; traits with their types, as they are written."""
    derived: list[str] = []
    for line in path.read_text(encoding="utf-8").splitlines():
        if found := DERIVE.match(line):
            derived += re.findall(r"\w+", found[1])
        elif found := ALIAS.match(line):
            yield Head(found[1], found[2], [])
        elif found := TYPE.match(line):
            yield Head(found[1], "", derived)
            derived = []
        elif found := IMPL.match(line):
            of_trait, _, of_type = without_parameters(found[1]).rpartition(" for ")
            yield Head(name_in(of_type), "", [of_trait] if of_trait else [])


def public_calls(crate: str) -> Iterator[tuple[Path, Call]]:
    """Yields the calls of a library that its users can make, each with its file."""
    items = reached((crate,)).difference(*(reached(module) for module in INNER))
    owners = {item[-1] for item in items}
    for path in files_of(crate):
        module = (crate, *path.relative_to(root_of(crate).parent).with_suffix("").parts)
        for call in calls_of(path):
            is_named = call.owner in owners if call.owner else (*module, call.name) in items
            if call.is_open and is_named:
                yield path, call

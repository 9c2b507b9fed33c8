"""The links in doc comments of the crates, [`path`] or [text](path), to items.

A path begins with `crate`, `Self`, a crate, or a name that the file of the comment defines or imports, or a module
below it. Each further part is an item of the module, or a member of the type, before it. Items of the kit aren't
examined.
"""

import re
from collections import defaultdict
from functools import cache
from pathlib import Path
from typing import Iterator

from sources import CRATES, DOC, Path_, calls_of, crates, file_of, name_in, resolved, without_parameters

LINK = re.compile(r"\[`([^`\]]+)`\](?![(:])|\]\(([^)\s]*)\)|^ *\[`[^`\]]+`\]: (\S+)$")
# A link whose target is in a line of its own.
NAMED = re.compile(r"^ *//[/!] \[`([^`\]]+)`\]: \S+$", re.M)
PATH = re.compile(r"(?:\w+::)*\w+")
OUTSIDE = re.compile(r"https?:|#|.*\.(?:md|rt|antt)$")
VISIBLE = r"(?:pub(?:\(crate\))? )?"
USED = re.compile(rf"^{VISIBLE}use ([^;]+);", re.M)
ITEM = re.compile(rf"^ *{VISIBLE}(?:const |unsafe |final )*(?:fn|struct|enum|trait|type|const|static|mod|macro_rules!) (\w+)", re.M)
BODY = re.compile(rf"^{VISIBLE}(?:enum|struct|trait) (\w+).*?^\}}$", re.M | re.S)
MEMBER = re.compile(rf"^ {{4}}{VISIBLE}(?:type )?(\w+)(?= *[,:({{;=]| *$)", re.M)
IMPL = re.compile(r"^impl\b(.*?) \{$.*?^\}$", re.M | re.S)
CONST = re.compile(rf"^ {{4}}{VISIBLE}const (\w+):", re.M)
KIT = {"std", "core", "memchr", "ucd_case"}
PRELUDE = {"bool", "char", "str", "u8", "u16", "u32", "u64", "usize", "slice", "Result", "Option", "Vec", "String"}


@cache
def names_in(path: Path) -> frozenset[str]:
    """Returns the names that a file defines or imports, those of members too, and of the modules below it."""
    text = path.read_text(encoding="utf-8")
    used = {name for clause in USED.findall(text) for name in re.findall(r"(\w+)(?=\s*(?:,|\}|$))", clause)}
    variants = {name for body in BODY.finditer(text) for name in MEMBER.findall(body[0])}
    below = path.parent if path.stem == "lib" else path.with_suffix("")
    return frozenset({*ITEM.findall(text), *used, *variants, *(it.stem for it in below.glob("*.rt"))})


@cache
def members() -> dict[str, set[str]]:
    """Returns the calls, variants, fields, types and constants of each type and trait of this repository."""
    found: dict[str, set[str]] = defaultdict(set)
    for path in CRATES.glob("*/src/**/*.rt"):
        text = path.read_text(encoding="utf-8")
        for call in calls_of(path):
            found[call.owner].add(call.name)
            found[call.trait].add(call.name)
        for body in BODY.finditer(text):
            found[body[1]].update(MEMBER.findall(body[0]))
        for body in IMPL.finditer(text):
            found[name_in(without_parameters(body[1]).rpartition(" for ")[2])].update(CONST.findall(body[0]))
    return found


def module_of(path: Path) -> Path_:
    """Returns the path of the module that a file is."""
    crate, _, *inner = path.relative_to(CRATES).with_suffix("").parts
    return (crate,) if inner in (["lib"], ["main"]) else (crate, *inner)


def leads(path: Path, link: str) -> bool:
    """Returns whether a link in a file leads to an item."""
    first, *rest = link.split("::")
    here = module_of(path)
    if first in KIT or first in PRELUDE:
        return True
    if first == "Self":
        return not rest or rest[0] in names_in(path)
    is_crate = first == "crate" or first in crates()
    if not rest or not is_crate and first not in names_in(path):
        return is_crate or first in names_in(path)
    *between, last = rest
    owner = between[-1] if between else first
    if last in members().get(owner, ()):
        return True
    start = here[:1] if first == "crate" else (first,) if is_crate else (*here, first)
    if file_of((*start, *between)).exists():
        return last in names_in(file_of((*start, *between)))
    if resolved(here, [first, *rest]) is not None:
        return True
    # a type of the kit has members that aren't known here
    return not is_crate and first not in members() and resolved(here, [first]) is None


def links_of(text: str) -> Iterator[tuple[int, str]]:
    """Yields the paths that doc comments of a source link to, each with its line."""
    named = set(NAMED.findall(text))
    for number, line in enumerate(text.splitlines(), 1):
        for code, *targets in LINK.findall(found[1]) if (found := DOC.fullmatch(line)) else ():
            target = "".join(targets)
            path = re.sub(r"<.*?>|\(.*\)|!$", "", target or code)
            if code not in named and not OUTSIDE.match(target) and PATH.fullmatch(path):
                yield number, path


def broken_links() -> tuple[int, list[str]]:
    """Returns the number of links in doc comments, and a line for each that leads to no item."""
    links = [(path, *link) for path in sorted(CRATES.glob("*/src/**/*.rt")) for link in links_of(path.read_text(encoding="utf-8"))]
    wrong = [f"{path.relative_to(CRATES.parent)}:{at}: no such item: {link}" for path, at, link in links if not leads(path, link)]
    return len(links), wrong

"""The examples of the docs, as tests.

An example is a fenced block of a doc comment. It is the body of a test, which has the runtime `rt`
and its allocator `alloc`; its `use` lines come first. Each is a test in a module of its own.
"""

import re
from pathlib import Path
from typing import Iterator, NamedTuple

from laid_in import Module, Run
from sources import DOC, FENCE, ROOT, crates, files_of, product, public_calls, root_of

PREFIX = r"(?:(?:pub|final|unsafe|const|extern \"C\") )*"
ITEM = re.compile(rf" *{PREFIX}(?:fn|struct|enum|trait|type|mod|use|impl)\b(?:<.*?>)? ?(\w*)")


class Example(NamedTuple):
    """A fenced block: where it begins, the crate of its file, and its lines."""

    path: Path
    line: int
    item: str
    lines: list[str]

    @property
    def crate(self) -> str:
        return self.path.relative_to(ROOT / "crates").parts[0]

    @property
    def module(self) -> str:
        """The name of its module: its crate, its file, what it is an example of, and its line."""
        *inner, file = self.path.relative_to(root_of(self.crate).parent).parts
        return "_".join([self.crate, *inner, file.removesuffix(".rt"), self.item.lower(), str(self.line)])

    @property
    def place(self) -> str:
        return f"{self.path.relative_to(ROOT)}:{self.line}"


def examples_of(path: Path) -> Iterator[Example]:
    """Yields the fenced blocks of the doc comments of a file."""
    block: list[str] | None = None
    waiting: list[tuple[int, list[str]]] = []
    start = 0
    for number, line in enumerate(path.read_text(encoding="utf-8").splitlines(), 1):
        doc = DOC.fullmatch(line)
        if not doc:
            item = ITEM.match(line)
            if item or not line.strip():
                name = item[1] if item and item[1] else "module"
                yield from (Example(path, at, name, lines) for at, lines in waiting)
                waiting = []
        elif doc[1].strip() == FENCE:
            if block is None:
                block, start = [], number
            else:
                waiting.append((start, block))
                block = None
        elif block is not None:
            block.append(doc[1])
    yield from (Example(path, at, "module", lines) for at, lines in waiting)


def test_of(example: Example) -> str:
    """Returns the example as a test in a module of its own."""
    text = "\n".join(example.lines)
    uses = re.match(r"(?:use [^;]*;\n*)*", text)[0].strip()
    body = text[len(uses):].strip()
    given = ["    let alloc = rt.alloc();"] if re.search(r"\balloc\b", body) else []
    lines = [
        "#[cfg(test)]",
        f"mod {example.module} {{",
        *([uses] if uses else []),
        "use std::process::Abort;",
        "use std::test::Fail;",
        "#[test]",
        "fn example(rt: HostRuntime) -> Result<(), Fail> {",
        *given,
        body,
        "    Ok(())",
        "}",
        "}",
    ]
    return "\n".join(lines)


def without_example(crate: str) -> Iterator[str]:
    """Yields the public calls of a crate that have no example. A law, which does nothing, needs none, and an export
    for C is called from there."""
    if crates()[crate].is_archive:
        return
    for path, call in public_calls(crate):
        if not path.stem.endswith("laws") and not call.has_example:
            yield f"{path.relative_to(ROOT)}:{call.at + 1}: {call.name} has no example"


def module_of(examples: list[Example]) -> Module:
    """Returns the examples as a module of a crate."""
    used = [crate for crate in product() if any(f"use {crate}::" in "\n".join(e.lines) for e in examples)]
    return Module("doc_examples", "\n\n".join(map(test_of, examples)), used)


def standing(of: list[str] | None = None) -> list[Example]:
    """Returns the examples of the doc comments of these libraries, or of all."""
    return [e for crate in (product() if of is None else of) for path in files_of(crate) for e in examples_of(path)]


def missing() -> list[str]:
    """Returns a line for each public call that has no example."""
    return [line for crate in product() for line in without_example(crate)]


def outcome_of(examples: list[Example], run: Run) -> tuple[str, list[str]]:
    """Returns a line with the number of examples that passed in a run, and what is wrong with them."""
    passed = {name.split("::")[-2] for name, result in run.results.items() if name.endswith("::example") and result == "ok"}
    failed = [f"{e.place}: the example of {e.item} did not pass" for e in examples if e.module not in passed]
    faults = [*failed, *missing()] if examples else ["there is no example"]
    return f"examples of the docs: {len(examples) - len(failed)} of {len(examples)} passed, unproved", faults

"""The lines of the tables that the benchmark prints, as RESULTS.md has them."""

from __future__ import annotations

import re
import statistics
from typing import NamedTuple

TITLE = re.compile(r"### ((?:Hard )?\w+)")
TIME = re.compile(r"[\d.]+$")
OVER = re.compile(r"Ours/(.+)")
CRATE = "os_str_bytes"


class Found(NamedTuple):
    """A ratio, and what it is of."""

    ratio: float
    name: str


class Ratios(NamedTuple):
    """The ratios of a family over a peer."""

    found: list[Found]

    @property
    def median(self) -> float:
        return statistics.median(it.ratio for it in self.found)

    @property
    def above_one(self) -> int:
        return sum(it.ratio > 1 for it in self.found)

    @property
    def worst(self) -> Found:
        return max(self.found, key=lambda it: it.ratio)


def peers_of(text: str) -> dict[str, dict[str, Ratios]]:
    """Returns the ratios over each peer, by families: the crate, std, and each other that a column names."""
    peers: dict[str, dict[str, Ratios]] = {}
    family, over = "", []
    for row in text.splitlines():
        if title := TITLE.match(row):
            family = title[1]
        cells = [cell.strip() for cell in row.split("|")[1:-1]]
        if cells[:1] == ["Call"]:
            over = [OVER.fullmatch(column) for column in cells[4::2]] if cells[2] == "Ours" else []
        elif over and TIME.match(cells[2] if len(cells) > 2 else ""):
            for column, theirs in zip(over, cells[3::2]):
                if column and theirs:
                    peer = CRATE if column[1] == "crate" else column[1]
                    of_family = peers.setdefault(peer, {}).setdefault(family, Ratios([]))
                    of_family.found.append(Found(float(cells[2]) / float(theirs), f"{cells[0]}: {cells[1]}"))
    return peers


class Row(NamedTuple):
    """What a summary has of a family beside a peer: lines, the median, how many are above 1, and the worst."""

    rows: int
    median: float
    above_one: int
    worst: float


def summary_rows(text: str, title: str) -> dict[str, Row]:
    """Returns the rows of a table of a summary, by their families, in its order."""
    table = re.search(rf"^### {re.escape(title)}\n\n((?:\|.*\n)+)", text, re.M)
    lines = [[cell.strip() for cell in line.split("|")[1:-1]] for line in table[1].splitlines()[2:]]
    return {name: Row(int(rows), float(median), int(above), float(worst)) for name, rows, median, above, worst, _ in lines}

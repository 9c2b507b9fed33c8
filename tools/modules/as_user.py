"""Commands in an empty environment, on an unpacked archive, as a user without the kit runs them."""

import re
import subprocess
from pathlib import Path

from handed_on import LICENCE

CLEAN = {"PATH": "/usr/bin:/bin", "LANG": "C.UTF-8"}


class Failure(Exception):
    """What isn't as it should be."""


def run(*words: object, more: dict[str, str] = {}, **how: object) -> str:
    """Runs a command, which must succeed, in an environment with these variables alone, and returns its output."""
    ran = subprocess.run(
        [str(word) for word in words], env={**CLEAN, **more}, stdin=subprocess.DEVNULL, stdout=subprocess.PIPE, stderr=subprocess.STDOUT,
        text=True, errors="replace", **how,
    )
    if ran.returncode != 0:
        raise Failure(f"{' '.join(map(str, words))}: status {ran.returncode}: {ran.stdout}")
    return ran.stdout


def unpacked(file: Path, room: Path) -> Path:
    """Unpacks an archive, and returns its folder."""
    run("tar", "xzf", file, "-C", room)
    return room / file.name.removesuffix(".tar.gz")


def dead_links(top: Path) -> list[str]:
    """Returns the links of documents in a folder that lead to no file of it."""
    found = []
    for document in top.rglob("*.md"):
        links = re.findall(r"\[[^\]]*\]\(([^)#\s]+)", document.read_text(encoding="utf-8"))
        found += [f"{document}: {link}" for link in links if ":" not in link and not (document.parent / link).exists()]
    return found


def check_links(top: Path) -> None:
    """Fails where a link of a document of an archive leads to no file of it, or a document is missing at its top."""
    wanted = ["README.md", "CHANGES.md", *LICENCE]
    if missing := [name for name in wanted if not (top / name).exists()] + dead_links(top):
        raise Failure(f"the archive lacks {', '.join(missing)}")

"""Texts in roff, the language of man pages."""

import re

from handed_on import version


def as_roff(text: str) -> str:
    """Returns a text as roff shows it as it is."""
    escaped = text.replace("\\", "\\e").replace("-", "\\-")
    lines = (f"\\&{line}" if line.startswith((".", "'")) else line for line in escaped.splitlines())
    return re.sub(r"\n\n+", "\n.PP\n", "\n".join(lines))


def as_shown(text: str) -> str:
    """Returns lines as roff shows them line for line."""
    return ".nf\n" + as_roff(text).replace("\n.PP\n", "\n\n") + "\n.fi"


def page(name: str, section: int, parts: dict[str, str]) -> str:
    """Returns a man page of a section of the manual, with these parts, whose texts are roff."""
    head = f'.TH {name.upper()} {section} "" "osbytes {version()}" "osbytes"'
    return "\n".join([head, *(f".SH {title}\n{text}" for title, text in parts.items() if text)]) + "\n"

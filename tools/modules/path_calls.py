"""Calls of path_rules and path_building, made by the program test_path_calls of tests/."""

from typing import NamedTuple

from laid_in import rows_of


class Call(NamedTuple):
    """A call: its name, the platform, its paths, and what it must return: a path, or `!` and an error's word."""

    name: str
    platform: str
    paths: list[bytes]
    expected: bytes | str = b""


def returned(calls: list[Call]) -> list[bytes | str]:
    """Returns what each call returned."""
    lines = ("\t".join([call.name, call.platform, *(path.hex() for path in call.paths)]) for call in calls)
    return [row if row.startswith("!") else bytes.fromhex(row) for row in rows_of("test_path_calls", "calls", lines)]

"""Asks CPython's codecs and searches for four files of the test vectors: python3 check.py FOLDER."""

import sys
from pathlib import Path


def encode(units, wtf8):
    """Code units as WTF-8: UTF-16 in which a lone surrogate passes."""
    text = b"".join(int(units[at : at + 4], 16).to_bytes(2, "little") for at in range(0, len(units), 4))
    return text.decode("utf-16-le", "surrogatepass").encode("utf-8", "surrogatepass").hex() == wtf8


def lossy(raw, _fault, text, *_):
    """The lossy text of bytes on Unix: U+FFFD for each maximal ill-formed part."""
    return bytes.fromhex(raw).decode("utf-8", "replace").encode().hex() == text


def search(_platform, string, pattern, *found):
    """The first and the last index of a pattern, and whether it is there at all, at the start and at the end."""
    s, p = bytes.fromhex(string), bytes.fromhex(pattern)
    index, last = ("!" if at < 0 else str(at) for at in (s.find(p), s.rfind(p)))
    return (index, last, *(str(int(it)) for it in (p in s, s.startswith(p), s.endswith(p)))) == found[:5]


ASKED = {"exhaustive/windows_encode": encode, "random/windows_encode": encode, "exhaustive/lossy": lossy, "exhaustive/search": search}
differing = 0
for name, same in ASKED.items():
    lines = (Path(sys.argv[1]) / f"{name}.tsv").read_text().splitlines()
    rows = [["" if it == "-" else it for it in line.split("\t")] for line in lines if not line.startswith("#")]
    wrong = sum(not same(*row) for row in rows)
    differing += wrong
    print(f"{name}.tsv: {len(rows)} rows, {wrong} differ")
sys.exit(1 if differing else 0)

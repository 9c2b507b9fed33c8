"""Archives at random: headers that readers read in different ways, in any order."""

import random
from typing import Iterator

from tar_blocks import END, GNU, INNER, STEPS, USTAR, V7, Archive, entry, header, long_name, member, pax
from tar_rules import SIZES

RANDOM = 200
SHAPED = 4000
# one archive in so many has a byte that is changed
CHANGED = 8

NAMES = [b"f", b"f", b"d/", b"d//", b"", b"a/b", b"./c", b"../up", b"x/../y", b"/root", b"e" * 100]
STATED = [b"g", b"h/", b"long/" * 25 + b"l", b"long/" * 25, b"i/j", b"../out", b"k/../l"]
VALUES = [b"c", b"a\n16 path=../evil", b"a\n10 path=x", b"a\nb", b"user::rw-\ngroup::r--\n", b"a\n12 size=512"]
TYPES = [b"0", b"0", b"0", b"7", b"\0", b"5", b"2"]
MAGICS = [USTAR, USTAR, USTAR, USTAR, GNU, V7, b"ustar\x0001", b"ustar\0\0\0"]


def a_content(chance: random.Random) -> bytes:
    """Returns blocks that are headers to a reader that doesn't skip them."""
    hidden = chance.choice([b"hidden", b"hidden", b"../hidden", b"in/side"])
    return b"".join(chance.choice([entry(hidden), member(b"0", hidden, b"content"), long_name(hidden) + entry(b"z")]) for _ in range(chance.randrange(1, 3)))


def an_entry(chance: random.Random) -> bytes:
    content = a_content(chance) if chance.random() < 0.5 else b""
    size = len(content) if chance.random() < 0.9 else chance.choice([0, 512, 1024])
    prefix = chance.choice([b"p", b"p/q", b"q/", b".."]) if chance.random() < 0.15 else b""
    end = chance.choice([b"\0" * 8 + b"tar\0", b" ", b"\0" * 11 + b"\1"]) if chance.random() < 0.03 else b""
    return header(chance.choice(TYPES), chance.choice(NAMES), size, chance.choice(MAGICS), prefix, end=end) + content


def a_step(chance: random.Random) -> bytes:
    """Returns a header that describes an entry, or all."""
    said = chance.random()
    if said < 0.3:
        return member(b"L", b"././@LongLink" if chance.random() < 0.95 else b"", chance.choice([name + b"\0" for name in STATED] + [b"", b"\0", b"m"]), magic=GNU)
    if said < 0.4:
        return pax((b"comment", chance.choice(VALUES)), kind=b"g")
    records = [(b"path", chance.choice(STATED + VALUES)), (b"size", chance.choice([b"0", b"512", b"1024"])), (b"comment", chance.choice(VALUES))]
    return pax(*chance.sample(records, chance.randrange(1, 3)))


def an_end(chance: random.Random) -> bytes:
    zero = bytes(512)
    ends = [2 * zero, 2 * zero, 2 * zero, zero, 20 * zero, zero + INNER + 2 * zero, zero + bytes(100), 2 * zero + INNER + 2 * zero, b""]
    return chance.choice(ends)


def shaped() -> Iterator[Archive]:
    chance = random.Random(103)
    for number in range(SHAPED):
        held = b""
        for _ in range(chance.randrange(1, 4)):
            held += b"".join(a_step(chance) for _ in range(chance.choice([0, 0, 1, 1, 2, 3]))) + an_entry(chance)
            held += bytes(512) if chance.random() < 0.03 else b""
        held += an_end(chance)
        if chance.randrange(CHANGED) == 0:
            at = chance.randrange(len(held))
            held = held[:at] + bytes([chance.randrange(256)]) + held[at + 1 :]
        yield Archive(f"shaped {number}", held)


def filled() -> Iterator[Archive]:
    """Yields each entry whose name ends with a slash and that has a size, and the others that hide a header in content."""
    hidden = member(b"0", b"hidden", b"content")
    for kind in (b"0", b"7", b"\0", b"5", b"2"):
        for title, held in {
            "its own": header(kind, b"d/", len(hidden)), "after a prefix": header(kind, b"d/", len(hidden), USTAR, b"p"),
            "by a prefix": header(kind, b"", len(hidden), USTAR, b"d"), "by L": long_name(b"d/") + header(kind, b"d", len(hidden)),
            "by a path": pax((b"path", b"d/")) + header(kind, b"d", len(hidden)), "sized by pax": pax((b"size", b"1024")) + header(kind, b"d/"),
            "a path, sized": pax((b"path", b"d/"), (b"size", b"1024")) + header(kind, b"d"), "none": header(kind, b"", len(hidden)),
            "by L, none": long_name(b"good") + header(kind, b"", len(hidden)),
        }.items():  # fmt: skip
            yield Archive(f"a name with a slash, {title}, type {kind!r}", held + hidden + 2 * END)


def random_ones() -> Iterator[Archive]:
    random.seed(1)
    pieces = list(STEPS.values()) + [bytes(512), INNER, entry(b"d/", b"5"), member(b"0", b"f", b"content"), pax((b"size", b"0"))]
    pieces += [header(kind, b"r", size) for kind in (b"0", b"\0", b"1", b"5", b"S", b"V") for size in SIZES[:10]]
    for number in range(RANDOM):
        held = b"".join(random.choice(pieces) for _ in range(random.randrange(1, 9))) + END
        if random.random() < 0.3:
            at = random.randrange(len(held))
            held = held[:at] + bytes([random.randrange(256)]) + held[at + 1 :]
        yield Archive(f"random {number}", held)


RULES = (filled, shaped, random_ones)

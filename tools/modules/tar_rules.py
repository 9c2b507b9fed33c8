"""Archives by rule: each spelling of a number, each type, each order of headers, each end."""

from itertools import product
from typing import Callable, Iterator

from tar_blocks import END, GNU, INNER, LAST, STEPS, USTAR, V7
from tar_blocks import Archive, beside, entry, header, long_name, member, padded, pax, plain_sum, record, signed, unsigned

SIZES = [
    b"00000001000\0", b"000000001000", b"00000001000 ", b"      01000 ", b"      1000\0 ", b"       01000", b"1000", b"1000\0",
    b"1000 ", b"1000 \0 \0", b" 1000", b" 1000 \0", b"1000\0junk", b"1000 junk", b"1000 10", b"1000x", b"x1000", b"\x001000",
    b"\0\x001000", b" \x001000", b"\t1000", b"\n1000 ", b"\x0b1000", b"\x1c1000", b"\xa01000", b"1000\t", b"1000\x1c", b"+1000",
    b"-1000", b"-1", b"+0", b"-0", b" +1000", b"10_00", b"0o1000", b"0O1000", b"0x200", b"1008", b"8", b"9000", b"1000.", b"",
    b"            ", b" ", b"        \0", b"\0           ", b"0", b"00000000000\0", b"000000000000", b"777777777777",
    b"\x80" + bytes(9) + b"\x02\0", b"\x80" + bytes(11), b"\xff" * 10 + b"\xfe\0", b"\xff" * 12, b"\x80" + b"\xff" * 11,
    b"\x81" + bytes(9) + b"\x02\0", b"\xc0" + bytes(9) + b"\x02\0", b"AAAAAAAAIA", b"+IA", b"-IA", b"1000\xff", b"\xef\xbc\x91000",
]  # fmt: skip

KINDS = [bytes([kind]) for kind in b"\x0001234567LKxgXSDMVNAIEPZahnz? \n\x7f\x80\xff"]

DECIMALS = [
    b"512", b"0", b"00512", b" 512", b"512 ", b"+512", b"-512", b"-1", b"5_12", b"0x200", b"01000", b"512.0", b"5e2", b"", b"abc",
    b"512\0", b"512\x000", b"\x00512", b"512\n", b"\t512", "５１２".encode(), b"512,0", b"9223372036854775807",
    b"9223372036854775808", b"18446744073709551615", b"18446744073709551616", b"18446744073709552128", b"1" * 5000,
]  # fmt: skip

# raw records, some of them invalid
RAW = [
    b"18 path=../hidden\n", b"018 path=../hiddn\n", b" 18 path=../hiddn\n", b"18  path=../hiddn\n", b"18\tpath=../hidden\n", b"19 \tpath=../hidden\n",
    b"18 path =../hiddn\n", b"18 path=../hiddenX", b"17 path=../hidden\n", b"19 path=../hidden\n", b"0 path=../hidden\n", b"path=../hidden\n",
    b"x18 path=../hidden\n", b"18 path:../hidden\n", b"4 =\n", b"5 =a\n", b"5 a=\n", b"6 a=b\n", b"7 a=b\n", b"9 pa\0th=x\n", b"9 a=b\0c=\n",
    b"8 a b=c\n", b"9 a\nb=cd\n", b"99 path=../hidden\n", b"\n", b"\0", b"3 \n", b"2 ", b"1", b"99999999999999999999 path=x\n", b"+18 path=../hidde\n",
    b"-18 path=../hidden\n", b"18 PATH=../hidden\n", b"18 path=../hid\0en\n", b"13 path=..\0x\n", b"8 path=\n", b"10 path=/\n", b"11 path=..\n", b"9 \xffa=bc\n",
    b"20 linkpath=../hidd\n", b"20 charset=BINARY\n  ", b"22 hdrcharset=BINARY\n", b"11 path=\xff\xfe\n", b"11 path=\xc3\xa9\n",
    b"22 SCHILY.path=../hid\n", b"25 GNU.volume.label=hidd\n", b"19 GNU.dumpdir=Ya\0\n", b"26 GNU.volume.filename=abc\n", b"21 SCHILY.realsize=12\n",
]  # fmt: skip

SPARSE: list[list[tuple[bytes, bytes]]] = [
    [(b"GNU.sparse.name", b"../hidden")],
    [(b"GNU.sparse.major", b"1"), (b"GNU.sparse.minor", b"0"), (b"GNU.sparse.name", b"../hidden"), (b"GNU.sparse.realsize", b"512")],
    [(b"GNU.sparse.map", b"0,512"), (b"GNU.sparse.size", b"512"), (b"GNU.sparse.numblocks", b"1")],
    [(b"GNU.sparse.size", b"512"), (b"GNU.sparse.numblocks", b"1"), (b"GNU.sparse.offset", b"0"), (b"GNU.sparse.numbytes", b"512")],
    [(b"GNU.sparse.realsize", b"512")],
    [(b"GNU.sparse.unknown", b"512")],
    [(b"GNU.sparse", b"512")],
]


def sizes() -> Iterator[Archive]:
    for size, kind in product(SIZES, (b"0", b"5")):
        yield Archive(f"size {size!r}, type {kind!r}", header(kind, b"first", size) + beside(b"../inner"))
    for size, kind in product(SIZES, (b"L", b"x")):
        held = padded(b"18 path=../hidden\n") if kind in b"xg" else padded(b"../hidden\0")
        yield Archive(f"size {size!r}, type {kind!r}", header(kind, b"said", size) + held + beside(b"../inner"))


def kinds() -> Iterator[Archive]:
    for kind, size, magic, name in product(KINDS, (0, 512), (USTAR, V7), (b"first", b"first/")):
        yield Archive(f"type {kind!r}, size {size}, {magic!r}, {name!r}", header(kind, name, size, magic) + beside(b"../inner"))
        if magic == V7:
            held = long_name(b"said") + header(kind, name, size, magic) + beside(b"../inner")
            yield Archive(f"type {kind!r} after a long name, size {size}, {name!r}", held)


def records() -> Iterator[Archive]:
    for value, own, kind in product(DECIMALS, (0, 1024), (b"0", b"1", b"\0")):
        held = pax((b"size", value)) + header(kind, b"first/" if kind == b"\0" else b"first", own)
        yield Archive(f"size={value!r}, own size {own}, type {kind!r}", held + INNER + beside(b"../inner"))
    for value in DECIMALS:
        held = pax((b"size", value), kind=b"g") + header(b"0", b"first", 0)
        yield Archive(f"size={value!r} for all", held + INNER + beside(b"../inner"))
        held = pax((b"size", value)) + long_name(b"long") + header(b"0", b"first", 0)
        yield Archive(f"size={value!r} before a long name", held + INNER + beside(b"../inner"))
        held = pax((b"size", b"512"), (b"size", value)) + header(b"0", b"first", 0)
        yield Archive(f"size=512 and size={value!r}", held + INNER + beside(b"../inner"))
        held = pax((b"size", value), (b"size", b"512")) + header(b"0", b"first", 0)
        yield Archive(f"size={value!r} and size=512", held + INNER + beside(b"../inner"))
    for raw, kind in product(RAW, (b"x", b"g")):
        for title, content in [
            ("alone", raw),
            ("before a path", raw + record(b"path", b"../after")),
            ("after a path", record(b"path", b"../before") + raw),
            ("before a size", raw + record(b"size", b"512")),
        ]:
            held = member(kind, b"pax", content) + header(b"0", b"first", 0)
            yield Archive(f"record {raw!r} {title}, type {kind!r}", held + beside(b"../inner"))
    for of, kind in product(SPARSE, (b"x", b"g")):
        for own in (b"0", b"S", b"5"):
            held = pax(*of, kind=kind) + header(own, b"first", 512) + padded(b"1\n0\n512\n")
            yield Archive(f"{of} for type {own!r}, type {kind!r}", held + beside(b"../inner"))


# those that are combined by threes
THREE = ["L a", "x path", "x size", "x comment", "g comment"]


def orders() -> Iterator[Archive]:
    for count, steps in ((1, list(STEPS)), (2, list(STEPS)), (3, THREE)):
        for names in product(steps, repeat=count):
            held = b"".join(STEPS[name] for name in names)
            yield Archive(", ".join(names), held + header(b"0", b"first") + beside(b"../inner"))
            if count == 2:
                yield Archive(f"{names[0]}, an entry, {names[1]}", STEPS[names[0]] + INNER + STEPS[names[1]] + LAST + INNER + END)
                yield Archive(f"{', '.join(names)}, the end", held + END + LAST)


def paddings() -> Iterator[Archive]:
    fillers = [record(b"path", b"../hidden"), record(b"size", b"512"), b"hidden\0", b"\0hidden", b" ", b"/../x"]
    for kind, content, filler in product(b"LKxg0", (b"", b"long", record(b"comment", b"c"), b"a" * 511), fillers):
        held = member(bytes([kind]), b"said", content, filler) + header(b"0", b"first")
        yield Archive(f"{filler!r} after {content!r}, type {chr(kind)}", held + beside(b"../inner"))
    for content in (b"a\0b\0", b"\0", b"\0a", b"a" * 512, b"a" * 1024, b"a" * 65_536, b"a" * 65_537):
        held = member(b"L", b"said", content) + header(b"0", b"first")
        yield Archive(f"a long name {content[:9]!r} of {len(content)} bytes", held + beside(b"inner"))


SUMS: dict[str, Callable[[bytes], bytes]] = {
    "six digits, NUL, space": plain_sum,
    "seven digits, NUL": lambda block: b"%07o\0" % unsigned(block),
    "eight digits": lambda block: b"%08o" % unsigned(block),
    "six digits, space, NUL": lambda block: b"%06o \0" % unsigned(block),
    "spaces first": lambda block: b"%6o\0 " % unsigned(block),
    "spaces first, to the end": lambda block: b"%8o" % unsigned(block),
    "digits alone": lambda block: b"%o" % unsigned(block),
    "NUL first": lambda block: b"\0%06o\0" % unsigned(block),
    "a letter after": lambda block: b"%06o\0x" % unsigned(block),
    "a letter close": lambda block: b"%06ox" % unsigned(block),
    "plus": lambda block: b"+%06o\0" % unsigned(block),
    "base 256": lambda block: b"\x80" + unsigned(block).to_bytes(7, "big"),
    "signed": lambda block: b"%06o\0 " % max(signed(block), 0),
    "one more": lambda block: b"%06o\0 " % (unsigned(block) + 1),
    "none": lambda block: b"",
    "spaces": lambda block: b" " * 8,
}


def sums() -> Iterator[Archive]:
    for (title, checksum), name in product(SUMS.items(), (b"first", b"\xc3\xa9", b"\xff\xfe")):
        held = entry(b"good") + header(b"0", name, 512, checksum=checksum)
        yield Archive(f"sum: {title}, {name!r}", held + beside(b"../inner"))
        yield Archive(f"sum of the first: {title}, {name!r}", header(b"0", name, 512, checksum=checksum) + beside(b"../inner"))
    for numbers in (b"", b"9" * 24, b" " * 24, b"\xff" * 24, b"x" * 24, b"0000644\0\x80" + bytes(15)):
        held = header(b"0", b"first", 512, numbers=numbers.ljust(24, b"\0"))
        yield Archive(f"mode and owner {numbers!r}", held + beside(b"../inner"))


def prefixes() -> Iterator[Archive]:
    magics = [USTAR, GNU, V7, b"ustar\0  ", b"ustar\0\0\0", b"ustar 00", b"ustar00\0", b"USTAR\x0000", b"ustarx00"]
    for magic, prefix, kind in product(magics, (b"", b"..", b"a/", b"\0a", b"a" * 155, b"00000000000\0" * 2), (b"0", b"5", b"\0", b"7", b"2")):
        held = header(kind, b"first", 0, magic, prefix)
        yield Archive(f"prefix {prefix!r}, {magic!r}, type {kind!r}", held + beside(b"../inner"))
        yield Archive(f"prefix {prefix!r} after a long name, {magic!r}, type {kind!r}", long_name(b"l") + held + beside(b"../inner"))
    for name in (b"a" * 100, b"a\0b", b"", b"\0a", b"/", b"//", b".", b"..", b"./", b"../", b"/a", b"a//b", b" ", b"a/", b"a//"):
        yield Archive(f"name {name!r}", entry(name) + LAST + END)
        yield Archive(f"name {name!r} after a prefix", header(b"0", name, 0, USTAR, b"p") + LAST + END)


def ends() -> Iterator[Archive]:
    whole = entry(b"first") + member(b"0", b"second", b"content") + LAST
    zero, junk = bytes(512), b"junk" * 128
    for title, end in {
        "no zeros": b"", "one block": zero, "two blocks": 2 * zero, "one block, an entry": zero + INNER + END,
        "two blocks, an entry": 2 * zero + INNER + END, "three blocks, an entry": 3 * zero + INNER + END, "junk": junk,
        "one block, junk": zero + junk, "two blocks, junk": 2 * zero + junk, "junk, an entry": junk + INNER + END,
        "half a block": bytes(256), "a block and a half": bytes(768), "many": 40 * zero, "almost zeros": bytes(511) + b"\1" + INNER + END,
    }.items():  # fmt: skip
        yield Archive(f"the end: {title}", whole + end)
        yield Archive(f"at once the end: {title}", end)
    for at in range(0, len(whole + END) + 1, 100):
        yield Archive(f"cut off at {at}", (whole + END)[:at])


RULES = (sizes, kinds, records, orders, paddings, sums, prefixes, ends)

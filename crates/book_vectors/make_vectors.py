#!/usr/bin/env python3
"""Writes stdin and stdout of this program: books, sound and damaged in every way that document 01 names, and what 01 and 02 W3 say of them."""
import pathlib
import random

here = pathlib.Path(__file__).parent
CODE = [40, 8, 8, 25, 2, 2, 3]
ENTRY = [40, 9, 9, 25, 2, 2, 3]


def text(value, width):
    return value.ljust(width).encode("cp037")


def corrected(code):
    """What a code means: moved left, and blanks after it (02 W3)."""
    return code.lstrip(b"\x40").ljust(len(code), b"\x40")


def moved(code):
    """Ways to send a code: all its blanks after it, one of them before it, all of them before it."""
    core = code.strip(b"\x40")
    return sorted({(b"\x40" * n + core).ljust(len(code), b"\x40") for n in (0, min(1, len(code) - len(core)), len(code) - len(core))})


def section(number, entries):
    body = b"".join(entries)
    return (2 + len(body)).to_bytes(4, "little") + number.to_bytes(2, "little") + body


def book(lists):
    return b"".join(section(number, entries) for number, entries in enumerate(lists, 1))


def reading(data):
    """The seven lists of entries that the bytes are made of, or None: by taking the bytes apart and putting them together again."""
    if len(data) > 16777216:
        return None
    lists, rest = [], data
    for number in range(1, 8):
        if len(rest) < 6:
            return None
        size = int.from_bytes(rest[0:4], "little")
        width, code = ENTRY[number - 1], CODE[number - 1]
        body = rest[6:4 + size]
        if size < 2 or len(body) != size - 2 or len(body) % width:
            return None
        entries = [body[i:i + width] for i in range(0, len(body), width)]
        codes = [corrected(e[:code]) for e in entries]
        if any(a >= b for a, b in zip(codes, codes[1:])) or any(flag > 1 for e in entries for flag in e[code:]):
            return None
        lists.append(entries)
        rest = rest[4 + size:]
    return lists if book(lists) == data else None


def says(data, query):
    lists = reading(data)
    if lists is None:
        return "unsound \n"
    words = ["sound"]
    for code, entries in zip(CODE, lists):
        hits = [e for e in entries if corrected(e[:code]) == corrected(query[:code])]
        found = hits[0] if hits else b""
        words += [len(entries), len(found), int(len(found) >= 9 and found[8] == 1)]
    return " ".join(map(str, words)) + " \n"


LISTS = [
    sorted([text("PAYROLL", 40), text("VENDORS", 40)]),
    [text("00001234", 8) + b"\1", text("00005678", 8) + b"\0", text("00009012", 8) + b"\1"],
    sorted([text("DISB", 8) + b"\0", text("COLL", 8) + b"\1"]),
    sorted([text("Vendor", 25), text("Grant", 25), text("Benefit", 25)]),
    sorted([text(s, 2) for s in ("CA", "NY", "TX", "AK", "WA")]),
    sorted([text(s, 2) for s in ("US", "CA", "DE")]),
    sorted([text(s, 3) for s in ("USD", "CAD", "EUR")]),
]
SMALL = [[], [text("00001234", 8) + b"\1"], [], [], [text("CA", 2), text("NY", 2)], [], [text("USD", 3)]]
EMPTY = [[] for _ in range(7)]

vectors = []


def add(data, query=b""):
    vectors.append((bytes(data), query.ljust(40, b"\x40")))


# lookups: every code of a sound book, its neighbours, and what no section has
for entries, code in zip(LISTS, CODE):
    for entry in entries:
        for step in (-1, 0, 1):
            add(book(LISTS), entry[:code - 1] + bytes([(entry[code - 1] + step) % 256]))
add(book(LISTS), b"\x00")
add(book(LISTS), b"\xff" * 40)
many = [sorted(bytes([0xF0 + (i // 10**k) % 10 for k in range(7, -1, -1)]) + bytes([i % 2]) for i in range(0, 4000, 2)) if k == 1 else [] for k in range(7)]
for i in (0, 1, 2, 1999, 2000, 3997, 3998, 3999, 4000):
    add(book(many), bytes([0xF0 + (i // 10**k) % 10 for k in range(7, -1, -1)]))
# the smallest books
add(book(EMPTY))
add(b"")
# truncated at each byte
for n in range(len(book(SMALL)) + 1):
    add(book(SMALL)[:n])
# trailing bytes
add(book(SMALL) + b"\0")
add(book(SMALL) + section(8, []))
add(book(SMALL) + section(7, []))
# kinds out of order, twice, missing, or with another number
for i in range(7):
    for j in range(i + 1, 7):
        order = list(range(7))
        order[i], order[j] = order[j], order[i]
        add(b"".join(section(k + 1, SMALL[k]) for k in order))
for i in range(7):
    add(b"".join(section(k + 1, SMALL[k]) * (2 if k == i else 1) for k in range(7)))
    add(b"".join(section(k + 1, SMALL[k]) for k in range(7) if k != i))
    for other in (0, 8, 256 + i + 1):
        add(b"".join(section(other if k == i else k + 1, SMALL[k]) for k in range(7)))
# lengths off by one, by two (the bytes of the kind) and past the end
for i in range(7):
    start = sum(len(section(k + 1, LISTS[k])) for k in range(i))
    for change in (-2, -1, 1, 2, ENTRY[i], -ENTRY[i], 1 << 24):
        data = bytearray(book(LISTS))
        size = int.from_bytes(data[start:start + 4], "little")
        data[start:start + 4] = (size + change).to_bytes(4, "little")
        add(data)
# flags
for flag in (0, 1, 2, 3, 0x40, 0xF0, 0xF1, 0xFF):
    for kind in (1, 2):
        lists = [list(entries) for entries in LISTS]
        lists[kind][-1] = lists[kind][-1][:8] + bytes([flag])
        add(book(lists))
# equal codes, codes that fall, equal codes with other flags
for kind in range(7):
    lists = [list(entries) for entries in LISTS]
    lists[kind] = [lists[kind][0]] * 2
    add(book(lists))
    lists[kind] = sorted(LISTS[kind], reverse=True)
    add(book(lists))
lists = [list(entries) for entries in LISTS]
lists[1] = [text("00001234", 8) + b"\0", text("00001234", 8) + b"\1"]
add(book(lists))
# codes that ascend only after they are corrected, and codes that ascend only before
for kind, low, high in ((0, "PAYROLL", "VENDORS"), (1, "0001234", "0005678"), (2, "COLL", "DISB"), (3, "Benefit", "Vendor"), (4, "C", "N"), (5, "C", "U"), (6, "CA", "US")):
    width, flag = CODE[kind], b"\0" * (ENTRY[kind] - CODE[kind])
    for first, second in ((low, high), (high, low), (low, low)):
        for one in moved(text(first, width)):
            for other in moved(text(second, width)):
                lists = [list(entries) for entries in SMALL]
                lists[kind] = [one + flag, other + flag]
                add(book(lists), text(second, width))
# a code is found wherever it stands in the book and in the record; a blank inside it stays, and a blank one is a code as any other
for kind, code in ((0, "PAYROLL"), (1, "0001234"), (2, "COLL"), (3, "Vendor B"), (4, "C"), (5, "U"), (6, "US"), (6, "U"), (6, "U S"), (6, "")):
    width, flag = CODE[kind], b"\1" * (ENTRY[kind] - CODE[kind])
    for listed in moved(text(code, width)):
        for sent in moved(text(code, width)):
            lists = [list(entries) for entries in EMPTY]
            lists[kind] = [listed + flag]
            add(book(lists), sent)
lists = [[moved(entry[:code])[-(i % 2)] + entry[code:] for i, entry in enumerate(entries)] for entries, code in zip(LISTS, CODE)]
for entries, code in zip(LISTS, CODE):
    for entry in entries:
        for sent in moved(entry[:code]):
            add(book(lists), sent)
# any byte of a small book changed
random.seed(1)
for i in range(len(book(SMALL))):
    data = bytearray(book(SMALL))
    data[i] = (data[i] + random.randrange(1, 256)) % 256
    add(data)

(here / "stdin").write_bytes(b"".join(len(data).to_bytes(4, "little") + query + data for data, query in vectors))
(here / "stdout").write_text("".join(says(data, query) for data, query in vectors))

#!/usr/bin/env python3
"""Writes what this program is run on, and what documents 01, 02 and 004 say of it.

data/records.bin holds sound records, data/book.bin a code book, data/ascii.bin the ASCII of each EBCDIC byte, stdin a table with a case
a line, stdout what the judge has to answer. The judge is reference/srf.py. With the word `counts` it prints how many cases have each file
answer, and how many batches each reason and field, in EBCDIC and in ASCII.
"""
import collections
import datetime
import pathlib
import random
import string
import sys

here = pathlib.Path(__file__).parent
sys.path.insert(0, str(here.parent.parent / "reference"))
from srf import (  # noqa: E402
    FILLERS, KINDS, LETTERS, NUMBERS, PLACES, SYMBOL, VOUCHERS, amount, code_of, coded, corrected, ebcdic, flagged, held, judged,
    record, section, templates, translated, write_cases,
)
LABEL = 56
REPORT = 1024
TODAY, SPACE = 512, 528  # where today's bytes stand in the book's space, and its size


# ---- sound records, and files of them

SERIAL = "12340000"
IDENT = SYMBOL + SERIAL
LOCATIONS = {"00001234": 1, "00005678": 0}  # 1: a CARS Reporter
BETCS = {"COLL": 1, "DISB": 0}  # 1: a credit
SYSTEMS = ["LEDGER", "PAYROLL"]


SECTIONS = [
    section(1, coded(SYSTEMS, 40)), section(2, flagged(LOCATIONS)), section(3, flagged(BETCS)), section(4, coded(["Grant", "Vendor"], 25)),
    section(5, coded(["CA", "NY"], 2)), section(6, coded(["CA", "US"], 2)), section(7, coded(["CAD", "USD"], 3))]
BOOK = b"".join(SECTIONS)
STARTS = [sum(map(len, SECTIONS[:k])) for k in range(8)]  # where each section starts, and the book's end


NINES = 10**20 - 1  # the greatest amount


ENDS = [record("FH", f2="PAYROLL", f3="201"), record("FT", f103="0" * 18, f104="0" * 18, f105=amount(0))]
TEMPLATES = {letter: templates(letter, SERIAL) for letter in LETTERS}


def written(rec, *values):
    """The record with digits that end at positions."""
    rec = bytearray(rec)
    for last, digits in values:
        rec[last - len(digits):last] = ebcdic(digits)
    return rec


def repeated(one, other, count):
    return ([one] + [other] * (count - 1)) * (count > 0)


def whole(batches):
    """FH, sound batches, FT. Batches and payments are numbered from 0; each payment is of 100 cents. All DT are of one kind."""
    records = [bytearray(ENDS[0])]
    for b, (letter, payments, parties, accounts, procurements) in enumerate(batches):
        head, detail, dx, dt, dts, dp, dps, end = TEMPLATES[letter]
        records.append(written(head, (12, "%02d" % b), (108, "%02d" % b), (50, "%04d" % payments)))
        for n in range(payments):
            one = [detail] + [dx] * parties + repeated(dt, dts, accounts) + repeated(dp, dps, procurements)
            number = "%04d" % ((b * 100 + n) % 10000)
            records += [written(rec, (14, number), (661, number)) for rec in one]
        records.append(written(end, (10, "%04d" % payments), (28, "%04d" % payments)))
    payments = sum(b[1] for b in batches)
    return records + [written(ENDS[1], (20, "%04d" % (len(records) + 1)), (38, "%04d" % payments), (56, "%04d" % payments))]


# ---- the table: a case is a label, batches, changes, and what the judge is lent

table, says = [], []
answers, pairs = [{taken: collections.Counter() for taken in ("EBCDIC", "ASCII")} for _ in range(2)]  # by what a file is taken for

# a batch: its letter, its payments, and the DX, DT and DP of each
N, C, W, I, A = [(letter, 1, 1, 0, 0) for letter in LETTERS]
# the records of a file with one batch of one payment and one DX
FH, HEAD, DETAIL, DX, BT, FT = range(1, 7)


def at(rec, start, end, data):
    return "at", rec, start, end, data


def put(rec, field, value):
    """The field of the record holds the value. Where blanks fill most of it, they are written first."""
    start, end = PLACES[field]
    width, data = end - start + 1, ebcdic(value)
    assert len(data) <= width, (field, value)
    if not data or len(data) < width - 8:
        return [at(rec, start, end, b"\x40")] + [at(rec, start, start + len(data) - 1, data)] * (len(data) > 0)
    data = data.ljust(width, b"\x40")
    return [at(rec, start, end, data[:1] if len(set(data)) == 1 else data)]


def width_of(field):
    start, end = PLACES[field]
    return end - start + 1


def placed(rec, field, value, before):
    """The field of the record holds the value behind so many blanks."""
    start, end = PLACES[field]
    first = start + before
    assert first + len(value) - 1 <= end, (field, value, before)
    return [at(rec, start, end, b"\x40")] * (len(value) < width_of(field)) + [at(rec, first, first + len(value) - 1, ebcdic(value))] * (value != "")


def at_right(rec, field, value):
    return placed(rec, field, value, width_of(field) - len(value))


def money(rec, field, n):
    """The field of the record, which holds less than 10^6, holds n."""
    return ("digits", rec, PLACES[field][1], "%06d" % n) if n != NINES else put(rec, field, str(n))


def code(start, data, count=None):
    """So many of the book's bytes from `start`, counted from 0."""
    return "code", start + 1, start + (count or len(data)), data


def kinds(count, last=34):
    """The DT of the file are of so many kinds, in a row, again and again. These differ in four digits that end at a position; those of
    34 are field 81. Two such changes whose counts have no common divisor make the product of them, in no order."""
    return "kinds", count, last


# The ASCII of each EBCDIC byte. Code page 037 has the 256 characters of Latin-1: what is not printable in ASCII stays so.
LATIN = bytes(range(256)).decode("cp037").encode("latin-1")
ASCII = "ASCII",  # the file made so far, in ASCII; the bytes of later changes stand as they are


def fill(space, start, end, data):
    for i in range(start - 1, end):
        space[i] = data[(i - start + 1) % len(data)]


def lent(batches, changes, file, book, today):
    """The bytes of the file, of the book and of today, after the changes."""
    records, codes = whole(batches), bytearray(BOOK.ljust(SPACE, b"\0"))
    for kind, *rest in changes:
        if kind == "at":
            rec, start, end, data = rest
            fill(records[rec - 1], start, end, data)
        elif kind == "digits":
            rec, last, digits = rest
            records[rec - 1] = written(records[rec - 1], (last, digits))
        elif kind == "kinds":
            count, last = rest
            places = [i for i, rec in enumerate(records) if code_of(rec) == "DT"]
            for n, i in enumerate(places):
                records[i] = written(records[i], (last, "%04d" % (n % count)))
        elif kind == "ASCII":
            records = [bytearray(rec.translate(LATIN)) for rec in records]
        else:
            fill(codes, *rest)
    bytes_of_file = b"".join(map(bytes, records))
    return bytes_of_file[:len(bytes_of_file) if file is None else file], bytes(codes[:len(BOOK) if book is None else book]), bytes(codes[TODAY:TODAY + (today or 0)])


def words(batches, changes, lengths):
    for letter, *counts in batches:
        yield "B" + letter
        yield from counts
    for change in changes:
        yield from change
    for name, length in lengths.items():
        if length is not None:
            yield name
            yield length


def flat(changes):
    """Changes may come in lists."""
    for one in changes:
        yield from flat(one) if isinstance(one, list) else [one]


def add(label, batches, *changes, expect, file=None, book=None, report=None, today=None):
    """A case, with what the judge has to answer: the number of a refusal; for an accepted file the reason, the record and the field
    of each batch that is not sound, by the batch's number from 1; None: whatever the judge above says. And where it has a file that
    is not in ASCII yet, the same in ASCII: where that says all its bytes, the answer is the same (02 W2). Today is bytes, or the text of
    EBCDIC ones (02 W4)."""
    today = today if today is None or isinstance(today, bytes) else ebcdic(today)
    changes = list(flat(changes)) + ([code(TODAY, today)] if today else [])
    lengths = dict(file=file, book=book, today=today and len(today), report=report)
    found, sent = add_case(label, batches, changes, lengths, expect)
    if ASCII not in changes and sent[:2] not in (b"", b"FH"):
        same = translated(sent.translate(LATIN)) == sent
        add_case(label + ", ASCII", batches, changes + [ASCII], lengths, found if same else None)


def add_case(label, batches, changes, lengths, expect):
    """What is found in a case, and its file."""
    bytes_of_file, codes, day = lent(batches, changes, lengths["file"], lengths["book"], lengths["today"])
    room = 64 * (1 + len(batches)) if lengths["report"] is None else lengths["report"]
    answer, rows = judged(bytes_of_file, codes, room, day)
    found = answer or {n: tuple(row[5:]) for n, row in enumerate(rows) if n and row[5]}
    assert expect is None or found == expect, (label, found, expect)
    assert len(label) < LABEL and room <= REPORT and (answer or len(rows) == 1 + len(batches)), label
    taken = "ASCII" if bytes_of_file[:2] == b"FH" else "EBCDIC"
    answers[taken][answer // 100000] += 1
    pairs[taken].update((row[5], row[7]) for row in rows[1:] if row[5])
    text = [w.hex().upper() if isinstance(w, bytes) else str(w) for w in words(batches, changes, lengths)]
    table.append(label.ljust(LABEL) + " ".join(text))
    shown = [str(answer)] + [" ".join(map(str, row)) for row in rows] + ["kept"]
    says.append(label.ljust(LABEL) + " / ".join(shown))
    return found, bytes_of_file


def fault(reason, rec, field, batch=1):
    return {batch: (reason, rec, field)}


SOUND = {}


def numbers(batches):
    """The record numbers of each batch: its header, its payments (each a list, the detail first), its BT."""
    n, found = 2, []
    for _, payments, parties, accounts, procurements in batches:
        size = 1 + parties + accounts + procurements
        starts = [n + 1 + k * size for k in range(payments)]
        found.append((n, [list(range(s, s + size)) for s in starts], n + 1 + payments * size))
        n = found[-1][2] + 1
    return found


def last_of(batches):
    return numbers(batches)[-1][2] + 1


def paid(batches, amounts):
    """The payments have these amounts, by batch and payment from 0, and all that sums them has the sums that fit."""
    changes, total = [], 0
    for b, (letter, payments, parties, accounts, procurements) in enumerate(batches):
        head, places, end = numbers(batches)[b]
        own = [amounts.get((b, p), 100) for p in range(payments)]
        total += sum(own)
        for place, n in zip(places, own):
            if n != 100:
                changes.append(money(place[0], 24, n))
                changes += [money(rec, 87, n) for rec in place[1 + parties:][:min(accounts, 1)]]
                changes += [money(rec, 96, n) for rec in place[1 + parties + accounts:][:min(procurements, 1)]]
        if sum(own) < 10**20 and sum(own) != 100 * payments:
            changes += [money(head, 9, sum(own))] * (letter != "C") + [money(end, 100, sum(own))]
    return changes + [money(last_of(batches), 105, total)] * (total < 10**20)


def named(value, *records):
    """The Payment ID of these records."""
    return [put(rec, 23, value) for rec in records]


def coded_as(rec, value):
    return at(rec, 1, 2, ebcdic(value))


# 01 Worked examples: the program's own
EXAMPLE = paid([N], {(0, 0): 12345})
add("one sound payment of 12345 cents", [N], EXAMPLE, expect=SOUND)
assert [line[LABEL:] for line in says] == ["0 / 0 0 6 1 0 12345 1 0 / 2 4 1 0 12345 0 0 0 / kept"] * 2
add("the same with the DX changed to BT", [N], EXAMPLE, coded_as(DX, "BT"), expect=500004)
for letter in LETTERS:
    add("sound " + letter, [(letter, 1, 1, 1, 1)], expect=SOUND)
    add("sound %s, of a CARS Reporter" % letter, [(letter, 1, 1, 1, 1)], put(DETAIL if letter == "C" else HEAD, 29 if letter == "C" else 14, "00001234"), expect=SOUND)
add("four kinds of batch", [N, W, I, A], expect=SOUND)
add("three check batches", [C, ("C", 3, 1, 1, 1), C], expect=SOUND)
add("fourteen batches", [N, W, I, A, N, W, I, A, N, W, I, A, N, W], expect=SOUND)
add("30 payments", [("I", 30, 2, 1, 1)], expect=SOUND)

# 01 Worked examples: routing numbers
for field, letter, rec in [(43, "N", DETAIL), (13, "N", HEAD), (42, "W", DETAIL), (12, "W", HEAD)]:
    for value in ["210000000", "720000000", "000000000"]:
        add("%d holds %s" % (field, value), [(letter, 1, 1, 0, 0)], put(rec, field, value), expect=SOUND)
    for value in ["200000000", "330000000"]:
        add("%d holds %s" % (field, value), [(letter, 1, 1, 0, 0)], put(rec, field, value), expect=fault(3, rec, field))

# 01 Date
for day, answer in [("2024-02-29", SOUND), ("2000-02-29", SOUND), ("1900-02-29", fault(5, HEAD, 8)), ("2200-02-29", fault(5, HEAD, 8))]:
    add("8 holds " + day, [I], put(HEAD, 8, day), expect=answer)

# 01 Worked examples: nesting
for letter in "NC":
    for accounts, procurements, answer in [(100, 0, SOUND), (101, 0, 500105), (0, 100, SOUND), (0, 101, 500105), (100, 100, SOUND), (100, 101, 500205)]:
        add("%d DT and %d DP, %s" % (accounts, procurements, letter), [(letter, 1, 1, accounts, procurements)], expect=answer)
add("100 DT in each of two payments", [("W", 2, 1, 100, 0)], expect=SOUND)
add("101 DT in the second batch", [N, ("W", 1, 1, 101, 0)], expect=500109)
add("100 DX", [("A", 1, 100, 0, 0)], expect=SOUND)
add("101 DX", [("A", 1, 101, 0, 0)], expect=SOUND)
for letter in VOUCHERS:
    add("BC after a B%s batch" % letter, [(letter, 1, 1, 0, 0), C], expect=500006)
    add("B%s after a BC batch" % letter, [C, (letter, 1, 1, 0, 0)], expect=500006)
add("BC after two other batches", [N, W, C], expect=500010)
for records in range(1, 6):
    add("the first %d of six records" % records, [N], file=850 * records, expect=500000 + records + 1)
add("FH FT", [], expect=500002)
add("FH BN BT", [("N", 0, 0, 0, 0)], expect=500003)
add("no FH", [N], coded_as(FH, "FX"), expect=500001)
add("a second FH", [N], coded_as(HEAD, "FH"), expect=500002)
add("a detail of another letter", [N], coded_as(DETAIL, "DW"), expect=500003)
add("a detail without DX", [("N", 1, 0, 0, 0)], expect=500004)
add("DT before DX", [("N", 1, 1, 1, 0)], coded_as(4, "DT"), coded_as(5, "DX"), expect=500004)
add("DX after DT", [("N", 1, 2, 1, 0)], coded_as(5, "DT"), coded_as(6, "DX"), expect=500006)
add("DP before DT", [("N", 1, 1, 1, 1)], coded_as(5, "DP"), coded_as(6, "DT"), expect=500006)
add("a batch without BT", [N, W], coded_as(BT, "BW"), expect=500005)
add("two BT", [("N", 2, 1, 0, 0)], coded_as(5, "BT"), coded_as(6, "BT"), expect=500006)
add("FT before BT", [N], coded_as(BT, "FT"), expect=500005)
add("BT in place of FT", [N], coded_as(FT, "BT"), expect=500006)
add("a record after FT", [("N", 2, 1, 0, 0)], coded_as(5, "BT"), coded_as(6, "FT"), expect=500007)
add("FT after FT", [("N", 2, 1, 0, 0)], coded_as(5, "BT"), coded_as(6, "FT"), coded_as(7, "FT"), expect=500007)
add("a code in small letters", [N], coded_as(DX, "dx"), expect=500004)
add("a code of blanks", [N], coded_as(DX, "  "), expect=500004)
add("a header of no kind", [N], coded_as(HEAD, "BX"), expect=500002)
for rec, name in [(4, "DX"), (5, "DT"), (6, "DP")]:
    add(name + " with another Payment ID", [("N", 1, 1, 1, 1)], named("OTHER", rec), expect=500000 + rec)
    add(name + " with a blank Payment ID", [("C", 1, 1, 1, 1)], named("", rec), expect=500000 + rec)
    add(name + " whose ID differs in its last byte", [("W", 1, 1, 1, 1)], at(rec, 22, 22, b"\x41"), expect=500000 + rec)
add("a DX with the earlier payment's ID", [("N", 2, 1, 0, 0)], named(IDENT, 6), expect=500006)
add("blank Payment IDs nest", [N], named("", DETAIL, DX), expect=fault(1, DETAIL, 23))
add("the first of two faults", [N, W], coded_as(8, "BT"), coded_as(4, "BT"), expect=500004)

# 01 Worked examples: 849, 850 and 851 bytes
for size, answer in [(0, 100000), (1, 200000), (849, 200000), (850, 500002), (851, 200000), (1699, 200000), (1700, 500003), (5099, 200000), (5100, SOUND)]:
    add("%d bytes" % size, [N], file=size, expect=answer)
add("850 bytes that are no FH", [N], coded_as(FH, "FT"), file=850, expect=500001)

# 01 Code book
EMPTY = b"".join(section(kind, []) for kind in range(1, 8))
for size in [0, 1, 3, 4, 5]:
    add("a book of %d bytes" % size, [N], book=size, expect=400000)
for k in range(7):
    start, end, width = STARTS[k], STARTS[k + 1], KINDS[k][1] + KINDS[k][2]
    name = "book, section %d: " % (k + 1)
    add(name + "left out, and those after it", [N], book=start, expect=400000)
    add(name + "its length cut", [N], book=start + 3, expect=400000)
    add(name + "its kind cut", [N], book=start + 5, expect=400000)
    add(name + "a byte short", [N], book=end - 1, expect=400000)
    length = end - start - 4
    add(name + "a length too small by one", [N], code(start, bytes([length - 1])), expect=400000)
    add(name + "a length too large by one", [N], code(start, bytes([length + 1])), expect=400000)
    add(name + "a length of 0", [N], code(start, b"\0"), expect=400000)
    add(name + "a length of 1", [N], code(start, b"\1"), expect=400000)
    add(name + "a length past 16,777,216", [N], code(start + 3, b"\1"), expect=400000)
    add(name + "the next kind", [N], code(start + 4, bytes([k + 2])), expect=400000)
    add(name + "a kind past 256", [N], code(start + 5, b"\1"), expect=400000)
    codes = SECTIONS[k][6:]
    add(name + "equal codes", [N], code(start + 6, codes[width:width + KINDS[k][1]]), expect=400000)
    add(name + "codes that fall", [N], code(start + 6, codes[width:] + codes[:width]), expect=400000)
    if KINDS[k][2]:
        add(name + "a flag of 2", [N], code(start + 6 + width - 1, b"\2"), expect=400000)
        add(name + "a last flag of 2", [N], code(end - 1, b"\2"), expect=400000)
        add(name + "a flag of hex F1", [N], code(end - 1, b"\xF1"), expect=400000)
        add(name + "both flags 1", [("N", 1, 1, 1, 0)], code(start + 6 + width - 1, b"\1"), code(end - 1, b"\1"), expect=SOUND)
add("book, two sections in the other order", [N], code(STARTS[4], SECTIONS[5] + SECTIONS[4]), expect=400000)
add("book, a section twice", [N], code(STARTS[5], SECTIONS[4]), expect=400000)
add("book, a byte after its end", [N], book=len(BOOK) + 1, expect=400000)
add("book, an eighth section", [N], code(len(BOOK), section(8, [])), book=len(BOOK) + 6, expect=400000)
add("book, seven empty sections: no InputSystem", [N], code(0, EMPTY), book=42, expect=800001)
add("book, seven empty sections, one cut", [N], code(0, EMPTY), book=41, expect=400000)
add("book, seven empty sections and a byte", [N], code(0, EMPTY), book=43, expect=400000)
lone = section(1, coded(["PAYROLL"], 40)) + EMPTY[6:]
add("book, a lone InputSystem: no location", [N], code(0, lone), book=len(lone), expect=fault(4, HEAD, 14))
add("book, codes below hex 40", [N], code(6, b"\0", 40), expect=SOUND)
add("book, an InputSystem less", [N], code(6 + 40, b"\xFF", 40), expect=800001)

# 01 File answers, 6, and 01 Report
for room, answer in [(0, 600000), (1, 600000), (64, 600000), (127, 600000), (128, SOUND), (129, SOUND), (200, SOUND), (1024, SOUND)]:
    add("a report of %d bytes" % room, [N], EXAMPLE, report=room, expect=answer)
for room, answer in [(255, 600000), (256, SOUND), (257, SOUND)]:
    add("a report of %d bytes, three batches" % room, [N, W, I], report=room, expect=answer)
rejected = put(6, 7, "")
for room, answer in [(191, 600000), (192, fault(1, 6, 7, 2)), (193, fault(1, 6, 7, 2))]:
    add("a report of %d bytes, one of two rejected" % room, [N, W], rejected, report=room, expect=answer)

# 01 File answers, 7: a byte below 40, by record
FULL = [("N", 1, 1, 1, 1)]
KIND = ["FH", "BN", "DN", "DX", "DT", "DP", "BT", "FT"]
for rec, name in enumerate(KIND, 1):
    for start, end in FILLERS[name]:
        add("3F before the filler %d-%d of %s" % (start, end, name), FULL, at(rec, start - 1, start - 1, b"\x3F"), expect=700000 + rec)
        add("3F and 00 in the filler %d-%d of %s" % (start, end, name), FULL, at(rec, start, end, b"\x3F\0"), expect=SOUND)
        if end < 850:
            add("3F after the filler %d-%d of %s" % (start, end, name), FULL, at(rec, end + 1, end + 1, b"\x3F"), expect=700000 + rec)
for rec, found in [(2, SOUND), (3, fault(3, 3, 62)), (4, SOUND), (5, SOUND), (6, fault(10, 3, 96)), (7, fault(14, 7, 100))]:  # 96 and 100 hold 10
    last = FILLERS[KIND[rec - 1]][-1][0] - 1
    add("40 before the filler of " + KIND[rec - 1], FULL, at(rec, last, last, b"\x40"), expect=found)
for rec, start, name in [(2, 103, "a check's field of BN"), (3, 654, "a check's field of DN"), (3, 140, "an address line"), (4, 174, "a first name"),
                         (5, 23, "a sub-level prefix"), (6, 23, "a procurement's number"), (5, 75, "field 88")]:
    add("3F in " + name, FULL, at(rec, start, start, b"\x3F"), expect=700000 + rec)
add("FF in the text fields of DN", FULL, at(3, 44, 106, b"\xFF"), at(3, 140, 349, b"\xFF"), expect=SOUND)
add("00 in two records: the first", [N, W], at(9, 100, 100, b"\0"), at(4, 200, 200, b"\0"), expect=700004)
add("3F in the first and the last record", [N], at(FH, 3, 3, b"\x3F"), at(FT, 3, 3, b"\x3F"), expect=700001)
add("3F in fillers, then in a field", FULL, at(1, 46, 850, b"\x3F"), at(4, 351, 850, b"\x3F"), at(6, 150, 151, b"\x3F"), expect=700006)
add("a low byte in an ID that nests: 7", [N], at(DETAIL, 22, 22, b"\0"), at(DX, 22, 22, b"\0"), expect=700003)
add("a low byte in one ID of two: 5", [N], at(DX, 22, 22, b"\0"), expect=500004)
add("a low byte in a record code: 5", [N], at(DX, 2, 2, b"\x3F"), expect=500004)

# 01 File answers, 7: two times eight records, and two behind them
LONG = [("N", 1, 6, 5, 2)]  # FH, BN, DN, DX 4 to 9, DT 10 to 14, DP 15 and 16, BT, FT
LOW_FILLERS = [at(rec, 850, 850, b"\x3F") for rec in (3, 13)]
for rec, start in [(1, 3), (7, 23), (8, 23), (9, 23), (10, 23), (15, 23), (16, 23), (17, 3), (18, 3)]:
    add("3F in record %d of 18" % rec, LONG, at(rec, start, start, b"\x3F"), expect=700000 + rec)
    add("3F in fillers, and in record %d of 18" % rec, LONG, LOW_FILLERS, at(rec, start, start, b"\x3F"), expect=700000 + rec)
    add("3F in the filler of record %d of 18" % rec, LONG, at(rec, 850, 850, b"\x3F"), expect=SOUND)

# 01 Slips: the 3F rule applied to ASCII
add("EBCDIC digits F0 to F9 are accepted", [N], paid([N], {(0, 0): 1234567890}), expect=SOUND)
add("an amount in ASCII digits", [N], at(DETAIL, 23, 42, b"0" * 17 + b"100"), expect=700003)
add("a blank in ASCII", [N], at(DETAIL, 60, 60, b" "), expect=700003)
add("the version in ASCII", [N], at(FH, 43, 45, b"201"), expect=700001)

# W2: a file is ASCII throughout, or not at all, by its first two bytes
add("46 48, and EBCDIC after it", [N], at(FH, 1, 2, b"FH"), expect=500002)
add("C6 C8, and ASCII after it", [N], ASCII, at(FH, 1, 2, ebcdic("FH")), expect=500002)
add("46 C8, and ASCII after it", [N], ASCII, at(FH, 2, 2, ebcdic("H")), expect=500001)
add("66 68, and ASCII after it", [N], ASCII, at(FH, 1, 2, b"fh"), expect=500001)
add("46 48 in the second record of EBCDIC", [N], at(HEAD, 1, 2, b"FH"), expect=500002)
add("46 48 in the second record of ASCII", [N], ASCII, at(HEAD, 1, 2, b"FH"), expect=500002)
add("an EBCDIC record code in ASCII", [N], ASCII, at(DX, 1, 2, ebcdic("DX")), expect=500004)
add("an amount in EBCDIC digits in ASCII", [N], ASCII, at(DETAIL, 23, 42, ebcdic(amount(100))), expect=700003)
add("an EBCDIC blank in an ASCII count: no digit", [N], ASCII, at(BT, 3, 3, b"\x40"), expect=fault(2, BT, 99))
add("46 alone", [N], ASCII, file=1, expect=200000)
add("46 48 alone", [N], ASCII, file=2, expect=200000)
add("46 48, and EBCDIC up to 850 bytes", [N], at(FH, 1, 2, b"FH"), file=850, expect=500002)
add("46 48, and ASCII up to 850 bytes", [N], ASCII, file=850, expect=500002)

# W2: bytes that are not printable are 3F
for byte in (0x00, 0x09, 0x1F, 0x7F, 0x80, 0xC1, 0xFF):
    name = "hex %02X in " % byte
    add(name + "a text field of ASCII", [N], ASCII, at(DETAIL, 60, 60, bytes([byte])), expect=700003)
    add(name + "an amount of ASCII", [N], ASCII, at(BT, 11, 11, bytes([byte])), expect=700005)
    add(name + "a record code of ASCII", [N], ASCII, at(DX, 2, 2, bytes([byte])), expect=500004)
    add(name + "one Payment ID of ASCII", [N], ASCII, at(DX, 22, 22, bytes([byte])), expect=500004)
    add(name + "both Payment IDs of ASCII", [N], ASCII, *[at(rec, 22, 22, bytes([byte])) for rec in (DETAIL, DX)], expect=700003)
    add(name + "the fillers of ASCII", [N], ASCII, at(FH, 46, 850, bytes([byte])), at(HEAD, 57, 59, bytes([byte])), at(FT, 59, 850, bytes([byte])), expect=SOUND)
add("ASCII IDs that differ in unprintable bytes nest", [N], ASCII, at(DETAIL, 21, 22, b"\x09\x7F"), at(DX, 21, 22, b"\x80\0"), expect=700003)
add("ASCII IDs that differ in a printable byte too", [N], ASCII, at(DETAIL, 20, 22, b"A\x09\x7F"), at(DX, 20, 22, b"B\x80\0"), expect=500004)
add("EBCDIC IDs that differ in low bytes do not nest", [N], at(DETAIL, 22, 22, b"\x3E"), at(DX, 22, 22, b"\x3F"), expect=500004)

# W2: printable bytes are those of code page 037; the book is never ASCII
add("each of 20 to 7E in a text field of ASCII", [N], ASCII, at(DX, 23, 117, bytes(range(0x20, 0x7F))), expect=SOUND)
for name, text in [("punctuation", string.punctuation), ("capitals and digits", string.ascii_uppercase + string.digits), ("small letters", string.ascii_lowercase)]:
    system = at(FH, 3, 42, text.ljust(40).encode("ascii"))
    add("InputSystem of %s in ASCII" % name, [N], ASCII, system, code(6, ebcdic(text.ljust(40))), expect=SOUND)
    add("InputSystem of %s, the book's in ASCII" % name, [N], ASCII, system, code(6, text.ljust(40).encode("ascii")), expect=800001)
add("punctuation that the book has in code page 500", [N], ASCII, at(FH, 3, 42, string.punctuation.ljust(40).encode("ascii")),
    code(6, string.punctuation.ljust(40).encode("cp500")), expect=800001)
add("book, all codes in ASCII", [N], code(0, b"".join(one[:6] + one[6:].translate(LATIN) for one in SECTIONS)), expect=800001)
add("book, all bytes in ASCII", [N], code(0, BOOK.translate(LATIN)), expect=400000)

# 01 File answers, 8 and 9
for value in ["", "PAYROL", "PAYROLLS", "payroll", "PAYROLL" + " " * 32 + "X"]:
    add("InputSystem " + (" ".join(value.split()) or "blank"), [N], put(FH, 2, value), expect=800001)
add("InputSystem LEDGER, the book's first", [N], put(FH, 2, "LEDGER"), expect=SOUND)
add("InputSystem blank, and the book lists a blank", [N], put(FH, 2, ""), code(6, b"\x40", 40), expect=800001)
add("the book lists a blank, InputSystem filled", [N], code(6, b"\x40", 40), expect=SOUND)
add("an InputSystem of 40 bytes", [N], put(FH, 2, "Z" * 40), code(6 + 40, b"\xE9", 40), expect=SOUND)
for value in ["200", "202", "", "20", "2.0", "101", " 20"]:
    add("version %s" % (value and "'%s'" % value or "blank"), [N], put(FH, 3, value), expect=900001)

# 01 File answers, 10 to 13
NAMES = {103: "TotalCount_Records", 104: "TotalCount", 105: "TotalAmount"}
for field, name in NAMES.items():
    start, end = PLACES[field]
    add(name + " blank", [N], put(FT, field, ""), expect=1000006)
    add(name + " with a leading blank", [N], at(FT, start, start, b"\x40"), expect=SOUND)
    add(name + " with a last letter", [N], at(FT, end, end, b"\xC1"), expect=1000006)
    add(name + " with a last blank", [N], at(FT, end, end, b"\x40"), expect=(field - 92) * 100000 + FT)
    for byte in (0x60, 0xEF, 0xFA, 0xFF):
        add("%s ends in hex %02X" % (name, byte), [N], at(FT, end, end, bytes([byte])), expect=1000006)
BOTH = [N, ("W", 2, 1, 1, 0)]
last = last_of(BOTH)
for field, right, reason in [(103, last, 11), (104, 3, 12), (105, 300, 13)]:
    for wrong in [right - 1, right + 1, 0]:
        add("%s %d, not %d" % (NAMES[field], wrong, right), BOTH, money(last, field, wrong), expect=reason * 100000 + last)
    start, end = PLACES[field]
    add(NAMES[field] + " all nines", BOTH, at(last, start, end, b"\xF9"), expect=reason * 100000 + last)
    add(NAMES[field] + " with a leading 1", BOTH, at(last, start, start, b"\xF1"), expect=reason * 100000 + last)
add("TotalCount_Records wraps 2^16", [N], money(FT, 103, 65536 + 6), expect=1100006)
add("TotalCount wraps 2^16", [N], money(FT, 104, 65536 + 1), expect=1200006)
add("TotalCount_Records wraps 2^32", [N], money(FT, 103, 2**32 + 6), expect=1100006)
add("TotalAmount wraps 2^64", [N], money(FT, 105, 2**64 + 100), expect=1300006)

# 01 File answers: two at once, and all from one on: the lower number is answered
WRONG = {  # by reason: changes, and what is lent
    4: ([], dict(book=len(BOOK) - 1)), 5: ([coded_as(DX, "BT")], {}), 6: ([], dict(report=127)), 7: ([at(BT, 3, 3, b"\0")], {}),
    8: ([put(FH, 2, "LEDGERS")], {}), 9: ([put(FH, 3, "200")], {}), 10: ([at(FT, 40, 40, b"\x40")], {}), 11: ([money(FT, 103, 7)], {}),
    12: ([money(FT, 104, 2)], {}), 13: ([money(FT, 105, 101)], {}),
}
NAMED = {4: 0, 5: 4, 6: 0, 7: 5, 8: 1, 9: 1, 10: 6, 11: 6, 12: 6, 13: 6}


def at_once(label, *chosen):
    lengths = {k: v for reason in chosen for k, v in WRONG[reason][1].items()}
    add(label, [N], *[WRONG[reason][0] for reason in chosen], **lengths, expect=chosen[0] * 100000 + NAMED[chosen[0]])


for one in WRONG:
    at_once("%d alone" % one, one)
    for other in WRONG:
        if one < other:
            at_once("both %d and %d" % (one, other), one, other)
    if one < 13:
        at_once("all from %d to 13" % one, *range(one, 14))
add("both 1 and 4", [N], file=0, book=0, expect=100000)
add("both 1 and 6", [N], file=0, report=0, expect=100000)
add("both 2 and 4", [N], file=851, book=0, expect=200000)
add("both 2 and 5", [N], WRONG[5][0], file=5099, expect=200000)
add("both 2 and 6", [N], file=5099, report=0, expect=200000)
add("both 5, at the end, and 6", [N], file=4250, report=0, expect=500006)
add("both 10 in TotalCount_Records and 12", [N], put(FT, 103, ""), money(FT, 104, 2), expect=1000006)
add("a refusal, and a rejected batch", [N], put(HEAD, 7, ""), money(FT, 105, 101), expect=1300006)

# 01 Slips: adding twenty-digit amounts in 64 bits
TWO = [("W", 2, 1, 0, 0)]
add("twenty nines", [W], paid([W], {(0, 0): NINES}), expect=SOUND)
add("ten nines and 1: a carry into the other number", TWO, paid(TWO, {(0, 0): 9999999999, (0, 1): 1}), expect=SOUND)
add("two of 2^63: their sum is 2^64", TWO, paid(TWO, {(0, 0): 2**63, (0, 1): 2**63}), expect=SOUND)
add("the same, and an FT that wraps", TWO, paid(TWO, {(0, 0): 2**63, (0, 1): 2**63}), at(8, 39, 58, b"\xF0"), expect=1300008)
add("2^64 and 100 in two batches", [N, W], paid([N, W], {(0, 0): 2**64}), expect=SOUND)
add("2^64 and 100, an FT of 100", [N, W], paid([N, W], {(0, 0): 2**64}), at(10, 39, 58, ebcdic(amount(100))), expect=1300010)
add("the most that FT can hold, in two batches", [N, W], paid([N, W], {(0, 0): 5 * 10**19, (1, 0): 5 * 10**19 - 1}), expect=SOUND)
add("10^20 in two batches: FT holds no such sum", [N, W], paid([N, W], {(0, 0): 5 * 10**19, (1, 0): 5 * 10**19}), expect=1300010)
add("10^20, an FT of zeros", [N, W], paid([N, W], {(0, 0): 5 * 10**19, (1, 0): 5 * 10**19}), at(10, 39, 58, b"\xF0"), expect=1300010)
add("10^20, an FT of nines", [N, W], paid([N, W], {(0, 0): 5 * 10**19, (1, 0): 5 * 10**19}), at(10, 39, 58, b"\xF9"), expect=1300010)
add("twenty nines and 1 in a batch", TWO, paid(TWO, {(0, 0): NINES, (0, 1): 1}), expect=1300008)
add("twenty nines and 1, an FT of zeros", TWO, paid(TWO, {(0, 0): NINES, (0, 1): 1}), at(8, 39, 58, b"\xF0"), expect=1300008)
add("ten of twenty nines", [("A", 10, 1, 0, 0)], paid([("A", 10, 1, 0, 0)], {(0, p): NINES for p in range(10)}), at(24, 39, 58, ebcdic(amount(10**20 - 10))), expect=1300024)
add("an amount of no digits counts as zero", TWO, put(3, 24, "1 00"), money(7, 100, 100), money(2, 9, 100), money(8, 105, 100), expect=fault(2, 3, 24))
add("the same, and an FT that counts it", TWO, put(3, 24, "1 00"), money(7, 100, 100), money(2, 9, 100), expect=1300008)

# 01 Slips: a lone credit, field 88
CREDIT = "COLL"
ONE_DT, TWO_DT = [("N", 1, 1, 1, 0)], [("N", 1, 1, 2, 0)]
add("a lone credit is positive", ONE_DT, put(5, 86, CREDIT), expect=SOUND)
add("a lone credit of 99 does not balance", ONE_DT, put(5, 86, CREDIT), money(5, 87, 99), expect=fault(9, 3, 87))
add("two credits of 50 do not balance", TWO_DT, [c for n in (5, 6) for c in (put(n, 86, CREDIT), money(n, 87, 50))], expect=fault(9, 3, 87))
add("debit 130 and credit 30 balance", TWO_DT, money(5, 87, 130), money(6, 87, 30), put(6, 86, CREDIT), expect=SOUND)
for value in "0", "1", "", "X":
    add("field 88 %s on debits" % (value or "blank"), TWO_DT, money(5, 87, 60), money(6, 87, 40), put(5, 88, value), put(6, 88, value), expect=SOUND)
    add("field 88 %s on a credit" % (value or "blank"), TWO_DT, money(5, 87, 130), money(6, 87, 30), put(6, 86, CREDIT), put(6, 88, value), expect=SOUND)
add("field 88 is 1 on a debit that would be a credit", TWO_DT, money(5, 87, 130), money(6, 87, 30), put(6, 88, "1"), expect=fault(9, 3, 87))

# other sums and counts of a batch
add("a procurement sum that differs", [("I", 1, 1, 0, 2)], money(6, 96, 1), expect=fault(10, 3, 96))
add("a lone blank DP", [("I", 1, 1, 0, 1)], put(5, 96, ""), expect=SOUND)
add("a CARS Reporter without DT", [N], put(2, 14, "00001234"), expect=fault(11, 3, 76))
add("a check of a CARS Reporter without DT", [C], put(3, 29, "00001234"), expect=fault(11, 3, 76))
add("BT's count differs", [A], money(5, 99, 2), expect=fault(13, 5, 99))
add("BT's amount differs", [A], money(5, 100, 99), expect=fault(14, 5, 100))
add("field 9's sum differs", [A], money(2, 9, 99), expect=fault(14, 2, 9))
add("a check's ID that is not its symbol and serial", [C], named("X", 3, 4), expect=fault(7, 3, 23))
add("a check's serial that is not the next", [C], put(3, 58, "12340001"), named(SYMBOL + "12340001", 3, 4), expect=fault(7, 3, 58))
add("a schedule number that is not the first check's", [C], put(2, 6, SYMBOL + "12340001"), expect=fault(7, 2, 6))
add("a symbol below its range", [C], put(2, 18, "0999"), put(2, 6, "0999" + SERIAL), named("0999" + SERIAL, 3, 4), expect=fault(8, 2, 18))

# W1: the limit of TAS/BETC counts kinds, which differ in positions 23 to 54
LINES = [("W", 11, 1, 91, 0)]  # 1001 DT
PAYROLL = [("I", 1200, 1, 1, 0)]
add("1200 payments with one account code", PAYROLL, expect=SOUND)
add("1200 checks with one account code", [("C", 1200, 1, 1, 0)], expect=SOUND)
add("1200 payments, 1000 kinds", PAYROLL, kinds(1000), expect=SOUND)
add("1200 payments, 1001 kinds", PAYROLL, kinds(1001), expect=fault(12, 2, 76))
add("1001 DT of one kind", LINES, expect=SOUND)
for letter in LETTERS:
    add("1000 kinds in a B%s batch" % letter, [(letter, 10, 1, 100, 0)], kinds(1000), expect=SOUND)
    add("1001 kinds in a B%s batch" % letter, [(letter, 11, 1, 91, 0)], kinds(1001), expect=fault(12, 2, 76))
add("1092 DT of 1000 kinds", [("N", 12, 1, 91, 0)], kinds(1000), expect=SOUND)
add("1092 DT of 1001 kinds", [("N", 12, 1, 91, 0)], kinds(1001), expect=fault(12, 2, 76))
add("1000 kinds, each three times", [("A", 30, 1, 100, 0)], kinds(1000), expect=SOUND)
add("1001 kinds, each twice", [("C", 22, 1, 91, 0)], kinds(1001), expect=fault(12, 2, 76))
add("1000 kinds in no order, 1092 DT", [("N", 12, 1, 91, 0)], kinds(8, 30), kinds(125), expect=SOUND)
add("1001 kinds in no order", [("N", 11, 1, 91, 0)], kinds(7, 30), kinds(143), expect=fault(12, 2, 76))
add("1001 kinds among DX and DP", [("I", 11, 2, 91, 1)], kinds(1001), expect=fault(12, 2, 76))
add("1001 kinds in the second batch", [N, ("I", 11, 1, 91, 0)], kinds(1001), expect=fault(12, 6, 76, 2))
add("1001 kinds in the first batch of two", [("I", 11, 1, 91, 0), N], kinds(1001), expect=fault(12, 2, 76))
add("1001 kinds in each of two batches", [("A", 11, 1, 91, 0), ("N", 11, 1, 91, 0)], kinds(1001), expect={1: (12, 2, 76), 2: (12, 1027, 76)})
add("1001 kinds in two batches", [("N", 6, 1, 91, 0), ("W", 5, 1, 91, 0)], kinds(1001), expect=SOUND)
add("1400 kinds in two batches, 700 in each", [("N", 7, 1, 100, 0), ("W", 7, 1, 100, 0)], kinds(1400), expect=SOUND)
add("2000 kinds in two batches, 1000 in each", [("C", 10, 1, 100, 0), ("C", 10, 1, 100, 0)], kinds(2000), expect=SOUND)

# 1001 DT of 1000 kinds: the last is as the first, until a change
(_, payments, end), = numbers(LINES)
first_dt, last_dt, thousand = payments[0][2], payments[-1][-1], kinds(1000)
for field, value in [(78, "01"), (79, "020"), (80, "021"), (81, "1000"), (82, "2024"), (83, "X"), (84, "1235"), (85, "001"), (86, CREDIT), (86, "")]:
    add("a kind more, by field %d%s" % (field, "" if value else " blank"), LINES, thousand, put(last_dt, field, value), expect=fault(12, 2, 76))
add("a kind more, by position 23", LINES, thousand, at(last_dt, 23, 23, b"\xF1"), expect=fault(12, 2, 76))
add("a kind more, by position 54", LINES, thousand, at(last_dt, 54, 54, b"\xC1"),
    code(STARTS[2] + 6, section(3, flagged({"DISB": 0, "DISB   A": 0}))[6:]), expect=fault(12, 2, 76))
for last in (26, 30, 38, 42, 46):
    add("1001 kinds by positions %d to %d" % (last - 3, last), LINES, kinds(1001, last), expect=fault(12, 2, 76))
add("no kind more, by the filler", LINES, kinds(1001, 79), expect=SOUND)
for value in "1", "", "X":
    add("no kind more, by field 88 %s" % (value or "blank"), LINES, thousand, put(last_dt, 88, value), expect=SOUND)
add("no kind more, by the amount", LINES, thousand, money(payments[-1][2], 87, 60), money(last_dt, 87, 40), expect=SOUND)
add("no kind more, by the amount and field 88", LINES, thousand, money(payments[-1][2], 87, 60), money(last_dt, 87, 40), put(last_dt, 88, "1"), expect=SOUND)
BLANK_KIND = 23, 54, b"\x40"
add("a kind more, all blank", LINES, thousand, at(last_dt, *BLANK_KIND), expect=fault(12, 2, 76))
add("a kind more, all blank, the first", LINES, thousand, at(first_dt, *BLANK_KIND), expect=fault(12, 2, 76))
add("999 kinds and the blank one", [("W", 10, 1, 100, 0)], thousand, at(numbers([("W", 10, 1, 100, 0)])[0][1][-1][-1], *BLANK_KIND), expect=SOUND)
add("999 kinds and the blank one twice", LINES, kinds(999), at(last_dt - 1, *BLANK_KIND), at(last_dt, *BLANK_KIND), expect=SOUND)

# W3: numbers, zero-padded if they are one run of digits. A record of FULL, a value that leaves two places free, and a batch.
PLAIN, CHECK, WIRE = [[(letter, 1, 1, 1, 1)] for letter in "NCW"]
SHORT = {
    9: (2, "100", PLAIN), 12: (2, "1030004", WIRE), 13: (2, "1000146", PLAIN), 15: (2, "12", CHECK), 18: (2, "99", CHECK), 19: (2, "340000", CHECK),
    20: (2, "24", CHECK), 24: (3, "100", PLAIN), 36: (3, "902", PLAIN), 42: (3, "1000013", WIRE), 43: (3, "1000013", PLAIN), 58: (3, "340000", CHECK),
    87: (5, "100", PLAIN), 96: (6, "100", PLAIN), 99: (7, "1", PLAIN), 100: (7, "100", PLAIN), 103: (8, "8", PLAIN), 104: (8, "1", PLAIN), 105: (8, "100", PLAIN),
}
assert set(SHORT) == NUMBERS
OF_PAYMENT = 3, 4, 5, 6  # its records


def matching(field, value):
    """With 18, 19 or 58 in a check batch, what has to match them: zero-padded where they are numbers, and not moved again."""
    put_there = corrected(value.ljust(width_of(field)), field)
    if field == 18:
        return [put(2, 6, put_there + SERIAL), named(put_there + SERIAL, *OF_PAYMENT)]
    if field == 19:
        return [put(2, 6, SYMBOL + put_there), put(3, 58, put_there), named(SYMBOL + put_there, *OF_PAYMENT)]
    first = [put(2, 19, put_there), put(2, 6, SYMBOL + put_there)] * put_there.isdigit()
    return [*first, named(SYMBOL + put_there, *OF_PAYMENT)]


def with_number(label, field, value, before, expect, batches=None):
    """The number stands behind so many blanks, and what has to match it does."""
    rec, _, own = SHORT[field]
    other = matching(field, " " * before + value) if field in (18, 19, 58) else []
    uncounted = [money(8, 105, 0)] * (field == 24 and not value.isdigit())
    add("%d %s" % (field, label), batches or own, *other, *uncounted, placed(rec, field, value, before), expect=expect)


for field, (rec, value, _) in SHORT.items():
    free = width_of(field) - len(value)
    good = {18: fault(8, rec, 18), 20: fault(5, rec, 20)}.get(field, SOUND)  # symbol 0099, month 00
    bad = 1000000 + rec if field > 100 else fault(2, rec, field)
    blank = {18: fault(7, 2, 6), 36: SOUND, 96: SOUND}.get(field, bad if field > 100 else fault(1, rec, field))
    with_number("with blanks before it", field, value, free, good)
    with_number("with blanks after it", field, value, 0, good)
    with_number("with blanks on both sides", field, value, 1, good)
    with_number("with a blank inside", field, value[:-1] + " " + value[-1] if len(value) > 1 else "0 " + value, 0, bad)
    with_number("with blanks inside and before it", field, value[0] + " " + value[-1], 1, bad)
    with_number("with a letter, behind a blank", field, value[:-1] + "A", 1, bad)
    with_number("blank", field, "", 0, blank)
for letter in "CWIA":
    with_number("with blanks before it, " + letter, 24, "100", 17, SOUND, [(letter, 1, 1, 1, 1)])
    with_number("with blanks inside, " + letter, 24, "1 00", 0, fault(2, 3, 24), [(letter, 1, 1, 1, 1)])
for value, before, answer in [("224", 1, SOUND), ("224", 0, SOUND), ("1324", 0, fault(5, 2, 20)), ("124", 1, SOUND), ("1 24", 0, fault(2, 2, 20))]:
    with_number("holds %s behind %d blanks" % (value, before), 20, value, before, answer)
for value, before, answer in [("0", 1, SOUND), ("0", 4, SOUND), ("000", 1, SOUND), ("0 0", 1, fault(2, 3, 36)), ("1", 4, SOUND)]:
    with_number("holds %s behind %d blanks" % (value, before), 36, value, before, answer)
for value, answer in [("0", fault(3, 3, 48)), ("2", fault(3, 3, 48)), ("00", SOUND), ("", SOUND)]:
    add("48 holds %s at its right end" % (value or "blanks"), [N], at_right(DETAIL, 48, value), expect=answer)
for field, rec, batch in [(12, HEAD, W), (13, HEAD, N), (42, DETAIL, W), (43, DETAIL, N)]:
    add("%d holds 0 behind blanks" % field, [batch], at_right(rec, field, "0"), expect=SOUND)
    add("%d holds 13 behind blanks: prefix 00" % field, [batch], at_right(rec, field, "13"), expect=SOUND)
    add("%d holds eight digits: prefix 08" % field, [batch], put(rec, field, "80000000"), expect=SOUND)
    add("%d holds nine digits less a blank: 2" % field, [batch], put(rec, field, "8000 0001"), expect=fault(2, rec, field))
for byte in (0x41, 0xA0, 0xFF):
    add("9 behind hex %02X, which is no blank" % byte, [N], at(HEAD, 33, 33, bytes([byte])), expect=fault(2, HEAD, 9))
    add("TotalCount behind hex %02X, no blank" % byte, [N], at(FT, 21, 21, bytes([byte])), expect=1000006)
    add("a location behind hex %02X, no blank" % byte, [N], at(HEAD, 78, 78, bytes([byte])), expect=fault(4, HEAD, 14))
add("9 behind hex 3F", [N], at(HEAD, 33, 33, b"\x3F"), expect=700002)
add("a hex 40 before an ASCII number: no blank", [N], ASCII, at(HEAD, 33, 33, b"\x40"), expect=fault(2, HEAD, 9))
add("a hex 20 before an ASCII number: a blank", [N], ASCII, at(HEAD, 33, 33, b"\x20"), expect=SOUND)
add("numbers that count in sums: 60 and 40, moved", [("N", 1, 1, 2, 2)], *[put(n, f, v) for n, f, v in ((5, 87, "60"), (6, 87, "  40"), (7, 96, " 60"), (8, 96, "40"))], expect=SOUND)
add("numbers that count in sums: 60 and 4 0", [("N", 1, 1, 2, 0)], put(5, 87, "60"), put(6, 87, "4 0"), expect=fault(2, 6, 87))
add("a lone zero behind blanks in 96 is filled", [("N", 1, 1, 0, 1)], at_right(5, 96, "0"), expect=fault(10, 3, 96))
add("an amount of 0 behind blanks", [W], at_right(DETAIL, 24, "0"), money(BT, 100, 0), money(HEAD, 9, 0), money(FT, 105, 0), expect=fault(8, DETAIL, 24))
add("amounts at different places, of two payments", TWO, put(3, 24, "100"), at_right(5, 24, "100"), expect=SOUND)
add("an amount moved counts in FT", TWO, put(3, 24, " 1000"), put(7, 100, "1100"), put(2, 9, "1100"), put(8, 105, "  1100"), expect=SOUND)
add("an amount moved, and an FT that leaves it out", TWO, put(3, 24, " 100"), money(8, 105, 100), expect=1300008)
add("BT's count moved, and wrong", [A], put(BT, 99, "  2"), expect=fault(13, BT, 99))
add("BT's amount moved, and wrong", [A], put(BT, 100, "  1000"), expect=fault(14, BT, 100))
add("field 9's sum moved, and wrong", [A], put(HEAD, 9, "  10"), expect=fault(14, HEAD, 9))
for field, value, reason in [(103, "7", 11), (104, "2", 12), (105, "10", 13)]:
    add(NAMES[field] + " moved, and wrong", [N], put(FT, field, "  " + value), expect=reason * 100000 + FT)
add("FT's three numbers moved", [N], put(FT, 103, "6"), at_right(FT, 104, "1"), put(FT, 105, "  100"), expect=SOUND)
add("FT's numbers across their borders", [N], at(FT, 3, 58, b"\x40"), at(FT, 19, 22, ebcdic("06 1")), at_right(FT, 105, "100"), expect=SOUND)
add("FT's three numbers split", [N], put(FT, 103, "0 6"), put(FT, 104, "0 1"), put(FT, 105, "1 00"), expect=1000006)
add("a check of ten nines, moved", [C], paid([C], {(0, 0): 9999999999}), put(DETAIL, 24, " 9999999999"), expect=SOUND)
add("a check of 10^10, moved", [C], paid([C], {(0, 0): 10**10}), put(DETAIL, 24, " 10000000000"), expect=fault(8, DETAIL, 24))
add("a voided check of 0, moved", [C], put(DETAIL, 24, " 0"), put(DETAIL, 25, "1"), money(BT, 100, 0), money(FT, 105, 0), expect=SOUND)

# W3: field 7 is moved right and padded with zeros
for value, answer in [("123", SOUND), ("   123", SOUND), (" 123", SOUND), ("1", SOUND), ("     1", SOUND), ("AB", SOUND), (" A-B", SOUND), ("1 3", fault(2, 2, 7)),
                      (" 1 3", fault(2, 2, 7)), ("1    3", fault(2, 2, 7)), ("   1 3", fault(2, 2, 7)), ("00012", SOUND), ("", fault(1, 2, 7))]:
    add("7 holds '%s'" % value.ljust(6), [I], put(HEAD, 7, value), expect=answer)

# W3: dates stay where they stand
for field, rec, batch, days in [(8, 2, N, ["2024-02-29", " 024-02-29", "024-02-29", " 2024-02-2"]), (56, 3, A, ["2024-02-29", " 024-02-29", "024-02-29"]),
                                (17, 2, C, ["20240229", " 0240229", "0240229", "2024 229", " 2024022"]), (59, 3, C, ["20240229", " 0240229", "0240229"])]:
    for day in days:
        add("%d holds '%s'" % (field, day.ljust(width_of(field))), [batch], put(rec, field, day), expect=SOUND if day == days[0] else fault(5, rec, field))

# W3: text is moved left. In the book each code may be a short one, which leaves its field places to stand at.
ENTRY = [width + flag for _, width, flag in KINDS]


def code_put(kind, n, value):
    """The n-th code of a kind, from 0; its flag stays."""
    first = STARTS[kind - 1] + 6 + n * ENTRY[kind - 1]
    width = KINDS[kind - 1][1]
    filled = len(value) - len(value.lstrip(" "))
    text = value.strip(" ")
    return [code(first, b"\x40", width)] * (len(text) < width) + [code(first + filled, ebcdic(text))] * (text != "")


LOOKED_UP = {  # by field: record, kind, which of its two codes, short codes for it
    2: (1, 1, 0, ["LEDGER", "L"]), 14: (2, 2, 1, ["0000567", "5"]), 28: (3, 4, 1, ["Vendor", "V"]), 29: (3, 2, 1, ["0000567", "5"]), 35: (3, 5, 0, ["C"]),
    38: (3, 6, 1, ["U"]), 52: (3, 7, 1, ["US", "U"]), 86: (5, 3, 1, ["DISB", "D"]),
}
for field, (rec, kind, n, values) in LOOKED_UP.items():
    batch = CHECK if field == 29 else PLAIN
    absent = 800001 if field == 2 else fault(4, rec, field)
    for value in values:
        name = "%d holds %s" % (field, value)
        lists = code_put(kind, n, value)
        add(name + " behind a blank", batch, lists, placed(rec, field, value, 1), expect=SOUND)
        add(name + " at its right end", batch, lists, at_right(rec, field, value), expect=SOUND)
        add(name + " at its left, the book's moved", batch, code_put(kind, n, " " + value), put(rec, field, value), expect=SOUND)
        add(name + ", the book's at its right end", batch, code_put(kind, n, value.rjust(KINDS[kind - 1][1])), placed(rec, field, value, 1), expect=SOUND)
    add("%d holds X at its right end" % field, batch, at_right(rec, field, "X"), expect=absent)
    if width_of(field) > 2:
        add("%d holds a code with a blank inside" % field, batch, code_put(kind, n, values[0]), placed(rec, field, values[0][:1] + " " + values[0][1:], 0), expect=absent)
add("a reporter's location moved", [N], code_put(2, 0, "0000123"), placed(2, 14, "0000123", 1), expect=fault(11, 3, 76))
add("a reporter's location moved in the book", [N], code_put(2, 0, " 0000123"), put(2, 14, "0000123"), expect=fault(11, 3, 76))
add("a check's reporter moved", [C], code_put(2, 0, "0000123"), placed(3, 29, "0000123", 1), expect=fault(11, 3, 76))
for field, value in [(80, "20"), (80, "0"), (84, "123"), (84, "1"), (85, "00"), (85, "0"), (86, "DISB"), (86, "COLL")]:
    add("a reporter's %d holds %s at its right end" % (field, value), ONE_DT, put(2, 14, "00001234"), at_right(5, field, value), expect=SOUND)
add("a credit moved is a credit", TWO_DT, money(5, 87, 130), money(6, 87, 30), at_right(6, 86, CREDIT), expect=SOUND)
add("a credit moved in the book is a credit", TWO_DT, code_put(3, 0, " COLL"), money(5, 87, 130), money(6, 87, 30), put(6, 86, CREDIT), expect=SOUND)
add("two credits of 50, moved, do not balance", TWO_DT, [c for n in (5, 6) for c in (at_right(n, 86, CREDIT), money(n, 87, 50))], expect=fault(9, 3, 87))
for field, rec, batch, values in [
        (10, 2, N, {" 215": SOUND, "   5": fault(3, 2, 10), " 551": fault(3, 2, 10), "21 5": fault(3, 2, 10), " 21 ": fault(3, 2, 10)}),
        (44, 3, W, {" CT": fault(3, 3, 44), "  C": fault(3, 3, 44)}), (48, 3, N, {" 2": fault(3, 3, 48)}), (62, 3, N, {" CC": fault(3, 3, 62), "  C": fault(3, 3, 62)}),
        (51, 3, I, {" Electronic": SOUND, "Electronic".rjust(20): SOUND, " Check": SOUND, "Check".rjust(20): SOUND, " Western Union": SOUND,
                    "Western Union".rjust(20): SOUND, " Western  Union": fault(3, 3, 51), "WesternUnion".rjust(20): fault(3, 3, 51), "E".rjust(20): fault(3, 3, 51)}),
        (26, 3, N, {" Ann": SOUND, "A".rjust(47): SOUND}), (54, 3, A, {" A": SOUND, "A".rjust(14): SOUND}), (55, 3, A, {" A": SOUND, "A".rjust(20): SOUND}),
        (66, 4, N, {" Ann": SOUND, "A".rjust(150): SOUND}), (6, 2, N, {" A": SOUND, "A".rjust(14): SOUND, " " + IDENT: SOUND}),
        (6, 2, C, {" " + IDENT: SOUND, "  " + IDENT: SOUND, IDENT[:4] + " " + IDENT[4:]: fault(7, 2, 6)}),
        (16, 2, C, {"0": SOUND, "": fault(1, 2, 16)}), (25, 3, C, {"0": SOUND, "": fault(1, 3, 25)})]:
    for value, answer in values.items():
        before = len(value) - len(value.lstrip())
        add("%d, %s, holds %s behind %d blanks" % (field, batch[0], value.strip(), before), [batch], placed(rec, field, value.strip(), before), expect=answer)
for value in [" 01", "  1", "2 1", "01 "]:
    add("version '%s'" % value, [N], put(FH, 3, value), expect=900001)
for before in (1, 2, 33):
    add("InputSystem PAYROLL behind %d blanks" % before, [N], placed(FH, 2, "PAYROLL", before), expect=SOUND)
add("InputSystem behind blanks, with one inside", [N], placed(FH, 2, "PAY ROLL", 3), expect=800001)
add("InputSystem with a blank inside, the book's too", [N], placed(FH, 2, "PAY ROLL", 3), code_put(1, 1, " PAY ROLL"), expect=SOUND)
add("InputSystem behind hex 41, which is no blank", [N], at(FH, 3, 10, b"\x41" + ebcdic("PAYROLL")), expect=800001)

# W3: the order of the book's codes is that of the moved ones
SHORTENED = {2: [14], 5: [35], 6: [38], 7: [52]}  # by kind: the field that is to hold a code of a byte less
for kind, (_, width, flag) in enumerate(KINDS, 1):
    one, other = [SECTIONS[kind - 1][6 + n * (width + flag):][:width].decode("cp037").strip()[:width - 1] for n in range(2)]
    first, second = code_put(kind, 0, one), code_put(kind, 1, other)
    user = [put(2 if field == 14 else 3, field, other) for field in SHORTENED.get(kind, [])]
    name = "book, section %d: " % kind
    add(name + "ascends after correction", PLAIN, first, code_put(kind, 1, other.rjust(width)), user, expect=SOUND)
    add(name + "ascends either way", PLAIN, code_put(kind, 0, " " + one), second, user, expect=SOUND)
    add(name + "ascends before correction only", PLAIN, code_put(kind, 0, " " + other), code_put(kind, 1, one), expect=400000)
    add(name + "equal but for their place", PLAIN, code_put(kind, 0, " " + one), code_put(kind, 1, one), expect=400000)
    add(name + "falls either way", PLAIN, code_put(kind, 0, other), code_put(kind, 1, " " + one), expect=400000)
    add(name + "a blank code first", PLAIN, code_put(kind, 0, ""), code_put(kind, 1, " " + other), user, expect=SOUND)
    add(name + "a blank code last", PLAIN, first, code_put(kind, 1, ""), expect=400000)
add("book, a code behind hex 20, which is no blank", [N], code(6 + 40, b"\x20" + ebcdic("PAYROLL")), expect=400000)
add("book, a code behind hex 00, which is no blank", [N], code(6, b"\0" + ebcdic("LEDGER")), put(FH, 2, "LEDGER"), expect=800001)

# W3: Payment IDs nest and repeat after they are moved
ALL = [("W", 1, 1, 1, 1)]
for rec, name in [(3, "the detail"), (4, "DX"), (5, "DT"), (6, "DP")]:
    other = 4 if rec == 3 else rec
    for before in (1, 2, 8):
        add("the ID of %s behind %d blanks" % (name, before), ALL, placed(rec, 23, IDENT, before), expect=SOUND)
    add("the ID of %s with a blank inside" % name, ALL, put(rec, 23, IDENT[:4] + " " + IDENT[4:]), expect=500000 + other)
    add("the ID of %s behind hex 41, no blank" % name, ALL, at(rec, 3, 15, b"\x41" + ebcdic(IDENT)), expect=500000 + other)
    add("the ID of %s behind hex 00, no blank" % name, ALL, at(rec, 3, 15, b"\0" + ebcdic(IDENT)), expect=500000 + other)
    add("the ID of %s behind an ASCII tab" % name, ALL, ASCII, at(rec, 3, 15, b"\t" + IDENT.encode("ascii")), expect=500000 + other)
    add("the ID of %s behind an ASCII blank" % name, ALL, ASCII, at(rec, 3, 15, b" " + IDENT.encode("ascii")), expect=SOUND)
    add("the ID of %s behind hex 40 in ASCII" % name, ALL, ASCII, at(rec, 3, 15, b"\x40" + IDENT.encode("ascii")), expect=500000 + other)
for letter in LETTERS:
    add("each ID of a payment at its own place, " + letter, [(letter, 1, 1, 1, 1)], *[placed(rec, 23, IDENT, rec) for rec in OF_PAYMENT], expect=SOUND)
add("IDs of one byte at different places", ALL, *[placed(rec, 23, "A", (rec - 3) * 19 // 3) for rec in OF_PAYMENT], expect=SOUND)
add("IDs with equal blanks inside", ALL, *[placed(rec, 23, "A  B", rec) for rec in OF_PAYMENT], expect=SOUND)
add("IDs with unequal blanks inside", ALL, *[placed(rec, 23, "A  B" if rec < 6 else "A   B", rec) for rec in OF_PAYMENT], expect=500006)
add("IDs of 20 bytes", ALL, *[put(rec, 23, "A" * 19 + "B") for rec in OF_PAYMENT], expect=SOUND)
add("IDs of 20 bytes but one, moved", ALL, *[placed(rec, 23, "A" * 18 + "B", rec % 2) for rec in OF_PAYMENT], expect=SOUND)
add("a DX with the earlier payment's ID, moved", [("N", 2, 1, 0, 0)], placed(6, 23, IDENT, 2), expect=500006)
add("a blank ID of a DX is not its detail's", ALL, placed(3, 23, IDENT, 2), put(4, 23, ""), expect=500004)
for letter in LETTERS:
    add("Payment IDs equal but for their place, " + letter, [(letter, 2, 1, 0, 0)], placed(5, 23, IDENT, 1), placed(6, 23, IDENT, 3), expect=fault(6, 5, 23))
add("the first Payment ID moved, the second not", [("I", 2, 1, 0, 0)], placed(3, 23, IDENT, 8), placed(4, 23, IDENT, 8), named(IDENT, 5, 6), expect=fault(6, 5, 23))
add("the third payment repeats the first, moved", [("I", 3, 1, 0, 0)], placed(7, 23, IDENT, 5), placed(8, 23, IDENT, 6), expect=fault(6, 7, 23))
add("Payment IDs that differ in a blank inside", [("I", 2, 1, 0, 0)], named("A B", 3, 4), *[placed(n, 23, "AB", 2) for n in (5, 6)], expect=SOUND)
add("IDs that fall before correction, climb after", [("I", 2, 1, 0, 0)], named("A", 3, 4), *[placed(n, 23, "B", 2) for n in (5, 6)], expect=SOUND)
add("IDs that climb before correction, fall after", [("I", 3, 1, 0, 0)], *[placed(n, 23, "B", 2) for n in (3, 4)], named("A", 5, 6), named("B", 7, 8), expect=fault(6, 7, 23))
for batches, value in [([N, W], IDENT), ([A, I], IDENT), ([C, C], IDENT)]:
    for before in (1, 2):
        add("schedule numbers equal but for their place, %s %d" % (batches[0][0], before), batches, placed(6, 6, value, before), expect=fault(6, 6, 6, 2))
add("schedule numbers equal, the first moved", [N, W], placed(2, 6, IDENT, 2), put(6, 6, IDENT), expect=fault(6, 6, 6, 2))
add("the third batch repeats the first, moved", [N, W, I], placed(10, 6, IDENT, 1), expect=fault(6, 10, 6, 3))
add("schedule numbers that differ in a blank inside", [N, W], put(2, 6, "A B"), placed(6, 6, "AB", 2), expect=SOUND)
add("schedule numbers of one byte at two places", [N, W, I], put(2, 6, "B"), put(6, 6, " A"), at_right(10, 6, "B"), expect=fault(6, 10, 6, 3))

# W3: check symbol matching
for value, before in [("999", 0), ("999", 1), ("99", 1), ("0", 3)]:
    name, zeros = "18 holds %s behind %d blanks" % (value, before), value.zfill(4)
    short = placed(2, 18, value, before)
    add(name, [C], short, put(2, 6, zeros + SERIAL), named(zeros + SERIAL, 3, 4), expect=fault(8, 2, 18))
    add(name + ", 6 without zeros", [C], short, put(2, 6, value + SERIAL), named(zeros + SERIAL, 3, 4), expect=fault(7, 2, 6))
    add(name + ", 6 as 18", [C], short, put(2, 6, (" " * before + value).ljust(4) + SERIAL), expect=fault(7, 2, 6))
for value, before in [("340000", 0), ("340000", 2), ("340000", 1), ("0", 7), ("7", 0)]:
    name, zeros = "%s behind %d blanks" % (value, before), value.zfill(8)
    sound = [put(2, 6, SYMBOL + zeros), put(2, 19, zeros), put(3, 58, zeros), named(SYMBOL + zeros, 3, 4)]
    add("19 holds " + name, [C], *sound, placed(2, 19, value, before), expect=SOUND)
    add("19 and 58 hold " + name, [C], *sound, placed(2, 19, value, before), at_right(3, 58, value), expect=SOUND)
    add("19 holds %s, no zeros in 6" % name, [C], *sound, placed(2, 19, value, before), put(2, 6, SYMBOL + value), expect=fault(7, 2, 6))
    add("19 holds %s, 6 and 23 moved" % name, [C], *sound, placed(2, 19, value, before), placed(2, 6, SYMBOL + zeros, 2), placed(3, 23, SYMBOL + zeros, 8), expect=SOUND)
    add("58 holds %s" % name, [C], *sound, placed(3, 58, value, before), expect=SOUND)
    add("58 holds %s, no zeros in 23" % name, [C], *sound, placed(3, 58, value, before), named(SYMBOL + value, 3, 4), expect=fault(7, 3, 23))
add("58 moved, and not the next", [C], placed(3, 58, "340001", 1), named(SYMBOL + "00340001", 3, 4), expect=fault(7, 3, 58))
add("18 blank, 6 behind four blanks: not moved again", [C], put(2, 18, ""), put(2, 6, "    " + SERIAL), expect=fault(7, 2, 6))
add("18 blank, 6 is the serial: not moved again", [C], put(2, 18, ""), put(2, 6, SERIAL), named(SERIAL, 3, 4), expect=fault(7, 2, 6))
add("18 and 19 blank, 6 filled", [C], put(2, 18, ""), put(2, 19, ""), put(2, 6, "0"), expect=fault(7, 2, 6))
add("18, 19 and 6 blank", [C], put(2, 18, ""), put(2, 19, ""), put(2, 6, ""), expect=fault(1, 2, 6))
add("19 blank, 6 is the symbol", [C], put(2, 19, ""), put(2, 6, SYMBOL), expect=fault(1, 2, 19))
add("19 blank, 6 is the symbol at its right end", [C], put(2, 19, ""), at_right(2, 6, SYMBOL), expect=fault(1, 2, 19))
add("58 blank, 23 is the symbol at its right end", [C], put(3, 58, ""), at_right(3, 23, SYMBOL), put(4, 23, SYMBOL), expect=fault(1, 3, 58))
add("18 of another shape is moved like text", [C], put(2, 18, " 1A"), put(2, 6, "1A  " + SERIAL), expect=fault(2, 2, 18))
add("18 of another shape, 6 as 18 stands", [C], put(2, 18, " 1A"), put(2, 6, " 1A " + SERIAL), expect=fault(7, 2, 6))
add("19 of another shape is moved like text", [C], put(2, 19, "  1 2"), put(2, 6, SYMBOL + "1 2"), expect=fault(2, 2, 19))
add("19 of another shape, 6 as 19 stands", [C], put(2, 19, "  1 2"), put(2, 6, SYMBOL + "  1 2"), expect=fault(7, 2, 6))
add("58 of another shape is moved like text", [C], put(3, 58, "  1 2"), named(SYMBOL + "1 2", 3, 4), expect=fault(2, 3, 58))
add("58 of another shape, 23 as 58 stands", [C], put(3, 58, "  1 2"), named(SYMBOL + "  1 2", 3, 4), expect=fault(7, 3, 23))
TWICE = [("C", 2, 1, 0, 0)]
add("two checks, 9 and 10 without zeros", TWICE, put(2, 19, " 9"), put(2, 6, SYMBOL + "00000009"), put(3, 58, "9"), named(SYMBOL + "00000009", 3, 4),
    at_right(5, 58, "10"), named(SYMBOL + "00000010", 5, 6), expect=SOUND)
add("two checks, 9 and 11 without zeros", TWICE, put(2, 19, " 9"), put(2, 6, SYMBOL + "00000009"), put(3, 58, "9"), named(SYMBOL + "00000009", 3, 4),
    at_right(5, 58, "11"), named(SYMBOL + "00000011", 5, 6), expect=fault(7, 5, 58))

# W3: kinds of TAS/BETC; first_dt and last_dt are of one kind, and of 1000 in all
(_, payments, end), = numbers(LINES)
for field in (78, 79, 80, 81, 82, 84, 85):
    width = width_of(field)
    add("one kind, by field %d X at two places" % field, LINES, thousand, put(first_dt, field, "X"), at_right(last_dt, field, "X"), expect=SOUND)
    add("a kind more, by field %d X and Y moved" % field, LINES, thousand, put(first_dt, field, "X"), at_right(last_dt, field, "Y"), expect=fault(12, 2, 76))
    add("a kind more, by field %d blank and X moved" % field, LINES, thousand, put(first_dt, field, ""), at_right(last_dt, field, "X"), expect=fault(12, 2, 76))
    if width > 2:
        add("a kind more, by field %d X Y and XY" % field, LINES, thousand, put(first_dt, field, "X Y"), at_right(last_dt, field, "XY"), expect=fault(12, 2, 76))
for before in (1, 4):
    add("one kind, by field 86 behind %d blanks" % before, LINES, thousand, placed(last_dt, 86, "DISB", before), expect=SOUND)
add("a kind more, by field 86 moved", LINES, thousand, at_right(last_dt, 86, CREDIT), expect=fault(12, 2, 76))
add("a kind more: X in 78 and X in 79", LINES, thousand, at(first_dt, 23, 27, b"\x40"), at(last_dt, 23, 27, b"\x40"), put(first_dt, 78, "X"), put(last_dt, 79, "X"), expect=fault(12, 2, 76))
add("a kind more: X ends 78, X begins 79", LINES, thousand, at(first_dt, 23, 27, b"\x40"), at(last_dt, 23, 27, b"\x40"), at_right(first_dt, 78, "X"), put(last_dt, 79, "X"), expect=fault(12, 2, 76))
add("a kind more: 81 holds 1 and 0001, which are text", LINES, kinds(1000, 38), put(first_dt, 81, " 1"), put(last_dt, 81, "0001"), expect=fault(12, 2, 76))
add("1001 kinds of moved values", LINES, kinds(1001, 38), *[put(n, 78, " X") for n in payments[0][2:12]], expect=fault(12, 2, 76))


# W1: its place among the findings
add("both 12 and BT's count", LINES, kinds(1001), money(end, 99, 12), expect=fault(12, 2, 76))
add("both 12 and BT's amount", LINES, kinds(1001), put(end, 100, ""), expect=fault(12, 2, 76))
add("both 12 and field 9's sum", LINES, kinds(1001), money(2, 9, 99), expect=fault(12, 2, 76))
add("1000 kinds, and BT's count", LINES, thousand, money(end, 99, 12), expect=fault(13, end, 99))
add("both 12 and the header's field 7", LINES, kinds(1001), put(2, 7, ""), expect=fault(1, 2, 7))
add("both 12 and the last DT's BETC", LINES, kinds(1001), put(last_dt, 86, "XXXX"), expect=fault(4, last_dt, 86))
add("both 12 and the last payment's sum", LINES, kinds(1001), money(last_dt, 87, 1), expect=fault(9, payments[-1][0], 87))

# 01 Slips: rejected batches count in the file's totals and keep their place
THREE = [N, ("W", 2, 1, 0, 0), I]
middle = [put(6, 7, "")]
end = last_of(THREE)
add("three batches, the middle one rejected", THREE, middle, expect=fault(1, 6, 7, 2))
add("three batches, the first rejected", THREE, put(2, 7, ""), expect=fault(1, 2, 7, 1))
add("three batches, the last rejected", THREE, put(12, 7, ""), expect=fault(1, 12, 7, 3))
add("three batches, all rejected", THREE, put(2, 7, ""), middle, put(14, 66, ""), expect={1: (1, 2, 7), 2: (1, 6, 7), 3: (1, 14, 66)})
for name, rec, field in [("its schedule number", 6, 6), ("its date", 6, 8), ("its field 9", 6, 9), ("its location", 6, 14), ("a payee", 7, 26),
                         ("a payment type", 9, 28), ("a party's name", 10, 66), ("its count", 11, 99), ("its amount", 11, 100)]:
    add("the middle one: %s blank" % name, THREE, put(rec, field, ""), expect=fault(1, rec, field, 2))
add("the middle one left out of FT's records", THREE, middle, money(end, 103, end - 6), expect=1100000 + end)
add("the middle one left out of FT's count", THREE, middle, money(end, 104, 2), expect=1200000 + end)
add("the middle one left out of FT's amount", THREE, middle, money(end, 105, 200), expect=1300000 + end)
add("the middle one left out of FT's numbers", THREE, middle, money(end, 103, end - 6), money(end, 104, 2), money(end, 105, 200), expect=1100000 + end)
add("each batch rejected for its own reason", [N, W, I, A], put(2, 13, "130000000"), put(7, 44, "XXX"), put(13, 99, "00000002"), put(14, 9, amount(99)),
    expect={1: (3, 2, 13), 2: (3, 7, 44), 3: (13, 13, 99), 4: (14, 14, 9)})

# 01 Slips: the limit of a check's amount
for value, answer in [(9999999999, SOUND), (10**10, fault(8, 3, 24))]:
    add("a DC of %d cents" % value, [C], paid([C], {(0, 0): value}), expect=answer)
for batch in (W, N, I, A):
    add("a D%s of 10000000000 cents" % batch[0], [batch], paid([batch], {(0, 0): 10**10}), expect=SOUND)

# repeats: of schedule numbers over the file, of Payment IDs in a batch (01 Batch reasons, 6)
FIRST = IDENT + "  "
add("a schedule number in two batches", [N, W], put(6, 6, FIRST), expect=fault(6, 6, 6, 2))
add("the same, the first rejected", [N, W], put(2, 7, ""), put(6, 6, FIRST), expect={1: (1, 2, 7), 2: (6, 6, 6)})
add("a schedule number in three batches", [N, W, I], put(6, 6, FIRST), put(10, 6, FIRST), expect={2: (6, 6, 6), 3: (6, 10, 6)})
add("the third repeats the first", [N, W, I], put(10, 6, FIRST), expect=fault(6, 10, 6, 3))
add("the third repeats the second", [N, W, I], put(10, 6, IDENT[:8] + "0100"), expect=fault(6, 10, 6, 3))
add("schedule numbers that fall", [N, W, I], put(2, 6, "C"), put(6, 6, "B"), put(10, 6, "A"), expect=SOUND)
add("schedule numbers that fall, and the first again", [N, W, I, A], *[put(n, 6, v) for n, v in ((2, "C"), (6, "B"), (10, "A"), (14, "C"))], expect=fault(6, 14, 6, 4))
add("schedule numbers that fall, and the last again", [N, W, I, A], *[put(n, 6, v) for n, v in ((2, "C"), (6, "B"), (10, "A"), (14, "A"))], expect=fault(6, 14, 6, 4))
add("blank schedule numbers: 1 at each", [N, W], put(2, 6, ""), put(6, 6, ""), expect={1: (1, 2, 6), 2: (1, 6, 6)})
add("schedule numbers that differ in the last byte", [N, W], put(2, 6, "A" * 13 + "B"), put(6, 6, "A" * 13 + "C"), expect=SOUND)
add("check batches with one schedule number: 6", [C, C], put(6, 6, FIRST), expect=fault(6, 6, 6, 2))
add("check batches of one first serial: 6", [C, C], put(6, 6, FIRST), put(6, 19, SERIAL), put(7, 58, SERIAL), named(IDENT, 7, 8), expect=fault(6, 6, 6, 2))
add("a Payment ID in two batches", [N, W], named(IDENT, 7, 8), expect=SOUND)
add("a Payment ID in two batches of one kind", [N, N], named(IDENT, 7, 8), expect=SOUND)
add("a Payment ID twice in a batch", [("N", 2, 1, 0, 0)], named(IDENT, 5, 6), expect=fault(6, 5, 23))
add("a Payment ID twice in the second batch", [N, ("W", 2, 1, 0, 0)], named(IDENT[:8] + "0100", 9, 10), expect=fault(6, 9, 23, 2))
add("the third payment repeats the first", [("I", 3, 1, 0, 0)], named(IDENT, 7, 8), expect=fault(6, 7, 23))

# files of several batches with faults anywhere: the judge above decides
FIELDS = {"DX": [66], "DT": [80, 84, 85, 86, 87, 88], "DP": [96], "BT": [99, 100]}
FIELDS.update({"B" + letter: [f for f in PLACES if 6 <= f <= 20] for letter in LETTERS})
FIELDS.update({"D" + letter: [f for f in PLACES if 25 <= f <= 62] for letter in LETTERS})
VALUES = ["", "0", "1", "X", "00000", "2024-02-30", "99999999", "COLL", "00001234", "5515"]
rng = random.Random(201)


def any_change(records):
    """A field, then a record that has it, then a value."""
    places = collections.defaultdict(list)
    for n, rec in enumerate(records, 1):
        for field in FIELDS.get(code_of(rec), []):
            places[field].append(n)
    field = rng.choice(sorted(places))
    return put(rng.choice(places[field]), field, rng.choice(VALUES)[:PLACES[field][1] - PLACES[field][0] + 1])


for k in range(1, 121):
    letters = "C" * rng.randrange(1, 4) if k % 4 == 0 else rng.choices(VOUCHERS, k=rng.randrange(1, 5))
    batches = [(letter, rng.randrange(1, 4), rng.randrange(1, 3), rng.randrange(3), rng.randrange(3)) for letter in letters]
    add("several batches, %d" % k, batches, *[any_change(whole(batches)) for _ in range(rng.randrange(1, 6))], expect=None)

# W4: today, and the dates of a check batch: created (17), the accounting month (20), issued (59)
def day_text(day):
    return day.strftime("%Y%m%d").rjust(8, "0")


def dated(created, month, issued):
    return [put(HEAD, 17, day_text(created)), put(HEAD, 20, month), put(DETAIL, 59, day_text(issued))]


def later(day, days):
    return day + datetime.timedelta(days=days)


LATE = {field: fault(15, rec, field) for field, rec in ((17, HEAD), (20, HEAD), (59, DETAIL))}
for month in ["0224", "0223", "0124", "1223", "0424", "0200", "0100", "1200", "0299", "1299", "0199"]:
    year, number = 2000 + int(month[2:]), int(month[:2])
    start = datetime.date(year, number, 1)
    end = later(datetime.date(year + number // 12, number % 12 + 1, 1), -1)
    second = later(start, 1)
    for name, today, created, issued, answer in [
            ("first day 30 days ahead", later(start, -30), later(start, -30), start, SOUND),
            ("first day 31 days ahead", later(start, -31), later(start, -31), start, LATE[59]),  # and no day of it is less than 31 ahead
            ("first day 32 days ahead", later(start, -32), later(start, -32), start, LATE[20]),
            ("last day 180 days back", later(end, 180), end, end, SOUND),
            ("last day 181 days back", later(end, 181), end, end, LATE[20]),
            ("issued 180 days ago", later(second, 180), start, second, SOUND),
            ("issued 181 days ago", later(second, 181), start, second, LATE[59]),
            ("issued 30 days ahead", later(second, -30), later(second, -30), second, SOUND),
            ("issued 31 days ahead", later(second, -31), later(second, -31), second, LATE[59]),
            ("issued the day before", start, start, later(start, -1), LATE[59]),
            ("issued the day after", end, end, later(end, 1), LATE[59]),
            ("issued on the last day", end, end, end, SOUND),
            ("created today", end, end, end, SOUND),
            ("created tomorrow", later(end, -1), end, end, LATE[17])]:
        add("%s, %s" % (month, name), [C], dated(created, month, issued), today=day_text(today), expect=answer)
LEAP = datetime.date(2024, 2, 29)
for today, answer in [("00010101", LATE[17]), ("99991231", LATE[20]), ("20000229", LATE[17]), ("19000228", LATE[17]), ("20240229", SOUND), ("20240228", LATE[17]),
                      ("20240827", SOUND), ("20240828", LATE[20])]:
    add("checks of 2024-02-29 on %s" % today, [C], today=today, expect=answer)
    add("others of 2024-02-29 on %s" % today, [N, W, I, A], today=today, expect=SOUND)
FAR = dated(datetime.date(2099, 12, 31), "0100", datetime.date(2000, 1, 31))
add("nothing lent: dates that no day allows", [C], FAR, expect=SOUND)
add("the same on 2024-02-29", [C], FAR, today="20240229", expect=LATE[17])
add("17, 20 and 59 of a BN are not looked at", [N], FAR, today="20240229", expect=SOUND)
add("issued in the month of another year", [C], dated(LEAP, "0223", datetime.date(2023, 2, 28)), today="20230228", expect=LATE[17])
add("issued in another year's month", [C], dated(datetime.date(2024, 1, 1), "0124", datetime.date(2023, 1, 31)), today="20240131", expect=LATE[59])
add("created on 0001-01-01", [C], put(HEAD, 17, "00010101"), today="20240229", expect=SOUND)
add("created on 9999-12-31, today", [C], put(HEAD, 17, "99991231"), today="99991231", expect=LATE[20])
add("the second payment's date is at fault", [("C", 2, 1, 0, 0)], put(5, 59, "20240131"), today="20240229", expect=fault(15, 5, 59))
add("17 and 20 at fault: 17", [C], put(HEAD, 17, "20240301"), put(HEAD, 20, "0125"), today="20240229", expect=LATE[17])
add("17 at fault, then 18", [C], put(HEAD, 17, "20240301"), put(HEAD, 18, "0999"), put(HEAD, 6, "0999" + SERIAL), today="20240229", expect=LATE[17])
add("20 at fault, and 26 of the payment", [C], put(HEAD, 20, "0125"), put(DETAIL, 26, ""), today="20240229", expect=LATE[20])
add("58 at fault, then 59", [C], put(DETAIL, 58, "X"), put(DETAIL, 59, "20240131"), today="20240229", expect=fault(7, DETAIL, 23))
for field, rec, values in [(17, HEAD, {"": 1, "20240230": 5, "X": 5}), (20, HEAD, {"": 1, "022X": 2, "1324": 5, "0024": 5}), (59, DETAIL, {"": 1, "20240230": 5, "X": 5})]:
    for value, reason in values.items():
        add("%d holds '%s' on 2024-02-29" % (field, value), [C], put(rec, field, value), today="20240229", expect=fault(reason, rec, field))
for value, before in [("224", 0), ("224", 1), ("0224", 0)]:
    add("20 holds %s behind %d blanks on 2024-02-29" % (value, before), [C], placed(HEAD, 20, value, before), today="20240229", expect=SOUND)
    add("20 holds %s behind %d blanks on 2024-08-28" % (value, before), [C], placed(HEAD, 20, value, before), today="20240828", expect=LATE[20])
NO_DAYS = ["2024022", "202402290", "2", "00000101", "20230229", "19000229", "21000229", "20241301", "20240001", "20240100", "20240431", "2024-2-9", "2024022X", " 0240229",
           "        ", b"20240229", b"\0" * 8, b"\xFA" * 8, "2024022920240229"]
for n, lent_day in enumerate(NO_DAYS):
    add("today is no day, %d" % n, [N], today=lent_day, expect=1400000)
    add("today is no day, %d, checks" % n, [C], today=lent_day, expect=1400000)
add("14 before 5", [N], put(DX, 66, ""), at(DX, 1, 2, ebcdic("BT")), today="20230229", expect=1400000)
add("14 before 6", [N], report=127, today="20230229", expect=1400000)
add("14 before 7", [N], at(DX, 30, 30, b"\x3F"), today="20230229", expect=1400000)
add("14 before 8", [N], put(FH, 2, "X"), today="20230229", expect=1400000)
add("4 before 14", [N], book=41, today="20230229", expect=400000)
add("2 before 14", [N], file=849, today="20230229", expect=200000)
add("1 before 14", [N], file=0, today="20230229", expect=100000)
add("5 on a real day", [N], at(DX, 1, 2, ebcdic("BT")), today="20240229", expect=500004)
add("6 on a real day", [N], report=127, today="20240229", expect=600000)

# W3: files of several batches with values moved anywhere, and faults: the judge above decides
MOVABLE = {"FH": [2], "DX": [65, 66], "DT": [77, 80, 84, 85, 86, 87], "DP": [91, 96], "BT": [99, 100], "FT": [103, 104, 105]}
MOVABLE.update({"B" + letter: [6, 7, 9, 10, 12, 13, 14, 15, 18, 19, 20] for letter in LETTERS})
MOVABLE.update({"D" + letter: [23, 24, 26, 28, 29, 35, 36, 38, 42, 43, 51, 52, 54, 55, 58] for letter in LETTERS})


def any_move(records):
    """A field of a record, whose value, without zeros before it where it is a number, stands at any place; or, of ten, one split."""
    n = rng.randrange(len(records))
    field = rng.choice(MOVABLE[code_of(records[n])])
    value = held(records[n], field).strip(" ")
    value = value.lstrip("0") if field in NUMBERS else value
    if rng.randrange(10) == 0:
        value = (value[:1] + " " + value[1:])[:width_of(field)]
    return placed(n + 1, field, value, rng.randrange(width_of(field) - len(value) + 1))


for k in range(1, 81):
    letters = "C" * rng.randrange(1, 4) if k % 4 == 0 else rng.choices(VOUCHERS, k=rng.randrange(1, 4))
    batches = [(letter, rng.randrange(1, 3), 1, rng.randrange(2), rng.randrange(2)) for letter in letters]
    moves = [any_move(whole(batches)) for _ in range(rng.randrange(1, 9))]
    add("several batches, moved, %d" % k, batches, *moves, *[any_change(whole(batches)) for _ in range(rng.randrange(2))], expect=None)

assert set(answers["EBCDIC"]) == set(range(15)) - {3}  # 3 takes a file of more than 55,704,750 bytes
assert set(answers["ASCII"]) == set(answers["EBCDIC"]) - {1} and set(pairs["ASCII"]) == set(pairs["EBCDIC"])
(here / "data" / "ascii.bin").write_bytes(LATIN)
write_cases(here, BOOK, ENDS + [r for letter in LETTERS for r in TEMPLATES[letter]], table, LABEL, says)
if sys.argv[1:] == ["counts"]:
    for taken in answers:
        print(sum(answers[taken].values()), "cases in", taken, "; by answer", sorted(answers[taken].items()),
              "; by reason and field", sorted(pairs[taken].items()))

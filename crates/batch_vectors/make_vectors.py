#!/usr/bin/env python3
"""Writes what this program is run on, and what documents 01, 02 and 004 say of it.

data/records.bin holds sound records, data/book.bin a code book, stdin a table with a case a line, stdout the rows (01 Report).
The judge is reference/srf.py.
"""
import datetime
import pathlib
import random
import sys

here = pathlib.Path(__file__).parent
sys.path.insert(0, str(here.parent.parent / "reference"))
from srf import (  # noqa: E402
    LETTERS, PLACES, SYMBOL, VOUCHERS, amount, code_of, coded, ebcdic, faults, flagged, is_header, legal, paid_by, parsed,
    payments_of, record, section, split, templates, write_cases,
)
LABEL = 48

# ---- the code book (01 Code book)

LOCATIONS = {"00001234": 1, "00005678": 0}  # 1: a CARS Reporter
BETCS = {"COLL": 1, "DISB": 0}  # 1: a credit
TYPES = ["Benefit", "Grant", "Vendor"]
STATES = ["CA", "NY"]
COUNTRIES = ["CA", "US"]
CURRENCIES = ["CAD", "USD"]


BOOK = b"".join([
    section(1, coded(["PAYROLL"], 40)), section(2, flagged(LOCATIONS)), section(3, flagged(BETCS)), section(4, coded(TYPES, 25)),
    section(5, coded(STATES, 2)), section(6, coded(COUNTRIES, 2)), section(7, coded(CURRENCIES, 3))])
LISTS = parsed(BOOK)


# ---- sound records, and files of them

SERIAL = "12345600"
IDENT = SYMBOL + SERIAL


ENDS = [record("FH"), record("FT")]
TEMPLATES = {letter: templates(letter, SERIAL) for letter in LETTERS}


def with_two(rec, n, *positions):
    """The record with two digits of n at each of the positions."""
    rec = bytearray(rec)
    for p in positions:
        rec[p - 1:p + 1] = ebcdic("%02d" % n)
    return rec


def whole(letter, shape):
    """FH, a sound batch of this shape, FT. Payments are numbered from 0 in their IDs and in field 58; each is of 100 cents. A DT has its
    place in the file, from 0, in field 81: it is of a kind of its own."""
    payments, parties, accounts, procurements = shape
    head, detail, dx, dt, dts, dp, dps, end = TEMPLATES[letter]
    one = [detail] + [dx] * parties + ([dt] + [dts] * (accounts - 1)) * (accounts > 0) + ([dp] + [dps] * (procurements - 1)) * (procurements > 0)
    records = [bytearray(ENDS[0]), with_two(head, payments, 49)]
    for n in range(payments):
        records += [with_two(rec, n, 13, 660) for rec in one]
    records = [with_two(with_two(rec, i // 100, 31), i % 100, 33) if code_of(rec) == "DT" else rec for i, rec in enumerate(records)]
    return records + [with_two(end, payments, 9, 27), bytearray(ENDS[1])]


# ---- the table: a case is a label, a letter, a word that says what is known beside the batch, a shape, changes

ONE = (1, 1, 1, 1)  # payments; and of each DX, DT, DP
HEAD, DETAIL, DX, DT, DP, BT = 2, 3, 4, 5, 6, 7  # the records of this shape
REPEATS, LENT = 1, 2  # a case's word: the schedule number repeats, today is lent
TODAY = datetime.date(2024, 2, 29)
table, says, covered = [], [], set()
single = {letter: [] for letter in LETTERS}  # the faults that a batch of one payment can have: a name and changes


def put(rec, field, value):
    """The field of the record holds the value; a change is a record, its first and last position and the bytes that are repeated there."""
    start, end = PLACES[field]
    data = ebcdic(value.ljust(end - start + 1))
    assert len(data) == end - start + 1, (field, value)
    return rec, start, end, data[:1] if len(set(data)) == 1 else data


def judged(letter, shape, changes, word):
    """The row of the batch and all its faults, or None."""
    records = whole(letter, shape)
    for rec, start, end, data in changes:
        for i in range(end - start + 1):
            records[rec - 1][start - 1 + i] = data[i % len(data)]
    batch = list(enumerate(records, 1))[1:-1]
    if not legal(records) or sum(map(is_header, records)) != 1:
        return None
    wrong = [f for f in faults(batch, LISTS, word == REPEATS, TODAY if word == LENT else None) if f[0]]
    payments = payments_of(batch)
    return [batch[0][0], len(batch), len(payments), *split(sum(map(paid_by, payments))), *(wrong or [(0, 0, 0)])[0]], wrong


def add(label, letter, changes=(), shape=ONE, word=0, expect="sound"):
    """A case, with what it shows: `sound`, `no batch`, or the reason, the record and the field at fault; None: some fault."""
    found = judged(letter, shape, changes, word)
    words = [letter, str(word), *map(str, shape), str(len(changes))]
    words += [w for rec, start, end, data in changes for w in (str(rec), str(start), str(end), data.hex().upper())]
    assert len(label) < LABEL, label
    table.append(label.ljust(LABEL) + " ".join(words))
    if found is None:
        assert expect == "no batch", label
        says.append(label.ljust(LABEL) + "no batch")
        return []
    row, wrong = found
    assert row[5] if expect is None else (tuple(row[5:]) if row[5] else "sound") == expect, (label, expect, wrong)
    says.append(label.ljust(LABEL) + " ".join(map(str, row)))
    return wrong


def one_fault(field, reason, letters, rec, change, shape=ONE, word=0, note=""):
    """The pair of field and reason for each of the letters, and nothing else at fault. `change` makes the changes from the letter."""
    for letter in letters:
        label = " ".join(filter(None, ["%d/%d" % (field, reason), letter, note]))
        wrong = add(label, letter, change(letter), shape, word, (reason, rec, field))
        assert wrong == [(reason, rec, field)], (label, wrong)
        covered.add((field, reason, letter))
        if shape == ONE and not word:
            single[letter].append(("%d/%d" % (field, reason), change(letter)))


def holds(rec, field, value):
    return lambda letter: [put(rec, field, value)]


def named(ident, records=(DETAIL, DX, DT, DP)):
    """The payment's ID, in each of its records."""
    return [put(rec, 23, ident) for rec in records]


def paid(value, n, letter):
    """The payment's field 24, and the n cents that it counts as wherever they are summed."""
    changes = [put(DETAIL, 24, value), put(DT, 87, amount(n)), put(DP, 96, amount(n)), put(BT, 100, amount(n))]
    return changes + ([] if letter == "C" else [put(HEAD, 9, amount(n))])


def symbol(value):
    """Field 18, and with it the schedule number and the Payment ID."""
    return lambda letter: [put(HEAD, 18, value), put(HEAD, 6, value.ljust(4) + SERIAL)] + named(value.ljust(4) + SERIAL)


def first_serial(value):
    return lambda letter: [put(HEAD, 19, value), put(HEAD, 6, SYMBOL + value)]


def serial(value):
    """Field 58, and with it the Payment ID."""
    return lambda letter: [put(DETAIL, 58, value)] + named(SYMBOL + value)


def reporter(letter):
    """The payer is a CARS Reporter."""
    return put(DETAIL, 29, "00001234") if letter == "C" else put(HEAD, 14, "00001234")


def of_reporter(rec, field, value):
    return lambda letter: [reporter(letter), put(rec, field, value)]


# sound batches
for letter in LETTERS:
    add("sound " + letter, letter)
    add("sound %s, no DT, no DP" % letter, letter, shape=(1, 1, 0, 0))
    add("sound %s, three payments" % letter, letter, shape=(3, 2, 3, 2))
    add("sound %s, of a CARS Reporter" % letter, letter, [reporter(letter)])

# header
one_fault(6, 1, LETTERS, HEAD, holds(HEAD, 6, ""))
one_fault(6, 6, LETTERS, HEAD, lambda letter: [], word=REPEATS)
one_fault(6, 7, "C", HEAD, holds(HEAD, 6, IDENT[:-1] + "9"))
one_fault(7, 1, VOUCHERS, HEAD, holds(HEAD, 7, ""))
one_fault(7, 2, VOUCHERS, HEAD, holds(HEAD, 7, "00 123"))
one_fault(8, 1, VOUCHERS, HEAD, holds(HEAD, 8, ""))
one_fault(8, 5, VOUCHERS, HEAD, holds(HEAD, 8, "1900-02-29"))
one_fault(9, 1, VOUCHERS, HEAD, holds(HEAD, 9, ""))
one_fault(9, 2, VOUCHERS, HEAD, holds(HEAD, 9, "1 00"))
one_fault(10, 1, VOUCHERS, HEAD, holds(HEAD, 10, ""))
one_fault(10, 3, VOUCHERS, HEAD, holds(HEAD, 10, "515"))
for letters, rec, field in [("W", HEAD, 12), ("N", HEAD, 13), ("W", DETAIL, 42), ("N", DETAIL, 43)]:
    one_fault(field, 1, letters, rec, holds(rec, field, ""))
    one_fault(field, 2, letters, rec, holds(rec, field, "00000000A"))
    one_fault(field, 3, letters, rec, holds(rec, field, "130000000"))
one_fault(14, 1, VOUCHERS, HEAD, holds(HEAD, 14, ""))
one_fault(14, 4, VOUCHERS, HEAD, holds(HEAD, 14, "00005679"))
one_fault(15, 1, "C", HEAD, holds(HEAD, 15, ""))
one_fault(15, 2, "C", HEAD, holds(HEAD, 15, "12 4"))
one_fault(16, 1, "C", HEAD, holds(HEAD, 16, ""))
one_fault(16, 3, "C", HEAD, holds(HEAD, 16, "1"))
one_fault(17, 1, "C", HEAD, holds(HEAD, 17, ""))
one_fault(17, 5, "C", HEAD, holds(HEAD, 17, "20230229"))
one_fault(18, 2, "C", HEAD, symbol("123A"))
one_fault(18, 8, "C", HEAD, symbol("0999"))
one_fault(18, 8, "C", HEAD, symbol("9999"), note="above")
one_fault(19, 1, "C", HEAD, first_serial(""))
one_fault(19, 2, "C", HEAD, first_serial("123 5600"))
one_fault(20, 1, "C", HEAD, holds(HEAD, 20, ""))
one_fault(20, 2, "C", HEAD, holds(HEAD, 20, "022A"))
one_fault(20, 5, "C", HEAD, holds(HEAD, 20, "1324"))

# detail
one_fault(23, 1, LETTERS, DETAIL, lambda letter: named(""))
one_fault(23, 6, LETTERS, 7, lambda letter: named(IDENT, (7, 8, 9, 10)), shape=(2, 1, 1, 1))
one_fault(23, 7, "C", DETAIL, lambda letter: named(IDENT[:-1] + "9"))
one_fault(24, 1, LETTERS, DETAIL, lambda letter: paid("", 0, letter))
one_fault(24, 2, LETTERS, DETAIL, lambda letter: paid("1 00", 0, letter))
one_fault(24, 8, VOUCHERS, DETAIL, lambda letter: paid(amount(0), 0, letter))
one_fault(24, 8, "C", DETAIL, lambda letter: paid(amount(10**10), 10**10, letter))
one_fault(24, 8, "C", DETAIL, holds(DETAIL, 25, "1"), note="voided, but not zero")
one_fault(25, 1, "C", DETAIL, holds(DETAIL, 25, ""))
one_fault(25, 3, "C", DETAIL, holds(DETAIL, 25, "2"))
one_fault(26, 1, LETTERS, DETAIL, holds(DETAIL, 26, ""))
one_fault(28, 1, LETTERS, DETAIL, holds(DETAIL, 28, ""))
one_fault(28, 4, LETTERS, DETAIL, holds(DETAIL, 28, "vendor"))
one_fault(29, 1, "C", DETAIL, holds(DETAIL, 29, ""))
one_fault(29, 4, "C", DETAIL, holds(DETAIL, 29, "00001235"))
one_fault(35, 4, LETTERS, DETAIL, holds(DETAIL, 35, "US"))
one_fault(36, 2, LETTERS, DETAIL, holds(DETAIL, 36, "90 10"))
one_fault(38, 4, LETTERS, DETAIL, holds(DETAIL, 38, "NY"))
one_fault(44, 1, "W", DETAIL, holds(DETAIL, 44, ""))
one_fault(44, 3, "W", DETAIL, holds(DETAIL, 44, "CTX"))
one_fault(48, 3, "N", DETAIL, holds(DETAIL, 48, "23"))
one_fault(51, 3, "I", DETAIL, holds(DETAIL, 51, "Western"))
one_fault(52, 4, LETTERS, DETAIL, holds(DETAIL, 52, "US"))
one_fault(54, 1, "A", DETAIL, holds(DETAIL, 54, ""))
one_fault(55, 1, "A", DETAIL, holds(DETAIL, 55, ""))
one_fault(56, 1, "A", DETAIL, holds(DETAIL, 56, ""))
one_fault(56, 5, "A", DETAIL, holds(DETAIL, 56, "2024/02/29"))
one_fault(58, 1, "C", DETAIL, serial(""))
one_fault(58, 2, "C", DETAIL, serial("1234560A"))
one_fault(58, 7, "C", DETAIL, serial("12345601"))
one_fault(59, 1, "C", DETAIL, holds(DETAIL, 59, ""))
one_fault(59, 5, "C", DETAIL, holds(DETAIL, 59, "00000101"))
# W4: today, 2024-02-29, is lent: the last day of the sound records' month, on which they are created and issued
one_fault(17, 15, "C", HEAD, holds(HEAD, 17, "20240301"), word=LENT)
one_fault(59, 15, "C", DETAIL, holds(DETAIL, 59, "20240131"), word=LENT)
for month, issued in [("0424", "20240401"), ("0823", "20230831")]:  # such a month has no day that is neither too old nor too far ahead
    add("20/15 C " + month, "C", [put(HEAD, 20, month), put(DETAIL, 59, issued)], word=LENT, expect=(15, HEAD, 20))
covered.add((20, 15, "C"))
one_fault(62, 1, "N", DETAIL, holds(DETAIL, 62, ""))
one_fault(62, 3, "N", DETAIL, holds(DETAIL, 62, "CTR"))

# the other records; DT 6 and DP 7 are the second ones of their payment
TWO_DT, TWO_DP = (1, 1, 2, 1), (1, 1, 1, 2)
one_fault(66, 1, "NCWI", DX, holds(DX, 66, ""))
for field in (80, 84, 85, 86):
    one_fault(field, 1, LETTERS, DT, of_reporter(DT, field, ""))
one_fault(86, 4, LETTERS, DT, holds(DT, 86, "COL"))
one_fault(87, 1, LETTERS, 6, holds(6, 87, ""), shape=TWO_DT)
one_fault(87, 2, LETTERS, 6, holds(6, 87, "0 0"), shape=TWO_DT)
one_fault(96, 1, LETTERS, 7, holds(7, 96, ""), shape=TWO_DP)
one_fault(96, 2, LETTERS, 7, holds(7, 96, "0" * 19 + "-"), shape=TWO_DP)
one_fault(87, 9, LETTERS, DETAIL, holds(DT, 87, amount(99)))
one_fault(96, 10, LETTERS, DETAIL, holds(DP, 96, amount(101)))
one_fault(76, 11, LETTERS, DETAIL, lambda letter: [reporter(letter)], shape=(1, 1, 0, 1))
one_fault(76, 12, LETTERS, HEAD, lambda letter: [], shape=(11, 1, 91, 0))
one_fault(99, 1, LETTERS, BT, holds(BT, 99, ""))
one_fault(99, 2, LETTERS, BT, holds(BT, 99, "0 1"))
one_fault(99, 13, LETTERS, BT, holds(BT, 99, "00000002"))
one_fault(100, 1, LETTERS, BT, holds(BT, 100, ""))
one_fault(100, 2, LETTERS, BT, holds(BT, 100, "1 00"))
one_fault(100, 14, LETTERS, BT, holds(BT, 100, amount(101)))
one_fault(9, 14, VOUCHERS, HEAD, holds(HEAD, 9, amount(101)))

# values that pass, and others that just do not
for prefix in ["00", "12", "21", "32", "61", "72", "80"]:
    add("42 prefix " + prefix, "W", [put(DETAIL, 42, prefix + "0000000")])
for prefix in ["13", "20", "33", "60", "73", "79", "81", "99"]:
    add("42 prefix " + prefix, "W", [put(DETAIL, 42, prefix + "0000000")], expect=(3, DETAIL, 42))
for field, letter, values in [
        (10, "N", ["5515", "215"]), (44, "W", "CTR BTR CTP CKS DEP DRW DRC".split()), (48, "N", ["22", "32", "42", "52", "00", ""]),
        (51, "I", ["Electronic", "Check", "Western Union", ""]), (62, "N", ["CCD", "PPD", "IAT", "CTX"]), (35, "A", ["NY", ""]),
        (36, "I", ["00000", "", "00001"]), (38, "C", ["CA", ""]), (52, "W", ["CAD", ""]), (28, "A", ["Benefit", "Grant"])]:
    for value in values:
        rec = HEAD if field == 10 else DETAIL
        add("%d holds %s" % (field, value or "blanks"), letter, [put(rec, field, value)])
for day in ["2024-02-29", "2000-02-29", "0001-01-01", "9999-12-31"]:
    add("8 holds " + day, "I", [put(HEAD, 8, day)])
    add("17 holds " + day.replace("-", ""), "C", [put(HEAD, 17, day.replace("-", ""))])
for day in ["1900-02-29", "0000-01-01", "2024-13-01", "2024-04-31", "20240229--", "2024-02-2A", "24-02-29"]:
    add("8 holds " + day, "I", [put(HEAD, 8, day)], expect=(5, HEAD, 8))
add("12 holds zeros", "W", [put(HEAD, 12, "000000000")])
add("12, a non-digit behind a wrong prefix: 2", "W", [put(HEAD, 12, "13000000A")], expect=(2, HEAD, 12))
add("18 holds 1000", "C", symbol("1000")("C"))
add("18 holds 9998", "C", symbol("9998")("C"))
add("20 holds 1200", "C", [put(HEAD, 20, "1200")])
add("20 holds 0000", "C", [put(HEAD, 20, "0000")], expect=(5, HEAD, 20))
add("20 holds 13A0: 2", "C", [put(HEAD, 20, "13A0")], expect=(2, HEAD, 20))
add("16 holds a letter: 3", "C", [put(HEAD, 16, "A")], expect=(3, HEAD, 16))
add("24, the most a check may be", "C", paid(amount(9999999999), 9999999999, "C"))
add("24, a wire above a check's limit", "W", paid(amount(10**10), 10**10, "W"))
add("24, a voided check of zero", "C", paid(amount(0), 0, "C") + [put(DETAIL, 25, "1")])
add("24, a check of zero", "C", paid(amount(0), 0, "C"))
add("48 holds 2 and a blank: 3", "N", [put(DETAIL, 48, "2")], expect=(3, DETAIL, 48))
add("58, the second check is the next", "C", shape=(2, 1, 1, 1))
add("58, past eight digits nothing is next", "C",
    [put(HEAD, 19, "99999999"), put(HEAD, 6, SYMBOL + "99999999"), put(3, 58, "99999999"), put(6, 58, "00000000")]
    + named(SYMBOL + "99999999", (3, 4, 5)) + named(SYMBOL + "00000000", (6, 7, 8)), shape=(2, 1, 1, 0), expect=(7, 6, 58))
add("66 blank under DA", "A", [put(DX, 66, "")])
add("66 blank in the second DX", "N", [put(5, 66, "")], shape=(1, 2, 0, 0), expect=(1, 5, 66))
add("80, 84, 85, 86 blank, no CARS Reporter", "N", [put(DT, f, "") for f in (80, 84, 85, 86)])
add("fields of other kinds are not looked at", "N",
    [put(HEAD, f, "x") for f in (12, 15, 16, 17, 18, 19, 20)] + [put(DETAIL, f, "x") for f in (25, 29, 42, 44, 51, 54, 55, 56, 58, 59)])
add("fields of other kinds, in a check batch", "C",
    [put(HEAD, f, "x") for f in (7, 8, 9, 10, 12, 13, 14)] + [put(DETAIL, f, "x") for f in (42, 43, 44, 48, 51, 54, 55, 56, 62)])
for byte in (0x3F, 0x41, 0xEF, 0xFA, 0xFF):
    add("99 ends in hex %02X" % byte, "W", [(BT, 10, 10, bytes([byte]))], expect=(2, BT, 99))
add("26 holds hex 41, which is no blank", "N", [(DETAIL, 44, 90, b"\x41")])
add("7 ends in a blank", "A", [put(HEAD, 7, "00012")])
add("7 holds no digits", "A", [put(HEAD, 7, "SUM-A1")])

# W3: values that are not where they belong
MOVED = [  # letters, a record, a field, what it holds, and which reason that is
    (LETTERS, HEAD, 6, " " + IDENT, 0), (VOUCHERS, HEAD, 6, " " * 13 + "A", 0), (VOUCHERS, HEAD, 7, "123", 0), (VOUCHERS, HEAD, 7, "   123", 0),
    (VOUCHERS, HEAD, 7, " 123", 0), (VOUCHERS, HEAD, 7, " 1 3", 2), (VOUCHERS, HEAD, 7, "A   B", 2), (VOUCHERS, HEAD, 9, "100", 0),
    (VOUCHERS, HEAD, 9, " 100", 0), (VOUCHERS, HEAD, 9, "100".rjust(20), 0), (VOUCHERS, HEAD, 9, " 1 00", 2), (VOUCHERS, HEAD, 9, " 10", 14),
    (VOUCHERS, HEAD, 10, " 215", 0), (VOUCHERS, HEAD, 10, " 551", 3), (VOUCHERS, HEAD, 8, " 024-02-29", 5), (VOUCHERS, HEAD, 14, " 0000567", 4),
    ("W", HEAD, 12, "21030004", 0), ("W", HEAD, 12, " 1030004", 0), ("W", HEAD, 12, "3000", 0), ("W", HEAD, 12, " 130 0000", 2),
    ("N", HEAD, 13, "61000146", 0), ("N", HEAD, 13, " 61000146", 0), ("N", HEAD, 13, " A", 2), ("C", HEAD, 15, "123", 0), ("C", HEAD, 15, "  3", 0),
    ("C", HEAD, 15, " 1 3", 2), ("C", HEAD, 17, " 0240229", 5), ("C", HEAD, 20, "224", 0), ("C", HEAD, 20, " 224", 0), ("C", HEAD, 20, " 24", 5),
    ("C", HEAD, 20, "12 4", 2), (LETTERS, DETAIL, 24, "100", 0), (LETTERS, DETAIL, 24, " 100", 0), (LETTERS, DETAIL, 24, "100".rjust(20), 0),
    (LETTERS, DETAIL, 26, "A".rjust(47), 0), (LETTERS, DETAIL, 28, " Vendor", 0), (LETTERS, DETAIL, 28, "Vendor".rjust(25), 0),
    (LETTERS, DETAIL, 28, " Ven dor", 4), ("C", DETAIL, 29, " 0000567", 4), (LETTERS, DETAIL, 35, " C", 4), (LETTERS, DETAIL, 36, "9021", 0),
    (LETTERS, DETAIL, 36, " 902", 0), (LETTERS, DETAIL, 36, " 0", 0), (LETTERS, DETAIL, 36, " 0 0", 2), (LETTERS, DETAIL, 38, " U", 4),
    ("W", DETAIL, 42, " 1000013", 0), ("W", DETAIL, 42, "1300001 3", 2), ("N", DETAIL, 43, "71000013", 0), ("N", DETAIL, 43, " 1 ", 0),
    ("W", DETAIL, 44, " CT", 3), ("N", DETAIL, 48, " 0", 3), ("N", DETAIL, 48, " 2", 3), ("I", DETAIL, 51, " Check", 0),
    ("I", DETAIL, 51, "Western Union".rjust(20), 0), ("I", DETAIL, 51, " Western  Union", 3), (LETTERS, DETAIL, 52, " US", 4),
    ("A", DETAIL, 54, "A".rjust(14), 0), ("A", DETAIL, 55, "A".rjust(20), 0), ("A", DETAIL, 56, " 024-02-29", 5), ("C", DETAIL, 59, " 0240229", 5),
    ("N", DETAIL, 62, " CC", 3), (LETTERS, DX, 65, "  " + IDENT, 0), (LETTERS, DX, 66, "A".rjust(150), 0), (LETTERS, DT, 77, IDENT.rjust(20), 0),
    (LETTERS, DT, 86, " DISB", 0), (LETTERS, DT, 86, "DISB".rjust(8), 0), (LETTERS, DT, 86, " DIS", 4), (LETTERS, DT, 87, "100", 0),
    (LETTERS, DT, 87, " 100", 0), (LETTERS, DT, 87, " 1 00", 2), (LETTERS, DP, 91, " " + IDENT, 0), (LETTERS, DP, 96, "100", 0),
    (LETTERS, DP, 96, "100".rjust(20), 0), (LETTERS, DP, 96, " 10 0", 2), (LETTERS, BT, 99, "1", 0), (LETTERS, BT, 99, " 1", 0),
    (LETTERS, BT, 99, " 0 1", 2), (LETTERS, BT, 99, "  2", 13), (LETTERS, BT, 100, "100", 0), (LETTERS, BT, 100, "100".rjust(20), 0),
    (LETTERS, BT, 100, " 100 0", 2), (LETTERS, BT, 100, " 101", 14),
]
for letters, rec, field, value, reason in MOVED:
    for letter in letters:
        before = len(value) - len(value.lstrip())
        label = "%d holds %s behind %d blanks, %s" % (field, value.strip(), before, letter)
        add(label, letter, [put(rec, field, value)], expect=(reason, rec, field) if reason else "sound")
add("18 is blank: 6 does not match", "C", symbol("")("C"), expect=(7, HEAD, 6))
for value, reason in [(" 999", 8), ("999 ", 8), (" 99 ", 8)]:
    add("18 holds '%s', 6 and 23 with zeros" % value, "C", [put(HEAD, 18, value), *symbol(value.strip().zfill(4))("C")[1:]], expect=(reason, HEAD, 18))
    add("18 holds '%s', 6 without zeros" % value, "C", symbol(value)("C"), expect=(7, HEAD, 6))
for value in ["3456", "  3456", "3456".rjust(8)]:
    padded = value.strip().zfill(8)
    sound = [put(HEAD, 19, value), put(HEAD, 6, SYMBOL + padded), put(DETAIL, 58, padded), *named(SYMBOL + padded)]
    add("19 holds '%s'" % value, "C", sound)
    add("19 and 58 hold '%s'" % value, "C", [*sound, put(DETAIL, 58, value)])
    add("19 holds '%s', 6 without zeros" % value, "C", [*sound, put(HEAD, 6, SYMBOL + value.strip())], expect=(7, HEAD, 6))
    add("58 holds '%s', 23 without zeros" % value, "C", [*sound, put(DETAIL, 58, value), *named(SYMBOL + value.strip())], expect=(7, DETAIL, 23))
for letter in LETTERS:
    add("each ID at its own place, " + letter, letter, [put(rec, 23, " " * rec + IDENT) for rec in (DETAIL, DX, DT, DP)])
    add("IDs equal but for their place, " + letter, letter, [put(rec, 23, " " * (rec - 6) + IDENT) for rec in (7, 8, 9, 10)], shape=(2, 1, 1, 1), expect=(6, 7, 23))
    add("a blank inside one ID, " + letter, letter, [put(DX, 65, IDENT[:4] + " " + IDENT[4:])], expect="no batch")
add("an ID behind hex 41, which is no blank", "N", [(DETAIL, 3, 3, b"\x41"), (DX, 3, 3, b"\x40")], expect="no batch")
add("7 begins with hex 41, which is no blank", "N", [(HEAD, 17, 22, b"\x41\xF1\x40\x40\x40\x40")])
add("9 behind hex 41, which is no blank: 2", "N", [(HEAD, 33, 33, b"\x41")], expect=(2, HEAD, 9))
add("1,001 kinds, two equal but for their place", "W", [put(5, 81, "X"), put(6, 81, "  X")], shape=(11, 1, 91, 0))
add("1,001 kinds, two of equal digits", "W", [put(5, 81, "1"), put(6, 81, "0001")], shape=(11, 1, 91, 0), expect=(12, HEAD, 76))

# 01 Sums
CREDIT = "COLL"
add("sum: debit 130 and credit 30", "N", [put(5, 87, amount(130)), put(6, 87, amount(30)), put(6, 86, CREDIT)], shape=(1, 1, 2, 0))
add("sum: a single credit of 100", "N", [put(DT, 86, CREDIT)], shape=(1, 1, 1, 0))
add("sum: two credits of 50", "N", [put(n, f, v) for n in (5, 6) for f, v in ((86, CREDIT), (87, amount(50)))], shape=(1, 1, 2, 0), expect=(9, DETAIL, 87))
add("sum: two debits of 50", "N", [put(n, 87, amount(50)) for n in (5, 6)], shape=(1, 1, 2, 0))
add("sum: a blank BETC counts positive", "N", [put(5, 87, amount(130)), put(5, 86, ""), put(6, 87, amount(30)), put(6, 86, CREDIT)], shape=(1, 1, 2, 0))
add("sum: credits above debits", "N", [put(5, 87, amount(0)), put(6, 87, amount(100)), put(6, 86, CREDIT)], shape=(1, 1, 2, 0), expect=(9, DETAIL, 87))
add("sum: a credit before its debit", "W", [put(5, 86, CREDIT), put(5, 87, amount(30)), put(6, 87, amount(130))], shape=(1, 1, 2, 0))
add("sum: a lone DT of 99", "A", [put(DT, 87, amount(99))], shape=(1, 1, 1, 0), expect=(9, DETAIL, 87))
add("sum: no DT", "A", shape=(1, 1, 0, 0))
add("sum: debits past twenty digits", "W",
    [put(5, 87, "9" * 20), put(6, 87, amount(101)), put(7, 87, "9" * 20), put(7, 86, CREDIT), put(8, 87, amount(1)), put(8, 86, CREDIT)], shape=(1, 1, 4, 0))
add("sum: DP past twenty digits", "W", [put(5, 96, "9" * 20), put(6, 96, amount(101))], shape=(1, 1, 0, 2), expect=(10, DETAIL, 96))
for letter in LETTERS:
    add("88 is 1 on a debit, " + letter, letter, [put(DT, 88, "1")])
    add("a lone blank DP, " + letter, letter, [put(5, 96, "")], shape=(1, 1, 0, 1))
    add("two DP, the first blank, " + letter, letter, [put(5, 96, ""), put(6, 96, amount(100))], shape=(1, 1, 0, 2), expect=(1, 5, 96))
add("88 is 1 on both of two debits", "I", [put(n, f, v) for n in (5, 6) for f, v in ((88, "1"), (87, amount(50)))], shape=(1, 1, 2, 0))
add("two DP, both blank", "N", [put(5, 96, ""), put(6, 96, "")], shape=(1, 1, 0, 2), expect=(1, 5, 96))
add("two DP of 40 and 60", "N", [put(5, 96, amount(40)), put(6, 96, amount(60))], shape=(1, 1, 0, 2))
add("three DP, the second blank", "N", [put(6, 96, "")], shape=(1, 1, 0, 3), expect=(1, 6, 96))
add("a lone DP of no digits: 2, before 10", "N", [put(DP, 96, "x")], expect=(2, DP, 96))
add("a lone DP of no cents: 10", "N", [put(DP, 96, amount(0))], expect=(10, DETAIL, 96))
add("lone blank DP in each of two payments", "I", [put(5, 96, ""), put(8, 96, "")], shape=(2, 1, 0, 1))
add("a location that the book lacks is no reporter", "C", [put(DETAIL, 29, "99999999")], shape=(1, 1, 0, 0), expect=(4, DETAIL, 29))
add("a reporter by field 14 is none in a check batch", "C", [put(HEAD, 14, "00001234")], shape=(1, 1, 0, 0))
add("a reporter by field 29 is none elsewhere", "W", [put(DETAIL, 29, "00001234")], shape=(1, 1, 0, 0))
add("one check of a reporter, one of another", "C", [put(7, 29, "00001234"), put(9, 80, "")], shape=(2, 1, 1, 1), expect=(1, 9, 80))
add("1,000 kinds of DT", "W", shape=(10, 1, 100, 0))
add("1,000 kinds of DT in a check batch", "C", shape=(10, 1, 100, 0))
add("100 DT and 100 DP", "A", shape=(1, 1, 100, 100))

# 01 Report: counts and totals, whatever the faults
add("a rejected batch keeps its total and counts", "N", [put(HEAD, 7, "")], shape=(3, 1, 1, 1), expect=(1, HEAD, 7))
add("rejected at its last payment", "W", [put(11, 26, "")], shape=(3, 1, 1, 1), expect=(1, 11, 26))
add("no digits: zero in the total", "I", [put(3, 24, "1 0")], shape=(3, 1, 0, 0), expect=(2, 3, 24))
add("no digits in the second payment of three", "I", [put(5, 24, "x")], shape=(3, 1, 0, 0), expect=(2, 5, 24))
add("blank: zero in the total", "N", [put(3, 24, "")], shape=(2, 1, 0, 0), expect=(1, 3, 24))
add("twenty nines", "W", paid("9" * 20, 10**20 - 1, "W"))
add("two of twenty nines: no field holds the sum", "W", [put(n, 24, "9" * 20) for n in (3, 5)], shape=(2, 1, 0, 0), expect=(14, 7, 100))
add("twenty nines and 1", "A", [put(3, 24, "9" * 20), put(5, 24, amount(1))], shape=(2, 1, 0, 0), expect=(14, 7, 100))
add("ten times twenty nines", "N", [put(n, 24, "9" * 20) for n in range(3, 23, 2)], shape=(10, 1, 0, 0), expect=(14, 23, 100))
add("two of 2^63: their sum passes 64 bits", "I",
    [put(n, 24, amount(2**63)) for n in (3, 5)] + [put(7, 100, amount(2**64)), put(HEAD, 9, amount(2**64))], shape=(2, 1, 0, 0))
add("the same, and a trailer that wraps", "I",
    [put(n, 24, amount(2**63)) for n in (3, 5)] + [put(7, 100, amount(0)), put(HEAD, 9, amount(2**64))], shape=(2, 1, 0, 0), expect=(14, 7, 100))

# 6 and 23: the later one is at fault
add("the repeat is at the later detail", "N", named(IDENT, (7, 8)), shape=(3, 1, 0, 0), expect=(6, 7, 23))
add("the third repeats the second", "W", named(IDENT[:-2] + "01", (7, 8)), shape=(3, 1, 0, 0), expect=(6, 7, 23))
add("second and third repeat the first", "A", named(IDENT, (5, 6, 7, 8)), shape=(3, 1, 0, 0), expect=(6, 5, 23))
add("IDs that fall", "I", named("Z", (3, 4)) + named("Y", (5, 6)) + named("X", (7, 8)), shape=(3, 1, 0, 0))
add("IDs that fall, and the first again", "I", named("Z", (3, 4)) + named("Y", (5, 6)) + named("Z", (7, 8)), shape=(3, 1, 0, 0), expect=(6, 7, 23))
add("two blank IDs: 1 at the first", "N", named("", (3, 4, 5, 6)), shape=(2, 1, 0, 0), expect=(1, 3, 23))
add("a repeat that does not match its serial: 6", "C", named(IDENT, (5, 6)), shape=(2, 1, 0, 0), expect=(6, 5, 23))
add("a schedule number that repeats and differs: 6", "C", [put(HEAD, 6, "X")], word=REPEATS, expect=(6, HEAD, 6))
add("a blank schedule number that repeats: 1", "N", [put(HEAD, 6, "")], word=REPEATS, expect=(1, HEAD, 6))

# two faults: the first in document 01's order
add("header before detail", "N", [put(DETAIL, 26, ""), put(HEAD, 14, "")], expect=(1, HEAD, 14))
add("header's fields ascend", "N", [put(HEAD, 14, ""), put(HEAD, 8, "")], expect=(1, HEAD, 8))
add("a check header's fields ascend", "C", [put(HEAD, 20, ""), put(HEAD, 16, "")], expect=(1, HEAD, 16))
add("6 before 18", "C", [put(HEAD, 18, "0999")], expect=(7, HEAD, 6))
add("detail's fields ascend: 26 before 62", "N", [put(DETAIL, 62, ""), put(DETAIL, 26, "")], expect=(1, DETAIL, 26))
add("detail's fields ascend: 43 before 48", "N", [put(DETAIL, 48, "99"), put(DETAIL, 43, "")], expect=(1, DETAIL, 43))
add("detail's fields ascend: 38 before 42", "W", [put(DETAIL, 42, ""), put(DETAIL, 38, "XX")], expect=(4, DETAIL, 38))
add("detail's fields ascend: 52 before 58", "C", [put(DETAIL, 58, "")] + named(SYMBOL) + [put(DETAIL, 52, "X")], expect=(4, DETAIL, 52))
add("24 before 25", "C", paid("", 0, "C") + [put(DETAIL, 25, "")], expect=(1, DETAIL, 24))
add("detail before DX", "N", [put(DX, 66, ""), put(DETAIL, 62, "")], expect=(1, DETAIL, 62))
add("DX before DT", "N", [put(DT, 87, ""), put(DX, 66, "")], expect=(1, DX, 66))
add("DT before DP", "N", [put(DP, 96, "x"), put(DT, 87, "x")], expect=(2, DT, 87))
add("DP before 9", "N", [put(DT, 87, amount(99)), put(DP, 96, "x")], expect=(2, DP, 96))
add("the first of two blank DP before 9", "N", [put(5, 87, amount(99)), put(6, 96, "")], shape=TWO_DP, expect=(1, 6, 96))
add("9 before 10", "N", [put(DP, 96, amount(99)), put(DT, 87, amount(99))], expect=(9, DETAIL, 87))
add("10 before 11", "N", [reporter("N"), put(5, 96, amount(99))], shape=(1, 1, 0, 1), expect=(10, DETAIL, 96))
add("10 before 11, in a check batch", "C", [reporter("C"), put(5, 96, amount(99))], shape=(1, 1, 0, 1), expect=(10, DETAIL, 96))
add("9 of a payment before the next detail", "I", [put(7, 26, ""), put(5, 87, amount(99))], shape=(2, 1, 1, 1), expect=(9, 3, 87))
add("11 of a payment before the next detail", "I", [reporter("I"), put(5, 26, "")], shape=(2, 1, 0, 0), expect=(11, 3, 76))
add("the last payment's 9 before BT", "A", [put(BT, 99, ""), put(DT, 87, amount(99))], expect=(9, DETAIL, 87))
add("9 before 12", "W", [put(5, 87, amount(99))], shape=(11, 1, 91, 0), expect=(9, 3, 87))
add("12 before BT and field 9", "W", [put(1026, 99, ""), put(HEAD, 9, amount(1))], shape=(11, 1, 91, 0), expect=(12, HEAD, 76))
add("99 before 100", "N", [put(BT, 100, ""), put(BT, 99, "00000002")], expect=(13, BT, 99))
add("BT before field 9's sum", "N", [put(HEAD, 9, amount(101)), put(BT, 100, amount(101))], expect=(14, BT, 100))
add("BT's count before field 9's sum", "W", [put(HEAD, 9, amount(101)), put(BT, 99, "00000009")], expect=(13, BT, 99))
add("field 9 of no digits before the detail", "A", [put(HEAD, 9, "x"), put(DETAIL, 24, "")], expect=(2, HEAD, 9))
rng = random.Random(850)
for letter in LETTERS:
    for _ in range(24):
        (one, changes), (other, more) = rng.sample(single[letter], 2)
        add("both %s and %s, %s" % (one, other, letter), letter, changes + more, expect=None)

# files without a batch, or with two (01 Nesting)
add("no payment", "N", shape=(0, 1, 1, 1), expect="no batch")
add("no DX", "W", shape=(1, 0, 1, 1), expect="no batch")
add("101 DT", "I", shape=(1, 1, 101, 0), expect="no batch")
add("101 DP", "A", shape=(1, 1, 0, 101), expect="no batch")
add("BT in place of DX", "C", [(DX, 1, 2, ebcdic("BT"))], expect="no batch")
add("another letter's detail", "N", [(DETAIL, 1, 2, ebcdic("DW"))], expect="no batch")
add("another payment's DT", "N", [put(DT, 77, "X")], expect="no batch")
add("two batches", "N", [(n, 1, 2, ebcdic(code)) for n, code in ((6, "BT"), (7, "BN"), (8, "DN"), (9, "DX"))], shape=(2, 1, 1, 1), expect="no batch")

# Every pair that document 01 has, by field: the letters of each reason. Only 18/1 is never the first: behind a blank 18 no number that
# is moved left matches (02 W3), so that 6 is at fault before it.
PAIRS = {
    6: {1: LETTERS, 6: LETTERS, 7: "C"}, 7: {1: VOUCHERS, 2: VOUCHERS}, 8: {1: VOUCHERS, 5: VOUCHERS}, 9: {1: VOUCHERS, 2: VOUCHERS, 14: VOUCHERS},
    10: {1: VOUCHERS, 3: VOUCHERS}, 12: {1: "W", 2: "W", 3: "W"}, 13: {1: "N", 2: "N", 3: "N"}, 14: {1: VOUCHERS, 4: VOUCHERS},
    15: {1: "C", 2: "C"}, 16: {1: "C", 3: "C"}, 17: {1: "C", 5: "C", 15: "C"}, 18: {2: "C", 8: "C"}, 19: {1: "C", 2: "C"}, 20: {1: "C", 2: "C", 5: "C", 15: "C"},
    23: {1: LETTERS, 6: LETTERS, 7: "C"}, 24: {1: LETTERS, 2: LETTERS, 8: LETTERS}, 25: {1: "C", 3: "C"}, 26: {1: LETTERS}, 28: {1: LETTERS, 4: LETTERS},
    29: {1: "C", 4: "C"}, 35: {4: LETTERS}, 36: {2: LETTERS}, 38: {4: LETTERS}, 42: {1: "W", 2: "W", 3: "W"}, 43: {1: "N", 2: "N", 3: "N"},
    44: {1: "W", 3: "W"}, 48: {3: "N"}, 51: {3: "I"}, 52: {4: LETTERS}, 54: {1: "A"}, 55: {1: "A"}, 56: {1: "A", 5: "A"}, 58: {1: "C", 2: "C", 7: "C"},
    59: {1: "C", 5: "C", 15: "C"}, 62: {1: "N", 3: "N"}, 66: {1: "NCWI"}, 76: {11: LETTERS, 12: LETTERS}, 80: {1: LETTERS}, 84: {1: LETTERS}, 85: {1: LETTERS},
    86: {1: LETTERS, 4: LETTERS}, 87: {1: LETTERS, 2: LETTERS, 9: LETTERS}, 96: {1: LETTERS, 2: LETTERS, 10: LETTERS},
    99: {1: LETTERS, 2: LETTERS, 13: LETTERS}, 100: {1: LETTERS, 2: LETTERS, 14: LETTERS},
}
assert covered == {(field, reason, letter) for field, reasons in PAIRS.items() for reason, letters in reasons.items() for letter in letters}

write_cases(here, BOOK, ENDS + [r for letter in LETTERS for r in TEMPLATES[letter]], table, LABEL, says)

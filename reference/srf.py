"""A judge of SRF files in plain Python, written from documents 01, 02 and 004: what the programs are expected to print.

It goes over whole lists of records and keeps no state from one to the next. Sound records to make files of stand at its end, and what writes the cases of a program.
"""
import datetime
import re

LETTERS = "NCWIA"
VOUCHERS = "NWIA"  # the batches that have a voucher (004 fields 7 to 14)

# 004 chapter 2: start and end position of each field that a rule names, by the records that have it
PLACES = {
    2: (3, 42), 3: (43, 45),
    6: (3, 16), 7: (17, 22), 8: (23, 32), 9: (33, 52), 10: (53, 56), 12: (60, 68), 13: (69, 77), 14: (78, 85), 15: (86, 89),
    16: (90, 90), 17: (91, 98), 18: (99, 102), 19: (103, 110), 20: (111, 114),
    23: (3, 22), 24: (23, 42), 25: (43, 43), 26: (44, 90), 28: (107, 131), 29: (132, 139), 35: (350, 351), 36: (352, 356),
    38: (361, 362), 42: (426, 434), 43: (435, 443), 44: (444, 446), 48: (506, 507), 51: (526, 545), 52: (546, 548),
    54: (560, 573), 55: (574, 593), 56: (594, 603), 58: (654, 661), 59: (662, 669), 62: (674, 676),
    65: (3, 22), 66: (23, 172), 77: (3, 22), 78: (23, 24), 79: (25, 27), 80: (28, 30), 81: (31, 34), 82: (35, 38), 83: (39, 39),
    84: (40, 43), 85: (44, 46), 86: (47, 54), 87: (55, 74), 88: (75, 75),
    91: (3, 22), 96: (131, 150), 99: (3, 10), 100: (11, 30), 103: (3, 20), 104: (21, 38), 105: (39, 58),
}

# 004 fields 4, 11, 21, 63, 75, 89, 97, 101, 106: start and end position by the record's code
FILLERS = {"FH": [(46, 850)], "DX": [(351, 850)], "DT": [(76, 850)], "DP": [(151, 850)], "BT": [(31, 850)], "FT": [(59, 850)]}
FILLERS.update({"B" + letter: [(57, 59), (115, 850)] for letter in LETTERS})
FILLERS.update({"D" + letter: [(677, 850)] for letter in LETTERS})


def ebcdic(text):
    return text.encode("cp037")


# ---- justification (02 W3; 004 section 1.7)

NUMBERS = {9, 12, 13, 15, 18, 19, 20, 24, 36, 42, 43, 58, 87, 96, 99, 100, 103, 104, 105}  # of which document 01 asks digits
DATES = {8, 17, 56, 59}  # they stay as they are
SUMMARY = 7  # the field that is moved right


def blank(value):
    return not value.strip(" ")


def is_digits(value):
    return all(c in "0123456789" for c in value)


def moved_left(value):
    """Text: moved left and padded with blanks. Only byte 40 is a blank."""
    return value.lstrip(" ").ljust(len(value))


def zero_padded(value):
    """The blanks at both ends go; it is moved right and padded with zeros."""
    return value.strip(" ").rjust(len(value), "0")


def corrected(value, field):
    """What a field counts as: a number is one unbroken run of digits between blanks, of any other shape it is moved like text."""
    if blank(value) or field in DATES:
        return value
    if field == SUMMARY or field in NUMBERS and is_digits(value.strip(" ")):
        return zero_padded(value)
    return moved_left(value)


def held(rec, field):
    """The corrected value of a field: all that the rules read."""
    start, end = PLACES[field]
    return corrected(bytes(rec[start - 1:end]).decode("cp037"), field)


# ---- the code book (01 Code book)

KINDS = [(1, 40, False), (2, 8, True), (3, 8, True), (4, 25, False), (5, 2, False), (6, 2, False), (7, 3, False)]  # width; a flag


def parsed(book):
    """Of each kind, its codes with their flags; None where the book is unsound."""
    if len(book) > 16777216:
        return None
    lists = {}
    for kind, width, flagged in KINDS:
        length = int.from_bytes(book[:4], "little")
        if len(book) < 6 or len(book) < 4 + length or length < 2 or int.from_bytes(book[4:6], "little") != kind:
            return None
        body, book = book[6:4 + length], book[4 + length:]
        entry = width + flagged
        if len(body) % entry:
            return None
        entries = [body[i:i + entry] for i in range(0, len(body), entry)]
        codes = [moved_left(e[:width].decode("cp037")).encode("cp037") for e in entries]  # 02 W3: before their order is tested
        if any(a >= b for a, b in zip(codes, codes[1:])) or flagged and any(e[width] > 1 for e in entries):
            return None
        lists[kind] = {c.decode("cp037"): e[width] if flagged else None for c, e in zip(codes, entries)}
    return None if book else lists


# ---- nesting (01 Nesting)

def code_of(rec):
    return bytes(rec[:2]).decode("cp037")


def codes_of(records):
    return "".join(map(code_of, records))


def is_header(rec):
    return code_of(rec) in ["B" + letter for letter in LETTERS]


def is_detail(rec):
    return code_of(rec) in ["D" + letter for letter in LETTERS]


def ident(rec):
    """The Payment ID of a detail or of its other records (004 fields 23, 65, 77, 91), which nests after it is moved (02 W3)."""
    return held(rec, 23)


def parts(items, begins):
    """The items cut before each that begins a part; what stands before the first is left out."""
    starts = [i for i, item in enumerate(items) if begins(item)] + [len(items)]
    return [items[i:j] for i, j in zip(starts, starts[1:])]


def legal(records):
    codes = codes_of(records)
    if not re.fullmatch(r"FH(?:B([NCWIA])(?:D\1(?:DX)+(?:DT){0,100}(?:DP){0,100})+BT)+FT", codes, re.S):
        return False
    kinds = {code_of(r) for r in records if is_header(r)}
    if "BC" in kinds and len(kinds) > 1:
        return False
    payments = parts([r for r in records if code_of(r)[0] == "D"], is_detail)
    return all(len(set(map(ident, p))) == 1 for p in payments)


def bare(code, ident=""):
    return ebcdic(code + ident)


def begins_legal_file(records):
    """Whether some legal file begins so: one of the six ways to go on ends in one."""
    headers, details = [r for r in records if is_header(r)], [r for r in records if is_detail(r)]
    letter = code_of(headers[-1])[1] if headers else "N"
    last = ident(details[-1]) if details else ""
    ends = [bare("FH"), bare("B" + letter), bare("D" + letter, last), bare("DX", last), bare("BT"), bare("FT")]
    return any(legal(records + ends[k:]) for k in range(len(ends) + 1))


def nesting_fault(records):
    """The first record that begins no legal file, or last + 1; 0 where the file is legal."""
    if legal(records):
        return 0
    for n in range(1, len(records) + 1):
        if not begins_legal_file(records[:n]):
            return n
    return len(records) + 1


# ---- the judge of a batch (01 Batch reasons): what is wrong with a value is a reason, or 0

def cents(value):
    """An amount that is not 20 digits counts as zero in every sum."""
    return int(value) if is_digits(value) else 0


def first(*tests):
    return next((reason for fails, reason in tests if fails), 0)


def required(value):
    return first((blank(value), 1))


def number(value):
    return first((blank(value), 1), (not is_digits(value), 2))


def listed(value, values):
    return first((blank(value), 1), (value not in [v.ljust(len(value)) for v in values], 3))


def in_book(value, codes):
    return first((blank(value), 1), (value not in codes, 4))


def if_filled(value, reason):
    return 0 if blank(value) else reason


def is_day(year, month, day):
    try:
        datetime.date(int(year), int(month), int(day))
        return is_digits(year + month + day)
    except ValueError:
        return False


def dashed_date(v):
    return first((blank(v), 1), (v[4] + v[7] != "--" or not is_day(v[0:4], v[5:7], v[8:10]), 5))


def plain_date(v):
    return first((blank(v), 1), (not is_day(v[0:4], v[4:6], v[6:8]), 5))


# ---- today (02 W4)

def day_of(v):
    """The day of YYYYMMDD; None where it is none."""
    return datetime.date(int(v[0:4]), int(v[4:6]), int(v[6:8])) if len(v) == 8 and is_day(v[0:4], v[4:6], v[6:8]) else None


def month_of(v):
    """The first and the last day of MMYY, in the years 2000 to 2099; None where it is no month."""
    if not is_digits(v) or not 1 <= int(v[:2]) <= 12:
        return None
    year, month = 2000 + int(v[2:]), int(v[:2])
    after = datetime.date(year + month // 12, month % 12 + 1, 1)
    return datetime.date(year, month, 1), after - datetime.timedelta(days=1)


def ahead(day, today):
    """A difference of days, with its sign."""
    return (day - today).days


def timely(reason, today, kept):
    """15 is the last reason of its field; with nothing lent nothing is tested."""
    return reason or first((today is not None and not kept(), 15))


def is_current(month, today):
    start, end = month
    return ahead(start, today) <= 31 and -ahead(end, today) <= 180 and (start.year <= today.year or (start.month == 1 and today.month == 12))


def is_issued(day, month, today):
    return month is not None and month[0] <= day <= month[1] and -ahead(day, today) <= 180 and ahead(day, today) <= 30


def routing(v):
    prefixes = [*range(0, 13), *range(21, 33), *range(61, 73), 80]
    return number(v) or first((int(v[:2]) not in prefixes, 3))


def header_faults(h, letter, book, repeats, today):
    v = lambda field: held(h, field)
    own = v(18) + v(19) + "  "  # put side by side, and not moved again
    yield 6, first((blank(v(6)), 1), (repeats, 6), (letter == "C" and v(6) != own, 7))
    if letter in VOUCHERS:
        yield 7, first((blank(v(7)), 1), (" " in v(7), 2))  # a blank inside: those at its ends are gone
        yield 8, dashed_date(v(8))
        yield 9, number(v(9))
        yield 10, listed(v(10), ["5515", "215"])
        if letter == "W":
            yield 12, routing(v(12))
        if letter == "N":
            yield 13, routing(v(13))
        yield 14, in_book(v(14), book[2])
    else:
        yield 15, number(v(15))
        yield 16, listed(v(16), ["0"])
        yield 17, timely(plain_date(v(17)), today, lambda: ahead(day_of(v(17)), today) <= 0)
        yield 18, number(v(18)) or first((not 1000 <= int(v(18)) <= 9998, 8))
        yield 19, number(v(19))
        yield 20, timely(number(v(20)) or first((not 1 <= int(v(20)[:2]) <= 12, 5)), today, lambda: is_current(month_of(v(20)), today))


def detail_faults(d, letter, book, h, earlier, today):
    """`earlier` are the details of the earlier payments."""
    v = lambda field: held(d, field)
    check = letter == "C"
    own = held(h, 18) + v(58) + " " * 8  # put side by side, and not moved again
    yield 23, first((blank(v(23)), 1), (v(23) in [held(e, 23) for e in earlier], 6), (check and v(23) != own, 7))
    if check:
        yield 24, number(v(24)) or first((int(v(24)) > 9999999999, 8), (v(25) == "1" and int(v(24)) != 0, 8))
        yield 25, listed(v(25), ["0", "1"])
    else:
        yield 24, number(v(24)) or first((int(v(24)) == 0, 8))
    yield 26, required(v(26))
    yield 28, in_book(v(28), book[4])
    if check:
        yield 29, in_book(v(29), book[2])
    yield 35, if_filled(v(35), in_book(v(35), book[5]))
    yield 36, 0 if v(36) == "00000" else if_filled(v(36), number(v(36)))
    yield 38, if_filled(v(38), in_book(v(38), book[6]))
    if letter == "W":
        yield 42, routing(v(42))
    if letter == "N":
        yield 43, routing(v(43))
    if letter == "W":
        yield 44, listed(v(44), "CTR BTR CTP CKS DEP DRW DRC".split())
    if letter == "N":
        yield 48, 0 if v(48) == "00" else if_filled(v(48), listed(v(48), "22 32 42 52".split()))
    if letter == "I":
        yield 51, if_filled(v(51), listed(v(51), ["Electronic", "Check", "Western Union"]))
    yield 52, if_filled(v(52), in_book(v(52), book[7]))
    if letter == "A":
        yield 54, required(v(54))
        yield 55, required(v(55))
        yield 56, dashed_date(v(56))
    if check:
        start = held(h, 19)
        yield 58, number(v(58)) or first((is_digits(start) and int(v(58)) != int(start) + len(earlier), 7))
        yield 59, timely(plain_date(v(59)), today, lambda: is_issued(day_of(v(59)), month_of(held(h, 20)), today))
    if letter == "N":
        yield 62, listed(v(62), "CCD PPD IAT CTX".split())


def party_faults(x, letter):
    if letter != "A":
        yield 66, required(held(x, 66))


def account_faults(t, book, reporter):
    for field in (80, 84, 85):
        yield field, first((reporter and blank(held(t, field)), 1))
    betc = held(t, 86)
    yield 86, first((reporter and blank(betc), 1)) or if_filled(betc, in_book(betc, book[3]))
    yield 87, number(held(t, 87))


def procurement_faults(p, alone):
    yield 96, 0 if alone and blank(held(p, 96)) else number(held(p, 96))


def balances(paid, accounts, book):
    amounts = [cents(held(t, 87)) for t in accounts]
    if len(accounts) < 2:
        return sum(amounts) == paid or not accounts
    signs = [-1 if not blank(held(t, 86)) and book[3].get(held(t, 86)) else 1 for t in accounts]
    return sum(sign * amount for sign, amount in zip(signs, amounts)) == paid


def procures(paid, procurements):
    values = [held(p, 96) for p in procurements]
    if not values or len(values) == 1 and blank(values[0]):
        return True
    return sum(map(cents, values)) == paid


def kind(t):
    """The kind of a TAS/BETC: positions 23 to 54 (W1; 004 fields 78 to 86, each moved within itself: W3), blank ones too."""
    return tuple(held(t, field) for field in range(78, 87))


def trailer_faults(t, payments, total):
    yield 99, number(held(t, 99)) or first((int(held(t, 99)) != payments, 13))
    yield 100, number(held(t, 100)) or first((int(held(t, 100)) != total, 14))


def of_code(payment, code):
    return [(n, r) for n, r in payment if code_of(r) == code]


def paid_by(payment):
    return cents(held(payment[0][1], 24))


def payments_of(batch):
    return parts(batch[1:-1], lambda numbered: is_detail(numbered[1]))


def faults(batch, book, repeats, today=None):
    """All that is wrong with a batch of numbered records, in document 01's order: reason, record, field; reason 0 where nothing is.
    Today is a day, or None where nothing is lent."""
    (head, h), (end, t) = batch[0], batch[-1]
    letter = code_of(h)[1]
    payments = payments_of(batch)
    details = [p[0][1] for p in payments]
    yield from ((reason, head, field) for field, reason in header_faults(h, letter, book, repeats, today))
    for i, payment in enumerate(payments):
        n, d = payment[0]
        location = held(d, 29) if letter == "C" else held(h, 14)
        reporter = not blank(location) and book[2].get(location) == 1
        accounts, procurements = of_code(payment, "DT"), of_code(payment, "DP")
        yield from ((reason, n, field) for field, reason in detail_faults(d, letter, book, h, details[:i], today))
        for k, r in of_code(payment, "DX"):
            yield from ((reason, k, field) for field, reason in party_faults(r, letter))
        for k, r in accounts:
            yield from ((reason, k, field) for field, reason in account_faults(r, book, reporter))
        for k, r in procurements:
            yield from ((reason, k, field) for field, reason in procurement_faults(r, len(procurements) == 1))
        yield first((not balances(paid_by(payment), [r for _, r in accounts], book), 9)), n, 87
        yield first((not procures(paid_by(payment), [r for _, r in procurements]), 10)), n, 96
        yield first((reporter and not accounts, 11)), n, 76
    yield first((len({kind(r) for p in payments for _, r in of_code(p, "DT")}) > 1000, 12)), head, 76
    total = sum(map(paid_by, payments))
    yield from ((reason, end, field) for field, reason in trailer_faults(t, len(payments), total))
    if letter != "C" and is_digits(held(h, 9)):
        yield first((int(held(h, 9)) != total, 14)), head, 9


def split(total):
    return [total // 10**10, total % 10**10]


def batch_row(batch, book, earlier, today):
    """`earlier` are the headers of the earlier batches."""
    repeats = held(batch[0][1], 6) in [held(h, 6) for h in earlier]
    wrong = [f for f in faults(batch, book, repeats, today) if f[0]]
    payments = payments_of(batch)
    return [batch[0][0], len(batch), len(payments), *split(sum(map(paid_by, payments))), *(wrong or [(0, 0, 0)])[0]]


# ---- the judge of a file (01 File answers)

def translated(file):
    """The file in EBCDIC (02 W2). One that begins with 46 48 is ASCII throughout: its printable bytes become those of code page 037,
    all others 3F, the SUB of that code page. Any other is taken as it is."""
    return re.sub(rb"[^ -~]", b"\x1A", file).decode("ascii").encode("cp037") if file[:2] == b"FH" else file


def is_low(rec):
    fillers = FILLERS[code_of(rec)]
    return any(not any(start <= i <= end for start, end in fillers) for i, x in enumerate(rec, 1) if x < 0x40)


def reasons(file, book, room, lent):
    """Each reason that applies, in document 01's order, with the record that it names. Only the first counts: the tests after it may
    have nothing to look at, and are not made."""
    if len(file) == 0:
        yield 1, 0
    if len(file) % 850:
        yield 2, 0
    if len(file) > 65535 * 850:
        yield 3, 0
    lists = parsed(book)
    if lists is None:
        yield 4, 0
    if lent and day_of(lent.decode("cp037")) is None:
        yield 14, 0
    file = translated(file)
    records = [file[i:i + 850] for i in range(0, len(file), 850)]
    fault = nesting_fault(records)
    if fault:
        yield 5, fault
    if room < 64 * (1 + sum(map(is_header, records))):
        yield 6, 0
    low = [n for n, rec in enumerate(records, 1) if is_low(rec)]
    if low:
        yield 7, low[0]
    header, trailer, last = records[0], records[-1], len(records)
    if blank(held(header, 2)) or held(header, 2) not in lists[1]:
        yield 8, 1
    if held(header, 3) != "201":
        yield 9, 1
    if not all(is_digits(held(trailer, field)) for field in (103, 104, 105)):
        yield 10, last
    details = [r for r in records if is_detail(r)]
    if cents(held(trailer, 103)) != len(records):
        yield 11, last
    if cents(held(trailer, 104)) != len(details):
        yield 12, last
    if cents(held(trailer, 105)) != sum(cents(held(d, 24)) for d in details):
        yield 13, last


def judged(file, book, room, lent=b""):
    """The answer, and the rows of an accepted file. `lent` are the bytes of today (02 W4), or none."""
    reason, record = next(reasons(file, book, room, lent), (0, 0))
    if reason:
        return reason * 100000 + record, []
    file = translated(file)
    numbered = [(i // 850 + 1, file[i:i + 850]) for i in range(0, len(file), 850)]
    batches = parts(numbered[:-1], lambda one: is_header(one[1]))
    details = [r for _, r in numbered if is_detail(r)]
    head = [0, 0, len(numbered), len(details), *split(sum(cents(held(d, 24)) for d in details)), len(batches), 0]
    headers = [b[0][1] for b in batches]
    return 0, [head] + [batch_row(b, parsed(book), headers[:i], day_of(lent.decode("cp037"))) for i, b in enumerate(batches)]


# ---- sound books and records

SYMBOL = "1234"


def section(kind, entries):
    body = b"".join(sorted(entries))
    return (2 + len(body)).to_bytes(4, "little") + kind.to_bytes(2, "little") + body


def coded(codes, width):
    return [ebcdic(code.ljust(width)) for code in codes]


def flagged(codes):
    return [ebcdic(code.ljust(8)) + bytes([flag]) for code, flag in codes.items()]


def record(code, **fields):
    rec = bytearray(ebcdic(code.ljust(850)))
    for name, value in fields.items():
        start, end = PLACES[int(name[1:])]
        rec[start - 1:end] = ebcdic(value.ljust(end - start + 1))
    return bytes(rec)


def amount(n):
    return "%020d" % n


HEADERS = {
    "N": dict(f13="061000146"), "W": dict(f12="021030004"), "I": {}, "A": {},
    "C": dict(f15="1234", f16="0", f17="20240229", f18=SYMBOL, f20="0224"),
}
VOUCHER = dict(f7="000123", f8="2024-02-29", f10="5515", f14="00005678")
DETAILS = {
    "N": dict(f43="071000013", f48="22", f62="CCD"), "W": dict(f42="800000001", f44="CTR"), "I": dict(f51="Electronic"),
    "A": dict(f54="2024-0001", f55="PAID-BEFORE", f56="2000-02-29"), "C": dict(f25="0", f29="00005678", f59="20240229"),
}
EVERY = dict(f24=amount(100), f26="Ann Example", f28="Vendor", f35="CA", f36="90210", f38="US", f52="USD")
ACCOUNT = dict(f80="020", f84="1234", f85="000", f86="DISB", f88="0")


def templates(letter, serial):
    """Header, detail, DX, a payment's first DT, its others, its first DP, its others, BT: of a payment of 100 cents."""
    ident = SYMBOL + serial
    head, check = (dict(f19=serial), dict(f58=serial)) if letter == "C" else (VOUCHER, {})
    return [
        record("B" + letter, f6=ident, f9=amount(0), **HEADERS[letter], **head),
        record("D" + letter, f23=ident, **EVERY, **DETAILS[letter], **check),
        record("DX", f65=ident, f66="Ann Example"),
        record("DT", f77=ident, **ACCOUNT, f87=amount(100)), record("DT", f77=ident, **ACCOUNT, f87=amount(0)),
        record("DP", f91=ident, f96=amount(100)), record("DP", f91=ident, f96=amount(0)),
        record("BT", f99="0" * 8, f100=amount(0)),
    ]


def write_cases(folder, book, records, table, label, says):
    """What a program of cases is run on, and what it has to print; each case has a label of its own, so many characters wide."""
    assert len({line[:label] for line in table}) == len(table)
    (folder / "data").mkdir(exist_ok=True)
    (folder / "data" / "book.bin").write_bytes(book)
    (folder / "data" / "records.bin").write_bytes(b"".join(records))
    (folder / "stdin").write_text("".join(line + "\n" for line in table))
    (folder / "stdout").write_text("".join(line + "\n" for line in says))

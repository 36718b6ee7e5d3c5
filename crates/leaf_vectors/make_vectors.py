#!/usr/bin/env python3
"""Writes stdin and stdout of this program: records in EBCDIC by Python's own code page 037 or in ASCII, and what documents 01, 02 and 004 say of them."""
import datetime
import pathlib

here = pathlib.Path(__file__).parent
CODES = "FH BN BC BW BI BA DN DC DW DI DA DX DT DP BT FT".split()


def real(year, month, day):
    try:
        datetime.date(int(year), int(month), int(day))
        return True
    except ValueError:
        return False


def is_digits(text):
    return all(c in "0123456789" for c in text)


def text(value, width):
    """Text: moved left."""
    return value.lstrip(" ").ljust(width)


def padded(value, width):
    """One run of digits with blanks about it: zeros before it. Any other shape is text, and all blank stays blank."""
    run = value.strip(" ")
    return run.rjust(width, "0") if run and is_digits(run) else text(value, width)


def right(value, width):
    """Field 7: blanks at both ends go, zeros before it."""
    run = value.strip(" ")
    return run.rjust(width, "0") if run else " " * width


def record(code="BN", schedule="A", date="2024-02-29", amount="0" * 20, routing="000000000", created="20240229", month="0124", original="A", summary="000001", serial="00000001", raw=None):
    """The bytes of one record, and the line that the program must print."""
    record = [" "] * 850
    fields = [(1, 2, code), (3, 14, schedule), (23, 10, date), (33, 20, amount), (17, 6, summary), (60, 9, routing), (91, 8, created), (103, 8, serial), (111, 4, month), (560, 14, original)]
    for start, width, value in fields:
        assert len(value) <= width
        record[start - 1:start - 1 + width] = value.ljust(width)
    data = bytearray("".join(record).encode("cp037"))
    for position, byte in (raw or {}).items():
        data[position - 1] = byte
    y, m, d = date[0:4], date[5:7], date[8:10]
    amount, routing, month, serial = padded(amount, 20), padded(routing, 9), padded(month, 4), padded(serial, 8)
    cents = int(amount) if is_digits(amount) else 0
    a, b = (text(value, 14).encode("cp037") for value in (schedule, original))
    prefix = int(routing[:2]) if is_digits(routing) else -1
    summary = right(summary, 6)
    held = a + summary.encode("cp037") + serial.encode("cp037")
    for position, byte in (raw or {}).items():
        if 3 <= position <= 22:
            held = held[:position - 3] + bytes([byte]) + held[position - 2:]
    says = [
        CODES.index(code) + 1 if code in CODES else 0,
        code in ["DN", "DC", "DW", "DI", "DA"],
        code in ["BN", "BC", "BW", "BI", "BA"],
        all(byte >= 0x40 for byte in data[0:56]),
        len(date) == 10 and date[4] + date[7] == "--" and is_digits(y + m + d) and real(y, m, d),
        len(created) == 8 and is_digits(created) and real(created[0:4], created[4:6], created[6:8]),
        is_digits(month) and 1 <= int(month[0:2]) <= 12,
        0 <= prefix <= 12 or 21 <= prefix <= 32 or 61 <= prefix <= 72 or prefix == 80,
        cents // 10**10,
        cents % 10**10,
        (a > b) - (a < b) + 1,
        *held,
        b"\x40" not in held[14:20],
        serial.isspace(),
        serial == "00000000",
        int(serial) if is_digits(serial) else 10**8,
    ]
    return bytes(data), " ".join(str(int(x)) for x in says) + " \n"


def in_ascii(vector):
    """The record in ASCII, and its line: the same, then what the bytes of positions 3 to 258 are seen as."""
    data, line = vector
    return data.decode("cp037").encode("ascii"), line[:-1] + "".join("%d " % byte for byte in data[2:258]) + "\n"


def page():
    """All 256 bytes at positions 3 to 258 of an ASCII record: printable ones become code page 037's, all others 3F."""
    seen = [ord(bytes([b]).decode("ascii").encode("cp037")) if 0x20 <= b <= 0x7E else 0x3F for b in range(256)]
    held = seen[0:20] + seen[100:108]
    says = "1 " + "0 " * 10 + "".join("%d " % byte for byte in held) + "1 0 0 %d " % 10**8
    return b"FH" + bytes(range(256)) + b" " * 592, says + "".join("%d " % byte for byte in seen) + "\n"


vectors = [record(code=c) for c in CODES + ["fh", "XX", "B ", "DB"]]
for day in "2000-02-29 1900-02-29 2023-02-29 0001-01-01 0000-01-01 9999-12-31 2024-04-31 2024-12-31 2024-13-01 2024-00-10 2024-01-00 2024/01/01 20240101--".split():
    vectors.append(record(date=day, created=day.replace("-", "").ljust(8)[:8]))
vectors += [record(created="2024022"), record(created="2024O229"), record(date="2024-02-2 ")]
vectors += [record(month=m) for m in "0124 1299 1300 0001 1 24 12A0".replace("1 24", "1-24").split()]
vectors += [record(routing="%02d1234567" % p) for p in range(100)]
vectors += [record(routing=r) for r in ["000000000", "01234567", "0123456X8", " 12345678"]]
vectors += [record(amount=a) for a in ["9" * 20, "1" + "0" * 19, "0" * 9 + "12345678901", "0" * 15 + "12345", "12345", "0" * 19 + "A"]]
order = ["A", "a", "1", "AB", "A1", "Aa", "Z", "9", "0", "-"]
vectors += [record(schedule=x, original=y) for x in order for y in order]
places = [" A", "A ", "  A B", " " * 13 + "A", "-A", " " * 14]
serials = ["1       ", "       1", "   1    ", "  1 2   ", " 1234567", "1234567 ", "00000000", "    0   ", "0", " " * 8, " A      ", "12345678", "   -1   ", "0 0     "]
moved = [record(schedule=x, original=y) for x in places for y in places]
moved += [record(serial=x) for x in serials]
moved += [record(summary=x) for x in ["1     ", "     1", "  1   ", " 1 2  ", " " * 6, "A     ", "    AB", "000001", "1 0001"]]
moved += [record(amount=x) for x in ["1".rjust(20), "1".ljust(20), "1".center(20), "1 2".center(20), "9" * 19, " " + "9" * 19, "12345678901".center(20), " " * 20, "-1".rjust(20), "1" * 10 + " " * 10, " " * 10 + "1" * 10]]
moved += [record(routing=x) for x in ["12345678", " 12345678", "1234567  ", "  1234567", "1" + " " * 8, "12 345678", " " * 9, "212345678"]]
moved += [record(month=x) for x in ["113", " 113", "113 ", "13", " 13 ", "1 13", "    ", "0113"]]
moved += [record(date=x) for x in [" 2024-02-2", "2024-02-29", "2024-02-2 ", "2024-02-1 "]] + [record(created=x) for x in [" 2024022", "2024022 "]]
vectors += moved
twins = [record(code="FH", date=day, created=day.replace("-", "")) for day in ["2000-02-29", "1900-02-29", "2024-13-01"]]
twins += [record(code="FH", month=m) for m in ["0124", "1300", "12A0"]]
twins += [record(code="FH", routing=r) for r in ["000000000", "121234567", "131234567", "0123456X8", " 12345678"]]
twins += [record(code="FH", amount=a) for a in ["9" * 20, "0" * 9 + "12345678901", "12345", "0" * 19 + "A"]]
twins += [record(code="FH", schedule=x, original=y) for x in order for y in order]
twins += [record(code="FH", serial=x, summary=x[:6], schedule=x, amount=x) for x in serials]
vectors += twins + [in_ascii(vector) for vector in twins] + [page()]
vectors += [record(raw={56: 0x3F}), record(raw={57: 0x3F}), record(raw={17: 0x00}), record(raw={56: 0x40}), record(raw={20: 0xFF})]

(here / "stdin").write_bytes(b"".join(data for data, _ in vectors))
(here / "stdout").write_text("".join(line for _, line in vectors))

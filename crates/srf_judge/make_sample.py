#!/usr/bin/env python3
# Writes the sample: a code book with a few entries of each kind (data/book.bin), and FH BN DN DX BT FT with one sound payment of 12345
# cents (stdin). Positions are those of 004; text is in code page 037, EBCDIC.
import os
import struct

HERE = os.path.dirname(os.path.abspath(__file__))


def text(value, width):
    return value.ljust(width).encode("cp037")


def record(code, *fields):
    """A record of 850 blanks with its code and fields: first position, width, value."""
    whole = bytearray(b"\x40" * 850)
    for position, width, value in ((1, 2, code),) + fields:
        held = text(value, width)
        assert len(held) == width, value
        whole[position - 1:position - 1 + width] = held
    return bytes(whole)


def section(kind, entries):
    body = struct.pack("<H", kind) + b"".join(sorted(entries))
    return struct.pack("<I", len(body)) + body


BOOK = b"".join((
    section(1, [text("SAMPLE PAYMENT SYSTEM", 40)]),
    section(2, [text("00001234", 8) + b"\x00", text("00005678", 8) + b"\x01"]),
    section(3, [text("DISB", 8) + b"\x00", text("COLL", 8) + b"\x01"]),
    section(4, [text("Vendor", 25), text("Salary", 25)]),
    section(5, [text("MD", 2), text("VA", 2)]),
    section(6, [text("US", 2)]),
    section(7, [text("USD", 3)]),
))

ID = "PAYMENT-0001"
CENTS = "12345".zfill(20)

FILE = b"".join((
    record("FH", (3, 40, "SAMPLE PAYMENT SYSTEM"), (43, 3, "201")),
    record("BN", (3, 14, "SCHEDULE-0001"), (17, 6, "SUM001"), (23, 10, "2024-02-29"), (33, 20, CENTS), (53, 4, "5515"),
           (69, 9, "121000358"), (78, 8, "00001234")),
    record("DN", (3, 20, ID), (23, 20, CENTS), (44, 47, "A. PAYEE"), (107, 25, "Vendor"), (350, 2, "MD"), (352, 5, "20782"),
           (361, 2, "US"), (435, 9, "121000358"), (506, 2, "22"), (546, 3, "USD"), (674, 3, "PPD")),
    record("DX", (3, 20, ID), (23, 150, "A. PARTY")),
    record("BT", (3, 8, "1".zfill(8)), (11, 20, CENTS)),
    record("FT", (3, 18, "6".zfill(18)), (21, 18, "1".zfill(18)), (39, 20, CENTS)),
))

os.makedirs(os.path.join(HERE, "data"), exist_ok=True)
with open(os.path.join(HERE, "data", "book.bin"), "wb") as out:
    out.write(BOOK)
with open(os.path.join(HERE, "stdin"), "wb") as out:
    out.write(FILE)

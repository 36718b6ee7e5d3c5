#!/usr/bin/env python3
"""Writes the samples of the C client: the program's own sample, and files made from it by a change or two."""
import pathlib
import sys

here = pathlib.Path(__file__).resolve().parent
root = here.parents[2]
sys.path.insert(0, str(root / "reference"))
from srf import PLACES, amount, ebcdic, held, record  # noqa: E402

shipped = (root / "crates" / "srf_judge" / "stdin").read_bytes()
FH, BN, DN, DX, BT, FT = [shipped[i:i + 850] for i in range(0, len(shipped), 850)]
CENTS = int(held(DN, 24))


def put(rec, code=None, **fields):
    """The record with values in fields, and with another code."""
    rec = bytearray(rec)
    for name, value in fields.items():
        start, end = PLACES[int(name[1:])]
        assert len(value) <= end - start + 1, (name, value)
        rec[start - 1:end] = ebcdic(value.ljust(end - start + 1))
    rec[:2] = ebcdic(code) if code else rec[:2]
    return bytes(rec)


def whole(*records, payments=1, cents=CENTS):
    return b"".join(records) + put(FT, f103="%018d" % (len(records) + 1), f104="%018d" % payments, f105=amount(cents))


def large():
    """The greatest amount: its cents pass 64 bits."""
    nines = 10**20 - 1
    return whole(FH, put(BN, f9=amount(nines)), put(DN, f24=amount(nines)), DX, put(BT, f100=amount(nines)), cents=nines)


def shuffled():
    """Payment IDs that do not climb: only then the judge keeps marks of them."""
    payments = [put(rec, **{field: ident}) for ident in ("PAYMENT-0002", "PAYMENT-0001") for rec, field in ((DN, "f23"), (DX, "f65"))]
    return whole(FH, put(BN, f9=amount(2 * CENTS)), *payments, put(BT, f99="%08d" % 2, f100=amount(2 * CENTS)), payments=2, cents=2 * CENTS)


def checks(created="20240229", month="0224", issued=("20240229",)):
    """A check batch of a day and an accounting month, with a payment for each issue date."""
    symbol, location, count = "4321", held(BN, 14), len(issued)
    serials = ["%08d" % number for number in range(1, count + 1)]
    header = put(BN, "BC", f6=symbol + serials[0], f15="1234", f16="0", f17=created, f18=symbol, f19=serials[0], f20=month)
    payments = []
    for serial, day in zip(serials, issued):
        ident = symbol + serial
        payments += [put(DN, "DC", f23=ident, f25="0", f29=location, f58=serial, f59=day), put(DX, f65=ident)]
    trailer = put(BT, f99="%08d" % count, f100=amount(count * CENTS))
    return whole(FH, header, *payments, trailer, payments=count, cents=count * CENTS)


def rejected():
    """A second batch, of a location that the book lacks."""
    other = put(BN, f6="SCHEDULE-0002", f14="00009999")
    return whole(FH, BN, DN, DX, BT, other, DN, DX, BT, payments=2, cents=2 * CENTS)


def kinds():
    """1,001 kinds of TAS/BETC, a DT of each, in payments whose IDs climb: only then the judge counts kinds."""
    payments = []
    for number in range(1001):
        ident = "PAYMENT-%04d" % (number // 91)
        if number % 91 == 0:
            payments += [put(DN, f23=ident), put(DX, f65=ident)]
        payments.append(record("DT", f77=ident, f84="%04d" % number, f87=amount(CENTS if number % 91 == 0 else 0)))
    cents = 11 * CENTS
    return whole(FH, put(BN, f9=amount(cents)), *payments, put(BT, f99="%08d" % 11, f100=amount(cents)), payments=11, cents=cents)


def tab():
    """A tab in a Payment ID, in detail and DX alike: otherwise they would not nest."""
    ident = held(DN, 23).strip().replace("-", "\t")
    return whole(FH, BN, put(DN, f23=ident), put(DX, f65=ident), BT)


def moved():
    """The program's sample with its values away from their places, which the judge corrects (02 W3): the IDs of a payment stand at two."""
    right = lambda rec, field: held(rec, field).strip().rjust(PLACES[field][1] - PLACES[field][0] + 1)
    return b"".join([
        put(FH, f2=right(FH, 2)), put(BN, f6=right(BN, 6), f7=" 1", f9=str(CENTS), f10=" 215", f13=" 0"),
        put(DN, f23=" " + held(DN, 23).strip(), f24=" %d" % CENTS, f26=right(DN, 26), f28=right(DN, 28), f43="1"),
        put(DX, f65=right(DX, 65), f66=right(DX, 66)), put(BT, f99="1", f100="  %d" % CENTS),
        put(FT, f103="6", f104=" 1", f105=str(CENTS).rjust(20))])


def in_ascii(file):
    """The file as an ASCII sender writes it (02 W2)."""
    return file.decode("cp037").encode("ascii")


SAMPLES = {
    "sound": shipped,
    "large": large(),
    "shuffled": shuffled(),
    "checks": checks(),
    "ahead": checks("20231130", "0124", ["20240101", "20240102"]),  # written ahead, for the next year
    "other-month": checks("20240129", "0324", ["20240229"]),
    "moved": moved(),
    "rejected": rejected(),
    "kinds": kinds(),
    "refused": shipped.replace(DX, put(DX, "BT")),
    "short": shipped[:4 * 850],
    "cut": shipped[:-1],
    "empty": b"",
    "sound-ascii": in_ascii(shipped),
    "shuffled-ascii": in_ascii(shuffled()),
    "checks-ascii": in_ascii(checks()),
    "rejected-ascii": in_ascii(rejected()),
    "tab-ascii": in_ascii(tab()),
}

for name, file in SAMPLES.items():
    (here / (name + ".srf")).write_bytes(file)

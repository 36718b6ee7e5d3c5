#!/usr/bin/env python3
"""Writes stdin and stdout of this program: files by their codes and Payment IDs, and what document 01 says of their nesting.

Nothing here goes from record to record. A file is legal when a pattern fits its codes and the IDs of each payment agree;
records begin a legal file when some ending makes a legal file of them.
"""
import pathlib
import random
import re

here = pathlib.Path(__file__).parent
LETTERS = "NCWIA"
FILE = re.compile(r"FH(?:B([NCWIA])(?:D\1(?:DX)+(?:DT){0,100}(?:DP){0,100})+BT)+FT")
BATCH = re.compile(r"B[NCWIA].*?BT")
PAYMENT = re.compile(r"D[NCWIA](?:DX|DT|DP)+")


def legal(records):
    """None, or the numbers of batches and of payments. A record is its code and its ID."""
    codes = "".join(code for code, _ in records)
    if not FILE.fullmatch(codes):
        return None
    batches = BATCH.findall(codes)
    if len({b[1] == "C" for b in batches}) != 1:
        return None
    payments = list(PAYMENT.finditer(codes))
    for p in payments:
        if len({ident for _, ident in records[p.start() // 2:p.end() // 2]}) != 1:
            return None
    return len(batches), len(payments)


def begins(records):
    """Whether some ending makes a legal file: the endings are tried from the shortest on, with every letter and the last ID."""
    ident = records[-1][1] if records else ""
    for letter in LETTERS:
        whole = ["FH", "B" + letter, "D" + letter, "DX", "BT", "FT"]
        for start in range(6, -1, -1):
            if legal(records + [(code, ident) for code in whole[start:]]):
                return True
    return False


def says(records):
    found = legal(records)
    if found:
        return "legal %d %d\n" % found
    for k in range(1, len(records) + 1):
        if not begins(records[:k]):
            return "refused %d\n" % k
    return "refused %d\n" % (len(records) + 1)


def sent(records):
    return len(records).to_bytes(2, "little") + b"".join((code + ident.ljust(20)).encode("cp037") for code, ident in records)


def one_id(codes):
    return [(code, "ID") for code in codes.split()]


def payment(letter, ident, dx, dt, dp):
    return [("D" + letter, ident)] + [("DX", ident)] * dx + [("DT", ident)] * dt + [("DP", ident)] * dp


def batch(letter, payments):
    return [("B" + letter, "")] + [r for p in payments for r in p] + [("BT", "")]


def whole(batches):
    return [("FH", "")] + [r for b in batches for r in b] + [("FT", "")]


def sound(rng):
    letters = ["C"] * rng.randint(1, 3) if rng.random() < 0.3 else [rng.choice("NWIA") for _ in range(rng.randint(1, 3))]
    return whole([batch(l, [payment(l, "P%d" % rng.randrange(4), rng.randint(1, 3), rng.choice([0, 0, 1, 2, 5]), rng.choice([0, 0, 1, 2, 5]))
                            for _ in range(rng.randint(1, 3))]) for l in letters])


def damaged(rng):
    records = sound(rng)
    for _ in range(rng.randint(1, 2)):
        i = rng.randrange(len(records))
        j = rng.randrange(len(records))
        code = rng.choice(["FH", "FT", "BT", "DX", "DT", "DP", "BS", "dx", "  "] + ["B" + l for l in LETTERS] + ["D" + l for l in LETTERS])
        how = rng.randrange(7)
        if how == 0 and len(records) > 1:
            del records[i]
        elif how == 1:
            records.insert(i, records[i])
        elif how == 2:
            records[i], records[j] = records[j], records[i]
        elif how == 3:
            records.insert(i, (code, records[j][1]))
        elif how == 4:
            records[i] = (code, records[i][1])
        elif how == 5:
            records[i] = (records[i][0], records[i][1] + rng.choice(["X", " X", "x"]))
        else:
            records = records[:i + 1]
    return records


files = [one_id(codes) for codes in [
    "FH BN DN DX BT FT", "FH BN DN BT", "FH BN DW", "FH BN DN DX", "FH FT",
    "FH BN DN DX BT BC DC DX BT FT", "FH BC DC DX BT BN DN DX BT FT", "FH BC DC DX BT BC DC DX BT FT",
    "FH BN DN DX BT BW DW DX BT BI DI DX BT BA DA DX BT FT", "FH BC DC DX BT BA DA DX BT FT", "FH BA DA DX BT BC DC DX BT FT",
    "FH BN DN DX BT FT FT", "FH BN DN DX BT FT FH", "FH BN DN DX BT FT BN", "FH BN DN DX BT FT XX", "FH BN DN DX BT", "FH", "FT", "",
    "FH BN DN DX DP DT BT FT", "FH BN DN DT DX BT FT", "FH BN DN DX DT DX BT FT", "FH BN DN DX DP DX BT FT", "FH BN DN DP BT FT",
    "FH BN DN DX DN BT FT", "FH BN DN DX DC DX BT FT", "FH BN BT FT", "FH FH BN DN DX BT FT", "BN DN DX BT", "FH BN DN DX FT"]]
for dt, dp in [(100, 0), (101, 0), (0, 100), (0, 101), (100, 1), (99, 2), (1, 101)]:
    files.append(whole([batch("N", [payment("N", "A", 1, dt, dp), payment("N", "B", 2, 1, 1)])]))
for at in range(20):
    ident = "12345678901234567890"
    other = ident[:at] + "X" + ident[at + 1:]
    for code in ["DX", "DT", "DP"]:
        files.append([(c, other if c == code else i) for c, i in whole([batch("I", [payment("I", ident, 1, 1, 1)])])])
rng = random.Random(850)
files += [sound(rng) for _ in range(60)]
files += [damaged(rng) for _ in range(600)]

(here / "stdin").write_bytes(b"".join(sent(f) for f in files))
(here / "stdout").write_text("".join(says(f) for f in files))

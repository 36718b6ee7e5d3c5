#!/usr/bin/env python3
"""Writes days of all years as eight EBCDIC digits, and their numbers by Python's calendar: 0001-01-01 is day 1. What is no day has none."""
import datetime
import pathlib

here = pathlib.Path(__file__).parent
TURNS = [1, 100, 400, 1600, 1700, 1900, 2000, 2024, 2100, 2400, 9996]  # of centuries, and of the calendar
YEARS = sorted({y for turn in TURNS for y in range(turn - 5, turn + 6) if 0 <= y <= 9999} | set(range(1, 10000, 31)))
DAYS = ["%02d%02d" % (month, day) for month in range(1, 13) for day in (1, 28, 29, 30, 31)]
CHOSEN = DAYS[::4] + ["0228", "0229", "0230", "0301", "1231", "0000", "1301"]


def number(text):
    try:
        return str(datetime.date(int(text[:4]), int(text[4:6]), int(text[6:])).toordinal())
    except ValueError:
        return "none"


days = ["%04d%s" % (year, day) for year in YEARS for day in CHOSEN]
(here / "stdin").write_bytes("".join(days).encode("cp037"))
(here / "stdout").write_text("".join(number(day) + "\n" for day in days))

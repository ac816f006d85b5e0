#!/usr/bin/env python3
"""Writes the file stdout beside this one: every day of the thirty-year cycle, worked out from the rule of the months alone.

A line has the day of the cycle, the year, the month, the day of the month, the days in that month, and `-` for the sixth
column, which is free. The last line is the number of the answer to a turn past the end.
"""

import pathlib

LONG_YEARS = {2, 5, 7, 10, 13, 16, 18, 21, 24, 26, 29}
PAST_THE_END = 13


def length(year, month):
    """Odd months have 30 days and even ones 29, but month 12 of a long year has 30."""
    return 30 if month % 2 or month == 12 and year in LONG_YEARS else 29


def dates():
    for year in range(1, 31):
        for month in range(1, 13):
            for day in range(1, length(year, month) + 1):
                yield year, month, day, length(year, month)


def main():
    lines = [" ".join(map(str, [count, *date, "-"])) for count, date in enumerate(dates(), start=1)]
    assert len(lines) == 10_631
    assert lines[354] == "355 2 1 1 30 -" and lines[709] == "710 3 1 1 30 -" and lines[-1] == "10631 30 12 29 29 -"
    text = "".join(f"{line}\n" for line in [*lines, PAST_THE_END])
    pathlib.Path(__file__).resolve().with_name("stdout").write_text(text, "ascii")


if __name__ == "__main__":
    main()

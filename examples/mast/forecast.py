#!/usr/bin/env python3
"""Makes a forecast from a trace of whole days: for each part of the day, the least harvest of any P ticks in a row over the days.

  python3 forecast.py week.csv DAYS P HOUR.. > forecast.csv

The parts of a day begin at the hours, the first of which is 0, and each row of the forecast says what its part kept on every day of the
trace. The rows are repeated for so many days. A part has to be at least P ticks long. A tick is a second.
"""
import csv
import sys

DAY = 86400


def harvest_in(path):
    """The harvest of each tick."""
    with open(path, newline="", encoding="ascii") as file:
        rows = list(csv.reader(file))[1:]
    return [int(row[1]) for row in rows for _ in range(int(row[0]))]


def least(units, ticks):
    """The least sum of so many units in a row."""
    total = smallest = sum(units[:ticks])
    for new, old in zip(units[ticks:], units):
        total += new - old
        smallest = min(smallest, total)
    return smallest


def main():
    path, days, ticks = sys.argv[1], int(sys.argv[2]), int(sys.argv[3])
    begins = [3600 * int(hour) for hour in sys.argv[4:]]
    units = harvest_in(path)
    print("tick,p,q")
    for day in range(days):
        for begin, end in zip(begins, [*begins[1:], DAY]):
            kept = [least(units[first + begin : first + end], ticks) for first in range(0, len(units), DAY)]
            print(f"{DAY * day + begin},{ticks},{min(kept)}")


main()

#!/usr/bin/env python3
"""Times audits of a day and of a year over cities with whole tariffs, beside checks of the same feeds.

  audits.py FOLDER [PROGRAM] [--sizes STOP_TIMES ..] [--limit SECONDS]

For each number of stop times (10,000, 100,000 and 1,000,000, where none is named) it makes a feed in FOLDER as city_feed.py does, and runs
each command seven times, with a check before each of them, as plain_words.py does, whose lines these are. `above` stands where an audit
takes more than twice the seconds of the check, and 0.02 s, or more than twice its memory, and 8 MB.
"""
import argparse
import os

import city_feed
from plain_words import TOP, print_run

SPANS = {"a day": ("2025-06-03", "2025-06-03"), "a year": ("2025-01-01", "2025-12-31")}
TIMES = 2


def main():
    parser = argparse.ArgumentParser(description=__doc__, formatter_class=argparse.RawDescriptionHelpFormatter)
    parser.add_argument("folder")
    parser.add_argument("program", nargs="?")
    parser.add_argument("--sizes", type=int, nargs="+", default=[10_000, 100_000, 1_000_000])
    parser.add_argument("--limit", type=float, default=30)
    words = parser.parse_args()
    built = [f"{TOP}/crates/plan_cli/out/plan_cli", f"{TOP}/release/farewise"]
    program = words.program or next(it for it in built if os.path.exists(it))
    for rows in words.sizes:
        feed = f"{words.folder}/{rows}"
        city_feed.make(feed, rows)
        for said, days in SPANS.items():
            print_run(rows, f"audit of {said}", [program, feed], ["audit", *days], words.limit, TIMES)


if __name__ == "__main__":
    main()

#!/usr/bin/env python3
"""Times plans beside checks of the same feeds, and prints the ratios.

  several_rides.py FOLDER PROGRAM [STOP_TIMES ..]

For each number of stop times (10,000, 100,000 and 1,000,000, where none is named) it makes a feed in FOLDER as whole_feed.py
does, but with leg rules for all areas, and times `check`, plans of no and of one ride, plans of up to four rides with a window
of two hours, and the plain words of a plan. Each command runs three times, and the least time counts; it is ended after five
minutes. Behind these come the same plans of three and of four rides with `--stats`: how many labels the table of all rounds has,
and how many of them a second are found, where the time of the check is taken off.
"""
import subprocess
import sys
import time

import whole_feed

PLAN = ["plan", "S000000", "S000001", "2025-06-02", "08:00:00"]


def make(folder, rows):
    whole_feed.make(folder, rows, "", 1)
    products = [f"{network}{n},,,{2 + n}.{n}0,EUR" for network in ("bus", "tram", "rail") for n in range(5)]
    whole_feed.write(folder, "fare_products.txt", "fare_product_id,rider_category_id,fare_media_id,amount,currency", products)
    rules = [f"g{network},{network},{network}{n}" for network in ("bus", "tram", "rail") for n in range(5)]
    whole_feed.write(folder, "fare_leg_rules.txt", "leg_group_id,network_id,fare_product_id", rules)


def seconds_of(program, folder, words):
    times = []
    for _ in range(3):
        start = time.perf_counter()
        ended = subprocess.run([program, folder, *words], stdout=subprocess.PIPE, check=False, timeout=300)
        times.append(time.perf_counter() - start)
        if ended.returncode != 0:
            sys.exit(f"{' '.join(words)} ended with {ended.returncode}: {ended.stdout.decode()[:200]}")
    return min(times), ended.stdout.decode()


def print_labels(program, feed, rows, rides, checked):
    took, text = seconds_of(program, feed, [*PLAN, "--rides", str(rides), "--within", "7200", "--stats"])
    labels = int(text.splitlines()[-1].split("\t")[1])
    each = labels / max(took - checked, 0.001)
    print(f"{rows}\t--rides {rides} --within 7200 --stats\t{took:.2f} s\t{labels} labels\t{each:.0f} labels a second")


def main():
    folder, program = sys.argv[1], sys.argv[2]
    for rows in [int(word) for word in sys.argv[3:]] or [10_000, 100_000, 1_000_000]:
        feed = f"{folder}/{rows}"
        make(feed, rows)
        checked, _ = seconds_of(program, feed, ["check"])
        print(f"{rows}\tcheck\t{checked:.2f} s")
        for words in (["--rides", "0"], ["--rides", "1"], *(["--rides", str(n), "--within", "7200"] for n in (2, 3, 4)), []):
            took, text = seconds_of(program, feed, [*PLAN, *words])
            said = " ".join(words) or "four rides within a day"
            journeys = text.count("journey\t")
            print(f"{rows}\t{said}\t{took:.2f} s\t{took / checked:.2f} times check\t{journeys} journeys")
        for rides in (3, 4) if rows <= 100_000 else ():
            print_labels(program, feed, rows, rides, checked)


if __name__ == "__main__":
    main()

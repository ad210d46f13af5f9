#!/usr/bin/env python3
"""Times plans by the plain words (four rides within a day) over cities with whole tariffs, beside checks of the same feeds.

  plain_words.py FOLDER [PROGRAM] [--sizes STOP_TIMES ..] [--limit SECONDS] [--pairs COUNT]

For each number of stop times (10,000, 100,000 and 1,000,000, where none is named) it makes a feed in FOLDER as city_feed.py does, and
runs `check` seven times. Then it asks four ways through the city, two of them along a rail line and the bus beside it: by the plain
words, by eight rides, and by three rides within two hours. Each command runs seven times, and a check before each of them, since a
machine's speed wavers from one second to the next: the median of the ratios counts, and the least time. Above 10,000 stop times come
COUNT ways (40) between lines at hours that are drawn, by the plain words, twice each, and the slowest of them beside checks; over 10,000
the four ways with `--stats`.
PROGRAM is crates/plan_cli/out/plan_cli where none is named, or else release/farewise.

A line has the seconds of the processor, their ratio to those of the check, the memory at its most, as a ratio to that of check, and the
number of journeys; and `above` where it is past what such a plan may take. A run is ended after the seconds of the limit (30), and isn't
tried again.
"""
import argparse
import os
import random
import statistics
import subprocess
import tempfile
import time
from typing import NamedTuple

import city_feed
from whole_feed import clock

TOP = os.path.dirname(os.path.dirname(os.path.abspath(__file__)))
DATE = "2025-06-03"
TIMES = ["07:40:00", "09:05:00", "12:10:00", "16:45:00"]
# The further words of a plan, and how many times the check it may take.
PLANS = {"plain words": ([], 2.5), "eight rides": (["--rides", "8"], 4), "three rides in two hours": (["--rides", "3", "--within", "7200"], 1.6)}
WORST = 6
# How often a command runs beside a check.
RUNS = 7
# What a plan may take whatever the check does, and how many times its memory; for the slowest of many ways memory is told alone.
SECONDS, MEGABYTES, MEMORY = 0.02, 8, 2


class Run(NamedTuple):
    seconds: float
    megabytes: float
    text: str
    is_ended: bool

    def journeys(self):
        return self.text.count("journey\t")


def most_memory(child):
    """The most megabytes that it has held so far, or 0 where it is over. What the system tells of a child at its end counts this
    program too, from which it was made."""
    try:
        with open(f"/proc/{child.pid}/status", encoding="utf-8") as file:
            return next((int(line.split()[1]) / 1024 for line in file if line.startswith("VmHWM")), 0)
    except OSError:
        return 0


def run_once(command, limit):
    with tempfile.TemporaryFile("w+") as out:
        begun, most, is_ended = time.monotonic(), 0, False
        child = subprocess.Popen(command, stdout=out)
        while True:
            most = max(most, most_memory(child))
            pid, status, used = os.wait4(child.pid, os.WNOHANG)
            if pid:
                break
            took = time.monotonic() - begun
            if took > limit and not is_ended:
                child.kill()
                is_ended = True
            time.sleep(min(0.005, 0.0002 + took / 50))
        child.returncode = os.waitstatus_to_exitcode(status)
        if child.returncode != 0 and not is_ended:
            raise SystemExit(f"{' '.join(command)} ended with {child.returncode}")
        out.seek(0)
        return Run(used.ru_utime + used.ru_stime, most, out.read(), is_ended)


def runs_of(command, limit, count):
    runs = []
    for _ in range(count):
        runs.append(run_once(command, limit))
        if runs[-1].is_ended:
            break
    return runs


def least_of(runs):
    return min(runs, key=lambda it: it.seconds)._replace(megabytes=max(it.megabytes for it in runs), is_ended=runs[-1].is_ended)


def least_run(command, limit, count):
    return least_of(runs_of(command, limit, count))


def run_beside(begin, words, limit, count):
    """So many runs, and the checks before each of them."""
    runs, checks = [], []
    for _ in range(count):
        checks.append(run_once([*begin, "check"], limit))
        runs.append(run_once([*begin, *words], limit))
        if runs[-1].is_ended:
            break
    return runs, checks


def print_run(rows, said, begin, words, limit, times, memory=MEMORY):
    runs, checks = run_beside(begin, words, limit, RUNS)
    run, check = least_of(runs), least_of(checks)
    if run.is_ended:
        print(f"{rows}\t{said}\tended after {run.seconds:.1f} s\t{run.megabytes:.1f} MB\tabove", flush=True)
        return
    ratio = statistics.median(one.seconds / other.seconds for one, other in zip(runs, checks))
    is_slow = ratio > times and run.seconds > SECONDS
    above = is_slow or (memory is not None and run.megabytes > max(memory * check.megabytes, MEGABYTES))
    most = "" if memory is None else f" (at most {memory}, or {MEGABYTES} MB)"
    print(
        f"{rows}\t{said}\t{run.seconds:.3f} s\t{ratio:.2f} times check (at most {times}, or {SECONDS} s)"
        f"\t{run.megabytes:.1f} MB\t{run.megabytes / check.megabytes:.2f} times{most}"
        f"\t{run.journeys()} journeys\t{'above' if above else '-'}",
        flush=True,
    )


def print_pairs(rows, begin, city, count, limit):
    rng = random.Random(f"pairs {rows}")
    runs = []
    for _ in range(count):
        words = [*city.way_between(rng), DATE, clock(rng.randrange(86_400))]
        runs.append((least_run([*begin, "plan", *words], limit, 2), words))
    runs.sort(key=lambda it: (it[0].is_ended, it[0].seconds))
    ended = sum(it.is_ended for it, _ in runs)
    print(f"{rows}\t{count} ways at any hour\t{ended} ended\tmedian {statistics.median(it.seconds for it, _ in runs):.3f} s", flush=True)
    _, words = runs[-1]
    print_run(rows, f"the worst of them: {' '.join(words)}", begin, ["plan", *words], limit, WORST, None)


def print_size(folder, program, rows, limit, pairs):
    feed = f"{folder}/{rows}"
    city = city_feed.make(feed, rows)
    begin = [program, feed]
    runs = runs_of([*begin, "check"], limit, 7)
    check, median = least_of(runs), statistics.median(it.seconds for it in runs)
    print(f"{rows}\tcheck\t{check.seconds:.3f} s\tmedian {median:.3f} s\t{check.megabytes:.1f} MB", flush=True)
    rng = random.Random(f"ways {rows}")
    ways = [city.way_along(city.pairs[n % len(city.pairs)], n, n) for n in (0, 1)] + [city.way_between(rng) for _ in (0, 1)]
    asked = [["plan", *way, DATE, at] for way, at in zip(ways, TIMES)]
    for said, (words, times) in PLANS.items():
        for plan in asked:
            print_run(rows, f"{said}: {' '.join(plan[1:])}", begin, [*plan, *words], limit, times)
    if rows > 10_000:
        print_pairs(rows, begin, city, pairs, limit)
        return
    for plan in asked:
        run = least_run([*begin, *plan, "--stats"], limit, 3)
        labels = "ended" if run.is_ended else run.text.rsplit("\t", 1)[1].strip() + " labels"
        print(f"{rows}\t--stats: {' '.join(plan[1:])}\t{run.seconds:.3f} s\t{run.seconds / check.seconds:.2f} times check\t{run.megabytes:.1f} MB\t{labels}", flush=True)


def main():
    parser = argparse.ArgumentParser(description=__doc__, formatter_class=argparse.RawDescriptionHelpFormatter)
    parser.add_argument("folder")
    parser.add_argument("program", nargs="?")
    parser.add_argument("--sizes", type=int, nargs="+", default=[10_000, 100_000, 1_000_000])
    parser.add_argument("--limit", type=float, default=30)
    parser.add_argument("--pairs", type=int, default=40)
    words = parser.parse_args()
    built = [f"{TOP}/crates/plan_cli/out/plan_cli", f"{TOP}/release/farewise"]
    program = words.program or next(it for it in built if os.path.exists(it))
    for rows in words.sizes:
        print_size(words.folder, program, rows, words.limit, words.pairs)


if __name__ == "__main__":
    main()

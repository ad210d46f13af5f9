#!/usr/bin/env python3
"""Makes a stop_times.txt of many rows in a folder, as a feed of a large city would have it, and times a command over it.

Usage: stop_times.py ROWS FOLDER [COMMAND ..]

The command is run once, with its output thrown away. A line tells rows, bytes, its seconds and its greatest megabytes.

The rows are those of trips of 20 calls each, two minutes apart, with ids of the kind that exporters write. A row has about 45
bytes. The same number of rows makes the same file.
"""

import os
import resource
import subprocess
import sys
import time

CALLS = 20
STOPS = 4_000


def time_text(seconds):
    return f"{seconds // 3600:02}:{seconds // 60 % 60:02}:{seconds % 60:02}"


def run(command):
    """The seconds and the greatest megabytes of a run of the command."""
    start = time.time()
    subprocess.run(command, stdout=subprocess.DEVNULL, check=False)
    seconds = time.time() - start
    kilobytes = resource.getrusage(resource.RUSAGE_CHILDREN).ru_maxrss
    return f"{seconds:.2f}", kilobytes // 1024


def main():
    if len(sys.argv) < 3:
        sys.exit(__doc__)
    rows = int(sys.argv[1])
    folder = sys.argv[2]
    os.makedirs(folder, exist_ok=True)
    path = os.path.join(folder, "stop_times.txt")
    with open(path, "w", newline="") as file:
        file.write("trip_id,arrival_time,departure_time,stop_id,stop_sequence\r\n")
        for row in range(rows):
            trip, call = divmod(row, CALLS)
            start = 4 * 3600 + trip * 37 % (20 * 3600)
            arrival = start + call * 120
            stop = (trip * 131 + call) % STOPS
            file.write(
                f"L{trip % 200:03}-{trip:07},{time_text(arrival)},{time_text(arrival + 20)},"
                f"de:{10000 + stop}:1,{call + 1}\r\n"
            )
    print("rows\tbytes\tseconds\tmegabytes")
    seconds, megabytes = run(sys.argv[3:]) if len(sys.argv) > 3 else ("-", "-")
    print(f"{rows}\t{os.path.getsize(path)}\t{seconds}\t{megabytes}")


if __name__ == "__main__":
    main()

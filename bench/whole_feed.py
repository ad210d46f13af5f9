#!/usr/bin/env python3
"""Makes a whole feed without fault, of any number of stop times, and times commands over it.

  whole_feed.py FOLDER ROWS [--prefix BYTES] [--names COUNT] [--lines] [COMMAND ..]

All files but fare_leg_join_rules.txt have rows. Trips have 25 calls, an eighth of them without a time; platforms are a
fiftieth of the stop times, half of them in stations of four; and rows of trips and stops are shuffled. --prefix puts so
many equal bytes before each id, so that ids differ only at their ends. --names gives the feed so many services. Each trip
calls at stops of its own, drawn at random; with --lines all trips of a route in one direction call at the same stops and
follow one another, as in most real feeds. Without a command the files are read by Python's csv.reader alone.
"""
import csv
import os
import random
import resource
import subprocess
import sys
import time

CALLS = 25
ROUTES = 500


def clock(seconds):
    return f"{seconds // 3600:02}:{seconds // 60 % 60:02}:{seconds % 60:02}"


def write(folder, name, header, rows):
    with open(f"{folder}/{name}", "w", encoding="utf-8") as file:
        file.write(header + "\n")
        file.writelines(row + "\n" for row in rows)


def timetable(folder, rows, prefix, names, lines):
    rng = random.Random(1)
    platforms = [f"{prefix}S{n:06}" for n in range(max(CALLS, rows // 50))]
    trips = [f"{prefix}T{n:06}" for n in range(rows // CALLS)]
    shuffled = trips[:]
    rng.shuffle(shuffled)
    # The stops of each route in each direction, and which of them a trip has.
    patterns = [rng.sample(platforms, CALLS) for _ in range(2 * ROUTES)] if lines else []
    pattern_of = {it: n * len(patterns) // len(trips) for n, it in enumerate(trips)}

    def times():
        for trip in trips:
            second = rng.randrange(5 * 3600, 20 * 3600)
            stops = patterns[pattern_of[trip]] if lines else rng.sample(platforms, CALLS)
            for call, stop in enumerate(stops):
                # An eighth of the calls has no time of its own.
                at = clock(second), clock(second + 20)
                arrival, departure = ("", "") if call % 8 == 5 else at
                yield f"{trip},{arrival},{departure},{stop},{call + 1},0,0"
                second += rng.randrange(60, 240)

    write(folder, "stop_times.txt", "trip_id,arrival_time,departure_time,stop_id,stop_sequence,pickup_type,drop_off_type", times())
    rng.shuffle(platforms)
    # Half of the platforms stand in stations of four.
    stations = [f"{prefix}P{n:06}" for n in range(len(platforms) // 8)]
    parents = [stations[n // 4] if n // 4 < len(stations) else "" for n in range(len(platforms))]
    stops = [f"{it},Stop {n},0,{parents[n]}" for n, it in enumerate(platforms)] + [f"{it},Station {n},1," for n, it in enumerate(stations)]
    rng.shuffle(stops)
    write(folder, "stops.txt", "stop_id,stop_name,location_type,parent_station", stops)
    routes = [pattern_of[it] // 2 if lines else n % ROUTES for n, it in enumerate(shuffled)]
    write(folder, "trips.txt", "route_id,service_id,trip_id", (f"R{routes[n]},{'MW'[n % 2]},{it}" for n, it in enumerate(shuffled)))
    write(folder, "routes.txt", "route_id,route_type", (f"R{n},3" for n in range(ROUTES)))
    write(folder, "calendar.txt", "service_id,monday,tuesday,wednesday,thursday,friday,saturday,sunday,start_date,end_date", ["M,1,1,1,1,1,0,0,20250101,20251231"])
    services = ["W"] + [f"{prefix}service {n:07}" for n in range(1, names)]
    write(folder, "calendar_dates.txt", "service_id,date,exception_type", (f"{it},20250602,1" for it in services))
    headways = (f"{it},{hour:02}:00:00,{hour + 2:02}:00:00,600,0" for it in trips[::50] for hour in (6, 8, 16))
    write(folder, "frequencies.txt", "trip_id,start_time,end_time,headway_secs,exact_times", headways)
    links = [f"{it},{it},0," for it in stations] + [f"{rng.choice(platforms)},{rng.choice(platforms)},2,{rng.randrange(60, 600)}" for _ in platforms]
    write(folder, "transfers.txt", "from_stop_id,to_stop_id,transfer_type,min_transfer_time", links)
    return platforms


def fares(folder, platforms):
    areas = [f"z{n}" for n in range(20)]
    networks = ["bus", "tram", "rail"]
    write(folder, "areas.txt", "area_id", areas)
    write(folder, "stop_areas.txt", "area_id,stop_id", (f"{areas[n % 20]},{it}" for n, it in enumerate(platforms)))
    write(folder, "networks.txt", "network_id", networks)
    write(folder, "route_networks.txt", "network_id,route_id", (f"{networks[n % 3]},R{n}" for n in range(ROUTES)))
    frames = (f"{group},{start},{end},{service}" for service in "MW" for group, start, end in (("peak", "00:00:00", "09:00:00"), ("off", "09:00:00", "24:00:00")))
    write(folder, "timeframes.txt", "timeframe_group_id,start_time,end_time,service_id", frames)
    write(folder, "rider_categories.txt", "rider_category_id,is_default_fare_category", ["adult,1", "child,0", "senior,0"])
    write(folder, "fare_media.txt", "fare_media_id,fare_media_type", ["card,2", "app,4"])
    products = [f"{network}{n},{rider},{medium},{2 + n}.{n}0,EUR" for network in networks for n in range(5) for rider in ("", "child") for medium in ("", "card")]
    write(folder, "fare_products.txt", "fare_product_id,rider_category_id,fare_media_id,amount,currency", products)
    rules = [f"g{network},{network},z{n},z{m},{frame},,{network}{(n + m) % 5}" for network in networks for n in range(5) for m in range(5) for frame in ("peak", "off")]
    write(folder, "fare_leg_rules.txt", "leg_group_id,network_id,from_area_id,to_area_id,from_timeframe_group_id,to_timeframe_group_id,fare_product_id", rules)
    changes = [f"g{a},g{b},{'-1' if a == b else ''},3600,1,0," for a in networks for b in networks]
    write(folder, "fare_transfer_rules.txt", "from_leg_group_id,to_leg_group_id,transfer_count,duration_limit,duration_limit_type,fare_transfer_type,fare_product_id", changes)


def make(folder, rows, prefix, names, lines=False):
    os.makedirs(folder, exist_ok=True)
    fares(folder, timetable(folder, rows, prefix, names, lines))


def read_all(folder):
    for name in sorted(os.listdir(folder)):
        with open(f"{folder}/{name}", newline="", encoding="utf-8") as file:
            for _ in csv.reader(file):
                pass


def main():
    folder, rows, words = sys.argv[1], int(sys.argv[2]), sys.argv[3:]
    prefix = ""
    if words[:1] == ["--prefix"]:
        prefix, words = "x" * int(words[1]), words[2:]
    names = 1
    if words[:1] == ["--names"]:
        names, words = int(words[1]), words[2:]
    lines = words[:1] == ["--lines"]
    if lines:
        words = words[1:]
    make(folder, rows, prefix, names, lines)
    size = sum(os.path.getsize(f"{folder}/{it}") for it in os.listdir(folder))
    start = time.perf_counter()
    if words:
        ended = subprocess.run(words, stdout=subprocess.PIPE, check=False)
        said = ended.stdout.decode()[:200].replace("\n", " | ")
    else:
        read_all(folder)
        said = "csv.reader"
    seconds = time.perf_counter() - start
    most = resource.getrusage(resource.RUSAGE_CHILDREN).ru_maxrss // 1024
    print(f"{rows}\t{size / 1e6:.1f} MB\t{seconds:.2f} s\t{most} MB\t{said}")


if __name__ == "__main__":
    main()

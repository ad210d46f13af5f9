#!/usr/bin/env python3
"""Writes the feed of a city of lines: each line has its own stops, and its trips call at all of them, as those of most real feeds
do. whole_feed.py makes trips of which hardly two call at the same stops.

  line_feed.py FOLDER LINES STOPS STOPS_OF_A_LINE TRIPS_OF_A_LINE

Trips run from 05:00 for 18 hours, every day of 2025. A line calls at stops that are drawn from all, and the draws are the same in
each run. 400 2000 25 100 makes 1,000,000 stop times, 100 500 20 50 makes 100,000.
"""
import os
import random
import sys

NETWORKS = ["bus", "tram", "rail"]
FIRST = 5 * 3600
SPAN = 18 * 3600
WEEK = ",1" * 7
TRANSFERS = ["gbus,gbus,1,3600,0,0,", "gbus,gtram,,,,0,bus0", "gtram,gbus,,5400,1,0,"]


def write(folder, name, header, rows):
    with open(os.path.join(folder, name), "w") as file:
        file.write("\n".join([header, *rows]) + "\n")


def clock(seconds):
    return f"{seconds // 3600:02}:{seconds % 3600 // 60:02}:{seconds % 60:02}"


def calls_of_line(line, stops, own, trips, rows, calls):
    places = random.sample(range(stops), own)
    legs = [random.randint(60, 240) for _ in places]
    first = FIRST + random.randint(0, 600)
    for number in range(trips):
        at = first + number * (SPAN // trips)
        rows.append(f"R{line},D,T{line}_{number}")
        for sequence, place in enumerate(places):
            calls.append(f"T{line}_{number},S{place:06},{sequence},{clock(at)},{clock(at + 20)}")
            at += legs[sequence]


def make(folder, lines, stops, own, trips):
    random.seed(5)
    os.makedirs(folder, exist_ok=True)
    rows, calls = [], []
    for line in range(lines):
        calls_of_line(line, stops, own, trips, rows, calls)
    write(folder, "stops.txt", "stop_id", [f"S{n:06}" for n in range(stops)])
    write(folder, "routes.txt", "route_id,network_id", [f"R{n},{NETWORKS[n % 3]}" for n in range(lines)])
    write(folder, "trips.txt", "route_id,service_id,trip_id", rows)
    write(folder, "stop_times.txt", "trip_id,stop_id,stop_sequence,arrival_time,departure_time", calls)
    days = "service_id,monday,tuesday,wednesday,thursday,friday,saturday,sunday,start_date,end_date"
    write(folder, "calendar.txt", days, [f"D{WEEK},20250101,20251231"])
    products = [f"{network}{n},{2 + n}.{n}0,EUR" for network in NETWORKS for n in range(5)]
    write(folder, "fare_products.txt", "fare_product_id,amount,currency", products)
    rules = [f"g{network},{network},{network}{n}" for network in NETWORKS for n in range(5)]
    write(folder, "fare_leg_rules.txt", "leg_group_id,network_id,fare_product_id", rules)
    columns = "from_leg_group_id,to_leg_group_id,transfer_count,duration_limit,duration_limit_type,fare_transfer_type,fare_product_id"
    write(folder, "fare_transfer_rules.txt", columns, TRANSFERS)


if __name__ == "__main__":
    make(sys.argv[1], *(int(word) for word in sys.argv[2:6]))

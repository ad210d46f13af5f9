#!/usr/bin/env python3
"""Writes the feed of a city with a whole tariff, and times nothing.

  city_feed.py FOLDER STOP_TIMES [SEED] [--no-priorities]

Rail, tram and bus lines cross a grid of stops, both ways: stations with platforms of their own for each kind and direction, pairs
of stops and single ones, walks between neighbours, an airport at the end of a rail line, night buses by headway, calls without a
time. Beside each rail line runs a bus, later and cheaper. The tariff has zones, peak hours, three riders, two media, leg rules with
priorities or without that column, and transfer rules of all types, with limits of three types, counts, surcharges, tickets for two
rides and amounts below zero: a bus makes the next train cheaper by 0.20, and a train the next tram by 0.10. The number of stop times
is met to a few per cent. The draws are the same in each run.
"""
import math
import os
import random
import sys

from whole_feed import clock, write

STEPS = [(1, 0), (0, 1), (-1, 0), (0, -1)]
# Of a line of each kind: the least and most seconds from stop to stop, those from departure to departure in peak hours, by day and
# late, and those that it stands at a stop.
KINDS = {"rail": ((170, 230), (900, 1200, 2400), 30), "tram": ((85, 120), (450, 600, 1200), 10), "bus": ((95, 140), (600, 900, 1800), 0)}
# The services of a line: all weekdays alike, or Friday by itself. On weekends fewer run.
SERVICES = [["WK", "SA", "SU"], ["WK", "SA", "SU"], ["MOTH", "FR", "SA", "SU"]]
DAYS = {"WK": "1,1,1,1,1,0,0", "MOTH": "1,1,1,1,0,0,0", "FR": "0,0,0,0,1,0,0", "SA": "0,0,0,0,0,1,0", "SU": "0,0,0,0,0,0,1", "ALL": "1,1,1,1,1,1,1"}
ZONES = ["z0", "z1", "z2", "z3"]


class Line:
    def __init__(self, rng, kind, cells):
        self.kind, self.cells = kind, cells
        (least, most), self.headways, self.stand = KINDS[kind]
        self.hops = [rng.randint(least, most) for _ in cells[1:]]
        self.services = rng.choice(SERVICES)
        self.pace = rng.uniform(0.8, 1.5)
        self.first = 5 * 3600 + rng.randrange(600)
        self.has_holes = kind == "bus" and rng.random() < 0.2
        self.runs_by_night = kind == "bus" and rng.random() < 0.25

    def offsets(self, back):
        at, offsets = 0, [0]
        for hop in self.hops[::-1] if back else self.hops:
            at += hop + self.stand
            offsets.append(at)
        return offsets

    def departures(self, service, scale):
        at = self.first
        while at < 25 * 3600 - 600:
            yield int(at)
            peak, day, late = self.headways
            hour = at / 3600
            headway = peak if 6.5 <= hour < 9.5 or 16 <= hour < 19 else day if hour < 22 else late
            at += headway * self.pace * scale * {"SA": 1.4, "SU": 1.8}.get(service, 1)

    def size(self, scale):
        return 2 * len(self.cells) * sum(1 for service in self.services for _ in self.departures(service, scale))


def winding_way(rng, wide, length, straight):
    """A way through the grid that comes to no cell twice."""
    at, step = (rng.randrange(wide), rng.randrange(wide)), rng.choice(STEPS)
    way = [at]
    while len(way) < length:
        turns = [(step[1], step[0]), (-step[1], -step[0])]
        rng.shuffle(turns)
        turns.insert(0 if rng.random() < straight else 2, step)
        nexts = [((at[0] + x, at[1] + y), (x, y)) for x, y in turns]
        free = [it for it in nexts if it[0] not in way and 0 <= min(it[0]) and max(it[0]) < wide]
        if not free:
            break
        at, step = free[0]
        way.append(at)
    return way


class City:
    def __init__(self, stop_times, seed=1):
        self.rng = rng = random.Random(f"{seed} {stop_times}")
        routes = int(3 * (stop_times / 10_000) ** 0.75) + 3
        self.wide = wide = max(8, math.ceil(math.sqrt(routes * 10)))
        self.lines, self.pairs = [], []
        rails = max(1, routes // 8)
        for number in range(rails):
            across = (number // 2 + 1) * wide // (rails // 2 + 2)
            cells = [(it, across) if number % 2 == 0 else (across, it) for it in range(wide)]
            self.lines += [Line(rng, "rail", cells[::2]), Line(rng, "bus", cells[:37])]
            self.pairs.append((self.lines[-2], self.lines[-1]))
        trams = max(1, routes // 5)
        for number in range(max(2, routes - 2 * rails)):
            kind, most, straight = ("tram", wide, 0.93) if number < trams else ("bus", rng.randint(12, 32), 0.75)
            self.lines.append(Line(rng, kind, max((winding_way(rng, wide, most, straight) for _ in range(20)), key=len)))
        self.scale = sum(it.size(1) for it in self.lines) / stop_times
        self.scale *= sum(it.size(self.scale) for it in self.lines) / stop_times
        self.airport = self.lines[0].cells[-1]
        self.place_stops()

    def place_stops(self):
        """The stops, and of each cell its station or first stop, by which plans name it."""
        served = {}
        for line in self.lines:
            served.setdefault(line.kind, set()).update(line.cells)
        self.stops, self.platforms, self.names, self.cells = [], {}, {}, {}
        for number, cell in enumerate(sorted(set().union(*served.values()))):
            kinds = [kind for kind in KINDS if cell in served.get(kind, ())]
            is_station = kinds != ["bus"] or self.rng.random() < 0.45
            is_pair = is_station or self.rng.random() < 0.4
            name, parent = f"8{number:05}", ""
            if is_station:
                self.stops.append((name, "1", ""))
                self.cells[name] = cell
                parent = name
            for kind in kinds:
                stops = [f"{name}{kind[0]}{way}" for way in range(1 + is_pair)]
                self.stops += [(it, "", parent) for it in stops]
                self.cells.update((it, cell) for it in stops)
                self.platforms[cell, kind] = stops[0], stops[-1]
            self.names[cell] = name if is_station else self.platforms[cell, kinds[0]][0]

    def zone(self, cell):
        middle = (self.wide - 1) / 2
        return min(3, int(4 * max(abs(it - middle) for it in cell) / middle))

    def way_along(self, pair, number, back):
        """From near one end of the bus beside a rail line to near the other, where both stop."""
        cells = [it for it in pair[0].cells if it in pair[1].cells]
        ends = self.names[cells[number % 3]], self.names[cells[-1 - number % 2]]
        return ends[::-1] if back else ends

    def way_between(self, rng):
        """From a stop of one line to one of another."""
        one, other = rng.sample(self.lines, 2)
        ends = rng.choice(one.cells), rng.choice(other.cells)
        return (self.names[ends[0]], self.names[ends[1]]) if ends[0] != ends[1] else self.way_between(rng)


def write_trips(folder, city):
    """Of each line all trips both ways, and its night bus by headway."""
    trips, headways = [], []

    def calls(line, back, trip, start):
        cells = line.cells[::-1] if back else line.cells
        last = len(cells) - 1
        for number, (cell, offset) in enumerate(zip(cells, line.offsets(back))):
            at, stand = start + offset, line.stand if 0 < number < last else 0
            times = "," if line.has_holes and 0 < number < last and number % 3 else f"{clock(at)},{clock(at + stand)}"
            yield f"{trip},{times},{city.platforms[cell, line.kind][back]},{number + 1},{int(number == last)},{int(number == 0)}"

    def all_calls():
        for number, line in enumerate(city.lines):
            for back in (0, 1):
                for service in line.services:
                    for count, start in enumerate(line.departures(service, city.scale)):
                        trip = f"{number}_{back}_{service}_{count}"
                        trips.append(f"{line.kind}{number},{service},{trip}")
                        yield from calls(line, back, trip, start + 37 * back)
                if line.runs_by_night:
                    trip = f"{number}_{back}_N"
                    trips.append(f"{line.kind}{number},ALL,{trip}")
                    headways.append(f"{trip},01:00:00,04:30:00,{city.rng.choice((1800, 2400, 3600))}")
                    yield from calls(line, back, trip, 0)

    write(folder, "stop_times.txt", "trip_id,arrival_time,departure_time,stop_id,stop_sequence,pickup_type,drop_off_type", all_calls())
    write(folder, "trips.txt", "route_id,service_id,trip_id", trips)
    write(folder, "frequencies.txt", "trip_id,start_time,end_time,headway_secs", headways)
    write(folder, "routes.txt", "route_id,network_id", (f"{it.kind}{number},{it.kind}" for number, it in enumerate(city.lines)))
    days = "service_id,monday,tuesday,wednesday,thursday,friday,saturday,sunday,start_date,end_date"
    write(folder, "calendar.txt", days, (f"{it},{on},20250101,20251231" for it, on in DAYS.items()))
    holidays = [f"{service},{date},{kind}" for date in ("20250101", "20250609") for service, kind in (("WK", 2), ("MOTH", 2), ("SU", 1))]
    write(folder, "calendar_dates.txt", "service_id,date,exception_type", holidays)


def write_stops(folder, city):
    rng = city.rng
    write(folder, "stops.txt", "stop_id,location_type,parent_station", (",".join(it) for it in city.stops))
    walks = []
    for (x, y), name in sorted(city.names.items()):
        for cell in ((x + 1, y), (x, y + 1)):
            if cell in city.names and rng.random() < 0.25:
                seconds = rng.randrange(240, 540, 10)
                walks += [f"{name},{city.names[cell]},2,{seconds}", f"{city.names[cell]},{name},2,{seconds}"]
        if rng.random() < 0.15:
            walks.append(f"{name},{name},2,{rng.choice((60, 90, 120, 240))}")
    for one, other in sorted(set(city.platforms.values())):
        if one != other and rng.random() < 0.05:
            walks += [f"{one},{one},0,", f"{other},{one},3,"]
    write(folder, "transfers.txt", "from_stop_id,to_stop_id,transfer_type,min_transfer_time", walks)
    write(folder, "areas.txt", "area_id", [*ZONES, "air"])
    areas = [(ZONES[city.zone(city.cells[it])], it) for it, _, parent in city.stops if not parent]
    areas += [("air", it) for _, it in areas if city.cells[it] == city.airport]
    write(folder, "stop_areas.txt", "area_id,stop_id", (",".join(it) for it in areas))


def euros(cents):
    return f"{'-' if cents < 0 else ''}{abs(cents) // 100}.{abs(cents) % 100:02}"


def write_products(folder):
    amounts = {"bus_peak": 260, "bus_off": 210, "bus_night": 310, "tram_near": 220, "tram_far": 280, "air": 690, "change": 50, "combi": 460, "bonus": -20, "gift": -10}
    for far, (peak, off) in enumerate(((270, 240), (340, 300), (430, 380), (520, 450))):
        amounts[f"rail{far}_peak"], amounts[f"rail{far}_off"] = peak, off
    rows = []
    for product, cents in amounts.items():
        paper, child, senior = (cents + 20, cents // 2, cents * 7 // 10) if cents > 0 else (cents, cents, cents)
        rows += [f"{product},,paper,{euros(paper)},EUR", f"{product},,card,{euros(cents)},EUR", f"{product},child,card,{euros(child)},EUR", f"{product},senior,,{euros(senior)},EUR"]
    write(folder, "fare_products.txt", "fare_product_id,rider_category_id,fare_media_id,amount,currency", rows)
    write(folder, "rider_categories.txt", "rider_category_id,is_default_fare_category", ["adult,1", "child,0", "senior,0"])
    write(folder, "fare_media.txt", "fare_media_id,fare_media_type", ["card,2", "paper,0"])


def write_rules(folder, priorities):
    peaks = ["peak,06:30:00,09:30:00", "peak,16:00:00,19:00:00", "off,05:00:00,06:30:00", "off,09:30:00,16:00:00", "off,19:00:00,24:00:00"]
    frames = [f"{it},WK" for it in peaks] + ["off,05:00:00,24:00:00,SA", "off,05:00:00,24:00:00,SU", "night,00:00:00,05:00:00,ALL"]
    write(folder, "timeframes.txt", "timeframe_group_id,start_time,end_time,service_id", frames)
    legs = [f"bus,bus,,,{it},bus_{it},0" for it in ("peak", "off", "night")]
    for n, one in enumerate(ZONES):
        for m, other in enumerate(ZONES):
            legs += [f"rail,rail,{one},{other},{it},rail{abs(n - m)}_{'peak' if it == 'peak' else 'off'},1" for it in ("peak", "off", "night")]
            legs.append(f"tram,tram,{one},{other},,tram_{'near' if n == m else 'far'},0")
    if priorities:
        legs += ["air,rail,,air,,air,5", "air,rail,air,,,air,5"]
    columns = "leg_group_id,network_id,from_area_id,to_area_id,from_timeframe_group_id,fare_product_id"
    if priorities:
        write(folder, "fare_leg_rules.txt", columns + ",rule_priority", legs)
    else:
        write(folder, "fare_leg_rules.txt", columns, (it.rpartition(",")[0] for it in legs))
    changes = ["bus,bus,2,3600,1,0,", "bus,bus,-1,1800,2,0,change", "bus,tram,,5400,1,0,change", "tram,bus,,3600,0,0,", "tram,tram,-1,5400,1,0,"]
    changes += ["bus,rail,,,,1,bonus", "rail,bus,,5400,3,0,", "tram,rail,,3600,1,2,combi", "rail,rail,3,7200,1,0,change", "rail,tram,,,,0,gift"]
    columns = "from_leg_group_id,to_leg_group_id,transfer_count,duration_limit,duration_limit_type,fare_transfer_type,fare_product_id"
    write(folder, "fare_transfer_rules.txt", columns, changes)


def make(folder, stop_times, seed=1, priorities=True):
    """Writes the feed, and gives the city, of which ways may be asked."""
    os.makedirs(folder, exist_ok=True)
    city = City(stop_times, seed)
    write_trips(folder, city)
    write_stops(folder, city)
    write_products(folder)
    write_rules(folder, priorities)
    return city


if __name__ == "__main__":
    words = [it for it in sys.argv[1:] if it != "--no-priorities"]
    make(words[0], int(words[1]), int(words[2]) if words[2:] else 1, words == sys.argv[1:])

#!/usr/bin/env python3
"""Times searches by rounds that ask for no fares, beside a Rust program of the same loops, which nothing proves.

  arrivals.py [RUNS] [STOP_TIMES ..]

For each number of stop times (10,000 and 100,000, where none is named) a feed is made of lines that cross at stops, each with 20 calls
and a trip every ten minutes, without stations, walks and frequencies. Both programs read it, and search from one stop after another
for the labels of journeys to the first of up to three rides within two hours, at eight in the morning: from each label they try each
later departure from its stop, to each later call, and keep at each stop the labels that no other is as good as. Labels that arrive no
earlier than some journey that an earlier round found, with no fewer rides, are neither kept nor gone on from.

The crates are copied to a scratch folder, with a program that searches, which is proved and built as the gate does it; the Rust program
is built by `rustc -O`. Both are run in turn, RUNS times, 5 if it is left out, with and without searching, and the least time counts.
Each line is a number of stop times, how many labels were kept, which is the same for both, the milliseconds of the processor that a
search took in both programs, and the one divided by the other.
"""
import os
import random
import subprocess
import sys
import tempfile

import proved_program
from csv_floor import run
from whole_feed import clock, write

SEARCHES = 20
CALLS = 20

PROGRAM = """\
//! Times searches by rounds that ask for no fares.
#![tactic(auto)]

ghost use Rattle.std.specs.Prelude.{◌≡◌, IfOk};
ghost use Rattle.plan_rides.specs.InTime.{IsUsualQuery};

use feed_check::load;
use feed_rows::{NO_CATEGORY, Query};
use feed_timetable::Timetable;
use folder_io::DirFolder;
use plan_arrivals::labels_by;
use plan_rides::{Rides, Scope, SpanRuns};
use std::alloc::{AllocError, Global};
use std::env;
use std::test::Fail;
use transit_base::{Moment, StopId};

fn query_of(from: u32) -> Query
    ensures { IsUsualQuery result }
{
    Query {
        from: StopId(from),
        to: StopId(0),
        departure: Moment(1_748_851_200),
        rides: 3,
        window: 7_200,
        buyer: NO_CATEGORY,
    }
}

/// How many labels there are.
fn search(alloc: Global, timetable: &Timetable, query: &Query, times: u32) -> Result<u64, AllocError>
    requires { IsUsualQuery query.now }
{
    match SpanRuns::of(alloc, timetable, &Scope::of(query)) {
        Ok(runs) => {
            let rides = Rides::of(&runs, query);
            let mut count = 0u64;
            for _ in 0..times {
                let (labels, _front) = labels_by(alloc, &rides)?;
                count = count.wrapping_add(labels.len() as u64);
            }
            Ok(count)
        }
        Err(AllocError) => Err(AllocError),
    }
}

/// The words: the folder, from how many stops, and how many times from each.
fn main(rt: HostRuntime) -> Result<(), Fail> {
    let alloc = rt.alloc();
    let mut words = env::args(&rt)?.skip(1);
    let Some(folder) = words.next() else {
        return Ok(());
    };
    let stops = words.next().and_then(|word| word.parse::<u32>().ok()).unwrap_or(0);
    let times = words.next().and_then(|word| word.parse::<u32>().ok()).unwrap_or(0);
    let mut files = DirFolder::new(rt, alloc, folder.as_str()).map_err(|_| "folder")?;
    let feed = load(alloc, &mut files).map_err(|_| "feed")?;
    let timetable = Timetable::build(alloc, &feed)?;
    let mut count = 0u64;
    for from in 0..stops {
        count = count.wrapping_add(search(alloc, &timetable, &query_of(from), times)?);
    }
    println!(rt; "{}", count)?;
    Ok(())
}
"""

RUST = r"""
use std::{collections::HashMap, env, fs};

#[derive(Clone, Copy)]
struct Label { stop: usize, arrival: i64, rides: u8, parent: u32, ride: (u32, u32, u32) }

fn seconds(text: &str) -> i64 {
    text.split(':').fold(0, |sum, part| sum * 60 + part.parse::<i64>().unwrap())
}

struct Times { calls: Vec<Vec<(usize, i64, i64)>>, departures: Vec<Vec<(i64, u32, u32)>> }

fn covers(a: &Label, b: &Label) -> bool {
    a.arrival <= b.arrival && a.rides <= b.rides && (a.rides != 0 || b.rides == 0)
}

fn offer(bag: &mut Vec<Label>, label: Label) {
    let up_to = bag.partition_point(|it| it.arrival <= label.arrival);
    if bag[..up_to].iter().any(|it| covers(it, &label)) { return; }
    let place = bag.partition_point(|it| it.arrival < label.arrival);
    let kept: Vec<Label> = bag[place..].iter().filter(|it| !covers(&label, it)).copied().collect();
    bag.truncate(place);
    bag.push(label);
    bag.extend(kept);
}

fn is_cut(finals: &[(i64, u8)], label: &Label) -> bool {
    finals.iter().any(|it| it.0 <= label.arrival && it.1 <= label.rides)
}

fn end(finals: &mut Vec<(i64, u8)>, labels: &[Label]) {
    for it in labels.iter().filter(|it| it.stop == 0) {
        if !is_cut(finals, it) {
            finals.retain(|kept| kept.0 < it.arrival || kept.1 < it.rides);
            finals.push((it.arrival, it.rides));
        }
    }
}

fn search(times: &Times, from: usize) -> usize {
    let (start, until) = (8 * 3600, 10 * 3600);
    let mut bags: Vec<Vec<Label>> = vec![Vec::new(); times.departures.len()];
    offer(&mut bags[from], Label { stop: from, arrival: start, rides: 0, parent: 0, ride: (0, 0, 0) });
    let mut labels: Vec<Label> = bags.iter().flatten().copied().collect();
    let mut finals = Vec::new();
    end(&mut finals, &labels);
    let mut begin = 0;
    for count in 0..3u8 {
        let end_of = labels.len();
        for number in begin..end_of {
            let label = labels[number];
            if is_cut(&finals, &label) { continue; }
            let served = &times.departures[label.stop];
            for &(at, trip, call) in &served[served.partition_point(|it| it.0 < label.arrival)..] {
                if at > until { break; }
                let calls = &times.calls[trip as usize];
                for to in call + 1..calls.len() as u32 {
                    let (stop, arrival, _) = calls[to as usize];
                    if arrival > until { break; }
                    let next = Label { stop, arrival, rides: count + 1, parent: number as u32, ride: (trip, call, to) };
                    if !is_cut(&finals, &next) { offer(&mut bags[stop], next); }
                }
            }
        }
        for bag in &bags { labels.extend(bag.iter().filter(|it| it.rides == count + 1)); }
        end(&mut finals, &labels[end_of..]);
        begin = end_of;
    }
    let _ = labels.iter().map(|it| it.parent as usize + it.ride.0 as usize).sum::<usize>();
    labels.len()
}

fn main() {
    let words: Vec<String> = env::args().collect();
    let (folder, stops, repeats): (_, usize, usize) = (&words[1], words[2].parse().unwrap(), words[3].parse().unwrap());
    let text = fs::read_to_string(format!("{folder}/stops.txt")).unwrap();
    let numbers: HashMap<&str, usize> = text.lines().skip(1).enumerate().map(|(n, line)| (line.split(',').next().unwrap(), n)).collect();
    let mut times = Times { calls: Vec::new(), departures: vec![Vec::new(); numbers.len()] };
    let mut trips: HashMap<String, usize> = HashMap::new();
    for line in fs::read_to_string(format!("{folder}/stop_times.txt")).unwrap().lines().skip(1) {
        let fields: Vec<&str> = line.split(',').collect();
        let trip = *trips.entry(fields[0].to_string()).or_insert_with(|| { times.calls.push(Vec::new()); times.calls.len() - 1 });
        times.calls[trip].push((numbers[fields[3]], seconds(fields[1]), seconds(fields[2])));
    }
    for (trip, calls) in times.calls.iter().enumerate() {
        for (call, it) in calls.iter().enumerate() { times.departures[it.0].push((it.2, trip as u32, call as u32)); }
    }
    times.departures.iter_mut().for_each(|it| it.sort());
    let mut count = 0;
    for from in 0..stops { for _ in 0..repeats { count += search(&times, from); } }
    println!("{count}");
}
"""


def make(folder, rows):
    """The feed; how many stops it has."""
    rng = random.Random(1)
    departures = range(5 * 3600, 22 * 3600, 600)
    lines = max(2, rows // (CALLS * len(departures)))
    stops = [f"S{n:06}" for n in range(lines * CALLS // 3)]
    trips, times = [], []
    for line in range(lines):
        along = rng.sample(stops, CALLS)
        hops = [rng.randrange(60, 240) for _ in along]
        late = rng.randrange(600)
        for number, at in enumerate(departures):
            name, second = f"T{line}_{number}", at + late
            trips.append(f"R,W,{name}")
            for call, stop in enumerate(along):
                times.append(f"{name},{clock(second)},{clock(second)},{stop},{call + 1}")
                second += hops[call]
    os.makedirs(folder, exist_ok=True)
    write(folder, "stops.txt", "stop_id,stop_name", (f"{it},{it}" for it in stops))
    write(folder, "routes.txt", "route_id,route_type", ["R,3"])
    write(folder, "trips.txt", "route_id,service_id,trip_id", trips)
    write(folder, "stop_times.txt", "trip_id,arrival_time,departure_time,stop_id,stop_sequence", times)
    write(folder, "calendar_dates.txt", "service_id,date,exception_type", ["W,20250602,1"])
    write(folder, "fare_products.txt", "fare_product_id,amount,currency", ["single,2.50,EUR"])
    write(folder, "fare_leg_rules.txt", "network_id,fare_product_id", [",single"])
    return len(stops)


def told(words):
    return subprocess.run(words, stdout=subprocess.PIPE, check=True, text=True).stdout.strip()


def least(program, folder, stops, times, runs):
    return min(run([program, folder, str(stops), str(times)])[0] for _ in range(runs))


def main():
    runs = int(sys.argv[1]) if len(sys.argv) > 1 else 5
    sizes = [int(it) for it in sys.argv[2:]] or [10_000, 100_000]
    with tempfile.TemporaryDirectory() as scratch:
        with open(f"{scratch}/arrivals.rs", "w") as file:
            file.write(RUST)
        subprocess.run(["rustc", "-O", "-A", "warnings", "-o", f"{scratch}/arrivals", f"{scratch}/arrivals.rs"], check=True)
        crates = "plan_arrivals round_search round_terms plan_rides feed_timetable feed_check folder_io feed_rows transit_base".split()
        proved = proved_program.build(scratch, "arrivals_bench", crates, PROGRAM)
        for rows in sizes:
            folder = f"{scratch}/{rows}"
            stops = min(make(folder, rows), 20)
            labels = [told([it, folder, str(stops), "1"]) for it in (proved, f"{scratch}/arrivals")]
            if labels[0] != labels[1]:
                sys.exit(f"{labels[0]} labels of the one, {labels[1]} of the other")
            took = []
            for program in (proved, f"{scratch}/arrivals"):
                spent = least(program, folder, stops, SEARCHES + 1, runs) - least(program, folder, stops, 1, runs)
                took.append(1000 * spent / (stops * SEARCHES))
            print(f"{rows}\t{labels[0]}\t{took[0]:.2f} ms\t{took[1]:.2f} ms\t{took[0] / took[1]:.2f}")


if __name__ == "__main__":
    main()

#!/usr/bin/env python3
"""Times the tables that are built from a large feed: the trips of many stop times, and the walks of many platforms.

Usage: large_feed.py STOP_TIMES STATIONS ROWS [SECONDS]

The feed has STOP_TIMES stop times in trips of 20 calls, a quarter of them without a time, STATIONS stations of 10 platforms
each, and ROWS rows of transfers.txt: a fifth of them between stations, the others between platforms. It is made in memory,
by a program that is not proved, so the program is run by `rt try`, which adds checks to each step: the times are many times
those of a built program, and tell how one size compares with another, or one state of the code with another. SECONDS is
the limit of the run, 300 if it is left out.

Each line is a table and the milliseconds in which it was built. Stop times stand trip by trip, or else with the rows of a trip
far apart; and the rows between platforms are such, or else rows that forbid the change from a platform to a station.
"""

import os
import shutil
import subprocess
import sys
import tempfile

# The crates whose parts the program calls.
CALLED = ["feed_rows", "feed_trips", "feed_walks", "plain_laws", "transit_base"]
CALLS = 20

PROGRAM = """\
//! Times the tables of a large feed.
#![tactic(auto)]

use feed_rows::{Feed, Id, LinkRow, StopRow, StopTimeRow, TripRow};
use feed_trips::Trips;
use feed_walks::Walks;
use plain_laws::ItemList;
use std::alloc::{AllocError, Global};
use std::test::Fail;
use std::time::Instant;
use transit_base::{RouteId, ServiceId, StopId, TripId};

const TRIPS: u32 = @trips@;
const CALLS: u32 = 20;
const STATIONS: u32 = @stations@;
const PLATFORMS: u32 = 10;
const LINKS: u32 = @rows@;
const ALL: u32 = STATIONS * (PLATFORMS + 1);

/// The id of a number.
fn id_of(alloc: Global, number: u32) -> Result<Id, AllocError> {
    let digits = [
        b'0' + (number / 100_000 % 10) as u8,
        b'0' + (number / 10_000 % 10) as u8,
        b'0' + (number / 1_000 % 10) as u8,
        b'0' + (number / 100 % 10) as u8,
        b'0' + (number / 10 % 10) as u8,
        b'0' + (number % 10) as u8,
    ];
    Id::copy_of(alloc, &digits)
}

/// The platforms and then the stations.
fn stops(alloc: Global) -> Result<ItemList<StopRow>, AllocError> {
    let mut stops = ItemList::empty(alloc);
    for number in 0..ALL {
        let id = id_of(alloc, number)?;
        if number < STATIONS * PLATFORMS {
            let parent = Some(StopId(STATIONS * PLATFORMS + number / PLATFORMS));
            stops.push(StopRow { id, kind: 0, parent })?;
        } else {
            stops.push(StopRow { id, kind: 1, parent: None })?;
        }
    }
    Ok(stops)
}

fn trips(alloc: Global) -> Result<ItemList<TripRow>, AllocError> {
    let mut trips = ItemList::empty(alloc);
    for number in 0..TRIPS {
        let id = id_of(alloc, number)?;
        trips.push(TripRow { id, route: RouteId(0), service: ServiceId(0) })?;
    }
    Ok(trips)
}

/// The stop times: trip by trip, or else with the rows of a trip far apart.
fn stop_times(alloc: Global, by_trip: bool) -> Result<ItemList<StopTimeRow>, AllocError> {
    let mut rows = ItemList::empty(alloc);
    for place in 0..TRIPS * CALLS {
        let row = if by_trip { place } else { (u64::from(place) * 7919 % u64::from(TRIPS * CALLS)) as u32 };
        let trip = row / CALLS;
        let call = row % CALLS;
        let time = if call % 4 == 1 { None } else { Some(14_400 + trip % 72_000 + call * 120) };
        rows.push(StopTimeRow {
            trip: TripId(trip),
            stop: StopId((trip * 131 + call) % (STATIONS * PLATFORMS)),
            sequence: call,
            arrival: time,
            departure: time,
            pickup: true,
            drop_off: true,
        })?;
    }
    Ok(rows)
}

/// Rows between platforms, and for each fifth one between stations.
fn links(alloc: Global, forbidden: bool) -> Result<ItemList<LinkRow>, AllocError> {
    let mut rows = ItemList::empty(alloc);
    for row in 0..LINKS {
        let platforms = STATIONS * PLATFORMS;
        let (from, to) = if row % 5 == 0 {
            (platforms + row / 5 % STATIONS, platforms + (row / 5 * 7 + 1) % STATIONS)
        } else if forbidden {
            (row % platforms, platforms + (row * 31 + 7) % STATIONS)
        } else {
            (row % platforms, (row * 31 + 7) % platforms)
        };
        rows.push(LinkRow {
            from: StopId(from),
            to: StopId(to),
            forbidden: forbidden && row % 5 != 0,
            seconds: 120,
        })?;
    }
    Ok(rows)
}

fn feed(alloc: Global, by_trip: bool, forbidden: bool) -> Result<Feed, AllocError> {
    Ok(Feed {
        stops: stops(alloc)?,
        routes: ItemList::empty(alloc),
        trips: trips(alloc)?,
        stop_times: stop_times(alloc, by_trip)?,
        services: ItemList::empty(alloc),
        exceptions: ItemList::empty(alloc),
        frequencies: ItemList::empty(alloc),
        links: links(alloc, forbidden)?,
        areas: ItemList::empty(alloc),
        stop_areas: ItemList::empty(alloc),
        timeframes: ItemList::empty(alloc),
        riders: ItemList::empty(alloc),
        media: ItemList::empty(alloc),
        products: ItemList::empty(alloc),
        leg_rules: ItemList::empty(alloc),
        transfer_rules: ItemList::empty(alloc),
        service_names: ItemList::empty(alloc),
        network_names: ItemList::empty(alloc),
        frame_names: ItemList::empty(alloc),
        product_names: ItemList::empty(alloc),
        group_names: ItemList::empty(alloc),
        has_priority: false,
        currency: None,
        decimals: 2,
    })
}

fn main(rt: HostRuntime) -> Result<(), Fail> {
    let alloc = rt.alloc();
    println!(rt; "what\\tmilliseconds")?;
    for by_trip in [true, false] {
        let feed = feed(alloc, by_trip, false)?;
        let start = Instant::now(&rt)?;
        let trips = Trips::build(alloc, &feed)?;
        let took = start.elapsed(&rt)?;
        println!(rt; "trips, by trip {by_trip}\\t{}", took.as_millis())?;
        drop(trips);
        drop(feed);
    }
    for forbidden in [false, true] {
        let feed = feed(alloc, true, forbidden)?;
        let start = Instant::now(&rt)?;
        let walks = Walks::build(alloc, &feed)?;
        let took = start.elapsed(&rt)?;
        println!(rt; "walks, forbidding rows {forbidden}\\t{}", took.as_millis())?;
        let mut steps = 0;
        for stop in 0..ALL {
            steps += walks.out_of(StopId(stop)).len();
        }
        println!(rt; "steps\\t{steps}")?;
        drop(walks);
        drop(feed);
    }
    Ok(())
}
"""


def copy_crates(root, scratch):
    """Copies what the program stands on, without what earlier checks left there."""
    with open(os.path.join(root, "crates.txt")) as file:
        lines = [line.rstrip("\n") for line in file if ":" in line and not line.startswith("#")]
    stands_on = {name: crates.split() for name, crates in (line.split(":") for line in lines)}
    wanted = []
    waiting = list(CALLED)
    while waiting:
        crate = waiting.pop()
        # A crate that isn't listed is one of the kit's.
        if crate in stands_on and crate not in wanted:
            wanted.append(crate)
            waiting.extend(stands_on[crate])
    with open(os.path.join(scratch, "crates.txt"), "w") as file:
        file.writelines(f"{line}\n" for line in lines if line.split(":")[0] in wanted)
        file.write(f"large_feed: {' '.join(CALLED)}\n")
    for crate in wanted:
        shutil.copytree(
            os.path.join(root, "crates", crate),
            os.path.join(scratch, "crates", crate),
            ignore=shutil.ignore_patterns("out", "must-fail", "more-edits"),
        )


def main():
    if len(sys.argv) < 4:
        sys.exit(__doc__)
    stop_times, stations, rows = (int(word) for word in sys.argv[1:4])
    seconds = sys.argv[4] if len(sys.argv) > 4 else "300"
    root = os.path.dirname(os.path.dirname(os.path.abspath(__file__)))
    with tempfile.TemporaryDirectory() as scratch:
        copy_crates(root, scratch)
        folder = os.path.join(scratch, "crates", "large_feed")
        os.makedirs(os.path.join(folder, "src"))
        text = PROGRAM.replace("@trips@", str(stop_times // CALLS))
        text = text.replace("@stations@", str(stations)).replace("@rows@", str(rows))
        with open(os.path.join(folder, "src", "main.rt"), "w") as file:
            file.write(text)
        # One step, since the interpreter, which counts them, is too slow for this.
        subprocess.run(["rt", "try", "--steps", "1", "--seconds", seconds], cwd=folder, check=False)


if __name__ == "__main__":
    main()

#!/usr/bin/env python3
"""Times the least price of legs under a large tariff.

  twelve_legs.py [LEGS]

Each of LEGS legs, 12 if it is left out, may be paid by eight leg rules of eight groups, each with a product of six rows, and
each change by twenty transfer rules of all types and limits, each with such a product too; some take back the first leg, and
some products cost less than nothing. The crates of fares are copied to a scratch folder, with a program that loads the
tariff and prices the legs, which is proved and built as any program is. It prints the price and the milliseconds of the
processor that it takes to find it.
"""
import os
import sys
import tempfile

import proved_program

# How often a run prices the legs.
ROUNDS = 100

PROGRAM = """\
//! Times the least price of legs.
#![tactic(auto)]

use fare_price::{Fares, price};
use feed_check::load;
use feed_rows::{AreaList, FrameList, LegFacts};
use folder_io::DirFolder;
use std::alloc::{AllocError, Global};
use std::env;
use std::test::Fail;
use transit_base::Moment;

fn leg(alloc: Global, departure: i64) -> LegFacts {
    LegFacts {
        network: None,
        from_areas: AreaList::empty(alloc),
        to_areas: AreaList::empty(alloc),
        from_frames: FrameList::empty(alloc),
        to_frames: FrameList::empty(alloc),
        departure: Moment(departure),
        arrival: Moment(departure),
    }
}

/// Legs that depart every seven minutes.
fn legs(alloc: Global, count: u8) -> Result<Vec<LegFacts>, AllocError> {
    let mut legs = Vec::new(alloc);
    let mut departure = 28_800i64;
    for _ in 0..count {
        legs.push(leg(alloc, departure))?;
        departure = departure.wrapping_add(420);
    }
    Ok(legs)
}

/// The words: the folder of the tariff, how many legs, and how many times they are priced.
fn main(rt: HostRuntime) -> Result<(), Fail> {
    let alloc = rt.alloc();
    let mut words = env::args(&rt)?.skip(1);
    let Some(path) = words.next() else {
        return Ok(());
    };
    let count = words.next().ok_or("legs")?.parse::<u8>().map_err(|_| "legs")?;
    let rounds = words.next().ok_or("rounds")?.parse::<u32>().map_err(|_| "rounds")?;
    let mut folder = DirFolder::new(rt, alloc, path.as_str())?;
    let Ok(feed) = load(alloc, &mut folder) else {
        return Err("no feed".into());
    };
    let fares = Fares::build(alloc, &feed)?;
    let legs = legs(alloc, count)?;
    if legs.len() > 12 {
        return Err("more than 12 legs".into());
    }
    let mut sum = 0i64;
    for _ in 0..rounds {
        if let Some(found) = price(alloc, &fares, legs.as_slice(), None)? {
            sum = found.sum.0;
        }
    }
    println!(rt; "{}", sum)?;
    Ok(())
}
"""


def write(folder, name, rows):
    with open(os.path.join(folder, name), "w", encoding="utf-8") as file:
        file.writelines(row + "\n" for row in rows)


def make(folder):
    """A feed without trips and with the tariff."""
    os.makedirs(folder)
    write(folder, "stops.txt", ["stop_id", "A"])
    write(folder, "routes.txt", ["route_id", "R"])
    write(folder, "trips.txt", ["route_id,service_id,trip_id"])
    write(folder, "stop_times.txt", ["trip_id,arrival_time,departure_time,stop_id,stop_sequence"])
    write(folder, "calendar_dates.txt", ["service_id,date,exception_type", "S,20250602,1"])
    media = [f"m{n}" for n in range(6)]
    write(folder, "fare_media.txt", ["fare_media_id,fare_media_type", *(f"{medium},2" for medium in media)])
    amounts = {f"leg{n}": 200 + 37 * n for n in range(8)} | {f"change{n}": 60 * n - 90 for n in range(20)}
    products = [
        f"{product},{medium},{'-' if cents < 0 else ''}{abs(cents) // 100}.{abs(cents) % 100:02},EUR"
        for product, least in amounts.items()
        for cents, medium in ((least + 5 * n, medium) for n, medium in enumerate(media))
    ]
    write(folder, "fare_products.txt", ["fare_product_id,fare_media_id,amount,currency", *products])
    write(folder, "fare_leg_rules.txt", ["leg_group_id,fare_product_id", *(f"g{n},leg{n}" for n in range(8))])
    changes = [f"{600 * (n + 1)},{n % 4},{n % 3},change{n}" for n in range(20)]
    write(folder, "fare_transfer_rules.txt", ["duration_limit,duration_limit_type,fare_transfer_type,fare_product_id", *changes])


def run(program, words):
    """What a run says, and the milliseconds of the processor that it took."""
    before = os.times().children_user
    said = os.popen(" ".join([program, *words])).read().strip()
    return said, 1000 * (os.times().children_user - before)


def main():
    legs = sys.argv[1] if len(sys.argv) > 1 else "12"
    with tempfile.TemporaryDirectory() as scratch:
        folder = os.path.join(scratch, "tariff")
        make(folder)
        program = proved_program.build(scratch, "twelve_legs", ["fare_price", "feed_check", "folder_io", "feed_rows", "transit_base"], PROGRAM)
        _, loading = run(program, [folder, legs, "0"])
        said, took = run(program, [folder, legs, str(ROUNDS)])
        print(f"{legs} legs\t{said}\t{(took - loading) / ROUNDS:.1f} ms")


if __name__ == "__main__":
    main()

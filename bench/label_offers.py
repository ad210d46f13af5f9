#!/usr/bin/env python3
"""Times offers of labels to bags, beside a Rust program of the same loops over std's Vec, which nothing proves.

Usage: label_offers.py [RUNS]

A million labels of an arrival, rides and a price are offered to bags that come to hold about 10, 100 or 1,000 members; a bag
takes twenty offers for each member, and then a new one takes its place. The labels are the same for all, and so is what
becomes of each: how many were kept, and how many members there were in the end.

The crates of labels are copied to a scratch folder, with a program that makes the labels and offers them, which is proved
and built as the gate does it; the Rust program is built by `rustc -O`. Both are run in turn, RUNS times, 5 if it is
left out, and the least time counts. Each line is a kind of bag, about how many members a bag comes to hold, how many of
the million were kept, the milliseconds of the processor that a million offers took in both programs, and the one divided by
the other.
"""

import os
import subprocess
import sys
import tempfile

import proved_program

# How often a run offers the million labels.
ROUNDS = 5

PROGRAM = """\
//! Times offers of labels to bags.
#![tactic(auto)]

ghost use Rattle.std.specs.Prelude.{◌<◌};

use label_bag::{Bag, ListBag, Offered, StairBag};
use label_order::{Both, Least};
use std::alloc::{AllocError, Global};
use std::env;
use std::test::Fail;

type Label = Both<Least<i64>, Both<Least<u8>, Least<i64>>>;

const OFFERS: u32 = 1_000_000;

fn next(state: u64) -> u64 {
    state
        .wrapping_mul(6_364_136_223_846_793_005)
        .wrapping_add(1_442_695_040_888_963_407)
}

/// A label whose price falls by 800 with each later arrival and by 100 with each ride, but for up to 1023.
fn label(state: u64, arrivals: u64, rides: u64) -> Label
    requires { 0 < arrivals }
{
    let arrival = (state >> 48) % arrivals;
    let ride = (state >> 40) & rides;
    let steps = arrivals
        .wrapping_sub(arrival)
        .wrapping_mul(8)
        .wrapping_add(rides)
        .wrapping_sub(ride);
    let price = steps.wrapping_mul(100).wrapping_add((state >> 20) & 1023);
    Both(
        Least((arrival & 0xffff_ffff) as i64),
        Both(Least((ride & 0xff) as u8), Least((price & 0xffff_ffff) as i64)),
    )
}

fn labels(alloc: Global, arrivals: u64, rides: u64) -> Result<Vec<Label>, AllocError>
    requires { 0 < arrivals }
{
    let mut labels = Vec::with_capacity(alloc, OFFERS as usize)?;
    let mut state = 1;
    for _ in 0..OFFERS {
        state = next(state);
        labels.push(label(state, arrivals, rides))?;
    }
    Ok(labels)
}

/// How many of the offers were kept.
fn fill<B: Bag<Label>>(bag: &mut B, labels: &[Label]) -> u64 {
    let mut kept = 0u64;
    for label in labels {
        if let Ok(Offered::Kept) = bag.offer(*label) {
            kept = kept.wrapping_add(1);
        }
    }
    kept
}

/// How many of the offers were kept, and how many members there were in the end, of all bags.
fn fill_lists(alloc: Global, labels: &[Label], each: usize) -> (u64, u64)
    requires { 0 < each }
{
    let mut kept = 0u64;
    let mut members = 0u64;
    for some in labels.chunks(each) {
        let mut bag = ListBag::new(alloc);
        kept = kept.wrapping_add(fill(&mut bag, some));
        members = members.wrapping_add(bag.len() as u64);
    }
    (kept, members)
}

fn fill_stairs(alloc: Global, labels: &[Label], each: usize) -> (u64, u64)
    requires { 0 < each }
{
    let mut kept = 0u64;
    let mut members = 0u64;
    for some in labels.chunks(each) {
        let mut bag = StairBag::new(alloc);
        kept = kept.wrapping_add(fill(&mut bag, some));
        members = members.wrapping_add(bag.len() as u64);
    }
    (kept, members)
}

/// The words: the kind of bag, how many members it comes to hold, and how many times the million labels are offered.
fn main(rt: HostRuntime) -> Result<(), Fail> {
    let alloc = rt.alloc();
    let mut words = env::args(&rt)?.skip(1);
    let Some(kind) = words.next() else {
        return Ok(());
    };
    let members = words.next().ok_or("members")?;
    let rounds = words.next().ok_or("rounds")?.parse::<u32>().map_err(|_| "rounds")?;
    let (arrivals, rides, each) = match members.as_str() {
        "10" => (5, 1, 200),
        "100" => (25, 3, 2_000),
        _ => (125, 7, 20_000),
    };
    let arrivals = u64::max(arrivals, 1);
    let each = usize::max(each, 1);
    let labels = labels(alloc, arrivals, rides)?;
    let mut found = (0, 0);
    for _ in 0..rounds {
        found = if kind.as_str() == "list" {
            fill_lists(alloc, &labels, each)
        } else {
            fill_stairs(alloc, &labels, each)
        };
    }
    println!(rt; "{} {}", found.0, found.1)?;
    Ok(())
}
"""

RUST = """\
#[derive(Clone, Copy)]
struct Label {
    arrival: i64,
    rides: u8,
    price: i64,
}

impl Label {
    fn leq(&self, other: &Label) -> bool {
        self.arrival <= other.arrival && self.rides <= other.rides && self.price <= other.price
    }
}

enum Offered {
    Kept,
    Covered(usize),
}

trait Bag {
    fn new() -> Self;
    fn offer(&mut self, label: Label) -> Offered;
    fn len(&self) -> usize;
}

struct ListBag {
    members: Vec<Label>,
}

impl Bag for ListBag {
    fn new() -> Self {
        ListBag { members: Vec::new() }
    }

    fn offer(&mut self, label: Label) -> Offered {
        if let Some(number) = self.members.iter().rposition(|m| m.leq(&label)) {
            return Offered::Covered(number);
        }
        self.members.retain(|m| !label.leq(m));
        self.members.push(label);
        Offered::Kept
    }

    fn len(&self) -> usize {
        self.members.len()
    }
}

struct Flight {
    class: u8,
    size: usize,
}

struct StairBag {
    members: Vec<Label>,
    flights: Vec<Flight>,
}

impl StairBag {
    fn flight_of(&mut self, class: u8) -> (usize, usize, usize) {
        let mut begin = 0;
        for (number, flight) in self.flights.iter().enumerate() {
            let end = begin + flight.size;
            if flight.class == class {
                return (number, begin, end);
            }
            begin = end;
        }
        self.flights.push(Flight { class, size: 0 });
        (self.flights.len() - 1, begin, begin)
    }
}

impl Bag for StairBag {
    fn new() -> Self {
        StairBag { members: Vec::new(), flights: Vec::new() }
    }

    fn offer(&mut self, label: Label) -> Offered {
        let (number, begin, end) = self.flight_of(0);
        let flight = &self.members[begin..end];
        let not_higher = flight.partition_point(|m| m.arrival <= label.arrival);
        if let Some(place) = flight[..not_higher].iter().rposition(|m| m.leq(&label)) {
            return Offered::Covered(begin + place);
        }
        let start = begin + flight.partition_point(|m| m.arrival < label.arrival);
        let others = self.members.len() - (end - begin);
        for place in (start..end).rev() {
            if label.leq(&self.members[place]) {
                self.members.remove(place);
            }
        }
        self.members.insert(start, label);
        self.flights[number].size = self.members.len() - others;
        Offered::Kept
    }

    fn len(&self) -> usize {
        self.members.len()
    }
}

fn next(state: u64) -> u64 {
    state.wrapping_mul(6_364_136_223_846_793_005).wrapping_add(1_442_695_040_888_963_407)
}

fn label(state: u64, arrivals: u64, rides: u64) -> Label {
    let arrival = (state >> 48) % arrivals;
    let ride = (state >> 40) & rides;
    let steps = (arrivals - arrival) * 8 + rides - ride;
    let price = steps * 100 + ((state >> 20) & 1023);
    Label { arrival: arrival as i64, rides: ride as u8, price: price as i64 }
}

fn fill<B: Bag>(labels: &[Label], each: usize) -> (u64, u64) {
    let (mut kept, mut members) = (0, 0);
    for some in labels.chunks(each) {
        let mut bag = B::new();
        for label in some {
            match bag.offer(*label) {
                Offered::Kept => kept += 1,
                Offered::Covered(number) => {
                    std::hint::black_box(number);
                }
            }
        }
        members += bag.len() as u64;
    }
    (kept, members)
}

fn main() {
    let words: Vec<String> = std::env::args().collect();
    let rounds: u32 = words[3].parse().unwrap();
    let (arrivals, rides, each) = match words[2].as_str() {
        "10" => (5, 1, 200),
        "100" => (25, 3, 2_000),
        _ => (125, 7, 20_000),
    };
    let mut state = 1;
    let mut labels = Vec::with_capacity(1_000_000);
    for _ in 0..1_000_000 {
        state = next(state);
        labels.push(label(state, arrivals, rides));
    }
    let mut found = (0, 0);
    for _ in 0..rounds {
        found = if words[1] == "list" {
            fill::<ListBag>(&labels, each)
        } else {
            fill::<StairBag>(&labels, each)
        };
    }
    println!("{} {}", found.0, found.1);
}
"""


def build_rust(scratch):
    source = os.path.join(scratch, "offers.rs")
    with open(source, "w") as file:
        file.write(RUST)
    subprocess.run(["rustc", "-O", "-o", os.path.join(scratch, "offers"), source], check=True)
    return os.path.join(scratch, "offers")


def run(program, kind, members):
    """What a run says, and the milliseconds of the processor that a million offers took."""
    child = subprocess.Popen([program, kind, members, str(ROUNDS)], stdout=subprocess.PIPE, text=True)
    said = child.stdout.read().strip()
    _, status, used = os.wait4(child.pid, 0)
    if status != 0:
        sys.exit(f"{program} failed")
    return said, used.ru_utime * 1000 / ROUNDS


def main():
    runs = int(sys.argv[1]) if len(sys.argv) > 1 else 5
    with tempfile.TemporaryDirectory() as scratch:
        proved = proved_program.build(scratch, "label_offers", ["label_bag", "label_order"], PROGRAM)
        programs = [proved, build_rust(scratch)]
        print("bag\tmembers\tkept\tproved\tRust\tratio")
        for kind in ["list", "stairs"]:
            for members in ["10", "100", "1000"]:
                found = [[run(program, kind, members) for program in programs] for _ in range(runs)]
                if len({said for pair in found for said, _ in pair}) != 1:
                    sys.exit("the programs differ in what they kept")
                proved, rust = (min(pair[n][1] for pair in found) for n in range(2))
                kept = found[0][0][0].split()[0]
                print(f"{kind}\t{members}\t{kept}\t{proved:.1f}\t{rust:.1f}\t{proved / rust:.2f}", flush=True)


if __name__ == "__main__":
    main()

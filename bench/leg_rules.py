#!/usr/bin/env python3
"""Times the leg rules that legs select, beside a Rust program that goes over all rules, which nothing proves.

Usage: leg_rules.py [RUNS]

A tariff of 500 leg rules with 50 areas, 5 networks and 6 timeframe groups, with and without the column `rule_priority`. The
legs are 1,000, of which each is asked for 1,000 times. Both programs add up the numbers of the rules that are selected, and
come to the same sum. Then the same thousand legs are made a thousand times from their rides, with their days at hand and
without.

The crates are copied to a scratch folder, with a program that asks them, which is proved and built as the gate does it; the
Rust program is built by `rustc -O`. Both are run in turn, RUNS times, 5 if it is left out, and the least time
counts. What a run takes without asking is taken off. Each line is what was asked, the milliseconds of the processor that a
million took in both programs, and how many times as long the second took.
"""

import os
import subprocess
import sys
import tempfile

import proved_program

# The crates that the program calls.
CALLED = ["fare_leg_rules", "fare_timeframes", "feed_check", "feed_rows", "folder_io", "transit_base"]
AREAS = 50
NETWORKS = 5
FRAMES = 6
RULES = 500

PROGRAM = """\
//! Times the leg rules that legs select.
#![tactic(auto)]

ghost use Rattle.std.specs.Prelude.{◌<◌};

use fare_leg_rules::LegRules;
use fare_timeframes::Timeframes;
use feed_check::load;
use feed_rows::{LegFacts, RideFacts};
use folder_io::DirFolder;
use std::alloc::{AllocError, Global};
use std::env;
use std::test::Fail;
use transit_base::{Moment, NetworkId, StopId};

const ASKS: u32 = 1_000_000;
const LEGS: u32 = 1_000;
/// 2025-06-02 00:00:00.
const MIDNIGHT: i64 = 1_748_822_400;

fn scattered(n: u32, factor: u32, below: u32) -> u32
    requires { 0 < below }
{
    n.wrapping_mul(factor) % below
}

fn ride(n: u32) -> RideFacts {
    let departure = MIDNIGHT + i64::from(scattered(n, 997, 86_400));
    RideFacts {
        from: StopId(scattered(n, 31, 50)),
        to: StopId(scattered(n, 17, 50)),
        network: Some(NetworkId(scattered(n, 1, 5))),
        departure: Moment(departure),
        arrival: Moment(departure + 900),
    }
}

fn legs(alloc: Global, timeframes: &Timeframes) -> Result<Vec<LegFacts>, AllocError> {
    let mut legs = Vec::with_capacity(alloc, LEGS as usize)?;
    for n in 0..LEGS {
        legs.push(timeframes.leg_facts(alloc, &ride(n))?)?;
    }
    Ok(legs)
}

/// The sum of the numbers of the rules that the leg selects.
fn sum_of(alloc: Global, rules: &LegRules, leg: &LegFacts) -> Result<u64, AllocError> {
    let mut sum = 0u64;
    for rule in rules.selected(alloc, leg)?.items() {
        sum = sum.wrapping_add(u64::from(rule.0));
    }
    Ok(sum)
}

fn select(alloc: Global, rules: &LegRules, legs: &[LegFacts]) -> Result<u64, AllocError> {
    let mut sum = 0u64;
    for n in 0..ASKS {
        if let Some(leg) = legs.get(scattered(n, 7919, LEGS) as usize) {
            sum = sum.wrapping_add(sum_of(alloc, rules, leg)?);
        }
    }
    Ok(sum)
}

/// How many of the timeframe groups hold at the departures of rides.
fn make_facts(alloc: Global, timeframes: &Timeframes) -> Result<u64, AllocError> {
    let mut sum = 0u64;
    for n in 0..ASKS {
        let leg = timeframes.leg_facts(alloc, &ride(scattered(n, 7919, LEGS)))?;
        sum = sum.wrapping_add(leg.from_frames.items().len() as u64);
    }
    Ok(sum)
}

/// The words: the feed's folder, and what is asked.
fn main(rt: HostRuntime) -> Result<(), Fail> {
    let alloc = rt.alloc();
    let mut words = env::args(&rt)?.skip(1);
    let Some(path) = words.next() else {
        return Ok(());
    };
    let asked = words.next().ok_or("asked")?;
    let mut folder = DirFolder::new(rt, alloc, path.as_str())?;
    let Ok(feed) = load(alloc, &mut folder) else {
        return Err("the feed has a fault")?;
    };
    let rules = LegRules::build(alloc, &feed)?;
    let last = Moment(MIDNIGHT + 86_400);
    let kept = Timeframes::between(alloc, &feed, Moment(MIDNIGHT), last)?;
    let plain = Timeframes::build(alloc, &feed)?;
    let legs = legs(alloc, &kept)?;
    let sum = match asked.as_str() {
        "rules" => select(alloc, &rules, legs.as_slice())?,
        "kept" => make_facts(alloc, &kept)?,
        "facts" => make_facts(alloc, &plain)?,
        _ => 0,
    };
    println!(rt; "{sum}")?;
    Ok(())
}
"""

RUST = """\
struct Rule {
    network: Option<u32>,
    from_area: Option<u32>,
    to_area: Option<u32>,
    from_frame: Option<u32>,
    priority: u32,
}

struct Leg {
    network: Option<u32>,
    from_areas: Vec<u32>,
    to_areas: Vec<u32>,
    from_frames: Vec<u32>,
}

struct Tariff {
    rules: Vec<Rule>,
    has_priority: bool,
    networks: Vec<bool>,
    from_areas: Vec<bool>,
    to_areas: Vec<bool>,
}

fn rule(n: u32) -> Rule {
    Rule {
        network: if n % 11 == 0 { None } else { Some(n % 5) },
        from_area: if n % 10 == 3 { None } else { Some(n * 7 % 50) },
        to_area: if n % 3 == 0 { None } else { Some((n * 13 + 5) % 25 * 2) },
        from_frame: if n % 2 == 0 { None } else { Some(n % 6) },
        priority: n % 4,
    }
}

fn areas(stop: u32) -> Vec<u32> {
    let mut areas = vec![stop];
    if stop % 5 == 0 {
        areas.push((stop + 1) % 50);
        areas.sort_unstable();
    }
    areas
}

fn leg(n: u32) -> Leg {
    Leg {
        network: Some(n % 5),
        from_areas: areas(n * 31 % 50),
        to_areas: areas(n * 17 % 50),
        from_frames: vec![n * 997 % 86_400 / 14_400],
    }
}

fn marks(count: usize, named: impl Iterator<Item = Option<u32>>) -> Vec<bool> {
    let mut marks = vec![false; count];
    for number in named.flatten() {
        marks[number as usize] = true;
    }
    marks
}

impl Tariff {
    fn new(has_priority: bool) -> Tariff {
        let mut rules: Vec<Rule> = (0..500).map(rule).collect();
        if !has_priority {
            rules.iter_mut().for_each(|rule| rule.priority = 0);
        }
        Tariff {
            has_priority,
            networks: marks(5, rules.iter().map(|rule| rule.network)),
            from_areas: marks(50, rules.iter().map(|rule| rule.from_area)),
            to_areas: marks(50, rules.iter().map(|rule| rule.to_area)),
            rules,
        }
    }

    fn area_fits(&self, named: &[bool], area: Option<u32>, areas: &[u32]) -> bool {
        match area {
            Some(area) => areas.contains(&area),
            None => self.has_priority || areas.iter().all(|area| !named[*area as usize]),
        }
    }

    fn matches(&self, leg: &Leg, rule: &Rule) -> bool {
        (match (rule.network, leg.network) {
            (Some(network), own) => own == Some(network),
            (None, Some(own)) => self.has_priority || !self.networks[own as usize],
            (None, None) => true,
        }) && self.area_fits(&self.from_areas, rule.from_area, &leg.from_areas)
            && self.area_fits(&self.to_areas, rule.to_area, &leg.to_areas)
            && rule.from_frame.is_none_or(|frame| leg.from_frames.contains(&frame))
    }

    fn selected(&self, leg: &Leg) -> Vec<u32> {
        let mut selected = Vec::new();
        let mut top = 0;
        for (number, rule) in self.rules.iter().enumerate() {
            if rule.priority >= top && self.matches(leg, rule) {
                if rule.priority > top {
                    selected.clear();
                    top = rule.priority;
                }
                selected.push(number as u32);
            }
        }
        selected
    }
}

fn main() {
    let words: Vec<String> = std::env::args().collect();
    let tariff = Tariff::new(words[1].ends_with("with"));
    let legs: Vec<Leg> = (0..1_000).map(leg).collect();
    let mut sum = 0u64;
    if words[2] == "rules" {
        for n in 0..1_000_000u32 {
            let leg = &legs[(n.wrapping_mul(7919) % 1_000) as usize];
            sum += tariff.selected(leg).iter().map(|rule| u64::from(*rule)).sum::<u64>();
        }
    }
    println!("{sum}");
}
"""


def write(folder, name, header, rows):
    with open(os.path.join(folder, name), "w", encoding="utf-8") as file:
        file.write(header + "\n")
        file.writelines(row + "\n" for row in rows)


def make_feed(folder, has_priority):
    """The files of the tariff, with a stop in each area, and each fifth in the next one too."""
    os.makedirs(folder)
    write(folder, "stops.txt", "stop_id,stop_name", (f"s{n},Stop {n}" for n in range(AREAS)))
    write(folder, "areas.txt", "area_id", (f"a{n}" for n in range(AREAS)))
    further = [f"a{(n + 1) % AREAS},s{n}" for n in range(0, AREAS, 5)]
    write(folder, "stop_areas.txt", "area_id,stop_id", [f"a{n},s{n}" for n in range(AREAS)] + further)
    write(folder, "routes.txt", "route_id,route_type,network_id", (f"r{n},3,n{n}" for n in range(NETWORKS)))
    write(folder, "trips.txt", "route_id,service_id,trip_id", ["r0,daily,t0"])
    times = ["t0,s0,1,08:00:00,08:00:00", "t0,s1,2,08:10:00,08:10:00"]
    write(folder, "stop_times.txt", "trip_id,stop_id,stop_sequence,arrival_time,departure_time", times)
    days = "monday,tuesday,wednesday,thursday,friday,saturday,sunday"
    write(folder, "calendar.txt", f"service_id,{days},start_date,end_date", ["daily,1,1,1,1,1,1,1,20250101,20251231"])
    frames = (f"f{n},{4 * n:02}:00:00,{4 * n + 4:02}:00:00,daily" for n in range(FRAMES))
    write(folder, "timeframes.txt", "timeframe_group_id,start_time,end_time,service_id", frames)
    write(folder, "fare_products.txt", "fare_product_id,amount,currency", (f"p{n},{n}.00,EUR" for n in range(10)))

    def rule(n):
        network = "" if n % 11 == 0 else f"n{n % 5}"
        from_area = "" if n % 10 == 3 else f"a{n * 7 % 50}"
        to_area = "" if n % 3 == 0 else f"a{(n * 13 + 5) % 25 * 2}"
        frame = "" if n % 2 == 0 else f"f{n % 6}"
        priority = f",{n % 4}" if has_priority else ""
        return f"g,{network},{from_area},{to_area},{frame},,p{n // 50}{priority}"

    columns = "leg_group_id,network_id,from_area_id,to_area_id,from_timeframe_group_id,to_timeframe_group_id,fare_product_id"
    priority = ",rule_priority" if has_priority else ""
    write(folder, "fare_leg_rules.txt", columns + priority, map(rule, range(RULES)))


def build_rust(scratch):
    source = os.path.join(scratch, "rules.rs")
    with open(source, "w") as file:
        file.write(RUST)
    program = os.path.join(scratch, "rules")
    subprocess.run(["rustc", "-O", "-o", program, source], check=True)
    return program


def run(program, feed, asked):
    """What a run says, and the milliseconds of the processor that it took."""
    child = subprocess.Popen([program, feed, asked], stdout=subprocess.PIPE, text=True)
    said = child.stdout.read().strip()
    _, status, used = os.wait4(child.pid, 0)
    if status != 0:
        sys.exit(f"{program} failed")
    return said, used.ru_utime * 1000


def least(runs, program, feed, asked):
    found = [run(program, feed, asked) for _ in range(runs)]
    return found[0][0], min(took for _, took in found)


def main():
    runs = int(sys.argv[1]) if len(sys.argv) > 1 else 5
    with tempfile.TemporaryDirectory() as scratch:
        feeds = {kind: os.path.join(scratch, kind) for kind in ["without", "with"]}
        for kind, feed in feeds.items():
            make_feed(feed, kind == "with")
        proved = proved_program.build(scratch, "leg_rules", CALLED, PROGRAM)
        rust = build_rust(scratch)
        print("asked\tproved\tbeside it\tratio")
        for kind, feed in feeds.items():
            nothing = [least(runs, program, feed, "nothing")[1] for program in (proved, rust)]
            found = [least(runs, program, feed, "rules") for program in (proved, rust)]
            if found[0][0] != found[1][0]:
                sys.exit(f"the programs differ in what they selected: {found[0][0]} and {found[1][0]}")
            took = [max(found[n][1] - nothing[n], 0.1) for n in range(2)]
            print(f"rules, {kind} priorities\t{took[0]:.0f}\t{took[1]:.0f}\t{took[1] / took[0]:.1f}", flush=True)
        nothing = least(runs, proved, feeds["with"], "nothing")[1]
        found = [least(runs, proved, feeds["with"], asked) for asked in ("kept", "facts")]
        if found[0][0] != found[1][0]:
            sys.exit("the legs differ with their days at hand")
        took = [max(each[1] - nothing, 0.1) for each in found]
        print(f"legs, with days at hand and without\t{took[0]:.0f}\t{took[1]:.0f}\t{took[1] / took[0]:.1f}", flush=True)


if __name__ == "__main__":
    main()

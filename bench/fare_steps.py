#!/usr/bin/env python3
"""Times steps from fare states, beside a Rust program that walks the same tables, which nothing proves.

Usage: fare_steps.py [RUNS]

A tariff of 60 leg rules with 6 leg groups, 10 transfer rules and 18 products. The legs are 1,000; from 1,000 fare states a
step is made by each, after what can be paid for the leg was asked once. Both programs add up what the moves say, and come to the
same sum.

The crates are copied to a scratch folder, with a program that asks them, which is proved and built as the gate does it; the
Rust program is built by `rustc -O`. Both are run in turn, RUNS times, 5 if it is left out, and the least time counts. What a run
takes without steps is taken off. The line is the milliseconds of the processor that the million steps took in both programs, and
how many times as long the first took.
"""

import os
import subprocess
import sys
import tempfile

import proved_program

# The crates that the program calls.
CALLED = ["fare_automaton", "fare_timeframes", "feed_check", "feed_rows", "folder_io", "transit_base"]
AREAS = 4
NETWORKS = 5
GROUPS = 6
RULES = 60
PRODUCTS = 18

PROGRAM = """\
//! Times steps from fare states.
#![tactic(auto)]

ghost use Rattle.std.specs.Prelude.{◌≤◌, ◌^◌, nat_abs};

use fare_automaton::{Automaton, LegTimes};
use fare_timeframes::Timeframes;
use feed_check::load;
use feed_rows::{FareState, LegFacts, Move, RideFacts};
use folder_io::DirFolder;
use std::alloc::{AllocError, Global};
use std::env;
use std::test::Fail;
use transit_base::{Moment, Money, NetworkId, StopId};

const LEGS: u32 = 1_000;
const STATES: usize = 1_000;
/// 2025-06-02 00:00:00.
const MIDNIGHT: i64 = 1_748_822_400;

/// Where fares stand after some legs.
#[derive(Clone, Copy)]
struct Stand {
    state: FareState,
    held: Money,
}

fn ride(n: u32) -> RideFacts {
    let departure = MIDNIGHT + i64::from(n.wrapping_mul(997) % 86_400);
    RideFacts {
        from: StopId(n % 4),
        to: StopId(n.wrapping_add(1) % 4),
        network: Some(NetworkId(n % 5)),
        departure: Moment(departure),
        arrival: Moment(departure + 900),
    }
}

fn legs(alloc: Global, timeframes: &Timeframes) -> Result<Vec<LegFacts>, AllocError> {
    let mut legs = Vec::with_capacity(alloc, LEGS as usize)?;
    for n in 0..LEGS {
        legs.push(timeframes.leg_facts(alloc, &ride(n))?)?;
    }
    Ok(legs)
}

/// The amount, which is no more than any of these tariffs has.
fn low(held: Money) -> Money
    ensures { nat_abs result.0 ≤ 10 ^ 16 }
{
    if held.0 > -100_000 && held.0 < 100_000 {
        held
    } else {
        Money(0)
    }
}

fn push_stands(stands: &mut Vec<Stand>, moves: &[Move], most: usize) -> Result<(), AllocError> {
    for step in moves {
        if stands.len() < most {
            stands.push(Stand {
                state: step.state,
                held: step.held,
            })?;
        }
    }
    Ok(())
}

/// Stands after one leg, and after two.
fn stands(
    alloc: Global,
    automaton: &Automaton,
    legs: &[LegFacts],
) -> Result<Vec<Stand>, AllocError> {
    let mut stands = Vec::new(alloc);
    for leg in legs {
        push_stands(&mut stands, automaton.start(alloc, leg)?.items(), STATES / 2)?;
    }
    for n in 0..STATES / 2 {
        if let (Some(stand), Some(leg)) = (stands.get(n), legs.get(n)) {
            let moves = automaton.step(alloc, &stand.state, low(stand.held), leg)?;
            push_stands(&mut stands, moves.items(), STATES)?;
        }
    }
    Ok(stands)
}

fn sum_of(moves: &[Move]) -> i64 {
    let mut sum = 0i64;
    for step in moves {
        let rows = i64::from(step.rule.0.wrapping_mul(11).wrapping_add(step.product.0));
        sum = sum
            .wrapping_add(step.paid.0)
            .wrapping_add(step.held.0.wrapping_mul(3))
            .wrapping_add(i64::from(step.state.count))
            .wrapping_add(rows);
    }
    sum
}

fn steps(
    alloc: Global,
    automaton: &Automaton,
    legs: &[LegFacts],
    stands: &[Stand],
) -> Result<i64, AllocError> {
    let mut places = Vec::new(alloc);
    let mut moves = Vec::new(alloc);
    let mut sum = 0i64;
    for leg in legs {
        let options = automaton.options(alloc, leg)?;
        let times = LegTimes {
            departure: leg.departure,
            arrival: leg.arrival,
        };
        for stand in stands {
            automaton.step_into(
                &stand.state,
                low(stand.held),
                times,
                &options,
                &mut places,
                &mut moves,
            )?;
            sum = sum.wrapping_add(sum_of(&moves));
        }
    }
    Ok(sum)
}

/// The words: the feed's folder, and what is asked.
fn main(rt: HostRuntime) -> Result<(), Fail> {
    let alloc = rt.alloc();
    let mut words = env::args(&rt)?.skip(1);
    let Some(path) = words.next() else {
        return Ok(());
    };
    let asked = words.next().ok_or("asked")?;
    let mut folder = DirFolder::new(rt, alloc, path.as_str())?;
    let Ok(feed) = load(alloc, &mut folder) else {
        return Err("the feed has a fault")?;
    };
    let timeframes = Timeframes::build(alloc, &feed)?;
    let legs = legs(alloc, &timeframes)?;
    let automaton = Automaton::compile(alloc, &feed, None)?;
    let stands = stands(alloc, &automaton, legs.as_slice())?;
    let sum = match asked.as_str() {
        "steps" => steps(alloc, &automaton, legs.as_slice(), stands.as_slice())?,
        _ => 0,
    };
    println!(rt; "{sum}")?;
    Ok(())
}
"""

RUST = """\
#[derive(Clone, Copy, PartialEq)]
struct State {
    group: u32,
    count: u32,
    departure: Option<i64>,
    arrival: Option<i64>,
    first: bool,
}

#[derive(Clone, Copy)]
struct Place {
    rule: u32,
    product: Option<u32>,
}

#[allow(dead_code)]
#[derive(Clone, Copy)]
struct Move {
    state: State,
    paid: i64,
    held: i64,
    rule: u32,
    product: u32,
    place: Option<Place>,
}

struct Row {
    from: Option<u32>,
    to: Option<u32>,
    count: Option<u32>,
    limit: Option<(i64, u8)>,
    kind: u8,
    product: Option<u32>,
}

#[derive(Clone, Copy)]
struct Leg {
    network: u32,
    area: u32,
    departure: i64,
    arrival: i64,
}

#[derive(Clone, Copy, Default)]
struct Reads {
    greatest: u32,
    departure: bool,
    arrival: bool,
}

struct Tariff {
    amounts: Vec<i64>,
    product_rows: Vec<Vec<u32>>,
    rows: Vec<Row>,
    between: Vec<Vec<u32>>,
    reads: Vec<Reads>,
}

const GROUPS: u32 = 6;

fn row(from: i32, to: i32, count: u32, limit: i64, limit_kind: u8, kind: u8, product: i32) -> Row {
    let named = |number: i32| if number < 0 { None } else { Some(number as u32) };
    Row {
        from: named(from),
        to: named(to),
        count: if count == 0 { None } else { Some(count) },
        limit: if limit == 0 { None } else { Some((limit, limit_kind)) },
        kind,
        product: named(product),
    }
}

fn transfer_rows() -> Vec<Row> {
    vec![
        row(0, 0, 1, 3600, 0, 0, -1),
        row(0, 0, 3, 5400, 1, 0, 1),
        row(1, 1, 2, 3600, 3, 0, -1),
        row(0, 1, 0, 0, 0, 1, 2),
        row(1, 0, 0, 1800, 2, 2, 3),
        row(2, 2, 4, 7200, 0, 0, -1),
        row(2, 3, 0, 0, 0, 0, 4),
        row(3, 3, 1, 3600, 1, 0, -1),
        row(4, -1, 0, 3600, 0, 1, -1),
        row(-1, 5, 0, 0, 0, 0, 5),
    ]
}

impl Tariff {
    fn new() -> Tariff {
        let mut amounts = Vec::new();
        let mut product_rows = Vec::new();
        for product in 0..18 {
            let mut own = vec![amounts.len() as u32];
            amounts.push(100 + 37 * product);
            if product % 3 == 0 {
                own.push(amounts.len() as u32);
                amounts.push(90 + 37 * product);
            }
            product_rows.push(own);
        }
        let rows = transfer_rows();
        let fits = |own: Option<u32>, group: u32, side: fn(&Row) -> Option<u32>| match own {
            Some(named) => named == group,
            None => rows.iter().all(|row| side(row) != Some(group)),
        };
        let from_fits = |row: &Row, group: u32| fits(row.from, group, |other| other.from);
        let to_fits = |row: &Row, group: u32| fits(row.to, group, |other| other.to);
        let mut between = Vec::new();
        let mut reads = Vec::new();
        for from in 0..GROUPS {
            let mut own = Reads::default();
            for to in 0..GROUPS {
                let found: Vec<u32> = (0..rows.len() as u32)
                    .filter(|n| from_fits(&rows[*n as usize], from) && to_fits(&rows[*n as usize], to))
                    .collect();
                for n in &found {
                    let row = &rows[*n as usize];
                    if from == to {
                        own.greatest = own.greatest.max(row.count.unwrap_or(0));
                    }
                }
                between.push(found);
            }
            for row in rows.iter().filter(|row| from_fits(row, from)) {
                if let Some((_, kind)) = row.limit {
                    own.departure |= kind <= 1;
                    own.arrival |= kind > 1;
                }
            }
            reads.push(own);
        }
        Tariff { amounts, product_rows, rows, between, reads }
    }

    fn options(&self, leg: &Leg) -> Vec<(u32, u32)> {
        let mut options = Vec::new();
        for rule in 0..60u32 {
            if rule % 5 == leg.network && rule % 4 == leg.area {
                for row in &self.product_rows[(rule % 18) as usize] {
                    options.push((rule, *row));
                }
            }
        }
        options
    }

    fn fresh(&self, group: u32, leg: &Leg, first: bool) -> State {
        let reads = &self.reads[group as usize];
        State {
            group,
            count: 0,
            departure: reads.departure.then_some(leg.departure),
            arrival: reads.arrival.then_some(leg.arrival),
            first,
        }
    }

    fn suits(&self, row: &Row, state: &State, count: u32, leg: &Leg) -> bool {
        let holds = match row.limit {
            None => true,
            Some((seconds, kind)) => {
                let from = if kind <= 1 { state.departure } else { state.arrival };
                let to = if kind == 0 || kind == 3 { leg.arrival } else { leg.departure };
                from.is_some_and(|from| to - from <= seconds)
            }
        };
        holds && row.count.is_none_or(|most| count <= most)
    }

    fn start(&self, leg: &Leg, moves: &mut Vec<Move>) {
        moves.clear();
        for (rule, product) in self.options(leg) {
            moves.push(Move {
                state: self.fresh(rule % GROUPS, leg, true),
                paid: 0,
                held: self.amounts[product as usize],
                rule,
                product,
                place: None,
            });
        }
    }

    fn places(&self, state: &State, group: u32, leg: &Leg, places: &mut Vec<Option<Place>>) {
        places.clear();
        let count = if state.group == group { state.count + 1 } else { 1 };
        let among = &self.between[(state.group * GROUPS + group) as usize];
        let mut least: Option<Option<u32>> = None;
        for n in among {
            let row = &self.rows[*n as usize];
            if self.suits(row, state, count, leg) {
                least = match (least, row.count) {
                    (Some(Some(a)), Some(b)) => Some(Some(a.min(b))),
                    (Some(Some(a)), None) => Some(Some(a)),
                    (_, own) => Some(own),
                };
            }
        }
        let Some(least) = least else {
            places.push(None);
            return;
        };
        for n in among {
            let row = &self.rows[*n as usize];
            if row.count == least && self.suits(row, state, count, leg) {
                match row.product {
                    None => places.push(Some(Place { rule: *n, product: None })),
                    Some(product) => {
                        for own in &self.product_rows[product as usize] {
                            places.push(Some(Place { rule: *n, product: Some(*own) }));
                        }
                    }
                }
            }
        }
    }

    fn step(
        &self,
        state: &State,
        held: i64,
        leg: &Leg,
        options: &[(u32, u32)],
        places: &mut Vec<Option<Place>>,
        moves: &mut Vec<Move>,
    ) {
        moves.clear();
        for (rule, product) in options {
            let group = rule % GROUPS;
            self.places(state, group, leg, places);
            for place in places.iter() {
                let amount = self.amounts[*product as usize];
                let charge = place.and_then(|p| p.product).map_or(0, |row| self.amounts[row as usize]);
                let kind = place.map(|p| self.rows[p.rule as usize].kind);
                let next = if place.is_some() && state.group == group {
                    let most = self.reads[group as usize].greatest;
                    State { count: most.min(state.count) + 1, first: false, ..*state }
                } else {
                    self.fresh(group, leg, place.is_none())
                };
                moves.push(Move {
                    state: next,
                    paid: match kind {
                        None => held + charge,
                        Some(2) => charge,
                        Some(0) => held + charge,
                        Some(_) => held + charge + amount,
                    },
                    held: if kind.is_none() { amount } else { 0 },
                    rule: *rule,
                    product: *product,
                    place: *place,
                });
            }
        }
    }
}

fn leg(n: u32) -> Leg {
    let departure = 1_748_822_400 + i64::from(n * 997 % 86_400);
    Leg { network: n % 5, area: n % 4, departure, arrival: departure + 900 }
}

fn push_stands(stands: &mut Vec<(State, i64)>, moves: &[Move], most: usize) {
    for step in moves {
        if stands.len() < most {
            stands.push((step.state, step.held));
        }
    }
}

fn main() {
    let words: Vec<String> = std::env::args().collect();
    let tariff = Tariff::new();
    let legs: Vec<Leg> = (0..1_000).map(leg).collect();
    let (mut places, mut moves) = (Vec::new(), Vec::new());
    let mut stands = Vec::new();
    for leg in &legs {
        tariff.start(leg, &mut moves);
        push_stands(&mut stands, &moves, 500);
    }
    for n in 0..500 {
        let (state, held) = stands[n];
        let options = tariff.options(&legs[n]);
        tariff.step(&state, held, &legs[n], &options, &mut places, &mut moves);
        push_stands(&mut stands, &moves, 1_000);
    }
    let mut sum = 0i64;
    if words[2] == "steps" {
        for leg in &legs {
            let options = tariff.options(leg);
            for (state, held) in &stands {
                tariff.step(state, *held, leg, &options, &mut places, &mut moves);
                for step in &moves {
                    let rows = i64::from(step.rule.wrapping_mul(11).wrapping_add(step.product));
                    sum = sum
                        .wrapping_add(step.paid)
                        .wrapping_add(step.held.wrapping_mul(3))
                        .wrapping_add(i64::from(step.state.count))
                        .wrapping_add(rows);
                }
            }
        }
    }
    println!("{sum}");
}
"""


def write(folder, name, header, rows):
    with open(os.path.join(folder, name), "w", encoding="utf-8") as file:
        file.write(header + "\n")
        file.writelines(row + "\n" for row in rows)


def make_feed(folder):
    """The files of the tariff, with a stop in each area."""
    os.makedirs(folder)
    write(folder, "stops.txt", "stop_id,stop_name", (f"s{n},Stop {n}" for n in range(AREAS)))
    write(folder, "areas.txt", "area_id", (f"a{n}" for n in range(AREAS)))
    write(folder, "stop_areas.txt", "area_id,stop_id", (f"a{n},s{n}" for n in range(AREAS)))
    write(folder, "routes.txt", "route_id,route_type,network_id", (f"r{n},3,n{n}" for n in range(NETWORKS)))
    write(folder, "trips.txt", "route_id,service_id,trip_id", ["r0,daily,t0"])
    times = ["t0,s0,1,08:00:00,08:00:00", "t0,s1,2,08:10:00,08:10:00"]
    write(folder, "stop_times.txt", "trip_id,stop_id,stop_sequence,arrival_time,departure_time", times)
    days = "monday,tuesday,wednesday,thursday,friday,saturday,sunday"
    write(folder, "calendar.txt", f"service_id,{days},start_date,end_date", ["daily,1,1,1,1,1,1,1,20250101,20251231"])
    write(folder, "fare_media.txt", "fare_media_id,fare_media_type", ["card,2"])
    rows = []
    for n in range(PRODUCTS):
        rows.append(f"p{n},,{(100 + 37 * n) / 100:.2f},EUR")
        if n % 3 == 0:
            rows.append(f"p{n},card,{(90 + 37 * n) / 100:.2f},EUR")
    write(folder, "fare_products.txt", "fare_product_id,fare_media_id,amount,currency", rows)
    rules = (f"g{n % GROUPS},n{n % NETWORKS},a{n % AREAS},p{n % PRODUCTS}" for n in range(RULES))
    write(folder, "fare_leg_rules.txt", "leg_group_id,network_id,from_area_id,fare_product_id", rules)
    columns = "from_leg_group_id,to_leg_group_id,transfer_count,duration_limit,duration_limit_type,fare_transfer_type,fare_product_id"
    changes = [
        "g0,g0,1,3600,0,0,",
        "g0,g0,3,5400,1,0,p1",
        "g1,g1,2,3600,3,0,",
        "g0,g1,,,,1,p2",
        "g1,g0,,1800,2,2,p3",
        "g2,g2,4,7200,0,0,",
        "g2,g3,,,,0,p4",
        "g3,g3,1,3600,1,0,",
        "g4,,,3600,0,1,",
        ",g5,,,,0,p5",
    ]
    write(folder, "fare_transfer_rules.txt", columns, changes)


def build_rust(scratch):
    source = os.path.join(scratch, "steps.rs")
    with open(source, "w") as file:
        file.write(RUST)
    program = os.path.join(scratch, "steps")
    subprocess.run(["rustc", "-O", "-o", program, source], check=True)
    return program


def run(program, feed, asked):
    """What a run says, and the milliseconds of the processor that it took."""
    child = subprocess.Popen([program, feed, asked], stdout=subprocess.PIPE, text=True)
    said = child.stdout.read().strip()
    _, status, used = os.wait4(child.pid, 0)
    if status != 0:
        sys.exit(f"{program} failed")
    return said, used.ru_utime * 1000


def least(runs, program, feed, asked):
    found = [run(program, feed, asked) for _ in range(runs)]
    return found[0][0], min(took for _, took in found)


def main():
    runs = int(sys.argv[1]) if len(sys.argv) > 1 else 5
    with tempfile.TemporaryDirectory() as scratch:
        feed = os.path.join(scratch, "feed")
        make_feed(feed)
        proved = proved_program.build(scratch, "fare_steps", CALLED, PROGRAM)
        rust = build_rust(scratch)
        nothing = [least(runs, program, feed, "nothing")[1] for program in (proved, rust)]
        found = [least(runs, program, feed, "steps") for program in (proved, rust)]
        if found[0][0] != found[1][0]:
            sys.exit(f"the programs differ in their moves: {found[0][0]} and {found[1][0]}")
        took = [max(found[n][1] - nothing[n], 0.1) for n in range(2)]
        print("steps\tproved\tbeside it\tratio")
        print(f"1000000\t{took[0]:.0f}\t{took[1]:.0f}\t{took[0] / took[1]:.2f}", flush=True)


if __name__ == "__main__":
    main()

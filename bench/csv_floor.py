#!/usr/bin/env python3
"""Times the splitting of a feed's files by csv alone: the floor beneath `check`.

  csv_floor.py FOLDER [PROGRAM WORD ..]

The program that splits the records of all files of the folder and does nothing else with them is built in a scratch folder.
It runs in turn with the program that is named behind the folder, a dozen times each. The least seconds of the processor count;
they are printed with the greatest megabytes and, of the second program, the ratio to the first.
"""
import os
import sys
import tempfile

import proved_program

ROUNDS = 12

PROGRAM = """\
//! Splits the records of files.
#![tactic(auto)]

use csv::{ByteRecord, ReaderBuilder};
use std::env;
use std::test::Fail;

/// The words: the files.
fn main(rt: HostRuntime) -> Result<(), Fail> {
    let alloc = rt.alloc();
    let mut fields = 0u64;
    for path in env::args(&rt)?.skip(1) {
        let mut reader = ReaderBuilder::new()
            .has_headers(false)
            .flexible(true)
            .from_path(&rt, alloc, path.as_str())
            .map_err(|_| "open")?;
        let mut row = ByteRecord::new(alloc);
        for _ in 0..100_000_000u32 {
            if !reader.read_byte_record(&mut row).map_err(|_| "read")? {
                break;
            }
            fields = fields.wrapping_add(row.len() as u64);
        }
    }
    println!(rt; "{}", fields)?;
    Ok(())
}
"""


def run(words):
    """The seconds of the processor and the greatest megabytes of a run."""
    child = os.fork()
    if child == 0:
        os.dup2(os.open(os.devnull, os.O_WRONLY), 1)
        os.execvp(words[0], words)
    _, _, used = os.wait4(child, 0)
    return used.ru_utime + used.ru_stime, used.ru_maxrss // 1024


def main():
    folder, words = sys.argv[1], sys.argv[2:]
    with tempfile.TemporaryDirectory() as scratch:
        floor = [proved_program.build(scratch, "csv_floor", ["csv"], PROGRAM)]
        floor += [os.path.join(folder, name) for name in sorted(os.listdir(folder))]
        runs = [(run(floor), run(words) if words else (0, 0)) for _ in range(ROUNDS)]
    least = [min(it[n][0] for it in runs) for n in (0, 1)]
    most = [max(it[n][1] for it in runs) for n in (0, 1)]
    print(f"floor\t{least[0]:.3f} s\t{most[0]} MB")
    if words:
        print(f"{' '.join(words[1:])}\t{least[1]:.3f} s\t{most[1]} MB\t{least[1] / least[0]:.2f}")


if __name__ == "__main__":
    main()

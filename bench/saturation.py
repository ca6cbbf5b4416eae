#!/usr/bin/env python3
"""Makes cases of 1,000, 10,000 and 40,000 classes a side, saturates them, tests their rows down the ranks, and runs a
plain unproved program on the same files in the same run: `saturation.py YARDSTICK [CLASSES ..]`.

YARDSTICK is a folder with `make_case.py CLASSES SEED FOLDER`, which writes `left.ofn`, `right.ofn` and `map.sssom.tsv`,
and with `greedy.cpp`, which decides the same rows (`greedy --closed LEFT RIGHT MAP`, with all facts that a closed table
holds) and says on standard error how many seconds it took so far, and how many facts it has. Both programs run by turns.
Of three runs each, the least seconds and the largest memory count. This program's is proved and built in a temporary
repository first, which is not measured.
"""

import os
import pathlib
import re
import subprocess
import sys
import tempfile

from driver import built_driver

DRIVER = """//! Reads a case, starts it, and tests its rows down the ranks.
#![tactic(auto)]

ghost use Rattle.std.specs.Prelude.{◌<◌, All, IsTrue};

use anyhow::Result;
use case_load::{LoadFault, Loaded, assemble};
use closed_model::ClosedTable;
use fact_table::FactsByPlace;
use ofn_axiom::Mode;
use saturate::{Verdict, start, test};
use std::alloc::{AllocError, Global};
use std::fs;
use std::time::Instant;
use text_names::Limits;

// The most kilobytes that the process has held so far.
fn peak(rt: &HostRuntime) -> Result<u32> {
    let status = fs::read_to_string(rt, "/proc/self/status")?;
    for line in status.as_str().lines() {
        let Some(rest) = line.strip_prefix("VmHWM:") else {
            continue;
        };
        let Some(number) = rest.trim().split(' ').next() else {
            continue;
        };
        return Ok(number.parse::<u32>()?);
    }
    Ok(0)
}

fn made(alloc: Global, left: &[u8], right: &[u8], map: &[u8]) -> Result<Loaded, LoadFault> {
    let limits = Limits::standard();
    if left.len() >= 0x8000_0000 || right.len() >= 0x8000_0000 || map.len() >= 0x8000_0000 {
        return Err(LoadFault::OutOfMemory);
    }
    if limits.depth > 256 {
        return Err(LoadFault::OutOfMemory);
    }
    assemble(alloc, left, right, map, Mode::Strict, &limits)
}

// All of these ranks are below one.
fn are_before(ranks: &[u32], rank: u32) -> bool
    ensures { IsTrue result → All (λ old. old < rank) ranks.now }
{
    ranks.iter().all(|old| *old < rank)
}

// The verdict on one more rank.
fn tested(alloc: Global, table: &ClosedTable, rank: u32) -> Result<Verdict, AllocError> {
    if rank >= table.case().ranks() {
        return Err(AllocError);
    }
    if !are_before(table.ranks(), rank) {
        return Err(AllocError);
    }
    test(alloc, table, rank)
}

// The table of the ranks that are kept.
fn chosen(alloc: Global, first: ClosedTable) -> Result<ClosedTable, AllocError> {
    let mut table = first;
    for rank in 0..table.case().ranks() {
        match tested(alloc, &table, rank)? {
            Verdict::Yes(next) => table = next,
            Verdict::No(_) => {}
        }
    }
    Ok(table)
}

fn print(rt: &HostRuntime, what: &str, begin: Instant, count: usize) -> Result<()> {
    let took = begin.elapsed(rt)?.as_micros();
    let most = peak(rt)?;
    println!(rt; "{what} {took} {most} {count}")?;
    Ok(())
}

// The case of the files in this folder. The texts are given up.
fn read_case(rt: &HostRuntime) -> Result<Loaded> {
    let left = fs::read(rt, "left.ofn")?;
    let right = fs::read(rt, "right.ofn")?;
    let map = fs::read(rt, "map.sssom.tsv")?;
    let loaded = made(
        rt.alloc(),
        left.as_slice(),
        right.as_slice(),
        map.as_slice(),
    )?;
    Ok(loaded)
}

fn read(rt: &HostRuntime) -> Result<Loaded> {
    let begin = Instant::now(rt)?;
    let loaded = read_case(rt)?;
    print(rt, "read", begin, loaded.case.store().nodes() as usize)?;
    Ok(loaded)
}

fn started(rt: &HostRuntime, loaded: &Loaded) -> Result<ClosedTable> {
    let begin = Instant::now(rt)?;
    let table = start(rt.alloc(), &loaded.case)?;
    print(rt, "start", begin, table.base().len())?;
    Ok(table)
}

fn tested_all(rt: &HostRuntime, first: ClosedTable) -> Result<ClosedTable> {
    let begin = Instant::now(rt)?;
    let table = chosen(rt.alloc(), first)?;
    print(rt, "test", begin, table.base().len())?;
    Ok(table)
}

fn main(rt: HostRuntime) -> Result<()> {
    let loaded = read(&rt)?;
    let first = started(&rt, &loaded)?;
    let table = tested_all(&rt, first)?;
    println!(&rt; "kept 0 0 {}", table.ranks().len())?;
    Ok(())
}
"""

CRATES = ["saturate", "case_load", "closed_model", "case_file", "fact_layers", "fact_table", "ofn_axiom", "text_names", "anyhow"]
NAME = "bench_saturation"
RUNS = 3


def measured(words, case):
    """What a program printed on both outputs in the folder of a case, and the most bytes that it held."""
    run = subprocess.Popen(words, cwd=case, stdout=subprocess.PIPE, stderr=subprocess.PIPE, text=True)
    out, err = run.stdout.read(), run.stderr.read()
    _, status, usage = os.wait4(run.pid, 0)
    if os.waitstatus_to_exitcode(status) != 0:
        sys.exit(out + err)
    return out, err, usage.ru_maxrss * 1024


def ours(program, case):
    """Seconds, facts and peak memory of reading, starting and testing."""
    out, _, _ = measured([program], case)
    rows = [line.split() for line in out.splitlines()]
    return {what: (int(took) / 1e6, int(count), int(peak) * 1024) for what, took, peak, count in rows}


def theirs(program, case):
    """The same of the plain program. Its seconds count from its start."""
    _, err, peak = measured([program, "--closed", "left.ofn", "right.ofn", "map.sssom.tsv"], case)
    times = {what: float(time) for what, time in re.findall(r"^(\w+) +([\d.]+) s", err, re.MULTILINE)}
    facts = [int(count) for count in re.findall(r"facts (\d+)", err)]
    return {
        "read": (times["read"], 0, peak),
        "start": (times["base"] - times["read"], facts[0], peak),
        "test": (times["rows"] - times["base"], facts[-1], peak),
    }


def best(runs):
    return {what: (min(run[what][0] for run in runs), runs[0][what][1], max(run[what][2] for run in runs)) for what in runs[0]}


def told(name, took):
    parts = [f"{what} {took[what][0]:.2f} s" for what in ("read", "start", "test")]
    whole = sum(took[what][0] for what in ("read", "start", "test"))
    facts = f"{took['start'][1]} and then {took['test'][1]} facts"
    return f"  {name}: {', '.join(parts)}, together {whole:.2f} s; {facts}; peak {took['test'][2] / 1e6:.0f} MB"


def ratio(one, other):
    seconds = [sum(took[what][0] for what in ("read", "start", "test")) for took in (one, other)]
    tests = [sum(took[what][0] for what in ("start", "test")) for took in (one, other)]
    memory = one["test"][2] / other["test"][2]
    return f"  ratio: {seconds[0] / seconds[1]:.2f} of seconds, {tests[0] / tests[1]:.2f} without reading, {memory:.2f} of memory"


def compare(program, plain, case):
    runs = [(ours(program, case), theirs(plain, case)) for _ in range(RUNS)]
    one, other = best([run[0] for run in runs]), best([run[1] for run in runs])
    print(told("this", one), told("plain", other), ratio(one, other), sep="\n", flush=True)


def main():
    yardstick = pathlib.Path(sys.argv[1]).resolve()
    sizes = [int(word) for word in sys.argv[2:]] or [1_000, 10_000, 40_000]
    with tempfile.TemporaryDirectory() as folder:
        root = pathlib.Path(folder)
        program = built_driver(root, NAME, DRIVER, CRATES)
        plain = root / "plain"
        subprocess.run(["c++", "-std=c++17", "-O2", "-o", plain, yardstick / "greedy.cpp"], check=True)
        for classes in sizes:
            case = root / f"case{classes}"
            subprocess.run([sys.executable, yardstick / "make_case.py", str(classes), "1", case], check=True, stdout=subprocess.DEVNULL)
            print(f"{classes} classes a side")
            compare(program, plain, case)


if __name__ == "__main__":
    main()

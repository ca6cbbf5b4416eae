#!/usr/bin/env python3
"""Fills tables of facts and prints what one operation costs: in one table, and through layers after 10,000 tops.

An insertion is counted with the look-up before it, over room that was made before. A step leads from a fact to the one
before it in its group. A top has 40 facts, and its time goes from the share of its base to its freeze, or to its drop.
The bytes of a fact are the peak memory of the process over the number of facts. The program is proved and built in a
temporary repository first, which is not measured.
"""

import os
import pathlib
import subprocess
import sys
import tempfile

from driver import built_driver

DRIVER = """#![tactic(auto)]

ghost use Rattle.std.specs.Prelude.{◌≡◌};

use fact_layers::{Base, Layers};
use fact_table::{
    Fact, FactGroup, FactSide, Facts, FactsByPlace, FlatFacts, Proved, Reason, Rule, Source,
};
use std::alloc::{AllocError, Global};
use std::rt::Clock;
use std::time::Instant;
use std::{env, io};

const TOPS: u32 = 10_000;

fn spread(x: u64) -> u64 {
    x.wrapping_mul(0x9E37_79B9_7F4A_7C15) >> 20
}

fn low(x: u64) -> u32 {
    (x & 0xffff_ffff) as u32
}

// The j-th fact of a node: links of four roles and subsumptions in turn.
fn fact_of(nodes: u32, node: u32, j: u32) -> Fact {
    let x = spread(spread(node as u64).wrapping_add(j as u64));
    let other = low(x) % nodes.max(1);
    if j & 1 == 0 {
        Fact::Link(node, j & 7, other)
    } else {
        Fact::Sub(node, other)
    }
}

fn told(fact: Fact) -> Proved
    ensures { result.fact ≡ fact }
{
    Proved {
        fact,
        reason: Reason {
            first: 7,
            second: 0,
            source: Source::Nothing,
            rule: Rule::Incl,
        },
    }
}

fn add(table: &mut FlatFacts, fact: Fact) -> Result<(), AllocError> {
    match table.find(fact) {
        Some(_) => Ok(()),
        None => {
            table.reserve(1)?;
            let _ = table.insert(told(fact));
            Ok(())
        }
    }
}

// Eight facts of a node.
fn add_some(table: &mut FlatFacts, nodes: u32, node: u32, from: u32) -> Result<(), AllocError> {
    for k in 0u32..8 {
        add(table, fact_of(nodes, node, from.wrapping_add(k)))?;
    }
    Ok(())
}

fn fill(table: &mut FlatFacts, nodes: u32, each: u32) -> Result<(), AllocError> {
    for part in 0..each / 8 {
        for node in 0..nodes {
            add_some(table, nodes, node, part.wrapping_mul(8))?;
        }
    }
    Ok(())
}

fn cover(layers: &mut Layers, fact: Fact) -> Result<(), AllocError> {
    match layers.find(fact) {
        Some(_) => Ok(()),
        None => {
            layers.reserve(1)?;
            let _ = layers.insert(told(fact));
            Ok(())
        }
    }
}

fn cover_some(layers: &mut Layers, nodes: u32, node: u32, from: u32) -> Result<(), AllocError> {
    for k in 0u32..8 {
        cover(layers, fact_of(nodes, node, from.wrapping_add(k)))?;
    }
    Ok(())
}

fn cover_all(layers: &mut Layers, nodes: u32, each: u32) -> Result<(), AllocError> {
    for part in 0..each / 8 {
        for node in 0..nodes {
            cover_some(layers, nodes, node, part.wrapping_mul(8))?;
        }
    }
    Ok(())
}

fn frozen(alloc: Global, layers: Layers) -> Result<Base, AllocError> {
    match layers.freeze(alloc) {
        Ok(base) => Ok(base),
        Err(_) => Err(AllocError),
    }
}

fn first_base(alloc: Global, nodes: u32, each: u32) -> Result<Base, AllocError> {
    let mut layers = Layers::over(alloc, Base::empty(alloc)?)?;
    layers.reserve(nodes.wrapping_mul(each) as usize)?;
    cover_all(&mut layers, nodes, each)?;
    frozen(alloc, layers)
}

// A top of forty facts over a base.
fn top_over(alloc: Global, base: &Base, nodes: u32, number: u32) -> Result<Layers, AllocError> {
    let mut layers = Layers::over(alloc, base.share(alloc)?)?;
    for k in 0u32..5 {
        let node = low(spread((number as u64).wrapping_mul(977).wrapping_add(k as u64)));
        let from = number.wrapping_mul(8).wrapping_add(1_000_000);
        cover_some(&mut layers, nodes, node % nodes.max(1), from)?;
    }
    Ok(layers)
}

fn accept(alloc: Global, base: Base, nodes: u32) -> Result<Base, AllocError> {
    let mut now = base;
    for number in 0..TOPS {
        let layers = top_over(alloc, &now, nodes, number)?;
        now = frozen(alloc, layers)?;
    }
    Ok(now)
}

fn give_up(alloc: Global, base: &Base, nodes: u32) -> Result<u64, AllocError> {
    let mut sum = 0u64;
    for number in 0..TOPS {
        let mut layers = top_over(alloc, base, nodes, number.wrapping_add(TOPS))?;
        layers.drop_top();
        sum = sum.wrapping_add(layers.len() as u64);
    }
    Ok(sum)
}

// How many of these facts are there.
fn look<F: Facts>(facts: &F, nodes: u32, from: u32, each: u32) -> u64 {
    let mut found = 0u64;
    for node in 0..nodes {
        for j in 0..each {
            if facts.find(fact_of(nodes, node, from.wrapping_add(j))).is_some() {
                found = found.wrapping_add(1);
            }
        }
    }
    found
}

fn steps<F: Facts>(facts: &F, side: FactSide, node: u32) -> u64 {
    let mut count = 0u64;
    let mut below = facts.len();
    for _ in 0..u64::MAX {
        let Some(place) = facts.last(side, FactGroup::Subs(node), below) else {
            return count;
        };
        count = count.wrapping_add(1);
        below = place;
    }
    count
}

fn walk<F: Facts>(facts: &F, side: FactSide, nodes: u32) -> u64 {
    let mut count = 0u64;
    for node in 0..nodes {
        count = count.wrapping_add(steps(facts, side, node));
    }
    count
}

fn print(rt: &HostRuntime, what: &str, start: Instant, count: u64) -> io::Result<()> {
    let took = start.elapsed(rt)?.as_micros();
    println!(rt; "{what} {took} {count}")
}

fn measure<F: Facts>(rt: &HostRuntime, facts: &F, nodes: u32, each: u32) -> io::Result<()> {
    let start = Instant::now(rt)?;
    let _ = look(facts, nodes, 0, each);
    print(rt, "found", start, (nodes as u64).wrapping_mul(each as u64))?;
    let start = Instant::now(rt)?;
    let there = look(facts, nodes, 0x4000_0000, each);
    print(rt, "missing", start, (nodes as u64).wrapping_mul(each as u64))?;
    println!(rt; "there 0 {there}")?;
    let start = Instant::now(rt)?;
    let count = walk(facts, FactSide::From, nodes);
    print(rt, "from", start, count)?;
    let start = Instant::now(rt)?;
    let count = walk(facts, FactSide::Into, nodes);
    print(rt, "into", start, count)
}

fn in_a_table(rt: &HostRuntime, nodes: u32, each: u32) -> io::Result<()> {
    let mut table = FlatFacts::new(rt.alloc());
    let start = Instant::now(rt)?;
    table.reserve(nodes.wrapping_mul(each) as usize)?;
    fill(&mut table, nodes, each)?;
    print(rt, "insert", start, table.len() as u64)?;
    measure(rt, &table, nodes, each)
}

fn in_layers(rt: &HostRuntime, nodes: u32, each: u32) -> io::Result<()> {
    let alloc = rt.alloc();
    let start = Instant::now(rt)?;
    let base = first_base(alloc, nodes, each)?;
    print(rt, "insert", start, base.len() as u64)?;
    let start = Instant::now(rt)?;
    let base = accept(alloc, base, nodes)?;
    print(rt, "accept", start, TOPS as u64)?;
    let start = Instant::now(rt)?;
    let _ = give_up(alloc, &base, nodes)?;
    print(rt, "give_up", start, TOPS as u64)?;
    println!(rt; "depth 0 {}", base.depth())?;
    println!(rt; "facts 0 {}", base.len())?;
    measure(rt, &base, nodes, each)
}

fn main(rt: HostRuntime) -> io::Result<()> {
    let mut words = env::args(&rt)?;
    let _ = words.next();
    let Some(kind) = words.next() else {
        return Ok(());
    };
    let Some(nodes) = words.next() else {
        return Ok(());
    };
    let Some(each) = words.next() else {
        return Ok(());
    };
    let Ok(nodes) = nodes.as_str().parse::<u32>() else {
        return Ok(());
    };
    let Ok(each) = each.as_str().parse::<u32>() else {
        return Ok(());
    };
    match kind.as_str() {
        "table" => in_a_table(&rt, nodes, each),
        _ => in_layers(&rt, nodes, each),
    }
}
"""

SIZES = [(10_000, 1), (10_000, 4), (100_000, 4), (100_000, 16), (200_000, 16)]


def measured(program, kind, nodes, millions):
    """For each operation its microseconds and how often it was done, and the peak memory in bytes."""
    words = [program, kind, str(nodes), str(millions * 1_000_000 // nodes)]
    run = subprocess.Popen(words, stdout=subprocess.PIPE, text=True)
    rows = [line.split() for line in run.stdout.read().splitlines()]
    _, status, usage = os.wait4(run.pid, 0)
    if os.waitstatus_to_exitcode(status) != 0:
        sys.exit(f"{kind} of {millions} million facts: status {os.waitstatus_to_exitcode(status)}")
    return {what: (int(took), int(count)) for what, took, count in rows}, usage.ru_maxrss * 1024


def nanoseconds(took, count):
    return f"{1000 * took / max(count, 1):.0f} ns"


def look_ups(rows):
    named = [("found", "found"), ("not found", "missing"), ("step from", "from"), ("step into", "into")]
    return ", ".join(f"{name} {nanoseconds(*rows[what])}" for name, what in named)


def main():
    with tempfile.TemporaryDirectory() as folder:
        program = built_driver(pathlib.Path(folder), "bench_facts", DRIVER, ["fact_table", "fact_layers"])
        for nodes, millions in SIZES:
            rows, peak = measured(program, "table", nodes, millions)
            count = rows["insert"][1]
            print(f"table, {count} facts, {nodes} nodes: insert {nanoseconds(*rows['insert'])}, {look_ups(rows)}, {peak / count:.0f} bytes a fact")
            rows, peak = measured(program, "layers", nodes, millions)
            print(f"layers, {rows['facts'][1]} facts, {nodes} nodes, depth {rows['depth'][1]}: a top frozen {nanoseconds(*rows['accept'])}, a top dropped {nanoseconds(*rows['give_up'])}, {look_ups(rows)}, {peak / rows['facts'][1]:.0f} bytes a fact at the peak")


if __name__ == "__main__":
    main()

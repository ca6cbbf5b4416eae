#!/usr/bin/env python3
"""Numbers 100,000 names with a NameTable, finds each again, and prints the seconds of both."""

from driver import run_driver

DRIVER = """#![tactic(auto)]

use anyhow::Result;
use std::time::Instant;
use text_names::NameTable;

fn main(rt: HostRuntime) -> Result<()> {
    let alloc = rt.alloc();
    let count = 100_000u32;
    let mut names = Vec::new(alloc);
    for i in 0..count {
        names.push(format!(in alloc; "http://example.org/ontology#Name{i}")?)?;
    }
    let mut table = NameTable::new(alloc, count);
    let start = Instant::now(&rt)?;
    for name in &names {
        table.number(name.as_str().as_bytes())?;
    }
    let seconds = start.elapsed(&rt)?.as_secs_f64();
    println!(rt; "numbered {} names: {seconds:.3} s", table.len())?;
    let start = Instant::now(&rt)?;
    for name in &names {
        if table.find(name.as_str().as_bytes()).is_none() {
            println!(rt; "not found: {name}")?;
        }
    }
    let seconds = start.elapsed(&rt)?.as_secs_f64();
    println!(rt; "found {} names: {seconds:.3} s", table.len())?;
    Ok(())
}
"""

run_driver("bench_names", DRIVER, ["text_names"], " names: ")

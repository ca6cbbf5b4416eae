#!/usr/bin/env python3
"""Builds cases from made documents of 1,000 to 100,000 classes with twice as many axioms, and a table with a row for two
classes, 50,000 rows at most. Prints for each the least seconds of three runs: of reading both documents and the table,
of `assemble` without that reading, and of `build_tables`; then the microseconds a class of the last two together, and
the peak memory of the process so far, which has the texts in it. Building is to be near linear, and to take at most
2 seconds and 600 MB for 100,000 classes with 200,000 axioms.
"""

from driver import run_driver

DRIVER = """#![tactic(auto)]

use anyhow::Result;
use case_file::Case;
use case_load::{LoadFault, Loaded, assemble};
use case_tables::build_tables;
use ofn_axiom::{Mode, Names, read_document};
use sssom_rows::read_table;
use std::alloc::Global;
use std::fs;
use std::time::Instant;
use text_names::{Limits, NameTable};

const HEADER: &str = "#curie_map:\\n#  l: http://l/\\n#  r: http://r/\\nsubject_id\\tpredicate_id\\tobject_id\\tconfidence\\n";

fn made_document(alloc: Global, prefix: &str, classes: u32) -> Result<Vec<u8>> {
    let front = format!(in alloc; "Prefix(:=<http://{prefix}/>) Ontology(\\n")?;
    let mut text = Vec::from_slice(alloc, front.as_bytes())?;
    for i in 0..classes {
        let above = i / 3;
        let part = i % 50;
        let other = match i % 10 {
            0 => format!(in alloc; "EquivalentClasses(:C{i} ObjectIntersectionOf(:C{above} ObjectSomeValuesFrom(:r{part} :C{part}) :C{part}))\\n")?,
            1 => format!(in alloc; "DisjointClasses(:C{i} :C{part})\\n")?,
            2 => format!(in alloc; "SubObjectPropertyOf(ObjectPropertyChain(:r{part} :s :r{part}) :s)\\n")?,
            _ => format!(in alloc; "SubClassOf(:C{i} ObjectSomeValuesFrom(:r{part} :C{above}))\\n")?,
        };
        text.extend_from_slice(format!(in alloc; "SubClassOf(:C{i} :C{above})\\n")?.as_bytes())?;
        text.extend_from_slice(other.as_bytes())?;
    }
    text.push(b')')?;
    Ok(text)
}

fn made_table(alloc: Global, rows: u32) -> Result<Vec<u8>> {
    let mut text = Vec::from_slice(alloc, HEADER.as_bytes())?;
    for i in 0..rows {
        let confidence = i % 1000;
        let line = format!(in alloc; "l:C{i}\\tskos:exactMatch\\tr:C{i}\\t0.{confidence}\\n")?;
        text.extend_from_slice(line.as_bytes())?;
    }
    Ok(text)
}

// The most kilobytes that the process has held so far.
fn peak(rt: &HostRuntime) -> Result<u32> {
    let status = fs::read_to_string(rt, "/proc/self/status")?;
    for line in status.as_str().lines() {
        let Some(rest) = line.strip_prefix("VmHWM:") else {
            continue;
        };
        let Some(number) = rest.trim().split(' ').next() else {
            continue;
        };
        return Ok(number.parse::<u32>()?);
    }
    Ok(0)
}

#[derive(Drop)]
struct Texts {
    left: Vec<u8>,
    right: Vec<u8>,
    map: Vec<u8>,
}

fn made(alloc: Global, classes: u32) -> Result<Texts> {
    Ok(Texts {
        left: made_document(alloc, "l", classes / 2)?,
        right: made_document(alloc, "r", classes / 2)?,
        map: made_table(alloc, classes / 2)?,
    })
}

// Reads the three texts, and says how many axioms and rows they have.
fn read(alloc: Global, texts: &Texts, limits: &Limits) -> Result<usize> {
    let mut names = Names {
        classes: NameTable::new(alloc, limits.classes),
        roles: NameTable::new(alloc, limits.properties),
    };
    let left = read_document(alloc, texts.left.as_slice(), Mode::Strict, limits, &mut names)?;
    let right = read_document(alloc, texts.right.as_slice(), Mode::Strict, limits, &mut names)?;
    let table = read_table(alloc, texts.map.as_slice(), limits.rows)?;
    Ok(left.axioms.len().max(right.axioms.len()).max(table.rows.as_slice().len()))
}

fn seconds_of_reading(rt: &HostRuntime, texts: &Texts, limits: &Limits) -> Result<f64> {
    let start = Instant::now(rt)?;
    let most = read(rt.alloc(), texts, limits)?;
    let seconds = start.elapsed(rt)?.as_secs_f64();
    println!(rt; "at most {most} axioms or rows")?;
    Ok(seconds)
}

fn seconds_of_tables(rt: &HostRuntime, case: &Case) -> Result<f64> {
    let start = Instant::now(rt)?;
    let tables = build_tables(rt.alloc(), case)?;
    let entries = tables.inclusions(2).len();
    let seconds = start.elapsed(rt)?.as_secs_f64();
    println!(rt; "{entries} entries of the first class")?;
    Ok(seconds)
}

fn case_of(alloc: Global, texts: &Texts) -> Result<Loaded> {
    let limits = Limits::standard();
    let left = texts.left.as_slice();
    let right = texts.right.as_slice();
    let map = texts.map.as_slice();
    if left.len() >= 0x8000_0000 || right.len() >= 0x8000_0000 || map.len() >= 0x8000_0000 {
        return Err(LoadFault::OutOfMemory.into());
    }
    Ok(assemble(alloc, left, right, map, Mode::Strict, &limits)?)
}

// What one run took.
#[derive(Clone, Copy)]
struct Took {
    assembling: f64,
    tabling: f64,
    nodes: u32,
}

fn run(rt: &HostRuntime, texts: &Texts) -> Result<Took> {
    let start = Instant::now(rt)?;
    let loaded = case_of(rt.alloc(), texts)?;
    let assembling = start.elapsed(rt)?.as_secs_f64();
    let tabling = seconds_of_tables(rt, &loaded.case)?;
    Ok(Took {
        assembling,
        tabling,
        nodes: loaded.case.store().nodes(),
    })
}

fn measure(rt: &HostRuntime, classes: u32) -> Result<()> {
    let limits = Limits::standard();
    let texts = made(rt.alloc(), classes)?;
    let (mut reading, mut assembling, mut tabling) = (f64::MAX, f64::MAX, f64::MAX);
    let mut nodes = 0;
    for _ in 0..3 {
        reading = reading.min(seconds_of_reading(rt, &texts, &limits)?);
        let took = run(rt, &texts)?;
        assembling = assembling.min(took.assembling);
        tabling = tabling.min(took.tabling);
        nodes = took.nodes;
    }
    let building = (assembling - reading).max(0.0);
    let each = (building + tabling) * 1e6 / classes as f64;
    let memory = peak(rt)? / 1024;
    println!(rt; "{classes} classes, {nodes} nodes: read in {reading:.3} s, built in {building:.3} s, tables in {tabling:.3} s, {each:.2} microseconds a class, peak {memory} MB")?;
    Ok(())
}

fn main(rt: HostRuntime) -> Result<()> {
    for classes in [1_000u32, 10_000, 50_000, 100_000] {
        measure(&rt, classes)?;
    }
    Ok(())
}
"""

run_driver("bench_cases", DRIVER, ["case_file", "case_load", "case_tables", "ofn_axiom", "sssom_rows", "text_names"], " microseconds a class")

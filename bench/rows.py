#!/usr/bin/env python3
"""Reads made tables of 1,000 to 200,000 rows with 12 columns, and writes them again without every
tenth row. Prints for each the least seconds of five runs of both, the rows a second, and the peak
memory of the process in bytes for each byte of the text, which is in memory too. Reading and
writing are linear: the rows a second are to be nearly the same for each size.
"""

from driver import run_driver

DRIVER = """#![tactic(auto)]

use anyhow::Result;
use repaired_table::write_table;
use sssom_rows::read_table;
use std::alloc::Global;
use std::fs;
use std::time::Instant;

const HEADER: &str = "#curie_map:\\n#  l: http://example.org/left#\\n#  r: http://example.org/right#\\n#mapping_set_id: https://example.org/sets/1\\nsubject_id\\tsubject_label\\tsubject_source\\tpredicate_id\\tpredicate_modifier\\tobject_id\\tobject_label\\tobject_source\\tmapping_justification\\tconfidence\\tmapping_date\\tcomment\\n";

fn made_table(alloc: Global, rows: u32) -> Result<Vec<u8>> {
    let mut text = Vec::from_slice(alloc, HEADER.as_bytes())?;
    for i in 0..rows {
        let confidence = i % 1000;
        let line = format!(in alloc; "l:A{i}\\tclass {i} of the left\\tsource:left\\tskos:exactMatch\\t\\tr:X{i}\\t\\"class \\"\\"{i}\\"\\"\\"\\tsource:right\\tsemapv:LexicalMatching\\t0.{confidence}\\t2026-01-01\\t\\n")?;
        text.extend_from_slice(line.as_str().as_bytes())?;
    }
    Ok(text)
}

// The most memory that the process had so far, as the system tells it.
fn peak(rt: &HostRuntime) -> Result<String> {
    let status = fs::read_to_string(rt, "/proc/self/status")?;
    for line in status.as_str().lines() {
        if let Some(size) = line.strip_prefix("VmHWM:") {
            return Ok(String::from_str(rt.alloc(), size.trim())?);
        }
    }
    Ok(String::from_str(rt.alloc(), "not told")?)
}

fn measure(rt: &HostRuntime, text: &[u8], rows: u32) -> Result<()> {
    if text.len() >= 0x8000_0000 {
        return Ok(());
    }
    let (mut reading, mut writing) = (f64::MAX, f64::MAX);
    let mut length = 0;
    for _ in 0..5 {
        let start = Instant::now(rt)?;
        let table = read_table(rt.alloc(), text, rows)?;
        reading = reading.min(start.elapsed(rt)?.as_secs_f64());
        let mut keep = Vec::new(rt.alloc());
        for place in 0..table.rows.as_slice().len() {
            keep.push(place % 10 != 9)?;
        }
        if keep.len() == table.rows.as_slice().len() {
            let start = Instant::now(rt)?;
            let written = write_table(rt.alloc(), &table, keep.as_slice())?;
            writing = writing.min(start.elapsed(rt)?.as_secs_f64());
            length = written.len();
        }
    }
    let (read, wrote) = (rows as f64 / reading, rows as f64 / writing);
    let (bytes, most) = (text.len(), peak(rt)?);
    println!(rt; "{rows} rows in {bytes} bytes: read in {reading:.4} s, {read:.0} rows a second; {length} bytes written in {writing:.4} s, {wrote:.0} rows a second; peak memory {most}")?;
    Ok(())
}

fn main(rt: HostRuntime) -> Result<()> {
    for rows in [1_000u32, 5_000, 20_000, 50_000, 100_000, 200_000] {
        let text = made_table(rt.alloc(), rows)?;
        measure(&rt, text.as_slice(), rows)?;
    }
    Ok(())
}
"""

run_driver("bench_rows", DRIVER, ["sssom_rows", "repaired_table"], " rows a second")

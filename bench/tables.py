#!/usr/bin/env python3
"""Reads long confidences and long headers, ranks many confidences, and prints for each the least
seconds of five runs and the nanoseconds a byte or a row. These are to be nearly the same for each
size of a kind: reading is linear, and ranking grows as n log n.
"""

from driver import run_driver

DRIVER = """#![tactic(auto)]

use anyhow::Result;
use rank_order::{Confidence, rank};
use sssom_head::read_head;
use std::alloc::Global;
use std::time::Instant;

// A point, many zeros, digits, many zeros and an exponent.
fn made_confidence(alloc: Global, size: usize) -> Result<Vec<u8>> {
    let mut text = Vec::new(alloc);
    text.push(b'.')?;
    for _ in 0..size / 2 {
        text.push(b'0')?;
    }
    text.extend_from_slice(b"123456789012345678901234567890123456".as_slice())?;
    for _ in 0..size / 2 {
        text.push(b'0')?;
    }
    let zeros = size / 2;
    let exponent = format!(in alloc; "e{zeros}")?;
    text.extend_from_slice(exponent.as_str().as_bytes())?;
    Ok(text)
}

fn made_header(alloc: Global, size: usize) -> Result<Vec<u8>> {
    let mut text = Vec::from_slice(alloc, b"# curie_map:\\n".as_slice())?;
    for i in 0..1_000_000u32 {
        if text.len() >= size {
            break;
        }
        let line = format!(in alloc; "#   prefix{i}: \\"http://example.org/ontology/{i}#\\" # made\\n# \\n")?;
        text.extend_from_slice(line.as_str().as_bytes())?;
    }
    Ok(text)
}

// Two digits of a number that jumps about, and six of its place.
fn made_confidences(alloc: Global, count: u32) -> Result<Vec<Confidence>> {
    let mut confidences = Vec::new(alloc);
    for i in 0..count {
        let jump = i.wrapping_mul(2_654_435_761) >> 20;
        let text = format!(in alloc; "0.{jump}{i}")?;
        match Confidence::read(text.as_str().as_bytes()) {
            Some(confidence) => confidences.push(confidence)?,
            None => {}
        }
    }
    Ok(confidences)
}

fn time_confidence(rt: &HostRuntime, text: &[u8]) -> Result<f64> {
    let mut least = f64::MAX;
    for _ in 0..5 {
        let start = Instant::now(rt)?;
        if Confidence::read(text).is_none() {
            println!(rt; "not read")?;
        }
        least = least.min(start.elapsed(rt)?.as_secs_f64());
    }
    Ok(least)
}

fn time_header(rt: &HostRuntime, text: &[u8]) -> Result<f64> {
    let mut least = f64::MAX;
    for _ in 0..5 {
        let start = Instant::now(rt)?;
        if read_head(rt.alloc(), text).is_err() {
            println!(rt; "not read")?;
        }
        least = least.min(start.elapsed(rt)?.as_secs_f64());
    }
    Ok(least)
}

fn time_rank(rt: &HostRuntime, confidences: &[Confidence]) -> Result<f64> {
    let mut least = f64::MAX;
    if confidences.len() >= 1 << 31 {
        return Ok(least);
    }
    for _ in 0..5 {
        let start = Instant::now(rt)?;
        let ranks = rank(rt.alloc(), confidences)?;
        if ranks.as_slice().is_empty() {
            println!(rt; "no ranks")?;
        }
        least = least.min(start.elapsed(rt)?.as_secs_f64());
    }
    Ok(least)
}

fn print_cost(rt: &HostRuntime, what: &str, count: usize, unit: &str, seconds: f64) -> Result<()> {
    let cost = seconds * 1e9 / u32::try_from(count)? as f64;
    println!(rt; "{what} {count} {unit}: {seconds:.4} s, {cost:.2} ns each")?;
    Ok(())
}

fn main(rt: HostRuntime) -> Result<()> {
    for size in [1_000_000usize, 2_000_000, 4_000_000, 8_000_000] {
        let confidence = made_confidence(rt.alloc(), size)?;
        let seconds = time_confidence(&rt, confidence.as_slice())?;
        print_cost(&rt, "confidence of", confidence.len(), "bytes", seconds)?;
        let header = made_header(rt.alloc(), size)?;
        let seconds = time_header(&rt, header.as_slice())?;
        print_cost(&rt, "header of", header.len(), "bytes", seconds)?;
    }
    for count in [100_000u32, 200_000, 400_000, 800_000] {
        let confidences = made_confidences(rt.alloc(), count)?;
        let seconds = time_rank(&rt, confidences.as_slice())?;
        print_cost(&rt, "ranking of", confidences.len(), "rows", seconds)?;
    }
    Ok(())
}
"""

run_driver("bench_tables", DRIVER, ["rank_order", "sssom_head"], " ns each")

#!/usr/bin/env python3
"""Reads the items of made texts of one to eight megabytes, of three kinds: axioms as documents have
them, brackets alone side by side, and brackets alone 256 deep. Prints for each the least seconds of
five readings and the nanoseconds a byte. Of one kind the last are to stay the same as texts grow,
but for memory: a reading whose memory the system hands out anew takes up to twice as long.
"""

from driver import run_driver

DRIVER = """#![tactic(auto)]

use anyhow::Result;
use ofn_term::read_items;
use std::alloc::Global;
use std::time::Instant;

fn repeated(alloc: Global, part: &[u8], size: usize) -> Result<Vec<u8>> {
    let mut text = Vec::new(alloc);
    for _ in 0..size {
        if text.len() >= size {
            break;
        }
        text.extend_from_slice(part)?;
    }
    Ok(text)
}

fn axioms(alloc: Global, size: usize) -> Result<Vec<u8>> {
    let mut text = Vec::from_slice(alloc, b"Ontology(".as_slice())?;
    for i in 0..200_000u32 {
        if text.len() >= size {
            break;
        }
        let line = format!(in alloc; "# Class: :C{i} (made)\\nSubClassOf(:C{i} ObjectSomeValuesFrom(<http://example.org/ontology#part{i}> :D{i}))\\nAnnotationAssertion(rdfs:label :C{i} \\"made class {i}\\"@en)\\nDeclaration(Class(:C{i}))\\n")?;
        text.extend_from_slice(line.as_str().as_bytes())?;
    }
    text.push(b')')?;
    Ok(text)
}

// 256 opening brackets, and their partners.
fn nest(alloc: Global) -> Result<Vec<u8>> {
    let mut text = repeated(alloc, b"(".as_slice(), 256)?;
    let closing = repeated(alloc, b")".as_slice(), 256)?;
    text.extend_from_slice(closing.as_slice())?;
    Ok(text)
}

fn measure(rt: &HostRuntime, kind: &str, text: &[u8]) -> Result<()> {
    let mut count = 0;
    let mut least = f64::MAX;
    for _ in 0..5 {
        let start = Instant::now(rt)?;
        let items = read_items(rt.alloc(), text, 256)?;
        least = least.min(start.elapsed(rt)?.as_secs_f64());
        count = items.len();
    }
    let bytes = u32::try_from(text.len())?;
    let cost = least * 1e9 / bytes as f64;
    println!(rt; "{kind}: {bytes} bytes, {count} items at the top: {least:.4} s, {cost:.2} ns a byte")?;
    Ok(())
}

fn main(rt: HostRuntime) -> Result<()> {
    let alloc = rt.alloc();
    let nest = nest(alloc)?;
    for size in [1_000_000usize, 2_000_000, 4_000_000, 8_000_000] {
        measure(&rt, "axioms", axioms(alloc, size)?.as_slice())?;
        measure(&rt, "side by side", repeated(alloc, b"()".as_slice(), size)?.as_slice())?;
        measure(&rt, "256 deep", repeated(alloc, nest.as_slice(), size)?.as_slice())?;
    }
    Ok(())
}
"""

run_driver("bench_items", DRIVER, ["ofn_term"], " ns a byte")

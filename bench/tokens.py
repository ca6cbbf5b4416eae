#!/usr/bin/env python3
"""Reads made texts of one to eight megabytes to their end, token by token, and prints for each the
least seconds of five readings, the megabytes a second and the nanoseconds a byte. The last are to
be the same for each text.
"""

from driver import run_driver

DRIVER = """#![tactic(auto)]

use anyhow::Result;
use ofn_lex::next_token;
use std::alloc::Global;
use std::time::Instant;

fn count_tokens(text: &[u8]) -> usize {
    let mut count = 0usize;
    let mut from = 0;
    for _ in 0..text.len() {
        if from > text.len() {
            break;
        }
        match next_token(text, from) {
            Ok(Some(token)) => {
                count = count.saturating_add(1);
                from = token.end;
            }
            _ => break,
        }
    }
    count
}

fn made_text(alloc: Global, size: usize) -> Result<Vec<u8>> {
    let mut text = Vec::new(alloc);
    for i in 0..200_000u32 {
        if text.len() >= size {
            break;
        }
        let line = format!(in alloc; "# Class: :C{i} (made)\\nSubClassOf(:C{i} ObjectSomeValuesFrom(<http://example.org/ontology#part{i}> :D{i}))\\nAnnotationAssertion(rdfs:label :C{i} \\"made class {i}\\"@en)\\nAnnotationAssertion(:size :C{i} \\"{i}\\"^^xsd:int)\\nPrefix(p{i}:=<http://example.org/{i}#>)\\n")?;
        text.extend_from_slice(line.as_str().as_bytes())?;
    }
    Ok(text)
}

// How many tokens a text has, and the least seconds of five readings.
fn reading(rt: &HostRuntime, text: &[u8]) -> Result<(usize, f64)> {
    let mut count = 0;
    let mut least = f64::MAX;
    for _ in 0..5 {
        let start = Instant::now(rt)?;
        count = count_tokens(text);
        least = least.min(start.elapsed(rt)?.as_secs_f64());
    }
    Ok((count, least))
}

fn main(rt: HostRuntime) -> Result<()> {
    for size in [1_000_000usize, 2_000_000, 4_000_000, 8_000_000] {
        let text = made_text(rt.alloc(), size)?;
        let (count, seconds) = reading(&rt, text.as_slice())?;
        let bytes = u32::try_from(text.len())?;
        let rate = bytes as f64 / 1e6 / seconds;
        let cost = seconds * 1e9 / bytes as f64;
        println!(rt; "{bytes} bytes, {count} tokens: {seconds:.4} s, {rate:.1} megabytes a second, {cost:.2} ns a byte")?;
    }
    Ok(())
}
"""

run_driver("bench_tokens", DRIVER, ["ofn_lex"], " ns a byte")

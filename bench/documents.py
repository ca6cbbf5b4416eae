#!/usr/bin/env python3
"""Reads made documents of one to twenty megabytes, of two kinds as OWL tools write them: full IRIs beside prefixed
names, with annotations, comments, language tags and nested expressions; and short lines of prefixed names alone, which
have the most tokens for their size. Prints for each the least processor seconds of five readings, megabytes a second,
nanoseconds a byte, and the peak memory of the process so far over the size of the text. The cost of a byte is to stay
about the same as texts grow. The text itself is part of the peak. Times are those that the system counts for the
process; a busy machine still slows them, since its processors share their caches.
"""

from driver import run_driver

DRIVER = """#![tactic(auto)]

ghost use Rattle.std.specs.Prelude.{◌≡◌};

use anyhow::Result;
use ofn_axiom::{Mode, Names, read_document};
use std::alloc::Global;
use std::fs;
use text_names::{Limits, NameTable};

#[derive(Clone, Copy)]
enum Kind {
    Mixed,
    Prefixed,
}

// What a document says of one class.
fn lines(alloc: Global, kind: Kind, i: u32) -> Result<String> {
    let above = i / 3;
    let part = i % 50;
    let lines = match kind {
        Kind::Mixed => format!(in alloc; "Declaration(Class(<http://example.org/ontology#C{i}>))\\n# Class: <http://example.org/ontology#C{i}> (made class {i})\\n\\nAnnotationAssertion(rdfs:label <http://example.org/ontology#C{i}> \\"made class {i}\\"@en)\\nAnnotationAssertion(rdfs:comment :C{i} \\"a class that was \\\\\\"made\\\\\\" for a bench, with a text of some length\\"^^xsd:string)\\nSubClassOf(<http://example.org/ontology#C{i}> <http://example.org/ontology#C{above}>)\\nSubClassOf(Annotation(rdfs:comment \\"nested\\"@en) :C{i} ObjectSomeValuesFrom(<http://example.org/ontology#part{part}> ObjectIntersectionOf(:C{above} ObjectSomeValuesFrom(:of{part} :C{i}))))\\nDisjointClasses(:C{i} <http://example.org/ontology#D{i}>)\\n\\n")?,
        Kind::Prefixed => format!(in alloc; "# Class: obo:GO_{i} (made class {i})\\n\\nAnnotationAssertion(rdfs:label obo:GO_{i} \\"made class {i}\\"@en)\\nSubClassOf(obo:GO_{i} obo:GO_{above})\\nSubClassOf(obo:GO_{i} ObjectSomeValuesFrom(obo:BFO_{part} obo:GO_{above}))\\nDeclaration(Class(obo:GO_{i}))\\n\\n")?,
    };
    Ok(lines)
}

fn made(alloc: Global, kind: Kind, size: usize) -> Result<Vec<u8>> {
    let mut text = Vec::with_capacity(alloc, size.saturating_add(2_000))?;
    text.extend_from_slice(b"Prefix(:=<http://example.org/ontology#>)\\nPrefix(obo:=<http://purl.obolibrary.org/obo/>)\\nPrefix(owl:=<http://www.w3.org/2002/07/owl#>)\\n\\nOntology(<http://example.org/ontology>\\n\\n".as_slice())?;
    for i in 0..1_000_000u32 {
        if text.len() >= size {
            break;
        }
        text.extend_from_slice(lines(alloc, kind, i)?.as_str().as_bytes())?;
    }
    text.push(b')')?;
    Ok(text)
}

fn names(alloc: Global, limits: &Limits) -> Names
    ensures classes { result.classes.most ≡ limits.now.classes }
    ensures properties { result.roles.most ≡ limits.now.properties }
{
    Names {
        classes: NameTable::new(alloc, limits.classes),
        roles: NameTable::new(alloc, limits.properties),
    }
}

// The most kilobytes that the process has held so far.
fn peak(rt: &HostRuntime) -> Result<u32> {
    let status = fs::read_to_string(rt, "/proc/self/status")?;
    for line in status.as_str().lines() {
        let Some(rest) = line.strip_prefix("VmHWM:") else {
            continue;
        };
        let Some(number) = rest.trim().split(' ').next() else {
            continue;
        };
        return Ok(number.parse::<u32>()?);
    }
    Ok(0)
}

// The processor seconds of the process so far.
fn seconds(rt: &HostRuntime) -> Result<f64> {
    let counts = fs::read_to_string(rt, "/proc/self/schedstat")?;
    let Some(nanoseconds) = counts.as_str().split(' ').next() else {
        return Ok(0.0);
    };
    let microseconds = u32::try_from(nanoseconds.parse::<u64>()? / 1_000)?;
    Ok(microseconds as f64 / 1e6)
}

fn measure(rt: &HostRuntime, kind: &str, text: &[u8]) -> Result<()> {
    let alloc = rt.alloc();
    let limits = Limits::standard();
    let mut least = f64::MAX;
    let mut axioms = 0;
    for _ in 0..5 {
        let mut held = names(alloc, &limits);
        let start = seconds(rt)?;
        match read_document(alloc, text, Mode::Strict, &limits, &mut held) {
            Ok(document) => {
                axioms = document.axioms.len();
            }
            Err(fault) => println!(rt; "fault: {fault}")?,
        }
        least = least.min(seconds(rt)? - start);
    }
    let bytes = u32::try_from(text.len())?;
    let speed = bytes as f64 / least / 1e6;
    let cost = least * 1e9 / bytes as f64;
    let memory = peak(rt)? as f64 * 1024.0 / bytes as f64;
    println!(rt; "{kind}: {bytes} bytes, {axioms} axioms: {least:.4} s, {speed:.1} MB/s, {cost:.1} ns a byte, peak {memory:.1} times the text")?;
    Ok(())
}

fn main(rt: HostRuntime) -> Result<()> {
    let alloc = rt.alloc();
    for size in [1_000_000usize, 5_000_000, 10_000_000, 20_000_000] {
        measure(&rt, "mixed", made(alloc, Kind::Mixed, size)?.as_slice())?;
        measure(&rt, "prefixed", made(alloc, Kind::Prefixed, size)?.as_slice())?;
    }
    Ok(())
}
"""

run_driver("bench_documents", DRIVER, ["ofn_axiom", "text_names"], " ns a byte")

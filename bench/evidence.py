#!/usr/bin/env python3
"""Reads and writes made evidence of one to two hundred megabytes: many derivations, a large model, a long journal.
Prints for each the megabytes a second and the nanoseconds a byte of a reading and of a writing, and the peak memory of
the process over the size of the text. The cost of a byte is to stay about the same as texts grow. The text itself, and
what is written, are parts of the peak. First come two texts that say a great count with nothing behind it, which take
no time and no memory to speak of. The program is proved and built in a temporary repository first, which is not
measured.
"""

import os
import pathlib
import subprocess
import sys
import tempfile

from driver import built_driver

DRIVER = """//! Reads the file `evidence` of its folder, and writes what it has read.
#![tactic(auto)]

ghost use Rattle.evidence_text.specs.EvidenceText.{HasText};

use anyhow::Result;
use evidence_text::{Evidence, read_evidence, write_evidence};
use std::fs;
use std::time::Instant;

fn print(rt: &HostRuntime, what: &str, begin: Instant) -> Result<()> {
    let took = begin.elapsed(rt)?.as_micros();
    println!(rt; "{what} {took}")?;
    Ok(())
}

// It has a text, as all that is read from one has.
fn write(rt: &HostRuntime, evidence: &Evidence, text: &[u8]) -> Result<()>
    requires { HasText evidence.now }
{
    let begin = Instant::now(rt)?;
    let written = write_evidence(rt.alloc(), evidence)?;
    print(rt, "written", begin)?;
    if written.as_slice() != text {
        println!(rt; "another text")?;
    }
    Ok(())
}

fn measure(rt: &HostRuntime, text: &[u8]) -> Result<()> {
    let begin = Instant::now(rt)?;
    match read_evidence(rt.alloc(), text) {
        Ok(evidence) => {
            print(rt, "read", begin)?;
            write(rt, &evidence, text)
        }
        Err(fault) => {
            println!(rt; "{fault}")?;
            print(rt, "refused", begin)
        }
    }
}

fn main(rt: HostRuntime) -> Result<()> {
    let text = fs::read(&rt, "evidence")?;
    measure(&rt, text.as_slice())
}
"""

NAME = "bench_evidence"
CRATES = ["evidence_text", "anyhow"]
HEAD = "alod evidence 1\ndiagnosis\nomitted 0\nnodes 0\nroles 0\n"
SIZES = [1, 10, 100, 200]


def derivations(megabytes):
    """Derivations of ten steps."""
    count = megabytes * 3_800
    rows = (
        f"row {row} steps 10\nsub {row} {row} self\nsub {row} 0 top\nsub {row} 12345 incl 1 left {row}\n"
        f"link {row} 7 12345 out 3\nsub 12345 1 incl 2 row {row} 1\nsub {row} 1 void 4 5\nsub {row} 777 left 3\n"
        f"sub {row} 778 right 3\nsub {row} 779 both 7 8\nsub {row} 1 disj 7 8 right {row}\n"
        for row in range(1, count + 1)
    )
    return f"{HEAD}removed {count}\n{''.join(rows)}model 1\njournal 0\nend\n"


def model(megabytes):
    """Classes of a thousand members."""
    members = "".join(f" {element}000" for element in range(1, 1_000))
    classes = (f"class {node}{members}\n" for node in range(2, 140 * megabytes + 2))
    return f"{HEAD}removed 0\nmodel 4294967295\n{''.join(classes)}journal 0\nend\n"


def journal(megabytes):
    count = megabytes * 42_000
    forms = ["3 take {} seen {}", "3 yes {} {} kept", "3 front {} {}", "3 no {} {} marked"]
    entries = (forms[rank % 4].format(rank, rank) + "\n" for rank in range(count))
    return f"{HEAD}removed 0\nmodel 1\njournal {count}\n{''.join(entries)}end\n"


def measured(program, folder, text):
    """The lines that the program prints of a text, and the most bytes that it held."""
    (folder / "evidence").write_text(text)
    run = subprocess.Popen([program], cwd=folder, stdout=subprocess.PIPE, text=True)
    out = run.stdout.read()
    _, status, usage = os.wait4(run.pid, 0)
    if os.waitstatus_to_exitcode(status) != 0:
        sys.exit(out)
    return out.splitlines(), usage.ru_maxrss * 1024


def cost(word, line, size):
    took = int(line.removeprefix(f"{word} "))
    return f"{word} at {size / took:.0f} MB/s, {1000 * took / size:.1f} ns a byte"


def great_counts(program, folder):
    for text in (f"{HEAD}removed 18446744073709551615\n", f"{HEAD}removed 0\nmodel 4294967295\n"):
        lines, peak = measured(program, folder, text)
        print(f"{text.splitlines()[-1]}: {lines[0]}; {lines[1]} microseconds, peak {peak / 1e6:.1f} MB")


def run(program, folder, make, megabytes):
    text = make(megabytes)
    lines, peak = measured(program, folder, text)
    if len(lines) != 2:
        sys.exit("\n".join(lines))
    size = len(text)
    print(f"{make.__name__}, {size} bytes: {cost('read', lines[0], size)}; {cost('written', lines[1], size)}; peak {peak / size:.1f} times the text", flush=True)


def main():
    with tempfile.TemporaryDirectory() as name:
        folder = pathlib.Path(name)
        program = built_driver(folder, NAME, DRIVER, CRATES)
        great_counts(program, folder)
        for megabytes in SIZES:
            for make in (derivations, model, journal):
                run(program, folder, make, megabytes)


if __name__ == "__main__":
    main()

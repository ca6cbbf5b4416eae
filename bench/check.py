#!/usr/bin/env python3
"""Runs both built programs on made cases of 1,000, 10,000 and 40,000 classes a side: `check.py YARDSTICK [CLASSES ..]`.

YARDSTICK is a folder with `make_case.py CLASSES SEED FOLDER`, which writes `left.ofn`, `right.ofn` and `map.sssom.tsv`.
`alod` repairs each case, and `alodcheck` checks what it left. For each: seconds by the clock and peak memory, of three
runs by turns the least seconds and the largest memory; the bytes of the evidence; and what the checker prints. `./alod`
and `./alodcheck` build the programs first, which is not measured.
"""

import os
import pathlib
import subprocess
import sys
import tempfile
import time

REPOSITORY = pathlib.Path(__file__).resolve().parent.parent
FILES = ["left.ofn", "right.ofn", "map.sssom.tsv", "repaired.tsv", "evidence.txt"]
RUNS = 3


def built(name):
    """The built program. Without words it only prints its usage."""
    subprocess.run([REPOSITORY / name], stdout=subprocess.DEVNULL)
    return REPOSITORY / "crates" / name / "out" / name


def measured(program, case):
    """Seconds, peak memory in bytes, and the line that it printed."""
    begin = time.monotonic()
    run = subprocess.Popen([program, *FILES], cwd=case, stdout=subprocess.PIPE, text=True)
    line = run.stdout.read().strip()
    _, _, usage = os.wait4(run.pid, 0)
    return time.monotonic() - begin, usage.ru_maxrss * 1024, line


def best(runs):
    return min(run[0] for run in runs), max(run[1] for run in runs), runs[-1][2]


def compare(programs, case):
    by_turns = [[measured(program, case) for program in programs] for _ in range(RUNS)]
    (one, one_peak, one_line), (other, other_peak, other_line) = (best(runs) for runs in zip(*by_turns))
    size = (case / "evidence.txt").stat().st_size
    print(f"  alod: {one:.2f} s, {one_peak / 1e6:.0f} MB; {one_line}")
    print(f"  alodcheck: {other:.2f} s, {other_peak / 1e6:.0f} MB; {other_line}")
    print(f"  evidence {size / 1e6:.1f} MB; ratio {other / one:.2f} of seconds, {other_peak / one_peak:.2f} of memory", flush=True)


def main():
    yardstick = pathlib.Path(sys.argv[1]).resolve()
    sizes = sys.argv[2:] or ["1000", "10000", "40000"]
    programs = [built("alod"), built("alodcheck")]
    with tempfile.TemporaryDirectory() as root:
        for size in sizes:
            case = pathlib.Path(root) / f"case{size}"
            subprocess.run([sys.executable, yardstick / "make_case.py", size, "1", case], check=True, stdout=subprocess.DEVNULL)
            print(f"{size} classes a side", flush=True)
            compare(programs, case)


if __name__ == "__main__":
    main()

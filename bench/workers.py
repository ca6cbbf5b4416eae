#!/usr/bin/env python3
"""Runs the built program with one worker and with four on the same files, by turns, and many times with sixteen:
`workers.py YARDSTICK [RUNS]`.

YARDSTICK is a folder with `make_case.py CLASSES SEED FOLDER`, which writes `left.ofn`, `right.ofn` and `map.sssom.tsv`,
and with `compare.py --closed COMMAND -- FOLDER ..`, which runs COMMAND and a plain program by turns.

The cases are made vocabularies of 1,000 and 10,000 classes a side; the second of them once more, spoiled, so that half
of its rows leave a class empty by the ontologies alone; and what `--made 10000` repairs, from files and without, the
first also beside the plain program. Of three runs by turns it prints the least seconds by the clock and of the
processors, the largest memory, and whether every run wrote the same OUT. Then it repairs the first case RUNS times
(1,000) with sixteen workers, and prints how many texts of OUT there were. `./alod` builds the program first, which is
not measured.
"""

import hashlib
import os
import pathlib
import subprocess
import sys
import tempfile
import time

REPOSITORY = pathlib.Path(__file__).resolve().parent.parent
PROGRAM = REPOSITORY / "crates" / "alod" / "out" / "alod"
FILES = ["left.ofn", "right.ofn", "map.sssom.tsv", "repaired.tsv", "evidence.txt"]
TURNS = 3
MADE = 10_000


def run(words, folder):
    """Seconds by the clock and of the processors, peak memory in bytes, and the line that was printed."""
    begin = time.monotonic()
    child = subprocess.Popen([PROGRAM, *words], cwd=folder, stdout=subprocess.PIPE, text=True)
    line = child.stdout.read().strip()
    _, _, usage = os.wait4(child.pid, 0)
    return time.monotonic() - begin, usage.ru_utime + usage.ru_stime, usage.ru_maxrss * 1024, line


def digest(folder):
    out = folder / "repaired.tsv"
    return hashlib.sha256(out.read_bytes()).hexdigest() if out.exists() else "no file"


def compare(name, folder, words):
    """One worker and four by turns, with these words."""
    runs, outs = {1: [], 4: []}, set()
    for _ in range(TURNS):
        for workers, found in runs.items():
            found.append(run(["--workers", str(workers), *words], folder))
            outs.add(digest(folder))
    print(f"{name}: {runs[1][-1][3]}")
    clock = {}
    for workers, found in runs.items():
        clock[workers], cpu, peak = min(r[0] for r in found), min(r[1] for r in found), max(r[2] for r in found)
        print(f"  {workers} workers: {clock[workers]:.2f} s, {cpu:.2f} of processors, {peak / 1e6:.0f} MB")
    lines = {r[3] for found in runs.values() for r in found}
    same = "the same" if len(outs) == len(lines) == 1 else "DIFFERENT"
    print(f"  four by one: {clock[4] / clock[1]:.2f} of seconds; {same} OUT and line in all runs", flush=True)


def inserted(document, axioms):
    """The document with these axioms at its end."""
    body, _ = document.rstrip().rsplit(")", 1)
    return body + "\n".join(axioms) + "\n)\n"


def spoil(folder, spoiled):
    """The same case with twice the rows: after each, one that leaves a class empty by the ontologies alone.

    It equates one of two hundred upper classes of LEFT with a new class of RIGHT. LEFT puts all its classes below
    `:here`, which is disjoint with `:there`, and RIGHT puts the new classes below `:there`.
    """
    spoiled.mkdir()
    left, right, table = ((folder / file).read_text() for file in FILES[:3])
    lines = table.splitlines()
    first = next(number for number, line in enumerate(lines) if not line.startswith("#"))
    columns = lines[first].split("\t")
    mixed, new = lines[:first + 1], []
    for number, row in enumerate(lines[first + 1:]):
        fields = dict(zip(columns, row.split("\t")))
        fields |= {"subject_id": f"anat:A{15 + number % 200:06}", "predicate_id": "skos:exactMatch", "object_id": f"T:W{number}"}
        new.append(f"SubClassOf(t:W{number} <http://example.org/anatomy#there>)")
        mixed += [row, "\t".join(fields[column] for column in columns)]
    apart = ["SubClassOf(:A000001 :here)", "DisjointClasses(:here :there)"]
    (spoiled / FILES[0]).write_text(inserted(left, apart))
    (spoiled / FILES[1]).write_text(inserted(right, new))
    (spoiled / FILES[2]).write_text("\n".join(mixed) + "\n")


def make(folder):
    """The texts that `--made` repairs."""
    folder.mkdir()
    numbers = range(1, MADE + 1)
    left = ["Prefix(:=<http://example.org/left#>)", "Ontology(<http://example.org/left>"]
    left += [f"DisjointClasses(:A{i} :B{i})" for i in numbers]
    left += [f"SubClassOf(:A{i} ObjectSomeValuesFrom(:p :A{i + 1}))" for i in numbers[:-1]]
    right = ["Prefix(:=<http://example.org/right#>)", "Ontology(<http://example.org/right>"]
    right += [f"SubClassOf(:X{i} :Y{i})" for i in numbers]
    table = ["#curie_map:", "#  l: http://example.org/left#", "#  r: http://example.org/right#"]
    table += ["subject_id\tpredicate_id\tobject_id\tconfidence"]
    for i in numbers:
        table += [f"l:A{i}\tskos:exactMatch\tr:X{i}\t0.9", f"l:B{i}\tskos:exactMatch\tr:Y{i}\t0.8"]
        table += [f"l:B{i}\tskos:broadMatch\tr:Y{i}\t0.7"]
    for file, lines in zip(FILES, [left + [")"], right + [")"], table]):
        (folder / file).write_text("\n".join(lines) + "\n")


def repeat(folder, times):
    """As many runs with sixteen workers, and how many different texts of OUT they wrote."""
    outs = set()
    for _ in range(times):
        run(["--workers", "16", *FILES], folder)
        outs.add(digest(folder))
    print(f"{times} runs with 16 workers: {len(outs)} text of OUT", flush=True)


def main():
    yardstick = pathlib.Path(sys.argv[1]).resolve()
    times = int(sys.argv[2]) if len(sys.argv) > 2 else 1000
    # Without words the program only prints its usage, once it is built.
    subprocess.run([REPOSITORY / "alod"], stdout=subprocess.DEVNULL)
    with tempfile.TemporaryDirectory() as root:
        small, large, spoiled, made = (pathlib.Path(root) / name for name in ["small", "large", "spoiled", "made"])
        for size, folder in [("1000", small), ("10000", large)]:
            subprocess.run([sys.executable, yardstick / "make_case.py", size, "1", folder], check=True, stdout=subprocess.DEVNULL)
        spoil(large, spoiled)
        make(made)
        compare("1,000 classes", small, FILES)
        compare("10,000 classes", large, FILES)
        compare("10,000 classes, spoiled", spoiled, FILES)
        compare(f"made {MADE}, from files", made, FILES)
        compare(f"--made {MADE}", made, ["--made", str(MADE)])
        words = ["{left}", "{right}", "{map}", "{out}", "{evidence}"]
        subprocess.run([sys.executable, yardstick / "compare.py", "--closed", PROGRAM, *words, "--", made])
        repeat(small, times)


if __name__ == "__main__":
    main()

"""Builds a program of a script over the repository's crates, runs it, and prints the lines that it measures.

The program is written to a temporary repository and built there by `rt run`, which proves it and the crates below it
first: that takes some minutes, and is not measured.
"""

import pathlib
import shutil
import subprocess
import sys
import tempfile

REPOSITORY = pathlib.Path(__file__).resolve().parent.parent


def libraries():
    """What each crate of the repository stands on."""
    lines = (REPOSITORY / "crates.txt").read_text().splitlines()
    pairs = (line.split(":") for line in lines if ":" in line and not line.startswith("#"))
    return {name.strip(): below.split() for name, below in pairs}


def with_those_below(names, all_libraries):
    """These crates and the repository's crates below them, the lowest first."""
    found = []
    for name in names:
        if name in all_libraries:
            found += with_those_below(all_libraries[name], all_libraries) + [name]
    return list(dict.fromkeys(found))


def build_driver(root, name, text, crates):
    """A program over these crates, of the repository or of the kit, built in a repository of its own in this folder."""
    all_libraries = libraries()
    used = with_those_below(crates, all_libraries)
    for crate in used:
        shutil.copytree(REPOSITORY / "crates" / crate, root / "crates" / crate, ignore=shutil.ignore_patterns("out"))
    (root / "crates" / name / "src").mkdir(parents=True)
    (root / "crates" / name / "src" / "main.rt").write_text(text)
    lines = [f"{crate}: {' '.join(all_libraries[crate])}" for crate in used]
    lines.append(f"{name}: {' '.join(crates)}")
    (root / "crates.txt").write_text("\n".join(lines) + "\n")
    return subprocess.run(["rt", "run", "--jobs", "2"], cwd=root / "crates" / name, capture_output=True, text=True)


def built_driver(root, name, text, crates):
    """The built program. It ends the script if there is none."""
    run = build_driver(root, name, text, crates)
    program = root / "crates" / name / "out" / name
    if not program.exists():
        sys.exit(run.stdout + run.stderr)
    return program


def run_driver(name, text, crates, measure):
    """Runs the program over these crates, and prints its lines with this measure, or all that it printed if none has."""
    with tempfile.TemporaryDirectory() as folder:
        run = build_driver(pathlib.Path(folder), name, text, [*crates, "anyhow"])
    measured = [line for line in run.stdout.splitlines() if measure in line]
    print("\n".join(measured) if measured else run.stdout + run.stderr)

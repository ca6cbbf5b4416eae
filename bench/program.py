#!/usr/bin/env python3
"""Runs the built program on made cases of 1,000, 10,000 and 40,000 classes a side, beside a plain unproved program on the
same files in the same run: `program.py YARDSTICK [CLASSES ..]`.

YARDSTICK is a folder with `make_case.py CLASSES SEED FOLDER`, which writes `left.ofn`, `right.ofn` and `map.sssom.tsv`,
and with `compare.py --closed COMMAND -- FOLDER ..`, which runs COMMAND and its own program by turns, and prints seconds
by the clock, processor seconds and peak memory of each, and whether both remove the same rows. `./alod` builds the
program first, which is not measured.
"""

import pathlib
import subprocess
import sys
import tempfile

REPOSITORY = pathlib.Path(__file__).resolve().parent.parent
COMMAND = [str(REPOSITORY / "crates" / "alod" / "out" / "alod"), "{left}", "{right}", "{map}", "{out}", "{evidence}"]


def main():
    yardstick = pathlib.Path(sys.argv[1]).resolve()
    sizes = sys.argv[2:] or ["1000", "10000", "40000"]
    # Without words the program only prints its usage, once it is built.
    subprocess.run([REPOSITORY / "alod"], stdout=subprocess.DEVNULL)
    with tempfile.TemporaryDirectory() as root:
        cases = [str(pathlib.Path(root) / f"case{size}") for size in sizes]
        for size, case in zip(sizes, cases):
            subprocess.run([sys.executable, yardstick / "make_case.py", size, "1", case], check=True, stdout=subprocess.DEVNULL)
        ended = subprocess.run([sys.executable, yardstick / "compare.py", "--closed", *COMMAND, "--", *cases])
    sys.exit(ended.returncode)


if __name__ == "__main__":
    main()

#!/usr/bin/env python3
"""Changes evidence in thirty ways and checks each: `tampered.py LEFT RIGHT MAP OUT EVIDENCE [SEED]`.

A change is of one byte, of one number, or of one line that is dropped, doubled, or exchanged with the next, each of the
five ways six times, at random places, the same for the same SEED. For each change the script prints what was changed,
and what `alodcheck` says of it. A change that leaves the text as it is doesn't count, and another is made in its place.
"""

import pathlib
import random
import re
import subprocess
import sys
import tempfile

REPOSITORY = pathlib.Path(__file__).resolve().parent.parent
EACH = 6


def byte_changed(text, at):
    place = at.randrange(len(text))
    byte = bytes([at.choice(b"0123456789 abcdefghijklmnopqrstuvwxyz<>")])
    return text[:place] + byte + text[place + 1 :], f"byte {place + 1} is {byte}"


def number_changed(text, at):
    found = at.choice(list(re.finditer(rb"\d+", text)))
    number = max(0, int(found.group()) + at.choice([-1, 1]))
    return text[: found.start()] + str(number).encode() + text[found.end() :], f"{found.group()} at byte {found.start() + 1} is {number}"


def line_dropped(text, at):
    lines = text.splitlines(keepends=True)
    place = at.randrange(len(lines))
    return b"".join(lines[:place] + lines[place + 1 :]), f"line {place + 1} dropped: {lines[place]}"


def line_doubled(text, at):
    lines = text.splitlines(keepends=True)
    place = at.randrange(len(lines))
    return b"".join(lines[: place + 1] + lines[place:]), f"line {place + 1} doubled: {lines[place]}"


def lines_exchanged(text, at):
    lines = text.splitlines(keepends=True)
    place = at.randrange(len(lines) - 1)
    lines[place], lines[place + 1] = lines[place + 1], lines[place]
    return b"".join(lines), f"lines {place + 1} and {place + 2} exchanged: {lines[place + 1]} {lines[place]}"


WAYS = [byte_changed, number_changed, line_dropped, line_doubled, lines_exchanged]


def changed(way, text, at):
    """Another text than this one, by one change."""
    while True:
        other, what = way(text, at)
        if other != text:
            return other, what


def main():
    left, right, table, out, evidence = (pathlib.Path(word).resolve() for word in sys.argv[1:6])
    at = random.Random(sys.argv[6] if len(sys.argv) > 6 else "1")
    text = evidence.read_bytes()
    program = REPOSITORY / "alodcheck"
    with tempfile.TemporaryDirectory() as root:
        tampered = pathlib.Path(root) / "evidence.txt"
        for way in WAYS * EACH:
            other, what = changed(way, text, at)
            tampered.write_bytes(other)
            run = subprocess.run([program, left, right, table, out, tampered], capture_output=True, text=True)
            print(f"{run.stdout.strip()} | {what}")


if __name__ == "__main__":
    main()

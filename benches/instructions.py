#!/usr/bin/env python3
"""Counts the instructions of short runs of each shape of shapes.py, by callgrind: `instructions.py PROGRAM [SHAPE ..]`.

Prints a row of a table for each shape: the instructions of a run, less those of a run to time 0, for each unit of its work; and
the first digits of the listing's MD5, by which two programs are compared. It takes some five minutes.
"""
import hashlib
import re
import subprocess
import sys

from shapes import EDGE, NS, SHAPES

# of each shape: how long it is run (in femtoseconds), what a unit is, and how many a run of so many cycles and events has
RUNS = {
    "clock": (20_000 * EDGE, "cycle", lambda cycles, events: cycles),
    "deltas": (2_000 * EDGE, "cycle", lambda cycles, events: cycles),
    "shift_64": (1_000 * EDGE, "resumption", lambda cycles, events: 1_000 * 64),
    "shift_1024": (100 * EDGE, "resumption", lambda cycles, events: 100 * 1_024),
    "shift_8000": (12 * EDGE, "resumption", lambda cycles, events: 12 * 8_000),
    "counters": (40 * EDGE, "event", lambda cycles, events: events),
    "multiplier": (1_000 * NS, "event", lambda cycles, events: events),
    "multiplier_delays": (500 * NS, "event", lambda cycles, events: events),
    "token": (2_000 * NS, "cycle", lambda cycles, events: cycles),
    "heavy": (40 * EDGE, "body", lambda cycles, events: 20 * 1_000),
    "bus": (16 * EDGE, "resumption", lambda cycles, events: 16 * 4_000),
}


def run(program, text, stop):
    """Runs a design to its stop time, and returns the number of instructions and the listing."""
    words = ["valgrind", "--tool=callgrind", "--callgrind-out-file=/dev/null", program, "--top", "t", "--limit", "1000000", "--stop", str(stop)]
    ran = subprocess.run(words, input=text, capture_output=True, check=True)
    return int(re.search(rb"Collected : (\d+)", ran.stderr).group(1)), ran.stdout


def main():
    if not sys.argv[1:]:
        sys.exit(__doc__)
    program, *names = sys.argv[1:]
    print("| Shape | Unit | Instructions | Listing |\n|---|---|--:|---|")
    for name in names or RUNS:
        stop, unit, units = RUNS[name]
        text = SHAPES[name]()[0].encode()
        whole, listing = run(program, text, stop)
        start, _ = run(program, text, 0)
        _, cycles, events = listing.splitlines()[-1].split()
        print(f"| {name} | {unit} | {(whole - start) / units(int(cycles), int(events)):,.0f} | {hashlib.md5(listing).hexdigest()[:8]} |", flush=True)


if __name__ == "__main__":
    main()

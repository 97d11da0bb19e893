#!/usr/bin/env python3
"""Measures what threads gain: whole runs of vsim with one worker and with several, whose listing is discarded.

    workers.py PROGRAM [--workers N ..] [--repeat N] [--load N] [--stream] [SHAPE ..]

The shapes are those of shapes.py; `wide`, a shift register of 60,000 flip-flops on one clock; and `cells`, 8,000 instances of an
entity with a long process on one clock. For each shape and number of workers (1, 2, 3 and 4) the least wall seconds of N runs (3),
and the processor seconds of that run. All listings of a shape must be the same, byte for byte. With --load this many processes that
never wait run at the same time. With --stream lines are written while the run goes on.

The last column is how much more work the machine does by several processors: as many runs as the greatest number of workers, each by
one worker, are made at once, and N times the seconds of one alone are divided by theirs. No number of threads can gain more than that
there: processors may be threads of fewer cores, or others' too.
"""
import argparse
import hashlib
import os
import subprocess
import sys
import tempfile
import time

from large import NS, shift
from shapes import SHAPES, cells


def wide():
    return shift(15_000), 500 * NS


ALL = {**SHAPES, "wide": wide, "cells": lambda: cells(8_000, 400)}


def once(program, more, workers, source, stop):
    """Wall seconds, processor seconds and the digest of the listing."""
    words = [program, "--top", "t", "--stop", str(stop), "--limit", "1000000", "--workers", str(workers), *more]
    with open(source, "rb") as file, tempfile.TemporaryFile() as listing:
        start = time.monotonic()
        child = subprocess.Popen(words, stdin=file, stdout=listing)
        _, status, used = os.wait4(child.pid, 0)
        wall = time.monotonic() - start
        child.returncode = os.waitstatus_to_exitcode(status)
        if child.returncode:
            sys.exit(f"workers: {' '.join(words)}: status {child.returncode}")
        listing.seek(0)
        return wall, used.ru_utime + used.ru_stime, hashlib.file_digest(listing, "sha256").hexdigest()


def at_once(program, count, source, stop):
    """Wall seconds of this many runs by one worker at the same time."""
    words = [program, "--top", "t", "--stop", str(stop), "--limit", "1000000"]
    with open(source, "rb") as file:
        text = file.read()
    start = time.monotonic()
    children = [subprocess.Popen(words, stdin=subprocess.PIPE, stdout=subprocess.DEVNULL) for _ in range(count)]
    for it in children:
        it.stdin.write(text)
        it.stdin.close()
    if any(it.wait() for it in children):
        sys.exit("workers: a run failed")
    return time.monotonic() - start


def main():
    given = argparse.ArgumentParser()
    given.add_argument("program")
    given.add_argument("shapes", nargs="*", default=[*ALL])
    given.add_argument("--workers", type=int, nargs="+", default=[1, 2, 3, 4])
    given.add_argument("--repeat", type=int, default=3)
    given.add_argument("--load", type=int, default=0)
    given.add_argument("--stream", dest="more", action="store_const", const=["--stream"], default=[])
    given = given.parse_intermixed_args()
    busy = [subprocess.Popen([sys.executable, "-c", "while True: pass"]) for _ in range(given.load)]
    try:
        measure(os.path.abspath(given.program), given)
    finally:
        for it in busy:
            it.kill()


def measure(program, given):
    """Writes the table."""
    most = max(given.workers)
    print("| Shape |" + "".join(f" {count}: wall | {count}: processor |" for count in given.workers) + f" {most}: most gain |")
    print("|---|" + "--:|--:|" * len(given.workers) + "--:|")
    for name in given.shapes:
        text, stop = ALL[name]()
        with tempfile.NamedTemporaryFile("w", suffix=".vhd") as source:
            source.write(text)
            source.flush()
            # in turn, so that other load on the machine affects all alike
            runs = [[once(program, given.more, count, source.name, stop) for count in given.workers] for _ in range(given.repeat)]
            alone, together = (min(at_once(program, count, source.name, stop) for _ in range(given.repeat)) for count in (1, most))
        if len({run[2] for turn in runs for run in turn}) != 1:
            sys.exit(f"workers: {name}: the listings differ")
        cells = "".join(f" {wall:.2f} | {spent:.2f} |" for wall, spent, _ in (min(of) for of in zip(*runs)))
        print(f"| {name} |{cells} {most * alone / together:.1f} |", flush=True)


if __name__ == "__main__":
    main()

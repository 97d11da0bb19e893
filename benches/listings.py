#!/usr/bin/env python3
"""Measures what reads listings: `listings.py VSIM_WAVES VSIM_COMPARE [CHANGES]`.

Prints a row of a table for each command: the instructions of a change, by callgrind and a hundredth of the changes; the least processor
seconds of three runs; and the most memory, in MiB. The listing has 1,000 nets two instances deep and CHANGES changes (10,000,000 if it is not
given), ten at each time in two delta cycles; the VCD is the one that VSIM_WAVES makes of it. Both take some 400 MB in the temporary folder.

A second table has the instructions that VSIM_WAVES takes for a line of listings of other shapes, of 200,000 lines each.
"""
import os
import random
import re
import subprocess
import sys
import tempfile

CHANGES = 10_000_000
RUNS = 3


def named(count):
    """Returns the names of nets two instances deep, path by path."""
    return sorted((f"u{it % 30}.v{it % 7}.net_{it}" for it in range(count)), key=lambda it: it.rpartition(".")[0])


NETS = [f"u{it % 30}.v{it % 7}.net_{it}" for it in range(1000)]
LINES = 200_000
# other shapes: what they are, their nets, and how many change at each time
SHAPES = [
    ("a clock alone", ["clk"], 1),
    ("4 nets, 4 changes at each time", [f"s{it}" for it in range(4)], 4),
    ("1,000 nets, 100 changes at each time", named(1000), 100),
    ("100,000 nets, which half of the lines name", named(100_000), 100),
]


def write_listing(path, count, nets=NETS, at_once=10):
    """Writes a listing with so many changes, some at each time, in two delta cycles. The first net is a clock, which changes at each time."""
    chance, values, others = random.Random(1), [0] * len(nets), max(1, len(nets) - 1)
    with open(path, "w", encoding="ascii") as out:
        out.writelines(f"0 0 {name} 0\n" for name in nets)
        for time in range(1, count // at_once + 1):
            first = chance.randrange(1, others + 1)
            for place in range(at_once):
                net = (first + place * 37) % others + 1 if place else 0
                values[net] ^= 1
                out.write(f"{time}000000 {place * 2 // at_once} {nets[net]} {values[net]}\n")
        out.write(f"done {count // at_once * 2} {count}\n")


def told(words, given, taken):
    """Returns the errors of a command, which must end with status 0."""
    with open(given, "rb") as file, open(taken, "wb") as out:
        return subprocess.run(words, stdin=file, stdout=out, stderr=subprocess.PIPE, check=True).stderr.decode()


def measured(words, given, taken):
    """Returns the processor seconds of a command and its memory in KiB."""
    user, system, memory = told(["/usr/bin/time", "-f", "%U %S %M", *words], given, taken).split()
    return float(user) + float(system), int(memory)


def instructions(words, given, taken):
    said = told(["valgrind", "--tool=callgrind", "--callgrind-out-file=/dev/null", *words], given, taken)
    return int(re.search(r"Collected : (\d+)", said)[1])


def commands(waves, compare, folder):
    """Returns for each command its name, its words, and where its output goes, with the listing and the VCD of a folder."""
    listing, vcd = f"{folder}/listing", f"{folder}/vcd"
    return [
        ("vsim_waves", [waves], vcd),
        ("vsim_waves --deltas", [waves, "--deltas"], os.devnull),
        ("vsim_compare, two listings", [compare, listing, listing], os.devnull),
        ("vsim_compare, a listing and its VCD", [compare, listing, vcd], os.devnull),
        ("vsim_compare --at-edges, two listings", [compare, "--at-edges", NETS[0], listing, listing], os.devnull),
    ]


def main(waves, compare, changes):
    print("| Command | Instructions | Processor seconds | MiB |\n|---|--:|--:|--:|")
    with tempfile.TemporaryDirectory() as long, tempfile.TemporaryDirectory() as short:
        write_listing(f"{long}/listing", changes)
        write_listing(f"{short}/listing", changes // 100)
        for (name, *whole), (_, *part) in zip(commands(waves, compare, long), commands(waves, compare, short)):
            count = instructions(part[0], f"{short}/listing", part[1]) / (changes // 100)
            runs = [measured(whole[0], f"{long}/listing", whole[1]) for _ in range(RUNS)]
            seconds, memory = min(it for it, _ in runs), max(it for _, it in runs) / 1024
            print(f"| {name} | {count:,.0f} | {seconds:.2f} | {memory:.1f} |", flush=True)
        print("\n| Listing | Instructions |\n|---|--:|")
        for name, nets, at_once in SHAPES:
            write_listing(f"{short}/listing", LINES - len(nets), nets, at_once)
            print(f"| {name} | {instructions([waves], f'{short}/listing', os.devnull) / LINES:,.0f} |", flush=True)


if __name__ == "__main__":
    if len(sys.argv) not in (3, 4):
        sys.exit(__doc__)
    main(*map(os.path.abspath, sys.argv[1:3]), int(sys.argv[3]) if len(sys.argv) == 4 else CHANGES)

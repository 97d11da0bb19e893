#!/usr/bin/env python3
"""Counts the instructions of runs by several threads: `critical_path.py PROGRAM [SHAPE ..]`.

PROGRAM must hand out each phase, whatever it costs: one of the same sources in which `Hints::measured` (sim_run_team) has the numbers of
work of `Hints::all_handed_out`. Prints a row of a table for each shape: the instructions by one worker for each unit of its work; those of
the main thread by four, apart from its own orders (serial), and those of all threads for orders; and serial + orders / n for n threads, which
is the least time of n processors that wait for nothing. Instructions of a run to time 0 are taken off. It takes some ten minutes.
"""
import glob
import os
import re
import subprocess
import sys
import tempfile

from instructions import RUNS
from shapes import SHAPES

NAMES = ["shift_8000", "counters", "multiplier", "heavy", "bus"]
THREADS = [2, 4, 8]
# the function that carries out an order, on whichever thread
ORDER = "PhaseWorkWork::carry_out"


def inclusive(path):
    """Returns the instructions of a thread, and those of its orders, by a file that callgrind wrote."""
    said = subprocess.run(["callgrind_annotate", "--inclusive=yes", "--threshold=100", path], capture_output=True, text=True, check=True).stdout
    whole, orders = 0, 0
    for line in said.split("\n"):
        found = re.match(r"\s*([\d,]+) \(\s*[\d.]+%\)\s+(.*)", line)
        if found and found[2].startswith("PROGRAM TOTALS"):
            whole = int(found[1].replace(",", ""))
        elif found and ORDER in found[2]:
            orders = max(orders, int(found[1].replace(",", "")))
    return whole, orders


def run(program, text, stop, workers):
    """Returns the instructions outside orders of the main thread, those of orders of all threads, and the last line of the listing."""
    with tempfile.TemporaryDirectory() as folder:
        words = ["valgrind", "--tool=callgrind", "--separate-threads=yes", f"--callgrind-out-file={folder}/out", program, "--top", "t",
                 "--limit", "1000000", "--stop", str(stop), "--workers", str(workers)]
        ran = subprocess.run(words, input=text, capture_output=True, check=True)
        threads = [inclusive(it) for it in sorted(glob.glob(f"{folder}/out*")) if os.path.getsize(it)]
    # the file of the whole program, where there is one, has no instructions of its own
    threads = [it for it in threads if it[0]]
    return threads[0][0] - threads[0][1], sum(it[1] for it in threads), ran.stdout.splitlines()[-1]


def main():
    if not sys.argv[1:]:
        sys.exit(__doc__)
    program, *names = sys.argv[1:]
    print("| Shape | Unit | One worker | Serial | Orders |" + "".join(f" {it} |" for it in THREADS))
    print("|---|---|--:|--:|--:|" + "--:|" * len(THREADS))
    for name in names or NAMES:
        stop, unit, units = RUNS[name]
        text = SHAPES[name]()[0].encode()
        alone, own, last = run(program, text, stop, 1)
        alone_first, own_first, _ = run(program, text, 0, 1)
        serial, orders, _ = run(program, text, stop, 4)
        serial_first, orders_first, _ = run(program, text, 0, 4)
        _, cycles, events = last.split()
        count = units(int(cycles), int(events))
        one = (alone + own - alone_first - own_first) / count
        main_part, all_orders = (serial - serial_first) / count, (orders - orders_first) / count
        times = "".join(f" {main_part + all_orders / it:,.0f} |" for it in THREADS)
        print(f"| {name} | {unit} | {one:,.0f} | {main_part:,.0f} | {all_orders:,.0f} |{times}", flush=True)


if __name__ == "__main__":
    main()

#!/usr/bin/env python3
"""Measures whole runs: `runs.py PROGRAM [WORKERS [DESIGN ..]]`, with vsim. For each design the least of three processor times and of
three wall times in seconds, the most memory in MiB, cycles and events.

clock        one signal that changes a million times
ten          ten signals that change together a million times: ten million lines
shift_1024   a shift register of 1,024 flip-flops, for 2,000 rising edges
shift_8000   one of 8,000, for 250
one_of_10    a clock of 10,000 cycles beside 10 idle signals
one_of_16000 the same beside 16,000
together     8,000 signals that all change at the same time, again and again, 250 times
"""
import os
import subprocess
import sys
import tempfile
import time

CLOCK = "clk <= not clk after 5 ns;"
PERIOD = 10_000_000
FLIP_FLOP = "process (clk) begin if rising_edge(clk) then q{0} <= {1}; end if; end process;"


def design(names, statements):
    """A design with these signals, all '0' at first."""
    return f"entity t is end; architecture a of t is signal {','.join(names)}: std_logic := '0'; begin {' '.join(statements)} end;"


def shift(count):
    stages = [FLIP_FLOP.format(i, "d" if i == 0 else f"q{i - 1}") for i in range(count)]
    return design(["clk", "d", *(f"q{i}" for i in range(count))], [CLOCK, "d <= not d after 20 ns;", *stages])


def together(count):
    return design([f"s{i}" for i in range(count)], [f"s{i} <= not s{i} after 5 ns;" for i in range(count)])


def beside(idle):
    return design(["clk", *(f"s{i}" for i in range(idle))], [CLOCK])


# for each its text, and its stop time in femtoseconds
RUNS = {
    "clock": (design(["clk"], [CLOCK]), 500_000 * PERIOD - 1),
    "ten": (together(10), 500_000 * PERIOD - 1),
    "shift_1024": (shift(1024), 2_000 * PERIOD),
    "shift_8000": (shift(8000), 250 * PERIOD),
    "one_of_10": (beside(10), 5_000 * PERIOD),
    "one_of_16000": (beside(16_000), 5_000 * PERIOD),
    "together": (together(8000), 125 * PERIOD),
}


def measured(program, workers, text, stop):
    """Processor seconds, wall seconds, MiB and the last line of one run, whose listing is discarded."""
    with tempfile.TemporaryFile() as source, tempfile.TemporaryFile() as listing:
        source.write(text.encode())
        source.seek(0)
        words = [program, "--top", "t", "--stop", str(stop), "--limit", "1000000", "--workers", workers]
        start = time.monotonic()
        child = subprocess.Popen(words, stdin=source, stdout=listing)
        _, status, usage = os.wait4(child.pid, 0)
        wall = time.monotonic() - start
        assert status == 0, f"status {status}"
        listing.seek(-40, os.SEEK_END)
        last = listing.read().decode().splitlines()[-1]
    return usage.ru_utime + usage.ru_stime, wall, usage.ru_maxrss / 1024, last


def main():
    program = os.path.abspath(sys.argv[1])
    workers = sys.argv[2] if len(sys.argv) > 2 else "1"
    print("| Design | Processor | Wall | MiB | Last line |\n|---|---|---|---|---|")
    for name in sys.argv[3:] or RUNS:
        found = [measured(program, workers, *RUNS[name]) for _ in range(3)]
        least = [min(f[i] for f in found) for i in range(2)]
        print(f"| {name} | {least[0]:.2f} | {least[1]:.2f} | {max(f[2] for f in found):.0f} | {found[0][3]} |", flush=True)


if __name__ == "__main__":
    main()

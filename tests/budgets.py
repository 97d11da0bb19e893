#!/usr/bin/env python3
"""Bounds the instructions of five small runs, and the memory of a queue: `budgets.py VSIM [--write]`.

- Five designs of benches/shapes.py run by one worker, their instructions counted by valgrind. No sum may differ by more than a fifth from
  INSTRUCTIONS. A change of the program that makes runs faster, or slower for a reason that is written down, changes the table: `--write`
  prints the present one. This counts as one test; where valgrind is missing that is said, and it is not counted.
- A driver is assigned in each of a million cycles, so that its next time moves a million times while earlier times of other drivers are
  pending. The run may take a quarter more memory than the same one in which it is assigned once.

Neither changes a listing, so no clause and no other test sees it. The last line is `N passed, M failed`.
"""
import os
import re
import shutil
import subprocess
import sys
import tempfile

TOP = os.path.dirname(os.path.dirname(os.path.realpath(__file__)))
sys.path.insert(0, f"{TOP}/benches")
import shapes  # noqa: E402

# of each run its design and its stop time
RUNS = {
    "registers": lambda: shapes.shift(64, 3_000),
    "gates": lambda: shapes.multiplier(12, False, 12),
    "bus": lambda: shapes.bus(200, 60),
    "clock": lambda: shapes.clock(20_000),
    "names": lambda: shapes.cells(100, 40),
}
# the instructions of each
INSTRUCTIONS = {
    "registers": 28_276_848,
    "gates": 35_296_200,
    "bus": 16_729_113,
    "clock": 14_586_147,
    "names": 8_688_323,
}
CYCLES = 999_000
# a clock, and three drivers with earlier times than the one that is assigned by it, or once
QUEUE = """library ieee; use ieee.std_logic_1164.all;
entity t is end; architecture a of t is signal c, s, d, e, f: std_logic := '0'; begin
c <= not c after 1 ns;
process ({0}) begin s <= c after 1 ms; end process;
process (d) begin d <= '1' after 999100 ns; e <= '1' after 999200 ns; f <= '1' after 999300 ns; end process;
end;
"""


def instructions(vsim, text, stop):
    """Returns the instructions of a run."""
    words = ["valgrind", "--tool=cachegrind", "--cache-sim=no", "--cachegrind-out-file=/dev/null",
             vsim, "--top", "t", "--limit", "1000000", "--stop", str(stop)]
    ran = subprocess.run(words, input=text.encode(), stdout=subprocess.DEVNULL, stderr=subprocess.PIPE, check=True)
    return int(re.search(rb"I\s+refs:\s+([\d,]+)", ran.stderr)[1].replace(b",", b""))


def memory(vsim, text):
    """Returns the status of a run of CYCLES cycles, and the most memory that it has had, in KiB."""
    with tempfile.TemporaryFile() as source:
        source.write(text.encode())
        source.seek(0)
        words = [vsim, "--top", "t", "--limit", "1000000", "--stop", f"{CYCLES}000000"]
        process = subprocess.Popen(words, stdin=source, stdout=subprocess.DEVNULL)
        _, status, used = os.wait4(process.pid, 0)
        process.returncode = status
    return status, used.ru_maxrss


def are_counted(vsim):
    """Returns what differs from the table by more than a fifth."""
    wrong = []
    for name, made in RUNS.items():
        text, stop = made()
        found = instructions(vsim, text, stop)
        if abs(found - INSTRUCTIONS[name]) > INSTRUCTIONS[name] / 5:
            wrong.append(f"{name} takes {found:,} instructions, where the table has {INSTRUCTIONS[name]:,}")
    return "; ".join(wrong)


def is_trimmed(vsim):
    """Returns how much more memory a run takes in which a time moves a million times, if that is a quarter or more."""
    (status, moved), (of_once, once) = (memory(vsim, QUEUE.format(it)) for it in ("c", "f"))
    if status or of_once:
        return f"status {status} and {of_once}"
    return "" if moved < once * 5 / 4 else f"it takes {moved:,} KiB, and {once:,} KiB where the time does not move"


def main(words):
    vsim, *more = words
    if more == ["--write"]:
        for name, made in RUNS.items():
            print(f'    "{name}": {instructions(vsim, *made()):_},')
        return 0
    checks = [("the queue of times", is_trimmed)]
    if shutil.which("valgrind"):
        checks.append(("instructions", are_counted))
    else:
        print("budgets: valgrind is not installed, so the instructions of runs were not counted")
    wrong = [(name, found) for name, check in checks for found in [check(vsim)] if found]
    for name, found in wrong:
        print(f"budgets: {name}: {found}")
    print(f"{len(checks) - len(wrong)} passed, {len(wrong)} failed")
    return 1 if wrong else 0


if __name__ == "__main__":
    if len(sys.argv) < 2:
        sys.exit(__doc__)
    sys.exit(main(sys.argv[1:]))

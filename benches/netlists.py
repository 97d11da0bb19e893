#!/usr/bin/env python3
"""Prints a table of runs of netlists beside Icarus and GHDL: processor seconds with all changes written to a file. Then one of sizes: bytes
of texts without stimuli, and what large netlists take.

    netlists.py VSIM VSIM_NETLIST VSIM_WAVES

The netlists are those of tests/netlist.py, which makes, runs and compares them. A large one is a multiplier several times over.
"""
import json
import os
import subprocess
import sys
import tempfile

sys.path.insert(0, os.path.join(os.path.dirname(os.path.dirname(os.path.realpath(__file__))), "tests"))
import netlist  # noqa: E402

DESIGNS = ["registers", "uart", "odd", "fir", "mul32"]
# how many times the multiplier of some 6,400 cells is there
COPIES = [1, 3, 6, 7]


def bits_of(bits, by):
    return [it + by if isinstance(it, int) else it for it in bits]


def copied(module, copies):
    """Returns a module several times over, as one module."""
    most = 1 + max(bit for name in module["netnames"].values() for bit in name["bits"] if isinstance(bit, int))
    found = {"attributes": module["attributes"], "ports": {}, "cells": {}, "netnames": {}}
    for copy in range(copies):
        for part in ("ports", "netnames"):
            for name, it in module[part].items():
                found[part][f"{name}_{copy}"] = {**it, "bits": bits_of(it["bits"], copy * most)}
        for name, it in module["cells"].items():
            pins = {pin: bits_of(bits, copy * most) for pin, bits in it["connections"].items()}
            found["cells"][f"{name}_{copy}"] = {**it, "connections": pins}
    return found


# runs a program and prints its processor seconds and megabytes: a process has at least the memory of the one that started it, and ours is large
SPENT = """
import os, subprocess, sys
process = subprocess.Popen(sys.argv[1:], stderr=subprocess.DEVNULL)
_, status, usage = os.wait4(process.pid, 0)
print(usage.ru_utime + usage.ru_stime, usage.ru_maxrss / 1024, file=sys.stderr)
sys.exit(status != 0)
"""


def measure(program, document):
    """Returns the bytes of a netlist and of its text, processor seconds, and megabytes."""
    text = json.dumps(document, indent=2).encode()
    with tempfile.TemporaryFile() as source, tempfile.TemporaryFile() as target:
        source.write(text)
        source.seek(0)
        ran = subprocess.run([sys.executable, "-c", SPENT, program], stdin=source, stdout=target, stderr=subprocess.PIPE, check=False)
        # a text that is too long is refused
        made = target.seek(0, os.SEEK_END) if ran.returncode == 0 else None
    seconds, memory = (float(word) for word in ran.stderr.split())
    return len(text), made, seconds, memory


def runs(programs):
    print("| Design | Text, bytes | Changes | vsim, s | Icarus and VCD, s | GHDL and VCD, s |\n|---|--:|--:|--:|--:|--:|")
    for name in DESIGNS:
        it = netlist.try_design(programs, name, False)
        print(f"| {name} | {it.bytes:,} | {it.lines:,} | {it.vsim:.2f} | {it.icarus:.2f} | {it.ghdl:.2f} |")


def sizes(program):
    print("\n| Netlist | Its bytes | Cells | Text, bytes | Bytes a cell | s | MB |\n|---|--:|--:|--:|--:|--:|--:|")
    for name in DESIGNS:
        origin, passes, _, _ = netlist.DESIGNS[name]
        with tempfile.TemporaryDirectory() as folder:
            netlist.fetch(origin, folder, name)
            netlist.synthesize(folder, name, passes)
            document = json.loads(netlist.read(f"{folder}/{name}.json"))
        module = document["modules"][name]
        for copies in COPIES if name == "mul32" else [1]:
            document["modules"][name] = copied(module, copies)
            given, made, seconds, memory = measure(program, document)
            cells = copies * len(module["cells"])
            told = f"{made:,} | {made / cells:.1f}" if made else "refused | "
            print(f"| {name}, {copies} times | {given:,} | {cells:,} | {told} | {seconds:.2f} | {memory:.0f} |")


def main():
    if len(sys.argv) != 4:
        sys.exit(__doc__)
    programs = [os.path.abspath(it) for it in sys.argv[1:]]
    runs(programs)
    sizes(programs[1])


if __name__ == "__main__":
    main()

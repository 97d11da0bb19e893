#!/usr/bin/env python3
"""Prints a table of runs of cells with the delays of an SDF file: vsim beside Icarus Verilog and GHDL.

    cells.py VSIM VSIM_NETLIST VSIM_WAVES [DESIGN ..]

Six designs, those of cells/ and some of tests/netlists/designs/, become cells of osu018 by Yosys and abc, and OpenSTA writes their delays. Icarus runs the
test bench with the source, of which the stimuli come. VSIM_NETLIST makes a text of the cells, their delays and the stimuli, and VSIM runs it,
as does GHDL; Icarus runs Yosys' own netlist, the library's models and the same delays and stimuli. Then

- before each rising edge of the clock each net has the value that Icarus gives it, or is known where Icarus does not know it;
- each change of each net is one that GHDL gives as well, and the other way round.

A second table has what it takes VSIM_NETLIST to read an SDF file of 50 MB.

Columns are the cells, the changes of the listing, the processor seconds of VSIM_NETLIST, of VSIM with a listing, of Icarus (vvp, which reads
the delays) with a VCD, of GHDL (analysis, elaboration and run) with a VCD, and the MiB of VSIM_NETLIST, VSIM and Icarus. It needs packages of
Debian:

    apt-get install yosys berkeley-abc iverilog ghdl-mcode opensta qflow-tech-osu018
"""
import json
import os
import re
import shutil
import subprocess
import sys
import tempfile

TOP = os.path.dirname(os.path.dirname(os.path.realpath(__file__)))
sys.path.insert(0, f"{TOP}/tests")
from netlist import OSU018, SHARED, call, compare, driven, fetch, of_listing  # noqa: E402
from netlist_texts import Fault, Waves, demand, read, wide  # noqa: E402
from netlists import SPENT  # noqa: E402

OWN, OTHERS = f"{TOP}/benches/cells", f"{TOP}/tests/netlists/designs"
SYNTH = "synth -flatten -top {0}"
# of each design its folder, and how Yosys comes from the source to gates
DESIGNS = {
    "uart": (OTHERS, SYNTH),
    "fir": (OTHERS, SYNTH),
    "mul16": (OWN, SYNTH),
    "mixed": (OWN, f"{SHARED}; simplemap; opt"),
    "crc32": (OWN, SYNTH),
    "xtea": (OWN, SYNTH),
}
CLOCK = "clk"
# (OpenSTA takes no assignment of several bits)
TO_CELLS = f"dfflibmap -liberty {OSU018}.lib; techmap -map {OWN}/osu018.v; abc -liberty {OSU018}.lib; opt_clean -purge; splitnets; " \
    "opt_clean -purge; rename -enumerate"
TIMING = f"""set sta_preset_clear_arcs_enabled 1
read_liberty {OSU018}.lib
read_verilog NAME.net.v
link_design NAME
set_input_transition 0.1 [all_inputs]
set_load 0.02 [all_outputs]
write_sdf -digits 3 -divider . NAME.sdf
"""
NEEDED = ["yosys", "sta", "iverilog", "vvp", "ghdl"]


# an instance of a long file of delays, of which there are so many
ENTRY = """(CELL (CELLTYPE "OR2") (INSTANCE u_{0}_) (DELAY (ABSOLUTE
  (IOPATH A Y (0.1:0.2:0.3) (0.2:0.3:0.4)) (IOPATH B Y (0.1:0.2:0.3) (0.2:0.3:0.4)))))
"""
ENTRIES = 340_000
NO_CELLS = '{"creator": "Yosys", "modules": {"top": {"ports": {}, "cells": {}, "netnames": {}}}}'


def put(path, text):
    with open(path, "w", encoding="utf-8") as file:
        file.write(text)


def spent(folder, words, given=os.devnull, taken=os.devnull, status=0):
    """Carries out a command in a folder, and returns its processor seconds and MiB."""
    with open(os.path.join(folder, given), "rb") as source, open(os.path.join(folder, taken), "wb") as target:
        ran = subprocess.run([sys.executable, "-c", SPENT, *words], cwd=folder, stdin=source, stdout=target, stderr=subprocess.PIPE)
    demand(ran.returncode == status, f"{' '.join(words)} ended with another status than {status}")
    return tuple(float(it) for it in ran.stderr.split())


def make(folder, name):
    """Makes the netlist of a design, its delays and its stimuli, NAME.json, NAME.net.v, NAME.sdf and NAME.vcd."""
    origin, passes = DESIGNS[name]
    fetch(origin, folder, name)
    call(["iverilog", "-g2012", "-o", "source", f"{name}.v", f"{name}_tb.v"], folder)
    call(["vvp", "source"], folder)
    script = f"read_verilog {name}.v; {passes.format(name)}; {TO_CELLS}; write_json {name}.json; write_verilog -noattr {name}.net.v"
    call(["yosys", "-q", "-p", script], folder)
    put(f"{folder}/{name}.tcl", TIMING.replace("NAME", name))
    call(["sta", "-exit", f"{name}.tcl"], folder)
    # the models round delays to 10 ps
    put(f"{folder}/models.v", read(f"{OSU018}.v").decode().replace("1ns/10ps", "1ns/1ps"))


def steps_of(waves, inputs):
    """Returns the changes of inputs but for the clock, as {time: {input: value}}."""
    names, found = {waves.variables[it][0]: it for it in inputs if it != CLOCK}, {}
    for time, code, level in waves.changes:
        if code in names:
            found.setdefault(time, {})[names[code]] = wide(level, waves.variables[names[code]][1])
    return found


def replay(folder, name, end):
    """Writes a test bench of the netlist with the delays and with the changes of the stimuli. What changes with the clock comes after its edge."""
    ports = json.loads(read(f"{folder}/{name}.json"))["modules"][name]["ports"]
    waves = Waves(read(f"{folder}/{name}.vcd"), "tb.dut")
    half = next(time for time, code, _ in waves.changes if code == waves.variables[CLOCK][0] and time)
    declared = [f"  {'reg' if it['direction'] == 'input' else 'wire'} [{len(it['bits']) - 1}:0] {port};" for port, it in ports.items()]
    inputs = [port for port, it in ports.items() if it["direction"] == "input"]
    body, now = [], 0
    for time, changed in sorted(steps_of(waves, inputs).items()):
        body.append(f"    #{(time - now) // 1000} " + " ".join(f"{it} {'<=' if time else '='} {len(level)}'b{level};" for it, level in changed.items()))
        now = time
    put(f"{folder}/replay.v", "\n".join([
        "`timescale 1ps/1ps", "module replay;", *declared, f"  {name} dut({', '.join(f'.{it}({it})' for it in ports)});",
        f'  initial begin $sdf_annotate("{name}.sdf", dut); $dumpfile("icarus.vcd"); $dumpvars(1, dut); end',
        f"  initial begin {CLOCK} = 0; forever #{half // 1000} {CLOCK} = !{CLOCK}; end",
        "  initial begin", *body, f"    #{(end - now) // 1000} $finish;", "  end", "endmodule", ""]))


def by_icarus(folder, name, end):
    """Runs the netlist by Icarus, and returns its seconds and MiB."""
    replay(folder, name, end)
    call(["iverilog", "-gspecify", "-g2012", "-Tmax", "-o", "gates", "replay.v", f"{name}.net.v", "models.v"], folder)
    return spent(folder, ["vvp", "gates"])


def are_settled_alike(folder, name, waves, end):
    """Demands that before each rising edge of the clock each net is as Icarus has it."""
    call(["sh", "-c", f"{waves} --map map < listing > vsim.vcd"], folder)
    ours, theirs = Waves(read(f"{folder}/vsim.vcd"), name), Waves(read(f"{folder}/icarus.vcd"), "replay.dut")
    clock = ours.variables[CLOCK][0]
    times = [time - 1 for time, code, level in ours.changes if code == clock and level == "1" and time < end]
    count, alone, differ = compare(ours, theirs, driven(folder, name), times)
    demand(not differ, f"Icarus: {len(differ)} of {count} differ, first {differ[:3]}")
    return f"{count:,} values are those of Icarus, and {alone:,} words are unknown to it alone"


def changes_of(waves, end):
    """Returns for each net its changes before the end, as [(time, level)], one at each time."""
    found = {}
    for time, code, level in waves.changes:
        changes = found.setdefault(code, [])
        if time >= end:
            continue
        if changes and changes[-1][0] == time:
            changes.pop()
        if not changes or changes[-1][1] != level:
            changes.append((time, level))
    return {name: found[code] for name, (code, _) in waves.variables.items()}


def by_ghdl(folder, name, end):
    """Runs the text by GHDL, demands the same changes, and returns its seconds."""
    # the standard wants a blank between a number and its unit, and vsim does not
    put(f"{folder}/ghdl.vhd", re.sub(r"\b(\d+)([fpnum]s)\b", r"\1 \2", read(f"{folder}/{name}.vhd").decode()))
    seconds, _ = spent(folder, ["ghdl", "-a", "--std=08", "ghdl.vhd"])
    seconds += spent(folder, ["ghdl", "--elab-run", "--std=08", name, "--vcd=ghdl.vcd", f"--stop-time={end}fs"])[0]
    theirs = changes_of(Waves(read(f"{folder}/ghdl.vcd"), name), end)
    for net, mine in changes_of(of_listing(read(f"{folder}/listing")), end).items():
        demand(mine == theirs.get(net), f"GHDL: {net} differs first at {min(set(mine) ^ set(theirs.get(net, [])), default='its beginning')}")
    return seconds


def row(programs, name, folder):
    """Makes, runs and compares a design, and returns its row of the table."""
    vsim, netlist, waves = programs
    make(folder, name)
    words = ["--liberty", f"{OSU018}.lib", "--sdf", f"{name}.sdf", "--corner", "max", "--stimuli", f"{name}.vcd", "--scope", "tb.dut", "--map", "map"]
    of_text = spent(folder, [netlist, *words], f"{name}.json", f"{name}.vhd")
    of_run = spent(folder, [vsim, "--top", name, "--limit", "1000000"], f"{name}.vhd", "listing")
    end = int(re.search(rb"^end (\d+)$", read(f"{folder}/map"), re.M)[1])
    of_icarus = by_icarus(folder, name, end)
    print(f"{name}: {are_settled_alike(folder, name, waves, end)}", file=sys.stderr)
    of_ghdl = by_ghdl(folder, name, end)
    cells = len(json.loads(read(f"{folder}/{name}.json"))["modules"][name]["cells"])
    seconds = " | ".join(f"{it:.2f}" for it in (of_text[0], of_run[0], of_icarus[0], of_ghdl))
    memory = " | ".join(f"{it[1]:.0f}" for it in (of_text, of_run, of_icarus))
    return f"| {name} | {cells:,} | {read(f'{folder}/listing').count(10):,} | {seconds} | {memory} |"


def reading(netlist, folder):
    """Returns the row of a file that is read, and refused in the end, as the netlist has none of its cells."""
    put(f"{folder}/long.sdf", '(DELAYFILE (SDFVERSION "3.0") (TIMESCALE 1ns)\n' + "".join(map(ENTRY.format, range(ENTRIES))) + ")\n")
    put(f"{folder}/none.json", NO_CELLS)
    size = os.path.getsize(f"{folder}/long.sdf")
    runs = [spent(folder, [netlist, "--sdf", "long.sdf", "--corner", "max"], "none.json", status=1) for _ in range(3)]
    seconds, memory = min(it for it, _ in runs), max(it for _, it in runs)
    return f"| {size:,} | {seconds:.2f} | {size / seconds / 1e6:.0f} | {memory:.0f} | {memory * 2**20 / size:.1f} |"


def main():
    if len(sys.argv) < 4 or not set(sys.argv[4:]) <= DESIGNS.keys():
        sys.exit(__doc__)
    missing = [it for it in NEEDED if not shutil.which(it)] + [it for it in [f"{OSU018}.lib"] if not os.path.exists(it)]
    if missing:
        sys.exit(f"cells.py: {', '.join(missing)} is missing: apt-get install yosys berkeley-abc iverilog ghdl-mcode opensta qflow-tech-osu018")
    programs = [os.path.abspath(it) for it in sys.argv[1:4]]
    print("| Design | Cells | Changes | vsim_netlist, s | vsim, s | Icarus, s | GHDL, s | vsim_netlist, MiB | vsim, MiB | Icarus, MiB |")
    print("|---|--:|--:|--:|--:|--:|--:|--:|--:|--:|")
    for name in sys.argv[4:] or DESIGNS:
        with tempfile.TemporaryDirectory() as folder:
            try:
                print(row(programs, name, folder), flush=True)
            except Fault as fault:
                sys.exit(f"cells.py: {name}: {fault}")
    print("\n| SDF file, bytes | s | MB/s | MiB | memory by its bytes |\n|--:|--:|--:|--:|--:|")
    with tempfile.TemporaryDirectory() as folder:
        print(reading(programs[1], folder))


if __name__ == "__main__":
    main()

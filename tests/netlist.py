#!/usr/bin/env python3
"""Makes netlists with Yosys, and compares their runs with Icarus and GHDL. By hand: it needs these.

    netlist.py VSIM VSIM_NETLIST VSIM_WAVES [--keep]

For each design of netlists/ and netlists/designs/, and for most once more with the cells of osu018 where Debian's package qflow-tech-osu018
is installed, Yosys writes the netlist as JSON and as Verilog, and Icarus runs the test bench with the
source, of which the stimuli come, and with the Verilog netlist. The text that VSIM_NETLIST makes is run by VSIM with one worker and with
four, and by GHDL where that is installed. Then

- before each edge of the clock, or at the end of each time where there is none, each variable of the source has the value that Icarus
  gives it of the netlist, or is known where Icarus does not know it (it sees no edge at time 0);
- at the end of each time each net of the text has the value that GHDL gives it.

A VHDL source goes by `ghdl --synth`, and is left out where that is missing. With --keep the files of netlists/ that netlist_texts.py reads are written anew. What differs is
told, with the seconds of each; the last line is `N passed, M failed`.
"""
import bisect
import collections
import json
import os
import re
import resource
import shutil
import subprocess
import sys
import tempfile

from netlist_texts import FOLDER, LEVELS, Waves, demand, known_to, read, run, tally, wide

SYNTH = "synth -flatten -top {0}; abc -g AND,OR,XOR,NAND,NOR,XNOR,MUX; opt_clean"
# three-state buffers are made before the others, which know nothing of them
SHARED = "hierarchy -top {0}; proc; flatten; tribuf; opt; techmap; opt_clean"
# of each design its folder, how Yosys comes from the source to gates, the clock, and the words for VSIM_NETLIST
DESIGNS = {
    "gates": (FOLDER, "hierarchy -top {0}", None, []),
    "tables": (FOLDER, "hierarchy -top {0}", None, []),
    "registers": (FOLDER, "hierarchy -top {0}", "cp", []),
    "counter": (FOLDER, SYNTH, "clk", []),
    "sharing": (FOLDER, SHARED, "clk", []),
    "operands": (FOLDER, SYNTH, "clk", []),
    "uart": (f"{FOLDER}/designs", SYNTH, "clk", []),
    "mul32": (f"{FOLDER}/designs", SYNTH, "clk", []),
    "fir": (f"{FOLDER}/designs", SYNTH, "clk", []),
    "odd": (f"{FOLDER}/designs", SHARED, "clk", ["--delays", "dff=4ps,latch=2ps,others=1ps", "--hold", "2ps"]),
}
# a library of cells, its models for Icarus, and how Yosys maps a design to it
OSU018 = "/usr/share/qflow/tech/osu018/osu018_stdcells"
MAPPED = f"; dfflibmap -liberty {OSU018}.lib; abc -liberty {OSU018}.lib; opt_clean"
BY_OSU018 = " by osu018"
for it in ("counter", "sharing", "operands", "uart", "mul32", "fir", "odd"):
    place, passes, clock, words = DESIGNS[it]
    # more gates between an input and a register: an input of odd changes 3 ps before an edge
    words = [word.replace("ps", "0fs") for word in words]
    DESIGNS[it + BY_OSU018] = place, passes.partition("; abc")[0] + MAPPED, clock, [*words, "--liberty", f"{OSU018}.lib"]
# how long the gates of a design with delays take, in femtoseconds
SETTLING = 20_000
# cells that are written as they are, of which Yosys has models
PRIMITIVES = ("gates", "tables", "registers")
MODELS = ["/usr/share/yosys/simcells.v", "/usr/share/yosys/simlib.v"]


# of a design the bytes of its text, the lines of its listing, processor seconds, and how many values were compared
Found = collections.namedtuple("Found", "name bytes lines vsim icarus ghdl bits alone values")


def call(words, folder):
    """Runs a command in a folder, and returns the processor seconds that it took."""
    before = resource.getrusage(resource.RUSAGE_CHILDREN)
    ran = subprocess.run(words, cwd=folder, stdout=subprocess.PIPE, stderr=subprocess.STDOUT)
    after = resource.getrusage(resource.RUSAGE_CHILDREN)
    demand(ran.returncode == 0, f"{' '.join(words)}: {ran.stdout.decode(errors='replace')[-300:]}")
    return after.ru_utime + after.ru_stime - before.ru_utime - before.ru_stime


def icarus(folder, name, sources, made):
    """Runs a test bench with these sources, and returns what it writes as VCD, and the seconds."""
    call(["iverilog", "-g2012", "-o", "bench", *sources], folder)
    seconds = call(["vvp", "bench"], folder)
    text = re.sub(rb"\$date\n.*?\$end\n", b"", read(f"{folder}/{name}.vcd"), flags=re.S)
    with open(f"{folder}/{made}", "wb") as file:
        file.write(text)
    return text, seconds


def fetch(origin, folder, name):
    """Copies a source and its test bench, the source as Verilog."""
    shutil.copy(f"{origin}/{name}_tb.v", folder)
    if os.path.exists(f"{origin}/{name}.v"):
        shutil.copy(f"{origin}/{name}.v", folder)
        return
    ran = subprocess.run(["ghdl", "--synth", "--std=08", "--out=verilog", f"{origin}/{name}.vhd", "-e", name], cwd=folder,
                         stdout=subprocess.PIPE, stderr=subprocess.PIPE)
    demand(ran.returncode == 0, f"ghdl --synth: {ran.stderr.decode(errors='replace')[-300:]}")
    with open(f"{folder}/{name}.v", "wb") as file:
        file.write(ran.stdout)


def synthesize(folder, name, passes):
    option = "-icells " if name in PRIMITIVES else ""
    script = f"read_verilog {option}{name}.v; {passes.format(name)}; write_json {name}.json; write_verilog -noattr {name}_gates.v"
    call(["yosys", "-q", "-p", script], folder)


def edges(ours, theirs, clock, settling):
    """Returns the times just before the edges of the clock, unless something changed so long before, or where there is none those of changes."""
    times = sorted({time for time, _, _ in theirs.changes})
    if clock is None:
        return times
    code = ours.variables[clock][0]
    found = sorted({time - 1 for time, it, _ in ours.changes if it == code and time > 0})
    return [it for it in found if bisect.bisect(times, it - settling) == bisect.bisect(times, it)]


def driven(folder, name):
    """Returns the variables that the map knows, each with its bits, and a dash for a bit that nothing drives: it is z in Verilog, U in VHDL."""
    module = json.loads(read(f"{folder}/{name}.json"))["modules"][name]
    cells, ports = module["cells"].values(), module["ports"].values()
    drivers = {bit for it in cells for pin in ("Y", "Q", "YC", "YS") for bit in it["connections"].get(pin, [])}
    drivers |= {bit for it in ports if it["direction"] != "output" for bit in it["bits"]} | set("01xz")
    return {path: [it if bit in drivers else "-" for it, bit in zip(bits, module["netnames"][path]["bits"])]
            for path, bits in known_to(f"{folder}/map").items()}


def seen(value, bits):
    """Returns those bits of a value that something drives."""
    return "".join(it for it, bit in zip(value, reversed(bits)) if bit != "-")


def compare(ours, theirs, known, times):
    """Returns how many bits of known variables were compared, the values that are known here alone, and those that differ."""
    shared, count, alone, differ = sorted(theirs.variables.keys() & known), 0, 0, []
    lacks = [path for path in shared if path not in ours.variables]
    demand(shared and not lacks, f"{', '.join(lacks[:3])}: not in our waves")
    for time, mine, other in zip(times, ours.at(times), theirs.at(times)):
        for path in shared:
            width = ours.variables[path][1]
            a, b = (seen(wide(it.get(at.variables[path][0], "x"), width), known[path]) for it, at in ((mine, ours), (other, theirs)))
            count += len(a)
            if a == b:
                continue
            if all(one == other or other == "x" for one, other in zip(a, b)):
                alone += 1
            else:
                differ.append(f"at {time} fs {path} is {a} here and {b} there")
    return count, alone, differ


def of_listing(listing):
    """Returns the waves of a listing: its nets by their names."""
    waves = Waves(b"", "")
    for line in listing.decode().splitlines():
        time, _, name, *value = line.split()
        if time == "done":
            break
        waves.variables[name] = name, 1
        waves.changes.append((int(time), name, LEVELS[value[0]]))
    return waves


def by_ghdl(folder, name, listing, end):
    """Compares a listing with what GHDL gives of the same text, and returns how many values, and the seconds."""
    text = read(f"{folder}/{name}.vhd")
    with open(f"{folder}/{name}.vhd", "wb") as file:
        # the standard wants a blank between a number and its unit, and vsim does not
        file.write(re.sub(rb"( \d+)([fpnum]s)\b", rb"\1 \2", text))
    call(["ghdl", "-a", "--std=08", f"{name}.vhd"], folder)
    seconds = call(["ghdl", "--elab-run", "--std=08", name, "--vcd=ghdl.vcd", f"--stop-time={end}fs"], folder)
    theirs, ours = Waves(read(f"{folder}/ghdl.vcd"), name), of_listing(listing)
    times = sorted({time for time, _, _ in ours.changes if time <= int(end)})
    demand(ours.variables.keys() <= theirs.variables.keys(), "GHDL has other nets")
    count, alone, differ = compare(ours, theirs, {name: [name] for name in ours.variables}, times)
    demand(not differ and not alone, f"GHDL: {len(differ) + alone} differ, first {differ[:1]}")
    return count, seconds


def try_design(programs, design, keep):
    """Makes, runs and compares a design, and returns what was found."""
    vsim, netlist, waves = programs
    origin, passes, clock, words = DESIGNS[design]
    name, _, library = design.partition(" ")
    models = [*MODELS, f"{OSU018}.v"] if library else MODELS
    with tempfile.TemporaryDirectory() as folder:
        fetch(origin, folder, name)
        _, of_source = icarus(folder, name, [f"{name}.v", f"{name}_tb.v", *MODELS], f"{name}.source")
        synthesize(folder, name, passes)
        theirs, of_icarus = icarus(folder, name, [f"{name}_gates.v", f"{name}_tb.v", *models], f"{name}.gates")
        command = [netlist, "--stimuli", f"{folder}/{name}.source", "--scope", "tb.dut", "--map", f"{folder}/map", *words]
        status, text, said = run(command, read(f"{folder}/{name}.json"))
        demand(status == 0, said)
        with open(f"{folder}/{name}.vhd", "wb") as file:
            file.write(text)
        before = resource.getrusage(resource.RUSAGE_CHILDREN).ru_utime
        listing = run([vsim, "--top", name, "--limit", "1000000"], text)
        seconds = resource.getrusage(resource.RUSAGE_CHILDREN).ru_utime - before
        demand(listing[0] == 0, listing[2])
        demand(run([vsim, "--top", name, "--limit", "1000000", "--workers", "4"], text) == listing, "four workers differ")
        status, vcd, said = run([waves, "--map", f"{folder}/map"], listing[1])
        demand(status == 0, said)
        ours, theirs = Waves(vcd, name), Waves(theirs, "tb.dut")
        # with delays, what has just changed has not come to rest
        times = edges(ours, theirs, clock, SETTLING if "--delays" in words else 0)
        count, alone, differ = compare(ours, theirs, driven(folder, name), times)
        demand(not differ, f"Icarus: {len(differ)} of {count} differ, first {differ[:3]}")
        end = re.search(rb"^end (\d+)$", read(f"{folder}/map"), re.M)[1].decode()
        values, of_ghdl = by_ghdl(folder, name, listing[1], end) if shutil.which("ghdl") else (0, 0)
        found = Found(design, len(text), listing[1].count(10), seconds, of_icarus, of_ghdl, count, alone, values)
        if keep and origin == FOLDER and not library:
            shutil.copy(f"{folder}/{name}.json", f"{FOLDER}/{name}.json")
            shutil.copy(f"{folder}/{name}.source", f"{FOLDER}/{name}.vcd")
    return found


def told(it):
    return (f"{it.lines} lines, vsim {it.vsim:.2f} s; Icarus {it.icarus:.2f} s, {it.bits} bits the same, "
            f"{it.alone} words unknown to it alone; GHDL {it.ghdl:.2f} s, {it.values} values the same")


def designs():
    """Returns the names of the designs that can be tried, and says which programs are missing."""
    missing = [it for it in ("yosys", "iverilog", "vvp") if not shutil.which(it)]
    if missing:
        sys.exit(f"netlist.py: {', '.join(missing)} is not installed, which it needs: apt-get install yosys iverilog")
    found = list(DESIGNS)
    if not os.path.exists(f"{OSU018}.lib"):
        print("osu018 is not installed, and no design is mapped to it: apt-get install qflow-tech-osu018")
        found = [name for name in found if BY_OSU018 not in name]
    if shutil.which("ghdl"):
        return found
    print("ghdl is not installed: nothing is compared with it, and designs in VHDL are left out")
    return [name for name in found if os.path.exists(f"{DESIGNS[name][0]}/{name.partition(' ')[0]}.v")]


def main():
    words = [it for it in sys.argv[1:] if it != "--keep"]
    if len(words) != 3:
        sys.exit(__doc__)
    programs = [os.path.abspath(it) for it in words]
    sys.exit(tally([(name, lambda name=name: told(try_design(programs, name, "--keep" in sys.argv))) for name in designs()]) != 0)


if __name__ == "__main__":
    main()

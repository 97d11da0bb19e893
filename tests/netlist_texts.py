#!/usr/bin/env python3
"""Runs netlists that Yosys wrote, and compares their waves with those that Icarus gave.

    netlist_texts.py VSIM VSIM_NETLIST VSIM_WAVES [MUTATED]

In netlists/ each NAME.v is a source, NAME.json its netlist as Yosys wrote it, and NAME.vcd what Icarus gave of NAME_tb.v, whose
instance is `dut`. VSIM_NETLIST makes a text of the netlist with the stimuli of that VCD, VSIM runs it with one worker and with four, and
VSIM_WAVES makes a VCD of the listing by the map. Then each variable of the source that both have is to have the same value at the end
of each time. With delays that are shorter than the time between changes, the same is so before each change of an input.

Then small netlists whose listings were worked out by hand; netlists and stimuli with a fault, and larger ones beyond each limit of vsim,
each refused by a sentence and with nothing on standard output; two netlists whose requests for memory are refused, one or all from one
on; and netlists with one byte changed, or one member or item of their JSON, MUTATED of each (1,000 if it is not given). Each of these ends
in a text that VSIM reads, or in a refusal, within 2 s.

`netlist.py` makes the netlists and the VCDs anew. What differs is told, and the last line is `N passed, M failed`.
"""
import concurrent.futures
import copy
import json
import os
import random
import resource
import subprocess
import sys
import tempfile

import refusals

TOP = os.path.dirname(os.path.dirname(os.path.realpath(__file__)))
FOLDER = f"{TOP}/tests/netlists"
NAMES = ["gates", "tables", "registers", "counter", "sharing", "operands"]
# the most bytes of a text for each change of a bit of an input, on average, the same where inputs change in steps without a clock, and the
# inputs that are clocks
BYTES = 16
BYTES_IN_STEPS = {"gates": 10}
CLOCKS = ["clk", "cp"]
# how many netlists with another byte, and with another member or item, are tried
MUTATED = 1000
SECONDS = 2
# the designs that are mutated, with words for VSIM_NETLIST
DAMAGED = [("counter", []), ("sharing", ["--delays", "others=10ps/20ps"]), ("tables", ["--delays", "lut=1ns,others=10ps"])]
# the most that vsim takes of nets, of processes and of drivers
MOST = 65536

# what a VCD may have of VHDL's values
LEVELS = {**dict.fromkeys("0lL", "0"), **dict.fromkeys("1hH", "1"), **dict.fromkeys("zZ", "z"), **dict.fromkeys("xXuUwW-", "x")}


class Fault(Exception):
    """What is not as it is to be."""


def demand(holds, text):
    if not holds:
        raise Fault(text)


def run(words, text=b"", seconds=60):
    try:
        ran = subprocess.run(words, input=text, stdout=subprocess.PIPE, stderr=subprocess.PIPE, timeout=seconds)
    except subprocess.TimeoutExpired:
        raise Fault(f"{os.path.basename(words[0])} does not end") from None
    return ran.returncode, ran.stdout, ran.stderr.decode(errors="replace")


def read(path):
    with open(path, "rb") as file:
        return file.read()


class Waves:
    """A VCD: for each path of a variable its code and width, and its range where it has one, and for each time the values that codes take."""

    def __init__(self, text, top):
        self.variables, self.ranges, self.changes, scopes, time = {}, {}, [], [], 0
        words = iter(text.decode().split())
        for word in words:
            if word == "$scope":
                next(words)
                scopes.append(next(words))
            elif word == "$upscope":
                scopes.pop()
            elif word == "$var":
                _, width, code, *name = iter(lambda: next(words), "$end")
                name, bracket, indices = "".join(name).partition("[")
                path = ".".join([*scopes, name])
                if path.startswith(f"{top}."):
                    self.variables[path[len(top) + 1:]] = code, int(width)
                    self.ranges[path[len(top) + 1:]] = bracket + indices
            elif word == "$timescale":
                scale = "".join(iter(lambda: next(words), "$end"))
                unit = scale.lstrip("0123456789")
                self.scale = int(scale[:-len(unit)]) * {"fs": 1, "ps": 10**3, "ns": 10**6}[unit]
            elif word == "$comment":
                while next(words) != "$end":
                    pass
            elif word[0] == "#":
                time = int(word[1:]) * self.scale
            elif word[0] in "bB":
                self.changes.append((time, next(words), word[1:].lower()))
            elif word[0] in LEVELS:
                self.changes.append((time, word[1:], LEVELS[word[0]]))

    def at(self, times):
        """Yields the values of all codes at the end of each of these times."""
        values, at = {}, 0
        for time in times:
            while at < len(self.changes) and self.changes[at][0] <= time:
                values[self.changes[at][1]] = self.changes[at][2]
                at += 1
            yield values


def wide(value, width):
    return value if len(value) >= width else ("0" if value[0] in "01" else value[0]) * (width - len(value)) + value


def known_to(path):
    """Returns the variables that a map has, each with its bits, the lowest index first."""
    words = [line.split(" ") for line in read(path).decode().splitlines()]
    return {it[1]: it[4:] for it in words if it[0] == "var"}


def compare(ours, theirs, known, times):
    """Demands that all variables of the source that the map knows, and all its ports, have the same ranges and values in both."""
    shared = sorted(theirs.variables.keys() & known)
    lacks = [path for path in theirs.variables if path not in known or path not in ours.variables]
    demand(shared and not lacks, f"{', '.join(lacks[:3])}: not in our waves")
    for path in shared:
        (_, width), (_, of_width) = ours.variables[path], theirs.variables[path]
        demand(width == of_width, f"{path} has {width} bits here and {of_width} there")
        demand(ours.ranges[path] == theirs.ranges[path], f"{path} is {ours.ranges[path]} here and {theirs.ranges[path]} there")
    for time, mine, other in zip(times, ours.at(times), theirs.at(times)):
        for path in shared:
            (code, width), (of_code, _) = ours.variables[path], theirs.variables[path]
            a, b = wide(mine.get(code, "x"), width), wide(other.get(of_code, "x"), width)
            demand(a == b, f"at {time} fs: {path} is {a} here and {b} there")


def text_of(program, name, *words):
    """Returns the text of a netlist."""
    status, text, said = run([program, *words], read(f"{FOLDER}/{name}.json"))
    demand(status == 0, f"vsim_netlist: {said}")
    return text


def convert(programs, name, folder, *words):
    """Returns the waves of a netlist, which are the same with one worker and with four."""
    vsim, netlist, waves = programs
    made = f"{folder}/{name}.map"
    text = text_of(netlist, name, "--stimuli", f"{FOLDER}/{name}.vcd", "--scope", "tb.dut", "--map", made, *words)
    listings = [run([vsim, "--top", name, "--limit", "1000000", "--workers", n], text) for n in ("1", "4")]
    demand(listings[0][0] == 0, f"vsim: {listings[0][2]}")
    demand(listings[0] == listings[1], "one worker and four differ")
    status, vcd, said = run([waves, "--map", made], listings[0][1])
    demand(status == 0, f"vsim_waves: {said}")
    return vcd


def is_same(programs, name, folder, *words):
    """Demands that the waves are those of Icarus at the end of each time, or with delays before each of its changes."""
    vcd = convert(programs, name, folder, *words)
    ours, theirs = Waves(vcd, name), Waves(read(f"{FOLDER}/{name}.vcd"), "tb.dut")
    times = sorted({time for time, _, _ in theirs.changes})
    if words:
        times = [time - 1 for time in times[1:]]
    compare(ours, theirs, known_to(f"{folder}/{name}.map"), times)


def are_lines_alike(program, folder):
    """Demands that a scope need not be named, and that lines of stimuli give the text of the VCD that they say the same as."""
    path = f"{FOLDER}/counter.vcd"
    waves, lines = Waves(read(path), "tb.dut"), ["# the inputs of counter.vcd"]
    names = {waves.variables[name][0]: name for name in ("clk", "clear", "enable", "step")}
    lines += [f"{time}fs {names[code]} {value}" for time, code, value in waves.changes if code in names]
    with open(f"{folder}/lines", "w", encoding="utf-8") as file:
        file.write("\n".join([*lines, f"end {waves.changes[-1][0]}fs", ""]))
    wanted = text_of(program, "counter", "--stimuli", path, "--scope", "tb.dut")
    demand(text_of(program, "counter", "--stimuli", path) == wanted, "without --scope the text is another")
    demand(text_of(program, "counter", "--stimuli", f"{folder}/lines") == wanted, "with lines the text is another")


def count_changes(name):
    """Returns how many changes of bits a VCD has after the first values, in inputs other than clocks."""
    waves = Waves(read(f"{FOLDER}/{name}.vcd"), "tb.dut")
    ports = json.loads(read(f"{FOLDER}/{name}.json"))["modules"][name]["ports"]
    driven = [port for port, it in ports.items() if it["direction"] != "output" and port not in CLOCKS]
    inputs, before, count = dict(waves.variables[port] for port in driven), {}, 0
    for _, code, value in waves.changes:
        if code in inputs:
            value = wide(value, inputs[code])
            count += sum(one != other for one, other in zip(value, before.get(code, value)))
            before[code] = value
    return count


def are_short(program, name):
    """Demands that changes of inputs take few bytes."""
    alone, text = text_of(program, name), text_of(program, name, "--stimuli", f"{FOLDER}/{name}.vcd", "--scope", "tb.dut")
    count = count_changes(name)
    demand(len(text) - len(alone) <= BYTES_IN_STEPS.get(name, BYTES) * count, f"{len(text) - len(alone)} bytes for {count} changes")


def cell(kind, pins, **more):
    return {"type": kind, "connections": pins, **more}


def netlist(cells, **ports):
    """Returns a netlist with these cells, of an input a and an output y unless others are given."""
    ports = ports or {"a": {"direction": "input", "bits": [2]}, "y": {"direction": "output", "bits": [3]}}
    names = {name: {"hide_name": 0, "bits": port["bits"], "attributes": {}} for name, port in ports.items()}
    return json.dumps({"creator": "Yosys 0.23", "modules": {"top": {"attributes": {}, "ports": ports, "cells": cells, "netnames": names}}})


def with_names(given, **names):
    """Returns a netlist in which these nets have names in the source."""
    document = json.loads(given)
    document["modules"]["top"]["netnames"].update((name, {"hide_name": 0, "bits": bits, "attributes": {}}) for name, bits in names.items())
    return json.dumps(document)


GOOD = netlist({"u": cell("$_NOT_", {"A": [2], "Y": [3]})})
WIRES = {"u": cell("$_BUF_", {"A": [3], "Y": [4]}, attributes={"src": "uart.v:7.5"}), "v": cell("$_BUF_", {"A": [4], "Y": [3]})}
PLAIN = {"y": {"direction": "output", "bits": [5]}}
HEAD = "$timescale 1ns $end $scope module tb $end $var wire 1 ! a $end $upscope $end $enddefinitions $end\n"
# three inputs
THREE = {"a": {"direction": "input", "bits": [2]}, "b": {"direction": "input", "bits": [4]}, "c": {"direction": "input", "bits": [5]},
            "y": {"direction": "output", "bits": [3]}}
SEVEN = {**{f"i{n}": {"direction": "input", "bits": [10 + n]} for n in range(7)}, "y": {"direction": "output", "bits": [3]}}
# an input of six bits
SIX = {"a": {"direction": "input", "bits": [2, 4, 5, 6, 7, 8]}, "y": {"direction": "output", "bits": [3]}}
INVERTER = {"u": cell("$_NOT_", {"A": [2], "Y": [3]})}
FLIP_FLOP = cell("$_DFF_P_", {"C": [2], "D": [2], "Q": [3]}, attributes={"src": "uart.v:7.5"})
BUFFERS = "which are no three-state buffers: run tribuf before synth, or remove one of them"
OF_FPGA = "a cell of an FPGA: use synth in place of synth_ice40, synth_xilinx or synth_ecp5"
# two scopes, of which the inner one has an a, and a b of two bits
INNER = ("$timescale 1ns $end $scope module tb $end $var wire 1 ! c $end $scope module dut $end $var wire 1 \" a $end $var wire 2 # b $end "
         "$upscope $end $upscope $end $enddefinitions $end\n#0 0! 0\" b0 #\n")
# the units of a scale of time, in femtoseconds
SCALES = {"fs": 1, "ps": 10**3, "ns": 10**6, "us": 10**9, "ms": 10**12, "s": 10**15}
# the latest time of vsim, in femtoseconds
LATEST = 2**62 - 1


def scopes(more):
    """Returns a VCD whose scope tb has an a that rises at 5 ns, and after this text another one that falls at 7 ns."""
    return HEAD.replace("$upscope", f"{more} $upscope") + "#0 0! 1\" #5 1! #7 0\"\n"


# a netlist, stimuli, words, and what the listing says of y: pairs of a time and a value
LISTED = [
    (netlist({"u": cell("$_NOT_", {"A": ["0"], "Y": [3]})}), "", ["--delays", "not=10ps/20ps"], "0 U, 20000 1"),
    (netlist({"u": cell("$_AND_", {"A": ["1"], "B": ["1"], "Y": [3]})}), "", ["--delays", "and=30ps/20ps"], "0 U, 30000 1"),
    (netlist({"u": cell("$lut", {"A": [2], "Y": [3]}, parameters={"LUT": "11"})}), "", ["--delays", "lut=10ps/20ps"], "0 U, 20000 1"),
    (netlist({"u": cell("$_AND_", {"A": ["1"], "B": [2], "Y": [3]})}), "0 a 0\n1ns a 1\n2ns a 0\n", ["--delays", "and=10ps/20ps"],
     "0 U, 20000 0, 1010000 1, 2020000 0"),
    (netlist({"u": cell("$_DFF_P_", {"C": [2], "D": ["1"], "Q": [3]})}), "0 a 0\n1ns a 1\n", ["--delays", "dff=10ps/20ps"],
     "0 U, 1020000 1"),
    (GOOD, f"0 a 0\n{LATEST - 1}fs a 1\n", ["--hold", "1fs"], f"0 U, 0 1, {LATEST} 0"),
    # a clock whose first edge comes early, and one whose first edge comes late
    (GOOD, "0 a 0\n3ns a 1\n8ns a 0\n13ns a 1\n18ns a 0\n23ns a 1\n", [],
     "0 U, 0 1, 3000000 0, 8000000 1, 13000000 0, 18000000 1, 23000000 0"),
    (GOOD, "0 a 1\n7ns a 0\n8ns a 1\n9ns a 0\n10ns a 1\n11ns a 0\n12ns a 1\n", [],
     "0 U, 0 0, 7000000 1, 8000000 0, 9000000 1, 10000000 0, 11000000 1, 12000000 0"),
    # a register that is reset to 0, takes '1' at its edge, and is reset again; one that is reset to 1 and takes '0'; and a latch
    (netlist({"u": cell("$_DFF_PP0_", {"C": [4], "R": [5], "D": [2], "Q": [3]})}, **THREE), "0 a 1\n0 b 0\n0 c 1\n5ns c 0\n10ns b 1\n20ns c 1\n",
     ["--delays", "dff=10ps/30ps"], "0 U, 30000 0, 10010000 1, 20030000 0"),
    (netlist({"u": cell("$_DFF_PP1_", {"C": [4], "R": [5], "D": [2], "Q": [3]})}, **THREE), "0 a 0\n0 b 0\n0 c 1\n5ns c 0\n10ns b 1\n20ns c 1\n",
     ["--delays", "dff=10ps/30ps"], "0 U, 10000 1, 10030000 0, 20010000 1"),
    (netlist({"u": cell("$_DLATCH_P_", {"E": [4], "D": [2], "Q": [3]})}, **THREE), "0 a 1\n0 b 0\n0 c 0\n10ns b 1\n20ns a 0\n30ns b 0\n40ns a 1\n",
     ["--delays", "latch=20ps/40ps,dff=10ps"], "0 U, 10020000 1, 20040000 0"),
    # a three-state buffer takes the longer time
    (netlist({"u": cell("$_TBUF_", {"A": [2], "E": [4], "Y": [3]})}, **THREE), "0 a 0\n0 b 0\n0 c 0\n10ns b 1\n20ns a 1\n30ns b 0\n",
     ["--delays", "tbuf=10ps/30ps"], "0 U, 30000 Z, 10030000 0, 20030000 1, 30030000 Z"),
    # a reset goes before a set
    (netlist({"u": cell("$_DFFSR_PPP_", {"C": ["0"], "S": [4], "R": [5], "D": ["1"], "Q": [3]})}, **THREE),
     "0 a 0\n0 b 1\n0 c 1\n10ns c 0\n20ns c 1\n", [], "0 U, 0 0, 10000000 1, 20000000 0"),
    (netlist({"u": cell("$_SR_PP_", {"S": [4], "R": [5], "Q": [3]})}, **THREE), "0 a 0\n0 b 1\n0 c 1\n10ns c 0\n20ns b 0\n30ns c 1\n", [],
     "0 U, 0 0, 10000000 1, 30000000 0"),
    # of two clocks one ends half a period before the other
    (netlist({"u": cell("$_NOT_", {"A": [2], "Y": [3]})}, **THREE),
     "0 c 0\n" + "".join(f"{time}ns {name} {time // 5 % 2}\n" for time in range(0, 55, 5) for name in ("ab" if time < 50 else "b")), [],
     "0 U, 0 1, 5000000 0, 10000000 1, 15000000 0, 20000000 1, 25000000 0, 30000000 1, 35000000 0, 40000000 1, 45000000 0"),
    # a gated clock whose enable ends with a rising edge and begins with a falling one
    (netlist({"u": cell("$_AND_", {"A": [2], "B": [4], "Y": [6]}), "v": cell("$_DFF_P_", {"C": [6], "D": ["1"], "Q": [3]})}, **THREE),
     "0 a 0\n0 b 1\n0 c 0\n" + "".join(f"{time}ns a {time // 10 % 2}\n" + {10: "10ns b 0\n", 40: "40ns b 1\n"}.get(time, "")
                                     for time in range(10, 80, 10)), [], "0 U, 50000000 1"),
    # a port that is an input and an output
    (netlist({"u": cell("$_NOT_", {"A": [2], "Y": [3]})}, a={"direction": "inout", "bits": [2]}, y={"direction": "output", "bits": [3]}),
     "0 a 0\n10ns a 1\n", [], "0 U, 0 1, 10000000 0"),
    # a port that is an input and an output, driven by a three-state buffer as well, which is unknown until it has its enable
    (netlist({"t": cell("$_TBUF_", {"A": ["1"], "E": [4], "Y": [2]}), **INVERTER}, **{**THREE, "a": {"direction": "inout", "bits": [2]}}),
     "0 a z\n0 b 1\n0 c 0\n10ns b 0\n20ns a 0\n", [], "0 U, 0 X, 0 0, 10000000 X, 20000000 1"),
    # zeros in front of a hexadecimal number
    (GOOD, "0 a 0x00\n5ns a 0x01\n", [], "0 U, 0 1, 5000000 0"),
    (netlist({"u": cell("$_NOT_", {"A": [8], "Y": [3]})}, **SIX), "0 a 0x0F\n5ns a 0x3f\n6ns a 1\n7ns a 100000\n", [],
     "0 U, 0 1, 5000000 0, 6000000 1, 7000000 0"),
    # an escaped name with an index in it is that of an input
    (netlist(INVERTER, **{"a[0]": {"direction": "input", "bits": [2]}, "y": {"direction": "output", "bits": [3]}}),
     HEAD.replace(" a ", " \\a[0] ") + "#0 0! #5 1!\n", [], "0 U, 0 1, 5000000 0"),
    # each unit of time
    (GOOD, "0 a 0\n1fs a 1\n1ps a 0\n1ns a 1\n1us a 0\n1ms a 1\n1s a 0\n2sec a 1\n", [],
     f"0 U, 0 1, 1 0, 1000 1, 1000000 0, {10**9} 1, {10**12} 0, {10**15} 1, {2 * 10**15} 0"),
    # of two scopes with the input the deeper one counts, and of two as deep the first
    (GOOD, scopes("$scope module dut $end $var wire 1 \" a $end $upscope $end"), [], "0 U, 0 0, 7000000 1"),
    (GOOD, scopes("$upscope $end $scope module other $end $var wire 1 \" a $end"), [], "0 U, 0 1, 5000000 0"),
    # each scale of time
    *((GOOD, HEAD.replace("1ns", f"{count}{space}{unit}") + "#0 0! #5 1!\n", [], f"0 U, 0 1, {5 * count * scale} 0")
      for unit, scale in SCALES.items() for count, space in ((1, ""), (10, " "), (100, ""))),
]
# a netlist, stimuli, words, and what is told
REFUSED = [
    ("", "", [], "no netlist that Yosys' write_json writes"),
    ("{", "", [], "no netlist that Yosys' write_json writes"),
    ('{"creator": "Yosys 0.23", "modules": {"m": {"cells": {}}}}', "", [], "no netlist that Yosys' write_json writes"),
    ('{"creator": "Yosys 0.23", "modules": {}}', "", [], "no module is marked as the top"),
    ('{"modules": {}}', "", [], "no netlist that Yosys' write_json writes"),
    (GOOD.replace("Yosys 0.23", "nextpnr 0.4"), "", [], "its creator is 'nextpnr 0.4', not Yosys"),
    (GOOD, "", ["--top", "other"], "there is no module other"),
    (GOOD, "", ["--top", "memory allocation failed"], "there is no module memory allocation failed"),
    (netlist({"u" * 200: cell("$add", {})}), "", [], f"cell {'u' * 200} of type $add: run memory_map, techmap and simplemap"),
    (GOOD.replace('"cells": {', '"cells": {"u": {"type": "$_BUF_", "connections": {"A": [2], "Y": [4]}}, '), "", [],
     "the netlist: cell u is there twice"),
    (json.dumps(json.loads(GOOD)).replace('"u": {', '"u": {"type": "$_BUF_", "connections": {"A": [2], "Y": [4]}}, "u": {"attributes": '
     '{"src": "uart.v:28.62"}, '), "", [], "the netlist: uart.v:28.62: cell u is there twice"),
    (netlist({"u": cell("$add", {}, attributes={"src": "uart.v:28.62"})}), "", [],
     "uart.v:28.62: cell $add: run memory_map, techmap and simplemap before write_json"),
    (netlist({"u": cell("inner", {})}), "", [], "cell u of type inner: run flatten"),
    (netlist({"u": cell("$_FF_", {"D": [2], "Q": [3]})}), "", [], "cell u of type $_FF_: a gate that this program does not know"),
    (netlist({"u": cell("$_DFF_Q_", {"C": [2], "D": [2], "Q": [3]})}), "", [], "a gate that this program does not know"),
    (netlist({"u": cell("$_NOT_", {"A": [2, 2], "Y": [3]})}), "", [], "its pin A is not connected with one bit"),
    (netlist({"u": cell("$_NOT_", {"A": [2], "Y": ["0"]})}), "", [], "its output Y is connected with a constant"),
    (netlist({"u": cell("$lut", {"A": [2], "Y": [3]}, parameters={"LUT": "0x"})}), "", [], "its LUT is no table"),
    *((netlist({"u": cell(kind, {})}), "", [], f"cell u of type {kind}: {OF_FPGA}")
      for kind in ("SB_LUT4", "SB_DFF", "LUT4", "FDRE", "CARRY4", "TRELLIS_FF", "PFUMX", "IBUF")),
    # two cells drive a net, or a cell and an input
    (netlist({"u": cell("$_OR_", {"A": [2], "B": [2], "Y": [3]}), "v": FLIP_FLOP}), "", [],
     f"vsim_netlist: y is driven by cell u and by uart.v:7.5: cell v, {BUFFERS}"),
    (netlist({"t": cell("$_TBUF_", {"A": [2], "E": [2], "Y": [3]}), "v": FLIP_FLOP, **INVERTER}), "", [],
     f"vsim_netlist: y is driven by uart.v:7.5: cell v and by cell u, {BUFFERS}"),
    (netlist(INVERTER | {"v": FLIP_FLOP}, a={"direction": "input", "bits": [2]}, y={"direction": "output", "bits": [4, 3]}), "", [],
     f"vsim_netlist: y[1] is driven by cell u and by uart.v:7.5: cell v, {BUFFERS}"),
    (netlist(INVERTER | {"v": FLIP_FLOP}, **PLAIN), "", [], f"vsim_netlist: a net is driven by cell u and by uart.v:7.5: cell v, {BUFFERS}"),
    (netlist({"u": cell("$_NOT_", {"A": [3], "Y": [2]})}), "", [], f"vsim_netlist: a is driven by input a and by cell u, {BUFFERS}"),
    (netlist({"u": cell("$_NOT_", {"A": [3], "Y": [2]})}).replace("input", "inout"), "", [], f"vsim_netlist: a is driven by input a and by cell u, {BUFFERS}"),
    (netlist({}, a={"direction": "input", "bits": [2]}, b={"direction": "input", "bits": [2]}), "", [],
     f"vsim_netlist: a is driven by input a and by input b, {BUFFERS}"),
    (netlist(WIRES), "", [], "vsim_netlist: y is in a loop of wires"),
    (netlist(WIRES, **PLAIN), "", [], "vsim_netlist: uart.v:7.5: cell u is in a loop of wires"),
    (netlist({"u": cell("$_BUF_", {"A": [3], "Y": [3]})}, **PLAIN), "", [], "vsim_netlist: cell u is in a loop of wires"),
    (GOOD.replace("input", "sideways"), "", [], "port a has no direction"),
    (GOOD, "1ns a 1\n0 a 0\n", [], "line 2: the times fall"),
    (GOOD, "1ns b 1\n", [], "line 1: there is no input b"),
    (GOOD, "soon a 1\n", [], "line 1: the first word is no time"),
    (GOOD, "1ns a 7\n", [], "line 1: the value is neither bits nor a number"),
    (GOOD, "1ns a 0x\n", [], "line 1: the value is neither bits nor a number"),
    (GOOD, "1ns a 0xG\n", [], "line 1: the value is neither bits nor a number"),
    (GOOD, "0 a 0\n1ns a 11\n", [], "line 2: input a has 1 bit, and 11 has 2 bits"),
    (GOOD, "0 a 0xA5\n", [], "line 1: input a has 1 bit, and 0xA5 has 8 bits"),
    (netlist(INVERTER, **SIX), "0 a 0x40\n", [], "line 1: input a has 6 bits, and 0x40 has 7 bits"),
    (netlist(INVERTER, **SIX), "0 a 0000001\n", [], "line 1: input a has 6 bits, and 0000001 has 7 bits"),
    (GOOD, "1ns a\n", [], "line 1: 'TIME INPUT VALUE' or 'end TIME' is wanted"),
    (GOOD, "end 1ns\n", [], "input a has no value"),
    (GOOD, HEAD + "#0 0! #5 1!", [], "the VCD is cut off"),
    (GOOD, HEAD.replace("$enddefinitions $end", "") + "\n", [], "the VCD is cut off"),
    (GOOD, HEAD + "#0 0! #5 b1\n", [], "the VCD is cut off"),
    (GOOD, HEAD + "#0 0! #5 1!\n#4 0!\n", [], "line 3: the times fall"),
    (GOOD, HEAD + "#0 0!\n\n#5 q!\n", [], "line 4: 'q!' is no value of a VCD"),
    (GOOD, HEAD.replace("$scope", "\nscope") + "#0 0!\n", [], "line 2: 'scope' begins no section of a VCD"),
    (GOOD, HEAD.replace("1ns", "1ls") + "#0 0!\n", [], "line 1: the time scale is none"),
    (GOOD, HEAD + "#0\n", [], "input a has no value"),
    (GOOD, HEAD.replace("! a", "! b") + "#0 0!\n", [], "no scope has all inputs, each with its width; the nearest: tb lacks a; --scope names one"),
    (GOOD, "$enddefinitions $end\n#0\n", [], "no scope has all inputs, each with its width\n"),
    (netlist(INVERTER, **THREE), INNER, [], "no scope has all inputs, each with its width; the nearest: tb.dut lacks b of 1 bit, not 2, c; --scope names one"),
    (netlist(INVERTER, **THREE), INNER, ["--scope", "tb"], "stimuli: tb lacks a, b\n"),
    (netlist({"u": cell("$_NOT_", {"A": [10], "Y": [3]})}, **SEVEN), HEAD + "#0 0!\n", [], "the nearest: tb lacks i0, i1, i2, i3 and 3 more; --scope"),
    (GOOD, HEAD + "#0 0!\n", ["--scope", "tb.dut"], "there is no scope tb.dut"),
    (GOOD, "", ["--delays", "nand"], "'nand' is no delay"),
    (GOOD, "", ["--delays", "nend=1ns"], "there is no gate 'nend'"),
    (GOOD, "", ["--delays", "nand=1"], "'1' is no time"),
    (GOOD, "", ["--hold", "1.5ns"], "'1.5ns' is no time"),
    (GOOD, f"0 a 0\n{LATEST}fs a 1\n", ["--hold", "1fs"], f"--hold: an input would change after {LATEST} fs"),
]


def stepped():
    """Returns a row as in LISTED: a register whose input changes in steps, often when its clock does, which has no constant period."""
    chance, lines, wanted = random.Random(3), ["0 c 0", "0 a 0"], ["0 U"]
    level = data = 0
    for time in range(30, 1000, 10):
        if chance.random() < 0.5:
            level = 1 - level
            lines.append(f"{time}ns c {level}")
            # the register takes what stood before
            if level and not wanted[-1].endswith(f" {data & 1}"):
                wanted.append(f"{time * 10**6} {data & 1}")
        if chance.random() < 0.8:
            data = chance.getrandbits(16)
            lines.append(f"{time}ns a {data:016b}")
    ports = {"c": {"direction": "input", "bits": [2]}, "a": {"direction": "input", "bits": list(range(4, 20))}}
    ports["y"] = {"direction": "output", "bits": [3]}
    return netlist({"u": cell("$_DFF_P_", {"C": [2], "D": [4], "Q": [3]})}, **ports), "\n".join([*lines, ""]), [], ", ".join(wanted)


def stepped_beside():
    """Returns a row as in LISTED: a register whose input changes in steps of its own, every other time with the rising edge of its clock."""
    chance, wanted, last = random.Random(5), ["0 U", "5000000 0"], 0
    changes = [(time, chance.getrandbits(16)) for time in range(35, 1135, 55)]
    events = sorted([*((5 * it, f"c {it % 2}") for it in range(1, 232)), *((time, f"a {data:016b}") for time, data in changes)])
    lines = ["0 c 0", "0 a 0", *(f"{time}ns {event}" for time, event in events)]
    for time, data in changes:
        if data & 1 != last:
            last = data & 1
            wanted.append(f"{(time + (10 if time % 10 else 5)) * 10**6} {last}")
    ports = {"c": {"direction": "input", "bits": [2]}, "a": {"direction": "input", "bits": list(range(4, 20))}}
    ports["y"] = {"direction": "output", "bits": [3]}
    return netlist({"u": cell("$_DFF_P_", {"C": [2], "D": [4], "Q": [3]})}, **ports), "\n".join([*lines, ""]), [], ", ".join(wanted)


def has_two_clocks(programs, folder):
    """Demands that a clock is added for inputs that change in steps of their own, and that the register takes what stood before its edge."""
    given, stimuli, words, wanted = stepped_beside()
    text = run([programs[1], *put_stimuli(folder, stimuli), *words], given.encode())[1].decode()
    demand(text.count("rising_edge") == 2 and " when " in text, f"no clock is added: {text}")
    is_listed(programs, folder, given, stimuli, words, wanted)


def changed_twice():
    """Returns a row as in LISTED: a register whose input changes twice in each step of its own, the high bits once, after a hold time."""
    chance, data, changes, wanted, last = random.Random(7), 0, [], ["0 U"], None
    for step in range(48):
        data = chance.getrandbits(16)
        changes.append((13113 * step + 7013, data))
        data = data & 0xff00 | chance.getrandbits(8)
        changes.append((13113 * (step + 1), data))
    for edge in range(5000, 645000, 10000):
        bit = ([0] + [data & 1 for time, data in changes if time + 2 < edge])[-1]
        if bit != last:
            wanted.append(f"{edge * 1000} {bit}")
        last = bit
    events = sorted([*((5000 * it, f"c {it % 2}") for it in range(1, 129)), *((time, f"a {data:016b}") for time, data in changes)])
    lines = ["0 c 0", "0 a 0", *(f"{time}ps {event}" for time, event in events)]
    ports = {"c": {"direction": "input", "bits": [2]}, "a": {"direction": "input", "bits": list(range(4, 20))}}
    ports["y"] = {"direction": "output", "bits": [3]}
    given = netlist({"u": cell("$_DFF_P_", {"C": [2], "D": [4], "Q": [3]})}, **ports)
    return given, "\n".join([*lines, ""]), ["--hold", "2ps"], ", ".join(wanted)


def follows_late(programs, folder):
    """Demands that inputs which change twice in a step take few bytes, and that the register takes what stood before its edge."""
    given, stimuli, words, wanted = changed_twice()
    text = run([programs[1], *put_stimuli(folder, stimuli), *words], given.encode())[1].decode()
    demand(text.count(" xor ") > 8 and text.count("rising_edge") == 2, f"no signal is inverted late: {len(text)} bytes")
    demand(len(text) < 9000, f"{len(text)} bytes")
    is_listed(programs, folder, given, stimuli, words, wanted)


def wide_input(stimuli, words, wanted, **ports):
    """Returns a row as in LISTED: the lowest of 16 bits of an input, inverted."""
    ports["a"] = {"direction": "input", "bits": list(range(4, 20))}
    ports["y"] = {"direction": "output", "bits": [3]}
    return netlist({"u": cell("$_NOT_", {"A": [4], "Y": [3]})}, **ports), "\n".join([*stimuli, ""]), words, ", ".join(wanted)


def changed(changes, later):
    """Returns what the listing says of a bit that is inverted, given what its input is at each time in nanoseconds, `later` femtoseconds earlier."""
    wanted, last = ["0 U"], None
    for time, data in changes:
        if data & 1 != last:
            wanted.append(f"{time * 10**6 + (later if time else 0)} {1 - (data & 1)}")
        last = data & 1
    return wanted


def held():
    """Returns a row as in LISTED: an input that changes in steps, after a hold time."""
    chance = random.Random(11)
    changes = [(0, 0), *((10 * step, chance.getrandbits(16)) for step in range(1, 100))]
    return wide_input([f"{time}ns a {data:016b}" for time, data in changes], ["--hold", "500ps"], changed(changes, 500_000))


def falling_at_first():
    """Returns a row as in LISTED: an input that changes with the rising edges of a clock whose first edge falls."""
    chance = random.Random(13)
    changes = [(0, 0), *((10 * step, chance.getrandbits(16)) for step in range(1, 100))]
    events = sorted([*((5 * it, f"c {1 - it % 2}") for it in range(200)), *((time, f"a {data:016b}") for time, data in changes)])
    return wide_input([f"{time}ns {event}" for time, event in events], [], changed(changes, 0), c={"direction": "input", "bits": [2]})


def is_counted(programs, folder, row):
    """Demands that a process counts the edges of a clock at which inputs change, and that these do so when they should."""
    given, stimuli, words, wanted = row
    text = run([programs[1], *put_stimuli(folder, stimuli), *words], given.encode())[1].decode()
    demand(text.count("rising_edge") + text.count("falling_edge") == 1, f"no process counts edges: {text}")
    is_listed(programs, folder, given, stimuli, words, wanted)


def are_bits_named(programs):
    """Demands that the bits of a port are named by their numbers, from 0."""
    bits = {"a": {"direction": "input", "bits": [2, 3]}, "y": {"direction": "output", "bits": [4, 5]}}
    cells = {"u": cell("$_NOT_", {"A": [2], "Y": [4]}), "v": cell("$_BUF_", {"A": [3], "Y": [5]})}
    text = run([programs[1]], netlist(cells, **bits).encode())[1]
    names = [line.split()[2] for line in run([programs[0], "--top", "top"], text)[1].decode().splitlines()[:-1]]
    demand(sorted(set(names)) == ["a_0", "a_1", "y_0", "y_1"], f"the names are {names}")


def is_told(program, folder):
    """Demands that what nothing drives is told in one line and is not in the map, with or without stimuli."""
    given = with_names(GOOD, dead=[90], half=[3, 91], wide=[92, 93], fixed=["0", "z"], whole=[2, 3])
    dead = with_names(GOOD, **{f"d{n:02}": [50 + n] for n in range(13)})
    for words in ([], put_stimuli(folder, "0 a 0\n")):
        status, _, said = run([program, "--map", f"{folder}/map", *words], given.encode())
        demand(status == 0 and said == "vsim_netlist: nothing drives dead, half[1], wide, which the map leaves out\n", said)
        lines = [line for line in read(f"{folder}/map").decode().splitlines() if line.startswith("var ")]
        demand(lines == ["var a 0 downto a", "var y 0 downto y", "var half 0 downto y -", "var fixed 0 downto '0' 'Z'", "var whole 0 downto a y"], str(lines))
    names = ", ".join(f"d{n:02}" for n in range(10))
    said = run([program], dead.encode())[2]
    demand(said == f"vsim_netlist: nothing drives {names} and 3 more, which the map leaves out\n", said)
    demand(run([program], GOOD.encode())[2] == "", "something is told of a netlist in which all is driven")


def is_entity_named(programs, folder):
    """Demands that the entity's name is told on request and by the map, and is that of the text, also where VHDL reserves the module's name."""
    for module, entity in (("top", "top"), ("Signal", "signal_2"), ("Top_1", "top_1")):
        given = GOOD.replace('"top"', f'"{module}"').encode()
        demand(run([programs[1], "--entity", "--map", f"{folder}/map"], given) == (0, f"{entity}\n".encode(), ""), f"{module} is not {entity}")
        head = read(f"{folder}/map").decode().splitlines()[:3]
        demand(head == [f"vsim_netlist map 1 {entity}", "end 0", f"top {module}"], f"the map begins {head}")
        status, _, said = run([programs[0], "--top", entity], run([programs[1]], given)[1])
        demand(status == 0, said)
    status, out, said = run([programs[1], "--entity"], netlist(WIRES).encode())
    demand(status == 1 and not out and "loop" in said, f"status {status}: {said}")


def is_one_name(programs, folder):
    """Demands that an escaped name with a dot stays one name from the stimuli to the waves, and that those of scopes stay paths."""
    ports = {"a.b": {"direction": "input", "bits": [2]}, "y": {"direction": "output", "bits": [3]}}
    given = with_names(netlist(INVERTER, **ports), **{"u.n": [3]})
    vcd = HEAD.replace(" a ", " \\a.b ") + "#0 0! #5 1!\n"
    status, text, said = run([programs[1], *put_stimuli(folder, vcd), "--map", f"{folder}/map"], given.encode())
    demand(status == 0, said)
    status, waves, said = run([programs[2], "--map", f"{folder}/map"], run([programs[0], "--top", "top"], text)[1])
    demand(status == 0, said)
    found = Waves(waves, "top").variables
    demand(sorted(it for it in found if it != "y") == ["\\a.b", "u.n"], f"the variables are {sorted(found)}")
    demand("$var wire 1 ! \\a.b $end\n" in waves.decode() and "$scope module a $end" not in waves.decode(), waves.decode())


def put_stimuli(folder, stimuli):
    """Returns the words that name these stimuli, if there are any."""
    path = f"{folder}/stimuli"
    with open(path, "w", encoding="utf-8") as file:
        file.write(stimuli)
    return ["--stimuli", path] if stimuli else []


def is_refused(program, folder, given, stimuli, words, told):
    """Demands that a netlist with stimuli is refused by a sentence."""
    status, out, said = run([program, *put_stimuli(folder, stimuli), *words], given.encode())
    demand(status == 1 and not out, f"status {status} for {told}")
    demand(said.startswith("vsim_netlist: ") and said.count("\n") == 1 and told in said, f"{said.strip()} in place of {told}")


def is_listed(programs, folder, given, stimuli, words, wanted):
    """Demands that the listing of a netlist with stimuli has these values of y."""
    status, text, said = run([programs[1], *put_stimuli(folder, stimuli), *words], given.encode())
    demand(status == 0, said)
    status, listing, said = run([programs[0], "--top", "top"], text)
    demand(status == 0, f"vsim: {said} for {text.decode()}")
    lines = [line.split() for line in listing.decode().splitlines()]
    found = ", ".join(f"{line[0]} {line[3]}" for line in lines if line[2] == "y")
    demand(found == wanted, f"y is {found}")


def is_one_statement(program, folder):
    """Demands that a clock takes no more bytes the longer it is, whenever its first edge comes."""
    for first in (3, 5, 9):
        lengths = set()
        for count in (10, 60):
            lines = ["0 a 0", *(f"{first + 5 * it}ns a {1 - it % 2}" for it in range(count)), ""]
            text = run([program, *put_stimuli(folder, "\n".join(lines))], GOOD.encode())[1]
            lengths.add(len(text) - len(f"{first + 5 * (count - 1)}"))
        demand(len(lengths) == 1, f"first edge at {first} ns: {lengths} bytes")


def beyond():
    """Returns netlists beyond a limit of vsim, each with what is told."""
    many = range(MOST + 1)
    port = {"a": {"direction": "input", "bits": list(range(2, MOST + 3))}}
    gates = {f"u{it}": cell("$_BUF_", {"A": [2], "Y": [10 + it]}) for it in range(MOST - 4)}
    gates.update((f"t{it}", cell("$_TBUF_", {"A": [2], "E": [2], "Y": [3]})) for it in range(10))
    long = {f"u{it}": cell("$_XOR_", {"A": [it], "B": [it + 1], "Y": [it + 2]}) for it in range(2, MOST)}
    smaller = "a smaller part of the design or --large helps"
    return [
        (netlist({}, **port), f"{MOST + 1} nets, of which vsim takes {MOST}: {smaller}"),
        (with_names(netlist(gates), n=list(range(10, MOST + 6))), f"{MOST + 6} processes or drivers, of which vsim takes {MOST}: {smaller}"),
        (netlist(long), "bytes, of which vsim takes 1048576: shorter stimuli, a smaller part of the design or --large help"),
    ]


def is_taken_large(programs, text):
    """Demands that a netlist beyond a limit has a text with `--large`, and that vsim takes it."""
    status, made, said = run([programs[1], "--large"], text.encode())
    demand(status == 0, f"vsim_netlist: {said}")
    status, _, said = run([programs[0], "--top", "top", "--stop", "0", "--large"], made)
    demand(status == 0, f"vsim: {said}")


def failing(folder):
    """Returns words for VSIM_NETLIST, where its output goes, the exit status and what is told."""
    return [
        (["--stimuli", f"{folder}/none/of.vcd"], subprocess.PIPE, 4, "of.vcd: "),
        (["--map", f"{folder}/none/of.map"], subprocess.PIPE, 4, "of.map: "),
        ([], "/dev/full", 4, "writing: "),
        (["--version"], "/dev/full", 4, "writing: "),
        ([b"--top=\xff"], subprocess.PIPE, 2, "invalid UTF-8"),
        (["--hold"], subprocess.PIPE, 2, "--hold"),
    ]


def fails(program, words, out, wanted, told):
    """Demands an exit status and a message, and nothing on standard output."""
    with open("/dev/full", "wb") as full:
        to = full if out == "/dev/full" else out
        ran = subprocess.run([program, *words], input=GOOD.encode(), stdout=to, stderr=subprocess.PIPE, timeout=SECONDS)
    said = ran.stderr.decode(errors="replace")
    demand(ran.returncode == wanted and not ran.stdout and told in said, f"status {ran.returncode}: {said}")


def has_no_memory(program):
    """Demands that a lack of memory has its own exit status."""
    most = 24 << 20
    ran = subprocess.run([program], input=read(f"{FOLDER}/registers.json") * 400, stdout=subprocess.PIPE, stderr=subprocess.PIPE,
                         timeout=60, preexec_fn=lambda: resource.setrlimit(resource.RLIMIT_AS, (most, most)))
    demand(ran.returncode == 4 and not ran.stdout, f"status {ran.returncode}: {ran.stderr.decode()}")


def many_registers():
    """Returns a netlist of registers of three kinds, of gates that are nested in them, and of names that differ in case alone."""
    names = {"c": 2, "d": 3, "D": 4, "r": 5, "e": 6}
    ports = {name: {"direction": "input", "bits": [bit]} for name, bit in names.items()}
    ports.update((name, {"direction": "output", "bits": [bit]}) for name, bit in {"q": 7, "Q": 8, "p": 9}.items())
    return netlist({
        "u": cell("$_DFFE_PN0P_", {"C": [2], "D": [10], "E": [6], "R": [5], "Q": [7]}),
        "v": cell("$_DFFSR_PPP_", {"C": [2], "D": [4], "R": [5], "S": [6], "Q": [8]}),
        "w": cell("$_SDFFCE_PN0P_", {"C": [2], "D": [11], "E": [6], "R": [5], "Q": [9]}),
        "x": cell("$_XOR_", {"A": [3], "B": [4], "Y": [10]}),
        "z": cell("$lut", {"A": [3, 4], "Y": [11]}, parameters={"LUT": "0110", "WIDTH": "10"}),
    }, **ports)


def is_whole_or_lacks_memory(program, shim, given, words):
    """Demands that a run ends with the text that ample memory gives or with the refusal for lack of memory, if one request for memory is
    refused of the later half, in which the text is written, or all from one on, of which every twentieth is tried."""
    ample = refusals.answer(program, words, given, {})
    demand(ample[0] == 0 and ample[1], f"with ample memory: {ample}")
    numbers = range(1, refusals.requests(program, words, given, shim) + 1)
    plans = [*((number, {}) for number in numbers[len(numbers) // 2:]), *((number, {"REFUSE_ON": "1"}) for number in numbers[::20])]

    def one(plan):
        return refusals.answer(program, words, given, {"LD_PRELOAD": shim, "REFUSE_AT": str(plan[0]), **plan[1]}, SECONDS)

    with concurrent.futures.ThreadPoolExecutor(refusals.AT_ONCE) as pool:
        for (number, more), found in zip(plans, pool.map(one, plans)):
            lacks = found[:2] == (4, b"") and found[2].endswith((b": memory allocation failed\n", b": out of memory\n"))
            demand(lacks or found == ample, f"request {number}{' and on' if more else ''}: {found}")


def is_read_or_refused(programs, name, text, words):
    """Demands that a netlist ends in a text that vsim reads, or in a refusal, within 2 s."""
    vsim, netlist, _ = programs
    status, made, said = run([netlist, "--stimuli", f"{FOLDER}/{name}.vcd", "--scope", "tb.dut", *words], text, SECONDS)
    demand(status in (0, 1) and (status == 0) == bool(made), f"status {status}: {said}")
    if status == 0:
        top = made.split(b"entity ")[1].split()[0].decode()
        ran = run([vsim, "--top", top, "--limit", "100"], made, SECONDS)
        demand(ran[0] in (0, 3), f"vsim: {ran[2]} for {words}")
    else:
        demand(said.startswith("vsim_netlist: ") and said.count("\n") == 1, said)


def are_bytes_mutated(programs, count):
    """Demands that netlists with another byte are read or refused."""
    random.seed(1)
    for it in range(count):
        name, words = DAMAGED[it % len(DAMAGED)]
        mutated = bytearray(read(f"{FOLDER}/{name}.json"))
        mutated[random.randrange(len(mutated))] = random.choice(b'0123456789"[]{},:aPN$_ \n\xff')
        is_read_or_refused(programs, name, bytes(mutated), words)


def places(value):
    """Yields each object or array of a JSON, with each name or index in it."""
    for key in value if isinstance(value, dict) else range(len(value)):
        yield value, key
        if isinstance(value[key], (dict, list)):
            yield from places(value[key])


def mutate(chance, parent, key):
    """Gives a member or an item another value, or removes it."""
    value = parent[key]
    others = [None, True, -1, 1.5, 0, 1, 2, 3, 7, 2**32, 2**63, 2**64, "", "0", "1", "x", "z", "q", "$_BUF_", "$_NOT_", "$lut", "$_DFF_P_",
              "$_TBUF_", "input", "output", "inout", "Y", "1" * 70, "a b", "\u00e9", [], {}, [value], {"A": value}, [2, 2], ["0"], ["x"]]
    if chance.random() < 0.25:
        del parent[key]
    elif isinstance(parent, dict) and chance.random() < 0.2:
        parent[chance.choice([it for it in others if isinstance(it, str)] + list(parent))] = parent.pop(key)
    else:
        parent[key] = chance.choice(others)


def are_fields_mutated(programs, count):
    """Demands that netlists with another member or item of their JSON, or without it, are read or refused."""
    chance = random.Random(2)
    whole = [json.loads(read(f"{FOLDER}/{name}.json")) for name, _ in DAMAGED]
    for it in range(count):
        name, words = DAMAGED[it % len(DAMAGED)]
        document = copy.deepcopy(whole[it % len(DAMAGED)])
        mutate(chance, *chance.choice(list(places(document))))
        is_read_or_refused(programs, name, json.dumps(document).encode(), words)


def tally(tests):
    """Makes each test, prints what it returns or how it failed, and how many passed and failed; returns how many failed."""
    passed = failed = 0
    for name, test in tests:
        try:
            found = test()
            passed += 1
            if found:
                print(f"{name}: {found}")
        except Fault as fault:
            print(f"{name}: {fault}")
            failed += 1
    print(f"{passed} passed, {failed} failed")
    return failed


def tests_of(programs, folder, mutated):
    """Yields the name of each test, and the test."""
    program = programs[1]
    for name in NAMES:
        for words in ((), ("--delays", "others=10ps"), ("--delays", "others=10ps/20ps,dff=30ps", "--hold", "40ps")):
            yield f"{name} {' '.join(words)}", lambda name=name, words=words: is_same(programs, name, folder, *words)
    yield "lines of stimuli", lambda: are_lines_alike(program, folder)
    for row in LISTED:
        yield f"y is {row[3]}", lambda row=row: is_listed(programs, folder, *row)
    yield "steps without a clock", lambda: is_listed(programs, folder, *stepped())
    yield "steps beside a clock", lambda: has_two_clocks(programs, folder)
    yield "two changes in a step", lambda: follows_late(programs, folder)
    yield "steps after a hold time", lambda: is_counted(programs, folder, held())
    yield "steps with a clock that falls at first", lambda: is_counted(programs, folder, falling_at_first())
    yield "names of bits", lambda: are_bits_named(programs)
    yield "clocks", lambda: is_one_statement(program, folder)
    yield "what nothing drives", lambda: is_told(program, folder)
    yield "the entity's name", lambda: is_entity_named(programs, folder)
    yield "escaped names", lambda: is_one_name(programs, folder)
    for row in REFUSED:
        yield row[3], lambda row=row: is_refused(program, folder, *row)
    for text, told in beyond():
        yield told, lambda text=text, told=told: is_refused(program, folder, text, "", [], told)
        yield f"--large: {told}", lambda text=text: is_taken_large(programs, text)
    for row in failing(folder):
        yield f"{row[0]} and status {row[2]}", lambda row=row: fails(program, *row)
    yield "no memory", lambda: has_no_memory(program)
    shim, timed = refusals.library(folder), [f"--{kind}={FOLDER}/glitch.{ending}" for kind, ending in (("liberty", "lib"), ("sdf", "sdf"))]
    for name, *row in (("registers", many_registers().encode(), []), ("timed cells", read(f"{FOLDER}/glitch.json"), timed)):
        yield f"refused requests of {name}", lambda row=row: is_whole_or_lacks_memory(program, shim, *row)
    for name in NAMES:
        yield f"bytes of stimuli of {name}", lambda name=name: are_short(program, name)
    yield "netlists with another byte", lambda: are_bytes_mutated(programs, mutated)
    yield "netlists with another member", lambda: are_fields_mutated(programs, mutated)


def main():
    if len(sys.argv) not in (4, 5):
        sys.exit(__doc__)
    programs, mutated = sys.argv[1:4], int(sys.argv[4]) if len(sys.argv) == 5 else MUTATED
    with tempfile.TemporaryDirectory() as folder:
        sys.exit(tally(tests_of(programs, folder, mutated)) != 0)


if __name__ == "__main__":
    main()

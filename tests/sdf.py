#!/usr/bin/env python3
"""Runs netlists of cells with the delays of files in the standard delay format (SDF).

    sdf.py VSIM VSIM_NETLIST VSIM_WAVES VSIM_COMPARE [DAMAGED]

Netlists of one or two cells, each with a rule of the format or of IEEE 1364's module paths, whose listings were worked out by hand from these
rules; files with a fault, each refused by a sentence; what has no effect, told in one line; and a file with one token changed or removed,
DAMAGED times (1,000 if it is not given), which end in a text that VSIM reads, or in a refusal, within 1 s.

Then each cell of netlists/cells.lib, and of osu018, osu035 and osu050 where Debian's packages qflow-tech-osu018 and so on are installed, with
delays at random and inputs that change at random, several at once and sooner than cells follow: alone, and in netlists at random. Every change
of every output is to be that of sdf_reference.py, which knows the rules and nothing of VSIM_NETLIST. docs/glitch.svg is drawn anew by the
commands of docs/SYNTHESIS.md, and without delays nothing glitches. And where Yosys, OpenSTA and Icarus are installed, the commands there from
Verilog to waves with delays, whose values before each edge are to be those of the source.

What differs is told, and the last line is `N passed, M failed`.
"""
import json
import os
import random
import re
import resource
import shutil
import subprocess
import sys

sys.path.insert(0, os.path.dirname(os.path.realpath(__file__)))
from cell_files import are_read_or_refused, demand_listed, listing_of, main, put  # noqa: E402
from liberty import CELLS, OTHERS, instances, letter, names_in, read_cells, values_before  # noqa: E402
from netlist_texts import FOLDER, TOP, Waves, cell, demand, is_refused, known_to, netlist, read, run, wide  # noqa: E402
from sdf_reference import Simulation, TimedCell  # noqa: E402

SECONDS = 1
# the most bytes of a cell of two inputs, alone and where many have the same delays
BYTES, SHARED = 250, 60
# the programs of the command line
NAMES = ["vsim", "vsim_netlist", "vsim_waves", "vsim_compare"]
# how often the inputs of cells change at random, and how many cells a netlist at random has
CHANGES, CELL_COUNT = 1200, 60

LIBRARY = """library (l) {
cell (BUF) { pin (A) { direction : input; } pin (Y) { direction : output; function : "A"; } }
cell (INV) { pin (A) { direction : input; } pin (Y) { direction : output; function : "A'"; } }
cell (OR2) { pin (A, B) { direction : input; } pin (Y) { direction : output; function : "A+B"; } }
cell (AND2) { pin (A, B) { direction : input; } pin (Y) { direction : output; function : "A*B"; } }
cell (XOR2) { pin (A, B) { direction : input; } pin (Y) { direction : output; function : "A^B"; } }
cell (TIE1) { pin (Y) { direction : output; function : "1"; } }
cell (TBUF) { pin (A, EN) { direction : input; } pin (Y) { direction : output; function : "A"; three_state : "EN'"; } }
cell (DFF) { ff (IQ, IQN) { next_state : "D"; clocked_on : "CK"; } pin (D, CK) { direction : input; }
  pin (Q) { direction : output; function : "IQ"; } pin (QN) { direction : output; function : "IQN"; } }
cell (DFFR) { ff (IQ, IQN) { next_state : "D"; clocked_on : "CK"; clear : "R"; } pin (D, CK, R) { direction : input; }
  pin (Q) { direction : output; function : "IQ"; } }
cell (LATCH) { latch (IQ, IQN) { data_in : "D"; enable : "G"; } pin (D, G) { direction : input; }
  pin (Q) { direction : output; function : "IQ"; } }
cell (DFFI) { ff (IQ, IQN) { next_state : "D"; clocked_on : "CK"; } pin (D, CK) { direction : input; }
  pin (Q) { direction : output; function : "IQ'"; } }
}
"""

A, B, Y = [2], [4], [3]
PORTS = {"a": {"direction": "input", "bits": A}, "b": {"direction": "input", "bits": B}, "y": {"direction": "output", "bits": Y}}


def gate(kind, **pins):
    """Returns a netlist of one cell u."""
    return netlist({"u": cell(kind, pins)}, **PORTS)


OR, XOR, BUF = gate("OR2", A=A, B=B, Y=Y), gate("XOR2", A=A, B=B, Y=Y), gate("BUF", A=A, Y=Y)
CHAIN = {"u": cell("BUF", {"A": A, "Y": [9]}), "v": cell("BUF", {"A": [9], "Y": Y})}
TWO = netlist(CHAIN, **PORTS)


def file_of(*cells, head="(DIVIDER .) (TIMESCALE 1ps)"):
    return f"(DELAYFILE (SDFVERSION \"3.0\") {head}\n" + "\n".join(cells) + "\n)\n"


def of(kind, instance, *delays, mode="ABSOLUTE"):
    """Returns a cell of a file."""
    return f'(CELL (CELLTYPE "{kind}") (INSTANCE {instance}) (DELAY ({mode} {" ".join(delays)})))'


def one(kind, *delays):
    """Returns a file of one cell u."""
    return file_of(of(kind, "u", *delays))


ZERO = "0 a 0\n0 b 0\n"
PULSES = ZERO + "100ps a 1\n104ps a 0\n200ps a 1\n210ps a 0\n"
OR_PATHS = "(IOPATH A Y (9) (8)) (IOPATH B Y (5) (4))"
TRIPLES = one("BUF", "(IOPATH A Y (1:2:3) (4:5:6))")
UP_DOWN = ZERO + "100ps a 1\n200ps a 0\n"
UP_DOWN_TWICE = UP_DOWN + "300ps b 1\n400ps a 1\n500ps a 0\n"
PERIODS = "0 a 0\n0 b 0\n100ps b 1\n200ps b 0\n300ps b 1\n400ps b 0\n500ps b 1\n"
CLOCKED = netlist({"u": cell("AND2", {"A": A, "B": B, "Y": Y}), "v": cell("DFF", {"D": A, "CK": B, "Q": [9]})}, **PORTS)
BOTH_PATHS = file_of(of("AND2", "u", "(IOPATH A Y (9)) (IOPATH B Y (5))"), of("DFF", "v", "(IOPATH CK Q (20))"))
WIRES = "0 X, 19000 0, 118000 1, 219000 0"
BUFFERS = [of("BUF", "u", "(IOPATH A Y (10))"), of("BUF", "v", "(IOPATH A Y (5))")]

# what the row is about, a netlist, a file, stimuli, words, and what the listing says of y
LISTED = [
    # the function becomes 0 when both inputs are known, after the least of both; b at 102 ps and a at 200 ps change nothing
    ("the input that changed last", OR, one("OR2", OR_PATHS), ZERO + "100ps a 1\n102ps b 1\n200ps a 0\n210ps b 0\n", [],
     "0 X, 4000 0, 109000 1, 214000 0"),
    ("the least of several inputs", OR, one("OR2", OR_PATHS), ZERO + "100ps a 1\n100ps b 1\n200ps a 0\n200ps b 0\n", [],
     "0 X, 4000 0, 105000 1, 204000 0"),
    ("a pulse shorter than its delay", BUF, one("BUF", "(IOPATH A Y (9) (9))"), PULSES, [], "0 X, 9000 0, 209000 1, 219000 0"),
    ("a rise that is slower than the fall after it", BUF, one("BUF", "(IOPATH A Y (20) (7))"), ZERO + "100ps a 1\n105ps a 0\n", [], "0 X, 7000 0"),
    ("unknown values", BUF, one("BUF", "(IOPATH A Y (20) (7))"), ZERO + "100ps a x\n200ps a 0\n300ps a 1\n400ps a x\n500ps a 1\n", [],
     "0 X, 7000 0, 120000 X, 207000 0, 320000 1, 407000 X, 520000 1"),
    ("one value", BUF, one("BUF", "(IOPATH A Y (6))"), UP_DOWN, [], "0 X, 6000 0, 106000 1, 206000 0"),
    ("the typical values", BUF, TRIPLES, UP_DOWN, [], "0 X, 5000 0, 102000 1, 205000 0"),
    ("the minimum values", BUF, TRIPLES, UP_DOWN, ["--corner", "min"], "0 X, 4000 0, 101000 1, 204000 0"),
    ("the maximum values", BUF, TRIPLES, UP_DOWN, ["--corner", "max"], "0 X, 6000 0, 103000 1, 206000 0"),
    ("a value for all corners", BUF, one("BUF", "(IOPATH A Y (3) (4))"), UP_DOWN, ["--corner", "max"], "0 X, 4000 0, 103000 1, 204000 0"),
    ("a corner that is empty, but not the one", BUF, one("BUF", "(IOPATH A Y (1::3))"), UP_DOWN, ["--corner", "max"],
     "0 X, 3000 0, 103000 1, 203000 0"),
    # the fall by A takes what B's takes
    ("an empty value", OR, one("OR2", "(IOPATH A Y (9) ()) (IOPATH B Y (5) (4))"), UP_DOWN, [], "0 X, 4000 0, 109000 1, 204000 0"),
    ("a second ABSOLUTE", BUF, one("BUF", "(IOPATH A Y (9) (8)) (IOPATH A Y (7) ())"), UP_DOWN, [], "0 X, 8000 0, 107000 1, 208000 0"),
    ("INCREMENT", BUF, file_of(of("BUF", "u", "(IOPATH A Y (9) (8))"), of("BUF", "u", "(IOPATH A Y (1) (-2))", mode="INCREMENT")), UP_DOWN, [],
     "0 X, 6000 0, 110000 1, 206000 0"),
    ("INCREMENT below 0", BUF, file_of(of("BUF", "u", "(IOPATH A Y (9))"), of("BUF", "u", "(IOPATH A Y (-20))", mode="INCREMENT")), UP_DOWN, [],
     "0 X, 0 0, 100000 1, 200000 0"),
    ("a negative delay", BUF, one("BUF", "(IOPATH A Y (-3) (4))"), UP_DOWN, [], "0 X, 4000 0, 100000 1, 204000 0"),
    ("COND", XOR, one("XOR2", "(COND B==1'b0 (IOPATH A Y (10) (11))) (COND B == 1'b1 (IOPATH A Y (20) (21))) (IOPATH B Y (5))"), UP_DOWN_TWICE, [],
     "0 X, 5000 0, 110000 1, 211000 0, 305000 1, 421000 0, 520000 1"),
    ("COND with a name and parentheses", XOR,
     one("XOR2", '(COND "low" (!(B)) (IOPATH A Y (10) (11))) (COND (B && 1\'b1) (IOPATH A Y (20) (21))) (IOPATH B Y (5))'), UP_DOWN_TWICE, [],
     "0 X, 5000 0, 110000 1, 211000 0, 305000 1, 421000 0, 520000 1"),
    ("COND after a path without", XOR, one("XOR2", "(IOPATH A Y (7)) (COND B (IOPATH A Y (17))) (IOPATH B Y (5))"), UP_DOWN_TWICE, [],
     "0 X, 5000 0, 107000 1, 207000 0, 305000 1, 417000 0, 517000 1"),
    ("COND before a path without", XOR, one("XOR2", "(COND B (IOPATH A Y (17))) (IOPATH A Y (7)) (IOPATH B Y (5))"), UP_DOWN_TWICE, [],
     "0 X, 5000 0, 107000 1, 207000 0, 305000 1, 407000 0, 507000 1"),
    ("CONDELSE", XOR, one("XOR2", "(COND B (IOPATH A Y (17))) (CONDELSE (IOPATH A Y (7))) (IOPATH B Y (5))"), UP_DOWN_TWICE, [],
     "0 X, 5000 0, 107000 1, 207000 0, 305000 1, 417000 0, 517000 1"),
    ("posedge and negedge", XOR, one("XOR2", "(IOPATH (posedge A) Y (10)) (IOPATH (negedge A) Y (20)) (IOPATH B Y (5))"), UP_DOWN_TWICE, [],
     "0 X, 5000 0, 110000 1, 220000 0, 305000 1, 410000 0, 520000 1"),
    ("INTERCONNECT", TWO, file_of(of("top", "", "(INTERCONNECT u.Y v.A (3) (4))"), *BUFFERS), UP_DOWN, [], WIRES),
    ("PORT", TWO, file_of(*BUFFERS, of("BUF", "v", "(PORT A (3) (4))")), UP_DOWN, [], WIRES),
    ("PORT from above", TWO, file_of(*BUFFERS, of("top", "", "(PORT v.A (3) (4))")), UP_DOWN, [], WIRES),
    ("wires that take no time", TWO, file_of(of("top", "", "(INTERCONNECT u.Y v.A (0)) (INTERCONNECT a u.A (0)) (INTERCONNECT v.Y y (0))"), *BUFFERS),
     UP_DOWN, [], "0 X, 15000 0, 115000 1, 215000 0"),
    ("DEVICE", OR, one("OR2", "(DEVICE Y (6) (7))"), UP_DOWN, [], "0 X, 7000 0, 106000 1, 207000 0"),
    ("DEVICE after IOPATH", OR, one("OR2", OR_PATHS, "(DEVICE (6) (7))"), UP_DOWN, [], "0 X, 7000 0, 106000 1, 207000 0"),
    ("all cells of a kind", TWO, file_of(of("BUF", "*", "(IOPATH A Y (6))"), of("BUF", "v", "(IOPATH A Y (7))")), UP_DOWN, [],
     "0 X, 13000 0, 113000 1, 213000 0"),
    ("all cells of a kind, after one", TWO, file_of(of("BUF", "v", "(IOPATH A Y (7))"), of("BUF", "*", "(IOPATH A Y (6))")), UP_DOWN, [],
     "0 X, 12000 0, 112000 1, 212000 0"),
    ("another divider", netlist({"p.u": CHAIN["u"], "p/v": CHAIN["v"]}, **PORTS),
     file_of(of("BUF", "p/u", "(IOPATH A Y (10))"), of("BUF", "p\\/v", "(IOPATH A Y (5))"), of("top", "", "(INTERCONNECT p/u/Y p\\/v/A (3) (4))"),
             head="(DIVIDER /) (TIMESCALE 1ps)"), UP_DOWN, [], WIRES),
    ("escaped names", netlist({"$abc$1.u": CHAIN["u"], "v[3]": CHAIN["v"]}, **PORTS),
     file_of(of("BUF", "\\$abc\\$1\\.u", "(IOPATH A Y (10))"), of("BUF", "v\\[3\\]", "(IOPATH A Y (5))"),
             of("top", "", "(INTERCONNECT \\$abc\\$1\\.u.Y v\\[3\\].A (3) (4))")), UP_DOWN, [], WIRES),
    ("100 ps", BUF, file_of(of("BUF", "u", "(IOPATH A Y (0.5))"), head="(TIMESCALE 100 ps)"), UP_DOWN, [], "0 X, 50000 0, 150000 1, 250000 0"),
    ("no time scale", BUF, file_of(of("BUF", "u", "(IOPATH A Y (0.0125))"), head=""), UP_DOWN, [], "0 X, 12500 0, 112500 1, 212500 0"),
    ("numbers", BUF, one("BUF", "(IOPATH A Y (1.5e1) (+.2E+1))"), UP_DOWN, [], "0 X, 2000 0, 115000 1, 202000 0"),
    ("a part of a femtosecond", BUF, one("BUF", "(IOPATH A Y (0.0005) (0.00149))"), UP_DOWN, [], "0 X, 1 0, 100001 1, 200001 0"),
    ("comments and pulse limits", BUF, one("BUF", "(IOPATH A Y // (1)\n ((3) (1) (2)) /* ( */ (4))"), UP_DOWN, [], "0 X, 4000 0, 103000 1, 204000 0"),
    ("one net at two pins", gate("AND2", A=A, B=A, Y=Y), one("AND2", "(IOPATH A Y (9)) (IOPATH B Y (5))"), UP_DOWN, [],
     "0 X, 5000 0, 105000 1, 205000 0"),
    ("a constant at a pin", gate("AND2", A=A, B=["1"], Y=Y), one("AND2", "(IOPATH A Y (9)) (IOPATH B Y (5))"), UP_DOWN, [],
     "0 X, 9000 0, 109000 1, 209000 0"),
    # from z to 1 as a rise; to z by the third value
    ("three values", gate("TBUF", A=A, EN=B, Y=Y), one("TBUF", "(IOPATH A Y (10) (12)) (IOPATH EN Y (5) (6) (7))"),
     ZERO + "100ps a 1\n200ps b 1\n300ps a 0\n400ps b 0\n", [], "0 X, 7000 Z, 205000 1, 312000 0, 407000 Z"),
    # from x to z the longer of both, from 1 to z as a fall
    ("two values of a three-state output", gate("TBUF", A=A, EN=B, Y=Y), one("TBUF", "(IOPATH A Y (10) (12)) (IOPATH EN Y (5) (6))"),
     ZERO + "100ps a 1\n200ps b 1\n400ps b 0\n", [], "0 X, 6000 Z, 205000 1, 406000 Z"),
    ("a register", gate("DFF", D=A, CK=B, Q=Y), one("DFF", "(IOPATH (posedge CK) Q (10) (12))"),
     "0 a 1\n0 b 0\n100ps b 1\n150ps b 0\n200ps a 0\n300ps b 1\n", [], "0 X, 110000 1, 312000 0"),
    ("its negation", gate("DFF", D=A, CK=B, QN=Y), one("DFF", "(IOPATH CK Q (1)) (IOPATH CK QN (10) (12))"),
     "0 a 1\n0 b 0\n100ps b 1\n150ps b 0\n200ps a 0\n300ps b 1\n", [], "0 X, 112000 0, 310000 1"),
    ("a reset", gate("DFFR", D=["1"], CK=B, R=A, Q=Y), one("DFFR", "(IOPATH CK Q (10) (12)) (IOPATH R Q () (8))"),
     "0 a 1\n0 b 0\n50ps a 0\n100ps b 1\n200ps a 1\n", [], "0 X, 8000 0, 110000 1, 208000 0"),
    ("a latch", gate("LATCH", D=A, G=B, Q=Y), one("LATCH", "(IOPATH D Q (10) (11)) (IOPATH G Q (20) (21))"),
     "0 a 0\n0 b 1\n100ps a 1\n150ps b 0\n200ps a 0\n300ps b 1\n", [], "0 X, 11000 0, 110000 1, 321000 0"),
    # b is a clock, too
    ("a clock and another input at once", CLOCKED, BOTH_PATHS, ZERO + "100ps a 1\n100ps b 1\n200ps a 0\n200ps b 0\n", [],
     "0 X, 5000 0, 105000 1, 205000 0"),
    ("a clock of constant period and another input at once", CLOCKED, BOTH_PATHS,
     ZERO + "100ps a 1\n100ps b 1\n200ps a 0\n200ps b 0\n300ps a 1\n300ps b 1\n400ps b 0\n500ps b 1\n", [],
     "0 X, 5000 0, 105000 1, 205000 0, 305000 1, 405000 0, 505000 1"),
    ("a clock", gate("BUF", A=B, Y=Y), one("BUF", "(IOPATH A Y (10))"), PERIODS, [],
     "0 X, 10000 0, 110000 1, 210000 0, 310000 1, 410000 0, 510000 1"),
    ("a clock that does not start after half its period", gate("BUF", A=B, Y=Y), one("BUF", "(IOPATH A Y (10))"),
     "0 a 0\n0 b 1\n30ps b 0\n130ps b 1\n230ps b 0\n330ps b 1\n430ps b 0\n", [],
     "0 X, 10000 1, 40000 0, 140000 1, 240000 0, 340000 1, 440000 0"),
    ("data that change with the clock", gate("DFF", D=A, CK=B, Q=Y), one("DFF", "(IOPATH (posedge CK) Q (10) (12))"),
     ZERO + "100ps a 1\n100ps b 1\n200ps b 0\n300ps a 0\n300ps b 1\n", [], "0 X, 112000 0, 310000 1"),
    ("an enable that changes with the clock", gate("$_DFFE_PP_", D=["1"], E=A, C=B, Q=Y), file_of(),
     ZERO + "100ps a 1\n100ps b 1\n200ps b 0\n300ps a 0\n300ps b 1\n", ["--delays", "dff=10ps"], "0 X, 310000 1"),
    ("a reset that changes with the clock", gate("DFFR", D=["1"], CK=B, R=A, Q=Y), one("DFFR", "(IOPATH CK Q (10) (12)) (IOPATH R Q (9) (8))"),
     ZERO + "100ps a 1\n100ps b 1\n200ps a 0\n200ps b 0\n300ps b 1\n", [], "0 X, 108000 0, 310000 1"),
    ("a latch that closes and opens as its input changes", gate("LATCH", D=A, G=B, Q=Y), one("LATCH", "(IOPATH D Q (10) (11)) (IOPATH G Q (20) (21))"),
     "0 a 0\n0 b 1\n100ps a 1\n100ps b 0\n200ps a 0\n300ps a 1\n300ps b 1\n", [], "0 X, 11000 0, 310000 1"),
    ("a hold time", BUF, one("BUF", "(IOPATH A Y (10))"), ZERO + "100ps a 1\n", ["--hold", "7ps"], "0 X, 10000 0, 117000 1"),
    ("registers that begin with 0", gate("DFF", D=A, CK=B, Q=Y), one("DFF", "(IOPATH CK Q (10) (12))"), "0 a 1\n0 b 0\n100ps b 1\n",
     ["--init", "0"], "0 0, 110000 1"),
    ("registers that begin with 1, negated", gate("DFF", D=A, CK=B, QN=Y), one("DFF", "(IOPATH CK Q (1)) (IOPATH CK QN (10) (12))"),
     ZERO + "100ps b 1\n", ["--init", "1"], "0 0, 110000 1"),
    ("latches that begin with 1", gate("LATCH", D=A, G=B, Q=Y), one("LATCH", "(IOPATH D Q (10) (11)) (IOPATH G Q (20) (21))"),
     ZERO + "100ps b 1\n", ["--init", "1"], "0 1, 121000 0"),
    ("equal cells", netlist({f"u{it}": cell("BUF", {"A": [9 + it] if it else A, "Y": [10 + it] if it < 19 else Y}) for it in range(20)}, **PORTS),
     file_of(of("BUF", "*", "(IOPATH A Y (5) (6))")), UP_DOWN, [], "0 X, 120000 0, 200000 1, 320000 0"),
    ("equal cells that read their own outputs", netlist({"u": cell("OR2", {"A": A, "B": Y, "Y": Y}), "v": cell("OR2", {"A": B, "B": [9], "Y": [9]}),
     "w": cell("OR2", {"A": B, "B": [10], "Y": [10]})}, **PORTS), file_of(of("OR2", "*", "(IOPATH A Y (5) (6)) (IOPATH B Y (7))")), UP_DOWN, [],
     "0 X, 105000 1"),
    ("a cell without inputs", gate("TIE1", Y=Y), file_of(), ZERO + "1ns a 1\n", [], "0 X, 0 1"),
    ("a cell of Yosys beside it", netlist({"u": CHAIN["u"], "v": cell("$_NOT_", {"A": [9], "Y": Y})}, **PORTS), one("BUF", "(IOPATH A Y (6))"),
     UP_DOWN, ["--delays", "not=3ps"], "0 X, 9000 1, 109000 0, 209000 1"),
]


def words_of(folder, text):
    return ["--liberty", put(folder, "cells.lib", LIBRARY), "--sdf", put(folder, "delays.sdf", text)]


def is_listed(programs, folder, given, text, stimuli, words, wanted):
    """Demands that the listing of a netlist with the delays of a file has these values of y."""
    library, *words = [*words_of(folder, text)[1:], *words]
    demand_listed(listing_of(programs, folder, library, given, stimuli, words), wanted)


PATHS = "(IOPATH A Y (1))"
# a netlist, a file, words, and what is told
REFUSED = [
    (BUF, "", [], "the SDF file: 1: the file ends, where a parenthesis is wanted"),
    (BUF, "(DELAY)", [], "the SDF file: 1: '(DELAYFILE' is wanted"),
    (BUF, "(DELAYFILE", [], "the SDF file: 1: the file ends, where a parenthesis is wanted"),
    (BUF, "(DELAYFILE (CELL (DELAY\n(ABSOLUTE", [], "the SDF file: 2: the file ends, where a parenthesis is wanted"),
    (BUF, file_of() + ")", [], "the SDF file: 4: ')' stands where the end of the file is wanted"),
    (BUF, file_of("(DATE \"today)"), [], "the SDF file: 2: a quotation mark does not close"),
    (BUF, file_of("/* a comment"), [], "the SDF file: 2: a comment does not end"),
    (BUF, file_of("(INSTANCE u)"), [], "the SDF file: 2: 'INSTANCE' is not supported here"),
    (BUF, file_of(head="(DIVIDER |)"), [], "the SDF file: 1: a DIVIDER other than . and / is not supported"),
    (BUF, file_of(head="(TIMESCALE 20ps)"), [], "the SDF file: 1: '20ps' is no TIMESCALE, as 100ps is"),
    (BUF, one("BUF", "\n\n(IOPATH A Y (0.183::0.183))"), [], "the SDF file: 4: (0.183::0.183) has no typical value: use --corner min or max"),
    (BUF, one("BUF", "(IOPATH A Y (:2:))"), ["--corner", "max"], "the SDF file: 2: (:2:) has no maximum value: use --corner typ"),
    (BUF, one("BUF", "(IOPATH A Y (1:2:))"), ["--corner", "max"], "the SDF file: 2: (1:2:) has no maximum value: use --corner min or typ"),
    (BUF, one("BUF", "(IOPATH A Y (1:2))"), [], "the SDF file: 2: (1:2) is no value"),
    (BUF, one("BUF", "(IOPATH A Y (1x))"), [], "the SDF file: 2: (1x) is no value"),
    (BUF, one("BUF", "(IOPATH A Y (1e30))"), [], "the SDF file: 2: (1e30) is too long"),
    (BUF, one("BUF", "(IOPATH A Y 1)"), [], "the SDF file: 2: '1' stands where a delay is wanted"),
    (BUF, one("BUF", "(IOPATH A Y)"), [], "the SDF file: 2: IOPATH has no delay"),
    (BUF, one("BUF", "(IOPATH A Y (1) (1) (1) (1) (1) (1))"), [], "the SDF file: 2: IOPATH: more than three values are not supported"),
    (BUF, one("BUF", "(IOPATH (01 A) Y (1))"), [], "the SDF file: 2: an edge other than posedge and negedge is not supported"),
    (BUF, one("BUF", "(IOPATH A)"), [], "the SDF file: 2: ')' stands where a pin is wanted"),
    (BUF, one("BUF", "(COND A=== 1'b1 (IOPATH A Y (1)))"), [],
     "the SDF file: 2: the condition 'A=== 1'b1': it has a sign or an operator that is not supported"),
    (BUF, one("BUF", "(COND A B (IOPATH A Y (1)))"), [], "the SDF file: 2: the condition 'A B': an operator is missing"),
    (BUF, one("BUF", "(COND A && (IOPATH A Y (1)))"), [], "the SDF file: 2: the condition 'A &&': an operand is missing"),
    (BUF, one("BUF", "(COND (IOPATH A Y (1)))"), [], "the SDF file: 2: the condition '': an operand is missing"),
    (BUF, one("BUF", "(COND A)"), [], "the SDF file: 2: ')' stands where a condition and an IOPATH is wanted"),
    (BUF, one("BUF", "(COND " + "!(A&" * 60 + "A" + ")" * 60 + " (IOPATH A Y (1)))"), [], "it is too deep"),
    (BUF, one("BUF", "(COND A" + "&A" * 600 + " (IOPATH A Y (1)))"), [], "it is too"),
    (BUF, file_of('(CELL (CELLTYPE "BUF") (DELAY (ABSOLUTE (IOPATH A Y (1)))))'), [], "the SDF file: 2: a delay stands before the INSTANCE of its cell"),
    (BUF, file_of(of("BUF", "u", PATHS), of("INV", "u", PATHS)), [], 'the SDF file: 3: instance u: CELLTYPE "INV", and "BUF" before'),
    (BUF, file_of(of("BUF", "u", PATHS), of("BUF", "u7", PATHS)), [],
     "the SDF file: 3: instance u7: the netlist has no such cell: after rename -enumerate"),
    (BUF, file_of(of("BUF", "u", PATHS), of("top", "", "(INTERCONNECT u.Y v.A (1))")), [], "the SDF file: 3: instance v: the netlist has no such cell"),
    (BUF, file_of(of("BUF", "u", PATHS), of("top", "", "(INTERCONNECT u.Y y (1))")), [], "the SDF file: 3: a delay of the design itself is not supported"),
    (BUF, file_of(of("BUF", "*", PATHS, "(INTERCONNECT u.Y y (1))")), [],
     "the SDF file: 2: INTERCONNECT is not supported in a cell without the name of an instance"),
    (BUF, one("BUF", "(IOPATH Z Y (1))"), [], "the netlist: cell u of type BUF: the SDF file has a delay of its pin Z, which is not there"),
    (OR, one("OR2", "(COND C (IOPATH A Y (1)))"), [], "cell u of type OR2: the SDF file has a delay of its pin C, which is not there"),
    (BUF, file_of(), [], "the netlist: cell u of type BUF: the SDF file has no path to its output Y"),
    (gate("DFFI", D=A, CK=B, Q=Y), one("DFFI", "(IOPATH CK Q (1))"), [], "cell u of type DFFI: a register whose output or control is a formula"),
    (BUF, one("BUF", PATHS), ["--init", "x"], "--init: 'x' is neither 0 nor 1"),
    (BUF, one("BUF", PATHS), ["--corner", "best"], "--corner: 'best' is none of min, typ and max"),
]


CHECKS = """(TIMINGCHECK (SETUP A (posedge B) (1)) (HOLD A (posedge B) (1)) (HOLD (negedge A) (COND A (posedge B)) (1)))
(TIMINGENV (PATHCONSTRAINT a b (1))) (LABEL (ABSOLUTE (t (1))))"""


def is_noted(programs, folder):
    """Demands that what has no effect is told in one line, and negative delays in another."""
    text = file_of(of("BUF", "u", "(IOPATH A Y (RETAIN (1)) (-1) (2)) (NETDELAY Y (1))")[:-1] + CHECKS + ")")
    status, _, said = run([programs[1], *words_of(folder, text)], BUF.encode())
    demand(status == 0, said)
    wanted = ("vsim_netlist: the SDF file: without effect: RETAIN 1, NETDELAY 1, SETUP 1, HOLD 2, TIMINGENV 1, LABEL 1\n"
              "vsim_netlist: the SDF file: negative delays, which count as 0: 1\n")
    demand(said == wanted, said)


def bytes_of(programs, folder, delays):
    """Returns the bytes of each of 500 cells of two inputs, whose delays are those of the number of the cell."""
    count = 500
    cells = {f"u{it}": cell("OR2", {"A": [100 + it], "B": [101 + it], "Y": [102 + it]}) for it in range(count)}
    text = file_of(*(of("OR2", f"u{it}", "(IOPATH A Y ({}) ({})) (IOPATH B Y ({}) ({}))".format(*delays(it))) for it in range(count)))
    status, made, said = run([programs[1], *words_of(folder, text)], netlist(cells, **PORTS).encode())
    demand(status == 0, said)
    return len(made) / count


def are_short(programs, folder):
    """Demands that a cell of two inputs with its paths takes few bytes, and fewer where many are equal."""
    alone = bytes_of(programs, folder, lambda it: (it, it + 3, it + 2, it + 4))
    shared = bytes_of(programs, folder, lambda it: (it % 9, it % 9 + 3, it % 9 + 2, it % 9 + 4))
    demand(alone <= BYTES and shared <= SHARED, f"{alone} and {shared} bytes for a cell")
    return f"{alone:.0f} bytes for a cell, {shared:.0f} where many are equal"


def is_linear(programs, folder):
    """Demands that a long file is read in a time that goes with its length, and refused for an instance that the netlist has not."""
    seconds = []
    for count in (20_000, 80_000):
        text = file_of(*(of("OR2", f"u_{it}_", "(IOPATH A Y (0.1:0.2:0.3) (0.2:0.3:0.4)) (IOPATH B Y (0.1:0.2:0.3) (0.2:0.3:0.4))")
                         for it in range(count)))
        words, begin = words_of(folder, text), resource.getrusage(resource.RUSAGE_CHILDREN).ru_utime
        status, _, said = run([programs[1], *words], BUF.encode())
        seconds.append(resource.getrusage(resource.RUSAGE_CHILDREN).ru_utime - begin)
        demand(status == 1, said)
    demand(seconds[1] < 8 * seconds[0] + 0.2, f"{seconds} s")
    return f"{len(text) / 1e6 / max(seconds[1], 0.001):.0f} MB for each second of a processor"


def are_damaged(programs, folder, count):
    """Demands that a file with one token changed or removed ends in a text that vsim reads, or in a refusal."""
    whole = file_of(of("top", "", "(INTERCONNECT u.Y v.A (1:2:3) (4))"), of("XOR2", "u", "(IOPATH (posedge A) Y (1) (2))",
                    '(COND "c" (A==1\'b1 && !B) (IOPATH B Y (1:2:3) (3)))', "(CONDELSE (IOPATH B Y (4)))"),
                    of("TBUF", "v", "(IOPATH A Y (1) (2) (3))", "(DEVICE Y (0.1))")[:-1] + CHECKS + ")", of("BUF", "*", "(PORT A (2))", mode="INCREMENT"))
    given = netlist({"u": cell("XOR2", {"A": A, "B": B, "Y": [9]}), "v": cell("TBUF", {"A": [9], "EN": B, "Y": Y})}, **PORTS).encode()
    tokens = re.findall(r'"[^"]*"|[^\s()"]+|[()"]|\s+', whole)
    signs = ["", "", "(", ")", '"', "\\", "/*", "//", "A", "u", "*", "IOPATH", "(1)", "1e9", "-5", "::", "DELAY", "&&"]
    are_read_or_refused(programs, given, tokens, signs, lambda text: words_of(folder, text), SECONDS, count)


# ------------------------------------------------------------------------------------------- beside the reference
def has_paths(kind):
    """Says whether a cell may have delays, and does not read a register's output itself."""
    if not kind.state:
        return True
    variables, controls = set(kind.state[1]), [kind.parts[it].tree for it in ("clocked_on", "enable", "clear", "preset") if it in kind.parts]
    data = [kind.parts[it].tree for it in ("next_state", "data_in") if it in kind.parts]
    are_variables = all(function and function.tree in variables and not off for function, off in kind.outputs.values())
    are_plain = all(isinstance(it, str) or it[0] == "not" and isinstance(it[1], str) for it in controls + (data if kind.state[0] == "latch" else []))
    return are_variables and are_plain and data and not any(names_in(it) & variables for it in data)


def paths_of(chance, kind):
    """Returns delays at random of each path of a cell, in picoseconds, as {output: {input: (rise, fall)}}."""
    def times():
        rise, fall = chance.randrange(3, 60), chance.randrange(3, 60)
        return chance.choice([(rise, fall)] * 6 + [(rise, rise), (None, fall), (rise, None), (rise, fall, chance.randrange(3, 60))])
    return {output: {it: times() for it in kind.inputs} for output in kind.outputs}


def written(name, kind, paths):
    """Returns the part of a file that has these delays."""
    return of(kind.name, name, *(f"(IOPATH {source} {output} " + " ".join("()" if it is None else f"({it})" for it in times) + ")"
                                 for output, each in paths.items() for source, times in each.items()))


def stimuli_at_random(chance, width):
    """Returns changes of inputs, as [(time in femtoseconds, {number: letter})], of which few are to x."""
    time, levels, found = 0, ["0"] * width, [(0, dict.fromkeys(range(width), "0"))]
    for _ in range(CHANGES):
        time += chance.choice([3, 7, 20, 61, 130, 200])
        changed = {it: chance.choice("01" * 9 + "x") for it in chance.sample(range(width), chance.choice([1, 1, 1, 2, 3]))}
        changed = {it: level for it, level in changed.items() if levels[it] != level}
        for it, level in changed.items():
            levels[it] = level
        if changed:
            found.append((time * 1000, changed))
    return found


def joined(chance, kinds, width):
    """Returns a netlist at random of these cells, whose inputs are those of the design or outputs of cells before that are never z."""
    cells, bit, bits = {}, 2 + width, list(range(2, 2 + width))
    for number in range(CELL_COUNT):
        kind = chance.choice(kinds)
        nets = {pin: [chance.choice(bits)] for pin in kind.inputs}
        bits += [bit + it for it, (_, three_state) in enumerate(kind.outputs.values()) if three_state is None]
        for pin in kind.outputs:
            nets[pin], bit = [bit], bit + 1
        cells[f"u{number}"] = kind, nets
    ports = {f"a{it}": {"direction": "input", "bits": [2 + it]} for it in range(width)}
    ports["y"] = {"direction": "output", "bits": list(range(2 + width, bit))}
    return netlist({name: cell(kind.name, nets) for name, (kind, nets) in cells.items()}, **ports), [kind for kind, _ in cells.values()]


def demand_like(lines, wanted, width):
    """Demands that a listing has these changes of each bit of y, and returns how many there are."""
    found = {}
    for time, name, value in lines:
        if name.startswith("y_"):
            changes = found.setdefault(2 + width + int(name[2:]), [])
            if changes and changes[-1][0] == time and len(changes) > 1:
                changes.pop()
            if not changes or changes[-1][1] != letter(value):
                changes.append((time, letter(value)))
    demand(found and found.keys() == wanted.keys(), f"y has {len(found)} bits in place of {len(wanted)}")
    for net, right in wanted.items():
        differs = [it for it in sorted(set(found[net]) ^ set(right))]
        demand(not differs, f"y_{net - 2 - width} differs first at {differs[0] if differs else 0}")
    return sum(map(len, wanted.values()))


def is_like_reference(programs, folder, library, seed, is_joined, initial):
    """Demands that each change of each output of cells is the one of the reference."""
    chance, width = random.Random(seed), 7
    kinds = [it for it in read_cells(library) if has_paths(it)]
    given, kinds = joined(chance, [it for it in kinds if it.inputs], width) if is_joined else (instances(kinds, width)[0], kinds)
    paths, stimuli = [paths_of(chance, it) for it in kinds], stimuli_at_random(chance, width)
    end = stimuli[-1][0] + 10**7
    lines = "".join(f"{time}fs a{it} {level}\n" for time, changed in stimuli for it, level in changed.items()) + f"end {end}fs\n"
    file = put(folder, "delays.sdf", file_of(*(written(f"u{it}", *row) for it, row in enumerate(zip(kinds, paths)))))
    words = ["--sdf", file, *(["--init", initial] if initial else [])]
    listing = listing_of(programs, folder, library, given, lines, words)
    cells = [TimedCell(kind, {pin: bits[0] for pin, bits in it["connections"].items()}, in_femtoseconds(path), initial)
             for kind, path, it in zip(kinds, paths, json.loads(given)["modules"]["top"]["cells"].values())]
    inputs = [(time, {2 + it: level for it, level in changed.items()}) for time, changed in stimuli]
    wanted = Simulation(cells, set(range(2, 2 + width)), inputs).run()
    return f"{demand_like(listing, {net: it for net, it in wanted.items() if net >= 2 + width}, width)} changes"


def in_femtoseconds(paths):
    return {output: {source: tuple(it and it * 1000 for it in times) for source, times in each.items()} for output, each in paths.items()}


# ------------------------------------------------------------------------------------------- from Verilog to a listing
def commands_of(programs, begin, end):
    """Returns the commands of a part of docs/SYNTHESIS.md, with these programs, and what is written between its end and the next empty line."""
    _, _, part = read(f"{TOP}/docs/SYNTHESIS.md").decode().partition(begin)
    lines, _, rest = part.partition(end)
    commands = re.findall(r"^    (.*)$", lines, re.M)
    for name, program in zip(NAMES, programs):
        commands = [it.replace(f"./{name} ", f"{program} ") for it in commands]
    return commands, rest.partition("\n\n")[0]


def carry_out(folder, commands):
    """Carries out commands in a folder."""
    for command in commands:
        ran = subprocess.run(command, shell=True, cwd=folder, stdin=subprocess.DEVNULL, stdout=subprocess.PIPE, stderr=subprocess.STDOUT)
        demand(ran.returncode == 0, f"{command}: {ran.stdout.decode(errors='replace')[-300:]}")


def rises_of(folder):
    """Returns how often `full` rises in the listing of the glitch."""
    return len(re.findall(rb"^\d+ \d+ full 1$", read(f"{folder}/glitch.listing"), re.M))


def is_glitch_drawn(programs, folder):
    """Demands that the commands of docs/SYNTHESIS.md draw its picture of a glitch, and that there is none without delays."""
    commands, _ = commands_of(programs, "## A glitch\n", "![")
    demand(len(commands) == 3, f"{len(commands)} commands")
    for it in ("glitch.json", "glitch.lib", "glitch.sdf", "glitch.lines"):
        shutil.copy(f"{FOLDER}/{it}", folder)
    carry_out(folder, commands)
    demand(read(f"{folder}/glitch.svg") == read(f"{TOP}/docs/glitch.svg"), "docs/glitch.svg is another picture")
    with_delays = rises_of(folder)
    carry_out(folder, [it.replace("--sdf glitch.sdf ", "") for it in commands[:2]])
    demand((with_delays, rises_of(folder)) == (4, 2), f"full rises {with_delays} times, and {rises_of(folder)} without delays")


def is_chain_run(programs, folder):
    """Demands that gates with delays of a timing analyser are like their source before each edge of the clock, where that is known."""
    commands, told = commands_of(programs, "## Delays of an SDF file\n", "`uart.tcl` has the lines")
    script = re.findall(r"`((?:set |read_|link_|write_)[^`]*)`", told.replace("\n", " "))
    demand(len(commands) == 7 and len(script) == 5, f"{len(commands)} commands, {len(script)} lines")
    for name, path in {"cells.lib": OTHERS["qflow-tech-osu018"], **{it: f"{FOLDER}/designs/{it}" for it in ("uart.v", "uart_tb.v")}}.items():
        shutil.copy(path, f"{folder}/{name}")
    put(folder, "uart.tcl", "\n".join(script) + "\n")
    carry_out(folder, commands)
    source, known = Waves(read(f"{folder}/uart.vcd"), "tb.dut"), known_to(f"{folder}/uart.map")
    edges = [time for time, code, level in source.changes if code == source.variables["clk"][0] and level == "1"]
    lines = [line.split() for line in read(f"{folder}/uart.listing").decode().splitlines()]
    ours = values_before([(int(it[0]), it[2], it[3]) for it in lines if len(it) == 4], edges)
    count = 0
    for time, mine, theirs in zip(edges, ours, source.at([it - 1 for it in edges])):
        for path in known.keys() & source.variables.keys():
            code, width = source.variables[path]
            for name, level in zip(known[path], reversed(wide(theirs.get(code, "x"), width))):
                found = letter(name.strip("'")) if name.startswith("'") else mine.get(name, "x")
                demand("x" in (level, found) or found == level, f"before {time} fs: {path} is {found}, and {level} in the source")
                count += level != "x"
    return f"{count} values before {len(edges)} edges"


def tests_of(programs, folder, damaged):
    for name, *row in LISTED:
        yield name, lambda row=row: is_listed(programs, folder, *row)
    for row in REFUSED:
        yield row[3], lambda row=row: is_refused(programs[1], folder, row[0], "", [*words_of(folder, row[1]), *row[2]], row[3])
    for package, library in {"": CELLS, **OTHERS}.items():
        if not os.path.exists(library):
            print(f"{library}: skipped: apt-get install {package}")
            continue
        for seed, (is_joined, initial) in enumerate(((False, None), (False, "0"), (True, None), (True, "1"))):
            name = f"{os.path.basename(library)}, {'cells joined' if is_joined else 'each cell'}{', from ' + initial if initial else ''}"
            yield name, lambda *row, library=library, seed=seed, is_joined=is_joined, initial=initial: \
                is_like_reference(programs, folder, library, seed, is_joined, initial)
    missing = [it for it in ("iverilog", "yosys", "sta") if not shutil.which(it)]
    if missing or not os.path.exists(OTHERS["qflow-tech-osu018"]):
        print("from Verilog to a listing: skipped: apt-get install iverilog yosys opensta qflow-tech-osu018")
    else:
        yield "from Verilog to a listing", lambda: is_chain_run(programs, folder)
    yield "docs/glitch.svg", lambda: is_glitch_drawn(programs, folder)
    yield "without effect", lambda: is_noted(programs, folder)
    yield "length of the text", lambda: are_short(programs, folder)
    yield "length of the file", lambda: is_linear(programs, folder)
    yield "damaged files", lambda: are_damaged(programs, folder, damaged)


if __name__ == "__main__":
    main(__doc__, tests_of, len(NAMES))

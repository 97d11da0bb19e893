#!/usr/bin/env python3
"""Checks listings by the checks of timing of files in the standard delay format (SDF).

    timing_checks.py VSIM_CHECK [LINES]

Files of one or two checks, each with a netlist of one or two cells, its map, and a listing that were written by hand; the violations were
worked out by hand from the rules of IEEE 1364, clause 15, and IEEE 1497. Then files, maps, netlists and listings with a fault, each refused
by a sentence; what is not checked, told in one line; and a listing of LINES lines (1,000,000 if it is not given), which takes at most 10 s
for each 10,000,000 of them, and 100 MB.

What differs is told, and the last line is `N passed, M failed`.
"""
import json
import os
import subprocess
import sys
import tempfile

sys.path.insert(0, os.path.dirname(os.path.realpath(__file__)))
from netlist_texts import cell, demand, netlist, run, tally  # noqa: E402

LINES = 1_000_000
SECONDS = 10 / 10_000_000
MEGABYTES = 100

NETS = ["d", "ck", "r", "en"]
PORTS = {name: {"direction": "input", "bits": [2 + place]} for place, name in enumerate(NETS)}
PINS = {"D": [2], "CK": [3], "R": [4], "EN": [5], "Q": [6]}
ONE = netlist({"u": cell("DFF", PINS)}, **PORTS)
TWO = netlist({"u": cell("DFF", PINS), "v": cell("DFF", {**PINS, "D": [5]}), "w": cell("LATCH", PINS)}, **PORTS)
MAP = "vsim_netlist map 1 top\nend 1000000\ntop top\n" + "".join(f"var {name} 0 downto {name}\n" for name in NETS)


def file_of(*cells, head="(DIVIDER .) (TIMESCALE 1ps)"):
    return f"(DELAYFILE (SDFVERSION \"3.0\") {head}\n" + "\n".join(cells) + "\n)\n"


def of(instance, *checks, kind="DFF"):
    """Returns a cell of a file."""
    return f'(CELL (CELLTYPE "{kind}") (INSTANCE {instance}) (TIMINGCHECK {" ".join(checks)}))'


def femtoseconds(time):
    """Returns a time in picoseconds, which may have a point, in femtoseconds."""
    whole, _, part = time.partition(".")
    return int(whole) * 1000 + int(part.ljust(3, "0") or 0)


def listing(changes, first="0000", nets=NETS):
    """Returns a listing: the first values, and changes as 'TIME NET VALUE, ..' in picoseconds; a second change of one time is one delta
    cycle later."""
    lines, last, delta = [f"0 0 {name} {value}" for name, value in zip(nets, first)], None, 0
    for change in filter(None, changes.split(", ")):
        time, net, value = change.split()
        time = femtoseconds(time)
        delta = delta + 1 if time == last else int(time == 0)
        last = time
        lines.append(f"{time} {delta} {net} {value}")
    return "\n".join([*lines, f"done {len(lines)} {len(lines)}", ""])


SETUP, HOLD = "(SETUP D (posedge CK) (10))", "(HOLD D (posedge CK) (10))"
D_CK, R_CK = "D (posedge CK)", "(negedge R) (posedge CK)"
RECOVERY, REMOVAL = f"(RECOVERY {R_CK} (10))", f"(REMOVAL {R_CK} (10))"
BOTH = "(SETUPHOLD D (posedge CK) (10) (5))"
UNTIL, AFTER = "(SETUPHOLD D (posedge CK) (10) (-4))", "(SETUPHOLD D (posedge CK) (-4) (10))"
CONDITIONS = "(SETUPHOLD D (posedge CK) (10) (10) (SCOND EN) (CCOND R))"
LATE = "95 d 1, 100 ck 1"


def guarded(condition):
    return f"(SETUP D (COND {condition} (posedge CK)) (10))"


SHORT = f"100000 u SETUP 10000 5000 {D_CK}"
# what the row is about, checks of the cell u, first values of the nets, changes, and the violations
RULES = [
    ("setup met by exactly the limit", [SETUP], "0000", "90 d 1, 100 ck 1", []),
    ("setup missed by a femtosecond", [SETUP], "0000", "90.001 d 1, 100 ck 1", [f"100000 u SETUP 10000 9999 {D_CK}"]),
    ("data at the edge is no setup", [SETUP], "0000", "100 ck 1, 100 d 1", []),
    ("data before the edge, and at it", [SETUP], "0000", "95 d 1, 100 d 0, 100 ck 1", [SHORT]),
    ("the other edge of the clock", [SETUP], "0000", "50 ck 1, 95 d 1, 100 ck 0", []),
    ("the last change counts", [SETUP], "0000", "92 d 1, 97 d 0, 100 ck 1", [f"100000 u SETUP 10000 3000 {D_CK}"]),
    ("each edge of the clock", [SETUP], "0000", "95 d 1, 100 ck 1, 101 ck 0, 102 ck 1", [SHORT, f"102000 u SETUP 10000 7000 {D_CK}"]),
    ("a rise of data", ["(SETUP (posedge D) (posedge CK) (10))"], "0000", "80 d 1, 95 d 0, 100 ck 1", []),
    ("a fall of data", ["(SETUP (negedge D) (posedge CK) (10))"], "0000", "80 d 1, 95 d 0, 100 ck 1",
     ["100000 u SETUP 10000 5000 (negedge D) (posedge CK)"]),
    ("both edges of the clock", ["(SETUP D CK (10))"], "0000", "95 d 1, 100 ck 1, 195 d 0, 200 ck 0",
     ["100000 u SETUP 10000 5000 D CK", "200000 u SETUP 10000 5000 D CK"]),
    ("a limit of 0", ["(SETUP D (posedge CK) (0))", "(HOLD D (posedge CK) (0))"], "0000", "100 d 1, 100 ck 1, 101 d 0", []),
    ("hold met by exactly the limit", [HOLD], "0000", "100 ck 1, 110 d 1", []),
    ("hold missed by a femtosecond", [HOLD], "0000", "100 ck 1, 109.999 d 1", [f"109999 u HOLD 10000 9999 {D_CK}"]),
    ("data at the edge is a hold", [HOLD], "0000", "100 d 1, 100 ck 1", [f"100000 u HOLD 10000 0 {D_CK}"]),
    ("each change of data", [HOLD], "0000", "100 ck 1, 103 d 1, 106 d 0, 112 d 1", [f"103000 u HOLD 10000 3000 {D_CK}", f"106000 u HOLD 10000 6000 {D_CK}"]),
    ("setup and hold", [BOTH], "0000", "95 d 1, 100 ck 1, 104 d 0", [SHORT, f"104000 u HOLD 5000 4000 {D_CK}"]),
    ("setup and hold at the edge", [BOTH], "0000", "100 d 1, 100 ck 1", [f"100000 u HOLD 5000 0 {D_CK}"]),
    ("setup and no hold at the edge", ["(SETUPHOLD D (posedge CK) (10) (0))"], "0000", "100 d 1, 100 ck 1", []),
    ("an empty limit", ["(SETUPHOLD D (posedge CK) (10) ())"], "0000", "95 d 1, 100 ck 1, 101 d 0", [SHORT]),
    # from 90 to 96, both without their ends
    ("a negative hold", [UNTIL], "0000", "95 d 1, 97 d 0, 100 ck 1, 101 d 1", [SHORT]),
    ("a negative hold, by a femtosecond", [UNTIL], "0000", "95.999 d 1, 100 ck 1", [f"100000 u SETUP 10000 4001 {D_CK}"]),
    ("a negative hold, at its end", [UNTIL], "0000", "96 d 1, 100 ck 1", []),
    ("a negative hold, at its beginning", [UNTIL], "0000", "90 d 1, 100 ck 1", []),
    ("a negative hold, many changes", [UNTIL], "0000", "91 d 1, 93 d 0, 95 d 1, 97 d 0, 99 d 1, 100 ck 1", [SHORT]),
    # from 104, which belongs to it, to 110
    ("a negative setup", [AFTER], "0000", "95 d 1, 100 ck 1, 103 d 0, 107 d 1", [f"107000 u HOLD 10000 7000 {D_CK}"]),
    ("a negative setup, at its beginning", [AFTER], "0000", "100 ck 1, 104 d 1", [f"104000 u HOLD 10000 4000 {D_CK}"]),
    ("a negative setup, before and at its end", [AFTER], "0000", "100 ck 1, 103.999 d 1, 110 d 0", []),
    ("recovery met by exactly the limit", [RECOVERY], "0010", "90 r 0, 100 ck 1", []),
    ("recovery missed by a femtosecond", [RECOVERY], "0010", "90.001 r 0, 100 ck 1", [f"100000 u RECOVERY 10000 9999 {R_CK}"]),
    ("recovery at the edge", [RECOVERY], "0010", "100 r 0, 100 ck 1", [f"100000 u RECOVERY 10000 0 {R_CK}"]),
    ("recovery, the beginning of the control", [RECOVERY], "0000", "95 r 1, 100 ck 1", []),
    ("removal met by exactly the limit", [REMOVAL], "0010", "100 ck 1, 110 r 0", []),
    ("removal missed by a femtosecond", [REMOVAL], "0010", "100 ck 1, 109.999 r 0", [f"109999 u REMOVAL 10000 9999 {R_CK}"]),
    ("removal at the edge", [REMOVAL], "0010", "100 ck 1, 100 r 0", []),
    ("recovery and removal", [f"(RECREM {R_CK} (10) (5))"], "0010", "50 ck 1, 54 r 0, 56 ck 0, 60 ck 1",
     [f"54000 u REMOVAL 5000 4000 {R_CK}", f"60000 u RECOVERY 10000 6000 {R_CK}"]),
    # the clock has to be within 4 ps after the control's end, or 10 ps and more
    ("a negative removal", [f"(RECREM {R_CK} (10) (-4))"], "0010", "100 r 0, 103 ck 1, 104 ck 0, 105 ck 1", [f"105000 u RECOVERY 10000 5000 {R_CK}"]),
    ("high pulses", ["(WIDTH (posedge CK) (10))"], "0000", "100 ck 1, 110 ck 0, 115 ck 1, 124.999 ck 0",
     ["124999 u WIDTH 10000 9999 (posedge CK)"]),
    ("low pulses", ["(WIDTH (negedge CK) (10))"], "0000", "100 ck 1, 105 ck 0, 110 ck 1", ["110000 u WIDTH 10000 5000 (negedge CK)"]),
    ("pulses of both kinds", ["(WIDTH CK (10))"], "0000", "100 ck 1, 105 ck 0, 111 ck 1", ["105000 u WIDTH 10000 5000 CK", "111000 u WIDTH 10000 6000 CK"]),
    ("a pulse under a condition", ["(WIDTH (COND EN (posedge CK)) (10))"], "0000", "100 ck 1, 105 ck 0, 150 en 1, 200 ck 1, 204 ck 0",
     ["204000 u WIDTH 10000 4000 (posedge CK)"]),
    ("a condition that is false", [guarded("EN")], "0000", LATE, []),
    ("a condition that is true", [guarded("EN")], "0001", LATE, [SHORT]),
    ("a condition that is true at the edge", [guarded("EN")], "0000", "95 d 1, 100 ck 1, 100 en 1", [SHORT]),
    ("a condition of data, when it changes", ["(SETUP (COND EN D) (posedge CK) (10))"], "0001", "95 d 1, 97 en 0, 98 d 0, 100 ck 1", [SHORT]),
    ("a negation", [guarded("~EN")], "0000", LATE, [SHORT]),
    ("a name, parentheses and two pins", [guarded('"free" (EN && !(R))')], "0001", LATE, [SHORT]),
    ("two pins, one of which is false", [guarded("(EN && !R)")], "0011", LATE, []),
    ("an unknown condition", [guarded("EN")], "000X", LATE, []),
    ("a negation of an unknown value", [guarded("~EN")], "000X", LATE, []),
    ("an unknown value equal to 1", [guarded("EN==1'b1")], "000X", LATE, [SHORT]),
    ("an unknown value not equal to 1", [guarded("(EN != 1'b1)")], "000X", LATE, [SHORT]),
    ("an unknown value the same as 1", [guarded("EN===1'b1")], "000X", LATE, []),
    ("a value the same as 1", [guarded("EN === 1'b1")], "0001", LATE, [SHORT]),
    ("a value not the same as 1", [guarded("EN!==1'b1")], "0001", LATE, []),
    ("conditions of the first and the second event", [CONDITIONS], "0011", "95 d 1, 100 ck 1, 105 d 0", [SHORT, f"105000 u HOLD 10000 5000 {D_CK}"]),
    ("a condition of the first event", [CONDITIONS], "0010", "95 d 1, 97 en 1, 100 ck 1, 102 en 0, 105 d 0", [f"105000 u HOLD 10000 5000 {D_CK}"]),
    ("a condition of the second event", [CONDITIONS], "0011", "95 d 1, 100 ck 1, 102 r 0, 105 d 0", [SHORT]),
    ("unknown data", [SETUP], "0000", "95 d X, 100 ck 1", [SHORT]),
    ("data from and to unknown values rise twice", ["(SETUP (posedge D) (posedge CK) (10))"], "0000", "80 d X, 95 d 1, 100 ck 1",
     ["100000 u SETUP 10000 5000 (posedge D) (posedge CK)"]),
    ("an unknown clock rises twice", [SETUP], "0000", "95 d 1, 100 ck X, 103 ck 1", [SHORT, f"103000 u SETUP 10000 8000 {D_CK}"]),
    ("from unknown to 0 is a fall", [SETUP], "0X00", "95 d 1, 100 ck 0", []),
    ("the shortest of unknown pulses", ["(WIDTH (posedge CK) (10))"], "0000", "100 ck X, 105 ck 1, 112 ck X, 120 ck 0",
     ["112000 u WIDTH 10000 7000 (posedge CK)"]),
    ("high impedance is as unknown", [SETUP], "X000", "95 d Z, 100 ck 1", []),
    ("weak values", [SETUP, HOLD], "0000", "95 d L, 100 ck H, 105 d H", [f"105000 u HOLD 10000 5000 {D_CK}"]),
    ("a change that is taken back at its time", [SETUP], "0000", "95 d 1, 95 d 0, 100 ck 1", []),
    ("time 0 has no event", [HOLD], "XXXX", "0 ck 1, 0 d 0, 5 d 1", []),
    ("the order at one time is that of the file", [HOLD, "(WIDTH (negedge CK) (30))", "(SETUP D (posedge CK) (40))"], "0100",
     "80 ck 0, 95 d 1, 100 d 0, 100 ck 1",
     [f"100000 u HOLD 10000 0 {D_CK}", "100000 u WIDTH 30000 20000 (negedge CK)", f"100000 u SETUP 40000 5000 {D_CK}"]),
]

SLASH = file_of(of("p/u", SETUP), head="(DIVIDER /) (TIMESCALE 1ps)")
TRIPLE = file_of(of("u", "(SETUP D (posedge CK) (4:6:8))"))
WIDE = json.dumps({"creator": "Yosys 0.23", "modules": {"top": {"attributes": {}, "ports": PORTS, "cells": {"u": cell("DFF", PINS)}, "netnames": {
    "bus": {"hide_name": 0, "bits": [9, 2], "attributes": {}}, "ck": {"hide_name": 0, "bits": [3], "attributes": {}}}}}})
WIDE_MAP = "vsim_netlist map 1 top\nend 1000000\ntop top\nvar bus 0 downto r d\nvar ck 0 downto ck\n"
WIRED = file_of("(CELL (CELLTYPE \"top\") (INSTANCE) (DELAY (ABSOLUTE {})))", of("u", "(SETUP D (posedge CK) (20))"))
TIED = netlist({"u": cell("DFF", {**PINS, "D": ["1"]})}, **PORTS)
# what the row is about, a netlist, a map, a file, words, changes, the number of checks, and the violations
FILES = [
    ("a hierarchy by a divider", netlist({"p.u": cell("DFF", PINS)}, **PORTS), MAP, SLASH, [], LATE, 1, [f"100000 p.u SETUP 10000 5000 {D_CK}"]),
    ("an escaped name", netlist({"$abc$1.u[3]": cell("DFF", PINS)}, **PORTS), MAP, file_of(of("\\$abc\\$1\\.u\\[3\\]", SETUP)), [], LATE, 1,
     [f"100000 $abc$1.u[3] SETUP 10000 5000 {D_CK}"]),
    ("an escaped pin", netlist({"u": cell("DFF", {"CK": [3], "D[0]": [2]})}, **PORTS), MAP, file_of(of("u", "(SETUP D\\[0\\] (posedge CK) (10))")), [], LATE, 1,
     ["100000 u SETUP 10000 5000 D[0] (posedge CK)"]),
    ("all cells of a kind", TWO, MAP, file_of(of("*", SETUP)), [], "93 en 1, 95 d 1, 100 ck 1", 2, [SHORT, f"100000 v SETUP 10000 7000 {D_CK}"]),
    ("two cells", TWO, MAP, file_of(of("v", SETUP), of("w", HOLD, kind="LATCH")), [], "93 en 1, 100 ck 1, 101 d 1", 2,
     [f"100000 v SETUP 10000 7000 {D_CK}", f"101000 w HOLD 10000 1000 {D_CK}"]),
    ("the typical value", ONE, MAP, TRIPLE, [], LATE, 1, [f"100000 u SETUP 6000 5000 {D_CK}"]),
    ("the minimum value", ONE, MAP, TRIPLE, ["--corner", "min"], LATE, 1, []),
    ("the maximum value", ONE, MAP, TRIPLE, ["--corner", "max"], LATE, 1, [f"100000 u SETUP 8000 5000 {D_CK}"]),
    ("a time scale", ONE, MAP, file_of(of("u", "(SETUP D (posedge CK) (0.1))"), head="(TIMESCALE 100ps)"), [], LATE, 1, [SHORT]),
    ("a bit of a vector", WIDE, WIDE_MAP, file_of(of("u", SETUP)), [], "95 d 1, 97 r 1, 100 ck 1", 1, [SHORT]),
    ("a constant at a pin", TIED, MAP, file_of(of("u", SETUP)), [], LATE, 1, []),
    ("a constant in the map", ONE, MAP.replace("downto d\n", "downto '0'\n"), file_of(of("u", SETUP)), [], LATE, 1, []),
    ("what nothing drives", ONE, MAP.replace("downto d\n", "downto -\n"), file_of(of("u", SETUP)), [], LATE, 1, []),
    ("from a time on", ONE, MAP, file_of(of("u", SETUP)), ["--from", "150ps"], "95 d 1, 100 ck 1, 145 d 0, 150 ck 0, 155 ck 1, 197 d 1, 200 ck 0, 202 ck 1", 1,
     [f"202000 u SETUP 10000 5000 {D_CK}"]),
    # the data arrive 3 ps later, the clock 8 ps
    ("wires", ONE, MAP, WIRED.format("(INTERCONNECT d u.D (3)) (INTERCONNECT ck u.CK (8))"), [], "95 d 1, 100 ck 1", 1,
     [f"108000 u SETUP 20000 10000 {D_CK}"]),
    ("a wire of which the rise is slow", ONE, MAP, WIRED.format("(PORT u.D (9) (3))"), [], "80 d 1, 95 d 0, 100 ck 1, 200 ck 0, 290 d 1, 300 ck 1", 1,
     [f"100000 u SETUP 20000 2000 {D_CK}", f"300000 u SETUP 20000 1000 {D_CK}"]),
    ("a pulse that is shorter than a wire's delay", ONE, MAP, WIRED.format("(PORT u.D (9))"), [], "60 d 1, 85 d 0, 90 d 1, 100 ck 1", 1, []),
    ("data that arrive at the time of the clock", ONE, MAP, WIRED.format("(PORT u.D (5))"), [], "95 d 1, 100 ck 1", 1, []),
    ("first values take no time in wires", ONE, MAP, WIRED.format("(PORT u.D (95))"), [], "0 d 1, 100 ck 1", 1, []),
    ("delays beside checks", ONE, MAP, file_of('(CELL (CELLTYPE "DFF") (INSTANCE u) (DELAY (ABSOLUTE (IOPATH CK Q (1)))) (TIMINGCHECK ' + SETUP + "))"), [],
     LATE, 1, [SHORT]),
    ("a net of the listing that no check has", ONE, MAP, file_of(of("u", "(WIDTH (posedge CK) (7))")), [], "95 d 1, 100 ck 1, 106 ck 0", 1,
     ["106000 u WIDTH 7000 6000 (posedge CK)"]),
]


def put(folder, name, text):
    path = f"{folder}/{name}"
    with open(path, "w", encoding="utf-8") as file:
        file.write(text)
    return path


def words_of(folder, given, known, text):
    return ["--sdf", put(folder, "checks.sdf", text), "--netlist", put(folder, "netlist.json", given), "--map", put(folder, "netlist.map", known)]


def output_of(violations, count):
    """Returns what is written for these violations of so many checks."""
    keywords = [line.split()[2] for line in violations]
    told = [f"{it} {keywords.count(it)}" for it in ("SETUP", "HOLD", "RECOVERY", "REMOVAL", "WIDTH") if it in keywords]
    return "\n".join([*violations, f"checks {count}, violations {len(violations)}{': ' * bool(told)}{', '.join(told)}", ""])


def is_found(program, folder, given, known, text, words, lines, count, violations):
    """Demands that a listing has these violations."""
    status, out, said = run([program, *words_of(folder, given, known, text), *words], lines.encode())
    wanted = output_of(violations, count)
    demand((status, out.decode(), said) == (int(bool(violations)), wanted, ""), f"status {status}: {out.decode()}{said}in place of {wanted}")


GOOD = file_of(of("u", SETUP))
HIDDEN = json.dumps({"creator": "Yosys 0.23", "modules": {"top": {"attributes": {}, "ports": PORTS, "cells": {"u": cell("DFF", PINS)}, "netnames": {
    "$1": {"hide_name": 1, "bits": [2], "attributes": {}}, "ck": {"hide_name": 0, "bits": [3], "attributes": {}}}}}})


def given(text=GOOD, design=ONE, known=MAP, lines=listing(LATE), words=()):
    return text, design, known, lines, words


def check_of(check):
    return given(file_of(of("u", check)))


# what is given, and what is told
REFUSED = [
    (check_of("(SETUP D (posedge CK) (0.183::0.183))"), "the SDF file: 2: (0.183::0.183) has no typical value: use --corner min or max"),
    (check_of("(SETUP D (posedge CK) (1x))"), "the SDF file: 2: (1x) is no value"),
    (check_of("(SETUP D (posedge CK) 1)"), "the SDF file: 2: '1' stands where a limit is wanted"),
    (check_of("(SETUP D (posedge CK))"), "the SDF file: 2: ')' stands where a limit is wanted"),
    (check_of("(SETUP D (01 CK) (1))"), "the SDF file: 2: an edge other than posedge and negedge is not supported"),
    (check_of("(SETUP D (COND EN && (posedge CK)) (1))"), "the SDF file: 2: the condition 'EN &&': an operand is missing"),
    (check_of("(SETUP D (COND {A,B} (posedge CK)) (1))"), "the SDF file: 2: the condition '{A,B}'"),
    (check_of("(SETUP D (COND EN) (1))"), "the SDF file: 2: the condition '': an operand is missing"),
    (check_of("(SETUP D (posedge CK) (1) (WHEN EN))"), "the SDF file: 2: 'WHEN' is not supported here"),
    (check_of("(SETUPHOLD D (posedge CK) (4) (-4))"), "the SDF file: 2: SETUPHOLD has a negative limit, and their sum is not above 0"),
    (check_of("(RECREM R (posedge CK) (-5) (4))"), "the SDF file: 2: RECREM has a negative limit, and their sum is not above 0"),
    (check_of("(SET D (posedge CK) (1))"), "the SDF file: 2: 'SET' is not supported here"),
    (check_of("(SETUP X (posedge CK) (1))"), "the SDF file: 2: instance u, pin X: the netlist's cell has no such pin"),
    (check_of("(SETUP D (COND X (posedge CK)) (1))"), "the SDF file: 2: instance u, pin X: the netlist's cell has no such pin"),
    (check_of("(PERIOD CK (1))"), "the SDF file: it has nothing to check"),
    (given("(DELAYFILE"), "the SDF file: 1: the file ends, where a parenthesis is wanted"),
    (given(file_of('(CELL (CELLTYPE "DFF") (TIMINGCHECK ' + SETUP + "))")), "the SDF file: 2: a check stands before the INSTANCE of its cell"),
    (given(file_of(of("u", SETUP), of("u7", SETUP))),
     "the SDF file: 3: instance u7: the netlist has no such cell: after rename -enumerate, write_json and write_verilog give the same names"),
    (given(file_of(of("", SETUP))), "the SDF file: 2: a check of the design itself is not supported"),
    (given(file_of(of("u", SETUP, kind="DFFR"))), "the SDF file: 2: instance u: its CELLTYPE is \"DFFR\", and the netlist's cell is of kind DFF"),
    (given(design=netlist({"u": cell("DFF", {**PINS, "D": [2, 5]})}, **PORTS)), "the SDF file: 2: instance u, pin D: it is not of one bit"),
    (given(design=HIDDEN), "the SDF file: 2: instance u, pin D: the map has no name of its net: rename -enumerate before write_json"),
    (given(design="{"), "the netlist: no netlist that Yosys' write_json writes: "),
    (given(known=MAP.replace("top top", "top other")), "the netlist: there is no module other"),
    (given(known="vsim"), "the map: 1: it is no map of vsim_netlist"),
    (given(known=MAP + "x\n"), "the map: 8: it is no line of a map"),
    (given(lines=""), "the listing: 0: the last line, as 'done 3 3', is missing: the run was cut short"),
    (given(lines=listing(LATE).partition("done")[0]), "the listing: 6: the last line, as 'done 3 3', is missing: the run was cut short"),
    (given(lines=listing(LATE) + "1 0 d 1\n"), "the listing: 8: this is not a line of a listing, or not in its place"),
    (given(lines=listing(LATE).replace("95000 0 d 1", "95000 d 1")), "the listing: 5: this is not a line of a listing, or not in its place"),
    (given(lines=listing("100 ck 1, 95 d 1")), "the listing: 6: this is not a line of a listing, or not in its place"),
    (given(lines=listing(LATE).replace("0 0 r 0", "0 0 d 0")), "the listing: 3: this is not a line of a listing, or not in its place"),
    (given(lines=listing(LATE).replace("0 0 d 0\n", "")), "the listing: it lacks a signal that the map names: d"),
    (given(words=["--corner", "best"]), "--corner: 'best' is none of min, typ and max"),
    (given(words=["--from", "soon"]), "--from: 'soon' is no time, as 100ns is"),
]


def is_refused(program, folder, row, told):
    """Demands that an input is refused by a sentence."""
    text, design, known, lines, words = row
    status, out, said = run([program, *words_of(folder, design, known, text), *words], lines.encode())
    demand(status == 2 and said.startswith(f"vsim_check: {told}") and said.count("\n") == 1, f"status {status}: {out.decode()}{said}")


def is_noted(program, folder):
    """Demands that what is not checked is told in one line, and negative limits in another."""
    others = ["(PERIOD (posedge CK) (1))", "(SKEW (posedge CK) (posedge R) (1))", "(NOCHANGE (posedge CK) D (1) (1))", "(PERIOD CK (1))"]
    text = file_of(of("u", SETUP, *others, "(HOLD D (posedge CK) (-3))"))
    status, out, said = run([program, *words_of(folder, ONE, MAP, text)], listing("99 ck 1, 100 d 1").encode())
    wanted = ("vsim_check: the SDF file: not checked: PERIOD 2, SKEW 1, NOCHANGE 1\n"
              "vsim_check: the SDF file: negative limits, which count as 0: 1\n")
    demand((status, out.decode(), said) == (0, output_of([], 2), wanted), f"status {status}: {out.decode()}{said}")


def are_words(program):
    """Demands that the command line is answered."""
    for words, wanted, told in (["--help"], 0, "Usage: "), (["--version"], 0, "vsim_check 1"), (["--sdf"], 2, ""), (["x"], 2, ""):
        status, out, said = run([program, *words])
        demand(status == wanted and told in out.decode() and bool(said) == (wanted == 2), f"{words}: status {status}: {out.decode()}{said}")
    for option in ("--sdf", "--netlist", "--map"):
        words = [it for other in ("--sdf", "--netlist", "--map") if other != option for it in (other, "/dev/null")]
        status, _, said = run([program, *words])
        demand(status == 2 and said, f"{option} is missing: status {status}: {said}")


REGISTERS = 1000


def write_long(file, lines):
    """Writes a listing of so many lines or a few more, in which each register violates its setup at each tenth rise of the clock. Returns
    the number of rises."""
    nets = ["ck", *(f"d{it}" for it in range(REGISTERS))]
    file.write("".join(f"0 0 {it} 0\n" for it in nets).encode())
    cycle = 0
    for cycle in range(1, 2 + (lines - REGISTERS) // (REGISTERS + 2)):
        time = 1_000_000 * cycle
        at, value = time - (5_000 if cycle % 10 == 1 else 50_000), cycle % 2
        changes = "".join(f"{at} 0 {it} {value}\n" for it in nets[1:])
        file.write(f"{time - 500_000} 0 ck 0\n{changes}{time} 0 ck 1\n".encode())
    file.write(b"done 1 1\n")
    return cycle


def is_fast(program, folder, lines):
    """Demands that a long listing is checked in time and memory."""
    ports = {"ck": {"direction": "input", "bits": [2]}, **{f"d{it}": {"direction": "input", "bits": [3 + it]} for it in range(REGISTERS)}}
    cells = {f"u{it}": cell("DFF", {"CK": [2], "D": [3 + it]}) for it in range(REGISTERS)}
    known = "vsim_netlist map 1 top\nend 0\ntop top\n" + "".join(f"var {it} 0 downto {it}\n" for it in ports)
    checks = [f"({name} ({edge} D) (posedge CK) ({limit}))" for name, limit in (("SETUP", 10), ("HOLD", 4)) for edge in ("posedge", "negedge")]
    words = words_of(folder, netlist(cells, **ports), known, file_of(of("*", *checks, "(WIDTH CK (100))")))
    with open(f"{folder}/out", "wb") as out, subprocess.Popen([program, *words], stdin=subprocess.PIPE, stdout=out) as process:
        rises = write_long(process.stdin, lines)
        process.stdin.close()
        _, status, used = os.wait4(process.pid, 0)
        process.returncode = os.waitstatus_to_exitcode(status)
    with open(f"{folder}/out", encoding="utf-8") as file:
        *violations, last = file.read().splitlines()
    count = (rises + 9) // 10 * REGISTERS
    wanted = f"checks {REGISTERS * 5}, violations {count}: SETUP {count}"
    demand((process.returncode, len(violations), last) == (1, count, wanted), f"status {process.returncode}: {len(violations)} lines, {last}")
    seconds, megabytes = used.ru_utime + used.ru_stime, used.ru_maxrss / 1000
    demand(seconds < 0.5 + SECONDS * lines and megabytes < MEGABYTES, f"{seconds:.2f} s, {megabytes:.0f} MB")
    return f"{lines} lines, {count} violations: {seconds:.2f} s, {megabytes:.0f} MB"


def tests_of(program, folder, lines):
    for name, checks, first, changes, violations in RULES:
        row = ONE, MAP, file_of(of("u", *checks)), [], listing(changes, first), len(checks), violations
        yield name, lambda row=row: is_found(program, folder, *row)
    for name, design, known, text, words, changes, count, violations in FILES:
        row = design, known, text, words, listing(changes), count, violations
        yield name, lambda row=row: is_found(program, folder, *row)
    for row, told in REFUSED:
        yield told, lambda row=row, told=told: is_refused(program, folder, row, told)
    yield "what is not checked", lambda: is_noted(program, folder)
    yield "the command line", lambda: are_words(program)
    yield "a long listing", lambda: is_fast(program, folder, lines)


def main():
    if len(sys.argv) not in (2, 3):
        sys.exit(__doc__)
    program, lines = os.path.abspath(sys.argv[1]), int(sys.argv[2]) if len(sys.argv) == 3 else LINES
    with tempfile.TemporaryDirectory() as folder:
        sys.exit(tally(tests_of(program, folder, lines)) != 0)


if __name__ == "__main__":
    main()

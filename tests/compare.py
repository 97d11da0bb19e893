#!/usr/bin/env python3
"""Tries vsim_compare on inputs whose differences were worked out by hand.

    compare.py VSIM VSIM_COMPARE VSIM_WAVES

A row of CASES has two inputs, the words of the command line, the status and what is written on standard output; a row of REFUSED what is
said on standard error. Each comparison is also made with its sides exchanged, where its words allow that: then the values of the first
difference are exchanged, and all else stays. Each listing of waves.py is the same as itself, and as the VCD that VSIM_WAVES makes of it.
With many changes the answer is that of a comparison by this script, at each moment. What differs is told, and the last line is
`N passed, M failed`.
"""
import os
import random
import re
import sys
import tempfile

from netlist_texts import demand, run, tally
from waves import listings

# the net q of B is late by a delta cycle at 5, and another from 9 on; r is alike
ONE = "0 0 q U\n0 0 r 0\n0 1 q 0\n5 0 q 1\n7 0 r 1\n9 0 q 0\ndone 4 4\n"
LATE = "0 0 q U\n0 0 r 0\n0 1 q 0\n5 1 q 1\n7 0 r 1\n9 0 q X\ndone 4 4\n"
# q is 1 at 5 for a delta cycle
GLITCH = "0 0 q 0\n0 0 r 0\n5 0 q 1\n5 1 q 0\n6 0 r 1\ndone 3 3\n"
QUIET = "0 0 q 0\n0 0 r 0\n6 0 r 1\ndone 1 1\n"
# a clock with rising edges at 10 and 30, and falling ones at 20 and 40; d changes at an edge, and q after it
CLOCKED = "0 0 clk 0\n0 0 d 0\n0 0 q U\n10 0 clk 1\n10 1 q 0\n20 0 clk 0\n20 0 d 1\n30 0 clk 1\n30 1 q 1\n40 0 clk 0\ndone 6 7\n"
# the same by gates: q is late by 5 each time, and unknown in between
GATES = "0 0 clk 0\n0 0 d 0\n0 0 q U\n10 0 clk 1\n15 0 q 0\n20 0 clk 0\n20 0 d 1\n30 0 clk 1\n31 0 q X\n35 0 q 1\n40 0 clk 0\ndone 8 8\n"
# q does not follow at 30
STUCK = "0 0 clk 0\n0 0 d 0\n0 0 q U\n10 0 clk 1\n15 0 q 0\n20 0 clk 0\n20 0 d 1\n30 0 clk 1\n40 0 clk 0\ndone 6 6\n"
HEAD = "$timescale 1 {} $end\n$scope module tb $end\n$var reg 1 ! q $end\n$scope module dut $end\n$var wire 1 ! q $end\n$var wire 1 \" r $end\n" \
    "$upscope $end\n$upscope $end\n$enddefinitions $end\n"
# ONE, with the values of a VCD
VCD = HEAD.format("fs") + "#0\n$dumpvars\n0!\n0\"\n$end\n#5\n1!\n#7\n1\"\n#9\n0!\n#12\n"
# its last change is another, and there is a comment
OTHER_VCD = HEAD.format("fs") + "$comment none $end\n#0\n0! 0\"\n#5 1! #7 1\"\n#9\nx!\n"
IN_PICOSECONDS = "0 0 q 0\n0 0 r 0\n5000 0 q 1\n7000 0 r 1\n9000 0 q 0\ndone 3 3\n"
# v is 10, then 01, then xx; a bit of w is always 1, and one is made by nothing
MAP = "vsim_netlist map 1 m\nend 9\ntop m\nvar v 0 downto a b\nvar w 0 downto a '1' -\n"
BITS = "0 0 a 0\n0 0 b H\n5 0 a 1\n5 1 b L\n9 0 a U\n9 0 b W\ndone 3 4\n"
VECTOR = "$timescale 1fs $end\n$scope module m $end\n$var wire 2 ! v [1:0] $end\n$var wire 3 w0 w [2:0] $end\n$var real 64 r r $end\n$upscope $end\n" \
    "$enddefinitions $end\n#0\nb10 !\nbz10 w0\nr1.5 r\n#5\nb1 !\nbz11 w0\n#9\nbx !\nb1x w0\n"

# the two inputs, the words before them, the status, and what is told
CASES = [
    (ONE, ONE, "", 0, "0 of 2 nets differ, in 0 of 6 changes\n"),
    # at 5 delta cycle 0 q is 1 here and 0 there; in the next they agree; at 9 they differ again
    (ONE, LATE, "", 1, "5 q 1 0\n1 of 2 nets differ, in 2 of 7 changes\n"),
    (ONE, LATE, "--settled", 1, "9 q 0 X\n1 of 2 nets differ, in 1 of 5 changes\n"),
    (ONE, LATE, "--settled --ignore-unknown B", 0, "0 of 2 nets differ, in 0 of 5 changes\n"),
    (ONE, LATE, "--settled --ignore-unknown=both", 0, "0 of 2 nets differ, in 0 of 5 changes\n"),
    (ONE, LATE, "--settled --ignore-unknown A", 1, "9 q 0 X\n1 of 2 nets differ, in 1 of 5 changes\n"),
    (ONE, LATE, "--nets r", 0, "0 of 1 nets differ, in 0 of 2 changes\n"),
    (ONE, LATE, "--nets r,q*", 1, "5 q 1 0\n1 of 2 nets differ, in 2 of 7 changes\n"),
    # from 6 on the values at 6 are compared, and then what changes
    (ONE, LATE, "--from 6", 1, "9 q 0 X\n1 of 2 nets differ, in 1 of 4 changes\n"),
    (ONE, LATE, "--from 9", 1, "9 q 0 X\n1 of 2 nets differ, in 1 of 2 changes\n"),
    (ONE, LATE, "--from 10ps", 1, "10000 q 0 X\n1 of 2 nets differ, in 1 of 2 changes\n"),
    (GLITCH, QUIET, "", 1, "5 q 1 0\n1 of 2 nets differ, in 1 of 5 changes\n"),
    (QUIET, GLITCH, "", 1, "5 q 0 1\n1 of 2 nets differ, in 1 of 5 changes\n"),
    (GLITCH, QUIET, "--settled", 0, "0 of 2 nets differ, in 0 of 4 changes\n"),
    # a net that one side alone has, with its own width
    ("0 0 q 0\n0 0 s 1\ndone 0 0\n", "0 0 q 0\ndone 0 0\n", "", 1, "0 of 1 nets differ, in 0 of 1 changes\nonly in A, 1: s\n"),
    ("0 0 q 0\n0 0 s 1\ndone 0 0\n", "0 0 q 0\ndone 0 0\n", "--nets q", 0, "0 of 1 nets differ, in 0 of 1 changes\n"),
    ("0 0 q 0\ndone 0 0\n", "0 0 a 1\n0 0 b 1\n0 0 c 1\n0 0 d 1\n0 0 e 1\n0 0 f 1\n0 0 q 0\ndone 0 0\n", "", 1,
     "0 of 1 nets differ, in 0 of 1 changes\nonly in B, 6: a b c d e ..\n"),
    # a delta cycle that is not the first of its time
    ("0 0 q 0\n5 2 q 1\ndone 1 1\n", "0 0 q 0\ndone 0 0\n", "", 1, "5 q 1 0\n1 of 1 nets differ, in 1 of 2 changes, first in delta cycle 2\n"),
    # two nets differ at once: the first by its place in A
    ("0 0 p 0\n0 0 q 0\n5 0 q 1\n5 0 p 1\ndone 1 2\n", "0 0 p 0\n0 0 q 0\ndone 0 0\n", "", 1, "5 p 1 0\n2 of 2 nets differ, in 2 of 4 changes\n"),
    # before each edge q is as it was left
    (CLOCKED, GATES, "--at-edges clk rising", 0, "0 of 3 nets differ, in 0 of 6 changes, before 2 edges\n"),
    (CLOCKED, GATES, "--at-edges clk", 0, "0 of 3 nets differ, in 0 of 9 changes, before 4 edges\n"),
    (CLOCKED, STUCK, "--at-edges clk", 1, "40 q 1 0\n1 of 3 nets differ, in 1 of 9 changes, before 4 edges\n"),
    (CLOCKED, STUCK, "--at-edges clk falling", 1, "40 q 1 0\n1 of 3 nets differ, in 1 of 6 changes, before 2 edges\n"),
    (CLOCKED, STUCK, "--at-edges clk rising", 0, "0 of 3 nets differ, in 0 of 6 changes, before 2 edges\n"),
    (CLOCKED, STUCK, "--at-edges=clk rising --from 20", 0, "0 of 3 nets differ, in 0 of 3 changes, before 1 edge\n"),
    # the clock need not be among the nets
    (CLOCKED, STUCK, "--nets q --at-edges clk", 1, "40 q 1 0\n1 of 1 nets differ, in 1 of 3 changes, before 4 edges\n"),
    # a VCD: only 0, 1, X and Z count, and the last values of a time
    (ONE, VCD, "", 0, "0 of 2 nets differ, in 0 of 5 changes\n"),
    (LATE, VCD, "", 1, "9 q X 0\n1 of 2 nets differ, in 1 of 5 changes\n"),
    (LATE, OTHER_VCD, "", 0, "0 of 2 nets differ, in 0 of 5 changes\n"),
    (ONE, OTHER_VCD, "--scope tb.dut", 1, "9 q 0 X\n1 of 2 nets differ, in 1 of 5 changes\n"),
    (ONE, OTHER_VCD, "--scope tb --nets q", 1, "9 q 0 X\n1 of 1 nets differ, in 1 of 3 changes\n"),
    (ONE, OTHER_VCD, "--scope tb", 1, "9 q 0 X\n1 of 1 nets differ, in 1 of 3 changes\nonly in A, 1: r\nonly in B, 2: dut.q dut.r\n"),
    (IN_PICOSECONDS, HEAD.format("ps") + VCD.partition("$enddefinitions $end\n")[2], "", 0, "0 of 2 nets differ, in 0 of 5 changes\n"),
    # by a map
    (BITS, VECTOR, "--map MAP", 0, "0 of 2 nets differ, in 0 of 6 changes\n"),
    (BITS.replace("5 1 b L\n", ""), VECTOR, "--map MAP", 1, "5 v 11 01\n1 of 2 nets differ, in 1 of 6 changes\n"),
    (BITS.replace("9 0 a U", "9 0 a 0"), VECTOR, "--map MAP", 1, "9 v X0 XX\n2 of 2 nets differ, in 2 of 6 changes\n"),
    (BITS.replace("9 0 a U", "9 0 a 0"), VECTOR, "--map MAP --ignore-unknown B", 0, "0 of 2 nets differ, in 0 of 6 changes\n"),
]
# the two inputs, the words before them, the status, and the end of what is said
REFUSED = [
    (ONE[: ONE.index("done")], ONE, "", 3, "A: line 6: the last line, as 'done 3 3', is missing: the run was cut short"),
    (ONE, LATE[: LATE.index("done")], "", 3, "B: line 6: the last line, as 'done 3 3', is missing: the run was cut short"),
    ("", ONE, "", 3, "A: the last line, as 'done 3 3', is missing: the run was cut short"),
    *((ONE, text, "", 3, f"B: line {line}: this is not a line of a listing, or not in its place") for text, line in (
        ("entity t is end;\n", 1),
        (ONE + "10 0 q 1\n", 8),
        (ONE.replace("5 0 q 1", "5 0 s 1"), 4),
        (ONE.replace("7 0 r 1", "4 0 r 1"), 5),
        (ONE.replace("7 0 r 1", "7 0 r u"), 5),
        (ONE.replace("0 0 r 0", "0 0 r..s 0"), 2),
        (ONE.replace("0 0 r 0", "0 0 q 0"), 2),
    )),
    (ONE, "0 0 s 0\ndone 0 0\n", "", 3, "nothing to compare: no net of those asked for is in both"),
    (ONE, ONE, "--nets p*", 3, "nothing to compare: no net of those asked for is in both"),
    (ONE, ONE, "--at-edges clk", 3, "clk: A has no such net of one bit"),
    (CLOCKED, CLOCKED, "--at-edges clk --from 50", 3, "nothing to compare: the clock has no such edge"),
    (ONE, VCD.replace("#7", "#4"), "", 3, "B: line 17: the times fall"),
    (ONE, VCD.replace("1!", "2!"), "", 3, "B: line 16: this is no value of a variable"),
    (ONE, VCD.replace("1!", "1%"), "", 3, "B: line 16: this is no value of a variable"),
    (ONE, "$timescale 1 fs $end\n", "", 3, "B: line 2: the definitions have no end"),
    (BITS, VECTOR, "--map NONE", 4, ""),
    (BITS, VECTOR, "--map A", 3, "A: line 1: it is no map of vsim_netlist"),
    (ONE, VECTOR, "--map MAP", 3, "A: it lacks a signal that the map names"),
    (ONE, ONE, "--from soon", 2, "error: invalid value 'soon'"),
    (ONE, ONE, "--ignore-unknown C", 2, "error: invalid value 'C'"),
    (ONE, ONE, "--setled", 2, "error: unexpected argument '--setled'"),
    (ONE, ONE, "C", 2, "error: unexpected argument 'B'"),
    (ONE, ONE, "--settled --from", 2, "error: invalid value 'A'"),
]
# words without files, and what is said
WORDS = [
    ("A", "error: two files are wanted\n"),
    ("A B --map", "error: a value is missing behind the last word\n"),
    ("A B --nets=q --from=", "error: invalid value '--from='\n"),
]


def answer(program, words):
    status, out, err = run([program, *words])
    return status, out.decode(), err


def fill(here, there):
    for name, text in (("A", here), ("B", there), ("MAP", MAP)):
        with open(name, "w", encoding="ascii") as file:
            file.write(text)


def check(program, row):
    here, there, words, status, told = row
    fill(here, there)
    found = answer(program, [*words.split(), "A", "B"])
    demand(found == (status, told, ""), f"{found}, not {(status, told)}")
    demand(answer(program, ["A", "B", *words.split()]) == found, "words behind the files give another answer")


def exchanged(told):
    """Returns an answer with its sides exchanged."""
    other = {"A": "B", "B": "A"}
    lines = [re.sub(r"^(\d+ \S+) (\S+) (\S+)$", r"\1 \3 \2", line) for line in told.splitlines()]
    alone = sorted(re.sub(r"^only in (.)", lambda it: f"only in {other[it[1]]}", line) for line in lines if line.startswith("only"))
    return "".join(f"{line}\n" for line in [*(line for line in lines if not line.startswith("only")), *alone])


def check_exchanged(program, row):
    here, there, words, status, told = row
    fill(there, here)
    if "ignore-unknown" in words:
        words = words.translate(str.maketrans("AB", "BA"))
    found = answer(program, [*words.split(), "A", "B"])
    demand(found == (status, exchanged(told), ""), f"exchanged: {found}")


def check_refusal(program, row):
    here, there, words, status, said = row
    fill(here, there)
    found = answer(program, [*words.split(), "A", "B"])
    demand(found[:2] == (status, "") and said in found[2], f"{found}, not {(status, said)}")
    demand(found[2].startswith("vsim_compare: " if status > 2 else "error: "), f"it says {found[2]}")


def check_words(program, words, said):
    fill(ONE, ONE)
    status, told, found = answer(program, words.split())
    demand((status, told) == (2, "") and found.startswith(said) and "Usage: vsim_compare " in found, f"{status} {told}{found}")


def check_same(compare, waves, listing):
    """A listing is the same as itself and as its waves, or it has no nets."""
    fill(listing, run([waves], listing.encode())[1].decode())
    for words in (["A", "A"], ["A", "B"], ["B", "A"]):
        status, told, said = answer(compare, words)
        demand(status == 0 and not said or listing == "done 0 0\n" and status == 3, f"{words}: {status} {told}{said}")


def made(chance, names, count):
    """Returns the changes of a listing: at each of some moments a few."""
    values, at = {it: chance.choice("UX01ZWLH-") for it in names}, (0, 0)
    changes = [(at, it, values[it]) for it in names]
    for _ in range(count):
        at = (at[0], at[1] + 1) if chance.random() < 0.3 else (at[0] + chance.randint(1, 9), 0)
        for name in chance.sample(names, chance.randint(1, 4)):
            values[name] = chance.choice("UX01ZWLH-".replace(values[name], ""))
            changes.append((at, name, values[name]))
    return changes


def changed(chance, changes):
    """Returns the same with some changes left out, or to other values."""
    found = []
    for at, name, value in changes:
        if at == (0, 0) or chance.random() > 0.02:
            found.append((at, name, value))
        elif chance.random() < 0.5:
            found.append((at, name, chance.choice("UX01ZWLH-")))
    return found


def listed(changes):
    return "".join(f"{at[0]} {at[1]} {net} {value}\n" for at, net, value in changes) + "done 1 1\n"


def compared(here, there):
    """Returns what is to be told of two listings with the same nets, by looking at each moment."""
    order = list(dict.fromkeys(name for _, name, _ in here))
    sides, moments = ({}, {}), {}
    for side, changes in enumerate((here, there)):
        for at, name, value in changes:
            moments.setdefault(at, []).append((side, name, value))
    first, nets, differing, count = None, set(), 0, 0
    for at in sorted(moments):
        for side, name, value in moments[at]:
            sides[side][name] = value
        names = {name for _, name, _ in moments[at]}
        wrong = [it for it in order if it in names and sides[0][it] != sides[1][it]]
        count, differing, nets = count + len(names), differing + len(wrong), nets | set(wrong)
        if wrong and not first:
            first = at, wrong[0], sides[0][wrong[0]], sides[1][wrong[0]]
    told = f"{first[0][0]} {' '.join(first[1:])}\n" if first else ""
    behind = f", first in delta cycle {first[0][1]}" if first and first[0][1] else ""
    return f"{told}{len(nets)} of {len(order)} nets differ, in {differing} of {count} changes{behind}\n"


def check_made(program, seed):
    chance = random.Random(seed)
    here = made(chance, [f"u{it % 7}.n{it}" for it in range(200)], 3000)
    there = changed(chance, here)
    fill(listed(here), listed(there))
    found, wanted = answer(program, ["A", "B"]), compared(here, there)
    demand(found == (int(wanted.count("\n") > 1), wanted, ""), f"{found}, not {wanted}")


def checks(vsim, compare, waves):
    """Yields the name of each check, and the check."""
    for number, row in enumerate(CASES):
        yield f"case {number}, {row[2]}", lambda: check(compare, row)
        if "--map" not in row[2] and "--at-edges" not in row[2] and "first in delta" not in row[4]:
            yield f"case {number} exchanged, {row[2]}", lambda: check_exchanged(compare, row)
    for row in REFUSED:
        yield f"refusal {row[2]} {row[4]}", lambda: check_refusal(compare, row)
    for words, said in WORDS:
        yield f"words {words}", lambda: check_words(compare, words, said)
    for name, listing in listings(vsim):
        yield name, lambda: check_same(compare, waves, listing)
    for seed in range(10):
        yield f"listings that chance makes, {seed}", lambda: check_made(compare, seed)


def main(programs):
    with tempfile.TemporaryDirectory() as folder:
        os.chdir(folder)
        return tally(checks(*programs)) != 0


if __name__ == "__main__":
    sys.dont_write_bytecode = True
    if len(sys.argv) != 4:
        print(__doc__.rstrip())
        sys.exit(2)
    sys.exit(main([os.path.abspath(it) for it in sys.argv[1:]]))

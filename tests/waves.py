#!/usr/bin/env python3
"""Reads back the waves that vsim_waves makes from listings.

    waves.py VSIM VSIM_WAVES

The listings are those of examples/*.vhd, which VSIM runs, and one of many nets, deep in a hierarchy. Each is made a VCD, with and
without `--deltas`, and read by a reader that knows only the rules of a VCD. Then
- the nets are those of the listing, by their paths below the scope top;
- the times are those of the listing; with `--deltas` one for each delta cycle, always later than the one before it;
- at each time each net has the value that the listing gives it by then.

By a map a variable has the bits that the map names, constants among them, and the last time is that of the end of the stimuli. A listing
that is cut short has with `--partial` the waves of its whole lines, and `--scope` names the outermost scope. The lines, boxes and texts of
pictures were worked out by hand, and docs/delays.svg is made anew. Faulty listings and maps and wrong words are refused with a line on
standard error.

Differences are printed, and the last line is `N passed, M failed`.
"""
import glob
import itertools
import os
import random
import sys
import tempfile
import xml.etree.ElementTree

import netlist_texts
from netlist_texts import Fault, demand, read, run, tally

TOP = os.path.dirname(os.path.dirname(os.path.realpath(__file__)))
VALUES = "UX01ZWLH-"
# a listing, and the line at which it is refused
REFUSED = [
    ("", None),
    ("0 0 s 0\n", None),
    ("0 0 s 0\n5 0 s 1\n", None),
    ("\n", 1),
    ("entity t is end;\n", 1),
    ("0 0 s 0\n0 0 s 1\ndone 0 0\n", 2),
    ("0 0 s 0\n5 0 r 1\ndone 1 1\n", 2),
    ("0 0 s 0\n5 0 s 1\n4 0 s 0\ndone 2 2\n", 3),
    ("0 0 s 0\n5 1 s 1\n5 0 s 0\ndone 2 2\n", 3),
    ("0 0 s 0\n5 0 s 1\n0 0 r 0\ndone 2 2\n", 3),
    ("0 0 s 0\ndone 0 0\ndone 0 0\n", 3),
    ("0 0 s 0\ndone 0 0\n5 0 s 1\n", 3),
    ("0 0 s 2\ndone 0 0\n", 1),
    ("0 0 s u\ndone 0 0\n", 1),
    ("0 0  0\ndone 0 0\n", 1),
    ("0 0 u..s 0\ndone 0 0\n", 1),
    ("0 0 $end 0\ndone 0 0\n", 1),
    ("0 0 s 0 0\ndone 0 0\n", 1),
    ("0 x s 0\ndone 0 0\n", 1),
    ("0 18446744073709551616 s 0\ndone 0 0\n", 1),
    ("0 0 s 0\ndone 0 x\n", 2),
    # a line of the moment of the line before
    ("0 0 s 0\n5 0 s 1\n5 0 s 2\ndone 2 2\n", 3),
    ("0 0 s 0\n5 0 s 1\n5 0 s\ndone 2 2\n", 3),
    ("0 0 s 0\n5 0 s 1\n5 0 \ndone 2 2\n", 3),
    ("0 0 s 0\n5 0 s 1\n5 0 r 0\ndone 2 2\n", 3),
    ("0 0 s 0\n5 0 s 1\n5 0  s 0\ndone 2 2\n", 3),
    # a name that differs from one of the same length in its first, middle or last letter
    *((f"0 0 abcdefghijklmnopqrst 0\n5 0 {it} 1\ndone 1 1\n", 2) for it in ("bbcdefghijklmnopqrst", "abcdefghiiklmnopqrst", "abcdefghijklmnopqrss")),
    *((f"0 0 abcde 0\n5 0 {it} 1\ndone 1 1\n", 2) for it in ("bbcde", "abdde", "abcdd", "abcdef", "abcd")),
]
# a map that is refused, and what is told
MAPS = [
    *((f"vsim_netlist map {it}\nend 5\n", "line 1: it is a map of another version, and version 1 is wanted") for it in ("2", "2 m", "10", "")),
    ("vsim_netlist map\nend 5\n", "line 1: it is no map of vsim_netlist"),
    ("0 0 s 0\ndone 0 0\n", "line 1: it is no map of vsim_netlist"),
    ("vsim_netlist map 1\nend soon\n", "line 2: the end is no number"),
    ("vsim_netlist map 1\nend 5\nvar s 0\n", "line 3: a variable is cut off"),
    ("vsim_netlist map 1\nnet s\n", "line 2: it is no line of a map"),
]
# the first line of a map, which may end with the name of the entity
HEADS = ["vsim_netlist map 1", "vsim_netlist map 1 m_2"]
# a listing, the lines of a map behind its first, what the bits of v are from each time on, and the last time
MAPPED = [
    ("0 0 s 0\n5 0 s 1\ndone 1 1\n", "end 9\ntop m\nvar v 0 downto s 'Z' '0' '1' 'X' -\n", [(0, "xx10z0"), (5, "xx10z1")], 9),
    ("0 0 s 0\n5 0 s 1\ndone 1 1\n", "end 5\ntop m\nvar v 0 downto s s\n", [(0, "00"), (5, "11")], 5),
    ("0 0 s U\ndone 0 0\n", "end 7\ntop m\nvar v 0 downto 'Z' 'Z'\n", [(0, "zz")], 7),
]
# a listing that is cut short, and the whole listing with the same waves
PARTIAL = [
    ("0 0 s 0\n5 0 s 1\n", "0 0 s 0\n5 0 s 1\ndone 1 1\n"),
    ("0 0 s 0\n5 0 s 1\n7 0 s", "0 0 s 0\n5 0 s 1\ndone 1 1\n"),
    ("0 0 s 0\n5 0 s 1\n7 0 s 0", "0 0 s 0\n5 0 s 1\ndone 1 1\n"),
    ("0 0 s 0\n0 0 r U\n", "0 0 s 0\n0 0 r U\ndone 0 0\n"),
    ("0 0 s 0\n5 0 s 1\ndone 1 1\n", "0 0 s 0\n5 0 s 1\ndone 1 1\n"),
    ("", "done 0 0\n"),
]

TWO = "0 0 s 0\n0 0 u1.r X\n5 0 s 1\n7 0 u1.r 1\ndone 2 2\n"
# a listing, the lines of a map if there is one, words, the texts of the picture, and its lines, boxes and areas. The waves are 600 pixels wide,
# and begin at 20 and 7.5 for each letter of the longest name; a row is 34 high, and its 1, Z and 0 are 18, 29 and 40 below the top of the first
PICTURES = [
    (TWO, None, "--to 10", ["0 fs", "2 fs", "4 fs", "6 fs", "8 fs", "10 fs", "s", "u1.r"],
     ["M50.0 40H350.0V18H650.0", "M50.0 63H470.0V52H650.0"], [("50.0", "52", "420.0", "22")]),
    # what is left out changes nothing but the end
    (TWO, None, "--nets s --from 3", ["3 fs", "4 fs", "5 fs", "6 fs", "7 fs", "s"], ["M27.5 40H327.5V18H627.5"], []),
    (TWO, None, "--nets s --from 5 --to 1ps", ["200 fs", "400 fs", "600 fs", "800 fs", "1000 fs", "s"], ["M27.5 18H627.5"], []),
    ("0 0 s Z\n0 1 s 1\n1 0 s L\n1 1 s Z\ndone 3 3\n", None, "--to 2", ["0 fs", "1 fs", "2 fs", "s"], ["M27.5 18H327.5V29H627.5"], []),
    # 0b101, and from 5 on a high bit that is unknown, or three that are Z
    ("0 0 s 1\n5 0 s Z\ndone 1 1\n", "end 10\nvar v 0 downto s '0' s 'Z' '1'\nvar w<a 0 downto s s s\n", "",
     ["0 fs", "2 fs", "4 fs", "6 fs", "8 fs", "10 fs", "v", "1x", "1x", "w<a", "7", "z"],
     ["M42.5 29l2 -11H340.5l2 11l-2 11H44.5z", "M342.5 29l2 -11H640.5l2 11l-2 11H344.5z",
      "M42.5 63l2 -11H340.5l2 11l-2 11H44.5z", "M342.5 63l2 -11H640.5l2 11l-2 11H344.5z"], []),
]
# a listing that no picture can be made of, and what is told
UNDRAWN = [
    ("".join(f"0 0 s{it} 0\n" for it in range(257)) + "done 0 0\n", "line 257: a picture has at most 256 rows: choose them by --nets\n"),
    ("0 0 s 0\n" + "".join(f"{it} 0 s {it % 2}\n" for it in range(1, 100_002)) + "done 1 1\n",
     "line 100002: a picture has at most 100000 values: choose them by --from, --to and --nets\n"),
]


class Waves:
    """A VCD: for each path of a variable its identifier, and for each time the values that identifiers get then."""

    def __init__(self, text):
        self.words, self.variables, self.times = iter(text.split()), {}, []
        self.read_nets()
        self.read_values()

    def section(self):
        """Returns the words up to the next $end."""
        found = []
        for word in self.words:
            if word == "$end":
                return found
            found.append(word)
        raise Fault("a section has no $end")

    def read_nets(self):
        scopes, scale = [], None
        for word in self.words:
            rest = self.section()
            if word == "$enddefinitions":
                demand(not rest and not scopes and scale == "1fs", "the definitions end too early")
                return
            if word == "$timescale":
                scale = "".join(rest)
            elif word == "$scope":
                demand(len(rest) == 2 and rest[0] == "module", f"scope {rest}")
                scopes.append(rest[1])
            elif word == "$upscope":
                demand(scopes and not rest, "no scope is left")
                scopes.pop()
            elif word == "$var":
                self.declare(scopes, rest)
            else:
                demand(word in ("$version", "$comment"), f"unknown section {word}")
        raise Fault("the definitions have no end")

    def declare(self, scopes, rest):
        demand(len(rest) == 4 and rest[:2] == ["wire", "1"], f"variable {rest}")
        path = ".".join([*scopes, rest[3]])
        demand(path not in self.variables, f"{path} is there twice")
        demand(all("!" <= it <= "~" for it in rest[2]), f"identifier {rest[2]}")
        self.variables[path] = rest[2]

    def read_values(self):
        known = set(self.variables.values())
        demand(len(known) == len(self.variables), "an identifier is there twice")
        is_dump = False
        for word in self.words:
            if word.startswith("#"):
                time = int(word[1:])
                demand(not is_dump and (not self.times or time > self.times[-1][0]), f"{word} is no later time")
                self.times.append((time, {}))
            elif word == "$dumpvars":
                demand(len(self.times) == 1 and not self.times[0][1], "$dumpvars is late")
                is_dump = True
            elif word == "$end":
                demand(is_dump and self.times[0][1].keys() == known, "the first values are not those of all variables")
                is_dump = False
            else:
                demand(self.times and word[0] in VALUES.lower() and word[1:] in known, f"{word} is no value")
                self.times[-1][1][word[1:]] = word[0].upper()
        demand(not is_dump, "$dumpvars has no end")


def moments(listing):
    """Returns for each moment of a listing the values that nets get then."""
    found = {}
    for line in listing.splitlines()[:-1]:
        time, delta, name, value = line.split(" ")
        found.setdefault((int(time), int(delta)), {})[name] = value
    return found


def by_time(found):
    """Returns the same for each time, with the last value of each net."""
    joined = {}
    for (time, _), values in found.items():
        joined.setdefault(time, {}).update(values)
    return joined


def by_delta(found):
    """Returns the same with a separate time for each delta cycle."""
    spread, last = {}, -1
    for (time, delta), values in found.items():
        last = max(time + delta, last + 1)
        spread[last] = values
    return spread


def compare(waves, wanted):
    """Compares the values at each time."""
    demand([time for time, _ in waves.times] == (list(wanted) or [0]), "the times are others")
    names = list(next(iter(wanted.values()), []))
    demand(sorted(waves.variables) == sorted(f"top.{it}" for it in names), "the nets are others")
    now, then = {}, {}
    for time, values in waves.times:
        now.update(values)
        then.update(wanted.get(time, {}))
        for name in names:
            shown = now[waves.variables[f"top.{name}"]]
            demand(shown == then[name], f"{name} is {shown} at {time}, and not {then[name]}")


def check(program, words, wanted, listing):
    status, out, err = run([program, *words], listing.encode())
    demand(status == 0 and not err, f"status {status}: {err}")
    compare(Waves(out.decode("ascii")), wanted(moments(listing)))


def check_refusal(program, text, line):
    status, _, err = run([program], text.encode())
    demand(status == 1, f"status {status}")
    demand(err.startswith(f"vsim_waves: line {line}: " if line else "vsim_waves: the listing has no last line"), f"it says {err}")
    demand(err.count("\n") == 1, f"it says {err}")


def check_map(program, text, told):
    with tempfile.TemporaryDirectory() as folder:
        with open(f"{folder}/map", "w", encoding="utf-8") as file:
            file.write(text)
        status, out, err = run([program, "--map", f"{folder}/map"], b"0 0 s 0\ndone 0 0\n")
    demand(status == 1 and not out, f"status {status}")
    demand(err.startswith("vsim_waves: ") and err.endswith(f"/map: {told}\n"), f"it says {err}")


def check_mapped(program, head, listing, lines, values, end):
    with tempfile.TemporaryDirectory() as folder:
        with open(f"{folder}/map", "w", encoding="utf-8") as file:
            file.write(f"{head}\n{lines}")
        status, out, err = run([program, "--map", f"{folder}/map"], listing.encode())
    demand(status == 0 and not err, f"status {status}: {err}")
    waves = netlist_texts.Waves(out, "m")
    code, width = waves.variables["v"]
    demand(width == len(values[0][1]), f"v has {width} bits")
    for (time, wanted), found in zip(values, waves.at([time for time, _ in values])):
        demand(netlist_texts.wide(found[code], width) == wanted, f"v is {found[code]} at {time}")
    times = [line[1:] for line in out.decode().splitlines() if line.startswith("#")]
    demand(times == [str(time) for time in dict.fromkeys([*(time for time, _ in values), end])], f"the times are {times}")


def check_partial(program, text, whole):
    for words in ([], ["--deltas"], ["--scope", "t"]):
        wanted = run([program, *words], whole.encode())
        demand(run([program, "--partial", *words], text.encode()) == wanted and wanted[0] == 0, f"{words}: other waves")


def check_scope(program, listing):
    (status, top, _), named = (run([program, *words], listing.encode()) for words in ([], ["--scope", "uart_1"]))
    demand(status == 0 and named == (0, top.replace(b"$scope module top $end", b"$scope module uart_1 $end"), ""), "the scope is another")
    demand(top.count(b"$scope module top $end") == 1, "top is no scope")


def read_picture(text):
    """Returns the texts of a picture, its lines and boxes, and its areas, but for the grid and what is behind all."""
    elements = list(xml.etree.ElementTree.fromstring(text))[1:]
    shapes = [it.attrib["d"] for it in elements if it.attrib.get("fill") == "none"]
    areas = [tuple(it.attrib[name] for name in ("x", "y", "width", "height")) for it in elements if it.tag.endswith("rect")]
    return [it.text for it in elements if it.tag.endswith("text")], shapes, areas


def check_picture(program, listing, lines, words, *wanted):
    with tempfile.TemporaryDirectory() as folder:
        with open(f"{folder}/map", "w", encoding="utf-8") as file:
            file.write(f"{HEADS[0]}\n{lines}")
        by_map = ["--map", f"{folder}/map"] if lines else []
        status, out, err = run([program, "--svg", *by_map, *words.split()], listing.encode())
    demand(status == 0 and not err, f"status {status}: {err}")
    found = read_picture(out)
    demand(found == wanted, f"{found}")


def check_undrawn(program, listing, told):
    demand(run([program, "--svg"], listing.encode()) == (1, b"", f"vsim_waves: {told}"), "it is drawn, or another refusal")


def check_page(program):
    found = run([program, "--svg", "--to", "55ns"], read(f"{TOP}/examples/delays.listing"))
    demand(found == (0, read(f"{TOP}/docs/delays.svg"), ""), "docs/delays.svg is another picture")


def check_words(program, words):
    status, out, err = run([program, *words], b"done 0 0\n")
    demand(status == 2 and not out and err.startswith("usage: vsim_waves "), f"status {status}: {err}")


def made():
    """Returns a listing of 9,000 nets, whose identifiers have up to three bytes."""
    chance, names = random.Random(1), [f"s{it}" for it in range(50)]

    def enter(path, depth):
        for label in range(4 if depth < 6 else 0):
            names.extend(f"{path}u{label}.s{it}" for it in range(chance.randint(0, 6)))
            enter(f"{path}u{label}.", depth + 1)

    enter("", 0)
    names = names[:9000]
    values = {it: chance.choice(VALUES) for it in names}
    lines, events = [f"0 0 {it} {values[it]}" for it in names], 0
    instants = sorted({(chance.randint(0, 40), chance.randint(0, 9)) for _ in range(200)} - {(0, 0)})
    for time, delta in instants:
        for name in chance.sample(names, 20):
            values[name] = chance.choice(VALUES.replace(values[name], ""))
            lines.append(f"{time} {delta} {name} {values[name]}")
            events += 1
    return "\n".join([*lines, f"done {len(instants)} {events}", ""])


def listings(vsim):
    """Yields the name and the listing of each example that runs to its end."""
    for path in sorted(glob.glob(f"{TOP}/examples/*.vhd")):
        words = ["--top", "t"]
        if os.path.exists(f"{path[:-4]}.words"):
            with open(f"{path[:-4]}.words", encoding="utf-8") as file:
                words = file.read().split()
        status, out, _ = run([vsim, *words], read(path))
        if status == 0:
            yield os.path.relpath(path, TOP), out.decode("ascii")
    yield "9,000 nets", made()
    yield "no net", "done 0 0\n"


def checks(vsim, program):
    """Yields the name of each check, and the check."""
    for name, listing in listings(vsim):
        yield name, lambda: check(program, [], by_time, listing)
        yield f"{name} --deltas", lambda: check(program, ["--deltas"], by_delta, listing)
    for text, line in REFUSED:
        yield f"refusal of {text!r}", lambda: check_refusal(program, text, line)
    for text, told in MAPS:
        yield f"a map of which is told: {told}", lambda: check_map(program, text, told)
    for head, row in itertools.product(HEADS, MAPPED):
        yield f"a map {head!r} with {row[1]!r}", lambda: check_mapped(program, head, *row)
    for row in PARTIAL:
        yield f"--partial of {row[0]!r}", lambda: check_partial(program, *row)
    yield "--scope", lambda: check_scope(program, "0 0 s 0\n0 0 u1.s 0\n5 0 s 1\ndone 1 1\n")
    for row in PICTURES:
        yield f"the picture of {row[2]}", lambda: check_picture(program, *row)
    for row in UNDRAWN:
        yield row[1].strip(), lambda: check_undrawn(program, *row)
    yield "docs/delays.svg", lambda: check_page(program)
    for words in (["--delta"], ["--deltas", "--deltas"], ["FILE.vcd"], [""], ["--scope"], ["--scope", "a b"], ["--map"], ["--partial", "--partial"],
                  ["--deltas", "--map", "FILE"], ["--svg", "--deltas"], ["--svg", "--scope", "t"], ["--from", "5"], ["--svg", "--from", "x"],
                  ["--svg", "--to"], ["--nets", "s"]):
        yield f"the words {words}", lambda: check_words(program, words)


if __name__ == "__main__":
    if len(sys.argv) != 3:
        print(__doc__.rstrip())
        sys.exit(2)
    sys.exit(tally(checks(*map(os.path.abspath, sys.argv[1:]))) != 0)

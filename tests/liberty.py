#!/usr/bin/env python3
"""Runs netlists of cells of Liberty files, and compares their waves with those of a simulator that is written here.

    liberty.py VSIM VSIM_NETLIST [DAMAGED]

The simulator knows the rules of the format and nothing of VSIM_NETLIST: it reads a Liberty file, and for each cell works out its outputs after
each change of an input. Each cell of netlists/cells.lib, and of osu018, osu035 and osu050 where Debian's packages qflow-tech-osu018 and so on
are installed, is run with inputs that change at random, one at a time, to 0, 1 and x. Without delays each output is to have the same value at
the end of each time, and with delays that are shorter than the time between changes the same value before the next change.

Then functions with formulas of Python that were written beside them, for all values of their inputs; cells whose listings were worked out by
hand, with delays; files with a fault, each refused by a sentence; and netlists/cells.lib with one token changed or removed, DAMAGED times
(1,000 if it is not given), which end in a text that VSIM reads, or in a refusal, within 2 s.

What differs is told, and the last line is `N passed, M failed`.
"""
import itertools
import os
import random
import re
import sys

sys.path.insert(0, os.path.dirname(os.path.realpath(__file__)))
from cell_files import are_read_or_refused, demand_listed, listing_of, main, put  # noqa: E402
from netlist_texts import FOLDER, cell, demand, is_refused, netlist  # noqa: E402

CELLS = f"{FOLDER}/cells.lib"
# Debian's libraries
OTHERS = {"qflow-tech-osu018": "/usr/share/qflow/tech/osu018/osu018_stdcells.lib",
          "qflow-tech-osu035": "/usr/share/qflow/tech/osu035/osu035_stdcells.lib",
          "qflow-tech-osu050": "/usr/share/qflow/tech/osu050/osu05_stdcells.lib"}
SECONDS = 2
# how many times an input changes, and the time between changes, in femtoseconds
CHANGES = 3000
STEP = 10**7


# ------------------------------------------------------------------------------------------- three values
class Value:
    """0, 1 or x, by the operators of Python that have the names of gates."""

    def __init__(self, letter):
        self.letter = letter

    def __and__(self, other):
        letters = self.letter + other.letter
        return Value("0" if "0" in letters else "1" if letters == "11" else "x")

    def __or__(self, other):
        letters = self.letter + other.letter
        return Value("1" if "1" in letters else "0" if letters == "00" else "x")

    def __xor__(self, other):
        letters = self.letter + other.letter
        return Value("x" if "x" in letters else "01"[letters in ("01", "10")])

    def __invert__(self):
        return Value({"0": "1", "1": "0", "x": "x"}[self.letter])


ONE, ZERO, UNKNOWN = Value("1"), Value("0"), Value("x")


def chosen(select, one, zero):
    """Returns the output of a multiplexer, which is what both inputs have in common if nothing is known of the selection."""
    if select.letter != "x":
        return one if select.letter == "1" else zero
    return one if one.letter == zero.letter else UNKNOWN


# ------------------------------------------------------------------------------------------- functions of Liberty
def formula(text):
    """Returns a function of Liberty as a tree: a name or constant, or a tuple of an operator and one or two trees."""
    marks = re.findall(r"[\w\[\]]+|[!'^*&+|()]", text)

    def single():
        mark = marks.pop(0)
        tree = any_of() if mark == "(" else ("not", single()) if mark == "!" else mark
        if mark == "(":
            marks.pop(0)
        while marks and marks[0] == "'":
            marks.pop(0)
            tree = ("not", tree)
        return tree

    def chain(inner, signs, word):
        def read():
            tree = inner()
            while marks and (marks[0] in signs or word == "and" and marks[0] not in "+|)^'"):
                if marks[0] in signs:
                    marks.pop(0)
                tree = (word, tree, inner())
            return tree
        return read

    any_of = chain(chain(chain(single, "^", "xor"), "*&", "and"), "+|", "or")
    tree = any_of()
    assert not marks, text
    return tree


def names_in(tree):
    return {tree} - {"0", "1"} if isinstance(tree, str) else set().union(*map(names_in, tree[1:]))


def plain(tree, values):
    if isinstance(tree, str):
        return {"0": ZERO, "1": ONE}.get(tree) or values[tree]
    if tree[0] == "not":
        return ~plain(tree[1], values)
    left, right = (plain(it, values) for it in tree[1:])
    return left & right if tree[0] == "and" else left | right if tree[0] == "or" else left ^ right


def multiplexer(tree):
    """Returns how a function selects one of two inputs, as (selecting input, input for 1, input for 0, whether it is negated), if it does."""
    names = sorted(names_in(tree))
    if len(names) == 3:
        rows = [dict(zip(names, map(Value, row))) for row in itertools.product("01", repeat=3)]
        outputs = [plain(tree, row).letter for row in rows]
        for order in itertools.permutations(names):
            for is_negated in (False, True):
                wanted = [chosen(*(row[it] for it in order)) for row in rows]
                if outputs == [(~it if is_negated else it).letter for it in wanted]:
                    return (*order, is_negated)
    return None


class Function:
    def __init__(self, text):
        self.tree = formula(text)
        self.choice = multiplexer(self.tree)

    def value(self, values):
        if self.choice is None:
            return plain(self.tree, values)
        *order, is_negated = self.choice
        found = chosen(*(values[it] for it in order))
        return ~found if is_negated else found


# ------------------------------------------------------------------------------------------- Liberty files
def groups_of(text):
    """Returns the groups and attributes of a Liberty file as (name, arguments, [groups], {attributes})."""
    text = re.sub(r"/\*.*?\*/|//[^\n]*", " ", text.replace("\\\n", " "), flags=re.S)
    tokens = re.findall(r'"(?:[^"\\]|\\.)*"|[^\s(){}:;,"]+|[(){}:;,]|\n', text)

    def read():
        groups, attributes = [], {}
        while tokens:
            name = tokens.pop(0)
            if name == "}":
                break
            if name in "\n;":
                continue
            while tokens[0] == "\n":
                tokens.pop(0)
            sign, words = tokens.pop(0), []
            while tokens[0] not in ((")",) if sign == "(" else (";", "}", "\n")):
                words.append(tokens.pop(0).strip('"'))
            if sign == ":":
                attributes[name] = " ".join(words)
                continue
            tokens.pop(0)
            while tokens and tokens[0] == "\n":
                tokens.pop(0)
            if tokens and tokens[0] == "{":
                tokens.pop(0)
                groups.append((name, [it for it in words if it not in (",", "\n")], *read()))
        return groups, attributes

    return read()


class Cell:
    """A cell of a library: its inputs, its outputs with functions, and its register or latch."""

    def reads_outputs(self):
        """Says whether an output reads another, as pads do."""
        return any(names_in(it.tree) & self.outputs.keys() for functions in self.outputs.values() for it in functions if it)

    def __init__(self, name, groups):
        self.name, self.inputs, self.outputs, self.state = name, [], {}, None
        for kind, names, _, attributes in groups:
            if kind == "pin":
                for pin in " ".join(names).split():
                    if attributes["direction"] == "input":
                        self.inputs.append(pin)
                    elif "function" in attributes:
                        self.outputs[pin] = [Function(attributes[it]) if it in attributes else None for it in ("function", "three_state")]
            elif kind in ("ff", "latch"):
                self.state = kind, names, attributes
                self.parts = {it: Function(attributes[it]) for it in attributes if not it.startswith("clear_preset")}


class Instance:
    """A cell in a netlist, with the values of its register's two variables and of its inputs."""

    def __init__(self, kind):
        self.kind, self.values, self.clock = kind, dict.fromkeys(kind.inputs, UNKNOWN), UNKNOWN
        if kind.state:
            self.values.update(dict.fromkeys(kind.state[1], UNKNOWN))

    def stored(self, part, is_edge):
        """Returns the two values that a register or latch takes: by clear and preset, by its data, or none."""
        kind, names, attributes = self.kind.state
        clear, preset = (part.get(it, ZERO).letter == "1" for it in ("clear", "preset"))
        if clear and preset:
            letters = [attributes.get(f"clear_preset_var{it}", "X") for it in (1, 2)]
            return [{"L": ZERO, "H": ONE, "X": UNKNOWN, "N": self.values[name]}[letter] for letter, name in zip(letters, names)]
        if clear or preset:
            return [ONE, ZERO] if preset else [ZERO, ONE]
        if is_edge if kind == "ff" else part.get("enable", ZERO).letter == "1":
            data = part["next_state" if kind == "ff" else "data_in"]
            return [data, ~data]
        return None

    def change(self, inputs):
        """Takes values of inputs, and returns the letters of the outputs."""
        self.values.update(inputs)
        if self.kind.state:
            part = {it: function.value(self.values) for it, function in self.kind.parts.items()}
            clock = part.get("clocked_on", UNKNOWN)
            taken = self.stored(part, (self.clock.letter, clock.letter) == ("0", "1"))
            self.clock = clock
            self.values.update(zip(self.kind.state[1], taken or []))
        return {pin: self.output(*functions) for pin, functions in self.kind.outputs.items()}

    def output(self, function, three_state):
        off = three_state.value(self.values).letter if three_state else "0"
        return "z" if off == "1" else function.value(self.values).letter if off == "0" else "x"


def read_cells(path):
    with open(path, encoding="latin-1") as file:
        (library,), _ = groups_of(file.read())
    found = [Cell(it[1][0], it[2]) for it in library[2] if it[0] == "cell"]
    return [it for it in found if it.outputs and not it.reads_outputs()]


# ------------------------------------------------------------------------------------------- runs
def letter(value):
    return {"0": "0", "1": "1", "Z": "z"}.get(value, "x")


def values_before(lines, times):
    """Yields for each of these times the values of all signals before it."""
    values, at = {}, 0
    for time in times:
        while at < len(lines) and lines[at][0] < time:
            values[lines[at][1]] = letter(lines[at][2])
            at += 1
        yield values


def ports_of(width, end):
    """Returns inputs a0 and so on, of one bit each from 2 on, and an output y with the bits up to an end."""
    inputs = {f"a{it}": {"direction": "input", "bits": [2 + it]} for it in range(width)}
    return inputs | {"y": {"direction": "output", "bits": list(range(2 + width, end))}}


def stimuli_of(rows):
    """Returns stimuli by which the inputs have the values of one row after another."""
    lines, last = [], [""] * len(rows[0])
    for time, row in enumerate(rows):
        lines += [f"{time * STEP}fs a{place} {value}\n" for place, value in enumerate(row) if value != last[place]]
        last = row
    return "".join(lines) + f"end {len(rows) * STEP}fs\n"


def instances(kinds, width):
    """Returns a netlist of one cell of each kind, its inputs taken from one port by turns, with the places of inputs and outputs."""
    cells, places, outputs, bit = {}, [], [], 2 + width
    for number, kind in enumerate(kinds):
        taken = {pin: (number + it) % width for it, pin in enumerate(kind.inputs)}
        made = {pin: bit + it for it, pin in enumerate(kind.outputs)}
        bit += len(made)
        cells[f"u{number}"] = cell(kind.name, {pin: [it] for pin, it in ({pin: 2 + it for pin, it in taken.items()} | made).items()})
        places.append(taken)
        outputs += [(number, pin) for pin in made]
    return netlist(cells, **ports_of(width, bit)), places, outputs


def changes_at_random(width, seed):
    """Returns the inputs after each change: 0 at first, and then one bit becomes another value at a time."""
    chance, level, found = random.Random(seed), ["0"] * width, [["0"] * width]
    for _ in range(CHANGES):
        place = chance.randrange(width)
        level[place] = chance.choice([it for it in "0011x" if it != level[place]])
        found.append(list(level))
    return found


def is_like_reference(programs, folder, library, words, seed):
    """Demands that each output of each cell of a library is what the rules of the format say."""
    kinds, width = read_cells(library), 7
    given, places, outputs = instances(kinds, width)
    inputs = changes_at_random(width, seed)
    lines = listing_of(programs, folder, library, given, stimuli_of(inputs), words)
    cells = [Instance(kind) for kind in kinds]
    count = 0
    for time, (levels, values) in enumerate(zip(inputs, values_before(lines, range(STEP, (len(inputs) + 1) * STEP, STEP)))):
        wanted = [it.change({pin: Value(levels[place]) for pin, place in taken.items()}) for it, taken in zip(cells, places)]
        for bit, (number, pin) in enumerate(outputs):
            found, right = values.get(f"y_{bit}", "x"), wanted[number][pin]
            demand(found == right, f"after change {time}, to {levels}: {kinds[number].name} has {found} at {pin} in place of {right}")
            count += 1
    demand(count == len(outputs) * len(inputs), f"{count} values")


# ------------------------------------------------------------------------------------------- functions by hand
# a function, and the same in Python, with x for what is not known
FUNCTIONS = [
    ("A", "A"), ("!A", "~A"), ("A'", "~A"), ("A''", "A"), ("!!A", "A"), ("!A'", "A"), ("(A)", "A"), ("((A))'", "~A"), ("! ! !A", "~A"),
    ("A*B", "A & B"), ("A&B", "A & B"), ("A B", "A & B"), ("A+B", "A | B"), ("A|B", "A | B"), ("A^B", "A ^ B"), ("(A)(B)", "A & B"),
    ("(A*B)'", "~(A & B)"), ("!(A*B)", "~(A & B)"), ("!(A+B)", "~(A | B)"), ("(A^B)'", "~(A ^ B)"), ("!A B", "~A & B"), ("!A!B", "~A & ~B"),
    ("A'B'", "~A & ~B"), ("A' B", "~A & B"), ("A!B", "A & ~B"), ("!(A)B", "~A & B"), ("A(B)", "A & B"), ("A+!B", "A | ~B"), ("A^!B", "A ^ ~B"),
    # inversion first, then exclusive or, then and, then or
    ("A+B*C", "A | (B & C)"), ("A*B+C", "(A & B) | C"), ("A B+C", "(A & B) | C"), ("A+B C", "A | (B & C)"), ("A^B*C", "(A ^ B) & C"),
    ("A*B^C", "A & (B ^ C)"), ("A B^C", "A & (B ^ C)"), ("A^B C", "(A ^ B) & C"), ("A+B^C", "A | (B ^ C)"), ("A^B+C", "(A ^ B) | C"),
    ("!A^B", "(~A) ^ B"), ("!A+B", "(~A) | B"), ("A*B'", "A & (~B)"), ("(A+B)'C", "~(A | B) & C"), ("!(A+B)C'", "~(A | B) & ~C"),
    ("A*!B+!A*B", "(A & ~B) | (~A & B)"), ("A+B|C", "A | B | C"), ("A*B&C", "A & B & C"), ("A^B^C", "A ^ B ^ C"), ("A B C", "A & B & C"),
    ("(A B C)'", "~(A & B & C)"), ("!(A+B+C)", "~(A | B | C)"), ("!(A^B^C)", "~(A ^ B ^ C)"), ("!((A*B)+C)", "~((A & B) | C)"),
    ("!((A+B) C)", "~((A | B) & C)"), ("((A*B)+(C*D))'", "~((A & B) | (C & D))"), ("((A+B)*(C+D))'", "~((A | B) & (C | D))"),
    ("(A+B)(C+D)", "(A | B) & (C | D)"), ("A B+C D", "(A & B) | (C & D)"), ("A^B+C*D", "(A ^ B) | (C & D)"),
    ("A*B+B*C+C*A", "(A & B) | (B & C) | (C & A)"), ("A+(B+(C+D))", "A | B | C | D"), ("A*(B*(C*D))", "A & B & C & D"),
    ("!(A*!(B*!(C*!D)))", "~(A & ~(B & ~(C & ~D)))"), ("A+A'", "A | ~A"), ("A*A'", "A & ~A"), ("A^A", "A ^ A"),
    ("0", "ZERO"), ("1", "ONE"), ("0'", "ONE"), ("!1", "ZERO"), ("A*0", "A & ZERO"), ("A+1", "A | ONE"), ("A^1", "A ^ ONE"), ("1 A", "A"),
    # a multiplexer whose inputs agree
    ("(S*A)+(S'*B)", "chosen(S, A, B)"), ("(!S A)+(S B)", "chosen(S, B, A)"), ("!((S*A)+(S'*B))", "~chosen(S, A, B)"),
    ("(S+A)*(S'+B)", "chosen(S, B, A)"), ("(A*B)+(A'*C)", "chosen(A, B, C)"), ("B ^ (S*(A^B))", "chosen(S, A, B)"),
    # blanks, and a line that goes on
    ("  A  \t*  B ", "A & B"), ("A * \\\n B", "A & B"), ("(  A+B  ) '", "~(A | B)"),
]
PINS = "ABCDS"


def are_functions_right(programs, folder):
    """Demands that each function of the table has the values of its formula for all values of its inputs."""
    cells = "".join(f'cell (F{number}) {{ pin ({",".join(PINS)}) {{ direction : input; }}\n'
                    f'pin (Y) {{ direction : output; function : "{text}"; }} }}\n' for number, (text, _) in enumerate(FUNCTIONS))
    path = put(folder, "functions.lib", f"library (functions) {{\n{cells}}}\n")
    width, count = len(PINS), len(FUNCTIONS)
    taken = {pin: [2 + it] for it, pin in enumerate(PINS)}
    given = netlist({f"u{it}": cell(f"F{it}", taken | {"Y": [2 + width + it]}) for it in range(count)},
                    **ports_of(width, 2 + width + count))
    rows = list(itertools.product("01x", repeat=width))
    lines = listing_of(programs, folder, path, given, stimuli_of(rows))
    for row, values in zip(rows, values_before(lines, range(STEP, (len(rows) + 1) * STEP, STEP))):
        inputs = dict(zip(PINS, map(Value, row)))
        for bit, (text, right) in enumerate(FUNCTIONS):
            wanted = eval(right, {"chosen": chosen, "ONE": ONE, "ZERO": ZERO}, inputs).letter
            demand(values.get(f"y_{bit}", "x") == wanted, f"{text} is {values.get(f'y_{bit}', 'x')} at {inputs.items()} in place of {wanted}")


# ------------------------------------------------------------------------------------------- listings by hand
A, B, Y = [2], [4], [3]
TWO = {"a": {"direction": "input", "bits": A}, "b": {"direction": "input", "bits": B}, "y": {"direction": "output", "bits": Y}}
# a netlist of cells.lib, stimuli, words, and what the listing says of y
LISTED = [
    # each kind of gate has the delay of its name
    (netlist({"u": cell("INV", {"A": A, "Y": Y})}), "0 a 0\n1ns a 1\n2ns a 0\n", ["--delays", "not=10ps/20ps"],
     "0 U, 10000 1, 1020000 0, 2010000 1"),
    (netlist({"u": cell("BUF", {"A": A, "Y": Y})}), "0 a 0\n1ns a 1\n", ["--delays", "buf=10ps/20ps,others=1ns"], "0 U, 20000 0, 1010000 1"),
    (netlist({"u": cell("NAND3", {"A": A, "B": ["1"], "C": B, "Y": Y})}, **TWO), "0 a 1\n0 b 0\n1ns b 1\n", ["--delays", "nand=10ps/20ps"],
     "0 U, 10000 1, 1020000 0"),
    (netlist({"u": cell("OAI21", {"A": A, "B": ["0"], "C": B, "Y": Y})}, **TWO), "0 a 1\n0 b 0\n1ns b 1\n", ["--delays", "oai3=10ps/20ps"],
     "0 U, 10000 1, 1020000 0"),
    (netlist({"u": cell("MUX", {"A": A, "B": B, "S": ["1"], "Y": Y})}, **TWO), "0 a 1\n0 b 0\n1ns b 1\n", ["--delays", "mux=10ps/20ps"],
     "0 U, 20000 0, 1010000 1"),
    (netlist({"u": cell("FULL", {"A": A, "B": B, "C": ["0"], "YC": Y})}, **TWO), "0 a 1\n0 b 0\n1ns b 1\n", ["--delays", "others=10ps/20ps"],
     "0 U, 20000 0, 1010000 1"),
    (netlist({"u": cell("TBUF", {"A": A, "EN": B, "Y": Y})}, **TWO), "0 a 1\n0 b 0\n1ns b 1\n", ["--delays", "tbuf=10ps"],
     "0 U, 10000 Z, 1010000 1"),
    (netlist({"u": cell("DFF", {"D": A, "CK": B, "Q": Y})}, **TWO), "0 a 1\n0 b 0\n1ns b 1\n", ["--delays", "dff=10ps/20ps"], "0 U, 1010000 1"),
    # the gate before a register's data is a part of it and takes no time
    (netlist({"u": cell("DFFS", {"D": A, "CK": B, "S": ["0"], "Q": Y})}, **TWO), "0 a 1\n0 b 0\n1ns b 1\n", ["--delays", "dff=10ps,others=20ps"],
     "0 U, 1030000 1"),
    (netlist({"u": cell("LATCH", {"D": A, "G": B, "Q": Y})}, **TWO), "0 a 1\n0 b 0\n1ns b 1\n2ns b 0\n3ns a 0\n", ["--delays", "latch=10ps/20ps"],
     "0 U, 1010000 1"),
    # a cell of Yosys beside one of the library
    (netlist({"u": cell("INV", {"A": A, "Y": [9]}), "v": cell("$_NOT_", {"A": [9], "Y": Y})}), "0 a 0\n1ns a 1\n", [], "0 U, 0 0, 1000000 1"),
    # an initial value
    (netlist({"u": cell("DFF", {"D": A, "CK": B, "Q": Y})}, **TWO).replace('"bits": [3], "attributes": {}', '"bits": [3], "attributes": {"init": "0"}'),
     "0 a 1\n0 b 0\n1ns b 1\n", [], "0 0, 1000000 1"),
    # the level with which registers begin, unless the netlist says it
    (netlist({"u": cell("DFF", {"D": A, "CK": B, "Q": Y})}, **TWO), "0 a 1\n0 b 0\n1ns b 1\n", ["--init", "0"], "0 0, 1000000 1"),
    (netlist({"u": cell("DFFN", {"D": A, "CK": B, "QN": Y})}, **TWO), "0 a 1\n0 b 1\n1ns b 0\n", ["--init", "0"], "0 1, 1000000 0"),
    (netlist({"u": cell("LATCH", {"D": A, "G": B, "Q": Y})}, **TWO), "0 a 0\n0 b 0\n1ns b 1\n", ["--init", "1"], "0 1, 1000000 0"),
    (netlist({"u": cell("$_DFF_P_", {"D": A, "C": B, "Q": Y})}, **TWO), "0 a 0\n0 b 0\n1ns b 1\n", ["--init", "1"], "0 1, 1000000 0"),
    (netlist({"u": cell("DFF", {"D": A, "CK": B, "Q": Y})}, **TWO).replace('"bits": [3], "attributes": {}', '"bits": [3], "attributes": {"init": "0"}'),
     "0 a 1\n0 b 0\n1ns b 1\n", ["--init", "1"], "0 0, 1000000 1"),
    # outputs that are not connected, and a cell without outputs
    (netlist({"u": cell("DFFE", {"D": A, "E": ["1"], "CK": B, "Q": [], "QN": Y}), "v": cell("FILL", {})}, **TWO), "0 a 1\n0 b 0\n1ns b 1\n", [],
     "0 U, 1000000 0"),
    # pins for power
    (netlist({"u": cell("INVP", {"A": A, "VDD": ["1"], "VSS": [9], "Y": Y})}), "0 a 0\n1ns a 1\n", [], "0 U, 0 1, 1000000 0"),
    # two drivers of a bus
    (netlist({"u": cell("TBUF", {"A": A, "EN": B, "Y": Y}), "v": cell("TINV", {"A": A, "Z": B, "Y": Y})}, **TWO), "0 a 1\n0 b 0\n1ns b 1\n", [],
     "0 U, 0 0, 1000000 1"),
]


def is_listed(programs, folder, given, stimuli, words, wanted):
    demand_listed(listing_of(programs, folder, CELLS, given, stimuli, words), wanted)


# ------------------------------------------------------------------------------------------- refusals
HEAD = "library (l) {\n"
INVERTER = 'cell (INV) { pin (A) { direction : input; }\n pin (Y) { direction : output; function : "A\'"; } }\n'
USED = netlist({"u": cell("X", {"A": A, "Y": Y}, attributes={"src": "uart.v:28.62"})})


def with_function(text):
    """Returns a library whose cell X has this function, on its third line."""
    return HEAD + f"cell (X) {{ pin (A) {{ direction : input; }}\n pin (Y) {{ direction : output; function : \"{text}\"; }} }} }}\n"


def with_group(text):
    """Returns a library whose cell X begins with this text, on its second line."""
    return HEAD + f"cell (X) {{ {text}\n pin (A) {{ direction : input; }}\n pin (Y) {{ direction : output; function : \"A\"; }} }} }}\n"


# a library, a netlist, and what is told, where L stands for the path
REFUSED = [
    ("", USED, "the Liberty file L: there is no library"),
    ("cell (X) { }", USED, "the Liberty file L: 1: 'library (NAME) {' is wanted"),
    (HEAD, USED, "the Liberty file L: 2: the file ends, where a closing brace is wanted"),
    (HEAD + "cell (X) { pin (A) { direction : input;", USED, "the Liberty file L: 2: the file ends, where a closing brace is wanted"),
    (HEAD + "cell (X) { timing () { {", USED, "the Liberty file L: 2: the file ends, where a closing brace is wanted"),
    (HEAD + "cell (X", USED, "the Liberty file L: 2: the file ends, where a closing parenthesis is wanted"),
    (HEAD + "date : \"today", USED, "the Liberty file L: 2: a quotation mark does not close"),
    (HEAD + "/* a comment", USED, "the Liberty file L: 2: a comment or a backslash stands where none may"),
    (HEAD + "area 1;", USED, "the Liberty file L: 2: '1' stands where a colon or a parenthesis is wanted"),
    (HEAD + "area : ;", USED, "the Liberty file L: 2: ';' stands where a value is wanted"),
    (HEAD + "{ }", USED, "the Liberty file L: 2: '{' stands where a statement is wanted"),
    (HEAD + "cell () { } }", USED, "the Liberty file L: 2: a cell has no name"),
    (HEAD + INVERTER + INVERTER + "}", USED, "the Liberty file L: 4: cell INV is there twice"),
    (HEAD + "include_file (\"more.lib\");\n}", USED, "the Liberty file L: 2: include_file is not supported"),
    (HEAD + INVERTER + "}", USED, "the netlist: uart.v:28.62: cell X: no Liberty file has such a cell"),
    (HEAD + INVERTER + "}", netlist({"u": cell("$add", {})}), "the netlist: cell u of type $add: run memory_map, techmap"),
    (with_function("A'").replace("(A)", "(B)"), USED, "cell X: the Liberty file L: 3: cell X, pin Y: the function 'A'': it names what is no pin"),
    (with_function("A*"), USED, "3: cell X, pin Y: the function 'A*': an operand is missing"),
    (with_function(""), USED, "3: cell X, pin Y: the function '': an operand is missing"),
    (with_function("A**A"), USED, "3: cell X, pin Y: the function 'A**A': an operand is missing"),
    (with_function("(A"), USED, "3: cell X, pin Y: the function '(A': a parenthesis does not close"),
    (with_function("A)"), USED, "3: cell X, pin Y: the function 'A)': a parenthesis is not opened"),
    (with_function("()"), USED, "3: cell X, pin Y: the function '()': an operand is missing"),
    (with_function("'A"), USED, "3: cell X, pin Y: the function ''A': an operand is missing"),
    (with_function("A%A"), USED, "3: cell X, pin Y: the function 'A%A': it has a sign that no function has"),
    (with_function("A" + "+A" * 500), USED, "it is too long"),
    (with_function("!(A+" * 60 + "A" + ")" * 60), USED, "it is too deep"),
    (with_group('statetable ("A", "IQ") { table : "H : - : H"; }'), USED, "uart.v:28.62: cell X: the Liberty file L: 2: cell X: a statetable is not supported"),
    (with_group('statetable ("A", "IQ") { table : "H : - : H"; }').replace('function : "A"', 'internal_node : "IQ"'), USED,
     "the Liberty file L: 2: cell X, pin Y: a statetable is not supported"),
    (with_group("bus (D) { bus_type : eight; }"), USED, "the Liberty file L: 2: cell X, pin D: a bus is not supported"),
    (with_group("bundle (D) { members (low, high); }"), USED, "the Liberty file L: 2: cell X, pin D: a bundle is not supported"),
    (with_group('ff (I, N) { next_state : "A"; }'), USED, "the Liberty file L: 2: cell X: an ff has both clocked_on and next_state"),
    (with_group('latch (I, N) { enable : "A"; }'), USED, "2: cell X: a latch has both enable and data_in, or both clear and preset"),
    (with_group('ff (I, N) { next_state : "A"; clocked_on : "A"; clocked_on_also : "A\'"; }'), USED, "2: cell X: a second clock or enable is not supported"),
    (with_group('ff (I, N) { next_state : "A"; clocked_on : "A"; } ff (J, M) { next_state : "A"; clocked_on : "A"; }'), USED,
     "2: cell X: a second ff or latch is not supported"),
    (with_group('ff (I, N) { next_state : "A"; clocked_on : "A"; clear_preset_var1 : T; }'), USED, "2: cell X: a variable that is not L, H, N or X"),
    (with_group('ff (I, N) { next_state : "B"; clocked_on : "A"; }'), USED, "2: cell X: the function 'B': it names what is no pin of the cell"),
    (with_group("pin (A) { direction : input; }"), USED, "3: cell X, pin A: it is there twice"),
    (with_function("A"), netlist({"u": cell("X", {"A": A, "Z": Y})}), "cell u of type X: its pin Z is not in its Liberty file"),
    (with_function("A"), netlist({"u": cell("X", {"Y": Y})}), "cell u of type X: its pin A is not connected with one bit"),
    (with_function("A"), netlist({"u": cell("X", {"A": [2, 2], "Y": Y})}), "cell u of type X: its pin A is not connected with one bit"),
    (with_function("A"), netlist({"u": cell("X", {"A": A, "Y": ["0"]})}), "cell u of type X: its output Y is connected with a constant"),
    (with_function("A").replace("function", "fonction"), USED, "cell X: its pin Y has no function in its Liberty file"),
    (with_function("A"), netlist({"u": cell("X", {"A": Y, "Y": [4]}), "v": cell("X", {"A": [4], "Y": Y})}, y=TWO["y"]), "y is in a loop of wires"),
]


def is_library_refused(program, folder, text, given, told):
    path = put(folder, "refused.lib", text)
    is_refused(program, folder, given, "", ["--liberty", path], told.replace("file L:", f"file {path}:"))


def are_one_library(programs, folder):
    """Demands that a netlist may have cells of two files, and that no cell is in both."""
    path = put(folder, "second.lib", with_function("A'"))
    given = netlist({"u": cell("INV", {"A": A, "Y": [9]}), "v": cell("X", {"A": [9], "Y": Y})})
    lines = listing_of(programs, folder, CELLS, given, "0 a 0\n1ns a 1\n", ["--liberty", path])
    demand([it for it in lines if it[1] == "y"] == [(0, "y", "U"), (0, "y", "0"), (10**6, "y", "1")], f"{lines}")
    is_refused(programs[1], folder, given, "", ["--liberty", CELLS, "--liberty", CELLS], f"the Liberty file {CELLS}: 11: cell TIE1 is there twice")


def is_not_utf8(programs, folder):
    """Demands that a file may have letters of another encoding where no name stands."""
    path = f"{folder}/latin.lib"
    with open(path, "wb") as file:
        file.write(b"/* \xa9 */ library (l\xe9) { comment : \"\xfc\";\n" + INVERTER.encode() + b"}\n")
    listing_of(programs, folder, path, netlist({"u": cell("INV", {"A": A, "Y": Y})}), "0 a 0\n1ns a 1\n")


# ------------------------------------------------------------------------------------------- damaged files
def are_damaged(programs, folder, count):
    """Demands that a file with one token changed or removed ends in a text that vsim reads, or in a refusal."""
    with open(CELLS, encoding="utf-8") as file:
        tokens = re.findall(r'"(?:[^"\\]|\\.)*"|[^\s(){}:;,"]+|[(){}:;,"]|\s+', file.read())
    given = instances(read_cells(CELLS), 7)[0].encode()
    signs = ["", "", "(", ")", "{", "}", ";", ":", ",", '"', "\\", "/*", "//", "A", "IQ", '"A*"', "direction"]
    are_read_or_refused(programs, given, tokens, signs, lambda text: ["--liberty", put(folder, "damaged.lib", text)], SECONDS, count)


def tests_of(programs, folder, damaged):
    yield "functions", lambda: are_functions_right(programs, folder)
    for package, library in {"": CELLS, **OTHERS}.items():
        if not os.path.exists(library):
            print(f"{library}: skipped: apt-get install {package}")
            continue
        for seed, words in enumerate(([], ["--delays", "others=10ps"], ["--delays", "others=10ps/20ps,dff=30ps,latch=5ps,tbuf=7ps"])):
            yield f"{os.path.basename(library)} {' '.join(words)}", lambda *row, library=library, words=words, seed=seed: \
                is_like_reference(programs, folder, library, words, seed)
    for row in LISTED:
        yield f"y is {row[3]}", lambda row=row: is_listed(programs, folder, *row)
    for row in REFUSED:
        yield row[2], lambda row=row: is_library_refused(programs[1], folder, *row)
    yield "two files", lambda: are_one_library(programs, folder)
    yield "another encoding", lambda: is_not_utf8(programs, folder)
    yield "damaged files", lambda: are_damaged(programs, folder, damaged)


if __name__ == "__main__":
    main(__doc__, tests_of)

"""The designs of whole runs, each with its own shape: how wide a cycle is, how deep its delta cycles go, how heavy its bodies
are. Each is legal for vsim and for any VHDL-2008 simulator.

    shapes.py FOLDER        writes each as NAME.vhd, for top `t`, and its stop time in femtoseconds as NAME.stop
"""
import os
import random
import sys

NS = 1_000_000
CONTEXT = "library ieee; use ieee.std_logic_1164.all;\n"
CLOCK = "clk <= not clk after 5 ns;\n"
EDGE = 5 * NS


def declared(names, first="'0'"):
    """A declaration of signals, some on each line."""
    rows = [names[i : i + 100] for i in range(0, len(names), 100)]
    return "".join(f"signal {','.join(row)}: std_logic := {first};\n" for row in rows)


def numbered(letter, count):
    return [f"{letter}{i}" for i in range(count)]


def design(declarations, statements):
    """The text of entity `t`."""
    return f"{CONTEXT}entity t is end;\narchitecture a of t is\n{declarations}begin\n{''.join(statements)}end;\n"


def initialized(count, chance):
    """Declarations of a clock and of signals with initial values at random."""
    return declared(["clk"]) + "".join(f"signal q{i}: std_logic := '{chance.getrandbits(1)}';\n" for i in range(count))


def clock(edges):
    """One inverter: a cycle of one event an edge."""
    return design(declared(["clk"]), [CLOCK]), edges * EDGE


def deltas(edges):
    """A clock, followed by nine inverters without delay: ten cycles of one event for each edge."""
    names = ["clk", *numbered("z", 9)]
    stages = [f"{target} <= not {source};\n" for source, target in zip(names, names[1:])]
    return design(declared(names), [CLOCK, *stages]), edges * EDGE


def shift(count, edges):
    """A ring of flip-flops on one clock, filled at random."""
    first = initialized(count, random.Random(count))
    stages = [f"process (clk) begin if rising_edge(clk) then q{i} <= q{i - 1 if i else count - 1}; end if; end process;\n" for i in range(count)]
    return design(first, [CLOCK, *stages]), edges * EDGE


def counters(count, bits, edges):
    """Ripple counters: each bit is the clock of the next."""

    def stage(i):
        source = f"q{i - 1}" if i % bits else "clk"
        return f"process ({source}) begin if falling_edge({source}) then q{i} <= not q{i}; end if; end process;\n"

    names = numbered("q", count * bits)
    return design(declared(["clk", *names]), [CLOCK, *map(stage, range(len(names)))]), edges * EDGE


def feedback(count, edges):
    """A shift register whose first bit is made of its last ones, and a copy of it whose bits each ask the one before."""
    first = initialized(count, random.Random(count)) + declared(numbered("r", count))
    taps = " xor ".join(f"q{i}" for i in (count - 1, count - 2, count // 2, 1))
    stages = [f"process (clk) begin if rising_edge(clk) then q{i} <= {f'q{i - 1}' if i else taps}; end if; end process;\n" for i in range(count)]
    asking = [f"process (clk) begin if rising_edge(clk) then if q{i - 1} = '1' then r{i} <= q{i}; end if; end if; end process;\n" for i in range(1, count)]
    return design(first, [CLOCK, *stages, *asking]), edges * EDGE


def tangle(count, edges):
    """Flip-flops whose inputs are gates of two others, chosen at random."""
    chance = random.Random(count)
    stages = []
    for i in range(count):
        left, right = chance.randrange(count), chance.randrange(count)
        stages.append(f"g{i} <= q{left} {chance.choice(OPERATORS)} q{right};\n")
        stages.append(f"process (clk) begin if rising_edge(clk) then q{i} <= g{i}; end if; end process;\n")
    return design(initialized(count, chance) + declared(numbered("g", count)), [CLOCK, *stages]), edges * EDGE


class Gates:
    """Gates with two inputs, each a concurrent assignment to its own signal."""

    def __init__(self, delays):
        self.statements, self.chance, self.delays = [], random.Random(42), delays

    def add(self, left, operator, right):
        delay = f" after {self.chance.randrange(100, 700, 10)} ps" if self.delays else ""
        output = f"g{len(self.statements)}"
        self.statements.append(f"{output} <= {left} {operator} {right}{delay};\n")
        return output

    def sum(self, *inputs):
        """The sum bit and the carry of two or three bits; no carry of one."""
        if len(inputs) == 1:
            return inputs[0], None
        left, right, *carry = inputs
        half, both = self.add(left, "xor", right), self.add(left, "and", right)
        if not carry:
            return half, both
        return self.add(half, "xor", carry[0]), self.add(both, "or", self.add(half, "and", carry[0]))


def multiplier(bits, delays, changes):
    """An array multiplier, whose factors change at each edge of a slow clock."""
    gates, chance = Gates(delays), random.Random(7)
    factors = "".join(f"signal {name}: std_logic := '{chance.getrandbits(1)}';\n" for letter in "ab" for name in numbered(letter, bits))
    registers = []
    for letter in "ab":
        for i in range(bits):
            mixed = f" xor {letter}{bits - 1}" if i and chance.getrandbits(1) else ""
            source = f"{letter}{i - 1 if i else bits - 1}{mixed}"
            registers.append(f"process (clk) begin if clk'event then {letter}{i} <= {source}; end if; end process;\n")
    row = [gates.add(f"a{i}", "and", "b0") for i in range(bits)]
    for j in range(1, bits):
        carry, above, row = None, row[1:], []
        for i in range(bits):
            product = gates.add(f"a{i}", "and", f"b{j}")
            bit, carry = gates.sum(*(it for it in (product, above[i] if i < len(above) else None, carry) if it))
            row.append(bit)
        row += [carry] if carry else []
    slow = CLOCK.replace("5 ns", "500 ns")
    text = design(declared(["clk", *numbered("g", len(gates.statements))]) + factors, [slow, *registers, *gates.statements])
    return text, changes * 500 * NS


def token(count, steps):
    """A ring of signals, around which one change goes: one event a cycle."""
    stages = [f"s{i} <= {'' if i else 'not '}s{i - 1 if i else count - 1} after 1 ns;\n" for i in range(count)]
    return design(declared(numbered("s", count)), stages), steps * NS


OPERATORS = ("and", "or", "xor", "nand", "nor", "xnor")


def expression(chance, depth, names):
    """A full tree of operators on names."""
    if depth == 0:
        return chance.choice(names)
    left, right = (expression(chance, depth - 1, names) for _ in range(2))
    return f"({left} {chance.choice(OPERATORS)} {chance.choice(('', '', 'not '))}{right})"


def long_process(tree, target):
    """A process of some twenty statements and forty operators on one clock; `tree` makes its expressions, by their depth."""
    return (
        f"process (clk) variable x, y, z, w: std_logic := '0'; variable f, g: boolean; begin if rising_edge(clk) then\n"
        f"x := {tree(4)}; y := {tree(3)};\n"
        f"if x = '1' then z := not z;"
        f" if y = '1' then w := w xor x; if z = w then f := not f; if f then y := z nand w; else y := z nor w; end if; else g := f xor (x = y); end if;"
        f" elsif z = '0' then w := {tree(2)}; else z := {tree(2)}; end if;\n"
        f"elsif f and not g then x := {tree(2)}; if x /= y then z := y; else z := w; end if; else g := not g; end if;\n"
        f"w := {tree(2)}; if f xor g then {target} <= w; else {target} <= {tree(1)}; end if;\n"
        f"end if; end process;\n"
    )


def heavy(count, edges):
    """Long processes on one clock."""
    chance = random.Random(5)

    def process(i):
        names = ["x", "y", "z", "w", f"q{i}", f"q{(i + 1) % count}", f"q{(i + 37) % count}"]
        return long_process(lambda depth: expression(chance, depth, names), f"q{i}")

    return design(initialized(count, chance), [CLOCK, *map(process, range(count))]), edges * EDGE


def cells(count, edges):
    """Instances of one entity with a long process, on one clock."""
    chance = random.Random(5)
    process = long_process(lambda depth: expression(chance, depth, ["x", "y", "z", "w", "a", "b", "q"]), "q")
    cell = f"entity cell is port (clk, a, b: in std_logic; q: inout std_logic); end;\narchitecture r of cell is begin\n{process}end;\n"
    instances = (f"c{i}: entity work.cell port map (clk, q{(i + 1) % count}, q{(i + 37) % count}, q{i});\n" for i in range(count))
    return CONTEXT + cell + design(initialized(count, chance), [CLOCK, *instances]), edges * EDGE


def bus(count, edges):
    """A signal with many drivers, of which one at a time drives and the others are at 'Z'."""
    names = numbered("e", count)
    first = "signal e0: std_logic := '1';\n" + declared(names[1:]) + "signal b: std_logic;\n"
    stages = [
        f"process (clk) begin if rising_edge(clk) then {name} <= {names[i - 1]}; end if; end process;\nb <= clk when {name} = '1' else 'Z';\n"
        for i, name in enumerate(names)
    ]
    return design(declared(["clk"]) + first, [CLOCK, *stages]), edges * EDGE


SHAPES = {
    "clock": lambda: clock(1_000_000),
    "deltas": lambda: deltas(99_000),
    "shift_64": lambda: shift(64, 200_000),
    "shift_1024": lambda: shift(1024, 12_000),
    "shift_8000": lambda: shift(8000, 1_600),
    "counters": lambda: counters(1000, 8, 1_500),
    "multiplier": lambda: multiplier(42, False, 30),
    "multiplier_delays": lambda: multiplier(42, True, 6),
    "token": lambda: token(16_000, 60_000),
    "heavy": lambda: heavy(1000, 4_000),
    "bus": lambda: bus(4000, 1_500),
}

# the same at other sizes, and two more
OTHERS = {
    "shift_16": lambda: shift(16, 400_000),
    "shift_256": lambda: shift(256, 40_000),
    "shift_4096": lambda: shift(4096, 3_000),
    "feedback": lambda: feedback(100, 60_000),
    "tangle": lambda: tangle(2000, 3_000),
    "counters_4": lambda: counters(250, 4, 8_000),
    "multiplier_24": lambda: multiplier(24, False, 150),
    "token_2000": lambda: token(2000, 60_000),
    "heavy_250": lambda: heavy(250, 8_000),
    "bus_1000": lambda: bus(1000, 6_000),
}


def main():
    folder = sys.argv[1]
    os.makedirs(folder, exist_ok=True)
    for name, shape in SHAPES.items():
        text, stop = shape()
        with open(f"{folder}/{name}.vhd", "w", encoding="ascii") as file:
            file.write(text)
        with open(f"{folder}/{name}.stop", "w", encoding="ascii") as file:
            file.write(f"{stop}\n")
        print(f"{name}: {len(text)} bytes, stop {stop}")


if __name__ == "__main__":
    main()

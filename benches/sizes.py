#!/usr/bin/env python3
"""Measures how text, elaboration and the first cycle grow with a design, up to the limits of `--large`: `sizes.py PROGRAM [SIZE ..]`.

gates       a tree of inverters, each a concurrent assignment
flip-flops  a shift register, each stage a process on one clock
registers   registers on one clock that each take their own inverse
chain       instances, each of whose inputs is the output of the one before
tree        instances within instances, two in each
drivers     one net with a driver for each process

Each is run with `--large` to time 0 and its listing is discarded: processor seconds and the most memory in MiB, of one run.
"""
import os
import subprocess
import sys
import tempfile

SIZES = (62_500, 125_000, 250_000, 500_000, 1_000_000)
# what a design has beside its pieces, at most: signals and processes
BESIDE = 4
TOP = "entity t is end;architecture a of t is\n"
INVERTER = "entity e is port(i:in std_logic;o:out std_logic);end;architecture a of e is begin o<=not i;end;\n"


def signals(names):
    return "".join(f"signal {it}:std_logic:='0';\n" for it in names)


def flat(count, piece, beside=""):
    """Signals n0 to the last, and a piece for each after the first, with the signal before it, its own, and that of half its number."""
    return TOP + "signal c:std_logic:='0';\n" + signals(f"n{i}" for i in range(count)) + "begin\n" + beside + "".join(
        piece.format(i - 1, i, i // 2) for i in range(1, count)) + "end;\n"


def gates(count):
    return flat(count, "n{1}<=not n{2};\n")


def flip_flops(count):
    return flat(count, "process(c)begin if rising_edge(c)then n{1}<=n{0};end if;end process;\n", "c<=not c after 5 ns;\n")


def registers(count):
    return flat(count, "process(c)begin if rising_edge(c)then n{1}<=not n{1};end if;end process;\n", "c<=not c after 5 ns;\n")


def chain(count):
    # an instance has two ports, which are connected to signals of the top
    return INVERTER + flat(count, "u{1}:entity work.e port map(n{0},n{1});\n")


def tree(count):
    """Entities d1, d2 and so on, each with two of the next; the last has a gate."""
    depth = (count + 2).bit_length() - 2
    leaf = f"entity d{depth} is end;architecture a of d{depth} is signal s:std_logic:='0';begin s<='1';end;\n"
    inner = "".join(f"entity d{i} is end;architecture a of d{i} is begin l:entity work.d{i + 1};r:entity work.d{i + 1};end;\n" for i in reversed(range(1, depth)))
    return leaf + inner + TOP + "begin l:entity work.d1;r:entity work.d1;end;\n"


def drivers(count):
    return TOP + "signal s:std_logic;\nbegin\n" + "s<='0';\n" * count + "end;\n"


SHAPES = {"gates": gates, "flip-flops": flip_flops, "registers": registers, "chain": chain, "tree": tree, "drivers": drivers}


def measured(program, text):
    with tempfile.NamedTemporaryFile("w", suffix=".vhd") as source, open(os.devnull, "wb") as listing:
        source.write(text)
        source.flush()
        with open(source.name, "rb") as file:
            process = subprocess.Popen([program, "--top", "t", "--stop", "0", "--large"], stdin=file, stdout=listing, stderr=subprocess.PIPE)
            err = process.stderr.read()
            _, status, used = os.wait4(process.pid, 0)
    if status:
        sys.exit(f"sizes: {err.decode()}")
    return used.ru_utime + used.ru_stime, used.ru_maxrss >> 10


def main():
    if len(sys.argv) < 2:
        sys.exit(__doc__)
    program, sizes = os.path.abspath(sys.argv[1]), [int(it) for it in sys.argv[2:]] or SIZES
    print("| Shape | " + " | ".join(f"{it:,}" for it in sizes) + " |\n|---|" + "--:|" * len(sizes))
    for name, make in SHAPES.items():
        cells = (measured(program, make(it - BESIDE)) for it in sizes)
        print(f"| {name} | " + " | ".join(f"{seconds:.2f} s, {memory:,} MiB" for seconds, memory in cells) + " |", flush=True)


if __name__ == "__main__":
    main()

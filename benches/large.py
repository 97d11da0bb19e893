#!/usr/bin/env python3
"""Measures designs of 16,000 and of 65,000 processes, as many as a text of 1 MiB can have with instances of four: `large.py PROGRAM`.

shift     a shift register on one clock: at each rising edge every process assigns a signal
together  signals that all change at the same time, again and again
token     a ring around which one change goes: one process in a cycle

Each is run to two stop times. From the difference: nanoseconds of a processor for each process that resumes. From the longer
run: the most memory, in bytes for each process. The least of three.
"""
import os
import subprocess
import sys
import tempfile

ENTITY = "entity e is port({ports}); end; architecture a of e is signal x,y,z:std_logic:='0'; begin {statements} end;\n"
FLIP_FLOP = "process(clk) begin if rising_edge(clk) then {1}<={0}; end if; end process;"
NS = 1_000_000


def text(count, ports, statements, actuals, more, signals=""):
    """A chain of instances of four processes each."""
    chain = "".join(f"u{i}:entity work.e port map({actuals}n{i},n{i + 1});\n" for i in range(count))
    names = ",".join(f"n{i}" for i in range(count + 1))
    entity = ENTITY.format(ports=ports, statements=statements)
    return f"{entity}entity t is end; architecture a of t is signal {signals}{names}:std_logic:='0'; begin {more}\n{chain}end;\n"


def shift(count):
    stages = "".join(FLIP_FLOP.format(*pair) for pair in zip(("d", "x", "y", "z"), ("x", "y", "z", "q")))
    return text(count, "clk,d:in std_logic; q:out std_logic:='0'", stages, "clk,", "clk<=not clk after 5 ns; n0<=not n0 after 20 ns;", "clk,")


def together(count):
    stages = "".join(f"{name}<=not {name} after 5 ns;" for name in "xyz") + "q<=not z after 5 ns;"
    return text(count, "d:in std_logic; q:out std_logic:='0'", stages, "", "")


def token(count):
    stages = "".join(f"{target}<={source} after 1 ns;" for source, target in zip("dxyz", "xyzq"))
    return text(count, "d:in std_logic; q:out std_logic:='0'", stages, "", f"n0<=not n{count} after 1 ns;")


def once(program, source, stop):
    """Processor seconds and memory in bytes of a run whose listing is discarded."""
    words = [program, "--top", "t", "--stop", str(stop), "--limit", "1000000"]
    with open(source, "rb") as file, open(os.devnull, "wb") as listing:
        process = subprocess.Popen(words, stdin=file, stdout=listing, stderr=subprocess.PIPE)
        err = process.stderr.read()
        _, status, used = os.wait4(process.pid, 0)
    if status:
        sys.exit(f"large: {err.decode()}")
    return used.ru_utime + used.ru_stime, used.ru_maxrss << 10


def least(program, source, stop):
    runs = [once(program, source, stop) for _ in range(3)]
    return min(run[0] for run in runs), min(run[1] for run in runs)


# for each: its text, how many of its processes resume in a nanosecond, and how many in all
SHAPES = {
    "shift": (shift, lambda processes: processes / 5, 8_000_000),
    "together": (together, lambda processes: processes / 5, 8_000_000),
    "token": (token, lambda processes: 1, 100_000),
}


def main():
    if len(sys.argv) != 2:
        sys.exit(__doc__)
    program = os.path.abspath(sys.argv[1])
    print("| Shape | Processes | ns per execution | Bytes per process |\n|---|--:|--:|--:|")
    for name, (make, resumed, budget) in SHAPES.items():
        for count in (4_000, 16_250):
            processes = 4 * count
            span = int(budget / resumed(processes))
            with tempfile.NamedTemporaryFile("w", suffix=".vhd") as source:
                source.write(make(count))
                source.flush()
                short, _ = least(program, source.name, span * NS)
                long, memory = least(program, source.name, 2 * span * NS)
            print(f"| {name} | {processes:,} | {(long - short) / budget * 1e9:.1f} | {memory / processes:,.0f} |", flush=True)
    return 0


if __name__ == "__main__":
    sys.exit(main())

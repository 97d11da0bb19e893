#!/usr/bin/env python3
"""Tests the script vsim_gates.

    gates.py VSIM VSIM_NETLIST VSIM_WAVES VSIM_COMPARE

First where no tool is needed: words that are refused, and tools that are missing. Then with tools that are scripts of this test, which put
a netlist and a VCD of netlists/ in place: each command is printed as it is carried out, and the printed commands, typed into a shell in a
folder of their own, give the same waves; a command that fails ends all, and gates that differ from their source are told. At last with
Yosys, Icarus and GHDL, where they are installed: the designs of netlists/designs/ in Verilog and in VHDL, with test benches in both
languages. The last line is `N passed, M failed`.
"""
import os
import re
import shutil
import subprocess
import sys
import tempfile

TOP = os.path.dirname(os.path.dirname(os.path.realpath(__file__)))
NETLISTS = f"{TOP}/tests/netlists"
COUNTER, BENCH = f"{NETLISTS}/counter.v", f"{NETLISTS}/counter_tb.v"
FIR, FIR_BENCH = f"{NETLISTS}/designs/fir.vhd", f"{NETLISTS}/designs/fir_tb.v"
PROGRAMS = ["vsim", "vsim_netlist", "vsim_waves", "vsim_compare"]
# a test bench in VHDL of an inverter in VHDL
INVERTER = """\
library ieee; use ieee.std_logic_1164.all;
entity inverter is port (i : in std_logic; o : out std_logic); end;
architecture a of inverter is begin o <= not i; end;
"""
BENCH_OF_INVERTER = """\
library ieee; use ieee.std_logic_1164.all;
entity bench is end;
architecture a of bench is
  signal i, o : std_logic;
begin
  dut : entity work.inverter port map (i, o);
  process begin i <= '0'; wait for 5 ns; i <= '1'; wait for 5 ns; i <= '0'; wait for 5 ns; wait; end process;
end;
"""
# tools that put files in place
TOOLS = {
    "yosys": f"cp {NETLISTS}/counter.json netlist.json",
    "iverilog": "touch bench",
    "vvp": f"cp {NETLISTS}/counter.vcd counter.vcd",
}
# words, the status, and a part of what is told on standard error
REFUSED = [
    ([COUNTER], 2, "--top"),
    (["--top", "counter"], 2, "SOURCE"),
    (["--top", "counter", "--tb", BENCH, "--stimuli", f"{NETLISTS}/counter.vcd", COUNTER], 2, "--tb and --stimuli exclude each other"),
    (["--top", "counter", "--clock", "clk", COUNTER], 2, "--clock needs --tb"),
    (["--top", "counter", COUNTER, FIR], 2, "the sources are of both languages"),
    (["--top", "counter", "--tb", FIR, COUNTER], 2, "a test bench in VHDL needs sources in VHDL"),
    (["--top", "counter", "counter.json"], 2, "counter.json is neither Verilog"),
    (["--top", "counter", "none.v"], 2, "none.v is no file"),
]
# the tools that are there, words, and the one that is missing
MISSING = [
    ([], ["--top", "counter", COUNTER], "yosys is missing: apt install yosys"),
    (["yosys"], ["--top", "fir", FIR], "ghdl is missing: apt install ghdl"),
    (["yosys"], ["--top", "counter", "--tb", BENCH, COUNTER], "iverilog is missing: apt install iverilog"),
    (["yosys", "iverilog"], ["--top", "counter", "--tb", BENCH, COUNTER], "vvp is missing: apt install iverilog"),
]


class Fault(Exception):
    """What is not as it is to be."""


def demand(holds, text):
    if not holds:
        raise Fault(text)


class Room:
    """A folder with the script beside the programs, and a folder for tools."""

    def __init__(self, folder, programs):
        self.folder, self.tools = folder, f"{folder}/tools"
        os.makedirs(f"{folder}/bin")
        os.makedirs(self.tools)
        self.script = shutil.copy(f"{TOP}/vsim_gates", f"{folder}/bin/vsim_gates")
        for name, path in zip(PROGRAMS, programs):
            os.symlink(os.path.abspath(path), f"{folder}/bin/{name}")

    def put_tools(self, **tools):
        """Puts tools in place, each with its commands, and removes others."""
        shutil.rmtree(self.tools)
        os.makedirs(self.tools)
        for name, commands in tools.items():
            with open(f"{self.tools}/{name}", "w", encoding="utf-8") as file:
                file.write(f"#!/bin/sh\n{commands}\n")
            os.chmod(f"{self.tools}/{name}", 0o755)

    def run(self, words, path=None):
        """Returns the status, the output and the errors of the script, with the tools of this test alone unless a path is given."""
        env = {**os.environ, "PATH": path or self.tools}
        ran = subprocess.run([sys.executable, self.script, *words], cwd=self.folder, env=env, stdin=subprocess.DEVNULL, stdout=subprocess.PIPE,
                             stderr=subprocess.PIPE, timeout=600)
        return ran.returncode, ran.stdout.decode(), ran.stderr.decode()


def is_refused(room, words, status, told):
    got, out, said = room.run(words)
    demand((got, out) == (status, "") and told in said, f"status {got} for {words}: {out}{said}")


def is_missing(room, tools, words, told):
    room.put_tools(**{it: TOOLS[it] for it in tools})
    got, out, said = room.run(words)
    demand((got, out, said) == (4, "", f"vsim_gates: {told}, or see its own page\n"), f"status {got}: {out}{said}")


def has_help(room):
    status, out, said = room.run(["--help"])
    demand(status == 0 and not said and "vsim_gates --top NAME" in out and "--tribuf" in out, f"status {status}: {out}{said}")


def read(path):
    with open(path, "rb") as file:
        return file.read()


def is_typed(room):
    """Demands that the commands are printed as they can be typed, and give the same waves then."""
    # (the tools of this test call others)
    room.put_tools(**TOOLS)
    path = f"{room.tools}:{os.environ['PATH']}"
    status, out, said = room.run(["--top", "counter", "--tb", BENCH, "--folder", "first", COUNTER], path)
    demand(status == 0 and not said, f"status {status}: {said}")
    head, *commands, told, comparison, result = out.splitlines()
    commands.append(comparison)
    names = [os.path.basename(line.split()[0]) for line in commands]
    demand(names == ["iverilog", "vvp", "yosys", "vsim_netlist", "vsim", "vsim_waves", "vsim_compare"], f"the commands are {names}")
    demand((head, told) == ("cd first", "vsim_gates: the waves are first/gates.vcd"), f"{head} .. {told}")
    demand(re.fullmatch(r"0 of [1-9]\d* nets differ, in 0 of [1-9]\d* changes", result), result)
    waves = read(f"{room.folder}/first/gates.vcd")
    demand(b"$scope module counter $end" in waves and waves.count(b"\n#") > 10, "the waves lack changes")
    os.makedirs(f"{room.folder}/second")
    how = {"cwd": f"{room.folder}/second", "env": {**os.environ, "PATH": path}, "stdout": subprocess.DEVNULL}
    typed = subprocess.run(["sh", "-e", "-c", "\n".join(commands)], **how)
    demand(typed.returncode == 0 and read(f"{room.folder}/second/gates.vcd") == waves, "the commands give other waves when typed")


def is_different(room, words, time):
    """Demands that gates that differ from the source are told: the register `sum` when it is cleared."""
    room.put_tools(**{**TOOLS, "vvp": f"sed 's/^b1010 %$/b1011 %/' {NETLISTS}/counter.vcd > counter.vcd"})
    folder = f"different{len(words)}"
    status, out, said = room.run(["--top", "counter", "--tb", BENCH, "--folder", folder, *words, COUNTER], f"{room.tools}:{os.environ['PATH']}")
    demand(status == 1 and said.endswith("vsim_compare ended with status 1\n"), f"status {status}: {said}")
    demand(f"\n{time} sum 1010 1011\n" in out, out)


def ends_with_failure(room):
    """Demands that a command that fails ends all, and is named."""
    room.put_tools(**{**TOOLS, "yosys": "exit 3"})
    status, out, said = room.run(["--top", "counter", "--folder", "third", COUNTER], f"{room.tools}:{os.environ['PATH']}")
    demand(status == 1 and "yosys ended with status 3" in said and "vsim_netlist" not in out, f"status {status}: {out}{said}")


def is_run(room, tools, words, wanted):
    """Runs a design with the tools that are installed; returns which is missing, if one is."""
    lacks = [it for it in tools if shutil.which(it) is None]
    if lacks:
        return f"skipped, as {lacks[0]} is not installed"
    status, out, said = room.run(words, os.environ["PATH"])
    demand(status == 0, f"status {status}: {out}{said}")
    waves = read(f"{room.folder}/{words[words.index('--folder') + 1]}/gates.vcd").decode()
    lacks = [it for it in wanted if it not in waves]
    demand(not lacks, f"the waves lack {lacks}")
    return None


def put(path, text):
    with open(path, "w", encoding="utf-8") as file:
        file.write(text)
    return path


def runs(room):
    """Yields designs with the tools that they need, their words, and what the waves must have."""
    uart = [f"{NETLISTS}/designs/uart.v", f"{NETLISTS}/designs/uart_tb.v"]
    yield ["yosys", "iverilog"], ["--top", "uart", "--folder", "uart", "--tb", uart[1], uart[0]], ["$scope module uart $end", " tx_data [7:0] $end"]
    yield ["yosys", "iverilog", "ghdl"], ["--top", "fir", "--folder", "fir", "--tb", FIR_BENCH, FIR], ["$scope module fir $end"]
    source, bench = put(f"{room.folder}/inverter.vhd", INVERTER), put(f"{room.folder}/bench.vhd", BENCH_OF_INVERTER)
    # (o is the inverse of i, which rises at 5 ns and falls at 10 ns)
    yield ["yosys", "ghdl"], ["--top", "inverter", "--folder", "inverter", "--tb", bench, source], ["#5000000\n", "#10000000\n", " o $end"]
    lines = put(f"{room.folder}/lines", "0 clk 0\n0 clear 1\n0 enable 0\n0 step 0\n5ns clk 1\nend 10ns\n")
    yield ["yosys"], ["--top", "counter", "--folder", "lines_of", "--stimuli", lines, COUNTER], ["$scope module counter $end", "#5000000\n"]


def tests(room):
    """Yields the name of each test, and the test."""
    yield "help", lambda: has_help(room)
    for row in REFUSED:
        yield row[2], lambda row=row: is_refused(room, *row)
    for row in MISSING:
        yield row[2], lambda row=row: is_missing(room, *row)
    yield "commands that are typed", lambda: is_typed(room)
    # (sum is cleared at 2 ns, and the clock rises first at 5 ns)
    yield "gates that differ", lambda: is_different(room, [], 2000000)
    yield "gates that differ at a clock", lambda: is_different(room, ["--clock", "clk"], 5000000)
    yield "a command that fails", lambda: ends_with_failure(room)
    for tools, words, wanted in runs(room):
        yield f"{words[1]} by {', '.join(tools)}", lambda tools=tools, words=words, wanted=wanted: is_run(room, tools, words, wanted)


def main(programs):
    passed = failed = 0
    with tempfile.TemporaryDirectory() as folder:
        for name, test in tests(Room(folder, programs)):
            try:
                said = test()
                passed += 1
            except Fault as fault:
                said = fault
                failed += 1
            if said:
                print(f"gates: {name}: {said}")
    print(f"{passed} passed, {failed} failed")
    return 1 if failed else 0


if __name__ == "__main__":
    if len(sys.argv) != 5:
        sys.exit(__doc__)
    sys.exit(main(sys.argv[1:]))

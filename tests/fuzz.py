#!/usr/bin/env python3
"""Runs random designs and damaged texts through the program.

    fuzz.py PROGRAM [--seed N] [--seconds N] [--workers N ..] [--ghdl COMMAND]

In turn, until the time is over (60 s):
- a legal design is run with one worker and with 2, 7 and 16, or as many as are given: the output is the same, byte for byte. A
  third of the designs are wide: hundreds of instances read the same few signals, so that hundreds of processes resume in a cycle.
  If GHDL is installed (ghdl-mcode), it runs the designs that are not wide too, and each net has the same value at the end of each
  time. Designs in which no statement drives the port q are excepted: GHDL 2.0.0 does not count such a port among the sources of its
  signal, as the standard does (IEEE 1076-2008, 14.7.3.2).
- its text is damaged: the program ends by itself with a status of 0 to 4, its answers with 1 and with 7 workers are the same, and
  with a refusal it writes one line to standard error and nothing to standard output.

Differences are printed, and the text is kept as fuzz-SEED-NUMBER.vhd in the present folder.
"""
import argparse
import os
import random
import re
import shutil
import subprocess
import sys
import tempfile
import time

WORKERS = ["2", "7", "16"]
STOP = 60_000_000
LIMIT = 2000
LONGEST = 60
CONTEXT = "library ieee; use ieee.std_logic_1164.all;\n"
VALUES = "UX01ZWLH-"
OPERATORS = ("and", "or", "xor", "xnor", "nand", "nor")
REFUSAL = re.compile(rb"vsim: [A-Z][A-Za-z]+( at \d+| \d+)?\n")


class Writer:
    """Writes one architecture: statements over signals that may be read and signals that may be assigned."""

    def __init__(self, chance, read, assigned):
        self.chance, self.read, self.assigned = chance, read, assigned

    def literal(self):
        return f"'{self.chance.choice(VALUES + '0101')}'"

    def value(self, names, depth):
        """An expression of type std_ulogic."""
        kind = self.chance.random()
        if depth == 0 or kind < 0.3:
            return self.chance.choice(names) if kind < 0.85 else self.literal()
        if kind < 0.45:
            return f"(not {self.value(names, depth - 1)})"
        return f"({self.value(names, depth - 1)} {self.chance.choice(OPERATORS)} {self.value(names, depth - 1)})"

    def named(self, names):
        """An expression of type std_ulogic that holds a name."""
        name = self.chance.choice(names)
        return self.chance.choice((name, f"(not {name})", f"({name} {self.chance.choice(OPERATORS)} {self.value(names, 1)})"))

    def condition(self, names, signals, depth):
        """What follows when, if and elsif."""
        return self.named(names) if self.chance.random() < 0.2 else self.truth(names, signals, depth)

    def truth(self, names, signals, depth):
        """An expression of type boolean."""
        kind = self.chance.random()
        if depth and kind < 0.25:
            return f"({self.truth(names, signals, depth - 1)} {self.chance.choice(OPERATORS)} {self.truth(names, signals, depth - 1)})"
        if depth and kind < 0.35:
            return f"(not {self.truth(names, signals, depth - 1)})"
        if kind < 0.5:
            return f"{self.chance.choice(('rising_edge', 'falling_edge'))}({self.chance.choice(signals)})"
        if kind < 0.6:
            return f"{self.chance.choice(signals)}'event"
        if kind < 0.7:
            return f"(?? {self.named(names)})"
        return f"({self.chance.choice(names)} {self.chance.choice(('=', '/='))} {self.value(names, 1)})"

    def waveform(self, names):
        times = sorted(self.chance.sample(range(0, 12), self.chance.choice((1, 1, 1, 2, 3))))
        units = self.chance.choice(("ns", "ns", "ps"))
        return times[0], units, ", ".join(f"{self.value(names, 2)} after {at} {units}" for at in times)

    def assignment(self, names):
        """A target, a delay mechanism and a waveform."""
        first, units, waveform = self.waveform(names)
        limit = self.chance.randint(0, first)
        delay = self.chance.choice(("", "", "transport ", "inertial ", f"reject {limit} {units} inertial "))
        return f"{self.chance.choice(self.assigned)} <= {delay}{waveform}"

    def concurrent(self):
        condition = self.condition(self.read, self.read, 1)
        assignment = self.assignment(self.read)
        tails = ["", "", f" when {condition}"]
        # a rejection limit may be above the first time of another waveform
        if "reject" not in assignment:
            tails.append(f" when {condition} else {self.waveform(self.read)[2]}")
        return f"{assignment}{self.chance.choice(tails)};\n"

    def sequence(self, names, variables, depth):
        return " ".join(self.statement(names, variables, depth) for _ in range(self.chance.randint(1, 3)))

    def statement(self, names, variables, depth):
        kind = self.chance.random()
        if depth and kind < 0.4:
            parts = [f"if {self.condition(names, self.read, 1)} then {self.sequence(names, variables, depth - 1)}"]
            if self.chance.random() < 0.4:
                parts.append(f"elsif {self.condition(names, self.read, 1)} then {self.sequence(names, variables, depth - 1)}")
            if self.chance.random() < 0.5:
                parts.append(f"else {self.sequence(names, variables, depth - 1)}")
            return " ".join([*parts, "end if;"])
        if kind < 0.7:
            return f"{self.chance.choice(variables)} := {self.value(names, 2)};"
        return "null;" if kind < 0.74 else f"{self.assignment(names)};"

    def process(self):
        variables = ["v", "w"][: self.chance.randint(1, 2)]
        some = self.chance.sample(self.read, self.chance.randint(1, min(3, len(self.read))))
        sensitivity = self.chance.choice(("all", ", ".join(some), ", ".join(some)))
        first = self.literal()
        body = self.sequence([*self.read, *variables], variables, 2)
        return f"process ({sensitivity}) variable {', '.join(variables)}: std_logic := {first}; begin {body} end process;\n"

    def statements(self, most):
        return "".join(self.chance.choice((self.concurrent, self.process))() for _ in range(self.chance.randint(1, most)))


def lawful(chance, wide=False):
    """A design of one or two entities, for top `t`; a wide one has hundreds of instances, each with its own output."""
    signals = [f"s{i}" for i in range(chance.randint(2, 6))]
    outputs = [f"w{i}" for i in range(chance.randint(100, 400) if wide else 0)]
    declared = "".join(f"signal {it}: std_logic := '{chance.choice(VALUES + '0101')}';\n" for it in signals)
    clock = f"{signals[0]} <= not {signals[0]} after {chance.randint(1, 9)} ns;\n" if chance.random() < 0.6 else ""
    own = Writer(chance, signals, signals[1:]).statements(5)
    targets = outputs or [chance.choice(signals) for _ in range(chance.randint(0, 3))]
    instances = "".join(
        f"u{i}: entity work.e port map ({chance.choice(signals)}, {chance.choice(signals + outputs)}, {target});\n" for i, target in enumerate(targets)
    )
    declared += f"signal {', '.join(outputs)}: std_logic;\n" if wide else ""
    inner = Writer(chance, ["a", "b", "x"], ["x", "q"]).statements(3)
    entity = (
        f"{CONTEXT}entity e is port (a, b: in std_logic; q: out std_logic := 'Z'); end;\n"
        f"architecture a1 of e is signal x: std_logic := '{chance.choice(VALUES)}';\nbegin\n{inner}end;\n"
    )
    return f"{entity if instances else ''}{CONTEXT}entity t is end;\narchitecture a0 of t is\n{declared}begin\n{clock}{own}{instances}end;\n"


def drives_its_port(text):
    """Whether the entity with a port of mode out, if there is one, drives that port."""
    inner, _, _ = text.partition("entity t ")
    return "entity e " not in inner or " q <= " in inner.replace("\n", " ")


def damaged(chance, text):
    """The text with a few bytes, words or stretches changed."""
    found = bytearray(text.encode())
    for _ in range(chance.choice((1, 1, 2, 5))):
        at = chance.randrange(len(found))
        length = chance.choice((1, 1, 4, 30))
        other = chance.randrange(len(found))
        found[at : at + length] = chance.choice((b"", bytes([chance.randrange(256)]), found[other : other + length], found[at : at + length] * 2, b"("))
    return bytes(found)


def answer(program, workers, text):
    """The status of a run, its standard output and its standard error."""
    words = [program, "--top", "t", "--stop", str(STOP), "--limit", str(LIMIT), "--workers", workers]
    try:
        ran = subprocess.run(words, input=text, capture_output=True, timeout=LONGEST)
    except subprocess.TimeoutExpired:
        return "no end", b"", b""
    return ran.returncode, ran.stdout, ran.stderr


def of_listing(listing):
    """For each time at which a net changes: the nets whose value at its end is new, with that value."""
    return settled((int(time), name, value) for time, _, name, value in (line.split() for line in listing.decode().splitlines()[:-1]))


def of_vcd(path):
    """The same for a VCD."""

    def changes():
        scopes, names, now = [], {}, 0
        with open(path, encoding="latin-1") as file:
            for line in file:
                words = line.split()
                if words[:1] == ["$scope"]:
                    scopes.append(words[2])
                elif words[:1] == ["$upscope"]:
                    scopes.pop()
                elif words[:1] == ["$var"]:
                    names.setdefault(words[3], []).append(".".join([*scopes[1:], words[4]]))
                elif line.startswith("#"):
                    now = int(line[1:])
                elif words and words[0][0].upper() in VALUES and words[0][1:] in names:
                    yield from ((now, name, words[0][0].upper()) for name in names[words[0][1:]])

    return settled(changes())


def settled(changes):
    now, before, values, found = 0, {}, {}, []
    for at, name, value in changes:
        if at != now:
            found.append((now, {n: v for n, v in values.items() if before.get(n) != v}))
            now, before = at, dict(values)
        values[name] = value
    found.append((now, {n: v for n, v in values.items() if before.get(n) != v}))
    return [(at, it) for at, it in found if it and at < STOP]


def of_ghdl(command, text):
    """The waves of a design in GHDL, or None if it fails."""
    with tempfile.TemporaryDirectory() as folder:
        with open(f"{folder}/t.vhd", "w", encoding="ascii") as file:
            file.write(text)
        run = ["-r", "--std=08", "t", f"--stop-time={STOP}fs", "--vcd=t.vcd", f"--stop-delta={LIMIT}"]
        for words in (["-a", "--std=08", "t.vhd"], ["-e", "--std=08", "t"], run):
            if subprocess.run([command, *words], cwd=folder, capture_output=True, timeout=LONGEST).returncode:
                return None
        return of_vcd(f"{folder}/t.vcd")


def fault_of_lawful(program, workers, ghdl, text):
    """What is wrong with the answers to a legal design, if anything."""
    answers = [answer(program, it, text.encode()) for it in ("1", *workers)]
    if any(it != answers[0] for it in answers):
        return "the workers differ"
    status, listing, _ = answers[0]
    if status not in (0, 3):
        return f"a lawful text has status {status}: {answers[0][2]!r}"
    other = of_ghdl(ghdl, text) if ghdl and status == 0 else None
    if other is None:
        return None
    own = of_listing(listing)
    names = {name for _, values in own for name in values}
    other = [(at, {n: v for n, v in values.items() if n in names}) for at, values in other]
    return None if own == [it for it in other if it[1]] else "GHDL differs"


def fault_of_damaged(program, text):
    """What is wrong with the answers to a damaged text, if anything."""
    first, second = answer(program, "1", text), answer(program, "7", text)
    if first != second:
        return "the workers differ"
    status, output, error = first
    if status not in range(5):
        return f"status {status}"
    if status and (output or not REFUSAL.fullmatch(error)):
        return f"a refusal with {len(output)} bytes of output and {error!r}"
    return None


def main():
    given = argparse.ArgumentParser()
    given.add_argument("program")
    given.add_argument("--seed", type=int, default=1)
    given.add_argument("--seconds", type=float, default=60)
    given.add_argument("--workers", nargs="+", default=WORKERS)
    given.add_argument("--ghdl", default=shutil.which("ghdl-mcode"))
    given = given.parse_args()
    program, chance, end = os.path.abspath(given.program), random.Random(given.seed), time.monotonic() + given.seconds
    number = wrong = 0
    while time.monotonic() < end:
        wide = chance.random() < 1 / 3
        text = lawful(chance, wide)
        spoilt = damaged(chance, text)
        ghdl = given.ghdl if not wide and drives_its_port(text) else None
        for fault, tried in ((fault_of_lawful(program, given.workers, ghdl, text), text.encode()), (fault_of_damaged(program, spoilt), spoilt)):
            number += 1
            if fault:
                wrong += 1
                name = f"fuzz-{given.seed}-{number}.vhd"
                with open(name, "wb") as file:
                    file.write(tried)
                print(f"fuzz: {name}: {fault}", flush=True)
    print(f"{number} texts, {wrong} with a wrong answer")
    return 1 if wrong else 0


if __name__ == "__main__":
    sys.exit(main())

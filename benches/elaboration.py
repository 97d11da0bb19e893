#!/usr/bin/env python3
"""Measures elaboration: `elaboration.py PROGRAM FOLDER [NAME ..]`, with `vsim_bench` and the texts that texts.py wrote into the folder.

For each text: the least of ten times in one process, in ms, of `parse` and of `flatten`; the most memory of a process with one
of each, in MiB; and the answer.
"""
import re
import subprocess
import sys
from texts import TOPS


def called(program, folder, name, count, before=()):
    """The lines that the program writes to standard output, and what it writes to standard error."""
    words = [*before, program, "elaboration", str(count), TOPS[name]]
    with open(f"{folder}/{name}.vhdl", "rb") as text:
        ran = subprocess.run(words, stdin=text, capture_output=True, text=True, check=True)
    return ran.stdout.splitlines(), ran.stderr


def measured(program, folder, name):
    answers, told = called(program, folder, name, 10)
    assert len(set(answers)) == 1, f"{name}: not one answer"
    times = [map(int, both) for both in re.findall(r"parse: (\d+) us, flatten: (\d+) us", told)]
    parse, flatten = (min(each) / 1000 for each in zip(*times))
    _, told = called(program, folder, name, 1, ["/usr/bin/time", "-f", "%M KiB"])
    memory = int(re.search(r"(\d+) KiB", told)[1]) / 1024
    return f"| {name} | {parse:.1f} | {flatten:.1f} | {memory:.0f} | {answers[0]} |"


def main():
    program, folder, *names = sys.argv[1:]
    print("| Text | `parse`, ms | `flatten`, ms | MiB | Answer |\n|---|---|---|---|---|")
    for name in names or TOPS:
        print(measured(program, folder, name), flush=True)


if __name__ == "__main__":
    main()

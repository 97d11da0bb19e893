#!/usr/bin/env python3
"""Runs all examples side by side with GNU parallel, as docs/RECIPES.md does with hundreds of designs.

    many.py PROGRAM [--jobs N]

One call of `parallel` runs every design of examples/, each with its words. The log must have the status that each must have, and the
status of `parallel` itself must be the number of runs that failed. Two more calls compare the listings and the refusals by `cmp`.
Then one listing is damaged in a copy of the folder, which must be reported. The last line is `N passed, M failed`. If there is no
`parallel`, this is printed, and nothing is tried.
"""
import argparse
import glob
import os
import shlex
import shutil
import subprocess
import sys
import tempfile

EXAMPLES = os.path.join(os.path.dirname(os.path.dirname(os.path.realpath(__file__))), "examples")
DAMAGED = "bus"


def parallel(jobs, command, designs, *more):
    """Runs a command for each design, and returns the status of `parallel`: the number of failures."""
    return subprocess.run(["parallel", "--jobs", str(jobs), *more, command, ":::", *designs], stdin=subprocess.DEVNULL).returncode


def wanted(design):
    """Returns the status that the run of a design must have."""
    path = f"{design[:-4]}.status"
    if not os.path.exists(path):
        return 0
    with open(path, encoding="ascii") as file:
        return int(file.read())


def logged(path, designs):
    """Returns the status of each design in a log of `parallel`."""
    with open(path, encoding="utf-8") as file:
        rows = [line.split("\t") for line in file.readlines()[1:]]
    return {designs[int(row[0]) - 1]: int(row[6]) for row in rows}


def fault_of_statuses(program, designs, jobs, log):
    """Runs designs; returns what is wrong with their statuses, if anything."""
    # (a design that needs other words than these has them in a file beside it)
    run = f"{shlex.quote(program)} $(cat {{.}}.words 2> /dev/null || echo --top t) < {{}} > {{.}}.out 2> {{.}}.said"
    number, found = parallel(jobs, run, designs, "--joblog", log), logged(log, designs)
    for it in designs:
        if found.get(it) != wanted(it):
            return f"the status of {os.path.basename(it)} is {found.get(it)} instead of {wanted(it)}."
    failures = sum(wanted(it) != 0 for it in designs)
    return None if number == failures else f"the status of parallel is {number}, but {failures} runs have another status than 0."


def differing(designs, jobs, came, ending):
    """Returns the number of designs with a file of this ending whose run gave something else."""
    return parallel(jobs, f"cmp -s {{.}}.{came} {{.}}.{ending}", [it for it in designs if os.path.exists(f"{it[:-4]}.{ending}")])


def faults(program, folder, jobs):
    """Yields what is wrong, if anything, of each trial."""
    designs = sorted(glob.glob(f"{folder}/*.vhd"))
    yield fault_of_statuses(program, designs, jobs, f"{folder}/runs.log")
    for came, ending in (("out", "listing"), ("said", "refusal")):
        found = differing(designs, jobs, came, ending)
        yield f"{found} designs have another {ending}." if found else None
    with open(f"{folder}/{DAMAGED}.listing", "a", encoding="ascii") as file:
        file.write("one line more\n")
    found = differing(designs, jobs, "out", "listing")
    yield None if found == 1 else f"{found} designs are reported, but one listing is damaged."


def main():
    given = argparse.ArgumentParser()
    given.add_argument("program")
    given.add_argument("--jobs", type=int, default=4)
    given = given.parse_args()
    if not shutil.which("parallel"):
        print("many: GNU parallel is not installed: nothing was tried.")
        return 0
    with tempfile.TemporaryDirectory() as room:
        found = list(faults(os.path.abspath(given.program), shutil.copytree(EXAMPLES, f"{room}/examples"), given.jobs))
    for it in filter(None, found):
        print(f"many: {it}")
    wrong = len(found) - found.count(None)
    print(f"{len(found) - wrong} passed, {wrong} failed")
    return 1 if wrong else 0


if __name__ == "__main__":
    sys.exit(main())

#!/usr/bin/env python3
"""Measures vsim, and GHDL if it is installed, on the designs of shapes.py, in one run: total processor seconds, from the text
to all changes in a file.

    beside_ghdl.py PROGRAM [--workers N] [--repeat N] [--ghdl COMMAND].. [--root FOLDER] [SHAPE ..]

A shape is one of SHAPES, which are all measured by default, or of OTHERS; `others` is all of these.

For vsim that is one process, with its listing. For GHDL it is the analysis, the elaboration (and what it compiles), and the run
with a VCD. The least of N runs counts (3), and of several GHDLs the fastest. COMMAND is by default each of ghdl-mcode,
ghdl-llvm and ghdl-gcc that is installed; with --root those of the system in that folder are measured too, by chroot.
"""
import argparse
import os
import shutil
import subprocess
import sys
import tempfile

from shapes import OTHERS, SHAPES

GHDLS = ("ghdl-mcode", "ghdl-llvm", "ghdl-gcc")
LONGEST = 300


class Failed(Exception):
    """A command that failed."""


def seconds(words, folder, source=None, output=subprocess.DEVNULL):
    """Processor seconds and MiB of a command."""
    child = subprocess.Popen(["timeout", str(LONGEST), *words], cwd=folder, stdin=source, stdout=output, stderr=subprocess.DEVNULL)
    _, status, usage = os.wait4(child.pid, 0)
    child.returncode = os.waitstatus_to_exitcode(status)
    if child.returncode:
        raise Failed(f"{words[0]}: status {child.returncode}")
    return usage.ru_utime + usage.ru_stime, usage.ru_maxrss / 1024


def of_vsim(program, workers, text, stop):
    """A whole run of vsim: processor seconds, MiB and the last line."""
    with tempfile.TemporaryDirectory() as folder:
        with open(f"{folder}/t.vhd", "w", encoding="ascii") as file:
            file.write(text)
        words = [program, "--top", "t", "--stop", str(stop), "--limit", "1000000", "--workers", str(workers)]
        with open(f"{folder}/t.vhd", "rb") as source, open(f"{folder}/listing", "wb") as listing:
            spent = seconds(words, folder, source, listing)
        with open(f"{folder}/listing", "rb") as listing:
            listing.seek(max(0, os.path.getsize(listing.name) - 60))
            return *spent, listing.read().decode().splitlines()[-1]


def of_ghdl(command, root, text, stop):
    """A whole run of a GHDL: processor seconds of its three steps."""
    with tempfile.TemporaryDirectory(dir=f"{root}/tmp") as folder:
        with open(f"{folder}/t.vhd", "w", encoding="ascii") as file:
            file.write(text)
        inside = folder[len(root) :]
        begin = ["chroot", root, "sh", "-c", 'cd "$0" && exec "$@"', inside] if root else []
        run = [command, "-r", "--std=08", "t"] if command == "ghdl-mcode" else ["./t"]
        steps = [
            [command, "-a", "--std=08", "t.vhd"],
            [command, "-e", "--std=08", "t"],
            [*run, f"--stop-time={stop}fs", "--vcd=t.vcd"],
        ]
        return sum(seconds([*begin, *step], folder)[0] for step in steps)


def least(count, measure):
    """The least of some measurements; None if one fails."""
    try:
        return min(measure() for _ in range(count))
    except Failed as why:
        print(f"beside_ghdl: {why}", file=sys.stderr)
        return None


def main():
    words = argparse.ArgumentParser()
    words.add_argument("program")
    words.add_argument("shapes", nargs="*", default=list(SHAPES))
    words.add_argument("--workers", type=int, default=1)
    words.add_argument("--repeat", type=int, default=3)
    words.add_argument("--ghdl", action="append")
    words.add_argument("--root", default="")
    given = words.parse_intermixed_args()
    shapes = list(OTHERS) if given.shapes == ["others"] else given.shapes
    program = os.path.abspath(given.program)
    commands = given.ghdl or GHDLS
    others = [(it, "") for it in commands if shutil.which(it)]
    others += [(it, given.root) for it in commands if given.root and os.path.exists(f"{given.root}/usr/bin/{it}")]
    print("| Shape | vsim, s | MiB | GHDL, s | ratio | Last line |\n|---|--:|--:|--:|--:|---|")
    for name in shapes:
        text, stop = {**SHAPES, **OTHERS}[name]()
        spent, memory, last = least(given.repeat, lambda: of_vsim(program, given.workers, text, stop)) or (None, None, "")
        peers = [least(given.repeat, lambda it=it: of_ghdl(*it, text, stop)) for it in others]
        peer = min((it for it in peers if it is not None), default=None)
        own = "-" if spent is None else f"{spent:.2f} | {memory:.0f}"
        ratio = "- | -" if peer is None or spent is None else f"{peer:.2f} | {spent / peer:.3f}"
        print(f"| {name} | {own} | {ratio} | {last} |", flush=True)


if __name__ == "__main__":
    main()

#!/usr/bin/env python3
"""Follows the advice of vsim_explain, and compares the result with what was meant.

    advice.py VSIM_EXPLAIN

Each row of ADVICE (advice_texts.py) is a design with a fault, the advice (a part of what is said), the same design with the advice
followed, and its listing, worked out by hand. The faulty design must be refused with that advice, the other one must have that
listing. In a row of ADVICE_ON_RUNS the words of the command line matter too, and the first run may be cut short. Each constant of
the program's sources that is a text must have a part in some row, or be named in SILENT. The last line is `N passed, M failed`.
"""
import glob
import os
import re
import subprocess
import sys

from advice_texts import ADVICE, ADVICE_ON_RUNS, SILENT

TOP = os.path.dirname(os.path.dirname(os.path.realpath(__file__)))


def explained(program, text, words):
    ran = subprocess.run([program, *words.split()], input=text.encode(), stdout=subprocess.PIPE, stderr=subprocess.DEVNULL, timeout=60)
    return ran.stdout.decode(errors="replace"), ran.returncode


def shown(text):
    """Returns a text as it is shown in a message: its end, if it is long."""
    return text if len(text) < 2000 else f"..{text[-2000:]}"


def fault_of(program, advised, refused, wrong, words, right, words_after, listing):
    """Returns what is wrong with a piece of advice, if anything, and what was said."""
    said, status = explained(program, wrong, words)
    told = " ".join(said.split())
    if status != refused or advised not in told:
        return f"{shown(wrong)}is not answered with that advice, but with status {status}:\n{said}", told
    after, status = explained(program, right, f"{words_after} --listing")
    if status != 0 or after.partition("done ")[0] != listing:
        return f"{shown(right)}wanted:\n{listing}got with status {status}:\n{after}", told
    return None, told


def texts():
    """Yields the name and the text of each constant of the program's sources that explains."""
    for path in sorted(glob.glob(f"{TOP}/crates/vsim_explain*/src/*.rt")):
        with open(path, encoding="utf-8") as file:
            for found in re.finditer(r'^(?:pub )?const (\w+): &(?:\'static )?(?:str|\[u8\]) = b?"\\\n(.*?)";$', file.read(), re.M | re.S):
                yield found[1], " ".join(re.sub(r"\\n\\\n|\\n", " ", found[2]).split())


def main():
    program, passed, failed, told = os.path.abspath(sys.argv[1]), 0, 0, []
    rows = [(advised, 1, wrong, "--top t", right, "--top t", listing) for advised, wrong, right, listing in ADVICE]
    for row in rows + ADVICE_ON_RUNS:
        fault, said = fault_of(program, *row)
        told.append(said)
        passed, failed = passed + (not fault), failed + bool(fault)
        if fault:
            print(f"advice: '{row[0]}': {fault}")
    for name, text in texts():
        if name not in SILENT and not any(text in it for it in told):
            failed += 1
            print(f"advice: no row shows the text {name}: {text}")
    print(f"{passed} passed, {failed} failed")
    return 1 if failed else 0


if __name__ == "__main__":
    if len(sys.argv) != 2:
        sys.exit(__doc__)
    sys.dont_write_bytecode = True
    sys.exit(main())

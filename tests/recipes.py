#!/usr/bin/env python3
"""Follows the checks by awk that docs/FROM_GHDL.md and docs/RECIPES.md have.

    recipes.py VSIM

Each row of CHECKS names a check by its page and a part of its command, and has two designs: one in which it finds nothing, so that its
status is 0, and one in which it finds what the row has, so that its status is 1. Where the text is refused, and where the run is cut
short, the status is not 0 either. The last line is `N passed, M failed`.
"""
import os
import subprocess
import sys
import tempfile

TOP = os.path.dirname(os.path.dirname(os.path.realpath(__file__)))
DESIGN = "entity t is end; architecture a of t is signal s, {} : std_logic := '0'; begin {} end;"
# a text that is refused, and one whose run is cut short
REFUSED = "entity t is end"
ENDLESS = DESIGN.format("r", "s <= not s;")
QUIET = DESIGN.format("fault", "s <= '1' after 1 ns; fault <= s and '0';")
# for each check its page, a part of its command, a design in which it finds something, and what it prints
CHECKS = [
    ("FROM_GHDL", '"fault at "', DESIGN.format("fault", "fault <= s; s <= '1' after 1 ns;"), "fault at 1000000 fs\n"),
    ("RECIPES", "n[$1, $3]++", DESIGN.format("b, r", "s <= '1' after 1 ns; b <= s; r <= s xor b;"), "1000000 r\n"),
    ("RECIPES", '$4 == "X"', DESIGN.format("r", "s <= '1'; s <= '0' after 1 ns;"), "0 1 s X\n"),
    ("RECIPES", 'v[n] == "U"', "entity t is end; architecture a of t is signal s : std_logic; begin end;", "s\n"),
]


def command(page, part):
    """Returns the command of a page that has this part, without the run before it or the name of the listing."""
    with open(f"{TOP}/docs/{page}.md", encoding="utf-8") as file:
        found = [line.strip() for line in file if line.startswith("    ") and part in line]
    if len(found) != 1:
        sys.exit(f"recipes: docs/{page}.md has {len(found)} commands with {part}.")
    start = found[0].index("awk ")
    return found[0][start : found[0].rindex("'") + 1]


def answer(vsim, check, design, room):
    """Returns the status of a check of the listing of a design, and what it prints."""
    with open(f"{room}/listing", "wb") as file:
        subprocess.run([vsim, "--top", "t"], input=design.encode(), stdout=file, stderr=subprocess.DEVNULL)
    ran = subprocess.run(["sh", "-c", f"{check} listing"], cwd=room, stdin=subprocess.DEVNULL, stdout=subprocess.PIPE)
    return ran.returncode, ran.stdout.decode()


def faults(vsim, room):
    """Yields what is wrong, if anything, with each answer of each check."""
    for page, part, faulty, told in CHECKS:
        check = command(page, part)
        for design, wanted in ((QUIET, (0, "")), (faulty, (1, told)), (REFUSED, (1, "")), (ENDLESS, (1, ""))):
            got = answer(vsim, check, design, room)
            yield None if got == wanted else f"{check}\n  for {design}\n  answers {got}, not {wanted}"


def main(vsim):
    with tempfile.TemporaryDirectory() as room:
        found = list(faults(vsim, room))
    for it in filter(None, found):
        print(f"recipes: {it}")
    wrong = len(found) - found.count(None)
    print(f"{len(found) - wrong} passed, {wrong} failed")
    return 1 if wrong else 0


if __name__ == "__main__":
    if len(sys.argv) != 2:
        sys.exit(__doc__)
    sys.exit(main(os.path.abspath(sys.argv[1])))

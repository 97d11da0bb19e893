#!/usr/bin/env python3
"""Makes all tables of README.md but that of netlists, one after another: `tables.py VSIM VSIM_BENCH [SUBJECT ..]`.

Each is printed as soon as it is there, under the heading that it has in README.md, by the script that README.md names there. It wants
a machine with nothing else running, `valgrind` and a GHDL; it takes some fifteen minutes.
"""
import os
import re
import statistics
import subprocess
import sys
import tempfile

HERE = os.path.dirname(os.path.realpath(__file__))
# the columns that compare two programs, and are not of the page
LEFT_OUT = ("Listing", "Last line")
# texts, and what is called on each
LONG = {"flip_flops": ("tokens", "parse"), "assignments": ("tokens", "parse"), "instances": ("tokens", "parse"), "one_character": ("tokens",)}
RUNS = 10


def lines_of(words, source=subprocess.DEVNULL):
    """Returns what a command writes to standard output and to standard error."""
    ran = subprocess.run(words, stdin=source, capture_output=True, text=True, check=True)
    return ran.stdout, ran.stderr


def script(name, *words):
    """Returns the table that a script of this folder prints, without the columns that are left out."""
    rows = [line.strip("|").split("|") for line in lines_of([sys.executable, f"{HERE}/{name}", *words])[0].splitlines()]
    kept = [at for at, head in enumerate(rows[0]) if head.strip() not in LEFT_OUT]
    return "\n".join("|" + "|".join(row[at] for at in kept) + "|" for row in rows)


def called(bench, subject, folder, name):
    """Returns the middle time of ten calls in milliseconds, and the most memory in MiB of a process with one call."""
    def told(count, *before):
        with open(f"{folder}/{name}.vhdl", "rb") as text:
            return lines_of([*before, bench, subject, str(count)], text)[1]

    times = [int(each) / 1000 for each in re.findall(r"(\d+) us", told(RUNS))]
    memory = int(re.search(r"(\d+) KiB", told(1, "/usr/bin/time", "-f", "%M KiB"))[1]) / 1024
    return f" {statistics.median(times):.0f} | {memory:.0f} |"


def long_texts(bench, folder):
    rows = ["| Text | `tokens`, ms | MiB | `parse`, ms | MiB |", "|---|--:|--:|--:|--:|"]
    for name, subjects in LONG.items():
        cells = [called(bench, subject, folder, name) for subject in subjects]
        rows.append(f"| {name} |{''.join(cells)}" + " | |" * (2 - len(cells)))
    return "\n".join(rows)


def drivers(bench):
    """The least of ten runs of a million steps: a millisecond of a run is a nanosecond of a step."""
    least = {}
    for _ in range(RUNS):
        for way, pending, took in re.findall(r"^(.+), (\d+) pending: ([\d.]+)ms$", lines_of([bench, "drivers", "1000000"])[1], re.M):
            place = int(pending), way
            least[place] = min(float(took), least.get(place, float(took)))
    ways = list(dict.fromkeys(way for _, way in least))
    rows = ["| Pending | " + " | ".join(ways) + " |", "|--:|" + "--:|" * len(ways)]
    for pending in sorted({it for it, _ in least}):
        cells = "".join(f" {least[pending, way]:.1f} |" if (pending, way) in least else " |" for way in ways)
        rows.append(f"| {pending:,} |{cells}")
    return "\n".join(rows)


def main():
    vsim, bench = map(os.path.abspath, sys.argv[1:3])
    with tempfile.TemporaryDirectory() as folder:
        lines_of([sys.executable, f"{HERE}/texts.py", folder])
        subjects = {
            "Beside GHDL": lambda: script("beside_ghdl.py", vsim),
            "Several workers": lambda: script("workers.py", vsim, "--workers", "1", "2", "4"),
            "Memory of whole runs": lambda: script("runs.py", vsim),
            "Long texts": lambda: long_texts(bench, folder),
            "Elaboration": lambda: script("elaboration.py", bench, folder),
            "Drivers": lambda: drivers(bench),
            "At the limits": lambda: script("large.py", vsim),
            "One thread, by shape": lambda: script("instructions.py", vsim),
        }
        for name in sys.argv[3:] or subjects:
            print(f"## {name}\n\n{subjects[name]()}\n", flush=True)


if __name__ == "__main__":
    main()

#!/usr/bin/env python3
"""Runs small designs by several workers very often, beside processes that never wait: each run must end.

    endings.py PROGRAM [--handed-out] [--runs N] [--workers N] [--load N]

The designs of examples/ whose run finishes are run in turn, 10,000 times in all, with 3 workers, beside 8 busy processes. Each
run must end within a minute, with the status and the listing that it has with one worker. A worker gets an order only if there is
enough work for it. To test the threads themselves, use sim_run_cases with --handed-out as the program: it is vsim, except that each
phase is handed out. The last line is `N passed, M failed`.
"""
import argparse
import glob
import os
import subprocess
import sys
import time

HERE = os.path.dirname(os.path.abspath(__file__))
LONGEST = 60
BUSY = [sys.executable, "-c", "while True: pass"]


def answer(program, workers, text):
    """The status of a run and its standard output, or None if it does not end."""
    words = [*program, "--top", "t", "--workers", str(workers)]
    try:
        ran = subprocess.run(words, input=text, capture_output=True, timeout=LONGEST)
    except subprocess.TimeoutExpired:
        return None
    return ran.returncode, ran.stdout


def main():
    given = argparse.ArgumentParser()
    given.add_argument("program")
    given.add_argument("--handed-out", action="store_true")
    given.add_argument("--runs", type=int, default=10_000)
    given.add_argument("--workers", type=int, default=3)
    given.add_argument("--load", type=int, default=8)
    given = given.parse_args()
    program = [os.path.abspath(given.program), *(["--handed-out"] if given.handed_out else [])]
    texts = []
    for name in sorted(glob.glob(f"{HERE}/../examples/*.vhd")):
        with open(name, "rb") as file:
            text = file.read()
        found = answer(program, 1, text)
        if found is not None and found[0] == 0:
            texts.append((os.path.basename(name), text, found))
    busy = [subprocess.Popen(BUSY) for _ in range(given.load)]
    wrong, longest = 0, 0.0
    try:
        for number in range(given.runs):
            place = number % len(texts)
            start = time.monotonic()
            found = answer(program, given.workers, texts[place][1])
            longest = max(longest, time.monotonic() - start)
            if found != texts[place][2]:
                wrong += 1
                print(f"endings: run {number}, {texts[place][0]}: {'no end' if found is None else 'another answer'}", flush=True)
    finally:
        for it in busy:
            it.kill()
    print(f"endings: {given.runs} runs of {len(texts)} designs; the longest took {longest:.2f} s")
    print(f"{given.runs - wrong} passed, {wrong} failed")
    return 1 if wrong else 0


if __name__ == "__main__":
    sys.exit(main())

#!/usr/bin/env python3
"""Runs designs by several workers, to which the work is really handed out.

    workers.py VSIM [CASES]

CASES is sim_run_cases, which with the word --handed-out is vsim, except that each phase is handed out; without it the examples are left out.

- Each example that examples/check runs and whose run finishes has its listing with 2, 3, 4, 8 and 16 workers, with each phase handed out.
- 2,200 processes of thirty statements run in VSIM itself with three workers: the listing follows the rules, and each of three threads (of
  two on two processors) takes processor time. A thread without an order sleeps, so this shows that work is handed out. It is tried at most
  five times, since under other load a thread may find no processor.
- In that run the main thread has less than a third of the processor time of a run by one worker while it is the only thread. So the run is
  not made by one thread, nor given up by several and made again, which no answer shows. This too is tried five times.
- With sixteen workers no more threads are started than there are processors.

Each run has a minute. A run that has not ended by then is reported as such, one with another answer as that. The last line is
`N passed, M failed`.
"""
import glob
import importlib.machinery
import importlib.util
import os
import subprocess
import sys
import tempfile
import time

TOP = os.path.dirname(os.path.dirname(os.path.realpath(__file__)))
LONGEST = 60
WORKERS = (2, 3, 4, 8, 16)
PROCESSES = 2200
STATEMENTS = 30
EDGES = 1000
TRIES = 5
# nanoseconds of a processor, many times what a thread takes that only begins, sleeps and ends
BUSY = 3_000_000


def examples():
    """Yields the name, the words, the text and the listing of each example whose run is finished."""
    path = f"{TOP}/examples/check"
    loader = importlib.machinery.SourceFileLoader("check", path)
    check = importlib.util.module_from_spec(importlib.util.spec_from_loader("check", loader))
    loader.exec_module(check)
    pages = [f"{TOP}/docs/{it}" for it in sorted(os.listdir(f"{TOP}/docs")) if it.endswith(".md")]
    for name, words, text, wanted in [*check.designs(), *(it for page in pages for it in check.runs(page))]:
        if words and wanted[2] == 0 and "--workers" not in words:
            yield name, words, text, wanted


def answer(words, text):
    """Standard output, standard error and status, or None if a run does not end."""
    try:
        ran = subprocess.run(words, input=text, stdout=subprocess.PIPE, stderr=subprocess.PIPE, timeout=LONGEST)
    except subprocess.TimeoutExpired:
        return None
    return ran.stdout, ran.stderr, ran.returncode


def told(name, found):
    """The name of a run, and how it failed if it has not the right answer."""
    return f"{name}: no end within {LONGEST} s" if found is None else f"{name}: another answer"


def small(cases):
    """Yields the name of each run of an example, and whether its answer is that of the example."""
    for name, words, text, wanted in examples():
        for workers in WORKERS:
            found = answer([cases, "--handed-out", *words, "--workers", str(workers)], text)
            yield told(f"{name} by {workers}", found), found == wanted


def large():
    """A design in which a clock resumes all processes except its own, its stop time and its listing."""
    names = [f"s{number}" for number in range(PROCESSES)]
    body = "v:=v xor clk;" * (STATEMENTS - 1)
    processes = "".join(f"process(clk) variable v:std_logic:='0'; begin {body}{name}<=v and '0';end process;" for name in names)
    text = f"entity t is end;architecture a of t is signal clk,{','.join(names)}:std_logic:='0';begin clk<=not clk after 1 ns;{processes}end;"
    # only the clock changes; each edge is a cycle, and the assignments of the processes are the next one
    lines = [*(f"0 0 {name} 0" for name in ["clk", *names]), *(f"{edge}000000 0 clk {edge % 2}" for edge in range(1, EDGES + 1))]
    lines.append(f"done {2 * EDGES + 1} {EDGES}")
    return text.encode(), f"{EDGES}000000", "".join(f"{line}\n" for line in lines).encode()


def spent(process):
    """The processor time that each thread of a process has taken so far, in nanoseconds."""
    found = {}
    for path in glob.glob(f"/proc/{process}/task/*/schedstat"):
        try:
            with open(path, encoding="ascii") as file:
                found[path] = int(file.read().split()[0])
        except OSError:
            continue
    return found


def watched(words, text):
    """The answer of a run, None if it does not end, the processor time of each of its threads, and that of the first while it was alone."""
    with tempfile.TemporaryFile() as source, tempfile.TemporaryFile() as out:
        source.write(text)
        source.seek(0)
        process, taken, begun, alone = subprocess.Popen(words, stdin=source, stdout=out), {}, time.monotonic(), 0
        while process.poll() is None:
            if time.monotonic() - begun > LONGEST:
                process.kill()
                process.wait()
                return None, taken, alone
            found = spent(process.pid)
            for thread, count in found.items():
                if len(found) == 1:
                    alone += max(0, count - taken.get(thread, 0))
                taken[thread] = max(count, taken.get(thread, 0))
            time.sleep(0.002)
        out.seek(0)
        return (process.returncode, out.read()), taken, alone


def handed_out(vsim):
    """Yields a name, and whether a large design has its listing with 1, 3 and 16 workers, by as many threads as it should."""
    text, stop, listing = large()
    processors = len(os.sched_getaffinity(0))
    words = [vsim, "--top", "t", "--limit", "1000000", "--stop", stop, "--workers"]
    found, _, whole = watched([*words, "1"], text)
    yield told(f"{PROCESSES} processes by 1", found), found == (0, listing)
    found, taken, _ = watched([*words, "16"], text)
    yield told(f"{PROCESSES} processes by 16", found), found == (0, listing)
    yield f"{len(taken)} threads on {processors} processors", len(taken) <= processors
    several = min(3, processors)
    for turn in range(TRIES):
        found, taken, alone = watched([*words, "3"], text)
        busy = sum(count > BUSY for count in taken.values())
        if found != (0, listing) or busy == several and alone < whole / 3 or turn == TRIES - 1:
            yield told(f"{PROCESSES} processes by 3", found), found == (0, listing)
            yield f"{several} threads take part, and not {busy}", busy == several
            yield f"the first thread is alone for {alone / whole:.2f} of a run by one", several == 1 or alone < whole / 3
            return


def main():
    if len(sys.argv) not in (2, 3):
        sys.exit(__doc__)
    vsim, *cases = map(os.path.abspath, sys.argv[1:])
    passed = failed = 0
    for name, holds in [*(it for program in cases for it in small(program)), *handed_out(vsim)]:
        passed, failed = passed + holds, failed + (not holds)
        if not holds:
            print(f"workers: {name}", flush=True)
    print(f"{passed} passed, {failed} failed")
    return 1 if failed or not passed else 0


if __name__ == "__main__":
    sys.exit(main())

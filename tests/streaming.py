#!/usr/bin/env python3
"""Compares runs with `--stream` with those without, to their ends and cut short, and sees what they write if memory or a reader fails.

    streaming.py PROGRAM

A finished run has the same listing, whatever the number of workers. A run that is cut short has written the lines up to there, which are
worked out here. A refused request for memory leaves the first of the lines and `vsim: Memory`; a reader that stops leaves `vsim: Write`.
A long run takes no more memory than a short one. The last line is `N passed, M failed`.
"""
import os
import resource
import subprocess
import sys
import tempfile

import refusals

CLOCK = "entity t is end;architecture a of t is signal clk:std_logic:='0';begin clk <= not clk after 5 ns; end;"
# a delta cycle after another, at time 0
LOOP = "entity t is end;architecture a of t is signal s:std_logic:='0';begin s <= not s; end;"
# a postponed process makes a delta cycle follow, at 400 us
LATE = ("entity t is end;architecture a of t is signal clk,a,q:std_logic:='0';"
        "begin clk <= not clk after 5 ns; a <= '1' after 400 us; postponed q <= a; end;")
# a shift register, its clock and an input that changes with each rising edge
STAGES = 40
SHIFT = ("entity t is end;architecture a of t is signal clk,d:std_logic:='0';signal " + ",".join(f"q{n}" for n in range(STAGES))
         + ":std_logic:='0';begin clk <= not clk after 5 ns; process(clk) begin if rising_edge(clk) then d <= not d; q0 <= d; end if; end process; "
         + "".join(f"process(clk) begin if rising_edge(clk) then q{n} <= q{n - 1}; end if; end process; " for n in range(1, STAGES)) + "end;")
# bodies that are long enough to be handed out to other threads
HEAVY = ("entity t is end;architecture a of t is signal clk:std_logic:='0';signal " + ",".join(f"q{n}" for n in range(400))
         + ":std_logic:='0';begin clk <= not clk after 5 ns; " + "".join(
             f"process(clk) variable v,w:std_logic:='0'; begin if clk'event then {'v := not v; w := v xor w; ' * 20}q{n} <= v xor not q{n}; end if; end process; "
             for n in range(400)) + "end;")
NS = 1_000_000


def told(program, words, text, most=None, env=None):
    """The status, the standard output and the standard error of a run, in at most so much address space."""
    limit = (lambda: resource.setrlimit(resource.RLIMIT_AS, (most, most))) if most else None
    ran = subprocess.run([program, *words.split()], input=text.encode(), stdout=subprocess.PIPE, stderr=subprocess.PIPE, check=False,
                         preexec_fn=limit, env={**os.environ, **(env or {})})
    return ran.returncode, ran.stdout, ran.stderr


def ticks(edges):
    """The lines of a clock up to this number of edges."""
    return "".join(f"{5 * n * NS} 0 clk {n % 2}\n" for n in range(edges + 1)).encode()


def turns(cycles):
    """The lines of the loop of delta cycles up to this number of them."""
    return "".join(f"0 {n} s {n % 2}\n" for n in range(cycles + 1)).encode()


def late():
    """The lines up to the cycle after which a postponed process makes a delta cycle follow."""
    lines = ["0 0 clk 0\n0 0 a 0\n0 0 q 0\n"]
    lines += [f"{5 * n * NS} 0 clk {n % 2}\n" for n in range(1, 80_000)]
    return "".join([*lines, f"{400_000 * NS} 0 clk 0\n{400_000 * NS} 0 a 1\n"]).encode()


def same(program, name, text, words, workers):
    """What is wrong with a finished run by so many workers."""
    usual = told(program, words, text)
    found = told(program, f"{words} --stream --workers {workers}", text)
    if usual[0] != 0 or found != usual:
        return f"{name} by {workers}: {found[0]}, {len(found[1])} of {len(usual[1])} bytes, {found[2]!r}"
    return ""


def cut(program, name, text, words, lines, why):
    """What is wrong with a run that is cut short for this reason."""
    usual = told(program, words, text)
    if usual != (3, b"", why):
        return f"{name}: {usual[0]}, {len(usual[1])} bytes, {usual[2]!r}"
    for workers in (1, 4):
        found = told(program, f"{words} --stream --workers {workers}", text)
        if found != (3, lines, why):
            return f"{name} by {workers}: {found[0]}, {len(found[1])} of {len(lines)} bytes, {found[2]!r}"
    return ""


def refused(program, shim, words, text):
    """What is wrong with the answers of a run of which each request for memory is refused, alone and with all later ones."""
    ample = told(program, words, text)
    count = refusals.requests(program, words.split(), text.encode(), shim)
    for number in range(1, count + 1):
        for more in ({}, {"REFUSE_ON": "1"}):
            found = told(program, words, text, env={"LD_PRELOAD": shim, "REFUSE_AT": str(number), **more})
            is_first = found[0] == 4 and found[2] == b"vsim: Memory\n" and ample[1].startswith(found[1])
            if found != ample and not is_first:
                return f"request {number} of {words}: {found[0]}, {found[1][-40:]!r}, {found[2]!r}"
    return "" if count > 20 else f"{count} requests of {words}"


def reader_stops(program, words, text):
    """What is wrong if a reader takes five lines and goes."""
    with tempfile.TemporaryFile() as source:
        source.write(text.encode())
        source.seek(0)
        with subprocess.Popen([program, *words.split()], stdin=source, stdout=subprocess.PIPE, stderr=subprocess.PIPE) as run:
            lines = b"".join(run.stdout.readline() for _ in range(5))
            run.stdout.close()
            said = run.stderr.read()
            status = run.wait(60)
    return "" if (status, lines, said) == (4, ticks(4), b"vsim: Write\n") else f"{words}: {status}, {lines!r}, {said!r}"


def little_room(program):
    """What is wrong where the address space has room for some of the threads' stacks and heaps, or for none."""
    words = "--top t --stream --stop 2000000000 --workers 4"
    ample, ends = told(program, words, HEAVY), set()
    for size in range(8, 400, 14):
        found = told(program, words, HEAVY, size << 20)
        ends.add(found[0])
        if found != ample and not (found[0] == 4 and found[2] == b"vsim: Memory\n" and ample[1].startswith(found[1])):
            return f"{size} MiB: {found[0]}, {len(found[1])} of {len(ample[1])} bytes, {found[2]!r}"
    return "" if ends == {0, 4} else f"statuses {ends}"


def long_run(program):
    """What is wrong with a run of 8,000,000 cycles in address space in which its log would have no room."""
    words, most, lines = "--top t --large --stop 40000000000000", 120 << 20, 8_000_001
    kept = told(program, words, CLOCK, most)
    if kept != (4, b"", b"vsim: Memory\n"):
        return f"without the word: {kept[0]}, {len(kept[1])} bytes"
    found = told(program, f"{words} --stream", CLOCK, most)
    if found[0] != 0 or found[1].count(b"\n") != lines + 1 or not found[1].endswith(b"done 8000000 8000000\n"):
        return f"with it: {found[0]}, {found[1].count(10)} lines, {found[1][-40:]!r}, {found[2]!r}"
    return ""


def main(program):
    """Runs all, prints what is wrong, and returns the exit status."""
    wrong = []
    for name, text, words in (("a clock", CLOCK, "--top t --limit 200000 --stop 1000000000000"),
                              ("a shift register", SHIFT, "--top t --stop 60000000000 --limit 100000"),
                              ("long bodies", HEAVY, "--top t --stop 5000000000")):
        wrong += [same(program, name, text, words, workers) for workers in (1, 2, 4, 16)]
    wrong += [cut(program, f"a clock up to {edges} edges", CLOCK, f"--top t --limit {edges}", ticks(edges), b"vsim: CycleLimit %d\n" % edges)
              for edges in (1, 65_535, 65_536, 200_000)]
    wrong += [cut(program, f"{cycles} delta cycles", LOOP, f"--top t --limit {cycles}", turns(cycles), b"vsim: CycleLimit %d\n" % cycles)
              for cycles in (1, 65_534, 65_537, 200_000)]
    wrong.append(cut(program, "a postponed delta cycle", LATE, "--top t --limit 1000000", late(), b"vsim: PostponedDelta\n"))
    with tempfile.TemporaryDirectory() as folder:
        shim = refusals.library(folder)
        for words in ("--top t --stream --stop 800000000000 --limit 200000", "--top t --stream --limit 70000",
                      "--top t --stream --stop 800000000000 --limit 200000 --workers 3"):
            wrong.append(refused(program, shim, words, CLOCK))
    wrong.append(reader_stops(program, "--top t --stream --large", CLOCK))
    wrong.append(little_room(program))
    wrong.append(long_run(program))
    for it in filter(None, wrong):
        print(f"streaming: {it}")
    failed = sum(map(bool, wrong))
    print(f"{len(wrong) - failed} passed, {failed} failed")
    return 1 if failed else 0


if __name__ == "__main__":
    if len(sys.argv) != 2:
        sys.exit(__doc__)
    sys.exit(main(sys.argv[1]))

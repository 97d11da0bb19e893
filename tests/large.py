#!/usr/bin/env python3
"""Goes to each limit of `--large`, and one beyond it.

    large.py PROGRAM

A text of as many bytes as it may have, a design of as many nets, processes, drivers and instances, and the most cycles are taken; one
more is refused by its name. Texts are made as the program reads them; a run takes some five seconds of a processor and up to
1.2 GiB. Differences are printed, then a table of time and memory. The last line is `N passed, M failed`.
"""
import os
import resource
import subprocess
import sys
import threading

MOST_BYTES, MOST_OBJECTS, MOST_CYCLES = 268_435_456, 1_000_000, 4_294_967_295
LONGEST = 600
BEGIN = b"entity t is end;architecture a of t is "
# a design of one net, one process and one driver; its listing
PULSE = BEGIN + b"signal s:std_logic:='0';begin s<='1' after 5 ns;end;"
LISTED = b"done 1 1\n"
CUT = 1 << 20


def filled(size):
    """A pulse, with blanks up to so many bytes."""
    yield PULSE
    left = size - len(PULSE)
    for _ in range(left // CUT):
        yield b" " * CUT
    yield b" " * (left % CUT)


def repeated(head, piece, count, tail):
    """A text with one piece many times, numbered where it has a number."""
    yield head
    for first in range(0, count, 10_000):
        yield b"".join(piece % n if b"%" in piece else piece for n in range(first, min(count, first + 10_000)))
    yield tail


def nets(count):
    """A design of nets alone."""
    return repeated(BEGIN, b"signal s%d:std_logic;", count, b"begin end;")


def processes(count):
    """A design of empty processes."""
    return repeated(BEGIN + b"begin ", b"process(all)begin end process;", count, b"end;")


def drivers(count):
    """A design of one net with this number of drivers, each in a process of its own."""
    return repeated(BEGIN + b"signal s:std_logic;begin ", b"s<='0';", count, b"end;")


def instances(count):
    """A design of instances of an empty entity."""
    return repeated(b"entity e is end;architecture a of e is begin end;" + BEGIN + b"begin ", b"u%d:entity work.e;", count, b"end;")


def rows():
    """What is tried: its name, its text, the words after the top, the status, and the last line of what is written."""
    most = MOST_OBJECTS
    yield "the longest text", filled(MOST_BYTES), [], 0, LISTED
    yield "a byte more", filled(MOST_BYTES + 1), [], 1, b"vsim: TooLong\n"
    yield "most nets", nets(most), [], 0, b"done 0 0\n"
    yield "a net more", nets(most + 1), [], 1, b"vsim: TooMany at 7\n"
    yield "most processes and drivers", drivers(most), [], 0, b"done 1 1\n"
    yield "a driver more", drivers(most + 1), [], 1, b"vsim: TooMany at 7\n"
    yield "a process more", processes(most + 1), [], 1, b"vsim: TooMany at 7\n"
    yield "most instances", instances(most), [], 0, b"done 0 0\n"
    yield "an instance more", instances(most + 1), [], 1, b"vsim: TooMany at 56\n"
    yield "most cycles", filled(len(PULSE)), ["--limit", str(MOST_CYCLES)], 0, LISTED


def told(program, text, words):
    """Runs the program with a text that is written piece by piece: status, the last line that it wrote, seconds, and memory in MiB."""
    process = subprocess.Popen([program, "--top", "t", *words], stdin=subprocess.PIPE, stdout=subprocess.PIPE, stderr=subprocess.PIPE)

    def write():
        try:
            for piece in text:
                process.stdin.write(piece)
            process.stdin.close()
        except BrokenPipeError:
            pass

    writer = threading.Thread(target=write)
    writer.start()
    last = b""
    for piece in iter(lambda: process.stdout.read(CUT), b""):
        last = (last + piece)[-200:]
    error = process.stderr.read()
    _, status, used = os.wait4(process.pid, 0)
    writer.join(LONGEST)
    return os.waitstatus_to_exitcode(status), (error or last[last.rfind(b"\n", 0, -1) + 1:]), used.ru_utime + used.ru_stime, used.ru_maxrss >> 10


def main():
    if len(sys.argv) != 2:
        sys.exit(__doc__)
    program, passed, failed, lines = os.path.abspath(sys.argv[1]), 0, 0, []
    resource.setrlimit(resource.RLIMIT_CORE, (0, 0))
    for name, text, words, status, line in rows():
        got = told(program, text, ["--large", *words])
        lines.append(f"{name:28} {got[2]:6.1f} s {got[3]:6} MiB  {got[1].decode().strip()}")
        if got[:2] == (status, line):
            passed += 1
        else:
            failed += 1
            print(f"{name}: {got[:2]}, not {(status, line)}")
    print(*lines, sep="\n")
    print(f"{passed} passed, {failed} failed")
    return 1 if failed else 0


if __name__ == "__main__":
    sys.exit(main())

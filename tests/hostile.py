#!/usr/bin/env python3
"""Gives the program what a stranger may give it: texts that are cut off, damaged or huge, and streams that fail.

    hostile.py PROGRAM [CASES] [--texts | --memory]

- Each proper prefix of three designs is refused as a text, except the one that ends after its entity.
- A zero byte in place of each byte of these designs is refused at its place, or at the token that it breaks.
- Texts of 1 MiB that repeat one thing, and one with a byte more, are answered as the manual says, in at most 20 s of processor
  time and 200 MiB; so is a design of 8,000 instances below one long label.
- In little memory a run answers `vsim: Memory`, and in more its listing, with one worker and with three. If work is handed out,
  runs with 4 and 16 workers answer like one worker, in address spaces from what one worker needs up to ample. Given CASES, which is
  sim_run_cases, there are as many threads as workers; PROGRAM starts no more than there are processors.
- Standard output is full, closed, or a pipe without a reader; standard input is closed, a folder or a terminal; standard error is
  closed. The status and the line are those of the manual.

With --texts the streams are left out. With --memory there are only runs in address spaces of 10, 12, 14 MiB and so on up to 60, by 1,
4 and 16 workers: 600 long processes, and 600 flip-flops. They say in which sizes several workers lack memory and one does not.
Differences are printed. A table has the time and memory of the huge texts. The last line is `N passed, M failed`.
"""
import itertools
import os
import pty
import re
import subprocess
import sys
import tempfile

MOST = 1 << 20
LONGEST = 60
# the numbers of workers beside one
SEVERAL = ("4", "16")
# the MiB of address space that the stacks of sixteen workers take, which stay reserved when a run begins again on one thread
KEPT = 8
# the most processor seconds and MiB for a text of 1 MiB
SECONDS, MEBIBYTES = 20, 200
WORDS = ["--top", "t"]
DESIGN = (
    b"entity t is end;architecture a of t is signal s_1,q:std_logic:='0';begin s_1<='1' after 5 ns;"
    b"process(s_1)begin if s_1/='0' then q<=not s_1 after 2 ns;end if;end process;end;"
)
LISTING = b"0 0 s_1 0\n0 0 q 0\n5000000 0 s_1 1\ndone 2 1\n"
# each begins with an entity of the same number of bytes
DESIGNS = (
    b"entity t is end;architecture a of t is signal s:std_logic:='0';begin s <= '1' after 5 ns; end;",
    b"entity t is end;architecture a of t is signal clk:std_logic:='0'; signal q:std_logic;begin clk <= not clk after 5 ns; "
    b"process (clk) variable v:std_logic:='0'; begin if rising_edge(clk) then v := not v; q <= v; end if; end process; end;",
    DESIGN,
)
ENTITY = 16
OF_A_TEXT = re.compile(rb"vsim: (BadByte|OpenComment|BadLiteral|Syntax|TooDeep|TimeRange) at \d+\n")


class Answer:
    """The result of a run: its status, what it wrote, and what it took."""

    def __init__(self, status, out, err, seconds=0.0, mebibytes=0):
        self.status, self.out, self.err, self.seconds, self.mebibytes = status, out, err, seconds, mebibytes

    def __str__(self):
        return f"status {self.status}, {self.out[:60]!r}, {self.err[:80]!r}"

    def same(self, status, out, err):
        return (self.status, self.out, self.err) == (status, out, err)


def run(program, text, words=WORDS):
    ran = subprocess.run([program, *words], input=text, capture_output=True, timeout=LONGEST)
    return Answer(ran.returncode, ran.stdout, ran.stderr)


def measured(program, text):
    """A run with its processor seconds and its largest memory."""
    with tempfile.TemporaryFile() as source, tempfile.TemporaryFile() as out, tempfile.TemporaryFile() as err:
        source.write(text)
        source.seek(0)
        process = subprocess.Popen([program, *WORDS], stdin=source, stdout=out, stderr=err)
        _, status, used = os.wait4(process.pid, 0)
        process.returncode = os.waitstatus_to_exitcode(status)
        out.seek(0)
        err.seek(0)
        return Answer(process.returncode, out.read(), err.read(), used.ru_utime + used.ru_stime, used.ru_maxrss >> 10)


class Tally:
    def __init__(self):
        self.passed = self.failed = 0

    def note(self, holds, name, answer):
        if holds:
            self.passed += 1
        else:
            self.failed += 1
            print(f"hostile: {name}: {answer}")


def prefixes(program, tally):
    for design in DESIGNS:
        for length in range(len(design)):
            answer = run(program, design[:length])
            if length == ENTITY:
                holds = answer.same(1, b"", b"vsim: NoArchitecture at 7\n")
            else:
                holds = answer.status == 1 and not answer.out and OF_A_TEXT.fullmatch(answer.err)
            tally.note(holds, f"a prefix of {length} bytes of {design!r}", answer)


def of_a_zero(design, place):
    """The refusal of a design with a zero byte at a place.

    A literal is at fault at its start; `<` and `/` are not tokens without their `=`, and neither is an underscore without a
    letter or digit after it.
    """
    literal = next((first for first in (place - 2, place - 1) if first >= 0 and re.match(rb"'.'", design[first:])), None)
    if literal is not None:
        return f"vsim: BadLiteral at {literal}\n"
    if design[place - 1 : place + 1] in (b"<=", b"/=") or design[place - 1 : place] == b"_":
        return f"vsim: BadByte at {place - 1}\n"
    return f"vsim: BadByte at {place}\n"


def zeros(program, tally):
    for design in DESIGNS:
        for place in range(len(design)):
            answer = run(program, design[:place] + b"\0" + design[place + 1 :])
            tally.note(answer.same(1, b"", of_a_zero(design, place).encode()), f"a zero byte at {place} of {design!r}", answer)


def filled(begin, again, end=b""):
    """`begin`, `again` as often as a text has room for it, and blanks up to the limit."""
    times = (MOST - len(begin) - len(end)) // len(again)
    text = begin + again * times
    return text + b" " * (MOST - len(text) - len(end)) + end


BEGIN = b"entity t is end;architecture a of t is signal s:std_logic;begin "
PROCESS = BEGIN + b"process(s)begin "


def names(count):
    """This many short names: a letter, a digit, and up to two letters or digits."""
    letters, digits = "abcdefghijklmnopqrstuvwxyz", "0123456789"
    ends = ["", *letters, *digits, *map("".join, itertools.product(letters + digits, repeat=2))]
    return ["".join(it) for it in itertools.islice(itertools.product(letters, digits, ends), count)]


def with_signals(count, statements):
    """A design of this many signals, with a statement for each but the first."""
    of_all = names(count)
    body = "".join(statements.format(name, of_all[0]) for name in of_all[1:])
    return f"entity t is end;architecture a of t is signal {','.join(of_all)}:std_logic;begin {of_all[0]}<='1';{body}end;".encode()


def below_a_label(letters, count):
    """A design of this many instances within one whose label has this many letters."""
    instances = "".join(f"i{number}:entity work.n;" for number in range(count))
    return (f"entity t is end;architecture a of t is begin {'l' * letters}:entity work.m;end;entity m is end;"
            f"architecture a of m is begin {instances}end;entity n is end;architecture a of n is begin end;").encode()


def texts():
    """Yields the name of a text, the text, its status, and its refusal or the last line of its listing."""
    yield "blanks", filled(b"", b" "), 1, "Syntax at 1048576"
    yield "a byte more than a text may have", b" " * (MOST + 1), 1, "TooLong"
    yield "a comment", filled(b"--", b"-"), 1, "Syntax at 1048576"
    yield "comments of one line", filled(b"", b"--\n"), 1, "Syntax at 1048576"
    yield "a comment that is open", filled(b"/*", b"*"), 1, "OpenComment at 0"
    yield "zero bytes", filled(b"", b"\0"), 1, "BadByte at 0"
    yield "bytes above 127", filled(b"", b"\xff"), 1, "BadByte at 0"
    yield "apostrophes", filled(b"", b"'"), 1, "BadLiteral at 0"
    yield "one word", filled(b"", b"a"), 1, "Syntax at 0"
    yield "an entity of one long name", filled(b"entity ", b"a", b" is end;"), 1, "NoTop"
    yield "opened parentheses", filled(BEGIN + b"s<=", b"("), 1, f"TooDeep at {len(BEGIN) + 3 + 64}"
    yield "opened ifs", filled(PROCESS, b"if s then "), 1, f"TooDeep at {len(PROCESS) + 10 * 64}"
    yield "an operator and its operand", filled(BEGIN + b"s<=s", b" and s", b";end;"), 0, "done 1 0"
    yield "elements of a waveform", filled(BEGIN + b"s<='0'", b",'0'", b";end;"), 1, f"NotAscending at {len(BEGIN) + 7}"
    yield "branches of an if", filled(PROCESS + b"if s then ", b"elsif s then ", b"end if;end process;end;"), 0, "done 0 0"
    yield "alternatives", filled(BEGIN + b"s<='0' when s", b" else '1' when s", b";end;"), 0, "done 0 0"
    yield "null statements", filled(PROCESS, b"null;", b"end process;end;"), 0, "done 0 0"
    yield "65,536 assignments of one signal", BEGIN + b"s<='0';" * (1 << 16) + b"end;", 0, "done 1 1"
    yield "assignments, as many as there is room for", filled(BEGIN, b"s<='0';", b"end;"), 1, "TooMany at 7"
    yield "65,536 signals, each with an assignment", with_signals(1 << 16, "{0}<={1};"), 0, "done 2 65536"
    yield "65,537 signals, each with an assignment", with_signals((1 << 16) + 1, "{0}<={1};"), 1, "TooMany at 7"
    yield "8,000 instances below a label of 200,000 letters", below_a_label(200_000, 8000), 0, "done 0 0"
    yield "entities of one name", filled(b"", b"entity t is end;"), 1, "Duplicate at 23"
    yield "context clauses", filled(b"", b"use a.b;", b"entity t is end;architecture a of t is begin end;"), 0, "done 0 0"


def huge(program, tally):
    print("| Text | Answer | Seconds | MiB |\n|---|---|--:|--:|")
    for name, text, status, wanted in texts():
        answer = measured(program, text)
        said = (answer.err or answer.out).decode().splitlines()[-1]
        print(f"| {name} | `{said}` | {answer.seconds:.2f} | {answer.mebibytes} |")
        ended = answer.status == status and said == (f"vsim: {wanted}" if status else wanted) and not (status and answer.out)
        tally.note(ended and answer.seconds < SECONDS and answer.mebibytes < MEBIBYTES, name, answer)


def limited(program, text, words, kibibytes):
    """A run with an address space of this many KiB."""
    ran = subprocess.run(["sh", "-c", 'ulimit -v "$1"; shift; exec "$@"', "sh", str(kibibytes), program, *words],
                         input=text, capture_output=True, timeout=LONGEST)
    return Answer(ran.returncode, ran.stdout, ran.stderr)


def memory(program, tally):
    """Runs with memory from what the program needs to start, up to ample."""
    text = with_signals(2000, "{0}<={1};")
    least = next(it for it in range(0, 1 << 20, 64) if limited(program, b"", WORDS, it).err == b"vsim: Syntax at 0\n")
    for workers in ("1", "3"):
        words, refused = [*WORDS, "--workers", workers], []
        ample = run(program, text, words)
        tally.note(ample.status == 0, f"2,000 signals by {workers}", ample)
        for kibibytes in range(least, least + (8 << 10), 128):
            answer = limited(program, text, words, kibibytes)
            refused.append(answer.same(4, b"", b"vsim: Memory\n"))
            tally.note(refused[-1] or answer.same(0, ample.out, b""), f"{kibibytes} KiB by {workers}", answer)
        tally.note(refused[0] and not refused[-1], f"little memory and ample by {workers}", ample)


def worked(processes, statements):
    """A design in which a clock resumes this many processes of this many statements each."""
    body = "v:=v xor clk;" * (statements - 1)
    of_all = [f"s{number}" for number in range(processes)]
    every = "".join(f"process(clk) variable v:std_logic:='0'; begin {body}{name}<=v and '0';end process;" for name in of_all)
    return f"entity t is end;architecture a of t is signal clk,{','.join(of_all)}:std_logic:='0';begin clk<=not clk after 1 ns;{every}end;".encode()


def turned(count):
    """A design in which each rising edge of a clock turns this many flip-flops."""
    of_all = [f"s{number}" for number in range(count)]
    every = "".join(f"process(clk) begin if rising_edge(clk) then {name}<=not {name};end if;end process;" for name in of_all)
    return f"entity t is end;architecture a of t is signal clk,{','.join(of_all)}:std_logic:='0';begin clk<=not clk after 1 ns;{every}end;".encode()


def narrow(program, tally, *first):
    """Runs in an address space of each second MiB: several workers must not lack memory where one has KEPT MiB more than enough."""
    words = [*first, *WORDS, "--stop", "20000000", "--workers"]
    for name, text in (("600 processes", worked(600, 20)), ("600 flip-flops", turned(600))):
        ample, refused, least = run(program, text, [*words, "1"]), {it: [] for it in SEVERAL}, None
        tally.note(ample.status == 0, f"{name} by 1", ample)
        for mebibytes in range(10, 62, 2):
            answers = {it: limited(program, text, [*words, it], mebibytes << 10) for it in ("1", *SEVERAL)}
            enough = answers["1"].same(0, ample.out, b"")
            least = mebibytes if least is None and enough else least
            short = not enough or mebibytes < least + KEPT
            for workers, answer in answers.items():
                ended = answer.same(0, ample.out, b"")
                tally.note(ended or short and answer.status != 0 and not answer.out, f"{name} in {mebibytes} MiB by {workers}", answer)
                if enough and not ended:
                    refused[workers].append(mebibytes)
        for workers, sizes in refused.items():
            print(f"{name} by {workers}: refused where 1 is not, in {sizes or 'no'} MiB")


def shared(program, tally, *first):
    """Runs in small address spaces, which have no room for the stack and the heap of each thread."""
    text, words = worked(600, 20), [*first, *WORDS, "--stop", "20000000", "--workers"]
    ample = run(program, text, [*words, "1"])
    tally.note(ample.status == 0 and ample.out.endswith(b"\ndone 41 20\n"), "600 processes by 1", ample)
    for mebibytes in (24, 32, 48, 64, 96, 128, 192, 256, 384, 512, 768, 1000, 1200, 1600, 2400, 3200):
        for workers in ("1", "4", "16"):
            answer = limited(program, text, [*words, workers], mebibytes << 10)
            tally.note(answer.same(0, ample.out, b""), f"600 processes in {mebibytes} MiB by {workers}", answer)


def streams(program, tally):
    """Streams that fail, each with the status and the line that the manual has for it."""
    write, read = (4, b"vsim: Write\n"), (4, b"vsim: Read\n")
    with tempfile.NamedTemporaryFile(suffix=".vhd") as source:
        source.write(DESIGN)
        source.flush()
        name = source.name
        lines = [
            ("standard output is full", f"{program} --top t < {name} > /dev/full", write),
            ("the help to a full standard output", f"{program} --help > /dev/full", write),
            ("standard output is closed", f"{program} --top t < {name} >&-", write),
            ("standard input is closed", f"{program} --top t <&-", read),
            ("standard input is a folder", f"{program} --top t < /", read),
            ("standard error is full", f"{program} --top u < {name} 2> /dev/full", (1, b"")),
            ("standard error is closed", f"{program} --top u < {name} 2>&-", (1, b"")),
            ("a refusal to a closed standard output", f"{program} --top u < {name} >&-", (1, b"vsim: NoTop\n")),
            ("nobody reads", f"{{ {program} --top t < {name}; echo $? >&2; }} | true", (0, b"vsim: Write\n4\n")),
        ]
        for what, line, wanted in lines:
            # the reader has ended before anything is written
            ran = subprocess.run(["sh", "-c", line.replace("{ ", "{ sleep 0.2; ", 1) if "| true" in line else line],
                                 capture_output=True, timeout=LONGEST, stdin=subprocess.DEVNULL)
            answer = Answer(ran.returncode, ran.stdout, ran.stderr)
            tally.note((ran.returncode, ran.stderr) == wanted and not ran.stdout, what, answer)


def terminal(program, tally):
    """A text that is typed, followed by an end of file."""
    ours, theirs = pty.openpty()
    process = subprocess.Popen([program, *WORDS], stdin=theirs, stdout=subprocess.PIPE, stderr=subprocess.PIPE)
    os.close(theirs)
    os.write(ours, DESIGN.replace(b";", b";\n") + b"\x04")
    out, err = process.communicate(timeout=LONGEST)
    os.close(ours)
    answer = Answer(process.returncode, out, err)
    tally.note(answer.same(0, LISTING, b""), "a terminal", answer)


def main():
    program, *words = sys.argv[1:] or [""]
    cases = [os.path.abspath(it) for it in words if it not in ("--texts", "--memory")]
    if not program or len(cases) > 1 or len(words) > 2:
        sys.exit(__doc__)
    program, tally = os.path.abspath(program), Tally()
    answer = run(program, DESIGN)
    tally.note(answer.same(0, LISTING, b""), "the design", answer)
    several = (cases[0], tally, "--handed-out") if cases else (program, tally)
    if "--memory" in words:
        narrow(*several)
    else:
        for part in (prefixes, zeros, huge, memory):
            part(program, tally)
        shared(*several)
        for part in () if "--texts" in words else (streams, terminal):
            part(program, tally)
    print(f"{tally.passed} passed, {tally.failed} failed")
    return 1 if tally.failed else 0


if __name__ == "__main__":
    sys.exit(main())

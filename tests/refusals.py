#!/usr/bin/env python3
"""Refuses each request for memory of a run in turn, and checks the answers of the program.

    refusals.py PROGRAM [--calls] [--rows] [--words WORDS] [--workers N] [--most N] [DESIGN.vhd ..]    default: those of examples/
    refusals.py VSIM --gate SIM_RUN_CASES

A run answers `vsim: Memory`, with status 4 and nothing written, or what it answers with ample memory, and nothing else; and
it ends. Each request is refused alone, and then together with all later ones. If a run makes more than MOST requests (4,000),
this many are tried, evenly spaced. With --words the program is given these words for every design.

With --calls or --rows the program is sim_run_cases, which makes the public calls one after another, on the design or on rows
of its own, and repeats once each that finds no memory. If one request is refused, it prints what it prints with ample memory,
and for a whole call or a row, in a line that begins with `!`, which error came first: lack of memory for the text, for the
design or for the run; for a whole call in this order. Only if it cannot read the text, it says so.

With --gate each request of the designs below is refused alone, for the program and for all calls, and with ample memory each
must give the listing that stands beside it.

refuse.c is compiled to a library with the clang of rt, or else with `cc`.
"""
import argparse
import concurrent.futures
import glob
import os
import shlex
import shutil
import subprocess
import sys
import tempfile

HERE = os.path.dirname(os.path.realpath(__file__))
EXAMPLES = f"{os.path.dirname(HERE)}/examples"
MEMORY = (4, b"", b"vsim: Memory\n")
LONGEST = 60
AT_ONCE = 4
# errors for lack of memory, in the order in which a whole run meets them
ERRORS = [b"Text(Memory)", b"Flat(Memory)", b"Memory"]
# the calls that meet all of them
WHOLE = [b"simulate", b"run", b"run_in"]


def text_of(declared, inside, behind=""):
    """A text with these declarations and statements of the architecture, and what follows it."""
    return f"entity t is end;architecture a of t is {declared} begin {inside} end;{behind}"


LEAF = "entity l is port(i:in std_logic;o:out std_logic);end;architecture a of l is begin o<=i;end;"
TOGGLE = "process (clk) variable v:std_logic:='0'; begin if rising_edge(clk) then v := not v; q <= v; end if; end process;"
TAKEN = "process(clk) begin if rising_edge(clk) then {0} <= {1}; end if; end process;"
PULSE = "a <= '0', '1' after 10 ns, '0' after {0} ns; "
CLOCK = text_of("signal clk:std_logic:='0';", "clk <= not clk after 5 ns;")
PASSED = "0 0 a U / 0 0 q U / 0 1 a 0 / 5000000 0 q 0 / 10000000 0 a 1 / 13000000 0 a 0 / 15000000 0 q 1 / 18000000 0 q 0 / done 6 6"
REJECTED = "0 0 a U / 0 0 q U / 0 1 a 0 / 5000000 0 q 0 / 10000000 0 a 1 / {0} 0 a 0 / done 5 4"
# a text, the words, and the listing, worked out by hand, or why the run is cut short
DESIGNS = [
    (text_of("signal s:std_logic:='0';", "s <= '1' after 5 ns;"), "--top t", "0 0 s 0 / 5000000 0 s 1 / done 1 1"),
    (text_of("", ""), "--top t", "done 0 0"),
    (text_of("signal s:std_logic;", "s <= '0'; s <= '1';"), "--top t", "0 0 s U / 0 1 s X / done 1 1"),
    (text_of("signal s:std_logic;", "s <= '-';"), "--top t", "0 0 s U / 0 1 s - / done 1 1"),
    (text_of("signal s:std_logic;", "s <= '-'; s <= 'Z';"), "--top t", "0 0 s U / 0 1 s X / done 1 1"),
    (text_of("signal a,q:std_logic;", PULSE.format(13) + "q <= a after 5 ns;"), "--top t", REJECTED.format(13000000)),
    (text_of("signal a,q:std_logic;", PULSE.format(13) + "q <= transport a after 5 ns;"), "--top t", PASSED),
    (text_of("signal a,q:std_logic;", PULSE.format(13) + "q <= reject 2 ns inertial a after 5 ns;"), "--top t", PASSED),
    (text_of("signal a,q:std_logic;", PULSE.format(12) + "q <= reject 2 ns inertial a after 5 ns;"), "--top t",
     REJECTED.format(12000000)),
    (text_of("signal a,q:std_logic:='0';", "a <= '1' after 1 ns; q <= '1' after 8 ns when a = '0' else '1' after 9 ns;"), "--top t",
     "0 0 a 0 / 0 0 q 0 / 1000000 0 a 1 / 8000000 0 q 1 / done 3 2"),
    (text_of("signal s:std_logic:='0';", "s <= not s;"), "--top t --limit 100", "CycleLimit 100"),
    (text_of("signal s:std_logic;", "s <= not s;"), "--top t --limit 100", "0 0 s U / done 1 0"),
    (CLOCK, "--top t --stop 12000000", "0 0 clk 0 / 5000000 0 clk 1 / 10000000 0 clk 0 / done 2 2"),
    (CLOCK, "--top t --stop 12000000 --limit 2", "0 0 clk 0 / 5000000 0 clk 1 / 10000000 0 clk 0 / done 2 2"),
    (CLOCK, "--top t --stop 12000000 --limit 1", "CycleLimit 1"),
    (text_of("signal clk:std_logic:='0'; signal q:std_logic;", "clk <= not clk after 5 ns; " + TOGGLE), "--top t --stop 16000000",
     "0 0 clk 0 / 0 0 q U / 5000000 0 clk 1 / 5000000 1 q 1 / 10000000 0 clk 0 / 15000000 0 clk 1 / 15000000 1 q 0 / done 5 5"),
    (text_of("signal s:std_logic:='0';", "s <= '1'; u:entity work.e port map(p=>s);",
             "entity e is port(p:out std_logic);end;architecture a of e is begin end;"), "--top t", "0 0 s U / done 1 0"),
    (text_of("signal s:std_logic:='0';", "u:entity work.l port map('1',s);", LEAF), "--top t",
     "0 0 s U / 0 0 u.i 1 / 0 1 s 1 / done 1 1"),
    (text_of("", "u:entity work.l port map(i=>'1',o=>open);", LEAF), "--top t", "0 0 u.i 1 / 0 0 u.o U / 0 1 u.o 1 / done 1 1"),
    (text_of("signal s:std_logic;", "u:entity work.e port map(s,s);",
             "entity e is port(p,q:out std_logic);end;architecture a of e is begin process(all) begin p<='0';q<='1';end process;end;"),
     "--top t", "0 0 s U / 0 1 s X / done 1 1"),
    (text_of("signal s:std_ulogic;", "u:entity work.e port map(s);",
             "entity e is port(p:out std_logic);end;architecture a of e is begin p<='1';p<='H';end;"), "--top t",
     "0 0 s U / 0 1 s 1 / done 1 1"),
    (text_of("signal clk,a:std_logic:='0'; signal b:std_logic:='1';",
             "clk <= '1' after 5 ns; " + TAKEN.format("a", "b") + TAKEN.format("b", "a")), "--top t",
     "0 0 clk 0 / 0 0 a 0 / 0 0 b 1 / 5000000 0 clk 1 / 5000000 1 a 1 / 5000000 1 b 0 / done 2 3"),
    (text_of("signal a,s:std_logic:='0';", "a <= '1' after 1 ns; process(a) begin s <= '1' after 3 ns; s <= transport '0' after 5 ns; "
             "end process; s <= 'Z' after 2 ns;"), "--top t",
     "0 0 a 0 / 0 0 s 0 / 1000000 0 a 1 / 3000000 0 s 1 / 6000000 0 s 0 / done 5 3"),
    (text_of("signal s:std_logic;", "s <= '1' after 1 hr;"), "--top t", "0 0 s U / 3600000000000000000 0 s 1 / done 1 1"),
    (text_of("signal s:std_logic;", "s <= '1' after 4611686018427387903 fs;"), "--top t",
     "0 0 s U / 4611686018427387903 0 s 1 / done 1 1"),
    ("ENTITY T IS END; Architecture A Of t Is Begin End A;", "--top T", "done 0 0"),
]
# the options of a run by `vsim` alone, as words of sim_run_cases
DEFAULTS = ["--stop=4611686018427387903", "--limit=10000"]


def words_of(design):
    """The words of a design of examples/: those beside it, or the top alone."""
    path = os.path.splitext(design)[0] + ".words"
    if not os.path.exists(path):
        return ["--top", "t"]
    with open(path, encoding="ascii") as file:
        return file.read().split()


def answer(program, words, text, settings, longest=LONGEST):
    """The status of a run, its standard output and its standard error."""
    try:
        ran = subprocess.run([program, *words], input=text, capture_output=True, timeout=longest, env={**os.environ, **settings})
    except subprocess.TimeoutExpired:
        return "no end", b"", b""
    return ran.returncode, ran.stdout, ran.stderr


def requests(program, words, text, shim):
    """The number of requests for memory that a run makes."""
    with tempfile.NamedTemporaryFile("r") as counts:
        answer(program, words, text, {"LD_PRELOAD": shim, "REFUSE_COUNT": counts.name})
        return int(counts.read().split()[-1])


def apart(written):
    """What was written of the listing, and the lines that report an error."""
    lines = written.splitlines(True)
    return b"".join(line for line in lines if not line.startswith(b"! ")), [line for line in lines if line.startswith(b"! ")]


def is_right(found, ample, calls, alone):
    """Whether a run with a refused request has an allowed answer."""
    if not calls:
        # (sim_run_cases reports this for the words themselves)
        return found in (ample, MEMORY) or b"Error: reading the words" in found[2]
    listing, told = apart(found[1])
    refused = found[0] == 1 and found[2].startswith(b"Error: ")
    if alone:
        return (found[0], listing, found[2]) == ample and len(told) <= 1 or refused and not found[1] and b"reading" in found[2]
    return found == ample or refused and ample[1].startswith(listing)


def error_of(found):
    """The call or row that reported an error, and the position of that error; None if none did."""
    for line in apart(found[1])[1]:
        name, _, error = line[2:].strip().partition(b": ")
        return name, ERRORS.index(error) if error in ERRORS else len(ERRORS)
    return None


def out_of_order(answers, all_tried):
    """What is wrong with the reported errors, as the requests were refused from the first to the last."""
    told = {}
    for number, found in answers:
        known = error_of(found)
        if known:
            name, error = known
            # (a row may elaborate two designs)
            if error == len(ERRORS) or name in WHOLE and error < max(told.get(name, {0})):
                return f"request {number}: {found[1]!r}"
            told.setdefault(name, set()).add(error)
    missing = [name for name in WHOLE if name in told and len(told[name]) < len(ERRORS)] if all_tried else []
    return f"{missing} told {told}" if missing else None


def tries(program, words, text, shim, most, with_later):
    """For each refusal its number, whether it was alone, and the answer, in the order of the requests."""
    count = requests(program, words, text, shim)
    kinds = [({}, True), ({"REFUSE_ON": "1"}, False)] if with_later else [({}, True)]
    planned = [(number, more, alone) for number in range(1, count + 1, max(1, count // most)) for more, alone in kinds]

    def one(plan):
        number, more, alone = plan
        return number, alone, answer(program, words, text, {"LD_PRELOAD": shim, "REFUSE_AT": str(number), **more})

    with concurrent.futures.ThreadPoolExecutor(AT_ONCE) as pool:
        return list(pool.map(one, planned))


def faults(program, words, text, shim, most, calls, with_later=True):
    """The number of runs with a refused request, how many of these answered differently than with ample memory, and what is wrong."""
    ample = answer(program, words, text, {})
    ran = tries(program, words, text, shim, most, with_later)
    wrong = [f"request {number}{'' if alone else ' and on'}: {found}" for number, alone, found in ran if not is_right(found, ample, calls, alone)]
    alone_ran = [(number, found) for number, alone, found in ran if alone]
    disorder = out_of_order(alone_ran, len(alone_ran) < most) if calls else None
    return len(ran), sum(found != ample for _, _, found in ran), wrong + ([disorder] if disorder else [])


def library(folder):
    """The library that refuses, built in this folder."""
    made, source = f"{folder}/refuse.so", f"{HERE}/refuse.c"
    rt = shutil.which("rt")
    clang = f"{os.path.dirname(os.path.dirname(os.path.realpath(rt)))}/toolchain/bin/clang" if rt else ""
    compiler = [clang, "-fuse-ld=lld"] if os.path.exists(clang) else ["cc"]
    subprocess.run([*compiler, "-O2", "-shared", "-fPIC", "-nostdlib", "-o", made, source], check=True)
    return made


def plans(vsim, cases):
    """Yields the program, the words, the text, whether it makes calls, and the answer with ample memory, for each run."""
    # (the rows say how many they are)
    yield cases, ["--rows"], b"", True, None
    for text, words, listing in DESIGNS:
        text, words, written = text.encode("ascii"), words.split(), f"{listing}\n".replace(" / ", "\n").encode("ascii")
        cut = listing.startswith("CycleLimit")
        answered = (3, b"", b"vsim: " + written) if cut else (0, written, b"")
        yield vsim, words, text, False, answered
        # (it writes this for the calls one after another, `simulate`, `run` and `run_in`)
        options = [f"{name}={value}" for name, value in zip(words[::2], words[1::2])]
        yield cases, [*DEFAULTS, *options, "--calls"], text, True, (0, written * 4, b"")
        if text.count(b"signal ") > 1:
            # (several processes, with three workers to which each phase is handed out)
            yield cases, ["--handed-out", *words, "--workers", "3"], text, False, answered


def gate(vsim, cases, shim):
    """Refuses each request of the designs above alone: prints how many designs and calls are right, and how many are not."""
    passed = failed = tried = 0
    for program, words, text, calls, wanted in plans(os.path.abspath(vsim), os.path.abspath(cases)):
        ample = answer(program, words, text, {})
        runs, _, wrong = faults(program, words, text, shim, 1 << 30, calls, False)
        if ample != wanted and (wanted or ample[0] or not ample[1].endswith(b" rows as expected\n")):
            wrong.insert(0, f"with ample memory: {ample}")
        tried, passed, failed = tried + runs, passed + (not wrong), failed + bool(wrong)
        for fault in wrong[:3]:
            print(f"refusals: {' '.join(words)} < {text.decode('ascii')!r}: {fault}")
    print(f"refusals: {tried} runs, in each of which one request for memory was refused")
    print(f"{passed} passed, {failed} failed")
    return 1 if failed else 0


def main():
    given = argparse.ArgumentParser()
    given.add_argument("program")
    given.add_argument("designs", nargs="*")
    given.add_argument("--gate", action="store_true")
    given.add_argument("--calls", action="store_true")
    given.add_argument("--rows", action="store_true")
    given.add_argument("--words")
    given.add_argument("--workers")
    given.add_argument("--most", type=int, default=4000)
    given = given.parse_intermixed_args()
    with tempfile.TemporaryDirectory() as folder:
        shim = library(folder)
        if given.gate:
            return gate(given.program, given.designs[0], shim)
        program = os.path.abspath(given.program)
        tried = memory = wrong = 0
        designs = given.designs or ([os.devnull] if given.rows else sorted(glob.glob(f"{EXAMPLES}/*.vhd")))
        for design in designs:
            words = words_of(design) + (["--workers", given.workers] if given.workers else [])
            if given.calls or given.rows:
                words = ["--calls" if given.calls else "--rows"]
            if given.words is not None:
                words = shlex.split(given.words)
            with open(design, "rb") as source:
                runs, others, found = faults(program, words, source.read(), shim, given.most, given.calls or given.rows)
            tried, memory, wrong = tried + runs, memory + others - len(found), wrong + len(found)
            for fault in found:
                print(f"refusals: {design}: {fault}")
    print(f"{tried} runs with a refused request: {memory} Memory, {tried - memory - wrong} the answer with ample memory, {wrong} something else")
    return 1 if wrong else 0


if __name__ == "__main__":
    sys.exit(main())

#!/usr/bin/env python3
"""Compares what vsim_explain says about the examples with what they say themselves, and about common mistakes with the manual.

    explain.py VSIM_EXPLAIN

The examples are all that examples/check runs: the designs there, those of docs/*.md, and each row of docs/LEFT_OUT.md. For each
that is refused at a place, the program must print that refusal, its line and column, the line with a mark below, and at least
one sentence. For each run it must print the cycles and events, the longest sequence of delta cycles, and the nets that change
most, as in the listing; and with --listing that listing, with its words on standard error. With --check it must print the same refusal,
and no run. The status is that of vsim.

The mistakes are the rows of MISTAKES: DESIGN with one line replaced, the line at which it is refused according to the manual, the
refusal, and what must be said about it. FAULTS are texts with several faults, of which all must be told that do not follow from each
other, at most twenty. RUNS are designs that are cut short, and words that are refused, with all that must be said. With --json each of
these answers must be the same refusals and warnings as objects. Each answer may take a second. If a text says `See SECTION in
docs/PAGE`, there must be such a section.

Differences are printed, and the last line is `N passed, M failed`.
"""
import collections
import glob
import importlib.machinery
import importlib.util
import json
import os
import re
import subprocess
import sys
import tempfile
import time

TOP = os.path.dirname(os.path.dirname(os.path.realpath(__file__)))
# how much of a line is shown on either side of a place
MOST_SHOWN = 100
MOST_NETS = 10
MOST_SECONDS = 1

DESIGN = """\
entity inverter is
  port (i : in std_logic; o : out std_logic);
end;

architecture gate of inverter is
begin
  o <= not i after 1 ns;
end;

entity t is
end;

architecture a of t is
  signal clk, p, q : std_logic := '0';
begin
  clk <= '1' after 5 ns, '0' after 10 ns;
  u1 : entity work.inverter port map (i => clk, o => p);
  process (clk)
    variable v : std_logic;
  begin
    if rising_edge(clk) then
      v := p;
      q <= v;
    end if;
  end process;
end;
"""

# which line of DESIGN is replaced, and by what; at which line it is refused, and how; what is said about it
MISTAKES = [
    # something missing
    (16, "clk <= '1' after 5 ns, '0' after 10 ns", 17, "Syntax", "Unexpected token: u1"),
    (16, "clk <= '1' after 5 ns, '0' after 10 ns", 17, "Syntax", "at the end of the line before: a ; or )"),
    (14, "signal clk, p, q : std_logic := '0'", 15, "Syntax", "at the end of the line before: a ; or )"),
    (14, "signal clk, p, q : std_logic := '0' -- no semicolon;", 15, "Syntax", "at the end of the line before: a ; or )"),
    (24, "end if", 25, "Syntax", "at the end of the line before: a ; or )"),
    (14, "signal clk, p, q std_logic;", 14, "Syntax", "A colon separates the names from their type"),
    (10, "entity t", 11, "Syntax", "a word such as is, then or begin"),
    (15, "", 16, "Syntax", "begin is missing between declarations and statements"),
    (21, "if clk = '1'", 22, "Syntax", "a word such as is, then or begin"),
    (24, "", 25, "Syntax", "An if ends with end if"),
    (25, "", 26, "Syntax", "a process with end process"),
    (26, "", 27, "Syntax", "is closed by end and a semicolon, and one of these is missing"),
    (26, "end", 27, "Syntax", "The text ends here, but the design is not complete."),
    (21, "if (clk = '1' then", 21, "Syntax", "a ; or ) or end may be missing there"),
    (23, "q <= v after 5;", 23, "Syntax", "A time is a whole number and a unit"),
    (23, "q <= v after 2.5 ns;", 23, "Syntax", "A time is a whole number and a unit"),
    (18, "process", 19, "Syntax", "A process needs a sensitivity list"),
    (17, "u1 : entity inverter port map (clk, p);", 17, "Syntax", "entity work.NAME"),
    (9, "/* the design under test", 9, "OpenComment", "ends at the next */"),
    # one thing instead of another
    (16, "clk = '1' after 5 ns;", 16, "Syntax", "Assign a signal with <="),
    (16, "clk => '1' after 5 ns;", 16, "Syntax", "=> is for port maps"),
    (16, "clk := '1' after 5 ns;", 16, "Syntax", "Assign a signal with <="),
    (23, "q := v;", 23, "WrongKind", "the target of <= is a signal or port, that of := a variable"),
    (22, "v <= p;", 22, "WrongKind", "the target of <= is a signal or port, that of := a variable"),
    (21, "if clk == '1' then", 21, "Syntax", "(not ==)"),
    (21, "if clk != '1' then", 21, "BadByte", "/= tests whether two values differ"),
    (17, "u1 : entity work.inverter port map (i <= clk, o => p);", 17, "Syntax", "In a port map write =>"),
    (2, "port (i : in std_logic, o : out std_logic);", 2, "Syntax", "Ports are separated by ;"),
    (2, "port (i : in std_logic; o : out std_logic;);", 2, "Syntax", "There must be no ; after the last port"),
    (24, "else if p = '1' then q <= '0'; end if;", 25, "Syntax", "elsif was meant"),
    (24, "elseif p = '1' then q <= '0'; end if;", 24, "Syntax", "The word is elsif."),
    (25, "end process main;", 25, "Syntax", "A name after end must be that of what it closes"),
    (26, "end architecture b;", 26, "Syntax", "A name after end must be that of what it closes"),
    (23, "q <= v; // the next value", 23, "BadByte", "A comment begins with --"),
    (17, "u1 : inverter (clk, p);", 17, "Syntax", "port map is missing before the parenthesis"),
    (14, 'file f : text open read_mode is "stimuli.txt";', 14, "BadByte", "Files are left out."),
    (14, "signal clk; p, q : std_logic := '0';", 14, "Syntax", "Names are separated by commas"),
    (14, "signal clk, p, q : std_logic := '0'; signal v : bits(1 downto 0);", 14, "Syntax", "signals have no elements"),
    (18, "process begin wait until clk'event and clk = '1';", 18, "Syntax", "Write if rising_edge(clk) then .. end if; in process (clk)."),
    (23, "q <= v; # the next value", 23, "BadByte", "A comment begins with --"),
    (19, "signal v : std_logic;", 19, "Syntax", "a process declares only variables"),
    (14, "variable clk, p, q : std_logic;", 14, "Syntax", "Variables are declared in a process"),
    (23, "q <= p and v or clk;", 23, "Syntax", "only with parentheses"),
    (1, "\ufeffentity inverter is", 1, "BadByte", "byte order mark"),
    # values and types
    (23, "q <= 1;", 23, "Syntax", "A value has apostrophes"),
    (23, 'q <= "1";', 23, "BadByte", "Strings are left out"),
    (23, "q <= '2';", 23, "BadLiteral", "one of the nine values"),
    (23, "q <= 'x';", 23, "BadLiteral", "in upper case"),
    (23, "q <= clk = '1';", 23, "TypeClash", "'1' when .. else '0'"),
    (21, "if '1' = '1' then", 21, "Ambiguous", "Use a signal or variable in it"),
    (21, "if '1' then", 21, "Ambiguous", "Use a signal or variable in it"),
    (21, "if ?? rising_edge(clk) then", 21, "TypeClash", "or ?? is applied to a boolean"),
    (16, "clk <= '1' after 10 ns, '0' after 5 ns;", 16, "NotAscending", "in the order of their times"),
    (16, "clk <= '1' after 2 hr;", 16, "TimeRange", "Write a shorter one."),
    # names
    (23, "q <= vv;", 23, "Unknown", "Compare it with its declaration."),
    (5, "architecture gate of invertor is", 5, "Unknown", "Compare it with its declaration."),
    (17, "u1 : inverter port map (clk, p);", 17, "Unknown", "units of this file as entity work.NAME"),
    (17, "u1 : entity work.inverter port map (i => clk, x => p);", 17, "Unknown", "Nothing visible here has this name."),
    (17, "u1 : entity work.inverter port map (clk, p, q);", 17, "Unknown", "there may be more actuals than ports"),
    (17, "u1 : entity work.inverter port map (o => p);", 17, "PortMissing", "neither an actual nor a default value"),
    (17, "u1 : entity work.inverter port map (i => clk, i => q, o => p);", 17, "PortTwice", "already has an actual in this port map"),
    (17, "u1 : entity work.inverter port map (i => clk, o => '1');", 17, "ModeClash", "nor an out port to an in port or a literal"),
    (17, "u1 : entity work.t;", 17, "Recursive", "so the hierarchy never ends"),
    (14, "signal clk, p, q, p : std_logic;", 14, "Duplicate", "is already declared"),
    (14, "signal clk, p, q, true : std_logic;", 14, "Predefined", "Choose another name."),
    (7, "o <= not o after 1 ns;", 7, "ReadOut", "Drive a signal, read that, and assign it to the port."),
    (7, "i <= o;", 7, "WriteIn", "Make it out or inout, or assign a signal instead."),
    # what is left out
    (23, "wait for 5 ns;", 23, "Syntax", "Wait statements are left out."),
    (23, "case v is when '0' => q <= v; end case;", 23, "Syntax", "Write if, elsif and else."),
    (14, "signal clk, p, q : std_logic_vector(7 downto 0);", 14, "Syntax", "Vectors are left out."),
    (10, "entity t is generic (n : natural := 8);", 10, "Syntax", "Generics are left out."),
    (14, "signal clk, p, q : integer;", 14, "Unknown", "Numbers, user-defined types and all others are left out"),
    (14, "signal clk, p, q : integer range 0 to 7;", 14, "Syntax", "Numbers, user-defined types and all others are left out"),
    (14, "signal clk, p, q : boolean;", 14, "WrongKind", "only variables can be boolean"),
    (14, "constant zero : std_logic := '0';", 14, "Syntax", "Constants are left out."),
    (23, "q <= v + '1';", 23, "BadByte", "Arithmetic is left out"),
    (23, "q <= v when clk = '1' else p;", 23, "Syntax", "Write an if statement."),
    (23, "for k in 0 to 7 loop q <= v; end loop;", 23, "Syntax", "Loops and generate statements are left out."),
    (17, "g : for k in 0 to 7 generate end generate;", 17, "Syntax", "Loops and generate statements are left out."),
    (23, "assert q = v;", 23, "Syntax", "Assertions and reports are left out."),
    (23, 'assert q = v report -- what differs\n"q";', 24, "BadByte", "Assertions and reports are left out."),
    (23, "q <= p(0);", 23, "Syntax", "signals have no elements"),
    (18, "process begin", 18, "Syntax", "wait is left out"),
    (14, "constant period : time := 10 ns;", 14, "Syntax", "write the delay itself"),
    (23, 'q <= "10";', 23, "BadByte", "a signal for each element of"),
    (17, "u1 : entity work.inverter port map (i => not clk, o => p);", 17, "Syntax", "An actual is a signal, a port, a literal or open"),
    (17, "u1 : entity work.inverter port map (clk and q, p);", 17, "Syntax", "An actual is a signal, a port, a literal or open"),
    # a word of the text that may have been meant differently
    (24, "endif;", 24, "Syntax", "An if ends with two words, end if."),
    (12, "architectur a of t is", 12, "Syntax", "architectur is not a reserved word; did you mean architecture?"),
    (14, "singal clk, p, q : std_logic := '0';", 14, "Syntax", "singal is not a reserved word; did you mean signal?"),
    (18, "Proces (clk)", 18, "Syntax", "Proces is not a reserved word; did you mean process?"),
    (1, "module inverter (input i, output o);", 1, "Syntax", "This looks like Verilog"),
    (1, "// an inverter\nmodule inverter (input i, output o);", 1, "BadByte", "This looks like Verilog"),
    (1, "// an inverter\nentity inverter is", 1, "BadByte", "A comment begins with --"),
    (1, "# an inverter\nentity inverter is", 1, "BadByte", "A comment begins with --"),
    (1, '{"creator": "Yosys"}', 1, "BadByte", "This looks like Verilog"),
    (1, "/* Generated by Yosys 0.33 */\n\nmodule inverter(i, o);", 3, "Syntax", "This looks like Verilog"),
    (1, "/* Generated by Yosys 0.33 */ /**/\n(* top = 1 *)\nmodule inverter(i, o);", 2, "BadByte", "This looks like Verilog"),
    (1, "# Generated by Yosys 0.33\n.model inverter", 1, "BadByte", "This looks like Verilog"),
    # a comment before VHDL
    (1, "/* an inverter */ entity inverter", 2, "Syntax", "a word such as is, then or begin"),
    # a port without an actual
    (17, "u1 : entity work.inverter port map (o => p);", 17, "PortMissing", "The port without an actual is i of inverter."),
    (17, "u1 : entity work.inverter port map (ii => clk, o => p);", 17, "PortMissing", "No port is named ii; the nearest that is free is i."),
    # a waveform that is too long
    (16, "clk <= " + ", ".join(f"'{n % 2}' after {n} ns" for n in range(17)) + ";", 16, "TooMany", "several assignments in a process that is executed only once"),
]

LOOP = "entity t is end; architecture a of t is signal s : std_logic := '0'; begin s <= not s; end;"
CLOCK = "entity t is end; architecture a of t is signal clk : std_logic := '0'; begin clk <= not clk after 5 ns; end;"
UNITS = "entity gates is end; entity counter is end; entity clock is end;"
# seven nets that change in turn, and all at once
WIDE = """\
entity t is end;
architecture a of t is
  signal a, b, c, d, e, f, g : std_logic := '0';
begin
  a <= not a after 1 ns; b <= a; c <= a; d <= a; e <= a; f <= a; g <= a;
end;
"""
STANDS = """\
Time does not advance: signals drive one another in a loop without delay. Break the
loop, or give one of its assignments a delay. See Time and cycles in docs/LANGUAGE.md.
"""
EARLY = """\
So few cycles do not show whether time advances. Set a larger --limit.
See Time and cycles in docs/LANGUAGE.md.
"""
NO_STOP = """\
Time advances, and there is no --stop: a free-running clock needs one, such as
--stop 1000000 for 1 ns. Otherwise set a larger --limit.
See Calling the program in docs/LANGUAGE.md.
"""
STOP_NOT_REACHED = """\
Time advances, but has not reached --stop. Set an earlier --stop or a larger --limit,
which is 10000 by default and at most 1000000.
See Calling the program in docs/LANGUAGE.md.
"""
BUSIEST = "The nets that change most in the last 100 cycles, and how often:\n"
LAST = "The last cycles of the listing:\n"

GATE = "entity g is port (i : in std_logic; o : out std_logic); end; architecture a of g is begin o <= i; end;\n"


def faulty(body, declarations=""):
    """Returns a design with these statements."""
    return f"entity t is end;\narchitecture a of t is\n  signal p, q, r : std_logic := '0';\n{declarations}begin\n{body}\nend;\n"


# texts with several faults, with a @ before the place of each that must be told, and the kinds of these
FAULTS = [
    (faulty("  p <= @x;\n  q <= r; r <= @y;\n  @z <= '0';"), "Unknown Unknown Unknown"),
    (faulty("  p <= @true;\n  q <= r when @'1' else p;\n  r <= p when q = '1' else @x;"), "TypeClash Ambiguous Unknown"),
    (faulty("  l : p <= '0';\n  @l : q <= '0';\n  @l : r <= '0';"), "Duplicate Duplicate"),
    # instances, and statements of processes, in all their branches
    (GATE + faulty("  @u : entity work.g port map (o => p);\n  v : entity work.g port map (i => @n, o => q);"), "PortMissing Unknown"),
    (faulty("  l : process (p) begin q <= @x; r <= @y; end process;\n  p <= @z;"), "Unknown Unknown Unknown"),
    (faulty("  process (p) variable v : std_logic; begin v := @x; q <= @y; end process;"), "Unknown Unknown"),
    (
        faulty("  process (p) begin if p = '1' then q <= @x; elsif @y = '0' then q <= r; else q <= @z; end if; r <= @w; end process;"),
        "Unknown Unknown Unknown Unknown",
    ),
    # two units
    (GATE.replace("<= i", "<= @x") + faulty("  p <= @y;"), "Unknown Unknown"),
    # comments that look like statements, and statements with comments
    (faulty("  -- signal x; begin\n  p <= @x; /* q <= y; */ q <= @y -- ; z\n  ; /* -- */ r <= @z;"), "Unknown Unknown Unknown"),
    ("entity t is port (a : out std_logic; -- p <= x;\n  b : @foo); end;\narchitecture a of t is begin a <= b and x; end;\n", "Unknown"),
    # what others use stays
    (faulty("  s <= x;", "  signal s : @foo; -- p <= x\n"), "Unknown"),
    # a process whose list, variable, condition or label has a fault
    (faulty("  p <= @w;\n  process (@x) begin q <= y; end process;\n  p <= @z;"), "Unknown Unknown Unknown"),
    (faulty("  postponed process (p) variable v : @foo; begin v := y; end postponed process;\n  p <= @z;"), "Unknown Unknown"),
    (faulty("  l : process (p) begin if @x = '1' then q <= r; end if; r <= y; end process l;\n  p <= @z;"), "Unknown Unknown"),
    (faulty("  l : p <= '0';\n  @l : process (p) begin q <= x; end process;\n  r <= @y;"), "Duplicate Unknown"),
    (faulty("  process (p) begin l : if @x = '1' then q <= r; end if; end process;\n  process (q) begin r <= @y; end process;"), "Unknown Unknown"),
    # a fault of the whole design, which no statement hides
    (faulty("  s <= p;\n  s <= q;\n  r <= @x;", "  signal @s : std_ulogic;\n"), "ManySources Unknown"),
    # at most twenty
    (faulty("  p <= @x;\n" * 20 + "  p <= x;\n" * 5), " ".join(["Unknown"] * 20)),
    # one fault of a text
    (faulty("  p @= q;\n  q = r;\n  r <= x;"), "Syntax"),
]

# the members of each object of --json, and the codes of warnings by what they say
MEMBERS = ["file", "line", "column", "kind", "code", "message", "advice"]
CODES = {
    "is read here, but is not in the sensitivity list of its process": "SensitivityList",
    "is inverted here, but has no first value": "ClockValue",
    "is an input of the top, and nothing drives it": "UndrivenInput",
    "is U at the end of the run": "ValueU",
    "is X at the end of the run": "ValueX",
    "before the shortest delay": "StopTime",
}
# words that are refused with --json, and the message
REFUSED_WORDS = [
    ("--json", "the following required arguments were not provided:"),
    ("--top t --stop 10ns --json", "invalid value '10ns' for '--stop <FS>': invalid digit found in string"),
    ("--json --top t --what", "unexpected argument '--what' found"),
]

# what the help must say in place of what that of vsim says
OF_HELP = [
    "Explains in plain words what vsim answers to a design, on standard output.",
    "--top <NAME> [FILE]...\n",
    "\n      --check  ",
    "\n      --json  ",
    "\n      --listing  ",
    "A refusal goes to standard output, as in 'design.vhd:7:5: error: Syntax at 77'",
    "\n      vsim_explain --top t pulse.vhd\n",
]
# words that ask for no run, and the status
USAGES = [(["--help"], 0), (["-h"], 0), ([], 2)]


def clock_lines(first, last):
    """Returns the lines of CLOCK from one cycle to another."""
    return "".join(f"{5000000 * n} 0 clk {n % 2}\n" for n in range(first, last + 1))


def loop_lines(first, last):
    """Returns the lines of LOOP from one cycle to another."""
    return "".join(f"0 {n} s {n % 2}\n" for n in range(first, last + 1))


def cut_short(limit, came, events, meaning, counts, lines):
    """Returns what is said about a run that is cut short: the nets that change most and how often, and the last lines."""
    far = f"CycleLimit {limit}\nThe run reached {came}, with {events} events.\n"
    return far + meaning + BUSIEST + "".join(f"{count:>10} {name}\n" for count, name in counts) + (f"{LAST}{lines}" if lines else "")


WIDE_LINES = (
    "".join(f"0 0 {it} 0\n" for it in "abcde")
    + "0 0 and 2 more\n1000000 0 a 1\n"
    + "".join(f"1000000 1 {it} 1\n" for it in "bcdef")
    + "1000000 1 and 1 more\n2000000 0 a 0\n"
)
AT_200_NS = "200000000 fs, delta cycle 0"
# words, a text, the status, and the whole answer
RUNS = [
    (
        "--top t --limit 300",
        LOOP,
        3,
        cut_short(300, "0 fs, delta cycle 300", 300, STANDS, [(100, "s")], loop_lines(295, 300)),
    ),
    (
        "--top t --limit 20 --listing",
        LOOP,
        3,
        loop_lines(0, 20),
    ),
    (
        "--top t --limit 2",
        LOOP,
        3,
        cut_short(2, "0 fs, delta cycle 2", 2, EARLY, [(2, "s")], loop_lines(0, 2)),
    ),
    (
        "--top t --limit 40",
        CLOCK,
        3,
        cut_short(40, AT_200_NS, 40, NO_STOP, [(40, "clk")], clock_lines(35, 40)),
    ),
    (
        "--top t --limit 40 --stop 500000000",
        CLOCK,
        3,
        cut_short(40, AT_200_NS, 40, STOP_NOT_REACHED, [(40, "clk")], clock_lines(35, 40)),
    ),
    (
        "--top t --limit 4",
        WIDE,
        3,
        cut_short(4, "2000000 fs, delta cycle 0", 8, NO_STOP, [(2, "a"), *((1, it) for it in "bcdefg")], WIDE_LINES),
    ),
    (
        "--top t --stop 2000000",
        WIDE,
        0,
        "The run finished after 5 cycles with 14 events.\nThe longest sequence of delta cycles is 1, at 0 fs.\n"
        + "The nets that change most, and how often:\n"
        + "".join(f"         2 {it}\n" for it in "abcdefg"),
    ),
    (
        "--top t --limit 0 --workers 17",
        CLOCK,
        2,
        "error: Options\n--limit is 0, but must be from 1 to 1000000 cycles.\n--workers is 17, but must be from 1 to 16 threads.\n",
    ),
    (
        "--top t --limit 0 --large",
        CLOCK,
        2,
        "error: Options\n--limit is 0, but must be from 1 to 4294967295 cycles.\n",
    ),
    (
        "--top t --stop 4611686018427387904",
        CLOCK,
        2,
        "error: Options\n--stop is 4611686018427387904, but must be at most 4611686018427387903 femtoseconds.\n",
    ),
    (
        "--top u",
        CLOCK,
        1,
        "error: NoTop\nNo entity in the text has the name given by --top. Check the spelling; case makes no\n"
        "difference.\nSee Calling the program in docs/LANGUAGE.md.\n"
        "The entities in the text, nearest name first: t.\n",
    ),
    (
        "--top clok",
        UNITS,
        1,
        "error: NoTop\nNo entity in the text has the name given by --top. Check the spelling; case makes no\n"
        "difference.\nSee Calling the program in docs/LANGUAGE.md.\n"
        "The entities in the text, nearest name first: clock, gates, counter.\n",
    ),
    ("design.vhd", CLOCK, 2, ""),
]


def doubtful(statements, signals="signal a, b, q : std_logic := '0';", ports=""):
    """Returns a design with these statements from line 5 on."""
    return f"entity t is {ports}end;\narchitecture a of t is\n{signals}\nbegin\n{statements}\nend;\n"


AT_EDGE = "if rising_edge(a) then q <= b; end if;"
LACKED = "b is read here, but is not in the sensitivity list of its process"
NO_VALUE = "a is inverted here, but has no first value"
UNDRIVEN = "i is an input of the top, and nothing drives it"
# words after those for the top, a design whose run finishes with @ before the place of the warning, and what that says, if there is one
FINDINGS = [
    ("", doubtful("process (a) begin q <= a and @b; end process;"), LACKED),
    ("", doubtful("process (a)\nbegin\nif @b = '1' then q <= a; end if;\nend process;"), LACKED),
    ("", doubtful("process (a) begin if a = '1' then null; else q <= not (@b); end if; end process;"), LACKED),
    ("", doubtful("process (a) begin if @b = '1' then q <= '0'; elsif rising_edge(a) then q <= '1'; end if; end process;"), LACKED),
    ("", doubtful("process (a) variable v : std_logic; begin v := @b; q <= v; end process;"), LACKED),
    # each kind is told once
    ("", doubtful("process (a) begin q <= @b; end process;\nprocess (q) begin a <= b; end process;"), LACKED),
    ("", doubtful("process (A, b) begin q <= a and B; end process;"), None),
    ("", doubtful("process (all) begin q <= a and b; end process;"), None),
    ("", doubtful(f"process (a) begin {AT_EDGE} end process;"), None),
    ("", doubtful("process (a) begin if a'event and a = '1' and b = '0' then q <= b; end if; end process;"), None),
    ("", doubtful("process (a) variable v : boolean; begin v := true; if v then q <= a; end if; end process;"), None),
    ("", doubtful("q <= a and b;"), None),
    # a clock without a first value, and one with it
    ("", doubtful("@a <= not a after 5 ns;", "signal a : std_logic;"), NO_VALUE),
    ("", doubtful("process (a) begin @a <= not a after 5 ns; end process;", "signal a : std_logic;"), NO_VALUE),
    ("--stop 10000000", doubtful("a <= not a after 5 ns;"), None),
    # an input of the top without a first value, and one with it
    ("", doubtful("o <= i;", "", "port (@i : in std_logic; o : out std_logic); "), UNDRIVEN),
    ("", doubtful("o <= i;", "", "port (i : std_logic := '1'; o : out std_logic); "), None),
    # a stop time before the first change
    ("--stop 1000", doubtful("a <= not a after 5 ns;"), "The run ends at 1000 fs, before the shortest delay, which is 5000000 fs."),
    ("--stop 1000", doubtful("a <= '1' after 2 ps, '0' after 3 ps;"), "The run ends at 1000 fs, before the shortest delay, which is 2000 fs."),
    ("--stop 1000", doubtful("q <= a;"), None),
    # nets that are U or X at the end: where they are assigned, connected or declared
    ("", doubtful("@q <= a;", "signal q, a : std_logic;"), "q is U at the end of the run"),
    ("", doubtful("process (a) begin if a = '1' then @q <= '0'; end if; end process;", "signal q, a : std_logic;"), "q is U at the end of the run"),
    ("", doubtful("", "signal @a, b : std_logic;"), "a is U at the end of the run"),
    ("", doubtful("", "", "port (@o : out std_logic); "), "o is U at the end of the run"),
    ("", doubtful("@a <= '0'; q <= b;\na <= '1';"), "a is X at the end of the run"),
    ("", doubtful("a <= '1' after 1 ns; q <= a;", "signal a, q : std_logic;"), None),
]

# the warnings about examples, which show nets that are U or X on purpose
WARNED = {
    ("examples/bus.vhd", "bus_line is X at the end of the run"),
    ("docs/INSTANCES.md", "s is U at the end of the run"),
    ("docs/LANGUAGE.md", "bus_line is X at the end of the run"),
    ("docs/LANGUAGE.md", "wait is U at the end of the run"),
    ("docs/LANGUAGE.md", "s is U at the end of the run"),
    ("docs/LANGUAGE.md", "beside is X at the end of the run"),
}


def examples():
    """Yields the name of each example, its words, its text, and the output, the errors and the status of vsim."""
    sys.dont_write_bytecode = True
    loader = importlib.machinery.SourceFileLoader("check", f"{TOP}/examples/check")
    check = importlib.util.module_from_spec(importlib.util.spec_from_loader("check", loader))
    loader.exec_module(check)
    pages = [f"{TOP}/docs/{it}" for it in sorted(os.listdir(f"{TOP}/docs")) if it.endswith(".md")]
    yield from check.designs()
    for page in pages:
        yield from check.runs(page)
    yield from check.left_out(f"{TOP}/docs/LEFT_OUT.md")


def head_of_refusal(text, refusal):
    """Returns the first lines of the answer to a refused text."""
    at = re.search(r" at (\d+)$", refusal)
    if not at:
        return [f"error: {refusal}"]
    before, after = text[: int(at[1])], text[int(at[1]) :]
    start = before.split(b"\n")[-1]
    column = len(start.decode()) + 1
    start, rest = start[-MOST_SHOWN:], after.split(b"\n")[0][:MOST_SHOWN].rstrip()
    mark = re.sub(r"[^\t]", " ", start.decode())
    line = before.count(b"\n") + 1
    return [f"<stdin>:{line}:{column}: error: {refusal}", (start + rest).decode(errors="replace"), f"{mark}^"]


def lines_of_run(listing):
    """Returns the lines of the answer to a finished run."""
    *changes, done = listing.splitlines()
    _, cycles, events = done.split()
    told = [f"The run finished after {cycles} cycles with {events} events."]
    if events == "0":
        return [*told, "No net changes its value."]
    counts = collections.OrderedDict()
    for line in changes:
        time, delta, name, _ = line.split()
        counts.setdefault(name, 0)
        counts[name] += (time, delta) != ("0", "0")
    most = sorted(counts.items(), key=lambda it: -it[1])[:MOST_NETS]
    return [*told, "The nets that change most, and how often:", *(f"{n:>10} {name}" for name, n in most if n)]


def answer(program, words, text):
    """Returns the output, the errors and the status of a run, and the time that it takes."""
    began = time.monotonic()
    ran = subprocess.run([program, *words], input=text, stdout=subprocess.PIPE, stderr=subprocess.PIPE, timeout=120)
    took = time.monotonic() - began
    return ran.stdout.decode(errors="replace"), ran.stderr.decode(errors="replace"), ran.returncode, took


def without_deepest(said, listing):
    """Returns what is said about a run without its longest sequence of delta cycles, if that is at least as long as the listing shows."""
    most = max(int(line.split()[1]) for line in listing.splitlines()[:-1]) if listing.count("\n") > 1 else 0
    found = re.fullmatch(r"There are no delta cycles\.|The longest sequence of delta cycles is (\d+), at \d+ fs\.", said[1])
    return said[:1] + said[2:] if found and int(found[1] or 0) >= most else said


def without_warnings(said):
    """Returns what is said about a run without the warnings, and the first line of each."""
    found = [place for place, line in enumerate(said) if "warning: " in line]
    return said[: found[0]] if found else said, [said[place].partition("warning: ")[2] for place in found]


def reports(said):
    """Returns what the answer for people reports, as the objects of --json: one for each line with a kind, what it means being the lines
    behind it, the line of the text and the mark left out."""
    found = []
    for line in said.split("\n"):
        head = re.fullmatch(r"(?:(.+):(\d+):(\d+): )?(error|warning): (.*)", line)
        if head:
            code = head[5].split()[0] if head[4] == "error" else next(code for it, code in CODES.items() if it in head[5])
            place = [head[1], int(head[2]), int(head[3])] if head[1] else [None] * 3
            found.append([*place, head[4], code, head[5], []])
        elif found:
            found[-1][-1].append(line)
    return [dict(zip(MEMBERS, [*it, "\n".join(lines[2:] if it[0] else lines).rstrip()])) for *it, lines in found]


def fault_of_json(program, words, text, said, status):
    """Returns what is wrong with the answer to words with --json, where this is the one for people, if anything."""
    lines, errors, got, _ = answer(program, [*words, "--json"], text)
    wanted = [json.dumps(it, ensure_ascii=False, separators=(",", ":")) for it in reports(f"error: {said}" if status == 3 else said)]
    if got != status or errors or [json.dumps(json.loads(it), ensure_ascii=False, separators=(",", ":")) for it in lines.split("\n")[:-1]] != wanted:
        return "with --json wanted:\n" + "\n".join(wanted) + f"\ngot with status {got}:\n{lines}{errors}"
    return None


def fault_of_faults(program, marked, kinds):
    """Returns what is wrong with what is told of a text with several faults, if anything."""
    before, text = "", marked.replace("@", "")
    wanted = []
    for piece, kind in zip(marked.split("@"), kinds.split()):
        before += piece
        wanted.append((before.count("\n") + 1, len(before) - before.rfind("\n"), f"{kind} at {len(before)}"))
    said, errors, status, took = answer(program, ["--top", "t"], text.encode())
    found = [(it["line"], it["column"], it["message"]) for it in reports(said)]
    if status != 1 or errors or sorted(found) != wanted or took > MOST_SECONDS:
        return f"wanted {wanted}\ngot after {took:.1f} s with status {status}:\n{said}{errors}"
    return fault_of_json(program, ["--top", "t"], text.encode(), said, 1)


def fault_of_refused_words(program, words, message):
    """Returns what is wrong with the answer to a refused command line with --json, if anything."""
    lines, errors, got, _ = answer(program, words.split(), b"")
    found = [json.loads(line) for line in lines.split("\n")[:-1]]
    wanted = {"file": None, "line": None, "column": None, "kind": "error", "code": "Usage", "message": message}
    if got != 2 or errors or [{**it, "advice": ""} for it in found] != [{**wanted, "advice": ""}] or "vsim_explain --top NAME" not in found[0]["advice"]:
        return f"wanted {wanted}\ngot with status {got}:\n{lines}{errors}"
    return None


def fault_of_json_streams(program):
    """Returns what is wrong with the streams of --json with --listing, if anything."""
    lines, words, status, _ = answer(program, "--top t --limit 20 --listing --json".split(), LOOP.encode())
    found = [json.loads(line)["message"] for line in words.split("\n")[:-1]]
    return None if (lines, found, status) == (loop_lines(0, 20), ["CycleLimit 20"], 3) else f"got with status {status}:\n{lines}and\n{words}"


def fault_of_example(program, name, words, text, wanted):
    """Returns what is wrong with what is said about the example of this name, if anything."""
    out, err, status = wanted
    if status in (2, 3) or b"--help" in out or "--help" in words:
        return None
    text_said, errors, got, _ = answer(program, words, text)
    said = text_said.splitlines()
    if got != status or errors:
        return f"status {got}: {errors}"
    head = head_of_refusal(text, err.decode().strip()[len("vsim: ") :]) if status else None
    if not status:
        head = lines_of_run(out.decode())
        said, warnings = without_warnings(without_deepest(said, out.decode()))
        if not {(name.partition(":")[0], it) for it in warnings} <= WARNED:
            return f"the warnings are {warnings}"
        if answer(program, [*words, "--listing"], text)[:3] != (out.decode(), text_said, 0):
            return "with --listing it is not the listing on one stream and the same answer on the other"
    if answer(program, [*words, "--check"], text)[:3] != ((text_said, "", status) if status else ("No fault in the text or its design.\n", "", 0)):
        return "with --check it is not the refusal, or that there is no fault"
    if answer(program, [*words, "--check", "--json"], text)[:3] != ("" if not status else answer(program, [*words, "--json"], text)[0], "", status):
        return "with --check and --json it is not the refusal alone"
    if fault := fault_of_json(program, words, text, text_said, status):
        return fault
    if said[: len(head)] != head or (len(said) > len(head)) != bool(status):
        return "wanted:\n" + "\n".join(head) + "\ngot:\n" + "\n".join(said)
    return None


def told_in_pages():
    """Yields for each run of vsim_explain in the pages its place, its words, its design and the answer there."""
    for path in sorted(glob.glob(f"{TOP}/docs/*.md")):
        with open(path, encoding="utf-8") as file:
            text = file.read()
        for block in re.finditer(r"^```text\n\$ vsim_explain ([^\n]*) < \S+\n(.*?)^```$", text, re.M | re.S):
            design = re.findall(r"^```vhdl\n(.*?)^```$", text[: block.start()], re.M | re.S)[-1]
            yield f"{os.path.relpath(path, TOP)}: {block[1]}", block[1], design, block[2]


def with_line(number, line):
    """Returns DESIGN with one line replaced."""
    lines = DESIGN.splitlines(keepends=True)
    lines[number - 1] = f"{line}\n"
    return "".join(lines)


def fault_of_mistake(program, number, line, at, refusal, wanted):
    """Returns what is wrong with what is said about a mistake, if anything."""
    said, errors, status, took = answer(program, ["--top", "t"], with_line(number, line).encode())
    found = re.match(rf"<stdin>:{at}:\d+: error: {refusal}( |$)", said, re.M)
    if status != 1 or errors or not found or wanted not in " ".join(said.split()) or took > MOST_SECONDS:
        return f"wanted line {at}, {refusal}, and '{wanted}'\ngot after {took:.1f} s with status {status}:\n{said}{errors}"
    return fault_of_json(program, ["--top", "t"], with_line(number, line).encode(), said, 1)


def fault_of_run(program, words, text, status, wanted):
    """Returns what is wrong with what is said about a run, if anything."""
    said, errors, got, took = answer(program, words.split(), text.encode())
    if (said, got) != (wanted, status) or bool(errors) != (not wanted or "--listing" in words) or took > MOST_SECONDS:
        return f"wanted status {status}:\n{wanted}got after {took:.1f} s with status {got}:\n{said}{errors}"
    return None if "--listing" in words or not wanted else fault_of_json(program, words.split(), text.encode(), said, status)


def fault_of_finding(program, words, marked, what):
    """Returns what is wrong with the warning about a design whose run finishes, if anything."""
    before, mark, after = marked.partition("@")
    place = f"<stdin>:{before.count(chr(10)) + 1}:{len(before) - before.rfind(chr(10))}: " if mark else ""
    said, errors, got, took = answer(program, ["--top", "t", *words.split()], (before + after).encode())
    found = [line for line in said.splitlines() if "warning: " in line]
    if got or errors or found != [f"{place}warning: {what}"] * bool(what) or took > MOST_SECONDS:
        return f"wanted {place}{what}\ngot after {took:.1f} s with status {got}:\n{said}{errors}"
    return fault_of_json(program, ["--top", "t", *words.split()], (before + after).encode(), said, 0)


def fault_of_streams(program):
    """Returns what is wrong with the streams of a run that is cut short, and of a refusal, if anything."""
    lines, words, status, _ = answer(program, "--top t --limit 20 --listing".split(), LOOP.encode())
    wanted = cut_short(20, "0 fs, delta cycle 20", 20, STANDS, [(20, "s")], "")
    if (lines, words, status) != (loop_lines(0, 20), wanted, 3):
        return f"with --listing the streams of a run that is cut short are\n{lines}and\n{words}"
    lines, words, status, _ = answer(program, "--top u --listing".split(), LOOP.encode())
    return None if not lines and words.startswith("error: NoTop\n") and status == 1 else f"with --listing a refusal is\n{lines}and\n{words}"


def fault_of_files(program, folder):
    """Returns what is wrong with files in place of standard input, if anything."""
    units = {"a.vhd": "entity e is port (o : out bit); end;\n", "b.vhd": "\nentity t is end;\narchitecture a of t is begin end;\n", "c.vhd": "entity t is end"}
    for name, text in units.items():
        with open(f"{folder}/{name}", "w", encoding="utf-8") as file:
            file.write(text)
    a, b, c = (f"{folder}/{it}" for it in units)
    rows = [
        # the offset is that of both files as one text, and the line that of the file
        ([a, b], 1, f"{a}:1:27: error: Unknown at 26\n"),
        ([b, a], 1, f"{a}:1:27: error: Unknown at {26 + len(units['b.vhd'])}\n"),
        ([b, c], 1, f"{c}:1:16: error: Syntax at {15 + len(units['b.vhd'])}\n"),
        (["--check", b], 0, "No fault in the text or its design.\n"),
        ([b, "--limit", "5"], 0, "The run finished after 0 cycles with 0 events.\n"),
    ]
    for words, status, head in rows:
        out, errors, got, _ = answer(program, ["--top", "t", *words], b"entity")
        if got != status or errors or not out.startswith(head):
            return f"{words}: wanted {head}got with status {got}:\n{out}{errors}"
    out, errors, got, _ = answer(program, ["--top", "t", b, f"{folder}/none.vhd"], b"")
    return None if got == 4 and not out and "none.vhd" in errors else f"a file that is missing: status {got}: {out}{errors}"


def fault_of_stop(program):
    """Returns what is wrong with what is said of a stop time with a unit, if anything."""
    for stop in ("10ns", "1e6"):
        out, errors, got, _ = answer(program, ["--top", "t", "--stop", stop], LOOP.encode())
        if got != 2 or out or "femtoseconds: 10ns is 10000000" not in errors:
            return f"--stop {stop}: status {got}: {out}{errors}"
    return None


def sections():
    """Yields the place of each section named in the texts of the program, and what is wrong with it, if anything."""
    for path in sorted(glob.glob(f"{TOP}/crates/vsim_explain*/src/*.rt")):
        with open(path, encoding="utf-8") as file:
            text = re.sub(r"\\n\\\n *", " ", file.read())
        for found in re.finditer(r"See (?:([A-Z][\w, ]*?) in )?(docs/[A-Z_]+\.md)", text):
            with open(f"{TOP}/{found[2]}", encoding="utf-8") as file:
                known = found[1] is None or re.search(rf"^#+ {re.escape(found[1])}$", file.read(), re.M)
            yield f"{os.path.relpath(path, TOP)}: {found[0]}", None if known else "there is no such section"


def fault_of_usage(program, words, status):
    """Returns what is wrong with the usage printed for words that ask for no run, if anything."""
    out, errors, got, _ = answer(program, words, b"")
    said = errors if status else out
    missing = [it for it in OF_HELP if it not in said] if not status else []
    if missing:
        return f"the help lacks {missing}:\n{out}"
    if got != status or "Usage: vsim_explain " not in said or "Usage: vsim " in said or (out and errors):
        return f"wanted status {status} and its own line of usage\ngot with status {got}:\n{out}{errors}"
    return None


def faults(program):
    """Yields the name of each test, and what is wrong, if anything."""
    for words, status in USAGES:
        yield f"the usage of {words}", fault_of_usage(program, words, status)
    yield from sections()
    for name, words, text, wanted in examples():
        yield name, fault_of_example(program, name, words, text, wanted)
    for row in MISTAKES:
        yield f"line {row[0]} as '{row[1]}'", fault_of_mistake(program, *row)
    for name, words, text, wanted in told_in_pages():
        status = answer(program, words.split(), text.encode())[2]
        yield name, fault_of_run(program, words, text, status, wanted)
    for words, marked, what in FINDINGS:
        yield f"the warning about '{marked}' with '{words}'", fault_of_finding(program, words, marked, what)
    for row in FAULTS:
        yield f"the faults of '{row[0][:200]}'", fault_of_faults(program, *row)
    for row in REFUSED_WORDS:
        yield f"the words '{row[0]}'", fault_of_refused_words(program, *row)
    yield "the streams", fault_of_streams(program)
    yield "the streams of --json", fault_of_json_streams(program)
    yield "a stop time with a unit", fault_of_stop(program)
    with tempfile.TemporaryDirectory() as folder:
        yield "files", fault_of_files(program, folder)
    for row in RUNS:
        yield f"the run {row[0]} of '{row[1].strip()}'", fault_of_run(program, *row)


def main(program):
    passed = failed = 0
    for name, fault in faults(program):
        passed, failed = passed + (not fault), failed + bool(fault)
        if fault:
            print(f"{name}: {fault}")
    print(f"{passed} passed, {failed} failed")
    return 1 if failed or not passed else 0


if __name__ == "__main__":
    if len(sys.argv) != 2:
        print(__doc__.rstrip())
        sys.exit(2)
    sys.exit(main(os.path.abspath(sys.argv[1])))

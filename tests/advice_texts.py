"""The texts of advice.py: designs with a fault, the advice, and the same designs with the advice followed."""

INVERTER = "entity inverter is port (i : in std_logic; o : out std_logic); end; architecture g of inverter is begin o <= not i; end;\n"


def of(declarations, statements, more=""):
    """Returns a design of entity t."""
    return f"{more}entity t is end;\narchitecture a of t is\n{declarations}\nbegin\n{statements}\nend;\n"


def signals(names, first="'0'", mark="std_logic"):
    return f"signal {names} : {mark} := {first};"


def process(body, sensitivity=" (a)", declarations=""):
    return f"process{sensitivity}\n{declarations}begin\n{body}\nend process;"


def both(wrong, right, names="a,q", more=""):
    """Returns two designs in which a becomes '1' after 1 ns; they differ in what follows."""
    return tuple(of(signals(names), A + it, more) for it in (wrong, right))


def beside(wrong, right, statements="u : entity work.inverter port map (a, q);"):
    """Returns two designs that differ in the units before t."""
    return tuple(of(signals("a,q"), A + statements, it) for it in (wrong, right))


def edited(design, old, new):
    """Returns a design in which the first occurrence of a text is replaced, and the design itself."""
    return design.replace(old, new, 1), design


def levels(count):
    """Returns entities l1, l2 and so on, each with an instance of the next; the last one passes its input on."""
    ports = "port (i : in std_logic; o : out std_logic); end;"
    inner = [f"u : entity work.l{n + 1} port map (i, o);" for n in range(1, count)] + ["o <= i;"]
    return "".join(f"entity l{n} is {ports} architecture g of l{n} is begin {it} end;\n" for n, it in enumerate(inner, 1))


def instances(count):
    """Returns statements of t: one assignment, and instances of an entity without ports."""
    return "q <= a;\n" + "".join(f"u{n} : entity work.e;\n" for n in range(count))


def elements(first, last):
    return ", ".join(f"'{n % 2}' after {n} ns" for n in range(first, last + 1))


A = "a <= '1' after 1 ns;"
A_Q = "0 0 a 0\n0 0 q 0\n"
FOLLOWS = A_Q + "1000000 0 a 1\n1000000 1 q 1\n"
INVERTED = "0 0 a 0\n0 0 q U\n0 1 q 1\n1000000 0 a 1\n1000000 1 q 0\n"
NOT_A = A_Q + "0 1 q 1\n1000000 0 a 1\n1000000 1 q 0\n"
INSTANCE = "u : entity work.inverter port map (a, q);"
FOLLOWING = of(signals("a,q"), A + "q <= a;")
COMPONENT = "component inverter is port (i : in std_logic; o : out std_logic); end component;\n"
EXCHANGED = "component inverter is port (o : out std_logic; i : in std_logic); end component;\n"
INVERT = "function invert (x : std_logic) return std_logic is begin return not x; end function;\n"
BUFFER = "entity e is port (i : in std_logic; o : out std_logic); end; architecture g of e is begin o <= i; end;\n"
BOTH = ("entity e is port (a : in std_logic; b : in std_logic := '0'; q : out std_logic); end;\n"
        "architecture g of e is begin q <= a and b; end;\n")
V = "variable v : std_logic;\n"
B = "variable b : boolean;\n"
IF_A = "if a = '1' then q <= '1'; end if;"
FAILED = "0 0 a 0\n0 0 failed 0\n1000000 0 a 1\n1000000 1 failed 1\n"
DELAYED = "port (i : in std_logic; o : out std_logic); end; architecture g of {0} is begin o <= i after {1}; end;\n"
DELAY_2 = "entity delayed is " + DELAYED.format("delayed", "2 ns")
DELAY_D = "entity delayed is generic (d : time := 2 ns); " + DELAYED.format("delayed", "d")
DELAYS = "".join(f"entity delayed{n} is {DELAYED.format(f'delayed{n}', f'{n} ns')}" for n in (1, 3))
# an entity whose second port, of some mode, is an actual inside; and one that assigns its first port
THROUGH = """\
entity e is port (i : in std_logic; o : {} std_logic; p : out std_logic); end;
architecture g of e is begin u1 : entity work.inverter port map (i, o); u2 : entity work.inverter port map (o, p); end;
"""
GIVEN = "entity e is port (p : {} std_logic); end; architecture g of e is begin p <= '1'; end;\n"
TWICE = """\
entity twice is port (i : in std_logic; o : out std_logic); end;
architecture g of twice is signal n : std_logic; begin u1 : entity work.inverter port map (i, n); u2 : entity work.{} port map (n, o); end;
"""
S_INSIDE = "signal s : std_logic := '0'; begin s <= '1'; o <= s;"
INSIDE = "u : entity work.inverter port map (i, o);"
ON_D = "u1 : entity work.delayed generic map (d => 1 ns) port map (a, q); u2 : entity work.delayed generic map (d => 3 ns) port map (a, r);"
ON_1_AND_3 = "u1 : entity work.delayed1 port map (a, q); u2 : entity work.delayed3 port map (a, r);"

# the advice, a design with the fault, the design with the advice followed, and its listing
ADVICE = [
    # a fault of the text
    ("A time is a whole number and a unit", of(signals("a"), "a <= '1' after 1.5 ns;"), of(signals("a"), "a <= '1' after 1500 ps;"),
     "0 0 a 0\n1500000 0 a 1\n"),
    ("The word is elsif.",
     of(signals("a,q"), A + process("if a = '0' then q <= '0';\nelseif a = '1' then q <= '1';\nend if;")),
     of(signals("a,q"), A + process("if a = '0' then q <= '0';\nelsif a = '1' then q <= '1';\nend if;")), FOLLOWS),
    ("elsif was meant",
     of(signals("a,q"), A + process("if a = '0' then q <= '0';\nelse if a = '1' then q <= '1';\nend if;")),
     of(signals("a,q"), A + process("if a = '0' then q <= '0';\nelsif a = '1' then q <= '1';\nend if;")), FOLLOWS),
    ("An if ends with two words", of(signals("a,q"), A + process("if a = '1' then q <= '1';\nendif;")),
     of(signals("a,q"), A + process("if a = '1' then q <= '1';\nend if;")), FOLLOWS),
    ("A process needs a sensitivity list", of(signals("a,q"), A + process("q <= a;", "")), of(signals("a,q"), A + process("q <= a;", " (all)")), FOLLOWS),
    ("Write stimuli as a waveform",
     of(signals("a"), process("a <= '1'; wait for 5 ns; a <= '0'; wait;", "")),
     of(signals("a"), "a <= '1', '0' after 5 ns;"), "0 0 a 0\n0 1 a 1\n5000000 0 a 0\n"),
    ("Write if, elsif and else.",
     of(signals("a,q"), A + process("case a is when '1' => q <= '1'; when others => q <= '0'; end case;")),
     of(signals("a,q"), A + process("if a = '1' then q <= '1'; else q <= '0'; end if;")), FOLLOWS),
    ("Write the statements or instances one by one.",
     of(signals("a,q,r"), A + "g : for k in 0 to 1 generate q <= a; end generate;"),
     of(signals("a,q,r"), A + "q <= a; r <= a;"), "0 0 a 0\n0 0 q 0\n0 0 r 0\n1000000 0 a 1\n1000000 1 q 1\n1000000 1 r 1\n"),
    ("Write an if statement.", of(signals("a,q"), A + process("q <= '1' when a = '1' else '0';")),
     of(signals("a,q"), A + process("if a = '1' then q <= '1'; else q <= '0'; end if;")), FOLLOWS),
    ("Write a conditional assignment: '1' when .. else '0'", of(signals("a,q"), A + "with a select q <= '1' when '1', '0' when others;"),
     of(signals("a,q"), A + "q <= '1' when a = '1' else '0';"), FOLLOWS),
    ("Omit the last else", of(signals("a,q"), A + "q <= '1' when a = '1' else unaffected;"), of(signals("a,q"), A + "q <= '1' when a = '1';"), FOLLOWS),
    ("Use a signal with an initial value and no assignments", of("constant one : std_logic := '1';\n" + signals("q"), "q <= one;"),
     of(signals("one", "'1'") + signals("q"), "q <= one;"), "0 0 one 1\n0 0 q 0\n0 1 q 1\n"),
    ("write the delay itself", of("constant period : time := 2 ns;\n" + signals("q"), "q <= '1' after period;"),
     of(signals("q"), "q <= '1' after 2 ns;"), "0 0 q 0\n2000000 0 q 1\n"),
    ("Declare a signal or port for each element", of("signal v : std_logic_vector(1 downto 0);", ""),
     of(signals("v1,v0"), "v1 <= '1'; v0 <= '0';"), "0 0 v1 0\n0 0 v0 0\n0 1 v1 1\n"),
    ("Declare a signal for each element of", of("signal v : std_logic_vector(1 downto 0);", 'v <= "10";'),
     of(signals("v1,v0"), "v1 <= '1'; v0 <= '0';"), "0 0 v1 0\n0 0 v0 0\n0 1 v1 1\n"),
    ("Assign the expression to a signal, and associate that.",
     of(signals("a,q"), A + "u : entity work.inverter port map (i => not a, o => q);", INVERTER),
     of(signals("a,n,q"), A + "n <= not a; u : entity work.inverter port map (i => n, o => q);", INVERTER),
     "0 0 a 0\n0 0 n 0\n0 0 q U\n0 1 n 1\n0 1 q 1\n0 2 q 0\n1000000 0 a 1\n1000000 1 n 0\n1000000 2 q 1\n"),
    ("only with parentheses", of(signals("a,q"), A + "q <= a and a or a;"), of(signals("a,q"), A + "q <= (a and a) or a;"), FOLLOWS),
    ("a process declares only variables", of(signals("a,q"), A + process("v := a; q <= v;", " (a)", "signal v : std_logic;\n")),
     of(signals("a,q"), A + process("v := a; q <= v;", " (a)", "variable v : std_logic;\n")), FOLLOWS),
    ("did you mean signal?", of("singal a : std_logic := '0';", A), of(signals("a"), A), "0 0 a 0\n1000000 0 a 1\n"),
    ("Move an inner part to a signal or variable of its own", of(signals("a,q"), A + f"q <= {'(' * 65}a{')' * 65};"),
     of(signals("a,q"), A + process(f"v := {'(' * 32}a{')' * 32};\nq <= {'(' * 33}v{')' * 33};", " (a)", "variable v : std_logic;\n")), FOLLOWS),
    ("A time is a whole number and a unit", *both("q <= a after 5;", "q <= a after 5 ns;"), A_Q + "1000000 0 a 1\n6000000 0 q 1\n"),
    # what is left out
    ("Write a process, or an entity with ports, instead.", of(INVERT + signals("a,q"), A + "q <= invert(a);"),
     of(signals("a,q"), A + process("q <= not a;")), NOT_A),
    ("Write a process, or an entity with ports, instead.", of(INVERT + signals("a,q"), A + "q <= invert(a);"), of(signals("a,q"), A + INSTANCE, INVERTER),
     INVERTED),
    ("Let a signal show the failure", *both(process("assert a = '0';"), process("if a /= '0' then failed <= '1'; end if;"), "a,failed"), FAILED),
    ("Let a signal show the failure", *both("assert a = '0';", "failed <= '1' when a /= '0';", "a,failed"), FAILED),
    ("Let a signal show the failure", *both("assert a = '0' report \"a is high\";", "failed <= '1' when a /= '0';", "a,failed"), FAILED),
    ("Leave out all others.", *beside("package p is end package;\n" + INVERTER, INVERTER), INVERTED),
    ("Leave out all others.", *beside("configuration c of t is for a end for; end configuration;\n" + INVERTER, INVERTER), INVERTED),
    ("Write the values where they are used", *beside(DELAY_D, DELAY_2, "u : entity work.delayed port map (a, q);"),
     "0 0 a 0\n0 0 q U\n1000000 0 a 1\n3000000 0 q 1\n"),
    ("or one entity for each value", of(signals("a,q,r"), A + ON_D, DELAY_D), of(signals("a,q,r"), A + ON_1_AND_3, DELAYS),
     "0 0 a 0\n0 0 q U\n0 0 r U\n1000000 0 a 1\n1000000 0 q 0\n2000000 0 q 1\n4000000 0 r 1\n"),
    ("Give the process a sensitivity list, and write stimuli as a waveform",
     of(signals("a,q"), "a <= '1' after 10 ns;" + process("q <= '1'; wait for 5 ns; q <= '0'; wait on a;")),
     of(signals("a,q"), "a <= '1' after 10 ns;" + process("q <= '1', '0' after 5 ns;")),
     A_Q + "0 1 q 1\n5000000 0 q 0\n10000000 0 a 1\n10000000 1 q 1\n15000000 0 q 0\n"),
    ("Write their contents in the architecture", *both("b : block begin q <= a; end block;", "q <= a;"), FOLLOWS),
    ("or in a separate entity", of(signals("a,q"), A + "b : block begin q <= a; end block;"),
     of(signals("a,q"), A + "b : entity work.e port map (a, q);", BUFFER), "0 0 a 0\n0 0 q U\n0 1 q 0\n1000000 0 a 1\n1000000 1 q 1\n"),
    ("Use a name of letters, digits and single underscores.", of(signals("\\a b\\,q"), "\\a b\\ <= '1' after 1 ns; q <= \\a b\\;"),
     of(signals("a_b,q"), "a_b <= '1' after 1 ns; q <= a_b;"), FOLLOWS.replace(" a ", " a_b ")),
    ("Write the number in decimal.", *both("q <= a after 16#A# ns;", "q <= a after 10 ns;"), A_Q + "1000000 0 a 1\n11000000 0 q 1\n"),
    ("The only modes of ports are in, out and inout.", *beside(INVERTER.replace(": out", ": buffer"), INVERTER), INVERTED),
    ("in a process an if statement",
     *both(process("with a select q <= '1' when '1', '0' when others;"), process("if a = '1' then q <= '1'; else q <= '0'; end if;")), FOLLOWS),
    ("A comment begins with --", *both("q <= a; // follows a", "q <= a; -- follows a"), FOLLOWS),
    ("The only types are std_logic, std_ulogic", *edited(FOLLOWING, "std_logic", "bit"), FOLLOWS),
    ("a process declares variables", of("shared " + V + signals("a,q"), A + process("v := a; q <= v;")),
     of(signals("a,q"), A + process("v := a; q <= v;", " (a)", V)), FOLLOWS),
    ("the only comparisons are = and /=", *both("q <= '1' when a > '0' else '0';", "q <= '1' when a /= '0' else '0';"), FOLLOWS),
    ("the only comparisons are = and /=", *both("q <= a ?= '1';", "q <= '1' when a = '1' else '0';"), FOLLOWS),
    ("The only attribute is 'event",
     *both(process("if a = '1' and a'active then q <= '1'; end if;"), process("if a = '1' and a'event then q <= '1'; end if;")), FOLLOWS),
    # a slip
    ("Assign a signal with <=, a variable with :=.", *both("q = a;", "q <= a;"), FOLLOWS),
    ("Assign a signal with <=, a variable with :=.", *both(process("v = a; q <= v;", " (a)", V), process("v := a; q <= v;", " (a)", V)), FOLLOWS),
    ("= compares values, as in s = '1' (not ==).", *both(process(IF_A.replace("=", "==", 1)), process(IF_A)), FOLLOWS),
    ("=> is for port maps. Assign a signal with <=", *both("q => a;", "q <= a;"), FOLLOWS),
    ("=> is for port maps. Assign a signal with <=, and a variable with :=.",
     *both(process("v => a; q <= v;", " (a)", V), process("v := a; q <= v;", " (a)", V)), FOLLOWS),
    ("gives initial values. Assign a signal with <=.", *both("q := a;", "q <= a;"), FOLLOWS),
    ("In a port map write =>",
     *both("u : entity work.inverter port map (i <= a, o => q);", "u : entity work.inverter port map (i => a, o => q);", more=INVERTER), INVERTED),
    ("An initial value is given with :=.", *edited(FOLLOWING, ":=", "<="), FOLLOWS),
    ("/= tests whether two values differ", *both(process("if a != '0' then q <= '1'; end if;"), process("if a /= '0' then q <= '1'; end if;")), FOLLOWS),
    ("not inverts a value", *both("q <= !a;", "q <= not a;"), NOT_A),
    ("A value has apostrophes", *both("q <= 1;", "q <= '1';"), A_Q + "0 1 q 1\n1000000 0 a 1\n"),
    ("An if ends with end if", *both(process(IF_A.replace("end if", "end")), process(IF_A)), FOLLOWS),
    ("a process with end process", *both("process (a) begin q <= a; end;", "process (a) begin q <= a; end process;"), FOLLOWS),
    ("a name after end must be that of what it closes", *edited(FOLLOWING.replace("\nend;", "\nend a;"), "\nend a;", "\nend b;"), FOLLOWS),
    ("Perhaps an end is missing before this", *both(process(IF_A.replace("end if;", "")), process(IF_A)), FOLLOWS),
    ("?? s as an operand needs them",
     *both(process("if a'event and ?? a then q <= '1'; end if;"), process("if a'event and (?? a) then q <= '1'; end if;")), FOLLOWS),
    ("?? s as an operand needs them",
     *both(process("if ?? a and a'event then q <= '1'; end if;"), process("if (?? a) and a'event then q <= '1'; end if;")), FOLLOWS),
    ("Variables are declared in a process, between its sensitivity list and begin.", of(V + signals("a,q"), A + process("v := a; q <= v;")),
     of(signals("a,q"), A + process("v := a; q <= v;", " (a)", V)), FOLLOWS),
    ("In an entity declaration write is before port", *beside(INVERTER.replace("inverter is", "inverter", 1), INVERTER), INVERTED),
    ("in an instance write entity work.NAME before port map", *both(INSTANCE.replace("work.", ""), INSTANCE, more=INVERTER), INVERTED),
    ("if and null belong in a process, between its begin and its end", *both(IF_A, process(IF_A)), FOLLOWS),
    ("That begin may be missing", *edited(of(signals("a,q"), process("q <= a;") + A), "\nbegin\n", "\n"), FOLLOWS),
    ("or the end of the previous process",
     *both("process (a) begin q <= a;\n" + process("r <= a;"), "process (a) begin q <= a; end process;\n" + process("r <= a;"), "a,q,r"),
     "0 0 a 0\n0 0 q 0\n0 0 r 0\n1000000 0 a 1\n1000000 1 q 1\n1000000 1 r 1\n"),
    ("Components are declared in an architecture, between is and begin.", of(signals("a,q"), A + COMPONENT + "u : inverter port map (a, q);", INVERTER),
     of(COMPONENT + signals("a,q"), A + "u : inverter port map (a, q);", INVERTER), INVERTED),
    ("A colon separates the names from their type", *edited(FOLLOWING, "a,q :", "a,q"), FOLLOWS),
    ("Ports are separated by ;", *beside(INVERTER.replace("std_logic;", "std_logic,", 1), INVERTER), INVERTED),
    ("names, actuals and elements of a waveform by commas", *edited(FOLLOWING, "a,q", "a : std_logic := '0', q"), FOLLOWS),
    ("There must be no ; after the last port", *beside(INVERTER.replace("std_logic)", "std_logic;)", 1), INVERTER), INVERTED),
    ("a process or if without a label has none", *both("process (a) begin q <= a; end process main;", "process (a) begin q <= a; end process;"), FOLLOWS),
    ("A name after end must be that of what it closes",
     *edited(FOLLOWING.replace("\nend;", "\nend architecture a;"), "architecture a;", "architecture b;"), FOLLOWS),
    ("An underscore must be between letters or digits", of(signals("a__b,q"), "a__b <= '1' after 1 ns; q <= a__b;"),
     of(signals("a_b,q"), "a_b <= '1' after 1 ns; q <= a_b;"), FOLLOWS.replace(" a ", " a_b ")),
    ("An underscore must be between letters or digits", of(signals("_a,q"), "_a <= '1' after 1 ns; q <= _a;"), FOLLOWING, FOLLOWS),
    ("at the end of the line before: a ; or )", *both("r <= a\nq <= r;", "r <= a;\nq <= r;", "a,q,r"),
     "0 0 a 0\n0 0 q 0\n0 0 r 0\n1000000 0 a 1\n1000000 1 r 1\n1000000 2 q 1\n"),
    ("at the end of the line before: a ; or )", *both(process("q <= a;", " (a"), process("q <= a;")), FOLLOWS),
    ("or a word such as is, then or begin", *edited(FOLLOWING, "of t is", "of t"), FOLLOWS),
    ("or a word such as is, then or begin", *both(process("if a = '1'\nq <= '1'; end if;"), process("if a = '1' then\nq <= '1'; end if;")), FOLLOWS),
    ("or a word such as is, then or begin", *both("process (a)\nq <= a;\nend process;", process("q <= a;")), FOLLOWS),
    ("Perhaps begin is missing between declarations and statements", *edited(FOLLOWING, "\nbegin\n", "\n"), FOLLOWS),
    ("an end is missing or one too many", *beside(INVERTER.replace(" end; ", "\n"), INVERTER), INVERTED),
    ("an end is missing or one too many", FOLLOWING + "end;\n", FOLLOWING, FOLLOWS),
    ("or a word is misspelled", *edited(FOLLOWING, "\nbegin\n", "\nbegn\n"), FOLLOWS),
    ("Some editors put a byte order mark at the beginning", "\ufeff" + FOLLOWING, FOLLOWING, FOLLOWS),
    ("or other quotes in place of '", *edited(FOLLOWING, "'0'", "\u2018" "0" "\u2019"), FOLLOWS),
    # words and signs of other languages, and what is missing
    ("Arithmetic is left out; the operators are and, or, nand, nor, xor", *both("q <= a + '1';", "q <= a xor '1';"), NOT_A),
    ("There is no entity inverter in this file.", *(of(COMPONENT + signals("a,q"), A + "u : inverter port map (a, q);", it) for it in ("", INVERTER)),
     INVERTED),
    ("put both files in one: cat a.vhd b.vhd", *both(INSTANCE, INSTANCE)[:1], of(signals("a,q"), A + INSTANCE, INVERTER), INVERTED),
    ("No port is named c; the nearest that is free is b.",
     *beside(BOTH, BOTH, "u : entity work.e port map (a => a, c => a, q => q);")[:1],
     of(signals("a,q"), A + "u : entity work.e port map (a => a, b => a, q => q);", BOTH), "0 0 a 0\n0 0 q U\n0 1 q 0\n1000000 0 a 1\n1000000 1 q 1\n"),
    ("The logical operators are words: s and d", *both("q <= a && a;", "q <= a and a;"), FOLLOWS),
    ("s or d", *both("q <= a | a;", "q <= a or a;"), FOLLOWS),
    ("s xor d", *both("q <= a ^ '0';", "q <= a xor '0';"), FOLLOWS),
    ("not s.", *both("q <= ~a;", "q <= not a;"), NOT_A),
    ("A comment begins with --", *both("q <= a; // the output", "q <= a; -- the output"), FOLLOWS),
    ("A comment begins with --", "# a text\n" + FOLLOWING, "-- a text\n" + FOLLOWING, FOLLOWS),
    ("is written process (all)", *both(process("q <= a;", " (*)"), process("q <= a;", " (all)")), FOLLOWS),
    ("positional associations come before named ones", *both("u : entity work.inverter port map (o => q, a);",
     "u : entity work.inverter port map (a, o => q);", more=INVERTER), INVERTED),
    ("or each names its port", *both("u : entity work.inverter port map (i => a, q);",
     "u : entity work.inverter port map (i => a, o => q);", more=INVERTER), INVERTED),
    ("port map is missing before the parenthesis", *both("u : entity work.inverter (a, q);", INSTANCE, more=INVERTER), INVERTED),
    ("An instance has a label", *both("entity work.inverter port map (a, q);", INSTANCE, more=INVERTER), INVERTED),
    ("or, if its component is declared, u1 : NAME port map (s, d)",
     *(of(COMPONENT + signals("a,q"), A + it + "inverter port map (a, q);", INVERTER) for it in ("", "u : ")), INVERTED),
    ("goes on with else", *both("q <= '1' when a = '1', '0';", "q <= '1' when a = '1' else '0';"), FOLLOWS),
    ("the word is when", *both("q <= '1' if a = '1' else '0';", "q <= '1' when a = '1' else '0';"), FOLLOWS),
    ("write an if statement around it", *both(process("q <= '1' if a = '1';"), process(IF_A)), FOLLOWS),
    ("Comparisons need parentheses to be combined", *both("q <= '1' when a = a = '1' else '0';", "q <= '1' when (a = a) and (a = '1') else '0';"), FOLLOWS),
    ("= compares values", *both(process("if a := '1' then q <= '1'; end if;"), process(IF_A)), FOLLOWS),
    ("The word is elsif.", *both(process("if a = '0' then q <= '0';\nels if a = '1' then q <= '1';\nend if;"),
     process("if a = '0' then q <= '0';\nelsif a = '1' then q <= '1';\nend if;")), FOLLOWS),
    ("A word is missing behind 'event", *both(process("if a'event a = '1' then q <= '1'; end if;"),
     process("if a'event and a = '1' then q <= '1'; end if;")), FOLLOWS),
    ("The rising edge of not clk is falling_edge (clk)", *both(process("if rising_edge(not a) then q <= '1'; end if;"),
     process("if falling_edge (a) then q <= '1'; end if;")), A_Q + "1000000 0 a 1\n"),
    ("transport, inertial and reject come directly behind <=", *both("q <= a transport after 1 ns;", "q <= transport a after 1 ns;"),
     A_Q + "1000000 0 a 1\n2000000 0 q 1\n"),
    ("Names are separated by commas", of("signal a q : std_logic := '0';", A + "q <= a;"), FOLLOWING, FOLLOWS),
    ("ends with end component", *(of(COMPONENT.replace("end component;", it) + signals("a,q"), A + "u : inverter port map (a, q);", INVERTER)
                                  for it in ("end inverter;", "end component;")), INVERTED),
    ("ends with end component", *(of(COMPONENT.replace("end component;", it) + signals("a,q"), A + "u : inverter port map (a, q);", INVERTER)
                                  for it in ("", "end component;")), INVERTED),
    ("This end if is one too many", *both(process(IF_A + " end if;"), process(IF_A)), FOLLOWS),
    ("If this is a variable, use :=", *both(process("v <= a; q <= v;", " (a)", V), process("v := a; q <= v;", " (a)", V)), FOLLOWS),
    ("If this is a signal or port, use <=", *both(process("q := a;"), process("q <= a;")), FOLLOWS),
    ("Write if rising_edge(clk) then .. end if; in process (clk)", *both(process("wait until rising_edge(a); q <= '1';", ""),
     process("if rising_edge(a) then q <= '1'; end if;")), FOLLOWS),
    ("Write if rising_edge(clk) then .. end if; in process (clk)", *both(process("wait until rising_edge(a); q <= '1';"),
     process("if rising_edge(a) then q <= '1'; end if;")), FOLLOWS),
    ("Files are left out", of(signals("a,q") + "file f : text open read_mode is stimuli;", A + "q <= a;"), FOLLOWING, FOLLOWS),
    ("Configurations are left out; remove it", *(of(COMPONENT + signals("a,q") + it, A + "u : inverter port map (a, q);", INVERTER)
                                                 for it in ("for all : inverter use entity work.inverter(g);", "")), INVERTED),
    ("s ? d : clk is written d when s = '1' else clk", *both("q <= a ? '1' : '0';", "q <= '1' when a = '1' else '0';"), FOLLOWS),
    ("in a process it is an if statement", *both(process("q <= a ? '1' : '0';"), process("if a = '1' then q <= '1'; else q <= '0'; end if;")), FOLLOWS),
    ("dat is not declared; did you mean data?", of(signals("data,q"), "data <= '1' after 1 ns; q <= dat;"),
     of(signals("data,q"), "data <= '1' after 1 ns; q <= data;"), FOLLOWS.replace(" a ", " data ")),
    ("then is missing after the condition", *both(process("if a = '1' q <= '1'; end if;"), process(IF_A)), FOLLOWS),
    ("begin is missing before the first statement", *both("process (a) q <= a; end process;", process("q <= a;")), FOLLOWS),
    ("as in architecture a of t is", FOLLOWING.replace("architecture a of t is", "architecture of t is"), FOLLOWING, FOLLOWS),
    ("Ports are in parentheses", *(of(signals("a,q"), A + INSTANCE, INVERTER.replace("port (i : in std_logic; o : out std_logic);", it))
                                   for it in ("port i : in std_logic; o : out std_logic;", "port (i : in std_logic; o : out std_logic);")), INVERTED),
    ("The mode comes between the colon and the type", *(of(signals("a,q"), A + INSTANCE, INVERTER.replace("i : in std_logic", it))
                                                        for it in ("in i : std_logic", "i : in std_logic")), INVERTED),
    ("An operand is missing after the operator", *both("q <= a and;", "q <= a and a;"), FOLLOWS),
    ("The signal of an edge is in parentheses", *both(process("if rising_edge a then q <= '1'; end if;"),
     process("if rising_edge(a) then q <= '1'; end if;")), FOLLOWS),
    ("always @ (posedge clk) is written process (clk)", *both("always @ (posedge a) q <= '1';", process("if rising_edge(a) then q <= '1'; end if;")), FOLLOWS),
    ("There are no braces", *both(process("if a = '1' then { q <= '1'; } end if;"), process(IF_A)), FOLLOWS),
    ("A delay comes after the value and has a unit", *both("q <= #1 a;", "q <= a after 1 ns;"), A_Q + "1000000 0 a 1\n2000000 0 q 1\n"),
    ("An assignment begins with its target", *both("assign q <= a;", "q <= a;"), FOLLOWS),
    ("The only modes of ports are in, out and inout", *(of(signals("a,q"), A + INSTANCE, INVERTER.replace("i : in std_logic", it))
                                                        for it in ("i : input std_logic", "i : in std_logic")), INVERTED),
    # what a text has too much of, and too little
    ("Leave out units that the top does not need.", "".join(f"entity spare{n} is end;\n" for n in range(50000)) + FOLLOWING, FOLLOWING, FOLLOWS),
    ("Replace or remove it", *both("q <= ~a;", "q <= not a;"), NOT_A),
    ("Replace or remove it", *both("q <= a$;", "q <= a;"), FOLLOWS),
    ("or comment out what it belongs to", *both("{ psl }\nq <= a;", "-- { psl }\nq <= a;"), FOLLOWS),
    ("Write it where the comment should end.", *both("/* the input\nq <= a;", "/* the input */\nq <= a;"), FOLLOWS),
    ("An apostrophe begins one of the nine values, in upper case", *both("q <= 'x';", "q <= 'X';"), A_Q + "0 1 q X\n1000000 0 a 1\n"),
    ("This is not one of them.", *both("q <= '2';", "q <= '1';"), A_Q + "0 1 q 1\n1000000 0 a 1\n"),
    ("Write a shorter one.", of(signals("a"), "a <= '1' after 2 hr;"), of(signals("a"), "a <= '1' after 1 hr;"), "0 0 a 0\n3600000000000000000 0 a 1\n"),
    ("a ; or ) or end may be missing there", *both("q <= a r <= a;", "q <= a; r <= a;", "a,q,r"),
     "0 0 a 0\n0 0 q 0\n0 0 r 0\n1000000 0 a 1\n1000000 1 q 1\n1000000 1 r 1\n"),
    ("a ; or ) or end may be missing there", *both(process(IF_A.replace("if a", "if (a", 1)), process(IF_A.replace("if a = '1'", "if (a = '1')", 1))),
     FOLLOWS),
    ("a ; or ) or end may be missing there", *edited(FOLLOWING.replace("end;\n", "end; ", 1), "end; ", ""), FOLLOWS),
    ("or there may be a word too many", *edited(FOLLOWING, "a,q :", "a,q : in"), FOLLOWS),
    ("and one of these is missing", FOLLOWING[: -len("end;\n")], FOLLOWING, FOLLOWS),
    ("and one of these is missing", FOLLOWING[: -len(";\n")], FOLLOWING, FOLLOWS),
    ("or the text has neither entities nor architectures", "-- a text\n", FOLLOWING, FOLLOWS),
    # a fault of the design
    ("Use several assignments in a process that is executed only once", of(signals("s"), f"s <= {elements(0, 17)};"),
     of(signals("never,s"), process(f"s <= {elements(0, 15)};\ns <= transport {elements(16, 17)};", " (never)")),
     "0 0 never 0\n0 0 s 0\n" + "".join(f"{n}000000 0 s {n % 2}\n" for n in range(1, 18))),
    ("Put the elements in the order of their times", of(signals("s"), "s <= '1' after 2 ns, '0' after 1 ns;"),
     of(signals("s", "'1'"), "s <= '0' after 1 ns, '1' after 2 ns;"), "0 0 s 1\n1000000 0 s 0\n2000000 0 s 1\n"),
    ("Shorten it, or lengthen that delay", of(signals("a,q"), A + "q <= reject 2 ns inertial a after 1 ns;"),
     of(signals("a,q"), A + "q <= reject 2 ns inertial a after 2 ns;"), A_Q + "1000000 0 a 1\n3000000 0 q 1\n"),
    ("Shorten it, or lengthen that delay", of(signals("a,q"), A + "q <= reject 2 ns inertial a after 1 ns;"),
     of(signals("a,q"), A + "q <= reject 1 ns inertial a after 1 ns;"), A_Q + "1000000 0 a 1\n2000000 0 q 1\n"),
    ("'1' when .. else '0' turns a boolean into std_logic", of(signals("a,q"), A + "q <= a = '1';"),
     of(signals("a,q"), A + "q <= '1' when a = '1' else '0';"), FOLLOWS),
    ("Use a signal or variable in it, or write the result", of(signals("a,q"), A + "q <= a when '1' = '1' else '0';"), of(signals("a,q"), A + "q <= a;"),
     FOLLOWS),
    ("Drive a signal, read that, and assign it to the port", of(signals("a,q,r"), A + "u : entity work.e port map (a, q, r);",
     "entity e is port (i : in std_logic; o, p : out std_logic); end; architecture g of e is begin o <= i; p <= o; end;\n"),
     of(signals("a,q,r"), A + "u : entity work.e port map (a, q, r);",
        "entity e is port (i : in std_logic; o, p : out std_logic); end; architecture g of e is "
        "signal s : std_logic := '0'; begin s <= i; o <= s; p <= s; end;\n"),
     "0 0 a 0\n0 0 q U\n0 0 r U\n0 0 u.s 0\n0 1 q 0\n0 1 r 0\n1000000 0 a 1\n1000000 1 u.s 1\n1000000 2 q 1\n1000000 2 r 1\n"),
    ("The port without an actual is i of inverter.", of(signals("a,q"), A + "u : entity work.inverter port map (o => q);", INVERTER),
     of(signals("a,q"), A + "u : entity work.inverter port map (i => a, o => q);", INVERTER), "0 0 a 0\n0 0 q U\n0 1 q 1\n1000000 0 a 1\n1000000 1 q 0\n"),
    ("the nearest that is free is i.", of(signals("a,q"), A + "u : entity work.inverter port map (ii => a, o => q);", INVERTER),
     of(signals("a,q"), A + "u : entity work.inverter port map (i => a, o => q);", INVERTER), "0 0 a 0\n0 0 q U\n0 1 q 1\n1000000 0 a 1\n1000000 1 q 0\n"),
    ("Remove one of the two", of(signals("a,q"), A + "u : entity work.inverter port map (i => a, i => q, o => q);", INVERTER),
     of(signals("a,q"), A + "u : entity work.inverter port map (i => a, o => q);", INVERTER), "0 0 a 0\n0 0 q U\n0 1 q 1\n1000000 0 a 1\n1000000 1 q 0\n"),
    ("Connect a signal, or change a mode", of(signals("a,q"), A + "u : entity work.inverter port map (a, '0');", INVERTER),
     of(signals("a,q"), A + "u : entity work.inverter port map (a, q);", INVERTER), "0 0 a 0\n0 0 q U\n0 1 q 1\n1000000 0 a 1\n1000000 1 q 0\n"),
    ("Declare it as std_logic, which is resolved", of(signals("s", "'Z'", "std_ulogic"), "s <= '1'; s <= 'Z';"),
     of(signals("s", "'Z'"), "s <= '1'; s <= 'Z';"), "0 0 s Z\n0 1 s 1\n"),
    ("Rename one of the two", of(signals("a,q,q"), A + "q <= a;"), of(signals("a,q,r"), A + "q <= a;"),
     "0 0 a 0\n0 0 q 0\n0 0 r 0\n1000000 0 a 1\n1000000 1 q 1\n"),
    ("write entity work.NAME instead of the component's name",
     of(EXCHANGED + signals("a,q"), A + "u : inverter port map (i => a, o => q);", INVERTER),
     of(EXCHANGED + signals("a,q"), A + "u : entity work.inverter port map (i => a, o => q);", INVERTER),
     "0 0 a 0\n0 0 q U\n0 1 q 1\n1000000 0 a 1\n1000000 1 q 0\n"),
    ("Choose another name.", of(signals("true,q"), "true <= '1' after 1 ns; q <= true;"), FOLLOWING, FOLLOWS),
    ("Compare it with its declaration.", *both("q <= aa;", "q <= a;"), FOLLOWS),
    ("An instance can name components of its architecture", of(signals("a,q"), A + "u : inverter port map (a, q);", INVERTER),
     of(COMPONENT + signals("a,q"), A + "u : inverter port map (a, q);", INVERTER), INVERTED),
    ("and units of this file as entity work.NAME", *both("u : inverter port map (a, q);", INSTANCE, more=INVERTER), INVERTED),
    ("there may be more actuals than ports", *both(INSTANCE.replace("q)", "q, a)"), INSTANCE, more=INVERTER), INVERTED),
    ("that of := a variable", *both(process("v <= a; q <= v;", " (a)", V), process("v := a; q <= v;", " (a)", V)), FOLLOWS),
    ("the target of <= is a signal or port", *both(process("q := a;"), process("q <= a;")), FOLLOWS),
    ("only variables can be boolean", of(signals("a,q") + "signal b : boolean;", A + process("b <= a = '1'; if b then q <= '1'; end if;")),
     of(signals("a,q"), A + process("b := a = '1'; if b then q <= '1'; end if;", " (a)", B)), FOLLOWS),
    ("can be assigned to one another directly", *both("q <= std_ulogic(a);", "q <= a;"), FOLLOWS),
    ("Make it out or inout", *beside(GIVEN.format("in"), GIVEN.format("out"), "u : entity work.e port map (q);"),
     "0 0 a 0\n0 0 q U\n0 1 q 1\n1000000 0 a 1\n"),
    ("Make it out or inout", *beside(GIVEN.format("in"), GIVEN.format("inout"), "u : entity work.e port map (q);"),
     "0 0 a 0\n0 0 q U\n0 1 q 1\n1000000 0 a 1\n"),
    ("or assign a signal instead",
     *beside(BUFFER.replace("begin", "begin i <= '1';"), BUFFER.replace("begin o <= i;", S_INSIDE), "u : entity work.e port map (a, q);"),
     "0 0 a 0\n0 0 q U\n0 0 u.s 0\n0 1 q 0\n0 1 u.s 1\n0 2 q 1\n1000000 0 a 1\n"),
    ("Write one, or name one that exists.", *beside(INVERTER.partition("architecture")[0], INVERTER), INVERTED),
    ("Write one, or name one that exists.",
     *both(INSTANCE.replace("inverter", "inverter(rtl)"), INSTANCE.replace("inverter", "inverter(g)"), more=INVERTER), INVERTED),
    ("Instantiate another entity.", *beside(*(INVERTER + TWICE.format(it) for it in ("twice", "inverter")), "u : entity work.twice port map (a, q);"),
     "0 0 a 0\n0 0 q U\n0 0 u.n U\n0 1 u.n 1\n0 2 q 0\n1000000 0 a 1\n1000000 1 u.n 0\n1000000 2 q 1\n"),
    ("Leave part of it out.", *beside(levels(33), levels(32), "u : entity work.l1 port map (a, q);"),
     "0 0 a 0\n0 0 q U\n0 1 q 0\n1000000 0 a 1\n1000000 1 q 1\n"),
    ("Leave part of it out.", *both(*(instances(it) for it in (16385, 100)), more="entity e is end; architecture g of e is begin end;\n"), FOLLOWS),
    ("Associate it with a signal or literal",
     *both("u : entity work.inverter port map (o => q);", "u : entity work.inverter port map (i => '0', o => q);", more=INVERTER),
     "0 0 a 0\n0 0 q U\n0 0 u.i 0\n0 1 q 1\n1000000 0 a 1\n"),
    ("or declare it like i : in std_logic := '0'",
     *beside(INVERTER, INVERTER.replace("in std_logic", "in std_logic := '0'", 1), "u : entity work.inverter port map (o => q);"),
     "0 0 a 0\n0 0 q U\n0 0 u.i 0\n0 1 q 1\n1000000 0 a 1\n"),
    ("or keep only one source", of(signals("s", "'Z'", "std_ulogic"), "s <= '1'; s <= 'Z';"), of(signals("s", "'Z'", "std_ulogic"), "s <= '1';"),
     "0 0 s Z\n0 1 s 1\n"),
    ("Use a signal or variable in it", of(signals("a,q"), A + "q <= a when '1' = '1' else '0';"),
     of(signals("a,q") + signals("one", "'1'"), A + "q <= a when one = '1' else '0';"), "0 0 a 0\n0 0 q 0\n0 0 one 1\n1000000 0 a 1\n1000000 1 q 1\n"),
    ("Make names, order, modes and types equal",
     of(EXCHANGED + signals("a,q"), A + "u : inverter port map (i => a, o => q);", INVERTER),
     of(COMPONENT + signals("a,q"), A + "u : inverter port map (i => a, o => q);", INVERTER), INVERTED),
    ("or change a mode", *(of(signals("a,q,r"), A + "u : entity work.e port map (a, q, r);", INVERTER + THROUGH.format(it)) for it in ("out", "inout")),
     "0 0 a 0\n0 0 q U\n0 0 r U\n0 1 q 1\n0 2 r 0\n1000000 0 a 1\n1000000 1 q 0\n1000000 2 r 1\n"),
    ("or change a mode",
     *beside(*(INVERTER + BUFFER.replace("o <= i;", INSIDE).replace(": out", it) for it in (": in", ": out")), "u : entity work.e port map (a, q);"),
     INVERTED),
    ("s = '1' and (?? s) turn a signal into a boolean",
     *both(process("if a and a'event then q <= '1'; end if;"), process("if a = '1' and a'event then q <= '1'; end if;")), FOLLOWS),
    ("s = '1' and (?? s) turn a signal into a boolean",
     *both(process("if a and a'event then q <= '1'; end if;"), process("if (?? a) and a'event then q <= '1'; end if;")), FOLLOWS),
    ("or ?? is applied to a boolean", *both(process("if ?? rising_edge(a) then q <= '1'; end if;"), process("if rising_edge(a) then q <= '1'; end if;")),
     FOLLOWS),
    ("in a process an if statement does",
     *both(process("b := a = '1'; q <= b;", " (a)", B), process("b := a = '1'; if b then q <= '1'; else q <= '0'; end if;", " (a)", B)), FOLLOWS),
]

OSCILLATOR = of(signals("a,q"), "a <= '1' after 12 ns; q <= a nor q;")
CLOCK = of(signals("clk"), "clk <= not clk after 500 ps;")
PULSE = of(signals("a"), "a <= '1' after 1 ns, '0' after 2 ns, '1' after 3 ns;")
POSTPONED = of(signals("a,q"), A + "postponed q <= a;")

# the advice, the status of the run, its design and words, the design and words with the advice followed, and that listing
ADVICE_ON_RUNS = [
    ("Break the loop", 3, OSCILLATOR, "--top t --limit 300", OSCILLATOR.replace("a nor q", "a nor r").replace("a,q", "a,q,r"), "--top t --limit 300",
     "0 0 a 0\n0 0 q 0\n0 0 r 0\n0 1 q 1\n12000000 0 a 1\n12000000 1 q 0\n"),
    ("or give one of its assignments a delay", 3, OSCILLATOR, "--top t --limit 300", OSCILLATOR.replace("a nor q", "a nor q after 5 ns"),
     "--top t --limit 300", A_Q + "5000000 0 q 1\n10000000 0 q 0\n12000000 0 a 1\n"),
    ("Set a larger --limit.", 3, FOLLOWING, "--top t --limit 1", FOLLOWING, "--top t --limit 3", FOLLOWS),
    ("a free-running clock needs one, such as --stop 1000000 for 1 ns", 3, CLOCK, "--top t", CLOCK, "--top t --stop 1000000",
     "0 0 clk 0\n500000 0 clk 1\n1000000 0 clk 0\n"),
    ("Otherwise set a larger --limit.", 3, PULSE, "--top t --limit 2", PULSE, "--top t --limit 3", "0 0 a 0\n1000000 0 a 1\n2000000 0 a 0\n3000000 0 a 1\n"),
    ("Set an earlier --stop", 3, CLOCK, "--top t --stop 2000000 --limit 2", CLOCK, "--top t --stop 1000000 --limit 2",
     "0 0 clk 0\n500000 0 clk 1\n1000000 0 clk 0\n"),
    ("or a larger --limit, which is 10000 by default and at most 1000000", 3, CLOCK, "--top t --stop 1500000 --limit 2", CLOCK, "--top t --stop 1500000",
     "0 0 clk 0\n500000 0 clk 1\n1000000 0 clk 0\n1500000 0 clk 1\n"),
    ("give the assignment a delay", 3, POSTPONED, "--top t", POSTPONED.replace("<= a", "<= a after 1 ns"), "--top t", A_Q + "1000000 0 a 1\n2000000 0 q 1\n"),
    ("--limit is 0, but must be from 1 to", 2, FOLLOWING, "--top t --limit 0", FOLLOWING, "--top t --limit 3", FOLLOWS),
    ("--stop is 4611686018427387904, but must be at most 4611686018427387903", 2, FOLLOWING, "--top t --stop 4611686018427387904",
     FOLLOWING, "--top t --stop 4611686018427387903", FOLLOWS),
    ("--workers is 17, but must be from 1 to 16", 2, FOLLOWING, "--top t --workers 17", FOLLOWING, "--top t --workers 16", FOLLOWS),
    ("Check the spelling", 1, FOLLOWING, "--top tt", FOLLOWING, "--top t", FOLLOWS),
    ("Add it to the list", 0, of(signals("a,b,q"), A + "b <= '1' after 2 ns;" + process("q <= a and b;")), "--top t",
     of(signals("a,b,q"), A + "b <= '1' after 2 ns;" + process("q <= a and b;", " (a, b)")), "--top t",
     "0 0 a 0\n0 0 b 0\n0 0 q 0\n1000000 0 a 1\n2000000 0 b 1\n2000000 1 q 1\n"),
    ("or write process (all)", 0, of(signals("a,b,q"), A + "b <= '1' after 2 ns;" + process("q <= a and b;")), "--top t",
     of(signals("a,b,q"), A + "b <= '1' after 2 ns;" + process("q <= a and b;", " (all)")), "--top t",
     "0 0 a 0\n0 0 b 0\n0 0 q 0\n1000000 0 a 1\n2000000 0 b 1\n2000000 1 q 1\n"),
    ("Declare it with a first value, as in signal clk : std_logic := '0';", 0, CLOCK.replace(" := '0'", ""), "--top t", CLOCK, "--top t --stop 1000000",
     "0 0 clk 0\n500000 0 clk 1\n1000000 0 clk 0\n"),
    ("Give it another, as in i : in std_logic := '0';", 0, INVERTER, "--top inverter", INVERTER.replace("in std_logic", "in std_logic := '0'"), "--top inverter",
     "0 0 i 0\n0 0 o U\n0 1 o 1\n"),
    ("or make an entity the top that drives it", 0, INVERTER, "--top inverter", of(signals("a,q"), A + INSTANCE, INVERTER), "--top t", INVERTED),
    ("Give it, or what it is made of, a first value.", 0, of("signal a, q : std_logic;", "q <= a;"), "--top t",
     of("signal a : std_logic := '1'; signal q : std_logic;", "q <= a;"), "--top t", "0 0 a 1\n0 0 q U\n0 1 q 1\n"),
    ("Look at all that assign it.", 0, of(signals("a,q"), A + "q <= a; q <= '0';"), "--top t", FOLLOWING, "--top t", FOLLOWS),
    ("--stop counts femtoseconds", 0, CLOCK, "--top t --stop 1000", CLOCK, "--top t --stop 1000000", "0 0 clk 0\n500000 0 clk 1\n1000000 0 clk 0\n"),
    ("nearest name first: inverter, t.", 1, INVERTER + PULSE, "--top invertor", INVERTER + PULSE, "--top inverter", "0 0 i U\n0 0 o U\n"),
]

# texts that say what there is not, with nothing to write in its place
SILENT = {"AGGREGATE", "CALL", "FOREIGN", "FUNCTION", "JOINING", "MEMORY", "RELEASE", "SHIFT"}

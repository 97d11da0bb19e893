#!/usr/bin/env python3
"""Writes the benchmark texts, each of at most 1,048,576 bytes, into a folder: `texts.py FOLDER`.

Long texts, for the lexer and the parser, of which the first three are also designs:

flip_flops      8,000 processes, one after another, each a flip-flop with a reset
assignments     16,000 concurrent assignments, one after another
instances       31 levels of one instance, below which one architecture has 13,000 instances
one_character   1,048,576 tokens of one byte: lexical input only, not a design file

Designs that are hard to elaborate, and texts with a fault that should be found soon:

copies          16,384 instances of one entity, one after another
processes       12,000 signals and as many processes
tree            a binary tree of instances that reaches each limit except that of depth
variables       a process with 60,000 variables
one_signal      an instance with 4,000 ports, all on one signal
doubling        31 levels of two instances each: TooMany
ring            9,000 entities, each with an instance of the next and the last with one of the first: Recursive
equal_names     a declaration of 500,000 signals with the same name: Duplicate

Short texts whose elaboration is a product of two of their numbers:

chain           12,000 entities, each with an instance of the next: TooMany
architectures   1,000 architectures of one entity with 2,000 ports
open_ports      4,000 instances of one entity with 4,000 ports, all of them open: TooMany
linked_ports    a binary tree of instances with 8,192 leaves of 1,000 ports, all on one signal
"""
import sys
from pathlib import Path

LIMIT = 1_048_576
USES = "library ieee;\nuse ieee.std_logic_1164.all;\n"

# the top of each design
TOPS = {
    "flip_flops": "flip_flops",
    "assignments": "assignments",
    "instances": "level1",
    "copies": "copies",
    "processes": "processes",
    "tree": "level0",
    "variables": "variables",
    "one_signal": "one_signal",
    "doubling": "e0",
    "ring": "e0",
    "equal_names": "equal_names",
    "chain": "e0",
    "architectures": "architectures",
    "open_ports": "open_ports",
    "linked_ports": "level0",
}


def architecture(entity, ports, declarations, body):
    return (
        f"{USES}entity {entity} is\n{ports}end;\n"
        f"architecture rtl of {entity} is\n{declarations}begin\n{body}end;\n"
    )


def lines_of(prefix, count):
    """The names prefix0 to prefix(count - 1), ten to a line, with commas."""
    names = [f"{prefix}{i}" for i in range(count)]
    return [", ".join(names[i : i + 10]) for i in range(0, count, 10)]


def signals(prefix, count):
    """Declarations of prefix0 to prefix(count - 1), ten to a line."""
    return "".join(f"  signal {line} : std_logic;\n" for line in lines_of(prefix, count))


def flip_flops(count=8_000):
    body = "".join(
        f"process (c) begin if rising_edge(c) then if r = '1' then q{i + 1} <= '0'; "
        f"else q{i + 1} <= q{i}; end if; end if; end process;\n"
        for i in range(count)
    )
    ports = "  port (c, r : in std_logic);\n"
    return architecture("flip_flops", ports, signals("q", count + 1), body)


def assignments(count=16_000):
    body = "".join(
        f"  s{i + 1} <= s{i} xor (a and not s{i // 2}) after 1 ns;\n" for i in range(count)
    )
    return architecture("assignments", "  port (a : in std_logic);\n", signals("s", count + 1), body)


def instances(count=13_000, levels=31):
    cell = (
        f"{USES}entity cell is\n  port (a, b : in std_logic; y : out std_logic);\nend;\n"
        "architecture rtl of cell is\nbegin\n  y <= a nand b;\nend;\n"
    )
    ports = "  port (a : in std_logic);\n"
    body = "".join(
        f"u{i} : entity work.cell port map (a => n{i}, b => a, y => n{i + 1});\n"
        for i in range(count)
    )
    text = cell + architecture(f"level{levels}", ports, signals("n", count + 1), body)
    for level in range(levels - 1, 0, -1):
        below = f"  inner : entity work.level{level + 1} port map (a => a);\n"
        text += architecture(f"level{level}", ports, "", below)
    return text


def copies(count=16_384):
    """As many instances, nets, processes and drivers. The last output is the first input."""
    ports = "  port (a : in std_logic; y : out std_logic);\n"
    cell = architecture("cell", ports, "", "  y <= not a;\n")
    body = "".join(
        f"u{i} : entity work.cell port map (s{i}, s{(i + 1) % count});\n" for i in range(count)
    )
    return cell + architecture("copies", "", signals("s", count), body)


def processes(count=12_000):
    body = "".join(
        f"process (q{i}) begin q{(i + 1) % count} <= q{i} xor not q{i // 2}; end process;\n"
        for i in range(count)
    )
    return architecture("processes", "", signals("q", count), body)


def tree(levels=13):
    """Each level except the last has two signals and two instances of the next, whose outputs it joins.

    Two ports and 16,382 signals are 16,384 nets; 16,382 instances, and two more at the top, which have nothing
    in them; 8,192 processes at the leaves, 8,191 above them, and one more at the top."""
    ports = "  port (a : in std_logic; y : out std_logic);\n"
    text = architecture("empty", "", "", "") + architecture(f"level{levels}", ports, "", "  y <= not a;\n")
    for level in range(levels):
        body = "".join(f"  {u} : entity work.level{level + 1} port map (a, {u}_y);\n" for u in "uv")
        body += "  y <= u_y xor v_y;\n"
        if level == 0:
            body += "  y <= 'Z';\n  w : entity work.empty;\n  x : entity work.empty;\n"
        text += architecture(f"level{level}", ports, "  signal u_y, v_y : std_logic;\n", body)
    return text


def variables(count=60_000, assigned=28_000):
    declared = "".join(f"  variable {line} : std_logic;\n" for line in lines_of("v", count))
    body = "".join(f"v{i}:=v{count - 1 - i};\n" for i in range(assigned))
    process = f"process (s)\n{declared}begin\n{body}s <= v{assigned};\nend process;\n"
    return architecture("variables", "", "  signal s : std_logic;\n", process)


def one_signal(count=4_000):
    """All ports are sources of the one signal. They are named from the last to the first."""
    names = ",\n".join(lines_of("p", count))
    cell = architecture("cell", f"  port ({names} : inout std_logic);\n", "", "")
    named = ",\n".join(f"p{i} => s" for i in reversed(range(count)))
    body = f"u : entity work.cell port map (\n{named});\n"
    return cell + architecture("one_signal", "", "  signal s : std_logic;\n", body)


def doubling(levels=31):
    """2^32 - 2 instances, 2^31 of them on the last level, in less than 3,000 bytes."""
    text = f"entity e{levels} is end;\narchitecture a of e{levels} is begin end;\n"
    for level in range(levels):
        below = f"entity work.e{level + 1};"
        text += f"entity e{level} is end;\narchitecture a of e{level} is begin u:{below}v:{below}end;\n"
    return text


def ring(count=9_000):
    return "".join(
        f"entity e{i} is end;\narchitecture a of e{i} is\nbegin\n  u : entity work.e{(i + 1) % count};\nend;\n"
        for i in range(count)
    )


def equal_names(count=500_000):
    names = ",".join(["s"] * count)
    return architecture("equal_names", "", f"  signal {names} : std_logic;\n", "")


def chain(count=12_000):
    text = f"entity e{count} is end;\narchitecture a of e{count} is begin end;\n"
    for i in range(count):
        text += f"entity e{i} is end;\narchitecture a of e{i} is begin u:entity work.e{i + 1};end;\n"
    return text


def architectures(count=1_000, ports=2_000):
    names = ",\n".join(lines_of("p", ports))
    text = architecture("cell", f"  port ({names} : in std_logic);\n", "", "")
    text += "".join(f"architecture a{i} of cell is begin end;\n" for i in range(count))
    return text + architecture("architectures", "", "", "")


def open_ports(count=4_000, ports=4_000):
    names = ",\n".join(lines_of("p", ports))
    cell = architecture("cell", f"  port ({names} : out std_logic);\n", "", "")
    body = "".join(f"u{i} : entity work.cell;\n" for i in range(count))
    return cell + architecture("open_ports", "", "", body)


def linked_ports(levels=13, ports=1_000):
    """Only the last level has ports, and only the one above it a signal: 4,096 nets, and 8,192 for the leaves' own."""
    names = ",\n".join(lines_of("p", ports))
    text = architecture(f"level{levels}", f"  port ({names} : in std_logic);\n", "  signal s : std_logic;\n", "s <= p0;\n")
    for level in range(levels):
        last = level == levels - 1
        map_ = f" port map ({', '.join(['s'] * ports)})" if last else ""
        body = "".join(f"{u} : entity work.level{level + 1}{map_};\n" for u in "uv")
        text += architecture(f"level{level}", "", "  signal s : std_logic;\n" if last else "", body)
    return text


def filled(text):
    """The text, with a comment at its end that makes it 1,048,576 bytes long."""
    missing = LIMIT - len(text)
    assert missing >= 0, f"{-missing} bytes too long"
    return text + ("--" + "." * (missing - 2) if missing >= 2 else " " * missing)


def texts():
    """The texts, by name."""
    long = [flip_flops, assignments, instances, processes]
    short = [copies, tree, variables, one_signal, doubling, ring, equal_names]
    short += [chain, architectures, open_ports, linked_ports]
    found = {make.__name__: filled(make()) for make in long}
    found |= {make.__name__: make() for make in short}
    found["one_character"] = ";" * LIMIT
    return found


def main():
    folder = Path(sys.argv[1])
    folder.mkdir(parents=True, exist_ok=True)
    for name, text in texts().items():
        assert len(text) <= LIMIT, f"{name}: {len(text) - LIMIT} bytes too long"
        (folder / f"{name}.vhdl").write_text(text)


if __name__ == "__main__":
    main()

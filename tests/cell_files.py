"""What liberty.py and sdf.py have in common: runs of netlists of cells, files with one token changed or removed, and the command line."""
import os
import random
import sys
import tempfile

from netlist_texts import demand, put_stimuli, run, tally

# how many damaged files are tried
DAMAGED = 1000


def put(folder, name, text):
    """Writes a file, and returns its path."""
    path = f"{folder}/{name}"
    with open(path, "w", encoding="utf-8") as file:
        file.write(text)
    return path


def listing_of(programs, folder, library, given, stimuli, words=()):
    """Returns the lines of the listing of a netlist, as (time, name, value)."""
    status, text, said = run([programs[1], "--liberty", library, *put_stimuli(folder, stimuli), *words], given.encode())
    demand(status == 0, said)
    status, listing, said = run([programs[0], "--top", "top", "--limit", "1000000"], text)
    demand(status == 0, f"vsim: {said} for {text.decode()[:2000]}")
    lines = [line.split() for line in listing.decode().splitlines()]
    return [(int(it[0]), it[2], it[3]) for it in lines if len(it) == 4]


def demand_listed(lines, wanted):
    """Demands that lines of a listing say this of y."""
    found = ", ".join(f"{time} {value}" for time, name, value in lines if name == "y")
    demand(found == wanted, f"y is {found} in place of {wanted}")


def are_read_or_refused(programs, given, tokens, signs, words_of, seconds, count):
    """Demands that a file with one token changed or removed ends in a text that vsim reads, or in a refusal; `words_of` puts a file."""
    chance, texts = random.Random(len(tokens)), 0
    for number in range(count):
        place = chance.randrange(len(tokens))
        text = "".join([*tokens[:place], chance.choice([*signs, chance.choice(tokens)]), *tokens[place + 1:]])
        status, out, said = run([programs[1], *words_of(text)], given, seconds)
        demand(status in (0, 1), f"status {status} for damage {number}: {said}")
        if status == 1:
            demand(said.startswith("vsim_netlist: ") and said.count("\n") == 1 and not out, f"damage {number}: {said}")
        elif number % 10 == 0:
            texts += 1
            status, _, said = run([programs[0], "--top", "top"], out, seconds)
            demand(status == 0, f"damage {number}: vsim: {said}")
    demand(count < 200 or texts > 2, f"{texts} texts")


def main(documentation, tests_of, count=2):
    """Makes the tests that the command line asks for, which begins with this number of programs."""
    programs, more = sys.argv[1:count + 1], sys.argv[count + 1:]
    if len(programs) != count or len(more) > 1:
        sys.exit(documentation)
    damaged = int(more[0]) if more else DAMAGED
    with tempfile.TemporaryDirectory() as folder:
        sys.exit(tally(tests_of([os.path.abspath(it) for it in programs], folder, damaged)) != 0)

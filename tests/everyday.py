#!/usr/bin/env python3
"""Tries what each program answers before it reads a design, and what a shell finds of it.

    everyday.py VSIM VSIM_EXPLAIN VSIM_WAVES VSIM_COMPARE VSIM_NETLIST VSIM_CHECK [--install]

For each program: `--version` and `-V` print a line that begins with its name, `--help` and `-h` print the help, both on standard output
with status 0; words that are refused, or are no text, go to standard error with status 2; and a line of usage has the program's own name. Its man page
and its completions, made by the functions of the script install in a temporary prefix, are where they should be, name each option,
and are scripts of their shells (of those that are there); a program without proofs is installed only if that is asked for, and
`./install --remove` leaves nothing. VSIM_WAVES is silent if what reads a long VCD goes away. The script vsim, in a temporary tree that
notes VSIM as built, answers a folder on standard input as the program does, and says before it what is noted of a program without proofs.
The time that the script build expects to need is as worked out by hand.

With --install the script install itself is called with a temporary prefix, so the programs are built first; these must know what they
were built from, and the script vsim itself is given the folder. The last line is `N passed, M failed`.
"""
import argparse
import contextlib
import glob
import importlib.machinery
import importlib.util
import io
import os
import re
import shutil
import subprocess
import sys
import tempfile

TOP = os.path.dirname(os.path.dirname(os.path.realpath(__file__)))
NAMES = ["vsim", "vsim_explain", "vsim_waves", "vsim_compare", "vsim_netlist", "vsim_check"]
# those that take paths of files, so that bash offers files
TAKE_FILES = ["vsim_explain", "vsim_compare"]
# where the files of a program are in a prefix; for each shell also the command that reads the file, and the mark of a value that is a file
PAGE = "share/man/man1/{}.1"
COMPLETIONS = {
    "share/bash-completion/completions/{}": (["bash", "-n"], None),
    "share/zsh/site-functions/_{}": (["zsh", "-n"], ":FILE:_files'"),
    "share/fish/vendor_completions.d/{}.fish": (["fish", "--no-execute"], " -r -F "),
}
LINES = 50_000


def answer(command, **how):
    """Returns the status, the output and the errors of a command."""
    how = {"stdin": subprocess.DEVNULL, "timeout": 60, **how}
    ran = subprocess.run(command, stdout=subprocess.PIPE, stderr=subprocess.PIPE, **how)
    return ran.returncode, ran.stdout.decode(errors="replace"), ran.stderr.decode(errors="replace")


def fault_of_words(name, program, word, status, pattern):
    """Returns what is wrong with the answer to a word, if anything: what is said must match, and be all on one stream."""
    got, out, errors = answer([program, word])
    said, other = (out, errors) if status == 0 else (errors, out)
    usages = set(re.findall(r"usage: (\w+)", said, re.I))
    if got != status or other or not re.search(pattern, said) or not usages <= {name}:
        return f"{name} {word}: status {got}:\n{out}{errors}"
    return None


def faults_of_program(name, program):
    """Yields what is wrong, if anything, with each answer of a program to a word that asks for no run."""
    for word in ("--version", "-V"):
        yield fault_of_words(name, program, word, 0, rf"\A{name} \S+, sources .+, toolchain .+\n\Z")
    for word in ("--help", "-h"):
        yield fault_of_words(name, program, word, 0, rf"Usage: {name} ")
    yield fault_of_words(name, program, "--no-such-option", 2, rf"[Uu]sage: {name} ")
    if name != "vsim_waves":
        yield fault_of_words(name, program, b"--top=\xff", 2, r"\Aerror: invalid UTF-8 ")


def script(name):
    """Returns a script of the top as a module."""
    loader = importlib.machinery.SourceFileLoader(name, f"{TOP}/{name}")
    module = importlib.util.module_from_spec(importlib.util.spec_from_loader(name, loader))
    loader.exec_module(module)
    return module


def contents(path):
    with open(path, encoding="utf-8") as file:
        return file.read()


def fault_of_completion(path, reader, mark, options, files):
    """Returns what is wrong with a file of completions, if anything; this many options have a file as their value."""
    text = contents(path)
    missing = [it for it in options if it not in text and f"-l {it[2:]} " not in text]
    if missing or mark and text.count(mark) != files:
        return f"{path} lacks {', '.join(missing) or 'the files'}"
    status, _, errors = answer([*reader, path]) if shutil.which(reader[0]) else (0, "", "")
    return f"{path}: {errors}" if status or errors else None


def faults_of_files(name, prefix):
    """Yields what is wrong, if anything, with each file of a program in a prefix."""
    _, out, _ = answer([f"{prefix}/bin/{name}", "--help"])
    options = re.findall(r"^ +(?:-\w, )?(--[\w-]+)", out, re.M)
    page = contents(f"{prefix}/{PAGE.format(name)}").replace("\\-", "-")
    missing = [it for it in (f".TH {name.upper()} 1", ".SH SYNOPSIS", ".SH OPTIONS", ".SH SEE ALSO", *options) if it not in page]
    yield f"the page of {name} lacks {', '.join(missing)}" if missing or not options else None
    for path, (reader, mark) in COMPLETIONS.items():
        yield fault_of_completion(f"{prefix}/{path.format(name)}", reader, mark, options, out.count("<FILE>"))
    yield fault_in_bash(name, prefix, options)


def fault_in_bash(name, prefix, options):
    """Returns what is wrong with the words that bash offers after `NAME --` and after `NAME `, if anything."""
    file = f"{prefix}/share/bash-completion/completions/{name}"
    for word, wanted in (("--", options), ("''", [] if name in TAKE_FILES else options)):
        call = f". '{file}'; COMP_WORDS=({name} {word}); COMP_CWORD=1; _{name}; echo ${{COMPREPLY[*]}}"
        status, out, errors = answer(["bash", "-c", call])
        if status or errors or not set(wanted) <= set(out.split()) or out.strip() and not wanted:
            return f"bash offers {out}{errors} after {name} {word}"
    return None


def fault_of_waves(waves, room):
    """Returns what is wrong, if anything, when the reader of a long VCD goes away."""
    with open(f"{room}/listing", "w", encoding="ascii") as file:
        file.writelines(f"{n} 0 s {n % 2}\n" for n in range(LINES))
        file.write(f"done {LINES - 1} {LINES - 1}\n")
    _, out, errors = answer(["bash", "-c", f"'{waves}' < '{room}/listing' | head -n 1"])
    return None if out.count("\n") == 1 and not errors else f"vsim_waves | head: {out}{errors}"


def tree(vsim, room, said):
    """Makes a tree with the script vsim, which notes this program as built, and what is to be said of it; returns the script."""
    rt = shutil.which("rt") or ""
    made = os.path.realpath(rt) if rt else ""
    for it in ("tools", "crates", "out"):
        os.makedirs(f"{room}/{it}")
    for it in ("vsim", "tools/run"):
        shutil.copy(f"{TOP}/{it}", f"{room}/{it}")
    for it, text in (("crates.txt", ""), ("out/vsim.kept", f"{vsim}\n{rt}\n{made}\n{made}\n{said}\n")):
        with open(f"{room}/{it}", "w", encoding="utf-8") as file:
            file.write(text)
    latest = os.stat(f"{room}/out/vsim.kept").st_ctime + 1
    os.utime(f"{room}/out/vsim.kept", (latest, latest))
    return f"{room}/vsim"


def fault_of_folder(command, said=""):
    """Returns what is wrong with the answer to a folder on standard input, if anything; a line may be said before it."""
    folder = os.open("/", os.O_RDONLY)
    try:
        got = answer([command, "--top", "t"], stdin=folder)
    finally:
        os.close(folder)
    return None if got == (4, "", f"{said}vsim: Read\n") else f"{command} --top t < /: {got}"


def faults_of_install(prefix):
    """Calls the script install; yields what is wrong, if anything, with that, with what programs know of themselves, and with the script vsim."""
    status, _, errors = answer([f"{TOP}/install", prefix], timeout=None)
    yield f"./install: {errors}" if status else None
    for name in NAMES:
        _, out, _ = answer([f"{prefix}/bin/{name}", "--version"])
        yield f"{name} --version: {out}" if "unknown" in out else None
    yield fault_of_folder(f"{TOP}/vsim")


def faults_of_estimates():
    """Yields what is wrong, if anything, with the time that the script build expects to need, worked out by hand."""
    minutes = script("build").minutes
    # `high` stands on `low` and has a work of 60, and `low` one of 40; beside them stand three of 100
    longest = {"low": 100, "high": 60, "one": 100, "two": 100, "three": 100}
    found = {"low": set(), "high": {"low"}, "one": set(), "two": set(), "three": set()}
    for ended, left, took, wanted in (
        ({"low": 80}, ["high"], 80, "2 minutes"),
        ({"low": 10}, ["high"], 10, "1 minute"),
        ({"one": 100, "two": 100}, ["low", "high", "three"], 100, "2 minutes"),
        ({"one": 800, "two": 800}, ["low", "high"], 400, "7 minutes"),
    ):
        got = minutes(longest, found, ended, left, took)
        yield None if got == wanted else f"./build expects {got} for {left}, not {wanted}"


def fault_of_unproved(prefix):
    """Returns what is wrong, if anything, when a program that says that it is not proved is installed without a word for that."""
    os.makedirs(prefix)
    with open(f"{prefix}/program", "w", encoding="utf-8") as file:
        file.write("#!/bin/sh\necho vsim 1.0.0, sources 0, toolchain 0, not proved\n")
    os.chmod(f"{prefix}/program", 0o755)
    try:
        script("install").install("vsim", f"{prefix}/program", prefix)
    except SystemExit as refused:
        return None if "not proved" in str(refused) and os.listdir(prefix) == ["program"] else f"./install refuses it by {refused}"
    return "./install takes a program without proofs"


def faults_of_removing(prefix):
    """Yields what is wrong, if anything, with the help of the script install, and with what it leaves when it removes all."""
    status, out, errors = answer([f"{TOP}/install", "--help"])
    yield None if status == 0 and "--remove" in out and not errors else f"./install --help: {status} {out}{errors}"
    status, _, errors = answer([f"{TOP}/install", "--remove", prefix])
    left = [it for it in glob.glob(f"{prefix}/**", recursive=True) if os.path.isfile(it)]
    yield f"./install --remove leaves {left}: {errors}" if status or errors or left else None


def faults_of_shells(programs, prefix, is_installed):
    """Fills a prefix; yields what is wrong, if anything, with what a shell finds there."""
    if is_installed:
        yield from faults_of_install(prefix)
    else:
        with contextlib.redirect_stdout(io.StringIO()):
            for name, program in programs.items():
                script("install").install(name, program, prefix, may_be_unproved=True)
    for name in NAMES:
        yield from faults_of_files(name, prefix)
    found = [os.path.basename(it) for it in glob.glob(f"{prefix}/**/*.new-*", recursive=True)]
    yield f"{', '.join(found)} are left over" if found else None
    yield fault_of_unproved(f"{prefix}-of-unproved")
    yield from faults_of_removing(prefix)


def faults(programs, room, is_installed):
    """Yields what is wrong, if anything, of each trial."""
    for name, program in programs.items():
        yield from faults_of_program(name, program)
    yield from faults_of_shells(programs, f"{room}/prefix", is_installed)
    yield from faults_of_estimates()
    yield fault_of_waves(programs["vsim_waves"], room)
    yield fault_of_folder(programs["vsim"])
    yield fault_of_folder(tree(programs["vsim"], f"{room}/tree", ""))
    yield fault_of_folder(tree(programs["vsim"], f"{room}/other", "built without its proofs"), "vsim: built without its proofs\n")


def main():
    given = argparse.ArgumentParser()
    for name in NAMES:
        given.add_argument(name)
    given.add_argument("--install", action="store_true")
    given = given.parse_args()
    programs = {name: os.path.abspath(getattr(given, name)) for name in NAMES}
    with tempfile.TemporaryDirectory() as room:
        found = list(faults(programs, room, given.install))
    for it in filter(None, found):
        print(f"everyday: {it}")
    wrong = len(found) - found.count(None)
    print(f"{len(found) - wrong} passed, {wrong} failed")
    return 1 if wrong else 0


if __name__ == "__main__":
    sys.dont_write_bytecode = True
    sys.exit(main())

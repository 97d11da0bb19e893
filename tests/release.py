#!/usr/bin/env python3
"""Installs the tarball and the package that the script release makes, each in a root of its own, runs the example there, and removes it.

    release.py VSIM VSIM_EXPLAIN VSIM_WAVES VSIM_COMPARE VSIM_NETLIST VSIM_CHECK

The tarball and the package, made twice, a second later and by one who lets nobody else read files, are the same byte for byte. From each
the program answers examples/bus.vhd with its listing, BUILT has what each program says of itself and the checksum of its file, and each
program has its man page. After `dpkg -r` no file of it is left. Where there is no dpkg-deb, only the tarball is tried, and who is not root
unpacks the package without installing it. Programs that say that they are not proved must be refused, and then that is all. The last line
is `N passed, M failed`.
"""
import glob
import hashlib
import importlib.machinery
import importlib.util
import os
import shutil
import subprocess
import sys
import tempfile
import time

TOP = os.path.dirname(os.path.dirname(os.path.realpath(__file__)))
NAMES = ["vsim", "vsim_explain", "vsim_waves", "vsim_compare", "vsim_netlist", "vsim_check"]
# what dpkg wants of a root, and what the checks of a system do not concern
STATE = ["info", "updates", "triggers"]
DPKG = ["--force-not-root", "--force-depends", "--force-bad-path"]


def release():
    """Returns the script release as a module."""
    loader = importlib.machinery.SourceFileLoader("release", f"{TOP}/release")
    module = importlib.util.module_from_spec(importlib.util.spec_from_loader("release", loader))
    loader.exec_module(module)
    return module


def read(path):
    with open(path, "rb") as file:
        return file.read()


def answer(command, text=b""):
    ran = subprocess.run(command, input=text, stdout=subprocess.PIPE, stderr=subprocess.STDOUT)
    return ran.returncode, ran.stdout


def faults_of_prefix(prefix, programs):
    """Yields what is wrong, if anything, with what was installed in a prefix."""
    got = answer([f"{prefix}/bin/vsim", "--top", "t"], read(f"{TOP}/examples/bus.vhd"))
    yield None if got == (0, read(f"{TOP}/examples/bus.listing")) else f"{prefix}/bin/vsim answers {got}"
    built = read(f"{prefix}/share/doc/vsim/BUILT").decode()
    for name, program in programs.items():
        said = answer([program, "--version"])[1].decode() + f"    sha256 {hashlib.sha256(read(f'{prefix}/bin/{name}')).hexdigest()}\n"
        has_page = os.path.exists(f"{prefix}/share/man/man1/{name}.1")
        yield None if said in built and has_page else f"{prefix} lacks the page of {name}, or BUILT does not know it:\n{built}"


def faults_of_package(package, programs, root):
    """Yields what is wrong, if anything, with a package that dpkg installs in a root and removes."""
    for it in STATE:
        os.makedirs(f"{root}/var/lib/dpkg/{it}")
    for it in ("status", "available"):
        open(f"{root}/var/lib/dpkg/{it}", "w", encoding="ascii").close()
    status, said = answer(["dpkg", f"--root={root}", *DPKG, "-i", package])
    yield f"dpkg -i: {said.decode()}" if status else None
    yield from faults_of_prefix(f"{root}/usr", programs)
    status, said = answer(["dpkg", f"--root={root}", *DPKG, "-r", "vsim"])
    left = [it for it in glob.glob(f"{root}/usr/**", recursive=True) if os.path.isfile(it)]
    yield f"dpkg -r leaves {left}: {said.decode()}" if status or left else None


def faults(programs, room):
    """Yields what is wrong, if anything, of each trial."""
    archive, *package = release().make(programs, f"{room}/first")
    time.sleep(1.1)
    before = os.umask(0o077)
    again = release().make(programs, f"{room}/second")
    os.umask(before)
    for first, second in zip((archive, *package), again):
        yield None if read(first) == read(second) else f"{os.path.basename(first)} differs when it is made again"
    os.makedirs(f"{room}/prefix")
    status, said = answer(["tar", "-xzf", archive, "-C", f"{room}/prefix", "--strip-components=1"])
    yield f"tar: {said.decode()}" if status else None
    yield from faults_of_prefix(f"{room}/prefix", programs)
    if package and shutil.which("dpkg") and os.geteuid() == 0:
        yield from faults_of_package(package[0], programs, f"{room}/root")
    elif package:
        status, said = answer(["dpkg-deb", "-x", package[0], f"{room}/root"])
        yield f"dpkg-deb -x: {said.decode()}" if status else None
        yield from faults_of_prefix(f"{room}/root/usr", programs)


def fault_of_unproved(programs, room):
    """Returns what is wrong, if anything, when programs without proofs are to be released."""
    try:
        return f"it releases programs without proofs: {release().make(programs, room)}"
    except SystemExit as refused:
        return None if "not proved" in str(refused) and not os.listdir(room) else f"it refuses by {refused}, and leaves {os.listdir(room)}"


def main(words):
    programs = dict(zip(NAMES, map(os.path.abspath, words)))
    are_proved = all(b"not proved" not in answer([it, "--version"])[1] for it in programs.values())
    with tempfile.TemporaryDirectory() as room:
        found = list(faults(programs, room)) if are_proved else [fault_of_unproved(programs, room)]
    for it in filter(None, found):
        print(f"release: {it}")
    wrong = len(found) - found.count(None)
    print(f"{len(found) - wrong} passed, {wrong} failed")
    return 1 if wrong else 0


if __name__ == "__main__":
    sys.dont_write_bytecode = True
    if len(sys.argv) != 7:
        sys.exit(__doc__)
    sys.exit(main(sys.argv[1:]))

#!/usr/bin/env python3
"""Prints where the built program is.

  tools/built_program.py [--both]

`rt run` in crates/addr2line_bin leaves an executable below its out/, and `rt ci` leaves two: the second, with the
ending .by-rattle, by Rattle's own compiler. --both prints both, a line each. Where there is none, or where a source of
the crate or of one below it is newer, nothing is printed on standard output, a line on standard error says why, and the
status is 1: after a build that failed the executable of an earlier one would answer for sources that it isn't made of.

Other tools import it: `path()` is where the program is, `fault()` why it can't be taken, and `ran(..)` which executable
a command `rt run` has built or found unchanged, or none where it refused the sources.
"""
import os
import re
import subprocess
import sys

ROOT = os.path.dirname(os.path.dirname(os.path.abspath(__file__)))
CRATE = "addr2line_bin"
NAMES = ("addr2line", "addr2line_bin")
BY_RATTLE = ".by-rattle"
RUNNING = re.compile(r"^rt: running (out/\S+?);", re.MULTILINE)


def folder_of(crate):
    return os.path.join(ROOT, "crates", crate)


def path(ending=""):
    """Where the program is: the newest of the names that it may have, or the first where there is none."""
    named = [os.path.join(folder_of(CRATE), "out", name + ending) for name in NAMES]
    there = [name for name in named if os.path.isfile(name)]
    return max(there, key=os.path.getmtime) if there else named[-1]


def below(crate):
    """The crate and those of crates.txt that it stands on, also by others."""
    stands = {}
    with open(os.path.join(ROOT, "crates.txt"), encoding="utf-8") as lines:
        for line in lines:
            words = re.match(r"([a-z0-9_]+)[^:#]*:([^#]*)", line)
            if words:
                stands[words.group(1)] = words.group(2).split()
    found, left = set(), [crate]
    while left:
        name = left.pop()
        if name in stands and name not in found:
            found.add(name)
            left += stands[name]
    return sorted(found)


def sources(crate):
    """The files that a check of the crate reads: of it and of those below it src, specs and proofs."""
    for name in below(crate):
        for part in ("src", "specs", "proofs"):
            for folder, _, files in os.walk(os.path.join(folder_of(name), part)):
                for file in files:
                    if file.endswith((".rt", ".antt")):
                        yield os.path.join(folder, file)


def fault(executable, crate=CRATE):
    """Why this executable of the crate can't be taken for its sources, or nothing."""
    if not os.path.isfile(executable):
        return f"{os.path.relpath(executable, ROOT)} isn't there: run `rt run -- --version` in crates/{crate} first"
    made = os.path.getmtime(executable)
    for source in sources(crate):
        if os.path.getmtime(source) > made:
            return (f"{os.path.relpath(executable, ROOT)} is older than {os.path.relpath(source, ROOT)}: "
                    f"run `rt run -- --version` in crates/{crate} anew")
    return None


def ran(crate, words):
    """Proves, builds and runs the program of a crate: the executable, or None where it was refused, and what was said.

    A refused crate may have an executable of an earlier run, so the one is taken that rt says it runs.
    """
    made = subprocess.run(["rt", "run", "--", *words], cwd=folder_of(crate), stdin=subprocess.DEVNULL,
                          capture_output=True)
    said = (made.stdout + made.stderr).decode(errors="replace")
    running = RUNNING.search(said)
    return (os.path.join(folder_of(crate), running.group(1)) if running else None), said


def main():
    if sys.argv[1:] not in ([], ["--both"]):
        sys.exit("usage: tools/built_program.py [--both]")
    found = [path()] + ([path(BY_RATTLE)] if sys.argv[1:] else [])
    for executable in found:
        why = fault(executable)
        if why:
            sys.exit(f"tools/built_program.py: {why}")
    print("\n".join(found))


if __name__ == "__main__":
    main()

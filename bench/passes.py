#!/usr/bin/env python3
"""Compiles the deepest texts that are accepted, and shows that behind the expander 4.5 MiB of stack are enough.

Run by hand, after the program was built, where there is gdb:  bench/passes.py
Where the whole program is killed on 4.5 MiB, since the expander's numbering takes more, a part of the stack 4.5 MiB below the
passes is taken away as they begin, so that what goes deeper is killed. The end is 1 where a text is not compiled.
"""
import os
import subprocess
import sys
import tempfile

import deep

STACK = 9 << 19
COMMANDS = [
    "set breakpoint pending on",
    "break sch_passes::control_program",
    "run",
    f"call (int) mprotect(((unsigned long) $rsp - {STACK}) & ~4095, 65536, 0)",
    "continue",
    "print $_exitcode",
]


def accepted(text_with, folder):
    """The first text with fewer levels than are refused."""
    return next(text_with(k) for k in range(20) if deep.compile_text(text_with(k), folder, 8 << 20)[0] != deep.TOO_DEEP)


def debugged(folder):
    """What the debugger says of a run from whose stack the part below the passes is taken: two numbers that are 0."""
    words = [word for command in COMMANDS for word in ("-ex", command)]
    gdb = ["gdb", "-batch", *words, "--args", deep.PROGRAM, "compile", "source", "target"]
    said = subprocess.run(gdb, cwd=folder, stdout=subprocess.PIPE, stderr=subprocess.STDOUT).stdout.decode()
    return [line for line in said.splitlines() if line.startswith("$")]


def passes(name, text_with, folder):
    """Compiles a text so, and says whether it was compiled."""
    whole = deep.compile_text(accepted(text_with, folder), folder, STACK)[0] == 0
    well = whole or debugged(folder) == ["$1 = 0", "$2 = 0"]
    print(f"{name:22} {'compiled, the whole program' if whole else 'compiled' if well else 'killed'}")
    return well


def main():
    with tempfile.TemporaryDirectory() as folder:
        well = [passes(name, lambda spare: deep.nest("1", spare, *form), folder) for name, form in deep.NESTS.items()]
        well += [passes("chain of " + name, lambda spare: deep.chain(spare, *form), folder) for name, form in deep.CHAINS.items()]
    print(f"{well.count(True)} of {len(well)} compiled with {STACK / (1 << 20)} MiB of stack behind the expander")
    sys.exit(0 if all(well) else 1)


if __name__ == "__main__":
    main()

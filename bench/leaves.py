#!/usr/bin/env python3
"""How many activations of ordinary programs are leaves in effect, and what lazy saves execute beside two simpler rules.

Run by hand, after the program was built, on an x86-64 Linux with `objdump`:  bench/leaves.py [SOURCE ..]
Without sources it takes those of `examples/` that are named below. For each it prints the activations, the share of leaves, and
the saves for each activation: those that are executed, and those that two simpler rules would execute on the same trace.

- Activations, leaves and saves are those of `schc count`. They count the whole program, with the library's procedures.
- `at entry`: every variable that a body saves anywhere is saved at the body's entry. So each activation of a body has as many
  saves as variables have a mark `save` in it, by the listing.
- `at calls`: each variable is saved before every call after which it is live. So each call has as many saves as variables are
  live after it: those that some way through the body from there restores. The ways are those of the body's instructions, which
  `objdump` reads; a variable in a slot has no restores, and no rule saves it.

How often each mark is passed is seen of the image itself, which is run on the processor step by step. The entries that are seen
so must be the activations of `schc count`, body by body, and the saves its saves, or the script ends with 1.
PLDI 1995 (Burger, Waddell and Dybvig) reports that over two thirds of activations are leaves in effect.
"""
import collections
import os
import re
import shutil
import subprocess
import sys
import tempfile

from listing import read_listing
from trace import PROGRAM, TOP, Run, counted, text_of

SOURCES = ["tak", "fib", "sorting", "queens", "derivatives", "interpreter"]


def passes(image):
    """How often the instruction of each address begins in a run of an image."""
    run = Run(image)
    counts = collections.Counter(run)
    if run.status != 0:
        sys.exit(f"{image} ended with {run.status}")
    return counts


class Body:
    """The instructions of a body, and its marks, of which the first is its entry."""

    def __init__(self, instructions, marks):
        self.instructions = instructions
        self.index = {address: k for k, (address, _, _) in enumerate(instructions)}
        self.marks = marks
        self.restored = {mark.address: mark.number for mark in marks if mark.kind == "restore"}
        self.saved = {mark.number for mark in marks if mark.kind == "save"}

    def leaves_at(self, k):
        """Whether a jump by a register is that of a tail call or of a return: the last mark of the three says which it is."""
        kinds = [mark.kind for mark in self.marks if mark.address <= self.instructions[k][0]]
        return next((kind for kind in reversed(kinds) if kind in ("call", "tail", "return")), None) != "call"

    def after(self, k):
        """Which instructions may come next. A call, and a jump to a run-time routine, come back behind them."""
        _, name, operands = self.instructions[k]
        direct = re.fullmatch(r"0x[0-9a-f]+", operands)
        inside = [self.index[int(operands, 16)]] if direct and int(operands, 16) in self.index else []
        if name == "jmp" and inside:
            return inside
        if name == "jmp" and not direct and self.leaves_at(k):
            return []
        return [k + 1, *inside]

    def live_after(self, call):
        """The variables that some way from behind a call restores."""
        k = self.index[call.address]
        while self.instructions[k][1] != "jmp" or self.instructions[k][2].startswith("0x"):
            k += 1
        live, seen, waiting = set(), set(), [k + 1]
        while waiting:
            k = waiting.pop()
            if k in seen or k >= len(self.instructions):
                continue
            seen.add(k)
            live |= {self.restored[self.instructions[k][0]]} if self.instructions[k][0] in self.restored else set()
            waiting += self.after(k)
        return live


def bodies_of(image, listing):
    text = text_of(image)
    marks = listing.marks_of_bodies()
    ends = [of[0].address for of in marks[1:]] + [text[-1][0] + 1]
    return [Body([i for i in text if of[0].address <= i[0] < end], of) for of, end in zip(marks, ends)]


def measured(source, folder):
    """Activations, leaves, saves, and the saves of both rules, of a source in a folder."""
    subprocess.run([PROGRAM, "compile", source, "image", "--listing", "listing"], cwd=folder, check=True)
    image = os.path.join(folder, "image")
    os.chmod(image, 0o755)
    with open(os.path.join(folder, "listing")) as file:
        listing = read_listing(file.read())
    passed = passes(image)
    bodies = bodies_of(image, listing)
    entered = [passed[body.marks[0].address] for body in bodies]
    saves = [sum(passed[mark.address] for mark in body.marks if mark.kind == "save") for body in bodies]
    rows, _ = counted(source, folder)
    seen = [(name, *of) for name, *of in zip(listing.bodies, entered, saves) if of[0]]
    if seen != [(name, activations, saves) for name, activations, _, saves, _ in rows]:
        sys.exit(f"{source}: {seen} passed, and not {rows}")
    at_entry = sum(count * len(body.saved) for count, body in zip(entered, bodies))
    calls = [(body, mark) for body in bodies for mark in body.marks if mark.kind == "call" and passed[mark.address]]
    at_calls = sum(passed[mark.address] * len(body.live_after(mark)) for body, mark in calls)
    return sum(entered), sum(leaves for _, _, leaves, _, _ in rows), sum(saves), at_entry, at_calls


def main():
    sources = sys.argv[1:] or [os.path.join(TOP, "examples", f"{name}.scm") for name in SOURCES]
    print(f"{'':16}{'activations':>12}{'leaves':>9}{'saves':>8}{'at entry':>10}{'at calls':>10}   saves for each activation")
    for path in sources:
        with tempfile.TemporaryDirectory() as folder:
            shutil.copy(path, os.path.join(folder, "source"))
            activations, leaves, *saves = measured("source", folder)
        name = os.path.splitext(os.path.basename(path))[0]
        each = "".join(f"{count / activations:{width}.2f}" for count, width in zip(saves, (8, 10, 10)))
        print(f"{name:16}{activations:12}{100 * leaves / activations:8.0f}%{each}")


if __name__ == "__main__":
    main()

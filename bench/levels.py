#!/usr/bin/env python3
"""Prints how much stack a level takes of each walk of the passes over registers, as the program was built.

Run by hand, after the program was built, where there is `objdump`:  bench/levels.py [PROGRAM]
A walk is a function of these crates that calls itself, or functions that call one another. A function's frame is the return address,
what it pushes, and by how much it lowers rsp; a level of a walk through several functions takes at most the sum of theirs. Functions
that the compiler has put into others count there. The numbers behind a name (1, 4, 16) are the words of the sets of variables.
"""
import os
import re
import subprocess
import sys

TOP = os.path.dirname(os.path.dirname(os.path.abspath(__file__)))
PROGRAM = os.path.join(TOP, "crates", "schc", "out", "schc")
CRATES = ["control", "paths", "live", "saves", "restores", "regs", "homes", "writer", "layout", "registers"]
NAMED = re.compile(r"([0-9a-f]+) <(.*)>:$")
CALLED = re.compile(r"(?:call|jmp) +([0-9a-f]+) <")
LOWERED = re.compile(r"sub +rsp,0x([0-9a-f]+)$")


class Function:
    """A function's name, the bytes of its frame, and the addresses that it calls."""

    def __init__(self, name):
        self.name, self.frame, self.calls = name, 8, set()

    def reads(self, instruction):
        lowered, called = LOWERED.match(instruction), CALLED.match(instruction)
        self.frame += 8 * instruction.startswith("push ") + (int(lowered[1], 16) if lowered else 0)
        if called:
            self.calls.add(int(called[1], 16))


def functions_of(program):
    """The functions of a program by their addresses."""
    words = ["objdump", "-d", "-M", "intel", "--no-show-raw-insn", program]
    functions, current = {}, None
    for line in subprocess.run(words, stdout=subprocess.PIPE, check=True).stdout.decode().splitlines():
        named = NAMED.match(line)
        if named:
            current = functions[int(named[1], 16)] = Function(named[2])
        elif current and "\t" in line:
            current.reads(line.split("\t")[-1].strip())
    return functions


def reached(functions, start):
    """The functions that one calls, and those that these call."""
    seen, waiting = set(), [start]
    while waiting:
        for address in functions[waiting.pop()].calls & functions.keys():
            if address not in seen:
                seen.add(address)
                waiting.append(address)
    return seen


def cycles(functions):
    """The functions that call themselves or one another, those of each cycle together."""
    reach = {address: reached(functions, address) for address in functions}
    cyclic = [address for address in functions if address in reach[address]]
    groups = {frozenset(other for other in cyclic if other in reach[address] and address in reach[other]) for address in cyclic}
    named = [sorted((functions[address] for address in group), key=lambda one: one.name) for group in groups]
    return sorted(named, key=lambda group: group[0].name)


def main():
    program = sys.argv[1] if len(sys.argv) > 1 else PROGRAM
    every = functions_of(program)
    ours = {address: one for address, one in every.items() if any(f"sch_{crate}::" in one.name for crate in CRATES)}
    found = cycles(ours)
    for group in found:
        listed = ", ".join(f"{one.name} {one.frame}" for one in group)
        print(f"{sum(one.frame for one in group):6} bytes: {listed}")
    frames = [one.frame for group in found for one in group]
    print(f"{len(frames)} functions in {len(found)} walks; the largest frame has {max(frames)} bytes, and {sum(frame > 1000 for frame in frames)} have more than 1,000")


if __name__ == "__main__":
    main()

#!/usr/bin/env python3
"""Compiles texts whose jumps lengthen one another, and prints how many they are, how long their chains, and the times.

Run by hand, after the program was built, where there is `objdump`:  bench/chains.py [RUNS]
A text has procedures' calls as tests, one test inside the other as deep as the data's levels allow, so that each jump where a test
does not hold goes over the next one, and reaches its label exactly as long as that one is short: `(if (if (f 1) (f 1) 1) (f 1) 1)`.
The outermost jump of a nest goes too far by itself, so all of them are long, each because of the one behind it. The text of 1 MiB is
the longest that is read; half and a quarter of it show how the time grows.

What is counted is seen in the image: a jump that is lengthened is one that is long and would reach its label if all jumps were
short. The chain is that of one nest: how many rounds it takes, from all jumps short, until each that does not reach is long.
"""
import os
import re
import subprocess
import sys
import tempfile

import measure
from trace import PROGRAM, text_of

DEPTH = 990
SIZE = 1 << 20


def nests(size):
    """A text of as many nests as fit, and of one where none fits. Behind the outermost test stands more than a short jump reaches."""
    nest = "(if " * DEPTH + "(f 1)" + " (f 1) 1)" * (DEPTH - 1) + " (f (f 1)) 1)\n"
    define = "(define (f x) x)\n"
    return define + nest * max((size - len(define)) // len(nest), 1)


class Jump:
    """A direct jump of a text: how many bytes more it has than its short form, where it stands, ends and goes, with all jumps short."""

    def __init__(self, address, name, target):
        self.more = 3 if name == "jmp" else 4
        self.address, self.target, self.is_long = address, target, False
        self.before_end = self.before_target = 0


def jumps_of(image):
    """The direct jumps of an image's text. Of each it is known which jumps stand before its end and before its target."""
    text = text_of(image)
    ends = [address for address, _, _ in text[1:]] + [0]
    found = {}
    for (address, name, operands), end in zip(text, ends):
        if name.startswith("j") and re.fullmatch(r"0x[0-9a-f]+", operands):
            jump = Jump(address, name, int(operands, 16))
            jump.is_long = end - address > 2
            found[address] = jump
    before, count = {}, 0
    for address, _, _ in text:
        before[address] = count
        count += address in found
    for jump in found.values():
        jump.before_end, jump.before_target = before[jump.address] + 1, before.get(jump.target, count)
    return list(found.values())


def reaches(jump, longer):
    """Whether a short jump reaches its target where `longer` tells how many bytes the jumps before each have in more."""
    grown = longer[jump.before_target] - longer[jump.before_end]
    return -128 <= jump.distance + grown <= 127


def sums(jumps, are_long):
    """How many bytes the jumps before each, and before the end, have in more than with all of them short."""
    longer = [0]
    for jump, is_long in zip(jumps, are_long):
        longer.append(longer[-1] + jump.more * is_long)
    return longer


def lengthened(jumps):
    """How many long jumps would reach with all jumps short, and in how many rounds from there all that do not reach are long."""
    of_image = sums(jumps, [jump.is_long for jump in jumps])
    for jump in jumps:
        end = jump.address + 2 + jump.more * jump.is_long
        jump.distance = jump.target - end - (of_image[jump.before_target] - of_image[jump.before_end])
    none = [0] * (len(jumps) + 1)
    return sum(jump.is_long and reaches(jump, none) for jump in jumps)


def rounds(jumps):
    """In how many rounds from all jumps short those that do not reach are lengthened, and whether these are the long ones."""
    are_long, count = [False] * len(jumps), 0
    while True:
        longer = sums(jumps, are_long)
        now = [is_long or not reaches(jump, longer) for jump, is_long in zip(jumps, are_long)]
        if now == are_long:
            return count, now == [jump.is_long for jump in jumps]
        are_long, count = now, count + 1


def compiled(text, folder, runs):
    """The least time that a text takes, and the direct jumps of its image."""
    with open(os.path.join(folder, "source"), "w") as file:
        file.write(text)
    measured = [measure.once([PROGRAM, "compile", "source", "image"], folder) for _ in range(runs)]
    return min(measured), jumps_of(os.path.join(folder, "image"))


def main():
    runs = measure.runs_wanted()
    with tempfile.TemporaryDirectory() as folder:
        print(f"{os.cpu_count()} processors, least of {runs} runs")
        _, jumps = compiled(nests(0), folder, 1)
        count = lengthened(jumps)
        chain, least = rounds(jumps)
        print(f"one nest of {DEPTH}: {count} of {len(jumps)} jumps are lengthened by others, in {chain} rounds; the long ones are "
              f"{'those' if least else 'OTHER ONES'}")
        times = []
        for part in (4, 2, 1):
            text = nests(SIZE // part)
            (seconds, peak), jumps = compiled(text, folder, runs)
            times.append(seconds)
            print(f"{len(text):8} bytes: {lengthened(jumps)} of {len(jumps)} jumps are lengthened by others, {1000 * seconds:8.1f} ms, {peak / 1024:6.1f} MiB")
        print(f"twice the text takes {times[1] / times[0]:.2f} times as long, four times the text {times[2] / times[0]:.2f} times")
    sys.exit(0 if least else 1)


if __name__ == "__main__":
    main()

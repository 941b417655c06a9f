#!/usr/bin/env python3
"""Compares programs in one run: the times of `compile`, in turn, and what their images are and execute.

Run by hand, on an x86-64 Linux with `objdump`:  bench/beside.py KIBIBYTES RUNS NAME=PROGRAM ..
The programs are builds of one kind, of different commits. `KIBIBYTES` is the size of the text of procedures; with 0 runs the times
are left out. A time is that of the processor, the least of the runs.

Of the image of each example it prints the bytes of its text, the instructions that a run executes, and how many of these load a word
through rbp, where frames are, and how many store one; and how many restores it passes, where the program lists marks. What the images
print must be the same, or the end is 1.
"""
import collections
import os
import shutil
import subprocess
import sys
import tempfile

import compile
import measure
from generated import generated
from listing import read_listing
from trace import TOP, Run, loads, stores, text_bytes, text_of

EXAMPLES = os.path.join(TOP, "examples")


def texts(kibibytes):
    return {
        "gen 0": generated(0, 1000),
        f"procedures, {kibibytes} KiB": compile.procedures(kibibytes << 10),
        "1,000 variables": compile.bodies(16 << 10),
        "choices, 1,985 deep": b"(cond" + b"((eq? 1 2) 3)" * 1985 + b"(else 4))",
    }


def times(programs, kibibytes, runs, folder):
    for name, text in texts(kibibytes).items():
        with open(os.path.join(folder, "source"), "wb") as file:
            file.write(text)
        seen = {program: [] for program in programs}
        for _ in range(runs):
            for program, path in programs.items():
                seen[program].append(measure.once([path, "compile", "source", "image"], folder)[0])
        listed = ", ".join(f"{program} {1000 * min(of):.0f} ms" for program, of in seen.items())
        print(f"{name:24} {len(text):8} bytes: {listed}", flush=True)


def compiled(program, folder):
    """The image of a source, and its listing where the program has listings."""
    subprocess.run([program, "compile", "source", "image"], cwd=folder, check=True)
    image = os.path.join(folder, "image")
    os.chmod(image, 0o755)
    listed = subprocess.run([program, "list", "source"], cwd=folder, stdout=subprocess.PIPE, stderr=subprocess.DEVNULL)
    return image, read_listing(listed.stdout.decode()) if listed.returncode == 0 else None


def figures(program, folder):
    """The bytes of the text, the instructions executed, loads, stores, and restores; and what the image prints."""
    image, listing = compiled(program, folder)
    text = text_of(image)
    passed = collections.Counter(Run(image))
    loaded = sum(passed[address] for address, name, operands in text if loads(name, operands))
    stored = sum(passed[address] for address, name, operands in text if stores(name, operands))
    restored = sum(passed[mark.address] for mark in listing.marks if mark.kind == "restore") if listing else "-"
    printed = subprocess.run([image], stdout=subprocess.PIPE).stdout
    return (len(text_bytes(image)[0]), sum(passed.values()), loaded, stored, restored), printed


def main():
    kibibytes, runs = int(sys.argv[1]), int(sys.argv[2])
    programs = {name: os.path.abspath(path) for name, path in (word.split("=", 1) for word in sys.argv[3:])}
    same = True
    with tempfile.TemporaryDirectory() as folder:
        if runs:
            times(programs, kibibytes, runs, folder)
        print(f"{'':16}{'':10}{'bytes':>8}{'executed':>10}{'loads':>9}{'stores':>9}{'restores':>10}")
        for name in sorted(os.listdir(EXAMPLES)):
            shutil.copy(os.path.join(EXAMPLES, name), os.path.join(folder, "source"))
            outputs = set()
            for program, path in programs.items():
                seen, printed = figures(path, folder)
                outputs.add(printed)
                print(f"{name:16}{program:10}{seen[0]:8}{seen[1]:10}{seen[2]:9}{seen[3]:9}{seen[4]:>10}", flush=True)
            same = same and len(outputs) == 1
    print("the images print the same" if same else "the images print OTHER THINGS")
    sys.exit(0 if same else 1)


if __name__ == "__main__":
    main()

#!/usr/bin/env python3
"""Steps loops of 100,000,000 instructions with `schc step` and with a C interpreter, in turn.

Prints instructions a second of processor time for each, and their ratio; and how long an image with
256 MiB of zeros takes to load and an empty file to run.

Run by hand, after the program was built:  bench/step.py [RUNS [INSTRUCTIONS PROGRAM ..]]
With programs, which are builds of one kind, these step the loops in turn, of so many instructions, and nothing else is done. A loop that
a program does not step is left out.
"""
import os
import resource
import struct
import subprocess
import sys
import tempfile

TOP = os.path.dirname(os.path.dirname(os.path.abspath(__file__)))
PROGRAM = os.path.join(TOP, "crates", "schc", "out", "schc")
INSTRUCTIONS = 100_000_000
TEXT, DATA = 0x400000, 0x10000000
RAX, RCX, RDX, RBX, RBP, RSI, RDI, R9 = 0, 1, 2, 3, 5, 6, 7, 9


def i32(n):
    return struct.pack("<i", n)


def register(reg, rm):
    return bytes([0xC0 | (reg & 7) << 3 | rm & 7])


def memory(reg, base, displacement):
    """A base with a displacement of 32 bits; no base here has the low bits 100."""
    return bytes([0x80 | (reg & 7) << 3 | base & 7]) + i32(displacement)


def memory8(reg, base, displacement):
    """The same with a displacement of 8 bits."""
    return bytes([0x40 | (reg & 7) << 3 | base & 7]) + struct.pack("<b", displacement)


def wide(opcode, reg, rm, operand):
    return bytes([0x48 | (reg >> 3) << 2 | rm >> 3, *opcode]) + operand


def rr(opcode, reg, rm):
    return wide([opcode], reg, rm, register(reg, rm))


def rm(opcode, reg, base, displacement):
    return wide([opcode], reg, base, memory(reg, base, displacement))


def number(which, rm_, n):
    return wide([0x81], which, rm_, register(which, rm_)) + i32(n)


def rm8(opcode, reg, base, displacement):
    return wide([opcode], reg, base, memory8(reg, base, displacement))


def number8(which, rm_, n):
    return wide([0x83], which, rm_, register(which, rm_)) + struct.pack("<b", n)


LOOPS = {
    "registers": [
        rr(0x01, RCX, RAX), rr(0x31, RAX, RBX), rm(0x8D, RDX, RBX, 8), rr(0x89, RDX, RSI),
        rr(0x29, RSI, R9), rr(0x85, RAX, RAX), number(7, RBX, 1000), number(0, R9, 7),
    ],
    "memory": [
        rm(0x8B, RAX, RBP, 8), rm(0x01, RAX, RBP, 16), rm(0x89, RCX, RBP, 0), rm(0x3B, RAX, RBP, 24),
        wide([0x0F, 0xB6], RBX, RBP, memory(RBX, RBP, 3)), bytes([0x40, 0x88]) + memory(RBX, RBP, 40),
        wide([0x81], 5, RBP, memory(5, RBP, 48)) + i32(3), wide([0xC7], 0, RBP, memory(0, RBP, 56)) + i32(9),
    ],
    "byte forms": [
        rm8(0x8B, RAX, RBP, 8), rm8(0x01, RAX, RBP, 16), rm8(0x8D, RDX, RBP, -8), number8(7, RBX, 100),
        b"\x75\x00", number8(0, R9, -7), wide([0x83], 5, RBP, memory8(5, RBP, 24)) + b"\x03", b"\xeb\x00",
    ],
    "all forms": [
        rr(0x89, RCX, RAX), b"\x48\x99", number(1, RSI, 5), wide([0xF7], 7, RSI, register(7, RSI)),
        wide([0x0F, 0xAF], RAX, RSI, register(RAX, RSI)), wide([0xF7], 3, RAX, register(3, RAX)),
        wide([0xC1], 4, RAX, register(4, RAX)) + b"\x03", wide([0xC1], 7, RAX, register(7, RAX)) + b"\x02",
        rr(0x09, RAX, RBX), rr(0x23, RBX, RAX), rm(0x33, RBX, RBP, 8), b"\x48\xb8" + struct.pack("<q", 1 << 40),
    ],
}


def image(text, data, zeros=0):
    header = b"\x7fELF\x02\x01\x01" + bytes(9) + struct.pack("<HHIQQQIHHHHHH", 2, 62, 1, TEXT, 64, 0, 0, 64, 56, 2, 0, 0, 0)
    header += struct.pack("<IIQQQQQQ", 1, 5, 4096, TEXT, TEXT, len(text), len(text), 4096)
    header += struct.pack("<IIQQQQQQ", 1, 6, 8192, DATA, DATA, len(data), len(data) + zeros, 4096)
    return header.ljust(4096, b"\0") + text.ljust(4096, b"\0") + data


def program(body, instructions=INSTRUCTIONS):
    """The body round after round, until so many instructions are done, and an exit."""
    rounds = instructions // (len(body) + 2)
    setup = wide([0xC7], 0, RBP, register(0, RBP)) + i32(DATA) + wide([0xC7], 0, RCX, register(0, RCX)) + i32(rounds)
    loop = b"".join(body) + number(5, RCX, 1)
    back = b"\x0f\x85" + i32(-(len(loop) + 6))
    end = wide([0xC7], 0, RAX, register(0, RAX)) + i32(60) + wide([0xC7], 0, RDI, register(0, RDI)) + i32(0) + b"\x0f\x05"
    return image(setup + loop + back + end, bytes(4096))


def seconds(command):
    """The processor time that the command takes, which other work on the machine changes least."""
    before = resource.getrusage(resource.RUSAGE_CHILDREN)
    status = subprocess.run(command, check=False).returncode
    if status != 0:
        sys.exit(f"{command} ended with {status}")
    after = resource.getrusage(resource.RUSAGE_CHILDREN)
    return after.ru_utime - before.ru_utime + after.ru_stime - before.ru_stime


def beside(programs, instructions, runs):
    """The speeds of several programs, in turn."""
    with tempfile.TemporaryDirectory() as folder:
        path = os.path.join(folder, "image")
        for name, body in LOOPS.items():
            with open(path, "wb") as file:
                file.write(program(body, instructions))
            able = [one for one in programs if subprocess.run([one, "step", path], stderr=subprocess.DEVNULL).returncode == 0]
            seen = {one: [] for one in able}
            for _ in range(runs):
                for one in able:
                    seen[one].append(seconds([one, "step", path]))
            speeds = ", ".join(f"{os.path.basename(one)} {instructions / min(of) / 1e6:.2f} M/s" for one, of in seen.items())
            print(f"{name:10} {speeds}", flush=True)


def empty_text(folder, runs):
    """`run` of an empty file, and `step` of its image, whose time is that of loading the zeros of the default heap."""
    source, path = os.path.join(folder, "empty"), os.path.join(folder, "image")
    open(source, "wb").close()
    subprocess.run([PROGRAM, "compile", source, path], check=True)
    ran, stepped = [], []
    for _ in range(runs):
        ran.append(seconds([PROGRAM, "run", source]))
        stepped.append(seconds([PROGRAM, "step", path]))
    print(f"an empty file: run takes {1000 * min(ran):.0f} ms, step of its image {1000 * min(stepped):.0f} ms")


def main():
    runs = int(sys.argv[1]) if len(sys.argv) > 1 else 3
    print(f"{os.cpu_count()} processors, least of {runs} runs in turn")
    if len(sys.argv) > 3:
        return beside(sys.argv[3:], int(sys.argv[2]), runs)
    with tempfile.TemporaryDirectory() as folder:
        reference, path = os.path.join(folder, "step"), os.path.join(folder, "image")
        subprocess.run(["gcc", "-O2", "-o", reference, os.path.join(TOP, "bench", "step.c")], check=True)
        for name, body in LOOPS.items():
            with open(path, "wb") as file:
                file.write(program(body))
            ours, theirs = [], []
            for _ in range(runs):
                ours.append(seconds([PROGRAM, "step", path]))
                theirs.append(seconds([reference, path, "1000000000"]))
            speed, other = INSTRUCTIONS / min(ours) / 1e6, INSTRUCTIONS / min(theirs) / 1e6
            print(f"{name:10} schc step {speed:7.1f} M/s, C {other:7.1f} M/s: {speed / other:.2f} times as fast")
        with open(path, "wb") as file:
            exit_text = b"\x48\xc7\xc0" + i32(60) + b"\x48\xc7\xc7" + i32(0) + b"\x0f\x05"
            file.write(image(exit_text, bytes(16), 256 << 20))
        print(f"256 MiB of zeros: {1000 * min(seconds([PROGRAM, 'step', path]) for _ in range(runs)):.0f} ms to load and exit")
        empty_text(folder, runs)


if __name__ == "__main__":
    main()

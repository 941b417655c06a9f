#!/usr/bin/env python3
"""How many bytes of texts the forms of one byte save.

Run by hand, after the program was built, on a machine with `objdump`:  bench/forms.py [SOURCE ..]
Without sources it takes those of `examples/`, an empty text, and `(display -42)` once and twice. For each it prints
the bytes of the image's text, and those that it would have if each displacement, each number of the rows 83 and each direct jump had
the form with four bytes (SDM, volume 2: the opcodes EB, 70 to 7F and 83, and ModR/M bytes whose two high bits are 01). As jumps that are
lengthened lengthen others, which are long then anyway, that is the text with no form of one byte.
"""
import glob
import os
import subprocess
import sys
import tempfile

from trace import PROGRAM, TOP, text_bytes

# The opcodes of images that no ModR/M byte follows: calls of the kernel, `cqo`, and the moves of a number of 64 bits.
WITHOUT_MODRM = {0x0F05, 0x99, *range(0xB8, 0xC0)}


def saved(code):
    """How many bytes an instruction would be longer without a form of one byte."""
    at = 1 if 0x40 <= code[0] < 0x50 else 0
    opcode, at = (0x0F00 | code[at + 1], at + 2) if code[at] == 0x0F else (code[at], at + 1)
    if opcode == 0xEB:
        return 3
    if 0x70 <= opcode < 0x80:
        return 4
    if opcode in WITHOUT_MODRM or opcode == 0xE9 or 0x0F80 <= opcode < 0x0F90:
        return 0
    return 3 * (opcode == 0x83) + 3 * (code[at] >> 6 == 1)


def instructions(text, folder):
    """The bytes of each instruction of a text, as `objdump` parts them."""
    path = os.path.join(folder, "text")
    with open(path, "wb") as file:
        file.write(text)
    words = ["objdump", "-D", "-b", "binary", "-m", "i386:x86-64", "--insn-width=16", path]
    lines = subprocess.run(words, stdout=subprocess.PIPE, check=True, text=True).stdout.splitlines()
    return [bytes.fromhex(line.split("\t")[1]) for line in lines if line.count("\t") == 2]


def sizes(source, folder):
    """The bytes of the text that a source is compiled to, and those that it would have."""
    image = os.path.join(folder, "image")
    subprocess.run([PROGRAM, "compile", source, image], check=True)
    text, _ = text_bytes(image)
    return len(text), len(text) + sum(map(saved, instructions(text, folder)))


def made(folder):
    """The texts that are written for this alone."""
    for name, text in ("empty", ""), ("once", "(display -42)"), ("twice", "(display -42)" * 2):
        path = os.path.join(folder, name)
        with open(path, "w") as file:
            file.write(text)
        yield path


def main():
    with tempfile.TemporaryDirectory() as folder:
        for source in sys.argv[1:] or [*sorted(glob.glob(os.path.join(TOP, "examples", "*.scm"))), *made(folder)]:
            now, longer = sizes(source, folder)
            print(f"{os.path.basename(source):20} {longer:9} {now:9} {100 * (1 - now / longer):4.0f} %")


if __name__ == "__main__":
    main()

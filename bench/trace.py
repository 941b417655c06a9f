"""What the scripts share that look into images: runs on the processor step by step, the instructions of a text, and the counts."""
import ctypes
import os
import re
import signal
import subprocess
import tempfile

TOP = os.path.dirname(os.path.dirname(os.path.abspath(__file__)))
PROGRAM = os.path.join(TOP, "crates", "schc", "out", "schc")

# ptrace(2), and where the address of the next instruction lies in the registers (x86-64).
TRACEME, PEEKUSER, SINGLESTEP = 0, 3, 9
RIP = 16 * 8
INSTRUCTION = re.compile(r"\s*([0-9a-f]+):\t[0-9a-f ]+\t(?:rex\S*\s+)?(\S+) *([^#]*)")
LIBC = ctypes.CDLL(None, use_errno=True)
LIBC.ptrace.restype = ctypes.c_long
LIBC.ptrace.argtypes = [ctypes.c_long, ctypes.c_long, ctypes.c_void_p, ctypes.c_void_p]

# What writes its first operand (SDM, volume 2, the page of each mnemonic), of the instructions that images have.
WRITERS = {"mov", "add", "or", "and", "sub", "xor", "neg", "shl", "shr", "sar"}


class Run:
    """A run of an image on the processor, step by step: the address of each instruction as it begins, and in the end the status."""

    def __init__(self, image):
        self.image = image
        self.status = None

    def __iter__(self):
        child = os.fork()
        if child == 0:
            os.dup2(os.open(os.devnull, os.O_WRONLY), 1)
            LIBC.ptrace(TRACEME, 0, None, None)
            os.execv(self.image, [self.image])
        _, status = os.waitpid(child, 0)
        try:
            while os.WIFSTOPPED(status) and os.WSTOPSIG(status) == signal.SIGTRAP:
                yield LIBC.ptrace(PEEKUSER, child, RIP, None)
                LIBC.ptrace(SINGLESTEP, child, None, None)
                _, status = os.waitpid(child, 0)
            self.status = os.waitstatus_to_exitcode(status) if not os.WIFSTOPPED(status) else -os.WSTOPSIG(status)
        finally:
            if os.WIFSTOPPED(status):
                os.kill(child, signal.SIGKILL)
                os.waitpid(child, 0)


def text_bytes(image):
    """The bytes of an image's text, and its address: of ELF-64's program headers those of the executable one say where it lies."""
    with open(image, "rb") as file:
        data = file.read()
    table, count = int.from_bytes(data[32:40], "little"), int.from_bytes(data[56:58], "little")
    headers = [data[table + 56 * k : table + 56 * (k + 1)] for k in range(count)]
    header = next(header for header in headers if header[4] & 1)
    offset, address, size = (int.from_bytes(header[at : at + 8], "little") for at in (8, 16, 32))
    return data[offset : offset + size], address


def text_of(image):
    """The instructions of an image's text, each with its address, its name and its operands, as `objdump` reads them."""
    data, address = text_bytes(image)
    with tempfile.NamedTemporaryFile() as file:
        file.write(data)
        file.flush()
        words = ["objdump", "-D", "-b", "binary", "-m", "i386:x86-64", "-M", "intel", "-w", f"--adjust-vma={address}", file.name]
        lines = subprocess.run(words, stdout=subprocess.PIPE, check=True).stdout.decode().splitlines()
    found = [match for line in lines if (match := INSTRUCTION.match(line))]
    return [(int(match[1], 16), match[2], match[3].strip()) for match in found]


def stores(name, operands):
    """Whether an instruction writes memory through rbp, where the words of frames are."""
    return name in WRITERS and "[rbp" in operands.split(",")[0]


def loads(name, operands):
    """Whether an instruction is one that moves a word from memory through rbp into a register."""
    return name == "mov" and "[rbp" in operands.split(",")[-1]


def counted(source, folder, options=()):
    """What `schc count` prints: of each body with an activation its name, activations, leaves, saves and saves of leaves; the status."""
    done = subprocess.run([PROGRAM, "count", source, *options], cwd=folder, stdout=subprocess.PIPE, check=True)
    *lines, last = done.stdout.decode().splitlines()
    rows = [line.rsplit(" ", 4) for line in lines]
    return [(name, *map(int, numbers)) for name, *numbers in rows], int(last.split()[1])

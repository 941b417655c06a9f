#!/usr/bin/env python3
"""Reads the deepest and the longest flat texts of 64 KiB and 1 MiB with the reader, and prints times,
their ratio, and peak memory.

Builds a small program over the reader in a copy of the repository at its first use, which takes minutes.
Run by hand:  bench/read.py [RUNS]
"""
import os
import shutil
import subprocess
import sys
import tempfile

import measure

TOP = os.path.dirname(os.path.dirname(os.path.abspath(__file__)))
COPY = os.path.join(tempfile.gettempdir(), "schc-bench-read")
CRATE = os.path.join(COPY, "crates", "bench_read")
PROGRAM = os.path.join(CRATE, "out", "bench_read")

MAIN = """\
//! Reads the data of the file `text`: 0, or 1 where it has a fault or there is no such file.
#![tactic(auto)]

use sch_io::{Disk, HostDisk};
use sch_read::read_all;
use std::process::ExitCode;

fn main(rt: HostRuntime) -> ExitCode {
    let mut disk = HostDisk::new(&rt);
    let Ok(text) = disk.read(rt.alloc(), "text", 1 << 24) else {
        return ExitCode::from(1);
    };
    match read_all(rt.alloc(), text.as_slice()) {
        Ok(_data) => ExitCode::from(0),
        Err(_) => ExitCode::from(1),
    }
}
"""


def deepest(size):
    """Lists of 1,000 levels, one after the other."""
    one = b"(" * 1000 + b")" * 1000
    return (one * (size // len(one))).ljust(size)


def dotted(size):
    """999 tails, each behind the dot of the one before, and then one long list."""
    front, back = b"(a . " * 999 + b"(", b")" * 1000
    return front + b"1 " * ((size - len(front) - len(back)) // 2) + back


def flat(size):
    return b"(" + b"1 " * (size // 2 - 1) + b")"


def string(size):
    return b'"' + b"a" * (size - 2) + b'"'


def comment(size):
    return b";".ljust(size)


TEXTS = {"deepest": deepest, "tails": dotted, "longest list": flat, "longest string": string, "comment": comment}


def build():
    if os.path.exists(PROGRAM):
        return
    print("building the program in", COPY, file=sys.stderr)
    shutil.copytree(TOP, COPY, ignore=shutil.ignore_patterns("out", ".git"), dirs_exist_ok=True)
    os.makedirs(os.path.join(CRATE, "src"), exist_ok=True)
    with open(os.path.join(CRATE, "src", "main.rt"), "w") as file:
        file.write(MAIN)
    with open(os.path.join(COPY, "crates.txt"), "a") as file:
        file.write("bench_read: sch_word sch_io sch_read\n")
    # Without a file the program ends with 1, so the build is judged by the program that it leaves.
    subprocess.run(["rt", "run"], cwd=CRATE, stdin=subprocess.DEVNULL, check=False)
    if not os.path.exists(PROGRAM):
        sys.exit("the program was not built")


def main():
    build()
    with tempfile.TemporaryDirectory() as folder:
        measure.table(TEXTS, os.path.join(folder, "text"), [PROGRAM], folder)


if __name__ == "__main__":
    main()

#!/usr/bin/env python3
"""Runs the gate (`rt ci`) and prints the processor seconds that it takes for each crate: its proofs, its tests and its
must-fail edits. The kit keeps on a machine what a run passed there; `--anew` begins from nothing. With names of crates
it is the run of these and those below them, which is not the gate.

It looks at the prover's processes ten times a second: what a process took after the last look is missing
from its crate, and stands in the line `rest` with what the gate itself took. `--watch PID` looks at a gate
that runs already, from now to its end; what it took before is not seen, and there is no line `rest`.

`--modules CRATE` runs no gate: it prints what of the last check of a crate from nothing took longest. A check
of one job (`rt check --jobs 1`) keeps each module as it ends with it, so a module took as long as its file is
younger than the one before. Of a function the module `Lts` is the walk over its code, and `Proof` the goals
that have no answer of their own.
"""
import collections
import os
import subprocess
import sys
import time

PARTS = ("proofs", "tests", "edits")
TICKS = os.sysconf("SC_CLK_TCK")
TOP = os.path.dirname(os.path.dirname(os.path.realpath(__file__)))


def processes():
    """The number, the parent, the beginning and the processor seconds of each process there is."""
    for name in os.listdir("/proc"):
        if name.isdigit():
            try:
                with open(f"/proc/{name}/stat") as file:
                    fields = file.read().rpartition(")")[2].split()
            except OSError:
                continue
            yield int(name), int(fields[1]), fields[19], (int(fields[11]) + int(fields[12])) / TICKS


def part_of(pid):
    """The crate that a process of the prover works for, and at which part; None for any other process."""
    try:
        with open(f"/proc/{pid}/cmdline", errors="replace") as file:
            words = file.read().split("\0")
    except OSError:
        return None
    if os.path.basename(words[0]) != "rattle" or "--crate-name" not in words:
        return None
    crate = words[words.index("--crate-name") + 1]
    if any("rt-edits-" in word for word in words):
        return crate, "edits"
    if "--test" in words:
        return crate, "tests"
    # a library's proof is a build; where a library is checked only, that is for an edit
    is_program = "src/main.rs" in words or "src/main.rt" in words
    return crate, "proofs" if words[1] == "build" or is_program else "edits"


def look(root, parts, seconds):
    """Notes what each process under the root has taken so far."""
    found = {pid: (parent, begun, taken) for pid, parent, begun, taken in processes()}
    children = collections.defaultdict(list)
    for pid, (parent, _, _) in found.items():
        children[parent].append(pid)
    waiting = [root]
    while waiting:
        pid = waiting.pop()
        waiting += children[pid]
        _, begun, taken = found.get(pid, (0, "", 0))
        key = pid, begun
        if parts.get(key) is None:
            parts[key] = part_of(pid)
        if parts[key]:
            seconds[key] = taken


def is_there(pid):
    """Whether the process runs still."""
    try:
        with open(f"/proc/{pid}/stat") as file:
            return file.read().rpartition(")")[2].split()[0] != "Z"
    except OSError:
        return False


def watch(pid):
    """The processor seconds of each crate and part from now to the end of a process that this one did not
    start, or to an interrupt (control-C)."""
    parts, seconds = {}, {}
    try:
        while is_there(pid):
            look(pid, parts, seconds)
            time.sleep(0.5)
    except KeyboardInterrupt:
        print("interrupted", file=sys.stderr)
    return of_parts(parts, seconds)


def of_parts(parts, seconds):
    """The sums of the processes' seconds by crate and part."""
    taken = collections.Counter()
    for key, value in seconds.items():
        taken[parts[key]] += value
    return taken


def run(words):
    """The processor seconds of each crate and part, of the whole run, and the seconds on the clock."""
    begin = time.perf_counter()
    child = subprocess.Popen(["rt", "ci", *words], cwd=TOP)
    parts, seconds = {}, {}
    while True:
        pid, status, usage = os.wait4(child.pid, os.WNOHANG)
        if pid:
            break
        look(child.pid, parts, seconds)
        time.sleep(0.1)
    whole = usage.ru_utime + usage.ru_stime
    return of_parts(parts, seconds), whole, time.perf_counter() - begin, os.waitstatus_to_exitcode(status)


def table(taken):
    """Prints a row for each crate and the sums, and answers the sum of all."""
    crates = sorted({crate for crate, _ in taken})
    print("| Crate |" + "".join(f" {part} |" for part in (*PARTS, "sum")))
    print("|---|" + "---|" * (len(PARTS) + 1))
    for crate in crates:
        row = [taken[crate, part] for part in PARTS]
        print(f"| `{crate}` |" + "".join(f" {value:.0f} |" for value in (*row, sum(row))))
    sums = [sum(taken[crate, part] for crate in crates) for part in PARTS]
    print("| all |" + "".join(f" {value:.0f} |" for value in (*sums, sum(sums))))
    return sum(sums)


def modules(crate):
    """Prints the modules of a crate that took longest to check, with their seconds on the clock, and the sum of all."""
    ends = []
    for folder, _, names in os.walk(os.path.join(TOP, "crates", crate, "out", "incremental")):
        for name in names:
            if name.endswith(".oantt"):
                ends.append((os.stat(os.path.join(folder, name)).st_mtime_ns / 1e9, name))
    ends.sort()
    took = collections.Counter()
    for (before, _), (end, name) in zip(ends, ends[1:]):
        took[name.removesuffix(".oantt").removesuffix(".decls")] += end - before
    for name, seconds in took.most_common(40):
        print(f"{seconds:8.1f} {name}")
    print(f"{took.total():8.1f} of {len(took)} modules")


def main():
    if sys.argv[1:2] == ["--modules"]:
        modules(sys.argv[2])
        return
    if sys.argv[1:2] == ["--watch"]:
        table(watch(int(sys.argv[2])))
        return
    if any(word.startswith("-") and word != "--anew" for word in sys.argv[1:]):
        sys.exit("usage: bench/gate.py [--anew] [CRATE ..] | --watch PID | --modules CRATE")
    taken, whole, clock, status = run(sys.argv[1:])
    rest = whole - table(taken)
    print(f"| rest | | | | {rest:.0f} |")
    print(f"{whole / 60:.1f} processor minutes, {clock / 60:.1f} minutes on {os.cpu_count()} processors")
    sys.exit(status)


if __name__ == "__main__":
    main()

#!/usr/bin/env python3
"""Refuses each request for memory of a call of `schc`, one in each run, and looks at how the call ends.

Run by hand, after the program was built:  bench/refused.py [--every N] [--host] [--jobs N]
Three lines over a small but whole text: `run`, `compile` with a listing and `count`. The call is made over a disk in memory that
never fails and has ample room, by a small program of its own (`refused.rt.txt`), which is proved and built in a copy of the
checkout, over the libraries that are proved there. It asks for a telling number of bytes right before the call and right behind
it, and only requests between the two are refused: none that makes the disk, the streams or the words, and none that looks at
them afterwards. A call must end with 10 and its line, with nothing printed and no file of the disk changed; or with 0, and all
is as where nothing is refused, which is what the built program does with files of the host.

With `--every N` only each Nth request is refused, and with `--jobs N` so many runs go on side by side. With `--host` the built program
is run, on files of the host, and each request of its process counts. It needs gcc, and prints how many requests were refused. The end is
1 where something is otherwise.
"""
import argparse
import collections
import concurrent.futures
import os
import queue
import shutil
import subprocess
import sys
import tempfile

BENCH = os.path.dirname(os.path.abspath(__file__))
TOP = os.path.dirname(BENCH)
PROGRAM = os.path.join(TOP, "crates", "schc", "out", "schc")
OPTIONS = ["--heap", "65536", "--depth", "1000"]
LINES = [["run", "source"], ["compile", "source", "image", "--listing", "listing"], ["count", "source"]]
TEXT = r"""(define (tally l)
  (let loop ((l l) (t '()))
    (cond ((null? l) t)
          ((assv (car l) t) => (lambda (p) (set-cdr! p (+ (cdr p) 1)) (loop (cdr l) t)))
          (else (loop (cdr l) (cons (cons (car l) 1) t))))))
(define (make-counter) (let ((n 0)) (lambda () (set! n (+ n 1)) n)))
(define c (make-counter))
(write (tally '(b a b c))) (write-char #\space)
(write "x\"y") (write-char #\space)
(c) (c)
(write (vector 1 (c) '(#\a . #f))) (write-char #\space)
(write (map (lambda (x) (* x x)) '(1 2 3))) (write-char #\space)
(do ((i 0 (+ i 1))) ((= i 3)) (display i))
(newline)
"""
# The files before a call, and the telling number of bytes, both as `refused.rt.txt` has them.
BEFORE = {"source": TEXT.encode(), "image": b"an older image\n", "listing": b"an older listing\n"}
MARK = "7654321"

# The status, and what was printed, what was said and what the files then hold, each behind a byte that no text has.
End = collections.namedtuple("End", "status left")
Requests = collections.namedtuple("Requests", "before numbered behind more refused")


def parted(parts):
    return b"".join(b"\xff" + part for part in parts)


OUT_OF_MEMORY = End(10, parted([b"", b"out of memory\n", *BEFORE.values()]))


def link(source, target):
    """Gives a file a second name, or copies it where that is on another disk."""
    try:
        os.link(source, target)
    except OSError:
        shutil.copy(source, target)


def build(folder):
    """Builds the program that has its disk in memory, in a copy of the checkout, and gives its name."""
    copy = os.path.join(folder, "checkout")
    crate = os.path.join(copy, "crates", "refused")
    left_out = shutil.ignore_patterns("incremental")
    shutil.copytree(os.path.join(TOP, "crates"), os.path.join(copy, "crates"), copy_function=link, ignore=left_out)
    os.makedirs(os.path.join(crate, "src"))
    shutil.copy(os.path.join(BENCH, "refused.rt.txt"), os.path.join(crate, "src", "main.rt"))
    with open(os.path.join(TOP, "crates.txt")) as crates, open(os.path.join(copy, "crates.txt"), "w") as file:
        file.write(crates.read() + "refused: sch_cli sch_io sch_word anyhow\n")
    words = ["rt", "run", "--", TEXT, *LINES[0], *OPTIONS]
    subprocess.run(words, cwd=crate, stdout=subprocess.DEVNULL, check=True)
    return os.path.join(crate, "out", "refused")


class Caller:
    """A program that calls `schc`, on files in a folder of its own on the host, or in memory."""

    def __init__(self, program, shim, files, mark):
        self.program = program
        self.folder = tempfile.mkdtemp(dir=os.path.dirname(shim))
        self.files = files
        self.requests = os.path.join(self.folder, "requests")
        self.env = {"LD_PRELOAD": shim, "REQUESTS": self.requests, **mark}

    def end_of(self, words, number):
        """How a line ends whose request of this number is refused, and how many requests it has. None has the number 0."""
        for name, content in self.files.items():
            with open(os.path.join(self.folder, name), "wb") as file:
                file.write(content)
        if os.path.exists(self.requests):
            os.remove(self.requests)
        env = {**self.env, "REFUSED": str(number)}
        done = subprocess.run([*self.program, *words, *OPTIONS], cwd=self.folder, env=env, capture_output=True)
        with open(self.requests) as file:
            requests = Requests(*map(int, file.read().split()))
        if not self.files:
            return End(done.returncode, done.stdout), requests
        parts = [done.stdout, done.stderr]
        for name in self.files:
            with open(os.path.join(self.folder, name), "rb") as file:
                parts.append(file.read())
        return End(done.returncode, parted(parts)), requests


def ends_of(callers, words, numbers):
    """How a line ends for each of these numbers of the request that is refused, by callers that work side by side."""
    free = queue.SimpleQueue()
    for caller in callers:
        free.put(caller)

    def end_of(number):
        caller = free.get()
        try:
            return caller.end_of(words, number)
        finally:
            free.put(caller)

    with concurrent.futures.ThreadPoolExecutor(len(callers)) as pool:
        yield from zip(numbers, pool.map(end_of, numbers))


def refuses(callers, words, every, wanted):
    """Refuses requests of a line, which without a refusal ends as is wanted, prints how it ended, and says whether all was well."""
    whole, asked = callers[0].end_of(words, 0)
    well = whole == wanted and wanted.status == 0 and asked.numbered > 0 and asked.more == asked.refused == 0
    if not well:
        print(f"{words[0]}, without a refusal: status {whole.status}, {asked}, {whole.left[:100]!r}")
    kinds = collections.Counter()
    for number, (end, requests) in ends_of(callers, words, range(1, asked.numbered + 1, every)):
        kind = {OUT_OF_MEMORY: "status 10", wanted: "status 0"}.get(end, "otherwise") if requests.refused == 1 else "otherwise"
        kinds[kind] += 1
        if kind == "otherwise":
            print(f"{words[0]}, request {number}: status {end.status}, {requests}, {end.left[:100]!r}")
    shown = ", ".join(f"{count} {kind}" for kind, count in kinds.items())
    print(f"{' '.join(words)}: {asked.before} requests before, {kinds.total()} of {asked.numbered} refused, {asked.behind} behind: {shown}", flush=True)
    return well and kinds["status 10"] > 0 and not kinds["otherwise"]


def main():
    parser = argparse.ArgumentParser()
    parser.add_argument("--every", type=int, default=1)
    parser.add_argument("--host", action="store_true")
    parser.add_argument("--jobs", type=int, default=1)
    words = parser.parse_args()
    with tempfile.TemporaryDirectory() as folder:
        shim = os.path.join(folder, "refused.so")
        subprocess.run(["gcc", "-O2", "-shared", "-fPIC", "-o", shim, os.path.join(BENCH, "refused.c")], check=True)
        host = [Caller([PROGRAM], shim, BEFORE, {}) for _ in range(words.jobs)]
        program = [] if words.host else [build(folder), TEXT]
        callers = host if words.host else [Caller(program, shim, {}, {"MARK": MARK}) for _ in range(words.jobs)]
        well = [refuses(callers, line, words.every, host[0].end_of(line, 0)[0]) for line in LINES]
    sys.exit(0 if all(well) else 1)


if __name__ == "__main__":
    main()

#!/usr/bin/env python3
"""Compiles a generated text of 1,000 procedures, and one of about 1 MiB, and the first one by Chez Scheme too, beside `schc gen 0`.

Run by hand, after the program was built:  bench/generated.py [RUNS]
The image of the first text is run, and must print what Chez Scheme prints. Without `scheme` on the PATH its part is left
out.
"""
import os
import shutil
import subprocess
import tempfile

import measure

TOP = os.path.dirname(os.path.dirname(os.path.abspath(__file__)))
PROGRAM = os.path.join(TOP, "crates", "schc", "out", "schc")


class Draws:
    """The numbers of a linear congruential generator."""

    def __init__(self, number):
        self.x = number

    def draw(self, k):
        self.x = (1103515245 * self.x + 12345) % 2147483648
        return self.x // 65536 % k


def body(draws, i):
    """One of four bodies; a procedure calls only those before it."""
    kind = draws.draw(4) if i else draws.draw(2)
    if kind == 0:
        return "(if (< a b) (remainder (+ a (* 3 b)) 1000) (remainder (+ (* 5 a) b) 1000))"
    if kind == 1:
        return f"(let ((t (remainder (+ a {draws.draw(1000)}) 1000))) (remainder (+ t b) 1000))"
    j = draws.draw(i)
    if kind == 2:
        return f"(remainder (+ (f{j} a b) (f{j} b a)) 1000)"
    return f"(f{j} b (remainder (+ a {draws.draw(1000)}) 1000))"


def generated(number, count):
    """A text of this many procedures, each called once."""
    draws = Draws(number)
    lines = [f"(define (f{i} a b) {body(draws, i)})" for i in range(count)]
    for i in range(count):
        p = draws.draw(1000)
        lines.append(f"(display (f{i} {p} {draws.draw(1000)}))(newline)")
    return ("\n".join(lines) + "\n").encode()


def least(words, folder, runs):
    measured = [measure.once(words, folder) for _ in range(runs)]
    return min(m[0] for m in measured), max(m[1] for m in measured)


def compile_alone(folder):
    """The milliseconds of the processor that Chez Scheme says that its compiler took, without its start."""
    done = subprocess.run(["scheme", "-q", "--script", "compile.ss"], cwd=folder, stdout=subprocess.PIPE, check=True)
    return int(done.stdout.split()[-1])


def main():
    runs = measure.runs_wanted()
    with tempfile.TemporaryDirectory() as folder:
        small, large = generated(0, 1000), generated(0, 9500)
        for name, text in (("small.scm", small), ("large.scm", large)):
            with open(os.path.join(folder, name), "wb") as file:
                file.write(text)
        print(f"{os.cpu_count()} processors, least of {runs} runs")
        seconds, peak = least([PROGRAM, "compile", "small.scm", "small"], folder, runs)
        print(f"1,000 procedures {len(small):8} bytes: {1000 * seconds:8.1f} ms, {peak / 1024:6.1f} MiB")
        more, peak = least([PROGRAM, "compile", "large.scm", "large"], folder, runs)
        print(f"9,500 procedures {len(large):8} bytes: {1000 * more:8.1f} ms, {peak / 1024:6.1f} MiB")
        print(f"the larger one takes {more / seconds:.1f} times as long")
        os.chmod(os.path.join(folder, "small"), 0o755)
        printed = subprocess.run([os.path.join(folder, "small")], stdout=subprocess.PIPE, check=True).stdout
        print(f"the image prints {printed.count(10)} lines")
        if not shutil.which("scheme"):
            return
        with open(os.path.join(folder, "compile.ss"), "w") as file:
            file.write('(define t (cpu-time))(compile-file "small.scm" "small.so")(display (- (cpu-time) t))\n')
        other, _ = least(["scheme", "-q", "--script", "compile.ss"], folder, runs)
        whole, _ = least([PROGRAM, "gen", "0"], folder, runs)
        alone = min(compile_alone(folder) for _ in range(runs))
        print(f"schc gen 0 takes {1000 * whole:.1f} ms, and Chez Scheme's compile-file alone {alone} ms, {alone / whole / 1000:.1f} times as long")
        wanted = subprocess.run(["scheme", "-q", "--script", "small.scm"], cwd=folder, stdout=subprocess.PIPE, check=True).stdout
        print(f"Chez Scheme compiles it in {1000 * other:.1f} ms, {other / seconds:.1f} times as long, "
              f"and prints {'the same' if printed == wanted else 'OTHER LINES'}")


if __name__ == "__main__":
    main()

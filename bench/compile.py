#!/usr/bin/env python3
"""Compiles texts of 64 KiB and 1 MiB, and prints times, their ratio, and peak memory.

Run by hand, after the program was built:  bench/compile.py [RUNS]
"""
import os
import tempfile

import measure

TOP = os.path.dirname(os.path.dirname(os.path.abspath(__file__)))
PROGRAM = os.path.join(TOP, "crates", "schc", "out", "schc")


def forms(form):
    """Texts of this form, as often as it fits, and then spaces."""
    return lambda size: (form * (size // len(form))).ljust(size)


TEXTS = {
    "(newline)": forms(b"(newline)"),
    "(display -7)\\n": forms(b"(display -7)\n"),
    "(display 1)": forms(b"(display 1)"),
    "19 digits": forms(b"(display 1123456789012345678)"),
    "(define x (+ 1 2))": forms(b"(define x (+ 1 2))"),
    "let and if": forms(b"(let ((y (* 7 6))) (if (< y 40) (display 0) (display (- y 50))))"),
    "assigned variables": forms(b"(let((n 0))(set! n 1))"),
    "cond": forms(b"(display (cond ((= 1 2) 3) ((eq? 4 5) 6) (else (remainder 7 8))))"),
}


def variables(size):
    """A text that binds as many variables as fit in half of it, 200 in each `let`, and uses them all over
    in the other half. It is refused, since a form has at most 1,000, but only after every name was sought."""
    lets, names = [], []
    while sum(map(len, lets)) < size // 2 - 2000:
        more = [b"v%05d" % k for k in range(len(names), len(names) + 200)]
        lets.append(b"(let (" + b"".join(b"(%s 1)" % name for name in more) + b")")
        names += more
    front, back = b"".join(lets) + b"(begin", b")" * (len(lets) + 1)
    uses = (size - len(front) - len(back)) // 7
    return (front + b"".join(b" " + names[k * 7919 % len(names)] for k in range(uses)) + back).ljust(size)


def procedures(size):
    """A text of procedures, each of which calls itself and the one before."""
    texts, k = [], 0
    while (k + 1) * 64 <= size:
        before = b"f%05d" % max(k - 1, 0)
        texts.append((b"(define (f%05d x) (if (< x 1) 0 (+ x (%s (- x 1)))))" % (k, before)).ljust(63) + b"\n")
        k += 1
    return b"".join(texts).ljust(size)


def short_procedures(size):
    """A text of procedures in lines of 52 bytes, 20,164 of them in 1 MiB, each of which calls the next."""
    count = size // 52
    lines = (b"(define (f%05d x) (if x (f%05d (- x 1)) 0))" % (k, (k + 1) % count) for k in range(count))
    return b"".join(line.ljust(51) + b"\n" for line in lines).ljust(size)


def let_stars(size):
    """A text of nests of `let*`, each as deep as the limit of levels allows but for ten: 995 of them, two levels each."""
    nest = b"(let* ((a 1)) 1 " * 995 + b"a" + b")" * 995 + b"\n"
    return (nest * (size // len(nest))).ljust(size)


def clause(depth):
    """A clause of this many choices, one in the other."""
    return b"((eq? 1 2) " + b"(if (eq? 3 4) 5 " * depth + b"6" + b")" * depth + b")\n"


def long_cond(size):
    """A text of one `cond` of 1,950 clauses, each of as many choices as fit. A clause is one level deeper than the one
    before it."""
    room, depth = size // 1950 - 1, 0
    while len(clause(depth + 1)) <= room:
        depth += 1
    return (b"(cond " + clause(depth) * 1950 + b"(else 7))").ljust(size)


def longer_cond(size):
    """A text of one `cond` of as many clauses as fit. It is refused, since there are at most 2,000 levels."""
    one = clause(0)
    return (b"(cond " + one * ((size - 20) // len(one)) + b"(else 7))").ljust(size)


def nests(size):
    """A text of nests of 990 lambdas, each with the variable of the outermost one free."""
    front = b"".join(b"(lambda (x%03d) " % k for k in range(990))
    nest = front + b"x000" + b")" * 990 + b"\n"
    return (nest * (size // len(nest))).ljust(size)


def bodies(size):
    """A text of forms that bind 1,000 variables each, 200 in each `let`, and use the first and the last."""
    lets = []
    for k in range(0, 1000, 200):
        lets.append(b"(let (" + b"".join(b"(v%03d 1)" % j for j in range(k, k + 200)) + b")")
    form = b"".join(lets) + b"(eq? v000 v999)" + b")" * 5 + b"\n"
    return (form * (size // len(form))).ljust(size)


def parts(size):
    """A text of one body of as many constants and variables as fit, whose values are dropped: 524,000 in 1 MiB."""
    front, back = b"(define (f x)", b" 7)(display (f 0))"
    return (front + b" 1 x" * ((size - len(front) - len(back)) // 4) + back).ljust(size)


LARGE_TEXTS = {
    "procedures": procedures,
    "short procedures": short_procedures,
    "nests of lambdas": nests,
    "nests of let*": let_stars,
    "1,000 variables": bodies,
    "cond of 1,950": long_cond,
    "one body of parts": parts,
}

LIMIT_STATUS = 7


def main():
    with tempfile.TemporaryDirectory() as folder:
        source, target = os.path.join(folder, "source"), os.path.join(folder, "target")
        words = [PROGRAM, "compile", source, target]
        measure.table(TEXTS, source, words, folder)
        measure.table(LARGE_TEXTS, source, words, folder)
        measure.table({"variables": variables, "longer cond": longer_cond}, source, words, folder, LIMIT_STATUS)


if __name__ == "__main__":
    main()

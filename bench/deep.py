#!/usr/bin/env python3
"""Compiles texts as deep as the limits allow on a small stack, one for each form that nests, and prints their times.

Run by hand, after the program was built:  bench/deep.py [KIBIBYTES OF STACK, 5120 where it is not said]
A program has at most 2,000 levels, a body 1,000 variables, and data 1,000 levels. Each text here has as many levels as are
accepted: a form in itself as often as the variables and the data allow, and an `and` before it whose parts are a level
each. With one level more it is refused. The same forms round a name that is not bound are refused for it on a stack of
1 MiB, since the expander keeps its place on the heap. The last text, one `cond` of 30,000 clauses, is refused. The end is 1
where a text does not end so, or a process is killed.
"""
import os
import resource
import subprocess
import sys
import tempfile
import time

TOP = os.path.dirname(os.path.dirname(os.path.abspath(__file__)))
PROGRAM = os.path.join(TOP, "crates", "schc", "out", "schc")
STACK = int(sys.argv[1]) << 10 if len(sys.argv) > 1 else 5 << 20
WALK_STACK = 1 << 20
LEVELS = 2000
UNBOUND = 6
TOO_DEEP = 7

# What stands before the next form and what behind it, how many levels of data and of the program that is, and how many
# variables the body has of it.
NESTS = {
    "if, its test": ("(if ", " 1 2)", 1, 1, 0),
    "if, an arm": ("(if #t ", " 2)", 1, 1, 0),
    "if, the other arm": ("(if #t 1 ", ")", 1, 1, 0),
    "begin, its first": ("(begin ", " 1)", 1, 1, 1),
    "begin, its last": ("(begin 1 ", ")", 1, 1, 0),
    "and, its first": ("(and ", " 1)", 1, 1, 0),
    "or, its first": ("(or ", " 1)", 1, 1, 1),
    "or, its last": ("(or 1 ", ")", 1, 2, 1),
    "cond, a test": ("(cond (", " 1))", 2, 1, 0),
    "cond, a clause": ("(cond (1 ", "))", 2, 1, 0),
    "cond, with =>": ("(cond (", " => 1))", 2, 1, 1),
    "case, its key": ("(case ", " ((1) 2))", 1, 1, 1),
    "case, a clause": ("(case 1 ((1) ", "))", 2, 2, 1),
    "let, an init": ("(let ((a ", ")) 1)", 3, 1, 1),
    "let, its body": ("(let ((a 1)) ", ")", 1, 1, 1),
    "let*, an init": ("(let* ((a ", ")) 1)", 3, 1, 1),
    "let*, its body": ("(let* ((a 1)) ", ")", 1, 1, 1),
    "letrec, an init": ("(letrec ((a ", ")) 1)", 3, 1, 3),
    "letrec, its body": ("(letrec ((a 1)) ", ")", 1, 1, 3),
    "letrec of lambdas": ("(letrec ((a (lambda () 1))) ", ")", 1, 1, 1),
    "a named let": ("(let a ((b 1)) ", ")", 1, 3, 0),
    "do, its result": ("(do ((a 1)) (#t ", "))", 2, 4, 0),
    "do, its body": ("(do ((a 1)) (#t) ", ")", 1, 5, 0),
    "a body's definition": ("(let () (define a 1) ", ")", 1, 2, 3),
    "lambda": ("(lambda () ", ")", 1, 1, 0),
    "set!": ("(set! a ", ")", 1, 1, 1),
    "an operand of a call": ("(1 ", ")", 1, 1, 1),
    "an operator": ("(", ")", 1, 1, 1),
    "an operand of +": ("(+ 1 ", ")", 1, 1, 1),
    "not": ("(not ", ")", 1, 1, 0),
}

# What stands before all parts of a chain, each part, and what stands behind all, with how many levels and variables a
# part is.
CHAINS = {
    "and": ("(and", " 1", " 2)", 1, 0),
    "or": ("(or", " 1", " 2)", 2, 1),
    "or, as a test": ("(if (or", " 1", ") 2 3)", 1, 0),
    "cond": ("(cond", "(1 2)", "(else 3))", 1, 0),
    "case": ("(case 1", " ((2) 3)", "(else 4))", 1, 0),
    "case, the data": ("(case 1 ((", " 2", ") 3))", 1, 0),
}


def nest(inner, spare, front, back, data, levels, variables):
    """One form in itself round a datum, behind as many parts of an `and` as make up the levels but for those to spare."""
    count = min(980 // data, (LEVELS - 20) // levels, 990 // max(variables, 1))
    parts = " 1" * (LEVELS - count * levels - spare)
    return f"(define a 1)(and{parts} {front * count}{inner}{back * count})"


def chain(spare, front, part, back, levels, variables):
    """One form of many parts, each some levels deeper than the one before it."""
    count = min(LEVELS // levels - spare, 990 // max(variables, 1))
    return front + part * count + back


def compile_text(text, folder, stack):
    """Compiles a text on a small stack, and says with what status and what was said."""
    with open(os.path.join(folder, "source"), "w") as file:
        file.write(text)
    limit = lambda: resource.setrlimit(resource.RLIMIT_STACK, (stack, stack))
    done = subprocess.run([PROGRAM, "compile", "source", "target"], cwd=folder, stderr=subprocess.PIPE, preexec_fn=limit)
    return done.returncode, done.stderr.decode().strip()


def compiles(name, text, folder, stack=STACK, wanted=0):
    """Compiles a text, prints how it went, and says whether it ended as is wanted."""
    begin = time.perf_counter()
    status, said = compile_text(text, folder, stack)
    milliseconds = 1000 * (time.perf_counter() - begin)
    print(f"{name:22} {len(text):8} bytes: {milliseconds:8.1f} ms, status {status} {said}")
    return status == wanted


def deepest(name, text_with, folder, stack=STACK, wanted=0):
    """Compiles the deepest text whose levels are accepted: the first with fewer levels than are refused."""
    for spare in range(20):
        if compile_text(text_with(spare), folder, stack)[0] != TOO_DEEP:
            break
    return compiles(name, text_with(spare), folder, stack, wanted)


def main():
    with tempfile.TemporaryDirectory() as folder:
        well = [deepest(name, lambda spare: nest("1", spare, *form), folder) for name, form in NESTS.items()]
        well += [
            deepest(name, lambda spare: nest("u", spare, *form), folder, WALK_STACK, UNBOUND) for name, form in NESTS.items()
        ]
        well += [deepest("chain of " + name, lambda spare: chain(spare, *form), folder) for name, form in CHAINS.items()]
        well += [compiles("quoted lists", "'" + "(" * 990 + ")" * 990, folder)]
        well += [compiles("cond of 30,000", "(cond" + "(1 2)" * 30000 + ")", folder, wanted=TOO_DEEP)]
    print(f"{well.count(True)} of {len(well)} ended as is wanted")
    sys.exit(0 if all(well) else 1)


if __name__ == "__main__":
    main()

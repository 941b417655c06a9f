#!/usr/bin/env python3
"""Runs texts by `schc run`, their images by `schc step`, and the same images on the processor, and compares what they do.

Run by hand, after the program was built, on an x86-64 Linux with `objdump`:  bench/images.py
Each text has the output and the status that are wanted of all three. The listing that is written with the image must be the one
that `schc list` prints, and its marks must lie in order, with one entry for each body. The end is 1 where something is otherwise.

What the listing says is compared with the instructions of the image, as `objdump` reads them, and with what a run passes that is
made step by step:

- An instruction that writes memory through rbp has exactly one mark of a store (save, spill, temp, argument), and any other has
  none, but a temp where a word is set aside in a register. The list of a rest variable is written through rcx, and has no mark.
- A restore stands at a move from memory through rbp.
- In each activation that ended by a return or a tail call each save is followed by a call of its own, and each restore comes
  after a call with only restores between.
- The activations, leaves, saves and saves of leaves that were passed are those that `schc count` prints, body by body.

Where a run takes more than 300,000 steps only the end of `schc count` is compared.
"""
import dataclasses
import os
import random
import subprocess
import sys
import tempfile

from listing import read_listing
from trace import PROGRAM, TOP, Run, counted, loads, stores, text_of

STEPS = 300_000
STORES = {"save", "spill", "temp", "argument"}
LOOP = "(define (loop i) (if (= i 0) (display %s) (loop (- i 1))))(loop 1000000)"
PENDING = "(define (count n) (if (= n 0) 0 (+ 1 (count (- n 1)))))(display (count %d))"
ORDER = "(define p (cons 1 2))(define x 10)(define (f a b) a)(display (f (+ x (car p)) (begin (set! x 20) (set-car! p 5) 0)))"
LEAST, GREATEST = "-1152921504606846976", "1152921504606846975"

# A text, what it prints, its status, and the options that it is compiled with.
TEXTS = [
    ("", "", 0, []),
    ("(display (+ 1 2))(newline)", "3\n", 0, []),
    (f"(display {GREATEST})", GREATEST, 0, []),
    (f"(display (+ {GREATEST} 1))", "", 70, []),
    (f"(display (* {LEAST} -1))", "", 70, []),
    ("(display (quotient (- 0 7) 2))(display (modulo -7 2))", "-31", 0, []),
    (f"(define a {LEAST})(define b {GREATEST})(display (< a b))(display (>= a b))(display (= a a))(display (<= b a))", "#t#f#t#f", 0, []),
    ("(quotient 1 0)", "", 69, []),
    ("(car 1)", "", 65, []),
    ("(vector-ref (make-vector 2 0) 2)", "", 66, []),
    ("(1 2)", "", 67, []),
    ("((lambda (x) x))", "", 68, []),
    ("(display x)(define x 1)", "", 73, []),
    ("(letrec ((a b)(b 1)) a)", "", 73, []),
    (LOOP % '"ok"', "ok", 0, ["--depth", "1"]),
    (LOOP % "7", "7", 0, ["--depth", "1"]),
    (PENDING % 9, "9", 0, ["--depth", "10"]),
    (PENDING % 9, "", 72, ["--depth", "9"]),
    (PENDING % 99999, "99999", 0, []),
    (PENDING % 100000, "", 72, []),
    (ORDER, "11", 0, []),
    ("(define (swap a b n) (if (= n 0) (display a) (swap b a (- n 1))))(swap 1 2 3)", "2", 0, []),
    ("(define (h z) z)(define (g x y) (if (and x (h y)) y (not (h x))))(display (g 1 7))(display (g #f 7))", "7#t", 0, []),
    ("(let ((if (lambda (a b c) b)))(display (if #f 1 2)))", "1", 0, []),
    ("(cons 1 2)" * 256, "", 0, ["--heap", "4096"]),
    ("(cons 1 2)" * 257, "", 71, ["--heap", "4096"]),
    ("(define (f n) (set! n 1))" + "(f 0)" * 255, "", 0, ["--heap", "4096"]),
    ("(define (f n) (set! n 1))" + "(f 0)" * 256, "", 71, ["--heap", "4096"]),
    ("(define (f . l) 1)" + "(f 1 2 3)" * 85, "", 0, ["--heap", "4096"]),
    ("(define (f . l) 1)" + "(f 1 2 3)" * 86, "", 71, ["--heap", "4096"]),
    ("(define car 5)(display car)(display (map cdr '((1 . 2))))", "5(2)", 0, []),
    ("(write #\\space)(write '(1 . (2 . ())))(write '#(a \"b\\\\\"))", '#\\space(1 2)#(a "b\\\\")', 0, []),
]


def calls(count):
    """A procedure of as many formals, called for its value, and in tail position."""
    names = " ".join(f"v{k}" for k in range(count))
    operands = " ".join(str(k) for k in range(count))
    last = f"v{count - 1}" if count else "9"
    wanted = str(count - 1) if count else "9"
    define = f"(define (f {names}) {last})"
    rest = f"(define (f . l) (length l))(define (g) (f {operands}))(display (f {operands}))(display (g))"
    return [
        (f"{define}(display (f {operands}))", wanted, 0, []),
        (f"{define}(define (g) (f {operands}))(display (g))", wanted, 0, []),
        (rest, f"{count}{count}", 0, []),
    ]


def variables(count):
    """As many variables that live at once: over calls, a tail call and a rest list, in a loop that hands them round, in a group."""
    names = [f"v{k}" for k in range(count)]
    total = count * (count - 1) // 2
    added = f"(+ {' (+ '.join(names[:-1])} {names[-1]}{')' * (count - 1)}"
    called = " ".join(f"({name} (same {k}))" for k, name in enumerate(names))
    define = "(define (same x) x)(define (sum l) (if (null? l) 0 (+ (car l) (sum (cdr l)))))(define (all . l) (sum l))"
    # A form binds at most 200 variables, so that more take one inside another.
    calls_of = [f"({name} (same {k}))" for k, name in enumerate(names)]
    groups = [" ".join(calls_of[k : k + 198]) for k in range(0, count, 198)]
    bound = f"{''.join(f'(let ({group}) ' for group in groups)}{added}{')' * len(groups)}"
    texts = [(f"{define}(define (f) {bound})(display (f))", str(total), 0, [])]
    if count <= 200:
        handed = " ".join(names)
        turned = " ".join(names[1:] + names[:1])
        formals = " ".join(["n", *names[1:]])
        operands = " ".join(["n", *names[1:][1:], *names[1:][:1]])
        start = " ".join(["3", *(str(k) for k in range(1, count))])
        texts += [
            (f"{define}(define (f) (let ({called}) (all {handed})))(display (f))", str(total), 0, []),
            (f"{define}(define (f) (let ({called}) (+ (all {handed}) (all {turned}))))(display (f))", str(2 * total), 0, []),
            (f"(define (f {formals}) (if (= n 0) {names[1]} (f (- n 1) {' '.join(operands.split()[1:])})))(display (f {start}))", str((3 % (count - 1)) + 1), 0, []),
        ]
    if count <= 60:
        members = " ".join(f"({name} (lambda (n) (if (= n 0) {k} ({names[(k + 1) % count]} (- n 1)))))" for k, name in enumerate(names))
        texts.append((f"(define (f m) (letrec ({members}) (+ m (+ ({names[0]} 3) ({names[-1]} m)))))(display (f {count}))", str(count + 3 % count + count - 1), 0, []))
    return texts


def shown(value):
    return {True: "#t", False: "#f"}[value] if isinstance(value, bool) else str(value)


def moved(count, seed):
    """Formals that a procedure hands on to itself in another order, some of them twice, some compared: in tail position and not."""
    chance = random.Random(seed)
    formals = [f"v{k}" for k in range(count)]
    operands = [chance.choice([(k,), (k,), (k,), (k, chance.randrange(count))]) for k in (chance.randrange(count) for _ in formals)]
    if seed % 2 == 0:
        turn = chance.sample(range(count), count)
        operands = [(k,) for k in turn]
    handed = " ".join(formals[o[0]] if len(o) == 1 else f"(eq? {formals[o[0]]} {formals[o[1]]})" for o in operands)
    values = list(range(count))
    for _ in range(3):
        values = [values[o[0]] if len(o) == 1 else values[o[0]] is values[o[1]] for o in operands]
    listed = " ".join(map(shown, values))
    names, start = " ".join(formals), " ".join(map(str, range(count)))
    tail = f"(define (f n {names}) (if (= n 0) (list {names}) (f (- n 1) {handed})))(display (f 3 {start}))"
    held = f"(define (f n {names}) (if (= n 0) (list {names}) (cons (f (- n 1) {handed}) (list {names}))))(display (car (car (car (f 3 {start})))))"
    return [(tail, f"({listed})", 0, []), (held, f"({listed})", 0, [])]


def ends(words, folder):
    done = subprocess.run(words, cwd=folder, stdout=subprocess.PIPE, stderr=subprocess.DEVNULL)
    return done.stdout.decode(), done.returncode


def listing_of(options, folder):
    """The listing's file, if it is what is printed, with its marks in order and an entry for each body."""
    with open(os.path.join(folder, "listing")) as file:
        text = file.read()
    printed, status = ends([PROGRAM, "list", "source", *options], folder)
    listing = read_listing(text)
    entries = [mark.number for mark in listing.marks if mark.kind == "enter"]
    places = [mark.address for mark in listing.marks]
    well = (printed, status) == (text, 0) and entries == list(range(len(listing.bodies))) and places == sorted(places)
    return listing if well else None


def marks_at(listing):
    """The marks of each address that has any, in their order."""
    marks = {}
    for mark in listing.marks:
        marks.setdefault(mark.address, []).append(mark)
    return marks


def misplaced(text, marks):
    """The first instruction that has other marks of stores, or a restore, than what it does admits."""
    for address, name, operands in text:
        kinds = [mark.kind for mark in marks.get(address, [])]
        of_stores = [kind for kind in kinds if kind in STORES]
        well = len(of_stores) == 1 if stores(name, operands) else of_stores in ([], ["temp"])
        if not well or "restore" in kinds and not loads(name, operands):
            return f"{address:08x} {name} {operands} has the marks {kinds}"
    missing = marks.keys() - {address for address, _, _ in text}
    return f"{min(missing):08x} has marks and no instruction" if missing else None


@dataclasses.dataclass
class Activation:
    """What an activation has passed itself: how often it saved, called, and whether its last save waits for a call."""

    body: int
    saves: int = 0
    calls: int = 0
    waits: bool = False
    restores: bool = False
    ended: bool = False
    wrong: bool = False

    def passes(self, kind):
        """Passes a mark of its own. A restore comes behind a call and other restores."""
        self.wrong |= kind == "restore" and not self.restores
        self.restores = kind == "call" or kind == "restore" and self.restores
        self.saves += kind == "save"
        self.calls += kind == "call"
        self.waits = kind == "save" or self.waits and kind != "call"
        self.ended = kind in ("return", "tail")


def activations(marks):
    """The activations of a run that passes these marks. An entry begins one, a call suspends it, a return ends it and goes on with
    the one that was suspended last, and a tail call hands over to what is entered next."""
    every, suspended, current, handed_over = [], [], None, False
    for mark in marks:
        if handed_over and mark.kind != "enter":
            current = suspended.pop() if suspended else None
        handed_over = mark.kind == "tail"
        if mark.kind == "enter":
            current = Activation(mark.number)
            every.append(current)
        if current:
            current.passes(mark.kind)
        if mark.kind == "call" and current:
            suspended.append(current)
        if mark.kind == "return":
            current = suspended.pop() if suspended else None
        elif mark.kind in ("call", "tail"):
            current = None
    return every


def rows_of(bodies, every):
    """The rows that `schc count` prints of these activations."""
    sums = {}
    for one in every:
        leaf = one.ended and not one.calls
        row = sums.setdefault(one.body, [0, 0, 0, 0])
        sums[one.body] = [row[0] + 1, row[1] + leaf, row[2] + one.saves, row[3] + leaf * one.saves]
    return [(bodies[body], *sums[body]) for body in sorted(sums)]


def traced(image, marks):
    """The marks that a run of an image passes, in their order, and its status; none where it takes too many steps."""
    run, passed = Run(image), []
    for k, address in enumerate(run):
        if k == STEPS:
            return None, None
        passed += marks.get(address, [])
    return passed, run.status


def passes_well(listing, image, status, counts):
    """What is wrong with what a run of the image passes, and whether it was traced to its end."""
    rows, ended = counts
    marks = marks_at(listing)
    wrong = misplaced(text_of(image), marks)
    if wrong or ended != status:
        return wrong or f"ends with {ended} by count", False
    passed, seen = traced(image, marks)
    if passed is None:
        return None, False
    every = activations(passed)
    if seen != status or rows_of(listing.bodies, every) != rows:
        return f"{rows_of(listing.bodies, every)} and {seen} passed, and not {rows} and {status}", True
    lazy = all(not one.wrong and not (one.ended and one.waits) for one in every)
    return None if lazy else "a save without a call behind it, or a restore without one before it", True


def agrees(text, printed, status, options, folder):
    """Whether a text does what is wanted by all three ways and by its listing, and whether its run was traced; what it does
    otherwise is printed."""
    with open(os.path.join(folder, "source"), "w") as file:
        file.write(text)
    image = os.path.join(folder, "image")
    subprocess.run([PROGRAM, "compile", "source", "image", "--listing", "listing", *options], cwd=folder, check=True)
    os.chmod(image, 0o755)
    ways = {"run": [PROGRAM, "run", "source", *options], "step": [PROGRAM, "step", "image"], "processor": [image]}
    wrong = [f"{end} by {way}, and not {(printed, status)}" for way, words in ways.items() if (end := ends(words, folder)) != (printed, status)]
    listing = listing_of(options, folder)
    if listing is None:
        wrong, whole = [*wrong, "another listing"], False
    else:
        fault, whole = passes_well(listing, image, status, counted("source", folder, options))
        wrong += [fault] if fault else []
    for what in wrong:
        print(f"{text[:60]}: {what}")
    return not wrong, whole


def examples():
    """The programs of `examples/`, each with what it prints by `run`."""
    folder = os.path.join(TOP, "examples")
    for name in sorted(os.listdir(folder)):
        printed, status = ends([PROGRAM, "run", name], folder)
        with open(os.path.join(folder, name)) as file:
            yield file.read(), printed, status, []


def main():
    texts = TEXTS + [text for count in (0, 6, 7, 200) for text in calls(count)]
    texts += [text for count in (2, 5, 6, 7, 8, 60, 199, 300) for text in variables(count)]
    texts += [text for count in (2, 3, 4, 5, 6, 7, 9, 12, 30) for seed in range(4) for text in moved(count, seed)]
    texts += examples()
    with tempfile.TemporaryDirectory() as folder:
        seen = [agrees(*text, folder) for text in texts]
    well = [well for well, _ in seen]
    print(f"{well.count(True)} of {len(well)} texts end as is wanted, by run, by step and on the processor")
    print(f"{[whole for _, whole in seen].count(True)} of them were traced to their ends")
    sys.exit(0 if all(well) else 1)


if __name__ == "__main__":
    main()

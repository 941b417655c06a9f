#!/usr/bin/env python3
"""Runs random programs by `schc run` and by another Scheme, GNU Guile, and compares what they print.

Run by hand, after the program was built, where `guile` is on the PATH:  bench/sampled.py [FIRST LAST]
Each number from FIRST to LAST (0 and 99) stands for one text, the same each time. A text writes or displays 40 expressions, made at
random of the forms of the language and of the library's procedures, with operands of the kinds that they take, so that none stops
and no number leaves the range. No two operands have an effect, since R5RS leaves their order open (4.1.3), and no character is a
line feed, which the two write in other ways. The end is 1 where two outputs differ; the text is then kept in the file that is named.
"""
import os
import random
import subprocess
import sys
import tempfile

from trace import PROGRAM

EXPRESSIONS, DEPTH = 40, 5
KINDS = ("number", "truth", "character", "string", "list", "symbol", "vector")

LEAVES = {
    "number": "0 1 2 3 5 7 -1 -2 -7 10 100 12345 -999".split(),
    "truth": ["#t", "#f"],
    "character": ["#\\a", "#\\Z", "#\\5", "#\\space", "#\\x", "#\\(", "#\\;", "#\\~"],
    "string": ['""', '"a"', '"abc"', '"Hello World"', '"12"', '"-7"', '"q\\"q"', '"b\\\\s"', '"zz top"'],
    "list": ["'()", "'(1 2 3)", "'(a b c)", "(list 1 2)", "'((1 . 2) (3 . 4))", "'(#\\a \"s\" #t)", "'(1 (2 (3)) 4)"],
    "symbol": ["'foo", "'bar", "'baz-quux", "'+", "'a"],
    "vector": ["'#(1 2 3)", "(vector 1 'a \"s\")", "(make-vector 2 0)", "'#(#(1) ())", "(vector)"],
}

# For each kind what makes one. A word in capitals stands for an operand: N a number, S one below 1,000, M one below 5, B a truth
# value, C a character, T a string, L a list, Y a symbol, V a vector, A anything, E and its like a word of a table.
RULES = {
    "number": ["(+ S S)", "(- S S S)", "(* S S)", "(quotient N D)", "(remainder N D)", "(modulo N D)", "(abs N)", "(max N N N)",
               "(min N N)", "(gcd S S)", "(lcm M M)", "(expt M M)", "(length L)", "(string-length T)", "(vector-length V)",
               "(char->integer C)", "(string->number (number->string N))", "(+)", "(*)", "(- N)", "(+ N)",
               "((lambda (a . r) (+ a (length r))) S N N)",
               "(let ((s 0)) (for-each (lambda (x) (set! s (+ s x))) (list S S)) s)",
               "(letrec ((e (lambda (n) (if (= n 0) 1 (o (- n 1))))) (o (lambda (n) (if (= n 0) 0 (e (- n 1)))))) (e M))"],
    "truth": ["(ORDER N N)", "(ORDER N N N)", "(SIGN N)", "(IS A)", "(charORDER? C C)", "(stringORDER? T T)", "(LETTER C)",
              "(CASE #\\a)", "(CASE #\\Z)", "(equal? L L)", "(equal? A A)", "(eqv? N N)", "(eq? Y Y)", "(not A)", "(and B B)",
              "(or B B)", "(if (memv N L) #t #f)", "(if (member A L) #t #f)"],
    "character": ["(char-upcase C)", "(char-downcase C)", "(integer->char (+ 33 (modulo N 90)))",
                  "(string-ref (string-append T \"k\") 0)", "(car (string->list (string-append T \"k\")))"],
    "string": ["(string-append T T)", "(string-append)", "(string-append T T T)", "(substring T 0 0)", "(number->string N)",
               "(let ((s (string-append T \"xyz\"))) (substring s 1 (- (string-length s) 1)))", "(symbol->string Y)",
               "(string C C)", "(list->string (reverse (string->list T)))", "(make-string M C)", "(string-copy T)",
               "(let ((s (string-append T \"ab\"))) (string-set! s 1 C) s)",
               "(let ((s (make-string 3 #\\a))) (string-fill! s C) s)"],
    "list": ["(cons A L)", "(list A A A)", "(append L L)", "(append L L L)", "(reverse L)", "(cdr (cons 0 L))", "(vector->list V)",
             "(list-tail (cons 1 (cons 2 L)) 1)", "(map (lambda (x) (list x N)) L)", "(map + (list S S) (list 1 2))",
             "(string->list T)", "(let ((p (list 1 2 3))) (set-car! (cdr p) A) p)", "(or (memv 2 L) '(none))",
             "(or (assv N '((1 a) (2 b) (3 c))) (list 0))", "(or (assoc T '((\"abc\" 1) (\"12\" 2))) (list 1))",
             "(list (list-ref (cons 1 (cons 2 L)) 1))", "((lambda (a b . c) (list c b a)) A A A A)", "((lambda a a) A A)"],
    "symbol": ["(if B Y Y)", "(car (list Y))", "(cadr '(x y z))", "(caddr '(p q r))"],
    "vector": ["(list->vector L)", "(vector N L)", "(let ((v (make-vector 3 N))) (vector-set! v 1 T) v)",
               "(let ((v (vector 1 2))) (vector-fill! v Y) v)"],
}

# What makes any kind X of the same kind.
FORMS = ["(if B X X)", "(cond (B X) (B X) (else X))", "(cond ((assv N '((1 . 2) (3 . 4))) => (lambda (p) X)) (B X) (else X))",
         "(case (modulo N 6) ((0 1 2) X) ((3 4) N X) (else X))"]

WORDS = {
    "ORDER": "= < > <= >=".split(),
    "SIGN": "zero? positive? negative? odd? even?".split(),
    "IS": "number? integer? boolean? pair? null? list? symbol? char? string? vector? procedure?".split(),
    "LETTER": "char-alphabetic? char-numeric? char-whitespace?".split(),
    "CASE": "char-upper-case? char-lower-case?".split(),
    "D": "3 7 -3 -7 2".split(),
}

OPERANDS = {"N": "number", "B": "truth", "C": "character", "T": "string", "L": "list", "Y": "symbol", "V": "vector"}


class Maker:
    """Makes expressions. The scope has the variables that are bound where one stands, each with its kind."""

    def __init__(self, number):
        self.random = random.Random(number)
        self.names = 0
        self.scope = []

    def name(self):
        self.names += 1
        return f"v{self.names}"

    def filled(self, rule, kind, depth):
        """A rule with an expression or a word in each place of a word in capitals."""
        text, k = "", 0
        while k < len(rule):
            end = k
            while end < len(rule) and rule[end].isupper():
                end += 1
            text += self.word(rule[k:end], kind, depth) if end > k and rule[k - 1] != "\\" else rule[k:max(end, k + 1)]
            k = max(end, k + 1)
        return text

    def word(self, word, kind, depth):
        if word in WORDS:
            return self.random.choice(WORDS[word])
        if word in ("S", "M"):
            return f"(modulo {self.make('number', depth)} {1000 if word == 'S' else 5})"
        return self.make(kind if word == "X" else OPERANDS.get(word) or self.random.choice(KINDS), depth)

    def within(self, bound, kind, depth):
        """An expression where some more variables are bound."""
        scope = list(self.scope)
        self.scope += bound
        text = self.make(kind, depth)
        self.scope = scope
        return text

    def binding(self, kind, depth):
        """A `let` or `let*`, or a call of a lambda, which may assign a variable or define one in its body."""
        form = self.random.choice(["let", "let*", "lambda"])
        bound, inits = [], []
        for _ in range(self.random.randint(1, 3)):
            part = self.name(), self.random.choice(KINDS)
            inits.append(self.within(bound if form == "let*" else [], part[1], depth))
            bound.append(part)
        body = ""
        if self.random.random() < 0.3:
            name, of = self.random.choice(bound)
            body = f"(set! {name} {self.within(bound, of, depth)}) "
        if self.random.random() < 0.2:
            part = self.name(), self.random.choice(KINDS)
            body = f"(define {part[0]} {self.within(bound, part[1], depth)}) " + body
            bound = [*bound, part]
        body += self.within(bound, kind, depth)
        names = [name for name, _ in bound[:len(inits)]]
        if form == "lambda":
            return f"((lambda ({' '.join(names)}) {body}) {' '.join(inits)})"
        return f"({form} ({' '.join(f'({name} {init})' for name, init in zip(names, inits))}) {body})"

    def loop(self, kind, depth):
        """A `do`, or a `let` with a name, of a few rounds."""
        index, value, rounds = self.name(), self.name(), self.random.randint(0, 4)
        init = self.make(kind, depth)
        step = self.within([(index, "number"), (value, kind)], kind, depth - 1)
        if self.random.random() < 0.5:
            return f"(do (({index} 0 (+ {index} 1)) ({value} {init} {step})) ((= {index} {rounds}) {value}))"
        return f"(let loop (({index} {rounds}) ({value} {init})) (if (= {index} 0) {value} (loop (- {index} 1) {step})))"

    def make(self, kind, depth):
        """An expression of a kind, of so many levels at most but for those of its rules."""
        chance = self.random.random()
        known = [name for name, of in self.scope if of == kind]
        if known and chance < 0.3:
            return self.random.choice(known)
        if depth <= 0:
            return self.random.choice(LEAVES[kind])
        if chance < 0.4:
            return self.filled(self.random.choice(FORMS), kind, depth - 1)
        if chance < 0.5:
            return self.binding(kind, depth - 1)
        if chance < 0.55:
            return self.loop(kind, depth - 1)
        return self.filled(self.random.choice(RULES[kind]), kind, depth - 1)

    def text(self):
        lines = (self.random.choice(["write", "display"]) for _ in range(EXPRESSIONS))
        return "".join(f"({line} {self.make(self.random.choice(KINDS), DEPTH)})(newline)\n" for line in lines)


def agrees(number, folder):
    """Whether both print the same for the text of a number."""
    path = os.path.join(folder, f"sampled-{number}.scm")
    with open(path, "w") as file:
        file.write(Maker(number).text())
    ours = subprocess.run([PROGRAM, "run", path], stdout=subprocess.PIPE)
    theirs = subprocess.run(["guile", "--no-auto-compile", "-q", "-s", path], stdout=subprocess.PIPE)
    if ours.returncode == 0 and ours.stdout == theirs.stdout:
        os.remove(path)
        return True
    lines = zip(ours.stdout.split(b"\n"), theirs.stdout.split(b"\n"))
    first = next((f"{a!r} and {b!r}" for a, b in lines if a != b), "another length")
    print(f"{path}: status {ours.returncode}, {first}")
    return False


def main():
    first, last = map(int, sys.argv[1:3] or (0, 99))
    folder = tempfile.mkdtemp()
    well = [agrees(number, folder) for number in range(first, last + 1)]
    print(f"{well.count(True)} of {len(well)} texts print the same")
    if all(well):
        os.rmdir(folder)
    sys.exit(0 if all(well) else 1)


if __name__ == "__main__":
    main()

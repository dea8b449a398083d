"""Texts that oracle/gen.py doesn't make. The same arguments give the same texts on every machine."""

import os
import sys

sys.dont_write_bytecode = True
sys.path.insert(0, os.path.dirname(os.path.dirname(os.path.abspath(__file__))))
import gen

# ---- soup: runs of tokens and of short statements, most of them wrong somewhere

TOKENS = """fun f class A B extends { } ( ) { } ( ) a b = ; ; ; | | || , , if else let var for while loop ++ -- 1 return
break continue assert init self m + - * ! . [ ] ? : += == from nil true "s" { } // /* */ <<= instanceof $ in
""".split() + [" ", " ", "\n"]
WHOLE = ["f();", "a = 1;", "++a;", "let a = 1;", "fun f() {}", "|a| a", "|| {}", "{ a = 1; }", "if (a) f();",
         "else f();", "class A {}", "m() {}", "init(self) {}", "init() {}", "(a, b)", "for (;;) {}", "while (a) {}",
         "loop {}", "return;", "return a;", "a += 1;", "let f = || 1;", "let var b = 2;", "{a: 1}", "[1]", "(a)",
         "a, a", "// c\n", "/* c */", "assert(a);"]
SOUP_FRAMES = ["@", "@", "@", "{@}", "fun f(@) {}", "fun f() {@}", "class A {@}", "x = @;", "if (a) @", "for (@) f();",
               "x = |@", "x = |a| @;", "f(@);", "class A { m() {@} @ }", "let a = @;", "@ fun f() {}", "class A {} @"]


def run_of_tokens(rng):
    count = rng.pick([0, 1, 1, 2, 2, 3, 3, 4, 5, 6, 8])
    parts = [rng.pick(WHOLE if rng.below(100) < 35 else TOKENS) for _ in range(count)]
    return rng.pick(["", " ", " "]).join(parts)


def soup(seed, count):
    rng = gen.Random(seed)
    for _ in range(count):
        frame = rng.pick(SOUP_FRAMES)
        yield "".join(run_of_tokens(rng) if ch == "@" else ch for ch in frame)


# ---- words: each keyword in each role, with each kind of character after it

AFTER = ["", "x", "_", "1", " ", "(", "{", ";", "=", "\n", "/**/", "//", "\0", "\u00e9", "|", '"', "+", "."]
ROLES = ["@", "@();", "@ = 1;", "{@", "{@();}", "let @", "let @ = 1;", "let var @ = 1;", "fun @() {}", "fun f(@) {}",
         "x = |@| 1;", "class @ {}", "class A extends @ {}", "class A @ B {}", "class A { @() {} }",
         "if (a) f(); @ f();", "x = @;", "x = a @ b;", "x = a.@;", "x = {@: 1};", "x = $@;", "for (@;;) f();", "loop @",
         "a @ b;", "f(); @", "let @ a = 1;"]


def words():
    for word in gen.RESERVED + ["from", "init", "self"]:
        for after in AFTER:
            for role in ROLES:
                yield role.replace("@", word + after)


# ---- texts for the file form, which skips a first line that opens with `#!`

FIRST = ["#!/usr/bin/env plush\n", "#!\n", "#!", "#! \u00e9\n", "# !\n", " #!\n", "#!\r\n", "#!a\rb", "#!\n#!\n", "#",
         ""]


def file_form(seed, count):
    for number, text in enumerate(gen.mix(gen.Random(seed), count)):
        yield FIRST[number % len(FIRST)].encode() + (text.encode() if isinstance(text, str) else text)

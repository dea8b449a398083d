#!/usr/bin/env python3
"""Texts for the oracle, written to standard output in its batch form.

  gen.py short LENGTH [ALPHABET [FRAME]]   every text of LENGTH tokens
  gen.py units SEED COUNT                  random valid units
  gen.py slips SEED COUNT                  units that break a rule here and there
  gen.py damaged SEED COUNT                units with tokens or characters damaged
  gen.py odd SEED COUNT                    units with odd characters put in
  gen.py open SEED COUNT                   units with a string or comment left open
  gen.py prefixes SEED COUNT               every prefix of COUNT units
  gen.py mix SEED COUNT                    COUNT texts: units, slips, damaged, odd, open in turn
  gen.py texts FILE..                      the hand-picked texts of the files

ALPHABET: all (default), signs, words, chars. FRAME: a text with @ where the
tokens go, as 'x = @;'. The same arguments give the same bytes on every machine:
the random numbers are made here.
"""

import itertools
import os
import re
import sys


class Random:
    """splitmix64: small, fixed, the same everywhere."""

    def __init__(self, seed):
        self.state = seed & (2**64 - 1)

    def next(self):
        self.state = (self.state + 0x9E3779B97F4A7C15) & (2**64 - 1)
        z = self.state
        z = ((z ^ (z >> 30)) * 0xBF58476D1CE4E5B9) & (2**64 - 1)
        z = ((z ^ (z >> 27)) * 0x94D049BB133111EB) & (2**64 - 1)
        return z ^ (z >> 31)

    def below(self, n):
        return self.next() % n

    def pick(self, seq):
        return seq[self.below(len(seq))]

    def one_in(self, n):
        return self.below(n) == 0


# ---- tokens --------------------------------------------------------------

RESERVED = """true false nil let var fun class extends if else loop while for return break
continue assert instanceof import try catch finally throw yield do in match export""".split()

BINARY = "* / % + - << >> <= < >= > == != & ^ | && ||".split()
ASSIGN = "= += -= *= /= %= &= ^= |= <<= >>=".split()

SIGNS = "( ) [ ] { } , ; : ? . ! ~ # $ | || + - * / = == < & ++ -- += #[".split()
WORDS = ["a", "b", "init", "self", "from", "1", "0x1", "1.5", '"s"', "#[\\x41]", "$h",
         "true", "nil", "let", "var", "fun", "class", "extends", "if", "else", "loop", "while",
         "for", "return", "break", "assert", "instanceof", "do"]
CHARS = list("/*\"'\\xu{}[]#ab0189_.eE+- \n") + ["\u00e9"]
ALPHABETS = {"all": SIGNS + WORDS, "signs": SIGNS + ["a", "1"], "words": WORDS + ["(", ")", "{", "}", ";", "="],
             "chars": CHARS}

OPERATOR = set("+-*/%<>=!&|^?:.#")


def is_word(ch):
    return ch.isascii() and (ch.isalnum() or ch == "_")


def keep_apart(a, b):
    """Tokens that would read as something else when they touch."""
    if not a or not b:
        return False
    if is_word(a[-1]) and is_word(b[0]):
        return True
    if a[0].isdigit() and b[0] == ".":
        return True
    return a[-1] in OPERATOR and b[0] in OPERATOR


BLANKS = [" ", " ", " ", "  ", "\n", "\n  ", "\t", "\r\n", "\f", "// c\n", "/* c */", "/* /* x */ */", "/*//**/*/ "]


def glue(rng, tokens):
    """Join tokens with blanks where they are needed, and sometimes elsewhere."""
    out = []
    last = ""
    for token in tokens:
        if keep_apart(last, token) or rng.one_in(4):
            blank = rng.pick(BLANKS) if rng.one_in(4) else " "
            # A division sign must not open a comment.
            if last.endswith("/") or out and out[-1].endswith("/"):
                blank = " " + blank
            out.append(blank)
        out.append(token)
        last = token
    if rng.one_in(4):
        out.append(" " + rng.pick(BLANKS))
    return "".join(out)


# ---- random valid units --------------------------------------------------

class Unit:
    """One random unit as a list of tokens. Every construct can come."""

    NAMES = "a b c d i x y self hall week f g h init lambda from frome lets _ _1 A B9 trueish".split()

    def __init__(self, rng, size, slips=False):
        self.rng = rng
        self.slips = slips      # break a rule now and then
        self.size = size        # statements and operands still to spend
        self.unit_names = set()

    def slip(self):
        return self.slips and self.rng.one_in(12)

    def name(self):
        return self.rng.pick(RESERVED) if self.slips and self.rng.one_in(60) else self.rng.pick(self.NAMES)

    def any_name(self):
        return self.rng.pick(RESERVED) if self.rng.one_in(5) else self.name()

    def names(self, most):
        out = []
        for _ in range(self.rng.below(most + 1)):
            name = self.name()
            if name not in out:
                out.append(name)
        if out and self.slip():
            out.append(self.rng.pick(out))
        return out

    def unit_name(self):
        name = self.name()
        while name in self.unit_names and not self.slip():
            name += self.rng.pick("0123456789")
        self.unit_names.add(name)
        return name

    # -- literals

    def digits(self, alphabet, most):
        rng = self.rng
        out = rng.pick(alphabet)
        for _ in range(rng.below(most)):
            if rng.one_in(6):
                out += "_"
            out += rng.pick(alphabet)
        return out

    def number(self):
        rng = self.rng
        kind = rng.below(8)
        if kind < 3:
            return rng.pick(["0", "1", "2", "10", "007", "255", "1_000", "9223372036854775807"])
        if kind == 3:
            return self.digits("0123456789", 12)
        if kind == 4:
            return "0x" + self.digits("0123456789abcdefABCDEF", 12)
        if kind == 5:
            return "0b" + self.digits("01", 20)
        out = self.digits("0123456789", 5)
        if rng.one_in(2):
            return out + "." + self.digits("0123456789", 5)
        if rng.one_in(2):
            out += "." + self.digits("0123456789", 5)
        return out + rng.pick("eE") + rng.pick(["", "+", "-"]) + self.digits("0123456789", 2)

    def string(self):
        rng = self.rng
        quote = rng.pick("\"'")
        out = quote
        for _ in range(rng.below(6)):
            piece = rng.pick(["a", "b", " ", "\\\\", "\\'", '\\"', "\\t", "\\r", "\\n", "\\0", "\\x41", "\\x7f",
                              "\\u{0}", "\\u{1F600}", "\\u{10FFFF}", "\u00e9", "\u6f22", "\n", "//", "/*", "'", '"'])
            if piece != quote:
                out += piece
        return out + quote

    def bytearray(self):
        rng = self.rng
        out = "#["
        in_run = False
        for _ in range(rng.below(4)):
            # A run of ASCII that is still open takes no second one.
            kind = 1 + rng.below(2) if in_run and not self.slip() else rng.below(3)
            in_run = False
            if kind == 0:
                out += "\\a" + rng.pick(["", " hi", "hi", "a b ", "\\n\\0", "'", "(\\\\)", "x/y"])
                end = rng.pick(["", "", "// c\n", "\f", "/* c */"])
                in_run = end == ""
                out += end
            elif kind == 1:
                out += "\\x" + "".join(rng.pick(["41", " 20", "fF", "\n00", " /* c */ 7e"]) for _ in range(rng.below(4)))
            else:
                out += "\\b" + "".join(rng.pick(["00000000", " 01010101", "\n11111111"]) for _ in range(rng.below(3)))
            out += rng.pick(["", "", " ", "\t"]) if kind else ""
        return out + "]"

    # -- expressions

    def atom(self, depth):
        rng = self.rng
        self.size -= 1
        kind = rng.below(20)
        if depth <= 0 or self.size <= 0:
            kind = rng.below(11)
        if kind < 5:
            return [self.name()]
        if kind < 7:
            return [self.number()]
        if kind == 7:
            return [rng.pick(["true", "false", "nil"])]
        if kind == 8:
            return [self.string()]
        if kind == 9:
            return ["$" + self.any_name()]
        if kind == 10:
            return [self.bytearray()]
        if kind < 14:
            return ["("] + self.expr(depth - 1) + [")"]
        if kind < 16:
            return ["["] + self.commas([self.expr(depth - 1) for _ in range(rng.below(4))]) + ["]"]
        if kind < 18:
            return self.dict(depth)
        return self.lambda_(depth)

    def commas(self, parts):
        out = []
        for i, part in enumerate(parts):
            out += part
            if i + 1 < len(parts) or self.rng.one_in(5):
                out.append(",")
        return out

    def dict(self, depth):
        rng = self.rng
        seen, pairs = set(), []
        for _ in range(rng.below(4)):
            key = self.any_name()
            if key in seen and not self.slip():
                continue
            seen.add(key)
            pair = [rng.pick([key, '"' + key + '"', "'" + key + "'"])]
            if not rng.one_in(3):
                pair += [":"] + self.expr(depth - 1)
            pairs.append(pair)
        return ["{"] + self.commas(pairs) + ["}"]

    def lambda_(self, depth):
        rng = self.rng
        params = self.names(3)
        head = ["||"] if not params and rng.one_in(2) else ["|"] + self.commas([[p] for p in params]) + ["|"]
        if rng.one_in(2):
            return head + self.block(depth - 1)
        return head + self.not_brace(self.expr(depth - 1))

    @staticmethod
    def not_brace(tokens):
        """A brace would open a block here."""
        return ["("] + tokens + [")"] if tokens[0] == "{" else tokens

    def suffix(self, depth):
        rng = self.rng
        kind = rng.below(8)
        if kind < 3:
            return ["("] + self.commas([self.expr(depth - 1) for _ in range(rng.below(3))]) + [")"]
        if kind < 5:
            return ["["] + self.expr(depth - 1) + ["]"]
        if kind < 7:
            return ["." + self.any_name()]
        return ["instanceof", self.any_name()]

    def postfix(self, depth):
        out = self.atom(depth)
        while depth > 0 and self.rng.one_in(3):
            # A suffix after a lambda's body would be the body's.
            if out[0] in ("|", "||"):
                out = ["("] + out + [")"]
            out = out + self.suffix(depth)
        if self.slip() and self.slip():
            out = out + [self.rng.pick(["++", "--"])]
        return out

    def prefix(self, depth):
        rng = self.rng
        if self.slip() and self.slip():
            return [rng.pick(["++", "--", "+"])] + self.postfix(depth)
        kind = rng.below(12)
        if kind == 0 and depth > 0:
            return ["!"] + self.prefix(depth - 1)
        if kind == 1 and depth > 0:
            return ["-"] + self.prefix(depth - 1)
        if kind == 2:
            return ["+"] + rng.pick([[self.number()], ["-", self.number()], ["(", self.number(), ")"], ["+", self.number()]])
        return self.postfix(depth)

    def expr(self, depth):
        rng = self.rng
        out = self.prefix(depth)
        while depth > 0 and self.size > 0 and rng.one_in(3):
            out = out + [rng.pick(BINARY)] + self.prefix(depth - 1)
        if self.slip() and self.slip():
            out = out + [rng.pick(ASSIGN), self.name()]
        if depth > 0 and self.size > 0 and rng.one_in(10):
            out = out + ["?"] + self.expr(depth - 1) + [":"] + self.expr(depth - 1)
        return out

    def target(self, depth):
        rng = self.rng
        kind = rng.below(4)
        if kind < 2:
            return [self.name()]
        base = self.not_brace(self.postfix(depth - 1))
        if base[0] in RESERVED or base[0] == "||" or base[0] == "|":
            base = [self.name()]
        return base + (["." + self.any_name()] if kind == 2 else ["["] + self.expr(depth - 1) + ["]"])

    # -- statements

    def call(self, depth):
        return self.target(depth) + ["("] + self.commas([self.expr(depth - 1) for _ in range(self.rng.below(3))]) + [")"]

    def simple(self, depth):
        """A call, an assignment or a step, without its end token."""
        rng = self.rng
        if self.slip():
            return rng.pick([self.postfix, self.expr])(depth) + rng.pick([[], ["=", "1"]])
        kind = rng.below(5)
        if kind < 2:
            return self.call(depth)
        if kind < 4:
            return self.target(depth) + [rng.pick(ASSIGN)] + self.expr(depth)
        return [rng.pick(["++", "--"])] + self.target(depth)

    def block(self, depth):
        out = ["{"]
        for _ in range(self.rng.below(3)):
            if self.size > 0:
                out += self.stmt(depth - 1)
        return out + ["}"]

    def body(self, depth):
        if self.slip():
            return self.stmt(depth)
        return self.block(depth) if self.rng.one_in(2) else self.control(depth)

    def control(self, depth):
        """Any statement that isn't a declaration."""
        rng = self.rng
        self.size -= 1
        kind = rng.below(16) if depth > 0 and self.size > 0 else rng.below(8)
        if kind < 5:
            return self.simple(depth) + [";"]
        if kind == 5:
            return rng.pick([["break", ";"], ["continue", ";"]])
        if kind == 6:
            return ["return", ";"] if rng.one_in(3) else ["return"] + self.expr(depth) + [";"]
        if kind == 7:
            return ["assert", "("] + self.expr(depth) + [")", ";"]
        if kind < 10:
            out = ["if", "("] + self.expr(depth - 1) + [")"] + self.body(depth - 1)
            return out + ["else"] + self.body(depth - 1) if rng.one_in(2) else out
        if kind == 10:
            return ["loop"] + self.body(depth - 1)
        if kind == 11:
            return ["while", "("] + self.expr(depth - 1) + [")"] + self.body(depth - 1)
        if kind < 14:
            return (["for", "("] + ([";"] if rng.one_in(3) else self.stmt(depth - 1))
                    + ([] if rng.one_in(3) else self.expr(depth - 1)) + [";"]
                    + ([] if rng.one_in(3) else self.simple(depth - 1)) + [")"] + self.body(depth - 1))
        return self.block(depth)

    def function(self, depth, least=0):
        params = self.names(4)
        if least and not params and not self.slip():
            params = ["self"]
        return ["("] + self.commas([[p] for p in params]) + [")"] + self.block(depth - 1)

    def stmt(self, depth, top=False):
        rng = self.rng
        kind = rng.below(10)
        if kind < 2:
            name = self.unit_name() if top else self.name()
            return ["let"] + (["var"] if rng.one_in(3) else []) + [name, "="] + self.expr(depth) + [";"]
        if kind == 2:
            return ["fun", self.unit_name() if top else self.name()] + self.function(depth)
        if kind == 3 and top:
            out = ["class", self.unit_name()]
            if rng.one_in(2):
                out += ["extends", self.name()]
            out.append("{")
            seen = set()
            for _ in range(rng.below(4)):
                name = self.any_name()
                if rng.one_in(4):
                    name = "init"
                if name not in seen or self.slip():
                    seen.add(name)
                    out += [name] + self.function(depth, name == "init")
            return out + ["}"]
        return self.control(depth)

    def unit(self):
        out = []
        for _ in range(self.rng.below(5) + 1):
            if self.size > 0:
                out += self.stmt(4, top=True)
        # The first token `from` would open an import.
        return ["a", "=", "b", ";"] + out if out and out[0] == "from" else out


def unit_tokens(rng):
    return Unit(rng, rng.pick([2, 4, 8, 8, 16, 30])).unit()


def unit(rng):
    return glue(rng, unit_tokens(rng))


def slips(rng):
    tokens = Unit(rng, rng.pick([4, 8, 16]), slips=True).unit()
    if rng.one_in(12):
        tokens.insert(rng.below(len(tokens) + 1), ";")
    return glue(rng, tokens)


# ---- damage --------------------------------------------------------------

ODD = ["\u00e9", "\u00df", "\u2013", "\u6f22", "\U0001F600", "\u00a0", "\u2028", "\ufeff", "\u0085", "\u0301",
       "\U0010FFFF", "\ufffd", "\uff11", "\u0661", "\0", "\v", "\f", "\x7f", "\r", "\x1b"]


def cut(rng, seq, mend):
    """One damage at one place of a list of tokens or of characters."""
    seq = list(seq)
    at = rng.below(len(seq)) if seq else 0
    kind = rng.below(5)
    if kind == 0 and seq:
        del seq[at]
    elif kind == 1 and seq:
        seq.insert(at, seq[at])
    elif kind == 2 and seq:
        other = rng.below(len(seq)) if rng.one_in(3) else min(at + 1, len(seq) - 1)
        seq[at], seq[other] = seq[other], seq[at]
    elif kind == 3 and seq:
        seq[at] = rng.pick(mend)
    else:
        seq.insert(at, rng.pick(mend))
    return seq


def damaged(rng):
    if rng.one_in(2):
        tokens = unit_tokens(rng)
        for _ in range(1 + rng.below(2)):
            tokens = cut(rng, tokens, ALPHABETS["all"] + RESERVED)
        return glue(rng, tokens)
    text = unit(rng)
    if rng.one_in(12):
        data = bytearray(cut(rng, text.encode(), range(256)))
        return bytes(data)
    return "".join(cut(rng, text, CHARS + list("()|;,:?=<>!&^%~$@\t")))


def odd(rng):
    text = unit(rng)
    for _ in range(1 + rng.below(2)):
        at = rng.below(len(text) + 1)
        text = text[:at] + rng.pick(ODD) + text[at:]
    return text


def left_open(rng):
    text = unit(rng)
    at = rng.below(len(text) + 1)
    opener = rng.pick(['"', "'", "/*", "/* /*", "//", "#[", "#[\\a", "#[\\x", '"\\', '"\\x', '"\\u{', "*/"])
    kind = rng.below(3)
    if kind == 0:
        return text[:at] + opener + text[at:]
    if kind == 1:
        return text[:at] + " " + opener
    ends = [i for i, ch in enumerate(text) if ch in "\"']*"]
    if ends:
        at = rng.pick(ends)
    return text[:at] + text[at + 1:]


def prefixes(text):
    return [text[:n] for n in range(len(text) + 1)]


# ---- hand-picked texts ---------------------------------------------------

def expand(line):
    """%HH is a byte; %{N:piece} is the piece N times, %# in it its number from 1."""
    out = b""
    while line:
        rep = re.match(r"%\{(\d+):((?:[^}%]|%#|%[0-9A-F]{2})*)\}", line)
        byte = re.match(r"%([0-9A-F]{2})", line)
        if rep:
            for n in range(1, int(rep.group(1)) + 1):
                out += expand(rep.group(2).replace("%#", str(n)))
            line = line[rep.end():]
        elif byte:
            out += bytes([int(byte.group(1), 16)])
            line = line[3:]
        elif line[0] == "%":
            raise SystemExit("bad escape in a hand-picked text: " + line)
        else:
            out += line[0].encode()
            line = line[1:]
    return out


def hand_picked(name):
    """Yield the texts of a file, each once. README.md states its form."""
    seen = set()
    for text in with_repeats(name):
        if text not in seen:
            seen.add(text)
            yield text


def with_repeats(name):
    frame = "@"
    for line in open(name, encoding="utf-8").read().split("\n"):
        if line == "" or line.startswith("%% ") or line == "%%":
            continue
        if line.startswith("%each "):
            frame = line[len("%each "):]
            continue
        every = line.startswith("%prefixes ")
        if every:
            line = line[len("%prefixes "):]
        text = expand(frame.replace("@", line))
        if every:
            yield from (p.encode() for p in prefixes(text.decode()))
        else:
            yield text


# ---- main ----------------------------------------------------------------

def short(length, alphabet, frame):
    head, tail = frame.split("@")
    plain = alphabet == "chars"
    for tokens in itertools.product(ALPHABETS[alphabet], repeat=length):
        if plain:
            yield head + "".join(tokens) + tail
            continue
        out = head
        for token in tokens:
            if out and is_word(out[-1]) and is_word(token[0]):
                out += " "
            out += token
        yield out + tail


def mix(rng, count):
    kinds = [unit, slips, damaged, odd, left_open]
    for n in range(count):
        yield kinds[n % len(kinds)](rng)


def texts(args):
    kind = args[0]
    if kind == "short":
        return short(int(args[1]), args[2] if len(args) > 2 else "all", args[3] if len(args) > 3 else "@")
    if kind == "texts":
        return itertools.chain.from_iterable(hand_picked(name) for name in args[1:])
    rng, count = Random(int(args[1])), int(args[2])
    if kind == "prefixes":
        return itertools.chain.from_iterable(prefixes(unit(rng)) for _ in range(count))
    if kind == "mix":
        return mix(rng, count)
    maker = {"units": unit, "slips": slips, "damaged": damaged, "odd": odd, "open": left_open}[kind]
    return (maker(rng) for _ in range(count))


def main():
    try:
        found = texts(sys.argv[1:])
    except (IndexError, KeyError, ValueError):
        sys.exit(__doc__)
    out = sys.stdout.buffer
    try:
        for text in found:
            if isinstance(text, str):
                text = text.encode()
            out.write(b"TEXT %d\n%s\n" % (len(text), text))
        out.flush()
    except BrokenPipeError:
        os._exit(1)     # the reader has enough


if __name__ == "__main__":
    main()

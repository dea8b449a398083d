#!/usr/bin/env python3
"""The definitions of crates/*/specs in JavaScript, word by word, so that they can be run on many texts.

usage: python3 oracle/definitions/model.py    (writes target/oracle/model.js)

Each definition that ROOTS names or reaches is read from its spec file and becomes one function; where a clause matches
on a pattern abbrev, what that stands for is matched. Written by hand, in hand.js, are the numbers, lists and booleans of
the libraries, `ascii`, and `joined` of Process.antt, which names one term twice: there it is computed once. Types, laws
and proofs are passed over.
"""

import functools
import itertools
import json
import os
import re

HERE = os.path.dirname(os.path.abspath(__file__))
ROOT = os.path.dirname(os.path.dirname(HERE))
MODEL = os.path.join(ROOT, "target", "oracle", "model.js")

# A definition is named by crate, file and name.
ROOTS = [("grammar", "Units", "full"), ("reading", "Events", "records_of"), ("reading", "Events", "comparisons_of"),
         ("reading", "Answers", "end_number"), ("reading", "Answers", "end_place"), ("records", "Rows", "words")]
# Definitions in hand.js: how many arguments, and what they reach.
BY_HAND = {("characters", "Text", "ascii"): (1, []),
           ("reading", "Process", "joined"): (4, [("reading", "Events", "steps")])}
# What the libraries have: the function in hand.js and its arguments.
LIBRARY = {"◌+◌": ("P.add", 2), "◌-◌": ("P.sub", 2), "◌*◌": ("P.mul", 2), "◌/◌": ("P.div", 2), "◌%◌": ("P.mod", 2),
           "◌^◌": ("P.pow", 2), "◌++◌": ("P.append", 2), "leb": ("P.leb", 2), "ltb": ("P.ltb", 2), "eqb": ("P.eqb", 2),
           "not": ("P.not", 1), "length": ("P.length", 1), "get_or": ("P.getOr", 3), "drop": ("P.drop", 2),
           "take": ("P.take", 2)}
CONSTRUCTORS = ["zero", "suc", "true", "false", "[]", "◌∷◌", "pos", "negsuc", "Ok", "Err", "Some", "None"]
# What a definition's first line opens with, before its name.
MARKS = ["pub", "pattern", "abbrev", "unfoldable"]
# How tightly an operator binds, and whether it groups to the right.
OPERATORS = {"||": (30, True), "&&": (40, True), "∷": (50, True), "++": (50, True), "+": (60, False), "-": (60, False),
             "*": (70, False), "/": (70, False), "%": (70, False), "^": (80, True)}
# What ends a term.
ENDS = ["=", "↦", "|", ")", "[", "]", "{", "}", ";", ","]
# Of `test b x y` only one side is ever run, so neither is computed before that.
LATE = "Process.test"


# ---- the words of a definition -------------------------------------------

WORD = re.compile(r"""
    (?P<blank>\s+|--(?=[\s-])[^\n]*) | "(?P<text>(?:[^"\\]|\\.)*)" | (?P<mark>\[\]|λ|[(){}\[\];,])
    | (?P<number>0x[0-9A-Fa-f]+|[0-9]+)(?![^\s(){}\[\];,"])
    | (?<=\S)\.(?P<field>[^\s(){}\[\];,".]+) | (?P<name>[^\s(){}\[\];,".]+|\.(?![^\s(){}\[\];,"]))""", re.X)
ESCAPES = {"n": "\n", "t": "\t", "r": "\r", "0": "\0"}


def words_of(text):
    """(kind, value) of each word: text, number, field, or name. Brackets, `[]`, λ and the dot behind its names are names too.
    A field is what a dot without blanks follows on: of a record, or of the prefix of a type's constructors."""
    out, at = [], 0
    while at < len(text):
        found = WORD.match(text, at)
        if not found:
            raise SystemExit("no word: %s" % text[at:at + 40])
        kind, value = found.lastgroup, found.group(found.lastgroup)
        if kind == "text":
            out.append(("text", re.sub(r"\\(.)", lambda m: ESCAPES.get(m.group(1), m.group(1)), value)))
        elif kind == "number":
            out.append(("number", int(value, 0)))
        elif kind == "field":
            out.append(("field", value))
        elif kind != "blank":
            out.append(("name", value))
        at = found.end()
    return out


# ---- a spec file ---------------------------------------------------------

class Module:
    """What a spec file defines and what its names stand for."""

    def __init__(self, crate, name):
        self.crate, self.name = crate, name
        # name -> ("function", crate, file, name), ("pattern", crate, file, name), ("constructor", name) or ("library", name)
        self.scope = {}
        self.prefixes = {}      # `kinds` of kinds.Let -> the path behind it
        self.operators = dict(OPERATORS)
        self.clauses = {}       # name -> the words of each clause
        path = os.path.join(ROOT, "crates", crate, "specs", name + ".antt")
        with open(path, encoding="utf-8") as file:
            text = re.sub(r"^--.*\n", "", file.read(), flags=re.M)
        # An item begins at the margin.
        for item in re.split(r"\n(?=[^\s}])", text.strip("\n")):
            self.read(item)

    def read(self, item):
        words = item.split()
        marks = list(itertools.takewhile(MARKS.__contains__, words))
        rest = words[len(marks):]
        if rest[0] == "use":
            self.read_use(" ".join(rest))
        elif rest[0] == "data":
            for name in re.findall(r"^\s+(\S+) :", item, re.M):
                self.scope[name] = ("constructor", rest[1] + "." + name)
        elif rest[0] == "infix":
            self.operators[rest[2].strip("◌")] = (int(rest[1]), False)
        elif "abbrev" in marks or "unfoldable" in marks:
            self.clauses[rest[0]] = []
            self.scope[rest[0]] = ("pattern" if "pattern" in marks else "function", self.crate, self.name, rest[0])
        elif rest[0] in self.clauses:
            self.clauses[rest[0]].append(words_of(item))
        elif len(rest) > 1 and "◌%s◌" % rest[1] in self.clauses:
            self.clauses["◌%s◌" % rest[1]].append(words_of(item))

    def read_use(self, item):
        found = re.fullmatch(r"use ([^\s{]+)(?: as (\S+))?", item)
        if found:
            path = found.group(1).split(".")
            self.prefixes[found.group(2) or path[-1]] = path
            return
        path, names = re.fullmatch(r"use (\S+?)\.\{(.*)\}", item).groups()
        for name in filter(None, map(str.strip, names.split(","))):
            name, _, here = name.partition(" as ")
            self.scope[here or name] = meant(path.split("."), name)

    def find(self, name):
        first, _, last = name.partition(".")
        found = meant(self.prefixes[first], last) if last and first in self.prefixes else self.scope.get(name)
        if found and found[0] == "elsewhere":
            return module(found[1], found[2]).find(found[3])
        return found


def meant(path, name):
    """What a name behind this path stands for; None of a type and of what the model has no use for."""
    if path[-1] == "TheVariants":
        return "constructor", path[-2] + "." + name
    if path[0] == "Rattle" and path[1] != "std" and path[2] == "specs" and path[3] != "declared":
        return "elsewhere", path[1], "/".join(path[3:]), name
    if name in LIBRARY:
        return "library", name
    return ("constructor", name) if name in CONSTRUCTORS else None


@functools.lru_cache(maxsize=None)
def module(crate, name):
    return Module(crate, name)


# ---- reading a clause ----------------------------------------------------

class Clause:
    """One clause: its patterns and its body, as tuples that begin with their kind. The body of a pattern abbrev is a pattern."""

    def __init__(self, home, words, name, body):
        self.home, self.words, self.at = home, words, 0
        if name.startswith("◌"):
            self.patterns = [self.small_pattern()]
            self.take(name.strip("◌"))
            self.patterns.append(self.small_pattern())
        else:
            self.take(name)
            self.patterns = []
            while not self.sees("="):
                self.patterns.append(self.small_pattern())
        self.take("=")
        self.body = body(self)
        if self.at < len(self.words):
            self.fail()

    def fail(self):
        near = " ".join(str(value) for _, value in self.words[max(0, self.at - 8):self.at + 8])
        raise SystemExit("%s.antt of %s: not understood near: %s" % (self.home.name, self.home.crate, near))

    def peek(self):
        return self.words[self.at] if self.at < len(self.words) else ("end", None)

    def sees(self, *names):
        kind, value = self.peek()
        return kind == "name" and value in names

    def take(self, name=None):
        if self.at >= len(self.words) or name is not None and not self.sees(name):
            self.fail()
        self.at += 1
        return self.words[self.at - 1]

    # -- patterns

    def small_pattern(self):
        kind, value = self.take()
        if kind == "number":
            return "number", value
        if kind != "name":
            self.fail()
        if value == "(":
            inner = self.pattern()
            self.take(")")
            return inner
        if self.peek()[0] == "field":
            value += "." + self.take()[1]
        found = self.home.find(value)
        if found and found[0] == "constructor":
            return "constructor", found[1], []
        if found and found[0] == "pattern":
            return "named", found[1:], []
        # A constructor that the file doesn't import would be a variable, and fit everything.
        if value in CONSTRUCTORS or "." in value or len(value) > 1 and value[0].isupper():
            self.fail()
        return "variable", value

    def pattern(self):
        first, rest = self.small_pattern(), []
        while self.peek()[0] != "end" and not self.sees("∷", "↦", ")"):
            rest.append(self.small_pattern())
        if rest:
            if first[0] not in ("constructor", "named"):
                self.fail()
            first = (first[0], first[1], rest)
        if self.sees("∷"):
            self.take()
            return "constructor", "◌∷◌", [first, self.pattern()]
        return first

    # -- terms

    def term(self, least=0):
        left = self.application()
        while self.sees(*self.home.operators):
            operator = self.peek()[1]
            binding, to_right = self.home.operators[operator]
            if binding < least:
                break
            self.take()
            right = self.term(binding if to_right else binding + 1)
            if operator in ("&&", "||"):
                left = ("logic", operator, left, right)
            else:
                left = ("apply", ("name", "◌%s◌" % operator), [left, right])
        return left

    def application(self):
        head, arguments = self.small_term(), []
        while True:
            if self.peek()[0] == "end" or self.sees(*self.home.operators, *ENDS):
                return applied(head, arguments)
            arguments.append(self.small_term())

    def small_term(self):
        term = self.plain_term()
        while self.peek()[0] == "field":
            field = self.take()[1]
            if term[0] == "name" and term[1] in self.home.prefixes:
                term = "name", term[1] + "." + field
            else:
                term = "field", term, field
        return term

    def plain_term(self):
        kind, value = self.take()
        if kind != "name":
            return kind, value
        special = {"(": self.bracketed, "λ": self.function, "elim": self.cases, "record": self.record}.get(value)
        if special:
            return special()
        if value in ENDS:
            self.fail()
        return "name", value

    def bracketed(self):
        """A term, or a tuple: a record whose fields are numbers."""
        parts = [self.term()]
        while self.sees(","):
            self.take()
            parts.append(self.term())
        self.take(")")
        return parts[0] if len(parts) == 1 else ("record", [(str(i), part) for i, part in enumerate(parts)])

    def function(self):
        names = []
        while not self.sees("."):
            names.append(self.take()[1])
        self.take(".")
        return "function", names, self.term()

    def cases(self):
        subject = self.small_term()
        self.take("[")
        if self.sees("|"):
            self.take()
        rows = []
        while True:
            pattern = self.pattern()
            self.take("↦")
            rows.append(([pattern], self.term()))
            if self.sees("]"):
                self.take()
                return "cases", subject, rows
            self.take("|")

    def record(self):
        self.take("{")
        fields = []
        while not self.sees("}"):
            name = self.take()[1]
            self.take("=")
            fields.append((name, self.term()))
            if self.sees(";"):
                self.take()
        self.take("}")
        return "record", fields


def applied(head, arguments):
    if arguments and head[0] == "apply":
        return "apply", head[1], head[2] + arguments
    return ("apply", head, arguments) if arguments else head


def read_clauses(definition, body):
    crate, file, name = definition
    home = module(crate, file)
    return [Clause(home, words, name, body) for words in home.clauses[name]]


@functools.lru_cache(maxsize=None)
def clauses_of(definition):
    return read_clauses(definition, Clause.term)


def spelled_out(definition, parts):
    """The pattern that a pattern abbrev with these parts stands for."""
    clause, = read_clauses(definition, Clause.pattern)
    if len(clause.patterns) != len(parts):
        clause.fail()
    return filled(clause.body, {name: part for (_, name), part in zip(clause.patterns, parts)})


def filled(pattern, parts):
    """A pattern with these in place of its variables."""
    if pattern[0] == "variable":
        return parts[pattern[1]]
    return pattern if pattern[0] == "number" else (*pattern[:2], [filled(inner, parts) for inner in pattern[2]])


# ---- writing JavaScript --------------------------------------------------

def identifier(name):
    name = re.sub(r"[^A-Za-z0-9_]", lambda m: "$%x" % ord(m.group()), name)
    return "$" + name if name[0].isdigit() else name


def full_name(definition):
    return "$".join(identifier(part) for part in definition)


def arity_of(definition):
    return BY_HAND[definition][0] if definition in BY_HAND else len(clauses_of(definition)[0].patterns)


class Writer:
    """The JavaScript of one definition. `reached` gathers the definitions that it names."""

    def __init__(self, definition):
        self.definition = definition
        self.home = module(*definition[:2])
        self.reached = []
        self.count = 0

    def new(self):
        self.count += 1
        return "v%d" % self.count

    def whole(self):
        name, arguments = full_name(self.definition), ["x%d" % i for i in range(arity_of(self.definition))]
        body = self.rows([(clause.patterns, clause.body) for clause in clauses_of(self.definition)], arguments, {})
        if arguments:
            return "function %s(%s) {%s}" % (name, ", ".join(arguments), body)
        # A constant is computed once.
        return "let %s$kept; function %s() {return %s$kept ??= (() => {%s})();}" % (name, name, name, body)

    # -- terms

    def term(self, term, scope):
        return getattr(self, "term_" + term[0])(scope, *term[1:])

    def terms(self, terms, scope):
        return [self.term(term, scope) for term in terms]

    def term_number(self, scope, value):
        return str(value) if value < 2**53 else "P.big(%dn)" % value

    def term_text(self, scope, value):
        return json.dumps(value)

    def term_name(self, scope, name):
        return self.term_apply(scope, ("name", name), [])

    def term_logic(self, scope, operator, left, right):
        return "(%s %s %s)" % (self.term(left, scope), operator, self.term(right, scope))

    def term_field(self, scope, holder, field):
        return "%s.%s" % (self.term(holder, scope), identifier(field))

    def term_record(self, scope, fields):
        return "({%s})" % ", ".join("%s: %s" % (identifier(name), self.term(term, scope)) for name, term in fields)

    def term_function(self, scope, names, body):
        inner = {**scope, **{name: self.new() for name in names}}
        return "((%s) => %s)" % (", ".join(inner[name] for name in names), self.term(body, inner))

    def term_cases(self, scope, subject, rows):
        value = self.new()
        return "(%s => {%s})(%s)" % (value, self.rows(rows, [value], scope), self.term(subject, scope))

    def term_apply(self, scope, head, arguments):
        if head[0] != "name" or head[1] in scope:
            value = scope[head[1]] if head[0] == "name" else self.term(head, scope)
            return "P.ap(%s)" % ", ".join([value] + self.terms(arguments, scope)) if arguments else value
        found = self.home.find(head[1])
        if found is None:
            raise SystemExit("%s.antt of %s: unknown name %s" % (self.home.name, self.home.crate, head[1]))
        if found[0] == "constructor":
            return self.constructed(found[1], arguments, scope)
        return self.called(found, self.terms(arguments, scope))

    def constructed(self, name, arguments, scope):
        plain = {"true": "true", "false": "false", "zero": "0", "[]": "P.nil"}
        if name in plain:
            return plain[name]
        values = self.terms(arguments, scope)
        if name == "suc":
            return "P.add(%s, 1)" % values[0]
        if name == "◌∷◌":
            return "P.cons(%s, %s)" % tuple(values)
        if name == LATE:
            values[1:] = ["P.lazy(() => %s)" % value for value in values[1:]]
        return "({c: %s})" % ", ".join([json.dumps(name)] + ["a%d: %s" % pair for pair in enumerate(values)])

    def called(self, found, values):
        if found[0] == "library":
            name, arity = LIBRARY[found[1]]
        else:
            self.reached.append(found[1:])
            name, arity = full_name(found[1:]), arity_of(found[1:])
            if arity == 0:
                name += "()"
        if not values:
            return name
        if len(values) == arity:
            return "%s(%s)" % (name, ", ".join(values))
        return "P.ap(%s)" % ", ".join([name] + values)

    # -- patterns

    def rows(self, rows, values, scope):
        """The first row whose patterns fit the values."""
        out = ""
        for patterns, body in rows:
            bound, conditions = [], []
            for value, pattern in zip(values, patterns):
                conditions += self.fits(value, pattern, bound)
            inner, kept = dict(scope), ""
            for name, value in bound:
                if value.isidentifier() or value.startswith("P.force"):
                    inner[name] = value
                else:
                    inner[name] = self.new()
                    kept += "const %s = %s; " % (inner[name], value)
            out += "if (%s) {%sreturn %s;}\n" % (" && ".join(conditions) or "true", kept, self.term(body, inner))
        return out + "throw new Error('no row fits in %s');" % full_name(self.definition)

    def fits(self, value, pattern, bound):
        """The conditions for a value to fit a pattern; the names it binds go to `bound`."""
        if pattern[0] == "variable":
            bound.append((pattern[1], value))
            return []
        if pattern[0] == "number":
            return ["%s === %d" % (value, pattern[1])]
        if pattern[0] == "named":
            return self.fits(value, spelled_out(*pattern[1:]), bound)
        name, inner = pattern[1:]
        plain = {"true": "%s", "false": "!%s", "zero": "%s === 0", "[]": "%s === P.nil"}
        if name in plain:
            return [plain[name] % value]
        if name == "suc":
            conditions, parts = ["%s !== 0" % value], ["P.sub(%s, 1)" % value]
        elif name == "◌∷◌":
            conditions, parts = ["%s !== P.nil" % value], [value + ".head", value + ".tail"]
        else:
            conditions, parts = ["%s.c === %s" % (value, json.dumps(name))], \
                                ["%s.a%d" % (value, i) for i in range(len(inner))]
        if name == LATE:
            parts[1:] = ["P.force(%s)" % part for part in parts[1:]]
        for part, small in zip(parts, inner):
            conditions += self.fits(part, small, bound)
        return conditions


def main():
    waiting, seen, out = list(ROOTS), set(), ["'use strict';"]
    while waiting:
        definition = waiting.pop()
        if definition in seen:
            continue
        seen.add(definition)
        if definition in BY_HAND:
            waiting += BY_HAND[definition][1]
            continue
        writer = Writer(definition)
        out.append(writer.whole())
        waiting += writer.reached
    with open(os.path.join(HERE, "hand.js"), encoding="utf-8") as file:
        out.append(file.read())
    os.makedirs(os.path.dirname(MODEL), exist_ok=True)
    with open(MODEL, "w", encoding="utf-8") as file:
        file.write("\n".join(out))
    print("made target/oracle/model.js from %d definitions" % (len(seen) - len(BY_HAND)))


if __name__ == "__main__":
    main()

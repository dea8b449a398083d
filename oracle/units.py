#!/usr/bin/env python3
"""Make the list that the program crates/unit_cases replays, and what it must write: listings of whole units.

  units.py           writes its stdin and stdout, and those of crates/plushlist
  units.py --check   compares them with what it would write

Nothing comes from the programs. Of a unit that is accepted, the listing comes
from the engine's tree (target/oracle/plush-oracle): its records, the first ones
of negated literals by the minuses of the text, and the comparisons by the names
of its lists. Of a unit that is refused, the engine says the number and the
place; the records and the comparisons made until then come from the second
reading (target/oracle/second). The second reading is asked about every text, and
where the engine speaks the two must agree to the byte. Limits are the second
reading's alone: the engine has none.
"""

import collections
import os
import re
import subprocess
import sys

sys.dont_write_bytecode = True
import gen
from cases import ROOT, after, ask_all, before, place
from tokens import OPERATORS, minuses, tokens_of

SECOND = os.path.join(ROOT, "target", "oracle", "second")

# What a case's letter stands for: nesting limit, comparison limit, file form. Every call has a pool of 1,024 records.
POOL, MOST = 1024, 4294967295
CALLS = {
    "u": (256, MOST, 0),        # as `plushlist` reads
    "f": (256, MOST, 1),        # the file form
    "n": (2, MOST, 0),          # few levels
    "s": (64, 100000, 0),       # the short entry
}

# The kinds by their numbers from 1, and how each field prints: r a record's number, n a plain number, s a name,
# q a string, b bytes, i an int, f a float, p the sign of a unary, o that of a binary.
KINDS = [kind.split(":") for kind in """true: false: nil: int:i float:f string:q bytes:b array:r dict:r name:s host:s
closure:r index:rr member:rs instanceof:rs unary:pr binary:orr choice:rrr call:rr do:r assign:rr return:r assert:r
break: continue: block:r if:rrr for:rrrr let:nsr classdecl:r fun:nsrr class:nssr
item:rr item:sr item:rrq item:rrn item:rr item:rr""".split()]
FORMS = dict(KINDS)


class Record:
    """A kind, a position (of an item None) and the fields as they print; a record's number is an int."""

    def __init__(self, kind, at, fields):
        self.kind, self.at, self.fields = kind, at, fields

    def line(self, number):
        words = [str(number), self.kind, self.at or ""] + [str(field) for field in self.fields]
        return " ".join(word for word in words if word != "")


def listing(records, last):
    lines = [record.line(number) for number, record in enumerate(records, 1)] + [last]
    return "".join(line + "\n" for line in lines).encode()


# ---- from the engine's tree ------------------------------------------------

NAMED = {"n": "\n", "r": "\r", "t": "\t", "0": "\0"}


def decoded(quoted):
    """A string as the oracle writes it, without its escapes."""
    return re.sub(r"\\(x..|.)", lambda m: NAMED.get(m[1]) or (chr(int(m[1][1:], 16)) if m[1][1:] else m[1]), quoted)


def unit_tokens(text):
    """The tokens of a unit. A reserved word ends no operand, unless it is a value or a name."""
    tokens = tokens_of(text)
    for before_it, token in zip([None] + tokens, tokens):
        named = before_it and before_it.text in (".", "$", "instanceof")
        if token.text in gen.RESERVED and token.text not in ("true", "false", "nil") and not named:
            token.group = "sign"
    return tokens


class Tree:
    """The records of an accepted unit, from the lines of the engine's tree."""

    def __init__(self, text, lines):
        self.text, self.tokens = text, unit_tokens(text)
        self.index = {token.at: i for i, token in enumerate(self.tokens)}
        self.records, self.numbers = [], {0: 0}
        for line in lines:
            number, kind, rest = line.split(" ", 2)
            for record in self.item(rest) if kind == "item" else self.node(kind, *(rest + " ").split(" ", 1)):
                self.records.append(record)
            self.numbers[int(number)] = len(self.records)

    def item(self, rest):
        element, previous, more = (rest + " ").split(" ", 2)
        element = self.numbers[int(element)] if element.isdigit() else element
        return [Record("item", None, [element, self.numbers[int(previous)], decoded(more[:-1])])]

    def node(self, kind, at, rest):
        """A node's record, and before it those that a negated literal began as."""
        forms, rest = FORMS[kind], rest[:-1]
        if forms in ("i", "f"):
            values = self.literals(at, rest.split(" ")[0])
            return [Record(kind, at, [value]) for value in values]
        if forms in ("q", "b"):
            return [Record(kind, at, [decoded(rest)])]
        words = zip(forms, rest.split(" "))
        return [Record(kind, at, [self.numbers[int(word)] if form == "r" else word for form, word in words])]

    def literals(self, at, value):
        """A number literal, and as often negated as minuses apply to it. The 1 of `++` stands at its target."""
        i = self.index[len(before(self.text, place(at)))]
        count = minuses(self.tokens, i) if self.tokens[i].group == "number" else 0
        plain = value.lstrip("-")
        assert value == "0" or value.startswith("-") == (count % 2 == 1), (self.text, value)
        return [plain if value == "0" else "-" * (n % 2) + plain for n in range(count + 1)]

    # -- comparisons

    def chain(self, last):
        """The items of a list, newest first."""
        while last:
            yield self.records[last - 1]
            last = self.records[last - 1].fields[1]

    def comparisons(self):
        """All names of a list differ, so each was compared with every earlier one."""
        lists = []
        for record in self.records:
            at = {"dict": 0, "fun": 2, "class": 3}.get(record.kind)
            if at is not None:
                lists.append(len(list(self.chain(record.fields[at]))))
        block = self.records[self.records[-1].fields[3] - 1]
        stated = [self.records[item.fields[0] - 1] for item in self.chain(block.fields[0])]
        lists.append(sum(s.kind == "let" and self.records[s.fields[2] - 1].kind == "closure" for s in stated))
        lists.append(sum(s.kind == "classdecl" for s in stated))
        return sum(names * (names - 1) // 2 for names in lists)


def from_engine(text, answer):
    tree = Tree(text.decode(), answer.lines)
    return listing(tree.records, "ok %d %d" % (len(tree.records), tree.comparisons()))


# ---- from the second reading -----------------------------------------------

class Second:
    """A call's answer, and the rows of its records."""

    def __init__(self, text, line):
        words = [int(word) for word in line.split(" ")]
        self.text = text
        self.number, self.line, self.column, self.count, self.comparisons = words[:5]
        self.rows = [words[at:at + 8] for at in range(5, len(words), 8)]

    def span(self, word):
        return self.text[word % 65536:word // 65536].decode()

    def literals(self):
        """The strings, keys and bytearrays, as they are written."""
        for row in self.rows:
            for form, word in zip(KINDS[row[0] - 1][1], row[4:]):
                if form in ("q", "b"):
                    yield self.span(word)

    def record(self, row, values):
        kind, forms = KINDS[row[0] - 1]
        fields = [self.field(form, word, row[5], values) for form, word in zip(forms, row[4:])]
        return Record(kind, None if kind == "item" else "%d:%d" % (row[2], row[3]), fields)

    def field(self, form, word, following, values):
        if form == "s":
            return self.span(word) if word else "-"
        if form in ("q", "b"):
            return values[self.span(word)]
        if form == "f":
            return "-" * following + self.span(word)
        if form == "i":
            return str((word + 2**32 * following + 2**63) % 2**64 - 2**63)
        if form == "p":
            return " -!"[word]
        return OPERATORS[word - 1] if form == "o" else word

    def listing(self, values):
        last = "refused %d %d:%d" % (self.number, self.line, self.column) if self.number else "ok"
        return listing([self.record(row, values) for row in self.rows],
                       "%s %d %d" % (last, self.count, self.comparisons))


def ask_second(cases):
    calls = "".join("%s %d %d %d %d\n" % (text.hex() or "-", POOL, *CALLS[letter]) for letter, text in cases)
    run = subprocess.run([SECOND], input=calls.encode(), stdout=subprocess.PIPE, check=True)
    return [Second(text, line) for (_, text), line in zip(cases, run.stdout.decode().split("\n"))]


def values_of(literals):
    """What strings, keys and bytearrays print as, by the engine: each alone in `x = LITERAL;`. A name is itself."""
    literals = sorted(set(literals))
    values = {}
    for literal, answer in zip(literals, ask_all(["x = %s;" % literal for literal in literals])):
        if literal[0] in "\"'#":
            assert answer.ok and len(answer.lines) == 6, literal
            values[literal] = decoded((answer.lines[1] + " ").split(" ", 3)[3].removesuffix(" "))
        else:
            values[literal] = '"%s"' % literal
    return values


# ---- both ------------------------------------------------------------------

LIMITS = (5, 6, 7)


def agreed(text, limited, answer, second, values):
    """What must be written for a text: what the engine says, and the second reading where the engine is silent."""
    told = second.listing(values)
    if limited:
        assert second.number in LIMITS, (text, second.number)
    elif answer.last == "not-utf8":
        good = text.decode(errors="surrogateescape")
        good = good[:re.search("[\udc80-\udcff]", good).start()]
        assert (second.number, (second.line, second.column), second.count) == (3, after(good), 0), text
    elif answer.ok:
        assert told == from_engine(text, answer), (text, told.decode(), from_engine(text, answer).decode())
    else:
        assert (answer.number, answer.place) == (second.number, (second.line, second.column)), (text, answer.last)
    return told


def expected(cases, limited):
    """What must be written for each case, in order."""
    texts = [text for _, text in cases]
    plain, filed = ask_all(texts), ask_all(texts, "--file-form")
    seconds = ask_second(cases)
    values = values_of(literal for second in seconds for literal in second.literals())
    for (letter, text), string_form, file_form, second in zip(cases, plain, filed, seconds):
        answer = file_form if CALLS[letter][2] else string_form
        yield agreed(text, (letter, text) in limited, answer, second, values)


# ---- the texts -------------------------------------------------------------

# 01's example of a whole listing.
EXAMPLE = b"""1 name 1:1 f
2 int 1:3 1
3 item 2 0
4 call 1:2 1 3
5 do 1:1 4
6 item 5 0
7 block 1:1 6
8 fun 1:1 1 - 0 7
ok 8 0
"""

# 01's desk examples, in its order, each with lines that it must have.
DESK = [
    ("u", "f(1);", ["ok 8 0"]),
    ("n", "f(1);", ["refused 5 1:3 1 0"]),
    ("u", "", ["ok 2 0"]),
    ("u", "x = 9223372036854775807;", ["2 int 1:5 9223372036854775807", "ok 6 0"]),
    ("u", "x = -9223372036854775808;", ["refused 14 1:25 1 0"]),
    ("u", "x = 0x8000000000000000;", ["refused 14 1:23 1 0"]),
    ("u", "x = a ? b : c ? d : e;", ["7 choice 1:13 4 5 6", "8 choice 1:5 2 3 7"]),
    ("u", "x = a ? b : c = d;", ["refused 25 1:15 4 0"]),
    ("u", "fun f() {", ["refused 19 1:10 0 0"]),
    ("u", "fun f() { ", ["refused 13 1:11 0 0"]),
    ("u", 'x = {"a": 1, a: 2};', ["refused 30 1:15 3 1"]),
    ("u", 'x = "\\x80";', ["refused 20 1:10 1 0"]),
    ("u", "a. b();", ["refused 11 1:3 1 0"]),
    ("u", "x = -(5);", ["3 int 1:7 -5"]),
    ("u", "x = #[\\a hi];", ["2 bytes 1:5 20 68 69"]),
    ("u", "f(%{254:1,});", ["ok 514 0"]),
    ("u", "f(%{255:1,});", ["refused 31 1:514 511 0"]),
    ("u", "fun f(%{255:p%#,}) {}", ["ok 262 32385"]),
    ("u", "fun f(%{256:p%#,}) {}", ["refused 31 1:1180 256 32640"]),
    ("u", 'x = "\\u{10FFFF}";', ['2 string 1:5 "\U0010FFFF"', "ok 6 0"]),
    ("u", 'x = "\\u{D800}";', ["refused 20 1:14 1 0"]),
]

# Calls that a limit ends: levels, records, comparisons.
LIMITED = [
    ("n", "f(1);"), ("n", "x = -a;"), ("n", "{ f(a); }"), ("n", "x = || 1;"), ("n", "fun f() { g(); }"),
    ("n", "class A { m() { f(); } }"), ("n", "if (a) { f(); }"), ("n", "for (a(); b; c()) {}"),
    ("s", "x = %{63:!}a;"), ("s", "x = %{63:[}a;"), ("u", "x = %{255:!}a;"), ("u", "%{257:{}"),
    ("u", "%{205:++a;}"), ("u", "x = [%{600:1,}];"),
    ("s", "x = {%{448:k%#,}};"),
]

# The same calls where no limit ends them; the file form; what isn't UTF-8.
OTHERS = [
    ("n", "f();"), ("n", "x = a;"), ("n", "{ break; }"), ("n", "class A { m() {} }"), ("n", "let a = 1; fun f(b) {}"),
    ("s", "f(1);"), ("s", ""), ("s", "x = %{61:!}a;"), ("s", "x = {%{447:k%#,}};"), ("s", "f(1"), ("s", "from = 1;"),
    ("u", "x = %{254:!}a;"), ("u", "x = [%{500:1,}];"), ("u", "%{256:{}%{256:}}"),
    ("f", "#!/usr/bin/plush%0Af();"), ("f", "#!"), ("f", "#! a%0A  f(1);%0A"), ("f", "f();"), ("f", "#!%0A#!%0A"),
    ("f", "#!%0Afrom a import b;"), ("f", " #!%0Af();"), ("f", "#! é%0Ax = é;"), ("f", "#!a%0Db;%0Ag(;"),
    ("u", "#!%0Af();"),
    ("u", "%80"), ("u", "f();%0A %C3%28"), ("u", "é%FF"), ("s", "x = \"%ED%A0%80\";"), ("f", "#!%F4%90%80%80%0A"),
]

SMALL, LARGE = 80, 600      # bytes of most random texts, and of a few
OFTEN = 60                  # random texts that are refused with one number


def random_texts():
    """Small units, whole and damaged; of the refusals that come often, only some; and a few large ones."""
    seen = collections.Counter()
    sample = [text.encode() if isinstance(text, str) else text for text in gen.texts(["mix", "2", "9000"])]
    small = [text for text in sample if len(text) <= SMALL]
    for text, answer in zip(small, ask_all(small, "--brief")):
        seen[answer.number] += 1
        if seen[answer.number] <= (1000 if answer.ok else OFTEN):
            yield text
    yield from [text for text in sample if LARGE - 100 < len(text) <= LARGE][:20]


def all_cases():
    """The cases, each once, and those that a limit ends."""
    desk = [(letter, gen.expand(text)) for letter, text, _ in DESK]
    limited = [(letter, gen.expand(text)) for letter, text in LIMITED]
    others = [(letter, gen.expand(text)) for letter, text in OTHERS]
    picked = [("u", text) for text in gen.hand_picked(os.path.join(ROOT, "oracle", "texts", "answers.txt"))]
    units = [("u", text) for text in random_texts()]
    return list(dict.fromkeys([*desk, *limited, *others, *picked, *units])), set(limited)


# ---- the files -------------------------------------------------------------

def count(cases, answers):
    """Says what is reached, and sees that nothing is missing."""
    kinds, ends = collections.Counter(), collections.Counter()
    for answer in answers:
        lines = answer.decode().split("\n")[:-1]
        kinds.update(found[1] for found in (re.match(r"\d+ (\w+)", line) for line in lines[:-1]) if found)
        last = lines[-1].split(" ")
        ends[0 if last[0] == "ok" else int(last[1])] += 1
    missing = [kind for kind in FORMS if kind not in kinds] + [n for n in range(10, 33) if ends[n] < 2]
    assert not missing, missing
    assert len(cases) >= 2000
    print("unit_cases: %d cases, %d accepted; refused: %s" % (
        len(cases), ends[0], ", ".join("%d (%d)" % item for item in sorted(ends.items()) if item[0])))


def check_desk(cases, answers):
    told = dict(zip(cases, answers))
    assert told["u", b"f(1);"] == EXAMPLE
    for letter, text, lines in DESK:
        said = told[letter, gen.expand(text)].decode().split("\n")
        assert all(line in said for line in lines), (text, said)


def make():
    cases, limited = all_cases()
    answers = list(expected(cases, limited))
    check_desk(cases, answers)
    count(cases, answers)
    given = b"".join(b"%s %d\n%s\n" % (letter.encode(), len(text), text) for letter, text in cases)
    wanted = b"".join(answers)
    print("unit_cases: %d bytes in, %d out" % (len(given), len(wanted)))
    assert len(given) < 262144
    return {"unit_cases/stdin": given, "unit_cases/stdout": wanted,
            "plushlist/stdin": b"f(1);", "plushlist/stdout": EXAMPLE}


def main():
    check = sys.argv[1:] == ["--check"]
    if sys.argv[1:] and not check:
        sys.exit(__doc__)
    bad = 0
    for name, content in make().items():
        path = os.path.join(ROOT, "crates", name)
        if not check:
            os.makedirs(os.path.dirname(path), exist_ok=True)
            with open(path, "wb") as out:
                out.write(content)
        elif not os.path.exists(path) or open(path, "rb").read() != content:
            print("differs: crates/%s" % name)
            bad = 1
    sys.exit(bad)


if __name__ == "__main__":
    main()

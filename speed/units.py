#!/usr/bin/env python3
"""Whole units to measure on, as people write them: indented, with comments.

usage: units.py FOLDER [BYTES]    writes FOLDER/KIND, a unit, for each kind (60,000 bytes where none are said)

app: functions and statements; model: classes and dictionaries; data: tables, strings and bytes.
The same bytes on every machine: the random numbers are oracle/gen.py's.
"""

import os
import sys

sys.dont_write_bytecode = True
sys.path.insert(0, os.path.join(os.path.dirname(os.path.abspath(__file__)), "..", "oracle"))
from gen import Random

NAMES = """child week hall pupil timetable days term lesson room teacher count name key value rows late absent form
register_group absence_reason start_time teacher_initials room_number week_letter part_time house_points i x total""".split()
VERBS = "find show count list move open close mark read check sort group merge add drop".split()
WORDS = """the a hall is closed on Monday pupils bring their own lunch please see office before nine o'clock form
tutors will collect letters reply slip by Friday swimming kit needed""".split()


class Writer:
    """Writes random units."""

    def __init__(self, seed):
        self.random = Random(seed)
        self.pick = self.random.pick
        self.below = self.random.below
        self.one_in = self.random.one_in
        self.made = 0

    def name(self):
        return self.pick(NAMES)

    def fresh(self):
        self.made += 1
        return "%s_%s%d" % (self.pick(VERBS), self.pick(NAMES[:14]), self.made)

    def text(self, most=6):
        return " ".join(self.pick(WORDS) for _ in range(1 + self.below(most)))

    def string(self):
        words = self.text().replace("'", "")
        return '"%s%s"' % (words, "\\n" if self.one_in(12) else "")

    def number(self):
        return self.pick(["0", "1", "2", "10", str(self.below(100)), str(self.below(5000)), "0.25", "1.5", "0xFF"])

    def simple(self):
        return self.pick([self.name, self.name, self.name, self.number, self.string, lambda: "nil", lambda: "true"])()

    def place(self):
        n = self.below(4)
        if n == 0:
            return "%s.%s" % (self.name(), self.name())
        if n == 1:
            return "%s[%s]" % (self.name(), self.pick(["i", "0", "x", "i + 1", "key"]))
        if n == 2:
            return "self.%s" % self.name()
        return self.name()

    def called(self, depth):
        head = self.pick([self.name(), "%s.%s" % (self.name(), self.pick(VERBS)), "$%s" % self.pick(["print", "len", "time_now"])])
        return "%s(%s)" % (head, ", ".join(self.value(depth - 1) for _ in range(self.below(3))))

    def value(self, depth=2):
        n = self.below(12)
        if depth == 0 or n < 4:
            return self.simple()
        if n < 6:
            return self.place()
        if n < 8:
            return self.called(depth)
        if n == 8:
            return "%s %s %s" % (self.value(depth - 1), self.pick(["+", "-", "*", "+", "%", "/"]), self.value(depth - 1))
        if n == 9:
            return "%s + \"/\" + %s" % (self.name(), self.place())
        if n == 10:
            return "(%s)" % self.test(depth - 1)
        return "%s ? %s : %s" % (self.test(0), self.value(depth - 1), self.value(depth - 1))

    def test(self, depth=1):
        n = self.below(6)
        if n == 0 and depth:
            return "%s && %s" % (self.test(0), self.test(0))
        if n == 1 and depth:
            return "%s || !%s" % (self.test(0), self.name())
        return "%s %s %s" % (self.place(), self.pick(["==", "!=", "<", ">=", "<=", ">"]), self.simple())

    def statements(self, pad, depth, count):
        return "".join(self.statement(pad, depth) for _ in range(count))

    def block(self, pad, depth):
        return "{\n%s%s}" % (self.statements(pad + "    ", depth - 1, 1 + self.below(3)), pad)

    def statement(self, pad, depth):
        n = self.below(16)
        if n == 0:
            return "%s// %s\n" % (pad, self.text(9)) + self.statement(pad, depth)
        if depth and n == 1:
            return "%sif (%s) %s\n" % (pad, self.test(), self.block(pad, depth))
        if depth and n == 2:
            return "%sif (%s) %s else %s\n" % (pad, self.test(), self.block(pad, depth), self.block(pad, depth))
        if depth and n == 3:
            return "%sfor (let var i = 0; i < %s; ++i) %s\n" % (pad, self.value(1), self.block(pad, depth))
        if depth and n == 4:
            return "%swhile (%s) %s\n" % (pad, self.test(), self.block(pad, depth))
        if n < 8:
            return "%s%s;\n" % (pad, self.called(2))
        if n < 11:
            return "%slet %s%s = %s;\n" % (pad, "var " if self.one_in(3) else "", self.name(), self.value())
        if n < 14:
            return "%s%s %s %s;\n" % (pad, self.place(), self.pick(["=", "=", "=", "+=", "-="]), self.value())
        return "%sreturn %s;\n" % (pad, self.value())

    def params(self, first=()):
        names = list(first)
        for _ in range(self.below(4)):
            name = self.name()
            if name not in names:
                names.append(name)
        return ", ".join(names)

    def app(self):
        if self.one_in(4):
            return "let %s = %s;\n\n" % (self.fresh(), self.value())
        if self.one_in(6):
            return "let %s = |%s| %s;\n\n" % (self.fresh(), self.params(), self.value())
        note = "// %s\n// %s\n" % (self.text(10), self.text(10)) if self.one_in(2) else ""
        return "%sfun %s(%s)\n{\n%s}\n\n" % (note, self.fresh(), self.params(), self.statements("    ", 3, 3 + self.below(8)))

    def entry(self, pad, depth):
        key = self.name()
        if depth and self.one_in(3):
            return key, "%s: %s" % (key, self.dictionary(pad, depth - 1))
        return key, "%s: %s" % (key if self.one_in(2) else '"%s"' % key, self.value(1))

    def dictionary(self, pad, depth):
        held, out = [], []
        for _ in range(2 + self.below(6)):
            key, line = self.entry(pad + "    ", depth)
            if key not in held:
                held.append(key)
                out.append("%s    %s,\n" % (pad, line))
        return "{\n%s%s}" % ("".join(out), pad)

    def model(self):
        if self.one_in(3):
            return "let %s = %s;\n\n" % (self.fresh(), self.dictionary("", 2))
        parent = " extends Base" if self.one_in(3) else ""
        held = ["init"]
        out = "class %s%s\n{\n    init(%s)\n    {\n" % (self.fresh().capitalize(), parent, self.params(["self"]))
        out += "".join("        self.%s = %s;\n" % (self.name(), self.value(1)) for _ in range(2 + self.below(4))) + "    }\n"
        for _ in range(1 + self.below(5)):
            name = self.fresh()
            held.append(name)
            note = "\n    // %s\n" % self.text(8) if self.one_in(2) else "\n"
            out += "%s    %s(%s)\n    {\n%s    }\n" % (note, name, self.params(["self"]), self.statements("        ", 1, 1 + self.below(4)))
        return out + "}\n\n"

    def data(self):
        n = self.below(4)
        name = self.fresh()
        if n == 0:
            rows = ["    [%s]" % ", ".join(self.number() for _ in range(4 + self.below(6))) for _ in range(3 + self.below(8))]
            return "// %s\nlet %s = [\n%s,\n];\n\n" % (self.text(8), name, ",\n".join(rows))
        if n == 1:
            rows = ["    %s" % self.string() for _ in range(3 + self.below(8))]
            return "let %s = [\n%s\n];\n\n" % (name, ",\n".join(rows))
        if n == 2:
            runs = " ".join("\\x %s" % " ".join("%02X" % self.below(256) for _ in range(8)) for _ in range(1 + self.below(3)))
            return "let %s = #[%s];\n\n" % (name, runs)
        rows = ["    { name: %s, room: %s, days: [%s], open: %s }" % (self.string(), self.number(), ", ".join(str(self.below(7)) for _ in range(self.below(5))), self.pick(["true", "false"])) for _ in range(2 + self.below(6))]
        return "let %s = [\n%s\n];\n\n" % (name, ",\n".join(rows))


def unit(kind, size):
    writer = Writer({"app": 11, "model": 12, "data": 13}[kind])
    write = getattr(writer, kind)
    out = ""
    while True:
        more = write()
        if len((out + more).encode()) > size:
            return out
        out += more


def main():
    folder = sys.argv[1]
    size = int(sys.argv[2]) if len(sys.argv) > 2 else 60000
    for kind in ["app", "model", "data"]:
        with open(os.path.join(folder, kind), "w") as out:
            out.write(unit(kind, size))


main()

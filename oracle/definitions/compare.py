#!/usr/bin/env python3
"""Compare what the definitions say (target/oracle/model.js) with what the engine says (target/oracle/plush-oracle).

  compare.py stored FILE..       the texts of stored lists
  compare.py gen ARGS..          the texts of gen.py with these arguments
  compare.py soup SEED COUNT     random runs of tokens
  compare.py words               each keyword in each role
  compare.py file SEED COUNT     random texts in the file form, with and without a first line to skip

Compared are every record, or the refusal's number and place. Prints each text on which the two differ with the first
line of each answer that differs, then `N texts, M differ`; the status is 1 if any differs. Needs node.
"""

import concurrent.futures
import json
import os
import re
import resource
import subprocess
import sys

sys.dont_write_bytecode = True
import texts
from texts import gen

HERE = os.path.dirname(os.path.abspath(__file__))
ROOT = os.path.dirname(os.path.dirname(HERE))
ORACLE = os.path.join(ROOT, "target", "oracle", "plush-oracle")
MODEL = os.path.join(ROOT, "target", "oracle", "model.js")
PART = 1000             # texts that one run of node is given
LAST_COLUMN = 16383     # the engine's columns stop here

# Kinds by number, each with its fields: r a record, s a span of the text, n a number, u and b operators, k a string,
# y bytes, f a float, i an integer.
KINDS = """- true false nil int:i float:f string:k bytes:y array:r dict:r name:s host:s closure:r index:rr member:rs
instanceof:rs unary:ur binary:brr choice:rrr call:rr do:r assign:rr return:r assert:r break continue block:r if:rrr
for:rrrr let:nsr classdecl:r fun:nsrr class:nssr item:rr param:sr pair:rrk global:rrn stated:rr
method:rr""".split()
ITEMS = ["item", "param", "pair", "global", "stated", "method"]     # they have no position, and the listing calls each of them item
UNARY = ["-", "!"]
BINARY = "* / % + - << >> <= < >= > == != && || & ^ |".split()


class Wrong(Exception):
    """The model's records aren't what they must be, whatever the engine says."""


def expect(good, what):
    if not good:
        raise Wrong(what)


# ---- what a span of the text holds ---------------------------------------

ESCAPES = {"t": "\t", "r": "\r", "n": "\n", "0": "\0"}
SHOWN = {"\n": "\\n", "\r": "\\r", "\t": "\\t", "\0": "\\0", "\\": "\\\\", '"': '\\"'}


def string_of(literal):
    """The value of a string literal; a dictionary's key may be a name."""
    if literal[:1] not in ("'", '"'):
        return literal

    def value(found):
        code = found.group(1) or found.group(2)
        return chr(int(code, 16)) if code else ESCAPES.get(found.group(3), found.group(3))
    return re.sub(r"\\(?:x(..)|u\{(.*?)\}|(.))", value, literal[1:-1], flags=re.S)


def shown(string):
    return '"%s"' % "".join(SHOWN.get(ch) or ("\\x%02X" % ord(ch) if ord(ch) < 32 or ord(ch) == 127 else ch)
                            for ch in string)


def past_blanks(text, at):
    while True:
        found = re.compile(r"[ \t\r\n\f]+|//[^\n]*\n?").match(text, at)
        if found:
            at = found.end()
        elif text.startswith("/*", at):
            depth = 0
            while True:
                mark = text[at:at + 2]
                depth += {"/*": 1, "*/": -1}.get(mark, 0)
                at += 2 if mark in ("/*", "*/") else 1
                if depth == 0:
                    break
        else:
            return at


ASCII_RUN = re.compile(r"(?:(?!\\[xb]|//|/\*)(?:\\[ -~]|[ -\[^-~]))*")


def bytes_of(literal):
    """The values of a bytearray literal."""
    out, at = [], past_blanks(literal, 2)
    while literal[at] != "]":
        mode, at = literal[at + 1], at + 2
        if mode == "a":
            run = ASCII_RUN.match(literal, at)
            out += re.sub(r"\\(.)", lambda found: ESCAPES.get(found.group(1), found.group(1)), run.group()).encode()
            at = run.end()
        else:
            digits, base = (2, 16) if mode == "x" else (8, 2)
            at = past_blanks(literal, at)
            while literal[at] not in "\\]":
                out.append(int(literal[at:at + digits], base))
                at = past_blanks(literal, at + digits)
        at = past_blanks(literal, at)
    return out


# ---- the model's answer in the form of the oracle's ----------------------

def place_in(text, offset):
    before = text[:offset].decode()
    return before.count("\n") + 1, len(before) - before.rfind("\n")


def place_shown(line, column):
    return "%d:%d" % (line, min(column, LAST_COLUMN))


def field(text, kind, value, high, numbers):
    """A field as docs/LISTING.md prints it. `high` is the word after it."""
    if kind == "r":
        return str(numbers[value])
    if kind == "n":
        return str(value)
    if kind == "u":
        return UNARY[value - 1]
    if kind == "b":
        return BINARY[value - 1]
    if kind == "i":
        whole = value + 2**32 * high
        return str(whole - 2**64 if whole >= 2**63 else whole)
    span = text[value % 65536:value // 65536].decode()
    if kind == "s":
        return span if value else "-"
    if kind == "k":
        return shown(string_of(span))
    if kind == "y":
        return " ".join("%02X" % byte for byte in bytes_of(span))
    return ("-" if high else "") + span     # a float: its sign is the next word


def numbers_of(records):
    """New numbers for the records of the tree: those that a record refers to, and the last."""
    used = {len(records)}
    for number, (kind, fields, words) in enumerate(records, 1):
        for sort, value in zip(fields, words[4:]):
            if sort == "r":
                expect(value < number, "record %d refers to %d" % (number, value))
                used.add(value)
    used.discard(0)
    return {0: 0, **{number: k for k, number in enumerate(sorted(used), 1)}}


def listing(text, rows):
    records = []
    for row in rows:
        kind, _, fields = KINDS[int(row[0])].partition(":")
        records.append((kind, fields, [int(word) for word in row]))
    numbers, out = numbers_of(records), []
    for number, (kind, fields, words) in enumerate(records, 1):
        offset, line, column = words[1:4]
        good = (offset, line, column) == (0, 0, 0) if kind in ITEMS else (line, column) == place_in(text, offset)
        expect(good, "record %d: position %d, %d:%d" % (number, offset, line, column))
        rest = words[4 + (2 if kind in ("int", "float") else len(fields)):]
        expect(not any(rest), "record %d: %s left over" % (number, rest))
        if number not in numbers:
            continue
        line = [str(numbers[number])] + (["item"] if kind in ITEMS else [kind, place_shown(line, column)])
        line += [field(text, sort, words[4 + i], (words + [0])[5 + i], numbers) for i, sort in enumerate(fields)]
        out.append(" ".join(word for word in line if word != ""))
    return out


def model_says(text, answer):
    if "error" in answer:
        return [answer["error"]]
    place = place_shown(answer["line"], answer["column"])
    if answer["number"]:
        early = answer["number"] == 3 and (answer["records"] or answer["comparisons"])
        return ["refused %d %s%s" % (answer["number"], place, " after reading" if early else "")]
    try:
        lines = listing(text, answer["records"])
    except (Wrong, IndexError, KeyError, ValueError) as error:
        return ["wrong records: %r" % error]
    return lines + ["ok %d %s" % (len(lines), place)]


def engine_says(text, lines):
    if lines[-1] == "not-utf8":
        try:
            text.decode()
        except UnicodeDecodeError as error:
            return ["refused 3 " + place_shown(*place_in(text, error.start))]
    # The bits of a float are no part of the definitions.
    return [re.sub(r"^(\d+ float .*) [0-9A-F]{16}$", r"\1", line) for line in lines]


def difference(engine, model):
    """None, or the first lines that differ."""
    # `unclear`: accepted, but the engine's tree can't be told for certain.
    if engine == model or engine[-1] == "unclear" and model[-1].startswith("ok "):
        return None
    return next((pair for pair in zip(engine, model) if pair[0] != pair[1]), (engine[-1], model[-1]))


# ---- asking --------------------------------------------------------------

def ask_engine(part, options):
    batch = b"".join(b"TEXT %d\n%s\n" % (len(text), text) for text in part)
    run = subprocess.run([ORACLE, "--batch", *options], input=batch, stdout=subprocess.PIPE, check=True)
    answers, lines = [], []
    for line in run.stdout.decode().split("\n")[:-1]:
        lines.append(line)
        if not line[:1].isdigit():
            answers.append(lines)
            lines = []
    return answers


def deep_stack():
    # The definitions recur, some once for each byte of a text. Node alone would stop early.
    hard = resource.getrlimit(resource.RLIMIT_STACK)[1]
    resource.setrlimit(resource.RLIMIT_STACK, (hard, hard))


def ask_model(part, options):
    lines = "".join(text.hex() + "\n" for text in part)
    run = subprocess.run(["node", "--stack-size=200000", MODEL, *options], input=lines.encode(),
                         stdout=subprocess.PIPE, check=True, preexec_fn=deep_stack)
    return [json.loads(line) for line in run.stdout.decode().split("\n")[:-1]]


def differences(part, options):
    engine, model = ask_engine(part, options), ask_model(part, options)
    if not len(engine) == len(model) == len(part):
        raise SystemExit("%d texts, but %d and %d answers" % (len(part), len(engine), len(model)))
    out = []
    for text, lines, answer in zip(part, engine, model):
        found = difference(engine_says(text, lines), model_says(text, answer))
        if found:
            out.append((text, *found))
    return out


def stored(names):
    for name in names:
        with open(name, "rb") as file:
            data, at = file.read(), 0
        case = re.compile(rb"case \d+ (\d+)\n")
        while at < len(data):
            found = case.match(data, at)
            if found:
                at = found.end() + int(found.group(1))
                yield data[found.end():at]
            at = data.index(b"\n", at) + 1


def asked(how, args):
    """The texts, and the options that both sides are given."""
    if how == "stored" and args:
        return stored(args), []
    if how == "gen":
        return gen.texts(args), []
    if how == "soup":
        return texts.soup(int(args[0]), int(args[1])), []
    if how == "words":
        return texts.words(), []
    if how == "file":
        return texts.file_form(int(args[0]), int(args[1])), ["--file-form"]
    raise ValueError(how)


def main():
    try:
        found, options = asked(sys.argv[1], sys.argv[2:])
    except (IndexError, KeyError, ValueError):
        print(__doc__)
        sys.exit(2)
    every = [text.encode() if isinstance(text, str) else text for text in found]
    parts = [every[at:at + PART] for at in range(0, len(every), PART)]
    count = 0
    with concurrent.futures.ThreadPoolExecutor(os.cpu_count()) as pool:
        for differ in pool.map(lambda part: differences(part, options), parts):
            count += len(differ)
            for text, engine, model in differ:
                print("differs: %r\n   engine: %s\n   model:  %s" % (text, engine, model))
    print("%d texts, %d differ" % (len(every), count))
    sys.exit(1 if count else 0)


if __name__ == "__main__":
    main()

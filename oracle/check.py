#!/usr/bin/env python3
"""Check the oracle, its stored lists and the documents that quote it.

usage: python3 oracle/check.py [FOLDER]    (the engine's sources, default ../shared/docs/src)

Builds the oracle and the second reading, makes the stored lists and what crates/*_cases replay again and
compares them byte for byte, counts the lists' texts by answer, runs the generator
twice, runs 01's desk examples and every text quoted in docs/MESSAGES.md,
docs/LISTING.md and docs/DIFFERENCES.md.
"""

import collections
import os
import re
import subprocess
import sys

sys.dont_write_bytecode = True
import gen

HERE = os.path.dirname(os.path.abspath(__file__))
ROOT = os.path.dirname(HERE)
ORACLE = os.path.join(ROOT, "target", "oracle", "plush-oracle")
FOLDER = os.path.abspath(sys.argv[1]) if len(sys.argv) > 1 else os.path.join(ROOT, "..", "shared", "docs", "src")
LISTS = ["answers.txt", "literals.txt", "characters.txt"]
failures = []


def tell(good, what):
    print(("ok    " if good else "WRONG ") + what)
    if not good:
        failures.append(what)


def ask(text, *options):
    """The oracle's answer to one text, as lines."""
    done = subprocess.run([ORACLE, *options], input=text, stdout=subprocess.PIPE, check=True)
    return done.stdout.decode().split("\n")[:-1]


def cases(data):
    """Read a stored list as a replaying program would: text and answer, by bytes."""
    at = 0
    while at < len(data):
        head = re.compile(rb"case (\d+) (\d+)\n").match(data, at)
        start = head.end()
        text = data[start:start + int(head.group(2))]
        at = start + len(text) + 1
        answer = []
        while True:
            end = data.index(b"\n", at)
            answer.append(data[at:end])
            at = end + 1
            if not answer[-1][:1].isdigit():
                break
        yield int(head.group(1)), text, answer


def rows(name):
    """The cells of each table row in a document, without code marks."""
    for line in open(os.path.join(ROOT, "docs", name), encoding="utf-8"):
        if line.startswith("|") and not line.startswith("|---"):
            cells = [c.strip() for c in re.split(r"(?<!\\)\|", line.strip()[1:-1])]
            plain = []
            for cell in cells:
                code = re.fullmatch(r"(`+)(.*?)\1", cell)
                cell = code.group(2) if code else cell
                if code and len(code.group(1)) > 1:
                    cell = cell.strip()
                plain.append(cell.replace("\\|", "|"))
            yield plain


# ---- the stored lists ----------------------------------------------------

def check_lists():
    again = os.path.join(ROOT, "target", "oracle", "stored")
    os.makedirs(again, exist_ok=True)
    subprocess.run(["sh", os.path.join(HERE, "store"), again], check=True)
    total = collections.Counter()
    for name in LISTS:
        data = open(os.path.join(HERE, name), "rb").read()
        same = data == open(os.path.join(again, name), "rb").read()
        tell(same, "%s is made again byte for byte (%d bytes)" % (name, len(data)))
        count = collections.Counter()
        for number, (case, text, answer) in enumerate(cases(data), 1):
            assert case == number
            words = answer[-1].split()
            key = b"refused " + words[1] if words[0] == b"refused" else words[0]
            count[key.decode()] += 1
        total += count
        print("      %d texts: " % sum(count.values()) + ", ".join(
            "%s %d" % (k.replace("refused ", ""), count[k]) for k in sorted(count)))
        if name == "answers.txt":
            tell(sum(count.values()) >= 300, "answers.txt has at least 300 texts")
            few = [n for n in range(10, 33) if count["refused %d" % n] < 2]
            tell(not few, "answers.txt has each number from 10 to 32 at least twice")
    odd = [k for k in total if k in ("panic", "unclear", "unnumbered")]
    tell(not odd, "no stored answer is panic, unclear or unnumbered")
    kinds = set()
    for case, text, answer in cases(open(os.path.join(HERE, "answers.txt"), "rb").read()):
        kinds |= {line.split()[1].decode() for line in answer[:-1]}
    listed = {row[0] for row in rows("LISTING.md") if len(row) == 5} - {"Kind"} | {"item"}
    tell(kinds == listed, "answers.txt holds every kind of docs/LISTING.md (%d)" % len(listed))


def check_generator():
    for args in (["units", "5", "300"], ["mix", "5", "300"], ["prefixes", "5", "5"], ["short", "2"]):
        runs = [subprocess.run([sys.executable, os.path.join(HERE, "gen.py"), *args], stdout=subprocess.PIPE,
                               check=True).stdout for _ in range(2)]
        tell(runs[0] == runs[1], "gen.py %s gives the same texts twice" % " ".join(args))
    units = subprocess.run([sys.executable, os.path.join(HERE, "gen.py"), "units", "6", "2000"],
                           stdout=subprocess.PIPE, check=True).stdout
    done = subprocess.run([ORACLE, "--batch", "--brief"], input=units, stdout=subprocess.PIPE, check=True).stdout
    lines = done.decode().split("\n")[:-1]
    tell(len(lines) == 2000 and all(l.startswith("ok ") for l in lines), "2000 random units are all accepted")


# ---- 01's desk examples --------------------------------------------------

DESK = [
    ("f(1);", "ok 8 1:6"),
    ("", "ok 2 1:1"),
    ("x = 9223372036854775807;", "2 int 1:5 9223372036854775807"),
    ("x = -9223372036854775808;", "refused 14 1:25"),
    ("x = 0x8000000000000000;", "refused 14 1:23"),
    ("x = a ? b : c ? d : e;", "8 choice 1:5 2 3 7"),
    ("x = a ? b : c = d;", "refused 25 1:15"),
    ("fun f() {", "refused 19 1:10"),
    ("fun f() { ", "refused 13 1:11"),
    ('x = {"a": 1, a: 2};', "refused 30 1:15"),
    ('x = "\\x80";', "refused 20 1:10"),
    ("a. b();", "refused 11 1:3"),
    ("x = -(5);", "2 int 1:7 -5"),
    ("x = #[\\a hi];", "2 bytes 1:5 20 68 69"),
    ("f(%{254:1,});", "ok 514 1:513"),
    ("f(%{255:1,});", "refused 31 1:514"),
    ("fun f(%{255:p%#,}) {}", "ok 262 1:1178"),
    ("fun f(%{256:p%#,}) {}", "refused 31 1:1180"),
    ('x = "\\u{10FFFF}";', "ok 6 1:18"),
    ('x = "\\u{D800}";', "refused 20 1:14"),
]


def check_desk():
    wrong = [(t, a) for t, a in DESK if a not in ask(gen.expand(t))]
    tell(not wrong, "01's desk examples (%d)" % len(DESK) + "".join("\n      %r is not %s" % w for w in wrong))


# ---- the documents -------------------------------------------------------

def messages_in_sources():
    """Every message with its function's file, from the calls that make errors."""
    literal = re.compile(r'\s*&?(?:(?:format|concat)!\(\s*)?"((?:[^"\\]|\\.)*)"')
    for name in ("lexer.rs", "parser.rs"):
        text = open(os.path.join(FOLDER, name), encoding="utf-8").read()
        for call in re.finditer(r"\.parse_error\(|with_pos\(|msg: format!\(", text):
            found = literal.match(text, call.end())
            if not found:
                raise SystemExit("%s: an error without a literal message near byte %d" % (name, call.start()))
            yield found.group(1).replace('\\"', '"').replace("\\\\", "\\").replace("{}", "..")


def check_messages():
    table = [row for row in rows("MESSAGES.md") if row[0] != "No."]
    wrong = []
    for number, message, function, text, place in table:
        if text == "-":
            continue
        answer = ask(gen.expand(text), "--message")[-1]
        pattern = re.escape("refused %s %s " % (number, place)) + re.escape(message).replace(r"\.\.", ".*")
        if not re.fullmatch(pattern, answer):
            wrong.append("%s: %s" % (text, answer))
    tell(not wrong, "docs/MESSAGES.md: %d rows" % len(table) + "".join("\n      " + w for w in wrong))
    sources = list(messages_in_sources())
    pairs = list(zip(sources, (row[1] for row in table)))
    same = len(sources) == len(table) and all(b.startswith(a) for a, b in pairs)
    tell(same, "docs/MESSAGES.md has every message of the sources, in order (%d)" % len(sources))
    if not same:
        print("\n".join("      %s | %s" % p for p in pairs if not p[1].startswith(p[0])))


def listing(text):
    """The oracle's listing with plushlist's form of floats."""
    return [re.sub(r"^(\d+ float .*) [0-9A-F]{16}$", r"\1", line) for line in ask(text)]


def check_listing():
    wrong, count = [], 0
    for row in rows("LISTING.md"):
        if row[-1] == "Line":
            continue
        count += 1
        if row[-1] not in listing(gen.expand(row[-2])):
            wrong.append(" ".join(row[-2:]))
    page = open(os.path.join(ROOT, "docs", "LISTING.md"), encoding="utf-8").read()
    for text, block in re.findall(r"^`([^`\n]*)`[^`\n]*:\n\n```\n(.*?)\n```", page, re.M | re.S):
        count += 1
        if listing(gen.expand(text))[:-1] != block.split("\n"):
            wrong.append("whole listing of " + text)
    tell(not wrong, "docs/LISTING.md: %d examples" % count + "".join("\n      " + w for w in wrong))


def check_differences():
    wrong, count = [], 0
    for row in rows("DIFFERENCES.md"):
        if row[0] == "Text":
            continue
        count += 1
        if ask(gen.expand(row[0]))[-1] != row[1]:
            wrong.append(row[0])
    page = open(os.path.join(ROOT, "docs", "DIFFERENCES.md"), encoding="utf-8").read()
    # Quoted as: `text` has `line`
    for text, line in re.findall(r"`([^`\n]+)` has `(\d+ [^`\n]+)`", page):
        count += 1
        if line not in ask(text.encode()):
            wrong.append("%s has %s" % (text, line))
    tell(not wrong, "docs/DIFFERENCES.md: %d answers" % count + "".join("\n      " + w for w in wrong))


def check_replayed():
    """What the gate replays is what the engine says today."""
    for maker in ["cases.py", "units.py"]:
        done = subprocess.run([sys.executable, os.path.join(HERE, maker), "--check"], stdout=subprocess.PIPE)
        tell(done.returncode == 0, "%s --check: %s" % (maker, done.stdout.decode().strip().replace("\n", "\n      ")))


def main():
    subprocess.run(["sh", os.path.join(HERE, "build"), FOLDER], check=True)
    subprocess.run(["sh", os.path.join(HERE, "second", "build")], check=True)
    check_lists()
    check_replayed()
    check_generator()
    check_desk()
    check_messages()
    check_listing()
    check_differences()
    print("check: %d wrong" % len(failures))
    sys.exit(1 if failures else 0)


if __name__ == "__main__":
    main()

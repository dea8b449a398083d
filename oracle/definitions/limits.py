#!/usr/bin/env python3
"""Compare what the definitions say (target/oracle/model.js) with the second reading (target/oracle/second), under limits.

  limits.py [COUNT]    COUNT generated texts (default 16000), beside the stored and the listed ones

Each listed text, each of the proved examples and each stored one of oracle/answers.txt is read with every pool size up to the records of the unlimited
reading, with many nesting limits, and with every comparison limit up to the count. Each generated text is read with random
limits. Compared are number, place, both counts and every word of every record.

Demand 3 is run too, on every ordered pair of limits that a text was read with: an answer that no limit gave is the same with the
higher limits; otherwise its records open the later ones and no count falls.

Prints each call on which the two differ and each pair that breaks demand 3, then `N calls, M differ; P ordered pairs, Q break
demand 3`. The status is 1 if there is any.
"""

import concurrent.futures
import os
import re
import subprocess
import sys

sys.dont_write_bytecode = True
import compare
import texts
from texts import gen

SECOND = os.path.join(compare.ROOT, "target", "oracle", "second")
PART = 250                              # texts that one run of the model is given
HIGHEST = (65535, 256, 4294967295)      # records, nesting, comparisons
NESTING = list(range(13)) + [64, 200, 256, 257]
EVERY = 256                             # up to here every pool size and every comparison limit is tried
FORMS = {"string": 0, "file": 1}

# Long ones, and what the stored texts lack.
LISTED = [
    "class A extends B { init(self, x) { self.x = x; } m(self) { return || self.x; } n() { fun k(a) { return |b| a; } } }",
    "fun f(a, b, c, d) { let g = |a, b| { return a; }; } fun g() {} let h = |x| |y| x; let var k = || {}; let a = 1;",
    "x = {a, b: 1, 'c': [1, -2, - -3.5, +4], \"\\x64\": {e: || 1}, f: -(1.5)};",
    "x = a * b / c % d + e - f << g >> h <= i < j >= k > l == m != n & o ^ p | q && r || s ? t : u ? v : w;",
    "x = s || r && q | p ^ o & n != m == l > k >= j < i <= h >> g << f - e + d % c / b * a;",
    "for (let i = 0; i < n; ++i) { if (a[i].b instanceof C) { f(i, -i); } else while (!a) { a.b[c] += 1; --a[i]; } }",
    "for (;;) loop { break; continue; return; assert(a ? b : c); } while (a) f($h, #[\\a hi \\x20], \"s\");",
    "x = ((((((a)))))); y = [[[[1]]]]; z = !!!!a; w = - - - -1; v = f(g(h(i(j()))));",
    "{ { { { f(); } } } } if (a) if (b) if (c) f(); else g(); else h();",
    "let a = 1; let f = (|| 1); let var g = |x| x; let b = a; fun h() {} class f {} let c = {};",
    "class A {} class B extends A {} class C { a() {} b() {} c() {} d() {} } class A {}",
    "f(a + b * c = 1);", "x = a + b * c  ? d : e;", "x = a * b  + c;", "++a.b[c]; --a; a <<= b; a >>= c; a ^= d | e;",
    "x = " + "!" * 300 + "a;", "x = " + "(" * 130 + "a" + ")" * 130 + ";", "{" * 270 + "}" * 270,
    "f(" + ", ".join(["a"] * 254) + ");", "f(" + ", ".join(["a"] * 255) + ");",
    "fun f(" + ", ".join("a%d" % k for k in range(24)) + ") {}", "x = {%s};" % ", ".join("a%d" % k for k in range(24)),
    b"\xff", b"f\xc3\xa9\n\xed\xa0\x80", "\u00e9", " " * 65535, " " * 65536, b"\xff" * 65536,
]


QUOTED = r'\(ascii "((?:[^"\\]|\\.)*)"\)'       # a text as the examples write it


def unquoted(text):
    return re.sub(r"\\(.)", lambda m: {"n": "\n", "t": "\t", "r": "\r"}.get(m[1], m[1]), text)


def examples():
    """What the proved examples say, as they are written. They stand in specs/ or in proofs/."""
    for name in ("UnitExamples", "LimitExamples"):
        paths = [os.path.join(compare.ROOT, "crates", "unit", part, name + ".antt") for part in ("specs", "proofs")]
        with open(next(filter(os.path.exists, paths)), encoding="utf-8") as file:
            yield file.read()


def numbers_to(last):
    """Every number from 0 to the last; of very many some 40, the ends included."""
    if last <= EVERY:
        return range(last + 1)
    return sorted({last * k // 40 for k in range(41)} | {1, last - 1})


def sweep(reached):
    """Each limit alone, from nothing to what the unlimited reading needs."""
    records, comparisons = reached
    calls = [(number, *HIGHEST[1:]) for number in numbers_to(records)]
    calls += [(HIGHEST[0], nesting, HIGHEST[2]) for nesting in NESTING]
    return calls + [(*HIGHEST[:2], number) for number in numbers_to(comparisons)]


def drawn(rng, reached):
    """Random limits, most of which the reading passes."""
    records, comparisons = reached
    return (rng.below(records + 3) if rng.below(3) else HIGHEST[0],
            1 + rng.below(9) if rng.below(3) else HIGHEST[1],
            rng.below(comparisons + 2) if rng.below(2) else HIGHEST[2])


def raised(rng, limits):
    """Limits that are nowhere lower."""
    return tuple(min(limit + rng.pick([0, 1, 2, 5, 20, top]), top) for limit, top in zip(limits, HIGHEST))


def triples(rng, reached):
    calls = []
    for _ in range(2):
        low = drawn(rng, reached)
        calls += [low, raised(rng, low)]
    return calls + [HIGHEST]


# ---- asking --------------------------------------------------------------

def ask(command, calls):
    lines = "".join("%s %d %d %d %d\n" % (text.hex() or "-", *limits, FORMS[form]) for text, form, limits in calls)
    run = subprocess.run(command, input=lines.encode(), stdout=subprocess.PIPE, check=True,
                         preexec_fn=compare.deep_stack)
    answers = run.stdout.decode().split("\n")[:-1]
    if len(answers) != len(calls):
        raise SystemExit("%s: %d calls, %d answers" % (command[0], len(calls), len(answers)))
    return answers


def second(calls):
    return ask([SECOND], calls)


def model(calls):
    return ask(["node", "--stack-size=200000", compare.MODEL, "--calls"], calls)


# ---- demand 3 ------------------------------------------------------------

def split(answer):
    words = answer.split(" ", 5)
    return [int(word) for word in words[:5]], (words + [""])[5] + " "


def keeps(low, high):
    """What demand 3 says of two answers, the second with limits that are nowhere lower."""
    if low[0][0] not in (5, 6, 7):
        return low == high
    return high[1].startswith(low[1].lstrip(" ")) and low[0][3] <= high[0][3] and low[0][4] <= high[0][4]


def broken_pairs(limits, answers):
    """How many ordered pairs there are, and those that break demand 3. A nesting limit of 0 or 257 is no limit."""
    known = [(limit, split(answer)) for limit, answer in zip(limits, answers) if 1 <= limit[1] <= 256]
    count, broken = 0, []
    for low, below in known:
        for high, above in known:
            if low != high and all(a <= b for a, b in zip(low, high)):
                count += 1
                if not keeps(below, above):
                    broken.append((low, high))
    return count, broken


# ---- comparing -----------------------------------------------------------

def shown(text):
    return repr(text) if len(text) < 300 else "%r.. (%d bytes)" % (text[:60], len(text))


def compared(part):
    """Calls, pairs, and a line for each difference."""
    reached = [tuple(split(answer)[0][3:]) for answer in second([(text, form, HIGHEST) for text, form, _, _ in part])]
    limits = [how(*more, needs) for (_, _, how, more), needs in zip(part, reached)]
    calls = [(text, form, one) for (text, form, _, _), some in zip(part, limits) for one in some]
    ours, theirs = model(calls), second(calls)
    out = ["differs: %s %s %s\n   definitions: %.300s\n   second:      %.300s" % (shown(text), form, one, a, b)
           for (text, form, one), a, b in zip(calls, ours, theirs) if a != b]
    differ, pairs, breaking, at = len(out), 0, 0, 0
    for (text, _, _, _), some in zip(part, limits):
        count, broken = broken_pairs(some, ours[at:at + len(some)])
        at += len(some)
        pairs += count
        breaking += len(broken)
        out += ["breaks demand 3: %s %s %s" % (shown(text), low, high) for low, high in broken]
    return len(calls), differ, pairs, breaking, out


def chosen(count):
    """Texts with form, and how their limits are drawn."""
    for text in LISTED + [unquoted(found) for file in examples() for found in re.findall(QUOTED, file)]:
        yield text, "string", sweep, ()
    for text in compare.stored([os.path.join(compare.ROOT, "oracle", "answers.txt")]):
        yield text, "string", sweep, ()
    rng = gen.Random(11)
    kinds = [("units", gen.texts(["units", "21", str(count // 4)])), ("slips", gen.texts(["slips", "22", str(count // 4)])),
             ("damaged", gen.texts(["damaged", "23", str(count // 4)])), ("soup", texts.soup(24, count // 8))]
    for _, found in kinds:
        for text in found:
            yield text, "string", triples, (rng,)
    for text in texts.file_form(25, count // 8):
        yield text, "file", triples, (rng,)


def main():
    count = int(sys.argv[1]) if len(sys.argv) > 1 else 16000
    every = [(text.encode() if isinstance(text, str) else text, *rest) for text, *rest in chosen(count)]
    totals = [0, 0, 0, 0]
    with concurrent.futures.ThreadPoolExecutor(os.cpu_count()) as pool:
        for *numbers, lines in pool.map(compared, [every[at:at + PART] for at in range(0, len(every), PART)]):
            totals = [a + b for a, b in zip(totals, numbers)]
            for line in lines:
                print(line)
    print("%d calls, %d differ; %d ordered pairs, %d break demand 3" % tuple(totals))
    sys.exit(1 if totals[1] or totals[3] else 0)


if __name__ == "__main__":
    main()

#!/usr/bin/env python3
"""Put slips into the definitions, one at a time, and see what tells each apart.

  slips.py [WORD]    the slips of slips.txt, or those whose first line has the word in it

Each slip is put into a copy of crates/*/specs, and the copy becomes a model of its own (model.py). It is told apart by
  examples   the texts and limits of UnitExamples.antt and LimitExamples.antt: what they prove would no longer hold
  replays    the stored texts of oracle/answers.txt: the record of a whole tree, or number and place, would no longer be the engine's
  second     calls under limits: the answer would no longer be the second reading's
Of UnitExamples.antt the five numbers of an answer alone count, because the rules' row functions stand on both sides there. The stored
texts are asked where the examples don't tell. Of the second reading, calls are asked until one differs, those of the examples first.

Prints a line for each slip that the examples don't tell, or that survives, then `N slips: ..`. A slip survives if examples and
replays together don't tell it, or the second reading doesn't. The status is 1 if one does, and 2 if slips.txt must be brought up to
the definitions. Needs what limits.py needs, and `python3 oracle/definitions/model.py` run before.
"""

import concurrent.futures
import json
import os
import re
import shutil
import subprocess
import sys
import tempfile

sys.dont_write_bytecode = True
import compare
import limits

HERE = compare.HERE
CHUNK = 150         # calls that are asked before the answers are looked at
LONG = 1000         # a text of more bytes is long


def slips(word):
    """Title, file, old words, new words and further `use` lines of each."""
    with open(os.path.join(HERE, "slips.txt"), encoding="utf-8") as file:
        paragraphs = file.read().strip().split("\n\n")[1:]
    for paragraph in paragraphs:
        title, name, old, new, *uses = paragraph.split("\n")
        if word in title:
            yield title, name, old[2:], new[2:], uses


# ---- the calls of the examples -------------------------------------------

# What of an answer an example states: the five numbers, every word of the records, or the operator of each binary.
def five(answer):
    return answer.split(" ")[:5]


def rows(answer):
    return answer.split(" ")[5:]


def operators(answer):
    words = rows(answer)
    return [words[at + 4] for at in range(0, len(words), 8) if words[at] == "17"]


QUOTED = limits.QUOTED
MOST = 4294967295
SHAPES = [
    # how an example is written, its text with limits and form, and what it states
    (r"\bAnswers " + QUOTED, lambda m: (m[1], (1024, 256, MOST), "string"), five),
    (r"\bNested (\d+) " + QUOTED, lambda m: (m[2], (1024, int(m[1]), MOST), "string"), five),
    (r"\bPooled (\d+) " + QUOTED, lambda m: (m[2], (int(m[1]), 256, MOST), "string"), five),
    (r"\bCompared (\d+) " + QUOTED, lambda m: (m[2], (1024, 256, int(m[1])), "string"), five),
    (r"\bdrawn " + QUOTED + r" (\d+)", lambda m: (m[1], (1024, int(m[2]), MOST), "string"), five),
    (r"\bentered " + QUOTED + r" (\d+) (\d+) (\d+) (true|false)",
     lambda m: (m[1], (int(m[2]), int(m[3]), int(m[4])), "file" if m[5] == "true" else "string"), five),
    (r"\bRows " + QUOTED, lambda m: (m[1], (1024, 256, MOST), "string"), rows),
    (r"\bunit " + QUOTED + r" (\d+)", lambda m: (m[1], (1024, int(m[2]), MOST), "string"), operators),
]
# The texts that LimitExamples.antt has without writing them out.
UNWRITTEN = [(b" " * 65536, "string", (1024, 0, 0)), (b" " * 65535, "string", (1024, 0, 0)),
             (b"f(" + b"1," * 253 + b"1);", "string", (1024, 256, MOST)),
             (b"f(" + b"1," * 254 + b"1);", "string", (1024, 256, MOST)),
             ('x = "\u00e9" + ;'.encode(), "string", (1024, 256, MOST))]


def example_calls():
    """The calls of the examples, and what each example states."""
    calls, states = list(UNWRITTEN), [five] * len(UNWRITTEN)
    for text in limits.examples():
        for pattern, read, stated in SHAPES:
            for found in re.finditer(pattern, text):
                quoted, limit, form = read(found)
                calls.append((limits.unquoted(quoted).encode(), form, limit))
                states.append(stated)
    return calls, states


# ---- a model with a slip -------------------------------------------------

def spec_of(root, name):
    """A spec file's path and its text."""
    crate, file = name.split("/")
    path = os.path.join(root, "crates", crate, "specs", file + ".antt")
    with open(path, encoding="utf-8") as spec:
        return path, spec.read()


def outdated(every):
    """A line for each slip whose words don't stand in their file once: a definition was moved or said anew."""
    for title, name, old, _, _ in every:
        count = spec_of(compare.ROOT, name)[1].count(old)
        if count != 1:
            yield "%s: stands %d times in %s: %s" % (title, count, name, old)


def copy_with(slip, folder):
    """The model of the definitions with this slip."""
    title, name, old, new, uses = slip
    for crate in sorted(os.listdir(os.path.join(compare.ROOT, "crates"))):
        source = os.path.join(compare.ROOT, "crates", crate, "specs")
        if os.path.isdir(source):
            shutil.copytree(source, os.path.join(folder, "crates", crate, "specs"))
    os.makedirs(os.path.join(folder, "oracle", "definitions"))
    for file in ("model.py", "hand.js"):
        shutil.copy(os.path.join(HERE, file), os.path.join(folder, "oracle", "definitions"))
    path, text = spec_of(folder, name)
    head, _, rest = text.partition("\nuse ")
    with open(path, "w", encoding="utf-8") as spec:
        spec.write("\n".join([head, *uses]) + "\nuse " + rest.replace(old, new))
    made = subprocess.run([sys.executable, os.path.join(folder, "oracle", "definitions", "model.py")],
                          stdout=subprocess.PIPE, stderr=subprocess.STDOUT)
    if made.returncode:
        raise SystemExit("%s: %s" % (title, made.stdout.decode()))
    return os.path.join(folder, "target", "oracle", "model.js")


def ask(model, calls):
    return limits.ask(["node", "--stack-size=200000", model, "--calls"], calls)


def trees(model, texts):
    lines = "".join(text.hex() + "\n" for text in texts)
    run = subprocess.run(["node", "--stack-size=200000", model], input=lines.encode(), stdout=subprocess.PIPE, check=True,
                         preexec_fn=compare.deep_stack)
    return [compare.model_says(text, json.loads(line)) for text, line in zip(texts, run.stdout.decode().split("\n"))]


class Base:
    """What the definitions say without a slip, and the second reading."""

    def __init__(self):
        self.calls, self.states = example_calls()
        self.examples = self.stated(ask(compare.MODEL, self.calls))
        self.stored = list(compare.stored([os.path.join(compare.ROOT, "oracle", "answers.txt")]))
        self.trees = trees(compare.MODEL, self.stored)
        self.further = list(further_calls())
        self.second = limits.second(self.calls), limits.second(self.further)

    def stated(self, answers):
        return [states(answer) for states, answer in zip(self.states, answers)]

    def told_further(self, model):
        parts = (slice(at, at + CHUNK) for at in range(0, len(self.further), CHUNK))
        return any(ask(model, self.further[part]) != self.second[1][part] for part in parts)

    def told(self, slip):
        """Whether examples, replays and second reading tell it."""
        with tempfile.TemporaryDirectory() as folder:
            model = copy_with(slip, folder)
            answers = ask(model, self.calls)
            by_examples = self.stated(answers) != self.examples
            by_replays = not by_examples and trees(model, self.stored) != self.trees
            return by_examples, by_replays, answers != self.second[0] or self.told_further(model)


def further_calls():
    """The texts of limits.py, of the generated ones some, with their limits. The long ones come first without, and last with limits."""
    chosen = [(text.encode() if isinstance(text, str) else text, *rest) for text, *rest in limits.chosen(400)]
    chosen.sort(key=lambda one: len(one[0]) > LONG)
    yield from ((text, form, limits.HIGHEST) for text, form, _, _ in chosen if LONG < len(text) < 60000)
    reached = limits.second([(text, form, limits.HIGHEST) for text, form, _, _ in chosen])
    for (text, form, how, more), answer in zip(chosen, reached):
        needs = tuple(limits.split(answer)[0][3:])
        yield from ((text, form, one) for one in how(*more, needs))


def main():
    every = list(slips(sys.argv[1] if len(sys.argv) > 1 else ""))
    lost = list(outdated(every))
    if lost:
        print("\n".join(lost))
        sys.exit(2)
    base = Base()
    counts, survivors = [0, 0, 0], 0
    with concurrent.futures.ThreadPoolExecutor(os.cpu_count()) as pool:
        for slip, told in zip(every, pool.map(base.told, every)):
            counts = [count + one for count, one in zip(counts, told)]
            survives = not (told[0] or told[1]) or not told[2]
            survivors += survives
            if survives or not told[0]:
                by = [name for name, one in zip(("examples", "replays", "second reading"), told) if one]
                print("%s: told by %s%s" % (slip[0], ", ".join(by) or "nothing", "; SURVIVES" if survives else ""), flush=True)
    print("%d slips: %d told by the examples, %d more by the stored answers, %d by the second reading; %d survive"
          % (len(every), *counts, survivors))
    sys.exit(1 if survivors else 0)


if __name__ == "__main__":
    main()

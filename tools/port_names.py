#!/usr/bin/env python3
"""Spells the repository's own definitions and lemmas in snake case, as today's Rattle spells its own.

usage: python3 tools/port_names.py [--check]

It runs once, at the top of the repository, on files that the kit's port.py has turned. A name is turned where a file of specs/ or a file of
lemmas of proofs/ declares it in small letters: `byteAt` becomes `byte_at`, `in-text` becomes `in_text`. What Rattle itself makes from the code
(goals, steps, their fields) is left alone, and so are types, modules and the names of src/.
Files of crates/ are turned, must-fail edits too, and in the pages what stands between backquotes. --check writes nothing. It stops where two names would fall together.
"""

import os
import re
import sys

HERE = os.path.dirname(os.path.dirname(os.path.realpath(__file__)))
CUT = r"[^\s(){}.;,@\"«»`\\]"
DECLARED = re.compile(r"(?m)^ *(?:(?:pub|abbrev|unfoldable|open) )*([^\s:(){}]+)(?: \{[^{}\n]*\}| \([^()\n]*\))* :(?= |$)")
# Lemmas that would fall together, in one file, with the definition that they speak of.
IN_ONE_FILE = {
    "crates/characters/specs/BlankLaws.antt": "line_on",
    "crates/records/specs/Laws/Nodes.antt": "row_at",
    "crates/readers/specs/Laws/Operands.antt": "row_at",
    "crates/literals/specs/ByteArrayStable.antt": "ascii_by",
    "crates/characters/proofs/Utf8Steps.antt": "opened_in",
    "crates/grammar/proofs/Heading.antt": "step_by",
}
# What Rattle makes of the code, in proof files that walk it.
MADE = re.compile(r"(?m)^(?:pub )?(\S+) : (?:tie|goal|[\w']+-lts|[\w']+)\.(?:Need|Goal|InvT|MeasureT)")


def paths(*ends):
    for folder, dirs, files in os.walk(os.path.join(HERE, "crates")):
        dirs[:] = sorted(d for d in dirs if d != "out")
        yield from (os.path.join(folder, f) for f in sorted(files) if f.endswith(ends))


def read(path):
    with open(path, encoding="utf-8") as f:
        return f.read()


def of_lemmas(path):
    rest = path.split("/proofs/")[-1] if "/proofs/" in path else ""
    return "/specs/" in path or (rest and "/" not in rest)


def of_libraries(text):
    """The names that a file imports from the kit's libraries: those stay."""
    own = "|".join(sorted(os.listdir(os.path.join(HERE, "crates"))))
    found = set()
    for path, items in re.findall(r"\buse ([^\s;{]+)\.\{([^}]*)\}", text):
        if not re.match(rf"Rattle\.({own})\.", path):
            found |= {w.split(" as ")[0].strip() for w in items.split(",")}
    return found


def snake(name):
    words = re.sub(r"(?<=[a-z0-9])([A-Z])", lambda m: "_" + m[1].lower(), name)
    return re.sub(r"(?<=[\w'])-(?=[\w'])", "_", words)


def table():
    declared, made = set(), set()
    for path in paths(".antt"):
        text = read(path)
        if of_lemmas(path):
            declared |= {n for n in DECLARED.findall(text) if n[:1].islower() and n[:1].isascii()}
        else:
            made |= set(MADE.findall(text))
    turned = {n: snake(n) for n in declared}
    # A lemma that would have its definition's name gets `_lem`, as in the kit's library. Where both are in no one file, both keep the name.
    taken = {n for n in declared if "-" not in n}
    taken = {turned[n] for n in taken}
    turned = {a: b + "_lem" * ("-" in a and b in taken) for a, b in turned.items()}
    turned = {a: b for a, b in turned.items() if a != b}
    return turned, declared, made


def clashes(turned, declared, made):
    new = {}
    for a in sorted(declared):
        new.setdefault(turned.get(a, a), []).append(a)
    known = {"ascii_by", "goes_on", "let_by", "line_on", "name_by", "opened_in", "step_by"}
    yield from (f"{b}: {', '.join(a)}" for b, a in new.items() if len(a) > 1 and b not in known)
    yield from (f"{a}: a goal has this name too" for a in sorted(set(turned) & made))


def main():
    turned, declared, made = table()
    found = list(clashes(turned, declared, made))
    for line in found:
        print(line)
    print(f"{len(declared)} names are declared, {len(turned)} are turned")
    if found or "--check" in sys.argv:
        return int(bool(found))
    each = "|".join(map(re.escape, sorted(turned, key=len, reverse=True)))
    name = re.compile(rf"(?<!{CUT})({each})(?!{CUT})")
    for path in paths(".antt", ".rt", ".edit"):
        old = read(path)
        here = IN_ONE_FILE.get(os.path.relpath(path, HERE))
        new = re.sub(rf"(?<!{CUT}){here}(?!{CUT})", f"{here}_lem", old) if here else old
        kept = of_libraries(old)
        new = name.sub(lambda m: m[1] if m[1] in kept else turned[m[1]], new)
        if new != old:
            with open(path, "w", encoding="utf-8") as f:
                f.write(new)
    # Rattle makes a module `contracts` of each crate's clauses, so no file of specs/ may be called so.
    old, new = (os.path.join(HERE, "crates/makers/specs", f) for f in ("Contracts.antt", "Duties.antt"))
    if os.path.exists(old):
        os.rename(old, new)
        for path in paths(".antt", ".rt", ".edit"):
            text = read(path)
            turned_text = text.replace("makers.specs.Contracts.", "makers.specs.Duties.")
            if path.endswith("makers/specs/Lib.antt"):
                turned_text = text.replace("pub mod Contracts", "pub mod Duties")
            if turned_text != text:
                with open(path, "w", encoding="utf-8") as f:
                    f.write(turned_text)
    pages = [os.path.join(HERE, "README.md")] + [os.path.join(HERE, "docs", f) for f in sorted(os.listdir(os.path.join(HERE, "docs"))) if f.endswith(".md")]
    for path in pages:
        old = read(path)
        new = re.sub(r"`[^`\n]+`", lambda q: name.sub(lambda m: turned[m[1]], q[0]), old)
        if new != old:
            with open(path, "w", encoding="utf-8") as f:
                f.write(new)
    return 0


if __name__ == "__main__":
    raise SystemExit(main())

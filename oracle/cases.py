#!/usr/bin/env python3
"""Make the lists that the programs crates/*_cases replay, and what they must write.

  cases.py           writes stdin and stdout of each program
  cases.py --check   compares them with what it would write

A list is what the crate `cases` reads: for each case its kind and length, the
bytes, a line end. What must be written comes from the engine's reader
(target/oracle/plush-oracle) or from Python's strict UTF-8 decoder, never from
the programs. Where an answer takes more than one question, the questions are
stated here beside it, and each is checked against the others.
"""

import os
import re
import subprocess
import sys

ROOT = os.path.dirname(os.path.dirname(os.path.abspath(__file__)))
ORACLE = os.path.join(ROOT, "target", "oracle", "plush-oracle")

RESERVED = """true false nil let var fun class extends if else loop while for return break
continue assert instanceof import try catch finally throw yield do in match export""".split()


# ---- asking the oracle -----------------------------------------------------

class Answer:
    """The tree's lines and the last line of an answer."""

    def __init__(self, lines):
        self.lines = lines[:-1]
        self.tree = [line.split(" ") for line in self.lines]
        self.last = lines[-1]
        words = self.last.split(" ")
        self.ok = words[0] == "ok"
        self.number = int(words[1]) if words[0] == "refused" else None
        self.place = place(words[2]) if words[0] in ("ok", "refused") else None
        self.message = " ".join(words[3:])

    def unit(self):
        """The position of an accepted unit: after the leading blanks."""
        return place(self.tree[-1][2])

    def unclosed(self):
        return self.number == 19 and self.message.endswith("inside multi-line comment")


def ask_all(texts, *options):
    """The answers to texts, as bytes or strings, in one run."""
    texts = [t.encode() if isinstance(t, str) else t for t in texts]
    batch = b"".join(b"TEXT %d\n%s\n" % (len(t), t) for t in texts)
    run = subprocess.run([ORACLE, "--batch", "--message", *options], input=batch, stdout=subprocess.PIPE, check=True)
    answers, lines = [], []
    for line in run.stdout.decode().split("\n")[:-1]:
        lines.append(line)
        if not line[:1].isdigit():
            answers.append(Answer(lines))
            lines = []
    assert len(answers) == len(texts) and not lines
    return answers


def ask(text, *options):
    return ask_all([text], *options)[0]


# ---- places ----------------------------------------------------------------

def place(text):
    line, column = text.split(":")
    return int(line), int(column)


def shown(at):
    return "%d:%d" % at


def after(text):
    """The place after a text: lines and columns count characters, LF starts a line."""
    return text.count("\n") + 1, len(text) - (text.rfind("\n") + 1) + 1


def before(text, at):
    """The part of a text before a place."""
    for i in range(len(text) + 1):
        if after(text[:i]) == at:
            return text[:i]
    raise AssertionError("no such place")


# ---- blanks ----------------------------------------------------------------

def closed_by(text):
    """An unclosed comment stands in nothing but blanks: some number of ends makes it so."""
    return any(ask(text + " */" * n + ";").number == 29 for n in range(1, 12))


def blanks(text):
    """The blanks that a text begins with.

    A unit's position, 13 and 29 stand at its first token. All before it is
    blank: with `;` put there instead, the engine says 29 at the same place. In
    a `//` that the text leaves open, `;` is put on the next line.
    """
    answer = ask(text)
    if answer.unclosed():
        assert closed_by(text), text
        return "19 " + shown(answer.place)
    assert answer.ok or answer.number in (13, 29), (text, answer.last)
    at = answer.unit() if answer.ok else answer.place
    here, line = ask(before(text, at) + ";"), ask(text + "\n;")
    if (here.number, here.place) != (29, at):
        assert answer.ok and (line.number, line.place) == (29, (at[0] + 1, 1)), (text, here.last)
    return shown(at)


def blank_texts():
    yield from ["", "f();", ";", "é", "漢();", "😀"]
    some = [" ", "\t", "\n", "\f", "\r", "\r\n", "//c\n", "/*c*/"]
    for a in some:
        yield a
        yield a + "f();"
        for b in some:
            yield a + b
    yield from [" \t\n\f\r f();", "\n\n\n   f();", "\r\r1();", "\t\tf();", "\n\f\n\r\n\tf();"]
    # what is no blank
    for code in [0, 1, 8, 11, 14, 27, 28, 31, 127, 0x85, 0xA0, 0x1680, 0x200B, 0x2028, 0x2029, 0x3000, 0xFEFF,
                 0x10FFFF]:
        yield chr(code)
        yield "\n " + chr(code)
        yield chr(code) + " "
        yield "/* " + chr(code) + " */ f();"
        yield "// " + chr(code) + "\nf();"
    yield from ["/", " / ", "/ /", "/ * */", "*/", " */", "*", "\\", "/\n/", "/\n* */", "#! c", "#", "/ /* */"]
    # `//` ends at LF alone
    yield from ["//", "// c", "///", "////\n", "//\n", "//\n//\n", "//\r;", "// c\rf();", "// c\r\nf();",
                "// c\x0bf();",
                "// c\ff();", "// \u2028f();", "// \x00f();", "// /*\nf();", "// */ f();", "// \\\nf();", "//*\nf();",
                "//*/\nf();",
                "// a\n // b\n\t// c\nf();", "// é漢😀", "// é漢😀\n é"]
    # nested comments
    yield from ["/*", "/**", "/***", "/*/", "/**/", "/***/", "/****/", "/*/ */", "/*/ */f();", "/*/*/", "/*//*/",
                "/*//*/*/", "/*//*/*/f();",
                "/*/**/", "/*/**/*/", "/*/**/*/f();", "/* * /", "/* *", "/* */ */", "/**/*/", "/**//**/",
                "/**/ /**/\n/**/f();",
                "/* // */ f();", "/* // \n */ f();", "/* \" */ f();", "/*\n\n*/ f();", "/*\n", "/*\r*/ f();",
                "/*\x00*/ f();", "/*\x00",
                "/*\x0b*/ f();", "/*\\*/ f();", "/* c */ // d\n /* e */ f();", "// /*\n/* // */;", "/*é*/f();",
                "/*漢😀*/ f();",
                "/*\n漢\n😀é*/f();", "/*é", "/*\né", "/*é/*漢*/😀*/é", "/*😀*/ // é\n\t漢();", "/*\u2028*/f();",
                "/*/é*/f();", "/**é*/f();", "/*é/", "/*é*"]
    for deep in range(1, 6):
        for ends in range(deep + 1):
            yield "/*" * deep + "*/" * ends
            yield "/* " * deep + "\n" + "*/é" * ends
        yield "/*" * deep + "*/" * deep + "f();"
        yield "/*" * deep + "*/" * (deep + 1)
    whole = "/* a /* b\n*/ é */ // d\n /**/\r\n\tf();"
    parts = [whole[:i] for i in range(len(whole))]
    yield from (p for p, a in zip(parts, ask_all(parts)) if a.number in (None, 13, 29) or a.unclosed())


# ---- names -----------------------------------------------------------------

def free_name(text):
    """The name of a function, directly after `fun `.

    11 and 12 come where the name would begin; 10 comes at the place after it,
    if no blank and no `(` is there. Otherwise the text stands as a value, and
    the tree shows the name that was read.
    """
    answer = ask("fun " + text + "@")
    assert not text[:1].isspace() and answer.number in (10, 11, 12), (text, answer.last)
    if answer.number != 10 and answer.place == (1, 5):
        return "%d 1:1" % answer.number
    if not re.search(r"[\s(/]", text):
        assert answer.number == 10
        return shown((answer.place[0], answer.place[1] - 4))
    answer = ask("x = " + text)
    assert answer.ok and answer.tree[1][1:3] == ["name", "1:5"], (text, answer.last)
    return shown((1, 1 + len(answer.tree[1][3])))


def member_name(text):
    """The name of a member, directly after `.`, where reserved words are names: 11, or 10 at the place after it."""
    answer = ask("x = a." + text + "@")
    assert answer.number in (10, 11), (text, answer.last)
    at = shown((answer.place[0], answer.place[1] - 6))
    return at if answer.number == 10 else "11 " + at


def name_texts():
    yield from ["", "a", "z", "A", "Z", "_", "__", "_1", "a1", "aB_9", "A_", "_a", "a__b", "a0123456789", "from",
                "self", "init", "this", "new"]
    yield "abcdefghijklmnopqrstuvwxyzABCDEFGHIJKLMNOPQRSTUVWXYZ_0123456789"
    yield from ["0", "9", "1a", "9_", "-", "-a", ".", ".a", "@", "@a", "`", "`a", "[", "[a", "{", "{a", "^", "\\",
                "$a", "#a", "\"a\"", "é", "éa", "漢",
                "１", "ª", "\x00", "\x7f", "ａ"]
    yield from ["a-b", "a.b", "a@", "a[", "a`", "a{", "a^", "a:", "a;", "a\\", "a$", "a#", "a\"", "aé", "a漢b", "a😀",
                "a１", "aß", "a\x00b", "a\x7f",
                "a\u0301", "a_é", "a9é", "_é", "aªb", "aａ"]
    yield from ["a ;", "a\t;", "a\n;", "a/**/;", "a(1);", "a /2;", "a.b (c);", "truely ;", "in_ ;"]
    for word in RESERVED:
        yield from [word, word + "é", word + "-", word + "s", word + "_", word + "1",
                    "_" + word, word[:-1], word[1:], word + word]
        yield from [word.capitalize(), word.upper(), word[:-1] + word[-1].upper(), word[:-1] + chr(ord(word[-1]) ^ 1)]


def member_texts():
    yield from ["", "a", "_", "Z9", "aé", "a漢", "a@", "a#", "a$", "a\\", "1", "1a", "é", "@", ".b", "-", "\x00",
                "a\x00"]
    yield from [" a", "\ta", "\na", "/**/a", "//\na"]
    for word in RESERVED:
        yield word


# ---- keywords --------------------------------------------------------------

def keyword(case):
    """Whether the keyword `break` stands after blanks.

    The blanks are followed by `;`: 29 says where they end. The word after them
    and `;` are a break in the tree or are not; a break and `@` are 10 at the
    place after it. The text itself agrees: a break, 10 there or further on, or
    neither.
    """
    blank, rest = case
    answer = ask(blank + rest)
    if answer.unclosed():
        assert rest == "" and closed_by(blank)
        return "19 " + shown(answer.place)
    here = ask(blank + ";")
    assert here.number == 29 and here.place == after(blank)
    line = ["1", "break", shown(here.place)]
    word = re.match(r"[A-Za-z_0-9]*", rest).group()
    if line not in ask(blank + word + ";").tree:
        assert line not in answer.tree and answer.place != (here.place[0], here.place[1] + 5), (case, answer.last)
        return "missing " + shown(here.place)
    end = ask(blank + word + "@")
    assert end.number == 10 and end.message == 'expected token ";"', (case, end.last)
    assert line in answer.tree or answer.number == 10 and answer.place >= end.place, (case, answer.last)
    return "found %s %s" % (shown(here.place), shown(end.place))


def keyword_texts():
    for blank in ["", " ", "\n\t", "/* c */", "// é\n", "/*é*/\r\n"]:
        for rest in ["break;", "break ;", "break/**/;", "break\n;", "break", "break1();", "breaks();", "break_();",
                     "breakbreak();", "brea();", "b();"]:
            yield blank, rest
    for rest in ["", ";", "1();", "é", "breaké", "break漢", "break(", "break\"", "break.", "break-", "break@", "break`",
                 "break{", "break[", "break/",
                 "break:", "break\x00", "break\x7f", "break\x0b", "break１", "breakA();", "breakZ();", "breaka();",
                 "breakz();", "break0();",
                 "break9();", "Break();", "BREAK();", "breaK();", "bbreak();", "_break();", "xbreak();", "1break();",
                 "reak();", "bre ak();",
                 "bre_ak();", "breal();", "breaj();", "continue;", "br\u00e9ak();", "\\break"]:
        yield "", rest
    for blank in ["/*", "/*break", " /* /* */ break", "//\n/*"]:
        yield blank, ""


# ---- the file form ---------------------------------------------------------

def file_start(text):
    """Where the file form begins: a line was skipped if it changes the answer, and then the unit stands after it."""
    plain, filed = ask(text), ask(text, "--file-form")
    if plain.last == filed.last and plain.tree == filed.tree:
        return "1:1"
    assert filed.ok or filed.number in (13, 29), (text, filed.last)
    at = filed.unit() if filed.ok else filed.place
    assert text[len(before(text, at)) - 1] == "\n" or before(text, at) == text, text
    return shown(at)


def file_texts():
    yield from ["", "#", "!", "#!", "#!\n", "#!\n;", "#!a", "#!a\n", "#!a\n;", "#!/usr/bin/plush\nf();", "#!a\n#!b\n;",
                "#!a\rb;", "#!a\rb\n;",
                "#!a\r\n;", "#!a\x00;", "#!\x00\n;", "#!é", "#!é漢😀\n;", "#!é\né", "#!/*\n;", "#!//\n;", "#!\\\n;",
                "#!\"\nf();", "#!a\x0b\n;", "#!a\f\n;",
                "#!a\u2028;", "#!a\u0085;", "#!!", "#!#!", "##!", "# !\n;", " #!\n;", "\n#!\n;", "!#\n;", "f();#!\n;",
                "/**/#!\n;", "#[\n;", "#a\n;", "##\n;",
                "\ufeff#!\n;", "\u0000#!\n;", "f();", ";", "é", "#é!\n;", "＃!\n;"]


# ---- characters ------------------------------------------------------------

def characters(text):
    """Each character with its place, then the end: NUL, and the column still moves.

    The last place is the engine's too, where the text can stand in an open string.
    """
    if not re.search(r"[\"\\]", text):
        end = ask('"' + text)
        line, column = after(text)
        assert end.number == 19 and end.place == (line, column + (line == 1)), (text, end.last)
    parts = ["%s=%x" % (shown(after(text[:i])), ord(ch)) for i, ch in enumerate(text)]
    line, column = after(text)
    return " ".join(parts + ["%s=0" % shown((line, column)), shown((line, column + 1))])


def character_texts():
    yield from ["", "a", "ab\nc", "\n", "\n\n", "\r\n", "\r", "\t", "\x00", "\x00a", "\x0b\f", "\x7f", "é", "aé\né",
                "漢字", "😀", "a漢😀é\n😀\n漢a",
                "e\u0301", "\u2028a", "\u0085a", "\ufeffa", "\u200da", "a\n\ufffd\ufffe\uffff", "\"\\",
                "é" * 20, "\n" * 9 + "é"]
    for code in [0x7F, 0x80, 0xBF, 0xC0, 0xFF, 0x7FF, 0x800, 0xFFF, 0x1000, 0xCFFF, 0xD000, 0xD7FF, 0xE000, 0xFFFD,
                 0xFFFF, 0x10000, 0x1FFFF, 0x3FFFF,
                 0x40000, 0xFFFFF, 0x100000, 0x10FFFF]:
        yield "a" + chr(code) + "b"


# ---- UTF-8 -----------------------------------------------------------------

def utf8(text):
    """Whether bytes are UTF-8, and the place after the well-formed prefix, by Python's strict decoder.

    Rust's decoder, which the oracle asks first, agrees on whether.
    """
    try:
        good, word = text.decode("utf-8", "strict"), "ok"
    except UnicodeDecodeError as error:
        good, word = text[:error.start].decode("utf-8", "strict"), "3"
    assert (ask(text).last == "not-utf8") == (word == "3")
    return "%s %s" % (word, shown(after(good)))


# RFC 3629: the rows of `UTF8-octets`, each the ranges of its bytes.
TAIL = (0x80, 0xBF)
ROWS = [[(0x00, 0x7F)], [(0xC2, 0xDF), TAIL], [(0xE0, 0xE0), (0xA0, 0xBF), TAIL], [(0xE1, 0xEC), TAIL, TAIL], [(0xED,
        0xED), (0x80, 0x9F), TAIL],
        [(0xEE, 0xEF), TAIL, TAIL], [(0xF0, 0xF0), (0x90, 0xBF), TAIL, TAIL], [(0xF1, 0xF3), TAIL, TAIL, TAIL], [(0xF4,
        0xF4), (0x80, 0x8F), TAIL, TAIL]]


def utf8_texts():
    # the first and the last of each row, each byte one below and one above its range, each cut
    for row in ROWS:
        first, last = bytes(low for low, _ in row), bytes(high for _, high in row)
        for good in (first, last):
            yield good
            yield b"a\n" + good + b"b"
            for i in range(1, len(good)):
                yield good[:i]
                yield good[:i] + b"a"
                yield good[:i] + b"\n" + good[i:]
                yield b"\xc3\xa9" + good[:i] + good
            for i, (low, high) in enumerate(row):
                for out in (low - 1, high + 1):
                    if 0 <= out < 256:
                        yield b"a" + good[:i] + bytes([out]) + good[i + 1:]
            yield good + b"\x80"
    # each byte that opens no character
    for lead in list(range(0x80, 0xC2)) + list(range(0xF5, 0x100)):
        yield bytes([lead])
        yield b"\n\xc3\xa9" + bytes([lead]) + b"\x80\x80\x80"
    # overlong forms, surrogates, above 10FFFF, five and six bytes
    for text in ["C080", "C0AF", "C1BF", "E08080", "E080AF", "E09FBF", "F0808080", "F08080AF", "F08FBFBF",
                 "F8808080AF", "FC80808080AF", "F8888080 80",
                 "FC8480808080", "EDA080", "EDAFBF", "EDB080", "EDBFBF", "EDA080EDB080", "EDAFBFEDBFBF", "F4908080",
                 "F4BFBFBF", "F5808080", "F7BFBFBF",
                 "FE", "FF", "FEFEFFFF", "EFBBBF", "EFBFBD", "EFBFBE", "EFBFBF", "CEBAE1BDB9CF83CEBCCEB5", "C3A9C3",
                 "E2828ac3a9", "F09F98 80F09F98", "61FF62FF"]:
        yield bytes.fromhex(text)
    yield from [b"", b"abc", b"a\nb\n", b"\n\n\xc3", b"\xc3\xa9\n\xe6\xbc\xa2\xff",
                b"\xf0\x9f\x98\x80\xf0\x9f\x98\x80\x80", b"f();\x80", b"x = \"\xc3\";",
                b"// \xff\nf();", b"\x00\xff", b"\xc3\x28", b"\xe2\x28\xa1", b"\xe2\x82\x28", b"\xf0\x28\x8c\xbc",
                b"\xf0\x90\x28\xbc", b"\xf0\x28\x8c\x28"]


# ---- literals --------------------------------------------------------------

def stored(name):
    """The texts of a stored list, each with the last line of its answer."""
    with open(os.path.join(ROOT, "oracle", name), "rb") as file:
        data = file.read()
    at = 0
    while at < len(data):
        end = data.index(b"\n", at)
        length = int(data[at:end].split(b" ")[2])
        text = data[end + 1:end + 1 + length]
        at = end + 1 + length + 1
        while data[at:at + 1].isdigit():
            at = data.index(b"\n", at) + 1
        end = data.index(b"\n", at)
        yield text.decode(), data[at:end].decode()
        at = end + 1


def spelled(line):
    """The characters of a string as the tree shows it, each as its number."""
    signs = {"n": "\n", "r": "\r", "t": "\t", "0": "\0", "\\": "\\", "\"": "\""}
    inner = line.split(" ", 3)[3][1:-1]
    parts = re.findall(r"\\x([0-9A-F]{2})|\\(.)|([^\\])", inner)
    return ["%x" % (int(hexed, 16) if hexed else ord(signs[sign] if sign else plain)) for hexed, sign, plain in parts]


def valued(line):
    """The kind and the value of a literal in the tree. The minus of a number isn't the literal's."""
    kind, words = line.split(" ")[1], line.split(" ")[3:]
    if kind == "string":
        return [kind] + spelled(line)
    if kind == "bytes":
        return [kind] + [word.lower() for word in words]
    return [kind, words[0].lstrip("-")] if kind in ("int", "float") else None


def alone(literals):
    """What each text is as `x = TEXT;`, where that is one literal: its kind and value."""
    answers = ask_all(["x = " + text + ";" for text in literals])
    return [valued(a.lines[1]) if a.ok and len(a.tree) == 6 and a.tree[1][2] == "1:5" else None for a in answers]


def ended(text, start, answer):
    """The end of the literal at `start`, where the answer tells it, and its value.

    Accepted: the longest part from `start` on that is, alone, one literal of
    the value that the tree shows, and that no blank ends. 10 stands right after
    the literal, and 11 after it and a dot, if no blank is between.
    """
    if answer.ok:
        if answer.tree[1][2] != shown(after(text[:start])):
            return None
        value = valued(answer.lines[1])
        ends = [end for end in range(start + 1, len(text) + 1) if re.match(r"[\]\"'0-9A-Za-z]", text[end - 1])]
        same = [end for end, found in zip(ends, alone([text[start:end] for end in ends])) if found and found == value]
        return (same[-1], value) if same else None
    end = len(before(text, answer.place))
    if answer.number == 11 and text[end - 1] == ".":
        end -= 1
    value = alone([text[start:end]])[0]
    return (end, value) if value and not text[end - 1].isspace() else None


def refuses(text, start, answer):
    """Whether a refusal is the first literal's own.

    A number's: nothing but the number is before its place. A string's or
    bytearray's: no part before its place is, alone, a whole literal.
    """
    inside = [text[start:end] for end in range(start + 1, len(text) + 1) if after(text[:end]) <= answer.place]
    if text[start:start + 1] in tuple("0123456789"):
        number = re.fullmatch(r"(?:[0-9A-Za-z_.]|(?<=[eE])[+-])*", inside[-1])
        return answer.number in range(14, 19) and number is not None
    if text[start:start + 1] in ("\"", "'") or text.startswith("#[", start):
        return answer.number in (19, 20, 21) and not any(alone(inside))
    return False


def literal(text):
    """The first literal of `x = ..`, or None where the engine's answer doesn't tell.

    Its kind, place, value and the place after it, or its refusal.
    """
    head = re.match(r"[ \n]*x = [-+!({ ]*", text)
    answer = ask(text)
    if head is None or head.end() == len(text):
        return None
    start = head.end()
    if answer.number in range(14, 22):
        return "%d %s" % (answer.number, shown(answer.place)) if refuses(text, start, answer) else None
    found = ended(text, start, answer) if answer.ok or answer.number in (10, 11) else None
    if found is None:
        return None
    end, (kind, *value) = found
    return " ".join([kind, shown(after(text[:start])), *value, shown(after(text[:end]))])


# ---- the lists -------------------------------------------------------------

def character_cases():
    kinds = [("b", blank_texts, blanks), ("n", name_texts, free_name), ("m", member_texts, member_name),
             ("k", keyword_texts, keyword),
             ("u", utf8_texts, utf8), ("c", character_texts, characters), ("f", file_texts, file_start)]
    for kind, texts, answer in kinds:
        for text in dict.fromkeys(texts()):
            whole = "".join(text) if isinstance(text, tuple) else text
            yield kind, whole if isinstance(whole, bytes) else whole.encode(), answer(text)


def literal_cases():
    for text, last in stored("literals.txt"):
        assert ask(text).last.split(" ")[:3] == last.split(" ")
        answer = literal(text)
        if answer is not None:
            yield "x", text.encode(), answer


PROGRAMS = {"characters_cases": character_cases, "literals_cases": literal_cases}


def make(program):
    """The two files of a program, and how many cases each kind has."""
    given, wanted, counts = b"", "", {}
    for kind, text, answer in PROGRAMS[program]():
        given += b"%s %d\n%s\n" % (kind.encode(), len(text), text)
        wanted += answer + "\n"
        counts[kind] = counts.get(kind, 0) + 1
    return {"stdin": given, "stdout": wanted.encode()}, counts


def main():
    check = sys.argv[1:] == ["--check"]
    if sys.argv[1:] and not check:
        sys.exit(__doc__)
    bad = 0
    for program in PROGRAMS:
        files, counts = make(program)
        for name, content in files.items():
            path = os.path.join(ROOT, "crates", program, name)
            if not check:
                with open(path, "wb") as out:
                    out.write(content)
            elif not os.path.exists(path) or open(path, "rb").read() != content:
                print("differs: crates/%s/%s" % (program, name))
                bad = 1
        kinds = ", ".join("%s %d" % count for count in counts.items())
        print("%s: %d cases (%s), %d bytes" % (program, sum(counts.values()), kinds, len(files["stdin"])))
    sys.exit(bad)


if __name__ == "__main__":
    main()

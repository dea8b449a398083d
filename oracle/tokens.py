"""The tokens of a text: what the engine's tree doesn't show, as the minuses before a literal, is looked up there."""

import re

# A record holds an operator as its number here, from 1 on.
OPERATORS = "* / % + - << >> <= < >= > == != && || & ^ |".split()
BLANK = re.compile(r"(?:[ \t\r\n\f]|//[^\n]*|/\*(?:/\*.*?\*/|(?!/\*).)*?\*/)*", re.S)
TOKEN = re.compile(r"""(?P<string>"(?:\\.|[^"\\])*"|'(?:\\.|[^'\\])*')|(?P<bytes>\#\[[^\]]*\])
    |(?P<number>0x[0-9A-Fa-f_]+|0b[01_]+|[0-9][0-9_]*(?:\.(?![A-Za-z_])[0-9_]*)?(?:[eE][+-]?[0-9][0-9_]*)?)
    |(?P<word>[A-Za-z_][A-Za-z_0-9]*)|(?P<sign><<|>>|<=|>=|==|!=|&&|\|\||.)""", re.S | re.X)


class Token:
    """A token: its group, its text, and where it begins."""

    def __init__(self, match):
        self.group, self.text, self.at = match.lastgroup, match.group(), match.start()

    def ends_operand(self):
        return self.group != "sign" or self.text in (")", "]", "}")


def tokens_of(text):
    tokens, at = [], BLANK.match(text).end()
    while at < len(text):
        match = TOKEN.match(text, at)
        tokens.append(Token(match))
        at = BLANK.match(text, match.end()).end()
    return tokens


def minuses(tokens, i):
    """How many minuses apply to the number literal that is token i: signs and parentheses alone are between."""
    low, high, count = i, i, 0
    while True:
        follows = tokens[high + 1].text if high + 1 < len(tokens) else ""
        if follows in ("(", "[", ".", "instanceof"):
            return count
        while low > 0 and tokens[low - 1].text in ("+", "-") and not (low > 1 and tokens[low - 2].ends_operand()):
            count += tokens[low - 1].text == "-"
            low -= 1
        called = low > 1 and tokens[low - 2].ends_operand()
        if low == 0 or tokens[low - 1].text != "(" or follows != ")" or called:
            return count
        low, high = low - 1, high + 1

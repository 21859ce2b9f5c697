"""Reads the text of a Rattle source as tokens: comments, blanks, strings, numbers, words, symbols, and ghost text."""
import re
from dataclasses import dataclass


class Refused(Exception):
    """A form that is not known."""


@dataclass(frozen=True)
class Token:
    kind: str
    text: str
    line: int


# One alternative for each kind of token; a character literal is tried before a lifetime, and long symbols before short ones. Refused
# are comments between /* and */ and floating-point numbers.
TOKEN = re.compile(
    r"""(?P<comment>//[^\n]*)
      | (?P<refused>/\*|[0-9]+\.[0-9])
      | (?P<tactic>\#!\[tactic\(auto\)\]\n)
      | (?P<blank>[ \t\n]+)
      | (?P<string>b?"(?:[^"\\\n]|\\.)*")
      | (?P<character>b?'(?:[^'\\\n]|\\.)')
      | (?P<lifetime>'[a-z_]+)
      | (?P<number>[0-9][0-9A-Za-z_]*)
      | (?P<word>[A-Za-z_][A-Za-z0-9_]*)
      | (?P<symbol><<=|>>=|\.\.=|::|->|=>|==|!=|<=|>=|&&|\|\||<<|>>|\.\.|[-+*/%&|^]=|[-+*/%&|^!<>=.,;:?@(){}\[\]\#])
    """,
    re.VERBOSE,
)

CONTRACT_WORDS = ("requires", "ensures")
OPENING = {"(": ")", "[": "]", "{": "}"}


def scan(text, where):
    """The tokens of a source, in order; joined they are the source. Ghost text is one token for each line and each contract."""
    tokens, at, line = [], 0, 1
    while at < len(text):
        found = TOKEN.match(text, at)
        if not found or found.lastgroup == "refused":
            raise Refused(f"{where}:{line}: no known token begins with {text[at:at + 10]!r}")
        kind, end = found.lastgroup, found.end()
        if kind == "word" and found.group() == "ghost":
            kind, end = "ghost_line", end_of_ghost_line(text, at, where, line)
        elif kind == "word" and found.group() in CONTRACT_WORDS:
            kind, end = "contract", end_of_contract(text, end, where, line)
        tokens.append(Token(kind, text[at:end], line))
        line += text.count("\n", at, end)
        at = end
    return tokens


def end_of_ghost_line(text, at, where, line):
    """Behind the line's end. Known are `ghost use`, a ghost field of a struct and a ghost item of an impl, each alone on its line."""
    found = re.compile(r"ghost (use [^;{}\n]*(\{[^;{}\n]*\})?;|[a-z_]+: \{[^{}\n]*\},|[a-z_]+ = \{[^{}\n]*\};)\n").match(text, at)
    if not found or text[text.rfind("\n", 0, at) + 1:at].strip(" "):
        raise Refused(f"{where}:{line}: a ghost line that is not known")
    return found.end()


def end_of_contract(text, at, where, line):
    """Behind the brace that closes a contract. Quotes and comments, in which a brace would not count, are not known in one."""
    opened = re.compile(r"(?: [a-z_]+)?\s*\{").match(text, at)
    if not opened:
        raise Refused(f"{where}:{line}: a contract has to begin with a brace, behind its name if it has one")
    depth, at = 1, opened.end()
    while depth > 0:
        if at == len(text):
            raise Refused(f"{where}:{line}: a contract that does not end")
        if text[at] in "\"'" or text[at:at + 2] in ("//", "/*", "--", "{-"):
            raise Refused(f"{where}:{line}: a quote or a comment in a contract")
        depth += {"{": 1, "}": -1}.get(text[at], 0)
        at += 1
    return at


def is_code(token):
    return token.kind not in ("blank", "comment")


def neighbour(tokens, i, step):
    """The place of the next token of code before or behind place i, or none."""
    i += step
    while 0 <= i < len(tokens):
        if is_code(tokens[i]):
            return i
        i += step
    return None


def text_at(tokens, i):
    return "" if i is None else tokens[i].text


def closing(tokens, i, where):
    """The place of the bracket that closes the one at place i."""
    expected = []
    for j in range(i, len(tokens)):
        token = tokens[j]
        if token.kind != "symbol":
            continue
        if token.text in OPENING:
            expected.append(OPENING[token.text])
        elif token.text in OPENING.values():
            if expected.pop() != token.text:
                raise Refused(f"{where}:{token.line}: '{token.text}' closes another bracket")
            if not expected:
                return j
    raise Refused(f"{where}:{tokens[i].line}: '{tokens[i].text}' is not closed")


def joined(tokens):
    return "".join(token.text for token in tokens)

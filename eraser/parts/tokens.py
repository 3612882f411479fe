"""Splits the text of Rattle and of Rust into tokens, each with the blanks and comments before it."""

import re
from typing import NamedTuple


class Token(NamedTuple):
    """A token: its text, its kind, the offset at which it begins, and what lies between it and the token before."""

    text: str
    kind: str
    at: int
    before: str


# The kinds of tokens. `none` is a character that begins no token of Rust; the text of clauses has such.
TOKEN = re.compile(r"""
    (?P<string> b?r(?P<hashes>\#*)"(?s:.*?)"(?P=hashes) | b?"(?:\\(?s:.)|[^"\\])*" )
  | (?P<char> (?<!\w)b?'(?:\\x[0-9a-fA-F]{2}|\\u\{[0-9a-fA-F_]{1,8}\}|\\[^ux\n]|[^'\\\n])' )
  | (?P<lifetime> (?<!\w)'[a-z_]\w* )
  | (?P<number> 0[xob][0-9a-fA-F_]+(?:[ui](?:8|16|32|64|128|size))?
      | [0-9][0-9_]*(?:[ui](?:8|16|32|64|128|size))? )
  | (?P<word> [A-Za-z_][A-Za-z_0-9]* )
  | (?P<mark> ::|->|=>|\.\.=|\.\.|<<=|>>=|&&|\|\||==|!=|<=|>=|<<|>>|[-+*/%&|^]=|[-+*/%&|^!<>=.,;:?@$\#\[\](){}] )
  | (?P<none> . )
""", re.X | re.A)
BLANKS = re.compile(r"\s+|//[^\n]*")
OPEN, CLOSE = set("([{"), set(")]}")
END = Token("", "end", 0, "")


def blanks_end(text, at):
    """The offset of the next token: behind blanks, line comments and nested block comments."""
    while at < len(text):
        if text.startswith("/*", at):
            at = block_comment_end(text, at)
        elif found := BLANKS.match(text, at):
            at = found.end()
        else:
            break
    return at


def block_comment_end(text, at):
    depth = 0
    for mark in re.compile(r"/\*|\*/").finditer(text, at):
        depth += 1 if mark.group() == "/*" else -1
        if depth == 0:
            return mark.end()
    return len(text)


def tokens_of(text):
    """The tokens of a text, and an end token which has the blanks and comments behind the last."""
    tokens, end, at = [], 0, blanks_end(text, 0)
    while at < len(text):
        found = TOKEN.match(text, at)
        tokens.append(Token(found.group(), found.lastgroup if found.lastgroup != "hashes" else "string", at, text[end:at]))
        end = found.end()
        at = blanks_end(text, end)
    return tokens + [END._replace(at=end, before=text[end:at])]

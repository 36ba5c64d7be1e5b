"""The tokens of Rust and Rattle, for the eraser and for `tools/upstream-tests`."""

import re
from dataclasses import dataclass

TOKEN = re.compile(
    r"""
    (?P<space>\s+)
  | (?P<comment>//[^\n]*)
  | (?P<block>/\*.*?\*/)
  | (?P<string>(?:b|c)?"(?:\\.|[^"\\])*" | (?:b|c)?r(?P<hashes>\#*)".*?"(?P=hashes))
  | (?P<character>b?'(?:\\(?:u\{[0-9a-fA-F_]+\}|x[0-9a-fA-F]{2}|.)|[^'\\\n])')
  | (?P<lifetime>'[A-Za-z_]\w*)
  | (?P<number>\d\w*(?:\.\d\w*)?)
  | (?P<name>[A-Za-z_]\w*)
  | (?P<mark>->|=>|::|\.\.=|\.\.\.|\.\.|.)
    """,
    re.X | re.S,
)
# The kinds of tokens that are no code.
BLANK = ("space", "comment", "block")
# The bracket that closes each bracket.
CLOSING = {"(": ")", "[": "]", "{": "}"}


@dataclass
class Token:
    """A token: the name of its group in `TOKEN`, its text, and the offsets of its start and its end."""

    kind: str
    text: str
    start: int
    end: int


def tokens_of(text):
    """Returns the tokens of a text. Together they are the whole text."""
    return [Token(match.lastgroup, match[0], match.start(), match.end()) for match in TOKEN.finditer(text)]


def code_of(text):
    """Returns the tokens of a text without spaces and comments."""
    return [token for token in tokens_of(text) if token.kind not in BLANK]

"""Cuts Verilog text into tokens (IEEE Std 1364-2005, clause 3), each with its file and line."""

from __future__ import annotations

import re
from typing import Iterator, List, NamedTuple

from .refusal import Refusal


class Token(NamedTuple):
    """A piece of the text: its kind, its characters, and where it stands. A `border` is a pragma that was taken out."""

    kind: str
    text: str
    file: str
    line: int
    start: int
    end: int


_PIECES = re.compile(
    r"""(?P<blank>[\s]+)
      | (?P<border>/\*loddrume-pragma\ \d+\*/)
      | (?P<comment>//[^\n]*|/\*.*?\*/)
      | (?P<push>`file_push\s+"[^"\n]*")
      | (?P<pop>`file_pop[^\n]*\n?)
      | (?P<directive>`[A-Za-z_][\w$]*)
      | (?P<string>"(?:\\.|[^"\\\n])*")
      | (?P<escaped>\\[^\s]+)
      | (?P<name>[A-Za-z_][\w$]*)
      | (?P<system>\$[A-Za-z_][\w$]*)
      | (?P<base>'\s*[sS]?[bodhBODH]\s*[0-9a-fA-FxXzZ?][0-9a-fA-FxXzZ?_]*)
      | (?P<number>\d[\d_]*(?:\.\d[\d_]*)?(?:[eE][+-]?\d+)?)
      | (?P<op>\(\s*\*\s*\)|<<<|>>>|===|!==|\*\*|<<|>>|<=|>=|==|!=|&&|\|\||~&|~\||~\^|\^~|->|\(\*(?!\s*\))|\*\)
            |[-+*/%&|^~!?<>=()\[\]{},;:.\#@'])""",
    re.VERBOSE | re.DOTALL,
)


def pieces(text: str, file: str) -> Iterator[Token]:
    """All pieces of a text, white space and comments too, with their lines from 1."""
    at, line = 0, 1
    while at < len(text):
        found = _PIECES.match(text, at)
        if not found:
            raise Refusal(file, line, f"no token of Verilog begins at {text[at]!r}", "correct the text")
        kind = str(found.lastgroup)
        yield Token(kind, found.group(), file, line, at, found.end())
        line += found.group().count("\n")
        at = found.end()


def tokens_of(text: str, file: str) -> List[Token]:
    """The tokens of one file, without white space and comments."""
    return [piece for piece in pieces(text, file) if piece.kind not in ("blank", "comment")]


def flat_tokens(text: str) -> List[Token]:
    """The tokens of preprocessed text, in which marks tell where a file begins and where one that includes it goes
    on."""
    stack = [["", 0]]
    result: List[Token] = []
    before = 1
    for piece in pieces(text, ""):
        stack[-1][1] += piece.line - before
        before = piece.line
        if piece.kind == "push":
            # The mark is followed by a newline, after which the first line of the file begins.
            stack.append([piece.text.split('"')[1], 0])
        elif piece.kind == "pop":
            # The newline after the mark belongs to it, and counts nowhere.
            before += piece.text.count("\n")
            if len(stack) > 1:
                stack.pop()
        elif piece.kind not in ("blank", "comment"):
            result.append(piece._replace(file=stack[-1][0], line=stack[-1][1]))
    return result

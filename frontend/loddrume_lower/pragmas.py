"""Reads pragma expressions (IEEE Std 1364-2005, clauses 19.10 and 28), as docs/FORMATS.md has them."""

from __future__ import annotations

import re
from dataclasses import dataclass, field
from typing import Iterator, List, Optional, Tuple

from .refusal import Refusal
from .sources import Pragma

ENCRYPTED = {
    "begin_protected", "end_protected", "data_block", "key_block", "digest_block", "data_public_key",
    "data_decrypt_key", "digest_public_key", "digest_decrypt_key", "key_public_key",
}  # fmt: skip
_WORDS = re.compile(
    r'\s*(?P<string>"(?:\\.|[^"\\])*")|\s*(?P<word>[A-Za-z_][\w$]*|\d[\w\']*)|\s*(?P<mark>[(),=])|\s*(?P<comment>//.*)'
)
_VIEWPORT = re.compile(r'\(\s*object\s*=\s*"([^"]*)"\s*,\s*access\s*=\s*"([^"]*)"\s*\)$')


@dataclass
class Envelope:
    """What stands between a `begin` and its `end`. Number 0 is the open text."""

    number: int
    author: str
    file: str
    line: int
    viewports: List[Tuple[str, str]] = field(default_factory=list)


def _words(pragma: Pragma) -> Iterator[str]:
    at = 0
    text = pragma.text.rstrip()
    while at < len(text):
        found = _WORDS.match(text, at)
        if not found:
            raise Refusal(pragma.file, pragma.line, "a pragma that can't be read", "write it as docs/FORMATS.md has it")
        at = found.end()
        if not found["comment"]:
            yield found.group().strip()


def _expressions(words: List[str], pragma: Pragma) -> Iterator[Tuple[str, str]]:
    """Each expression of a pragma: its keyword, and its value or an empty text."""
    at = 0
    while at < len(words):
        keyword, value, depth = words[at], "", 0
        at += 1
        if at < len(words) and words[at] == "=":
            at += 1
            while at < len(words) and (depth or words[at] != ","):
                depth += {"(": 1, ")": -1}.get(words[at], 0)
                value += words[at]
                at += 1
        if depth or (at < len(words) and words[at] != ","):
            raise Refusal(pragma.file, pragma.line, "a pragma that can't be read", "write it as docs/FORMATS.md has it")
        at += 1
        yield keyword, value


class Borders:
    """Applies pragmas in the order of the text, and knows which envelope is open."""

    def __init__(self) -> None:
        self.envelopes: List[Envelope] = [Envelope(0, "", "", 0)]
        self.place = 0
        self._author = '""'

    def apply(self, pragma: Pragma, free: bool) -> Optional[str]:
        """Applies a pragma. Gives `begin` or `end` where a border stands. `free` says whether one may stand there."""
        words = list(_words(pragma))
        border = None
        if words[:1] == ["resetall"] or (words[:1] == ["reset"] and "protect" in words):
            self._author = '""'
        if words[:1] != ["protect"]:
            return None
        for keyword, value in _expressions(words[1:], pragma):
            border = self._one(pragma, keyword, value, free) or border
        return border

    def _one(self, pragma: Pragma, keyword: str, value: str, free: bool) -> Optional[str]:
        def refuse(construct: str, advice: str) -> None:
            raise Refusal(pragma.file, pragma.line, construct, advice)

        if keyword in ENCRYPTED:
            refuse(f"the keyword {keyword} of an encrypted envelope", "give the text that is not encrypted")
        if keyword == "author":
            if not value.startswith('"'):
                refuse("an author that is no string", 'write author="NAME"')
            self._author = value
        elif keyword == "reset":
            self._author = '""'
        elif keyword == "viewport":
            self._viewport(pragma, value)
        elif keyword in ("begin", "end"):
            if not free:
                refuse(
                    f"a {keyword} of an envelope within an item",
                    "put it between two items of a module, or outside of modules",
                )
            self._border(pragma, keyword)
            return keyword
        return None

    def _viewport(self, pragma: Pragma, value: str) -> None:
        found = _VIEWPORT.match(value)
        if not found or not self.place:
            raise Refusal(
                pragma.file,
                pragma.line,
                "a viewport that can't be read, or outside of an envelope",
                "see docs/FORMATS.md",
            )
        self.envelopes[self.place].viewports.append((found[1], found[2]))

    def _border(self, pragma: Pragma, keyword: str) -> None:
        if (keyword == "begin") == bool(self.place):
            raise Refusal(
                pragma.file,
                pragma.line,
                f"a {keyword} {'within' if self.place else 'outside of'} an envelope",
                "pair begin and end",
            )
        if keyword == "end":
            self.place = 0
            return
        if len(self.envelopes) > 255:
            raise Refusal(pragma.file, pragma.line, "more than 255 envelopes", "join some")
        self.envelopes.append(Envelope(len(self.envelopes), self._author, pragma.file, pragma.line))
        self.place = len(self.envelopes) - 1

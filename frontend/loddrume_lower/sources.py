"""Reads the source files: takes the pragmas out, and lets Yosys do the preprocessing."""

from __future__ import annotations

import os
import re
from dataclasses import dataclass, field
from pathlib import Path
from typing import Dict, List, Optional, Sequence, Tuple

from .refusal import Refusal
from .tokens import Token, flat_tokens, pieces
from .yosys import Yosys

_INCLUDE = re.compile(r'`include[ \t]*"([^"\n]+)"')
_ESCAPE = re.compile(r'\\([nt0-7\\"])|\\(.)')
_DUMP_BEGIN = "-- Verilog code after preprocessor --"
_DUMP_END = "-- END OF DUMP --"


@dataclass
class Pragma:
    """A pragma as it stands in a file: what follows the directive on its line."""

    file: str
    line: int
    text: str


@dataclass
class Sources:
    """The files of a design: their text as it is, their pragmas, and the text after preprocessing."""

    texts: Dict[str, str] = field(default_factory=dict)
    pragmas: List[Pragma] = field(default_factory=list)
    flat: str = ""
    tokens: List[Token] = field(default_factory=list)


class Reader:
    """Copies the files of a design into a folder, with a mark for each pragma, and preprocesses the copies."""

    def __init__(self, yosys: Yosys, include: Sequence[str], define: Sequence[str]) -> None:
        self._yosys = yosys
        self._include = list(include)
        self._define = list(define)
        self._copies: Dict[str, str] = {}
        self._inside = False
        self._closed_macros: Dict[str, Tuple[str, int]] = {}
        self._open_uses: Dict[str, Tuple[str, int]] = {}
        self.sources = Sources()

    def read(self, files: Sequence[str]) -> Sources:
        """Reads the files in order; macros of one hold in the next, as in Icarus Verilog."""
        copies = [self._copied(file, None) for file in files]
        master = "".join(f'`include "{self._yosys.path(copy)}"\n' for copy in copies)
        Path(self._yosys.path("all.v")).write_text(master, encoding="utf-8")
        self.sources.flat = self._preprocessed()
        names = {self._yosys.path(copy): file for file, copy in self._copies.items()}
        self.sources.tokens = [
            token._replace(file=names.get(token.file, token.file)) for token in flat_tokens(self.sources.flat)
        ]
        self._refuse_left_directives()
        return self.sources

    def origin(self, copy: str) -> str:
        """The file that a copy is of."""
        return {name: file for file, name in self._copies.items()}.get(os.path.basename(copy), copy)

    def _copied(self, file: str, including: Optional[Token]) -> str:
        """Copies a file, and gives the copy's name. A file is copied once."""
        if file in self._copies:
            return self._copies[file]
        try:
            text = Path(file).read_bytes().decode("utf-8", errors="surrogateescape").replace("\r\n", "\n")
        except OSError as error:
            where = (including.file, including.line) if including else (file, 0)
            raise Refusal(*where, f"{file} can't be read: {error.strerror}", "name a file that can be read") from error
        name = f"source{len(self._copies)}.v"
        self._copies[file] = name
        self.sources.texts[file] = text
        copied = self._marked(text, file)
        Path(self._yosys.path(name)).write_bytes(copied.encode("utf-8", errors="surrogateescape"))
        return name

    def _marked(self, text: str, file: str) -> str:
        """The text with a mark in the place of each pragma, and with the names of copies where it includes files."""
        out: List[str] = []
        skip = 0
        for piece in pieces(text, file):
            if piece.start < skip:
                continue
            if piece.kind == "directive" and piece.text == "`pragma":
                skip = text.find("\n", piece.start)
                skip = len(text) if skip < 0 else skip
                out.append(f"/*loddrume-pragma {len(self.sources.pragmas)}*/")
                self.sources.pragmas.append(Pragma(file, piece.line, text[piece.end : skip]))
                self._note_border(text[piece.end : skip])
            elif piece.kind == "directive" and self._notes_macro(piece, text):
                out.append(piece.text)
            elif piece.kind == "directive" and piece.text == "`include":
                found = _INCLUDE.match(text, piece.start)
                wanted = found and self._found(found.group(1), file)
                if found and wanted:
                    skip = found.end()
                    out.append(f'`include "{self._yosys.path(self._copied(wanted, piece))}"')
                else:
                    out.append(piece.text)
            elif piece.kind == "comment":
                # Nothing of a comment is needed, but its newlines; one that looks like a mark must not become one.
                out.append("\n" * piece.text.count("\n") or " ")
            elif piece.kind == "string":
                # A backslash before another character stands for nothing (clause 3.6.3); Yosys knows more escapes.
                out.append(_ESCAPE.sub(lambda found: found[2] or found.group(), piece.text))
            else:
                out.append(piece.text)
        return "".join(out)

    def _note_border(self, pragma: str) -> None:
        words = re.findall(r"\w+", re.sub(r'"[^"]*"|//.*', "", pragma))
        if words[:1] == ["protect"] and ("begin" in words or "end" in words):
            self._inside = "begin" in words

    def _notes_macro(self, directive: Token, text: str) -> bool:
        """Notes where macros are defined and used. Refuses one of an envelope that is used outside, in whichever
        order."""
        found = re.match(r"`define\s+(\w+)", text[directive.start :])
        name = found[1] if found else directive.text[1:]
        where = (directive.file, directive.line)
        if found and self._inside:
            self._closed_macros.setdefault(name, where)
        elif not found and not self._inside:
            self._open_uses.setdefault(name, where)
        if name in self._closed_macros and name in self._open_uses:
            at = self._closed_macros[name]
            construct = f"the macro {name}, which an envelope defines at {at[0]}:{at[1]}, is used outside of it"
            raise Refusal(*self._open_uses[name], construct, "define it outside")
        return bool(found)

    def _found(self, name: str, file: str) -> Optional[str]:
        """The file that is included: from the folders of -I, or else beside the file that includes it, or where we
        are."""
        for folder in [*self._include, os.path.dirname(file), "."]:
            path = os.path.join(folder, name) if folder not in ("", ".") else name
            if os.path.isfile(path):
                return path
        return None

    def _preprocessed(self) -> str:
        defines = "".join(f" -D{word}" for word in self._define)
        # A fault of the grammar is told later, of the text without marks; here only the preprocessor's part counts.
        # What is printed before a fault is lost on the output, but not in a log that is written line by line.
        log = self._yosys.path("preprocessed.log")
        script = f"read_verilog -ppdump{defines} {self._yosys.path('all.v')}"
        told = self._yosys.run(script, check=False, log=log)
        if os.path.exists(log):
            told = Path(log).read_text(encoding="utf-8", errors="surrogateescape") + told
        if _DUMP_BEGIN not in told or _DUMP_END not in told:
            self._yosys.fail(told, self.origin)
        return told.split(_DUMP_BEGIN, 1)[1].split(_DUMP_END, 1)[0].lstrip("\n")

    def _refuse_left_directives(self) -> None:
        for token in self.sources.tokens:
            if token.kind == "directive" and token.text not in (
                "`default_nettype",
                "`celldefine",
                "`endcelldefine",
                "`resetall",
            ):
                raise Refusal(
                    token.file, token.line, f"{token.text}, which is no directive and no macro", "define it by -D"
                )

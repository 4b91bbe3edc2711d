"""Modules that are passed on as they stand, but for a bare header and the pragmas that begin an envelope."""

from __future__ import annotations

import re
from dataclasses import dataclass, field
from typing import Any, Callable, Dict, List, Optional, Tuple

from .modules import Layout, Module
from .names import plain
from .nets import WIDEST
from .profile import ANY_PORTS, Left, Profile, Reading
from .sources import Sources
from .tokens import Token, tokens_of

Edit = Tuple[int, int, str]


@dataclass
class Passed:
    """A module that is passed on: its text, and how it was taken; or else the first construct that the server can't
    read."""

    text: str = ""
    how: str = "verbatim"
    fault: str = ""
    names: List[str] = field(default_factory=list)
    instances: Dict[str, str] = field(default_factory=dict)


def passed_modules(layout: Layout, sources: Sources, netlist: Dict[str, Any]) -> Dict[str, Passed]:
    """For each module of the netlist its text, or why it can't be passed on."""
    result: Dict[str, Passed] = {}
    for name, module in layout.modules.items():
        if name in netlist["modules"]:
            result[name] = _Passing(module, layout, sources, _children_of(netlist)).passed()
    return result


def readable_modules(layout: Layout, sources: Sources) -> List[Module]:
    """The modules that the server can read, so far as can be told before the ports of their instances are known."""
    modules = layout.modules.values()
    return [module for module in modules if not _Passing(module, layout, sources, lambda _: ANY_PORTS).passed().fault]


def _children_of(netlist: Dict[str, Any]) -> Callable[[str], Optional[Dict[str, str]]]:
    """The ports of a module by name, in order, or nothing where a module that is passed on can't instantiate it."""

    def children(name: str) -> Optional[Dict[str, str]]:
        data = netlist["modules"].get(name)
        if data is None or plain(name) != name:
            return None
        ports = data["ports"]
        if any(
            len(port["bits"]) > WIDEST or port["direction"] == "inout" or plain(at) != at for at, port in ports.items()
        ):
            return None
        return {at: port["direction"] for at, port in ports.items()}

    return children


class _Passing:
    """Looks at one module."""

    def __init__(
        self, module: Module, layout: Layout, sources: Sources, children: Callable[[str], Optional[Dict[str, str]]]
    ) -> None:
        self._module = module
        self._layout = layout
        self._sources = sources
        self._children = children
        self._text = sources.texts.get(module.file, "")

    def passed(self) -> Passed:
        """The module's text, or its first fault."""
        try:
            tokens = self._raw_tokens()
            bare = self._bare_header(tokens)
            if bare is None:
                reading = Profile(tokens, self._children).read()
                return self._done(self._edited(tokens, []), "verbatim", reading)
            edits = bare
            text = self._edited(tokens, edits)
            reading = Profile(tokens_of(_blanked(text), self._module.file), self._children).read()
            return self._done(text, "header rewritten", reading)
        except Left as left:
            line = left.token.line if left.token.file else self._module.line
            return Passed(fault=f"{left.construct} at {self._module.file}:{line}")

    def _done(self, text: str, how: str, reading: Reading) -> Passed:
        names = [name for name, kind in reading.kinds.items() if kind.what in ("net", "reg")]
        note = re.sub(r"[^\x20-\x7e]", "?", f"// {how}: {self._module.file}:{self._module.line}")
        return Passed(f"{note}\n{text}\n", how, "", names, reading.instances)

    def _raw_tokens(self) -> List[Token]:
        """The tokens of the module as they stand in its file; they must be those that preprocessing leaves."""
        tokens = tokens_of(_blanked(self._text), self._module.file)
        wanted = self._module.tokens
        start = next(
            (at for at, token in enumerate(tokens) if token.line == wanted[0].line and token.text == wanted[0].text),
            None,
        )
        if start is None or any(token.file != self._module.file for token in wanted):
            raise Left(wanted[0], "text of another file or of a macro")
        found = tokens[start:]
        for raw, token in zip(found, wanted):
            if raw.text != token.text:
                raise Left(raw, f"{raw.text}, a directive" if raw.kind == "directive" else "a macro")
        return found[: len(wanted)]

    # ---- a bare header

    def _bare_header(self, tokens: List[Token]) -> Optional[List[Edit]]:
        """What is to be changed where the header is a list of names, or nothing where it is none."""
        if (
            len(tokens) < 4
            or tokens[2].text != "("
            or tokens[3].kind != "name"
            or tokens[3].text in ("input", "output", "inout")
        ):
            return None
        end = next(at for at, token in enumerate(tokens) if token.text == ")")
        names = [token.text for token in tokens[3:end] if token.text != ","]
        if any(token.kind != "name" for token in tokens[3:end] if token.text != ",") or tokens[end + 1].text != ";":
            raise Left(tokens[3], "a header with more than names")
        ports: Dict[str, Tuple[str, str, str]] = {}
        edits: List[Edit] = []
        for item in self._module.items:
            if item.kind in ("input", "output"):
                self._direction(item.tokens, ports, names)
            if item.kind in ("input", "output", "reg", "wire") and {token.text for token in item.tokens} & set(names):
                if item.place != self._module.place:
                    raise Left(item.tokens[0], "a port that is declared in an envelope")
                edits.append(self._without_ports(item.tokens, tokens, names, ports))
        if set(ports) != set(names):
            raise Left(tokens[3], "a port without a direction")
        words = ", ".join(f"{ports[name][0]} {ports[name][1]} {ports[name][2]}{name}" for name in names)
        newlines = "\n" * (tokens[end].line - tokens[2].line)
        return [(tokens[2].start, tokens[end].end, f"{newlines}({words})"), *edits]

    def _direction(self, item: List[Token], ports: Dict[str, Tuple[str, str, str]], names: List[str]) -> None:
        at, kind, bounds = 1, "wire", ""
        if item[at].text in ("wire", "reg"):
            kind = item[at].text
            at += 1
        if item[at].text == "[":
            end = next(index for index, token in enumerate(item) if token.text == "]")
            bounds = "".join(token.text for token in item[at : end + 1]) + " "
            at = end + 1
        for token in item[at:]:
            if token.text in (",", ";"):
                continue
            if token.text not in names or token.text in ports:
                raise Left(token, f"`{token.text}` in the declaration of a port")
            ports[token.text] = (item[0].text, kind, bounds)

    def _without_ports(
        self, item: List[Token], raw: List[Token], names: List[str], ports: Dict[str, Tuple[str, str, str]]
    ) -> Edit:
        """An item without the ports that it declares; the names that are no ports stay."""
        first = next(
            token
            for token in raw
            if token.line == item[0].line and token.text == item[0].text and self._begins(raw, token, item)
        )
        at = raw.index(first)
        last = raw[at + len(item) - 1]
        newlines = "\n" * (last.line - first.line)
        if item[0].text in ("input", "output"):
            return first.start, last.end, newlines
        at, bounds = 1, ""
        if item[at].text == "[":
            end = next(index for index, token in enumerate(item) if token.text == "]")
            bounds = "".join(token.text for token in item[at : end + 1]) + " "
            at = end + 1
        rest = []
        for token in item[at:]:
            if token.text in (",", ";"):
                continue
            if token.kind != "name":
                raise Left(token, f"`{token.text}` in the declaration of a port")
            if token.text not in names:
                rest.append(token.text)
                continue
            direction, kind, wanted = ports.get(token.text, ("", "wire", bounds))
            if wanted != bounds or (direction == "input" and item[0].text == "reg"):
                raise Left(token, f"two ranges of the port {token.text}")
            ports[token.text] = (direction, "reg" if item[0].text == "reg" else kind, bounds)
        text = f"{item[0].text} {bounds}{', '.join(rest)};" if rest else ""
        return first.start, last.end, text + newlines

    def _begins(self, raw: List[Token], token: Token, item: List[Token]) -> bool:
        at = raw.index(token)
        return [other.text for other in raw[at : at + len(item)]] == [other.text for other in item]

    # ---- the text

    def _edited(self, tokens: List[Token], edits: List[Edit]) -> str:
        """The text of the module with its changes, each pragma that begins an envelope with its author."""
        edits = [*edits, *self._pragmas(tokens)]
        start, end = tokens[0].start, tokens[-1].end
        out: List[str] = []
        at = start
        for first, last, text in sorted(edits):
            out += [self._text[at:first], text]
            at = last
        return "".join([*out, self._text[at:end]])

    def _pragmas(self, tokens: List[Token]) -> List[Edit]:
        edits: List[Edit] = []
        begins = {(envelope.file, envelope.line): envelope for envelope in self._layout.envelopes[1:]}
        for found in re.finditer(r"`pragma[^\n]*", self._text):
            if not tokens[0].start < found.start() < tokens[-1].end:
                continue
            line = self._text.count("\n", 0, found.start()) + 1
            envelope = begins.get((self._module.file, line))
            if envelope:
                words = re.sub(r"\s+|//.*", "", found.group())
                if not re.fullmatch(r'`pragmaprotect(author="[^"]*",)?begin', words):
                    raise Left(tokens[0], "a pragma that begins an envelope and says more")
                edits.append((found.start(), found.end(), f"`pragma protect author={envelope.author}, begin"))
        return edits


def _blanked(text: str) -> str:
    """The text with blanks in the place of pragmas and of `timescale`, which are no part of the grammar."""
    return re.sub(r"`(pragma|timescale)[^\n]*", lambda found: " " * len(found.group()), text)

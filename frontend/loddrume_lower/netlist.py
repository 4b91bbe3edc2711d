"""Keeps nets apart that Yosys would join: turns connections of its RTLIL text into buffers with a place.

A connection joins two nets, and then nobody can tell which side of a border read which. So a connection that
drives a net of the original becomes a cell `$pos`. One that drives a helper net stays: its readers stand where
the helper does.
"""

from __future__ import annotations

import re
from dataclasses import dataclass, field
from typing import Dict, List, Optional, Set, Tuple

from .memories import MOST_WORDS
from .modules import Module
from .places import Places, source_name
from .refusal import Refusal

_WIRE = re.compile(r"^  wire(?: width (\d+))?.*? ([\\$]\S+)$")
_SIGNAL = re.compile(r"[\\$]\S+(?: \[\d+(?::\d+)?\])?|\d+'[01xzm-]*|-?\d+|[{}]")
ASSIGNING = ("assign", "wire", "tri", "output", "wand", "wor", "logic", "var", "tri0", "tri1", "supply0", "supply1")
PROCEDURAL = ("always", "always_comb", "always_ff", "always_latch", "initial")


@dataclass
class _Netlist:
    """What is known of a module's wires: their sources, widths, and which of them cells drive."""

    sources: Dict[str, str] = field(default_factory=dict)
    widths: Dict[str, int] = field(default_factory=dict)
    driven: Set[str] = field(default_factory=set)
    uses: Dict[str, int] = field(default_factory=dict)


def _parts(signal: str) -> List[str]:
    return [part for part in _SIGNAL.findall(signal) if part not in ("{", "}")]


def _split(words: str) -> Tuple[str, str]:
    """The two signals of a connection."""
    depth = 0
    for found in _SIGNAL.finditer(words):
        depth += {"{": 1, "}": -1}.get(found.group(), 0)
        if not depth:
            return words[: found.end()].strip(), words[found.end() :].strip()
    return words, ""


def _width(part: str, netlist: _Netlist) -> int:
    constant = re.match(r"(\d+)'", part)
    if constant:
        return int(constant[1])
    if re.fullmatch(r"-?\d+", part):
        return 32
    name, _, select = part.partition(" [")
    if not select:
        return netlist.widths.get(name, 1)
    bounds = [int(number) for number in select.rstrip("]").split(":")]
    return bounds[0] - bounds[-1] + 1


def is_helper(name: str) -> bool:
    """Whether a wire's name is not of the original."""
    return name.startswith("$") or "$func$" in name or "$" in name.lstrip("\\").split(".")[-1][:1]


def _known(lines: List[str]) -> _Netlist:
    netlist = _Netlist()
    source = ""
    for line in lines:
        if line.startswith("  attribute \\src "):
            source = line.split('"')[1]
        elif line.startswith("  wire "):
            found = _WIRE.match(line)
            if found:
                netlist.widths[found[2]] = int(found[1] or 1)
                netlist.sources[found[2]] = source
            source = ""
        elif line.startswith("    connect \\Y ") or line.startswith("    connect \\Q "):
            netlist.driven.update(_parts(line[15:]))
        elif line.startswith("  connect "):
            for part in _parts(_split(line[10:])[1]):
                netlist.uses[part] = netlist.uses.get(part, 0) + 1
            source = ""
        elif not line.startswith("  attribute "):
            source = ""
    return netlist


class Bufferer:
    """Goes over RTLIL text, module by module."""

    def __init__(self, places: Places) -> None:
        self._places = places
        self._count = 0
        self._kinds = ASSIGNING

    def rewrite(self, text: str, kinds: Tuple[str, ...]) -> str:
        """The RTLIL text with buffers. `kinds` are the items of which its connections come."""
        self._kinds = kinds
        out: List[str] = []
        lines = text.split("\n")
        at = 0
        while at < len(lines):
            if not lines[at].startswith("module "):
                out.append(lines[at])
                at += 1
                continue
            end = lines.index("end", at)
            out += self._module(lines[at : end + 1])
            at = end + 1
        return "\n".join(out)

    def _module(self, lines: List[str]) -> List[str]:
        module = self._places.layout.modules.get(source_name(lines[0][7:]))
        if module is None:
            return lines
        netlist = _known(lines)
        _refuse_large_memories(lines, module, self._places)
        out: List[str] = []
        for line in _with_constants(_with_initial_values(lines)):
            buffered = self._buffer(line[10:], netlist, module) if line.startswith("  connect ") else None
            out += buffered or [line]
        return out

    def _buffer(self, words: str, netlist: _Netlist, module: Module) -> Optional[List[str]]:
        """The buffer for a connection, or None where the connection may stay."""
        left, right = _split(words)
        targets, values = _parts(left), _parts(right)
        if all(is_helper(target.split(" ")[0]) for target in targets):
            return None
        whole = (
            len(values) == 1 and values[0] in netlist.driven and netlist.uses[values[0]] == 1 and is_helper(values[0])
        )
        if whole and len(targets) == 1:
            return None
        source = self._source(targets, values, netlist, module)
        width = sum(_width(target, netlist) for target in targets)
        self._count += 1
        return [
            f'  attribute \\src "{source}"', f"  cell $pos $buffer${self._count}", "    parameter \\A_SIGNED 0",
            f"    parameter \\A_WIDTH {width}", f"    parameter \\Y_WIDTH {width}",
            f"    connect \\A {right}", f"    connect \\Y {left}", "  end",
        ]  # fmt: skip

    def _source(self, targets: List[str], values: List[str], netlist: _Netlist, module: Module) -> str:
        """The source of a connection: that of the helper nets that it reads, or that of the item that assigns the
        target."""
        names = [value.split(" ")[0] for value in values]
        helpers = [netlist.sources.get(name, "") for name in names if is_helper(name)]
        known = [source for source in helpers if self._places.origin(source)]
        if known:
            return "|".join(dict.fromkeys(known))
        name = targets[0].split(" ")[0].lstrip("\\")
        _, (file, line) = self._places.place_of_target(name, module, self._kinds, "the assignment of")
        return f"{file}:{line}.1-{line}.2"


def _refuse_large_memories(lines: List[str], module: Module, places: Places) -> None:
    source = ""
    for line in lines:
        if line.startswith("  attribute \\src "):
            source = line.split('"')[1]
        found = re.match(r"  memory .*size (\d+).* \\(\S+)$", line)
        if found and int(found[1]) > MOST_WORDS:
            file, where = places.origin(source) or (module.file, module.line)
            raise Refusal(
                file,
                where,
                f"the memory {found[2]} of {found[1]} words",
                f"make it smaller: at most {MOST_WORDS} words",
            )


def _with_constants(lines: List[str]) -> List[str]:
    """Gives initial values of memories their constants, which memory_collect wants to see as such."""
    constants: Dict[str, str] = {}
    for line in lines:
        if line.startswith("  connect $"):
            left, right = _split(line[10:])
            if re.fullmatch(r"\d+'[01xz]*|-?\d+", right):
                constants[left] = right
    kind, out = "", []
    for line in lines:
        if line.startswith("  cell "):
            kind = line.split()[1]
        found = re.match(r"    connect \\(\w+) (\$\S+)$", line)
        if found and kind.startswith("$meminit") and found[2] in constants:
            line = f"    connect \\{found[1]} {constants[found[2]]}"
        out.append(line)
    return out


def _with_initial_values(lines: List[str]) -> List[str]:
    """Lets an `initial` that sets a constant give an initial value; Yosys lets it drive the net for ever where
    nothing else does."""
    out: List[str] = []
    at = 0
    while at < len(lines):
        end = at + 1
        if re.match(r"  process \$proc\$\S*:0\$\d+$", lines[at]):
            end = lines.index("  end", at) + 1
        out += _initial(lines[at:end]) if end > at + 1 else lines[at:end]
        at = end
    return out


def _initial(process: List[str]) -> List[str]:
    """A process of an `initial`: what it sets to a constant at all times it sets at the start alone."""
    constant = {found[1] for line in process if (found := re.match(r"    assign (\$\S+) (?:\d+'[01xz]*|-?\d+)$", line))}
    moved = [
        line
        for line in process
        if (found := re.match(r"      update (\S+) (\S+)$", line)) and not is_helper(found[1]) and found[2] in constant
    ]
    start = next((at for at, line in enumerate(process) if line == "    sync init"), None)
    always = next((at for at, line in enumerate(process) if line == "    sync always"), len(process))
    moved = [line for line in moved if start is None or process.index(line) < start]
    if start is None or not moved or always > start:
        return process
    kept = [line for line in process if line not in moved]
    at = kept.index("    sync init") + 1
    return [*kept[:at], *moved, *kept[at:]]

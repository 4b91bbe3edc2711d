"""Prints a lowered module: what stands in the open text, and then what stands in each envelope, between its pragmas."""

from __future__ import annotations

import json
import re
from typing import Dict, List, Tuple

from .lowering import Lowered
from .nets import Piece
from .pragmas import Envelope


def printed(lowered: Lowered, home: int, envelopes: List[Envelope], inside: List[int]) -> str:
    """The text of a module. `home` is the place of the module itself, `inside` the envelopes that stand in it."""
    items: Dict[int, List[str]] = {place: [] for place in [home, *inside]}
    helpers = {piece.name: piece for piece in lowered.pieces if piece.is_helper and piece.kind == "wire"}
    driven = {statement.text.split(" ")[1] for statement in lowered.statements if statement.text.startswith("assign ")}
    for piece in lowered.pieces:
        if not piece.direction and not (piece.name in helpers and piece.name in driven):
            items[piece.place].append(_noted(f"{piece.kind} {piece.range()}{piece.name};", piece.origin))
    for statement in lowered.statements:
        items[statement.place].append(_noted(_declaring(statement.text, helpers), statement.origin))
    lines = [f"module {lowered.name}({', '.join(_port(piece) for piece in lowered.ports)});", *items[home]]
    for place in inside:
        lines += in_envelope(items[place], envelopes[place], viewports(lowered, envelopes[place], place))
    return "\n".join([*lines, "endmodule"]) + "\n"


def _declaring(text: str, helpers: Dict[str, Piece]) -> str:
    """A statement; one that assigns a helper declares it too."""
    word, _, rest = text.partition(" ")
    piece = helpers.get(rest.split(" ")[0]) if word == "assign" else None
    return f"wire {piece.range()}{rest}" if piece else text


def _noted(text: str, origin: Tuple[str, int]) -> str:
    file = re.sub(r"[^\x20-\x7e]", "?", origin[0])
    return f"  {text} // {file}:{origin[1]}"


def _port(piece: Piece) -> str:
    return f"{piece.direction} {piece.kind if piece.direction == 'output' else 'wire'} {piece.range()}{piece.name}"


def in_envelope(
    lines: List[str], envelope: Envelope, opened: List[Tuple[str, str]], keep_lines: bool = False
) -> List[str]:
    """Lines between the pragmas of an envelope, as one: an inside must not move the lines of what stands after it,
    which all may see."""
    if not keep_lines:
        lines = [" ".join(re.sub(r"// (.*)$", r"/* \1 */", line.replace("*/", "")).strip() for line in lines)]
    first = f"`pragma protect author={envelope.author}, begin"
    return [
        first,
        *(f'`pragma protect viewport=(object={json.dumps(name)}, access="{access}")' for name, access in opened),
        *lines,
        "`pragma protect end",
    ]


def viewports(lowered: Lowered, envelope: Envelope, place: int) -> List[Tuple[str, str]]:
    """The viewports of an envelope, by the names that their objects have now."""
    here = {piece.name for piece in lowered.pieces if piece.place == place}
    result: List[Tuple[str, str]] = []
    for item, access in envelope.viewports:
        module, _, name = item.rpartition(".")
        if module and module != lowered.original:
            continue
        now = [
            new for old, new in lowered.names.items() if old == name or re.fullmatch(re.escape(name) + r"\[\d+\]", old)
        ]
        now += [[called] for old, (called, _) in lowered.instances.items() if old == name]
        for names in now:
            result += [
                (f"{lowered.name}.{new}" if module else new, access)
                for new in names
                if new in here or not lowered.names.get(name)
            ]
    return result

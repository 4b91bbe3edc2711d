"""Puts helpers that are read once in the place where they are read, so that a design has fewer nets and a run fewer
events."""

from __future__ import annotations

import re
from collections import Counter
from typing import Dict, List, Tuple

from .lowering import Lowered, Statement

_NAMES = re.compile(r"[A-Za-z_][\w$]*")
_ASSIGN = re.compile(r"assign ([\w$]+) = (.*);$", re.DOTALL)
DEEPEST = 24
LONGEST = 2000


def inlined(lowered: Lowered) -> None:
    """Rewrites the statements of a module. A helper goes into braces, so that it sizes itself as the net did."""
    widths = {piece.name: piece.width for piece in lowered.pieces if piece.is_helper and piece.kind == "wire"}
    uses: Counter[str] = Counter()
    barred = set()
    for statement in lowered.statements:
        found = _ASSIGN.match(statement.text)
        words = _NAMES.findall(found[2] if found else statement.text)
        uses.update(words)
        barred |= {
            name for name in words if re.search(rf"\b{re.escape(name)}\[|edge {re.escape(name)}\b", statement.text)
        } & set(widths)
        if not found and not statement.text.startswith("always @("):
            barred |= set(words) & set(widths)
    values: Dict[str, Tuple[str, int, Statement]] = {}
    for statement in lowered.statements:
        found = _ASSIGN.match(statement.text)
        name = found[1] if found else ""
        if found and uses[name] == 1 and name in widths and name not in barred and statement.width == widths[name]:
            values[name] = (found[2], 0, statement)
    done: Dict[str, Tuple[str, int]] = {}
    gone = {name for name in values if _value(name, values, done)[1] <= DEEPEST}
    kept: List[Statement] = []
    for statement in lowered.statements:
        found = _ASSIGN.match(statement.text)
        if found and found[1] in gone:
            continue
        statement.text = _replaced(statement.text, gone, done)
        kept.append(statement)
    lowered.statements = kept
    lowered.pieces = [piece for piece in lowered.pieces if piece.name not in gone]


def _value(
    name: str, values: Dict[str, Tuple[str, int, Statement]], done: Dict[str, Tuple[str, int]]
) -> Tuple[str, int]:
    """The expression of a helper with the helpers in it that go, and how deep it nests."""
    if name in done:
        return done[name]
    done[name] = (name, DEEPEST + 1)
    text = values[name][0]
    depth = text.count("?") + text.count("{") + text.count("(") + 3
    inner = [other for other in _NAMES.findall(text) if other in values]
    for other in inner:
        _value(other, values, done)
    length = len(text) + sum(len(done[other][0]) for other in inner)
    deep = depth + max([done[other][1] for other in inner if done[other][1] <= DEEPEST] or [0])
    if deep > DEEPEST or length > LONGEST:
        done[name] = (_replaced(text, {other for other in inner if done[other][1] <= DEEPEST}, done), DEEPEST + 1)
    else:
        done[name] = (_replaced(text, {other for other in inner if done[other][1] <= DEEPEST}, done), deep)
    return done[name]


def _replaced(text: str, gone: set, done: Dict[str, Tuple[str, int]]) -> str:  # type: ignore[type-arg]
    return _NAMES.sub(lambda name: f"{{{done[name.group()][0]}}}" if name.group() in gone else name.group(), text)

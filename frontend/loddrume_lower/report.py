"""Tells which modules were lowered, why, and what is lost there."""

from __future__ import annotations

from dataclasses import dataclass, field
from typing import List, Optional

from .headers import Passed
from .lowering import Lowered
from .modules import Module


@dataclass
class Account:
    """What became of a module: how it was taken, the first construct that the server can't read, and what is lost."""

    name: str
    how: str
    file: str
    line: int
    reason: str = ""
    lost: List[str] = field(default_factory=list)

    def lines(self) -> List[str]:
        head = f"{self.name}: {self.how}" + (f", since {self.reason}" if self.reason else "")
        return [head, *(f"  lost: {loss}" for loss in self.lost)]


def account_of(name: str, module: Module, lowered: Optional[Lowered], passed: Optional[Passed]) -> Account:
    """The account of one module."""
    if lowered is None and passed:
        return Account(name, passed.how, module.file, module.line)
    reason = passed.fault if passed and passed.fault else "an instance sets its parameters"
    return Account(name, "lowered", module.file, module.line, reason, _lost(module, lowered))


def _lost(module: Module, lowered: Optional[Lowered]) -> List[str]:
    procedures = [
        item for item in module.items if item.kind in ("always", "initial", "always_comb", "always_ff", "always_latch")
    ]
    lost = []
    if procedures:
        lost.append(
            f"{len(procedures)} processes of the original, and so races inside them; those of the text are others"
        )
    delays = [
        token
        for item in module.items
        for token in item.tokens
        if token.text == "#" and item.kind in ("always", "initial", "assign", "wire")
    ]
    if delays:
        lost.append(f"{len(delays)} delays, the first at {delays[0].file}:{delays[0].line}")
    tasks = [
        token
        for item in procedures
        for token in item.tokens
        if token.kind == "system" and token.text not in ("$signed", "$unsigned", "$clog2")
    ]
    if tasks:
        lost.append(f"{len(tasks)} system tasks, the first {tasks[0].text} at {tasks[0].file}:{tasks[0].line}")
    if any(token.text in ("if", "case", "casez", "casex") for item in procedures for token in item.tokens):
        lost.append("an `if` on x: both branches are joined, where the original takes the `else`")
    if lowered and lowered.left_out:
        lost.append(f"{len(lowered.left_out)} checks, the first at {lowered.left_out[0]}")
    return lost

"""Evaluates a netlist of Yosys on two-valued vectors, for `verify`. An x or a z counts as 0.

All vectors are reckoned at once: the values of a bit are the bits of one number, a lane for each vector.
"""

from __future__ import annotations

import re
from random import Random
from typing import Any, Dict, List, Optional, Sequence, Set, Tuple

_HELPER = re.compile(r"_(e\d+)?n\d+(_\d+)?")
Bit = Any
Word = List[int]
Source = Tuple[str, int]
STORING = (
    "$dff",
    "$dffe",
    "$adff",
    "$adffe",
    "$aldff",
    "$aldffe",
    "$dffsr",
    "$sdff",
    "$sdffe",
    "$sdffce",
    "$dlatch",
    "$adlatch",
    "$dlatchsr",
    "$ff",
)
_SINGLE = ("CLK", "EN", "ARST", "SRST", "ALOAD")


def _number(value: Any) -> int:
    return int(value.replace("x", "0").replace("z", "0"), 2) if isinstance(value, str) else int(value)


def plain(name: str) -> str:
    """What a name of the original becomes: `mem[3]` is `mem__3`."""
    name = re.sub(r"[^\w$]", "_", re.sub(r"\[(\d+)\]", r"__\1", name).replace(".", "__"), flags=re.ASCII)
    return name if re.match(r"[A-Za-z_]", name) else "_" + name


class Evaluator:
    """One module: what drives each bit, and the values of a vector."""

    def __init__(self, module: Dict[str, Any], design: Dict[str, Any]) -> None:
        self._cells = module["cells"]
        self._design = design
        self._drivers: Dict[int, Tuple[str, str, int]] = {}
        self._names: Dict[int, Source] = {}
        for name, cell in self._cells.items():
            for port, bits in cell["connections"].items():
                if self._drives(cell, port):
                    for at, bit in enumerate(bits):
                        if isinstance(bit, int):
                            self._drivers[bit] = (name, port, at)
        inputs = {name for name, port in module["ports"].items() if port["direction"] == "input"}
        best: Dict[int, Tuple[Any, ...]] = {}
        for name, net in module["netnames"].items():
            for at, bit in enumerate(net["bits"]):
                if isinstance(bit, int) and not net.get("hide_name"):
                    source = self._source(name, at, len(net["bits"]))
                    rank = (bool(_HELPER.fullmatch(name)), name not in inputs, source)
                    if bit not in best or rank < best[bit]:
                        best[bit] = rank
                        self._names[bit] = source
        self._values: Dict[int, int] = {}
        self._given: Dict[Source, int] = {}
        self._chance = Random(0)
        self._lanes, self._all = 1, 1

    def _drives(self, cell: Dict[str, Any], port: str) -> bool:
        if cell["type"] in self._design:
            return bool(self._design[cell["type"]]["ports"].get(port, {}).get("direction") == "output")
        return port in ("Y", "Q")

    @staticmethod
    def _source(name: str, at: int, width: int) -> Source:
        """A name and an index for a bit, the same in both texts: parts of a wide net are counted through."""
        if width > 64:
            return f"{plain(name)}__{at // 64}", at % 64
        return plain(name), at

    # ---- what is there

    def storing(self, bit: Bit) -> Optional[Tuple[str, int]]:
        """The register that drives a bit, and the index in it."""
        driver = self._drivers.get(bit) if isinstance(bit, int) else None
        return (driver[0], driver[2]) if driver and self._cells[driver[0]]["type"] in STORING else None

    def is_free(self, bit: Bit) -> bool:
        """Whether nothing of the open text drives a bit."""
        return isinstance(bit, int) and bit not in self._drivers

    def shape(self, stored: Tuple[str, int]) -> Tuple[Any, ...]:
        """The kind of a register, its polarities, and the values that it takes by itself."""
        cell, at = self._cells[stored[0]], stored[1]
        parameters = cell["parameters"]
        values = [
            str(parameters[key]).rjust(at + 1, "0")[-1 - at]
            for key in ("ARST_VALUE", "SRST_VALUE")
            if key in parameters
        ]
        return (
            cell["type"],
            *sorted((key, _number(value)) for key, value in parameters.items() if key.endswith("POLARITY")),
            *values,
        )

    def inputs(self, stored: Tuple[str, int]) -> List[Tuple[str, Bit]]:
        """The inputs of one bit of a register."""
        cell = self._cells[stored[0]]
        return [
            (port, bits[0 if port in _SINGLE else stored[1]])
            for port, bits in cell["connections"].items()
            if port != "Q"
        ]

    def input(self, stored: Tuple[str, int], port: str) -> Bit:
        return dict(self.inputs(stored))[port]

    def cone(self, bits: Sequence[Bit]) -> Set[int]:
        """All bits of which some come, by operators."""
        reached: Set[int] = set()
        waiting = [bit for bit in bits if isinstance(bit, int)]
        while waiting:
            bit = waiting.pop()
            if bit in reached:
                continue
            reached.add(bit)
            driver = self._drivers.get(bit)
            if driver and self._cells[driver[0]]["type"].startswith("$") and not self.storing(bit):
                cell = self._cells[driver[0]]
                waiting += [
                    other
                    for port, other_bits in cell["connections"].items()
                    if port not in ("Y", "Q")
                    for other in other_bits
                    if isinstance(other, int)
                ]
        return reached

    # ---- values

    def start(self, given: Dict[Source, int], chance: Random, lanes: int) -> None:
        """Begins with new vectors, one in each lane of a number.

        Sources that have the same name in both texts have the same values.
        """
        self._values = {}
        self._given = given
        self._chance = chance
        self._lanes = lanes
        self._all = (1 << lanes) - 1

    def value(self, bit: Bit) -> int:
        """The values of a bit, one in each lane."""
        if isinstance(bit, str):
            return self._all if bit == "1" else 0
        if bit not in self._values:
            self._settle(bit)
        return self._values[bit]

    def _is_source(self, driver: Optional[Tuple[str, str, int]]) -> bool:
        if driver is None:
            return True
        kind = self._cells[driver[0]]["type"]
        return kind in STORING or kind in self._design or not kind.startswith("$")

    def _settle(self, bit: int) -> None:
        """Evaluates the cells that a bit comes of, without recursion."""
        stack = [bit]
        pending: Set[int] = set()
        while stack:
            top = stack[-1]
            driver = self._drivers.get(top)
            if top in self._values or driver is None or self._is_source(driver):
                self._values.setdefault(top, self._values[top] if top in self._values else self._free(top, driver))
                stack.pop()
                continue
            cell = self._cells[driver[0]]
            needed = [
                other
                for port, bits in cell["connections"].items()
                if port != "Y"
                for other in bits
                if isinstance(other, int) and other not in self._values
            ]
            if needed and top not in pending:
                pending.add(top)
                stack += needed
                continue
            for other in needed:
                # A loop of operators has no value of its own.
                self._values.setdefault(other, 0)
            for other, value in zip(cell["connections"]["Y"], self._result(cell)):
                if isinstance(other, int):
                    self._values[other] = value

    def _free(self, bit: int, driver: Optional[Tuple[str, str, int]]) -> int:
        source = self._names.get(bit)
        if driver and self._cells[driver[0]]["type"] in self._design:
            width = len(self._cells[driver[0]]["connections"][driver[1]])
            port, at = self._source(driver[1], driver[2], width)
            source = (f"{plain(driver[0])}.{port}", at)
        if source is None:
            return 0
        if source not in self._given:
            self._given[source] = self._chance.getrandbits(self._lanes)
        return self._given[source]

    def _word(self, bits: Sequence[Bit]) -> Word:
        return [self.value(bit) for bit in bits]

    def _result(self, cell: Dict[str, Any]) -> Word:
        """The output of an operator."""
        kind, ports, parameters = cell["type"], cell["connections"], cell.get("parameters", {})
        width = len(ports["Y"])
        if kind in ("$mux", "$pmux"):
            return self._choice(ports)
        a, b = self._word(ports.get("A", [])), self._word(ports.get("B", []))
        a_signed, b_signed = (bool(_number(parameters.get(f"{port}_SIGNED", 0))) for port in "AB")
        if kind in ("$shl", "$sshl", "$shr", "$sshr", "$shift", "$shiftx"):
            return self._shifted(kind, a, b, width, a_signed, b_signed)
        if kind.startswith("$reduce") or kind.startswith("$logic"):
            return self._extended(self._reduced(kind, a, b), width, False)
        both = a_signed and (b_signed or "B" not in ports)
        if kind in ("$lt", "$le", "$gt", "$ge", "$eq", "$ne", "$eqx", "$nex"):
            size = max(len(a), len(b))
            return self._extended(
                [self._related(kind, self._extended(a, size, both), self._extended(b, size, both), both)], width, False
            )
        if kind in ("$div", "$mod"):
            return self._divided(kind, a, b, width, both)
        return self._reckoned(kind, self._extended(a, width, both), self._extended(b, width, both), ports)

    def _extended(self, word: Word, width: int, signed: bool) -> Word:
        return word[:width] + [word[-1] if signed and word else 0] * (width - len(word))

    def _choice(self, ports: Dict[str, List[Bit]]) -> Word:
        result = self._word(ports["A"])
        width = len(result)
        choices = self._word(ports["B"])
        for at, select in enumerate(ports["S"]):
            result = self._either(self.value(select), choices[at * width : (at + 1) * width], result)
        return result

    def _either(self, select: int, yes: Word, no: Word) -> Word:
        return [(select & one) | (~select & self._all & other) for one, other in zip(yes, no)]

    def _sum(self, a: Word, b: Word, carry: int) -> Word:
        result: Word = []
        for one, other in zip(a, b):
            result.append(one ^ other ^ carry)
            carry = (one & other) | (carry & (one ^ other))
        return result

    def _inverted(self, word: Word) -> Word:
        return [bit ^ self._all for bit in word]

    def _reckoned(self, kind: str, a: Word, b: Word, ports: Dict[str, List[Bit]]) -> Word:
        if kind == "$add":
            return self._sum(a, b, 0)
        if kind == "$sub":
            return self._sum(a, self._inverted(b), self._all)
        if kind == "$neg":
            return self._sum([0] * len(a), self._inverted(a), self._all)
        if kind == "$mul":
            return self._product(a, b)
        if kind == "$not":
            return self._inverted(a)
        if kind in ("$pos", "$tribuf"):
            return a if kind == "$pos" else [bit & self.value(ports["EN"][0]) for bit in a]
        operation = {
            "$and": int.__and__,
            "$or": int.__or__,
            "$xor": int.__xor__,
            "$xnor": lambda one, other: one ^ other ^ self._all,
        }.get(kind)
        if operation is None:
            raise ValueError(f"a cell {kind}")
        return [operation(one, other) for one, other in zip(a, b)]

    def _product(self, a: Word, b: Word) -> Word:
        width = len(a)
        result = [0] * width
        for at, select in enumerate(b):
            if select:
                result = self._sum(result, [0] * at + [bit & select for bit in a[: width - at]], 0)
        return result

    def _any(self, word: Word) -> int:
        result = 0
        for bit in word:
            result |= bit
        return result

    def _reduced(self, kind: str, a: Word, b: Word) -> Word:
        if kind == "$reduce_and":
            return [self._any(self._inverted(a)) ^ self._all]
        if kind in ("$reduce_xor", "$reduce_xnor"):
            result = 0
            for bit in a:
                result ^= bit
            return [result ^ self._all if kind == "$reduce_xnor" else result]
        if kind == "$logic_not":
            return [self._any(a) ^ self._all]
        if kind == "$logic_and":
            return [self._any(a) & self._any(b)]
        return [self._any(a) | self._any(b)]

    def _related(self, kind: str, a: Word, b: Word, signed: bool) -> int:
        if kind in ("$eq", "$eqx", "$ne", "$nex"):
            differs = self._any([one ^ other for one, other in zip(a, b)])
            return differs if kind in ("$ne", "$nex") else differs ^ self._all
        if kind in ("$gt", "$le"):
            a, b = b, a
        if signed and a:
            a, b = [*a[:-1], a[-1] ^ self._all], [*b[:-1], b[-1] ^ self._all]
        below = 0
        for one, other in zip(a, b):
            below = (~one & other & self._all) | (~(one ^ other) & below & self._all)
        return below if kind in ("$lt", "$gt") else below ^ self._all

    def _shifted(self, kind: str, a: Word, b: Word, width: int, a_signed: bool, b_signed: bool) -> Word:
        size = max(len(a), width)
        fill = a[-1] if kind == "$sshr" and a_signed else 0
        word = self._extended(a, size, a_signed and kind != "$shiftx")
        if kind in ("$shl", "$sshl"):
            return self._moved(word, b, True, 0)[:width]
        if kind in ("$shift", "$shiftx") and b_signed:
            forward = self._moved(word, b[:-1], False, 0)
            back = (
                self._moved(word, self._sum([0] * len(b), self._inverted(b), self._all), True, 0)
                if kind == "$shift"
                else [0] * size
            )
            return self._either(b[-1], back, forward)[:width]
        return self._moved(word, b, False, fill)[:width]

    def _moved(self, word: Word, amount: Word, left: bool, fill: int) -> Word:
        size = len(word)
        for at, select in enumerate(amount):
            by = min(1 << min(at, 30), size)
            moved = [fill] * by + word[: size - by] if left else word[by:] + [fill] * by
            word = self._either(select, moved, word)
        return word

    def _divided(self, kind: str, a: Word, b: Word, width: int, signed: bool) -> Word:
        """A division, lane by lane."""
        result = [0] * width
        for lane in range(self._lanes):
            one, other = (self._number_in(word, lane, signed) for word in (a, b))
            if other:
                quotient = abs(one) // abs(other) * (1 if (one < 0) == (other < 0) else -1)
                value = quotient if kind == "$div" else one - quotient * other
                for at in range(width):
                    result[at] |= ((value >> at) & 1) << lane
        return result

    @staticmethod
    def _number_in(word: Word, lane: int, signed: bool) -> int:
        value = sum(((bit >> lane) & 1) << at for at, bit in enumerate(word))
        return value - (1 << len(word)) if signed and word and (word[-1] >> lane) & 1 else value

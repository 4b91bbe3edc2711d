"""The cells of Yosys that are operators, as expressions of the server's Verilog."""

from __future__ import annotations

from dataclasses import dataclass
from typing import Any, Dict, List, Optional, Tuple

from .nets import WIDEST, Bit, Bits, Nets, Target, chunks, extended
from .refusal import Refusal

BITWISE = {"$and": "&", "$or": "|", "$xor": "^", "$xnor": "~^"}
ARITHMETIC = {"$add": "+", "$sub": "-", "$mul": "*"}
RELATIONAL = {"$lt": "<", "$le": "<=", "$gt": ">", "$ge": ">="}
EQUALITY = {"$eq": "==", "$ne": "!=", "$eqx": "===", "$nex": "!=="}
REDUCING = {
    "$reduce_and": ("&", "&"),
    "$reduce_or": ("|", "|"),
    "$reduce_bool": ("|", "|"),
    "$reduce_xor": ("^", "^"),
    "$reduce_xnor": ("~^", "^"),
}
SHIFTS = ("$shl", "$sshl", "$shr", "$sshr", "$shift", "$shiftx")
LADDER = 16


def number(value: Any) -> int:
    """A parameter of a cell, which Yosys writes as binary digits."""
    return int(value, 2) if isinstance(value, str) else int(value)


@dataclass
class Cell:
    """An operator: its type, parameters, connections, place and origin, and where its output goes."""

    kind: str
    parameters: Dict[str, Any]
    connections: Dict[str, Bits]
    place: int
    origin: Tuple[str, int]
    targets: List[Target]

    @property
    def live(self) -> int:
        """How many of the least significant bits of the output anything reads."""
        return max((target.low + target.width for target in self.targets), default=0)

    def signed(self, *ports: str) -> bool:
        return all(number(self.parameters.get(f"{port}_SIGNED", 0)) for port in ports)


class Operators:
    """Writes operators as continuous assignments, each of a target and an expression."""

    def __init__(self, nets: Nets) -> None:
        self._nets = nets
        self._made: List[Tuple[str, str, int]] = []
        self._cell: Cell = Cell("", {}, {}, 0, ("", 0), [])

    def assignments(self, cell: Cell) -> List[Tuple[str, str, int]]:
        """The assignments of a cell: target, expression and its own size, helpers first."""
        self._made = []
        self._cell = cell
        kind = cell.kind
        a, b = cell.connections.get("A", []), cell.connections.get("B", [])
        if kind in BITWISE or kind in ("$not", "$pos", "$mux", "$tribuf", "$_TBUF_"):
            self._slices(cell, a, b)
        elif kind == "$pmux":
            self._pmux(cell, a, b)
        elif kind in SHIFTS:
            self._shift(cell, a, b)
        elif kind in ("$div", "$mod"):
            self._divide(cell, a, b)
        elif kind in ARITHMETIC or kind == "$neg":
            self._arithmetic(cell, a, b)
        else:
            self._whole(cell, self._one_bit(cell, a, b), 1)
        return self._made

    # ---- parts

    def _text(self, bits: Bits) -> str:
        return self._nets.text(bits)

    def _assign(self, target: str, expression: str, width: int) -> None:
        self._made.append((target, expression, width))

    def _net(self, expression: str, width: int) -> Bits:
        """A helper net with the value of an expression."""
        piece = self._nets.helper(width, self._cell.place, self._cell.origin)
        self._assign(piece.name, expression, width)
        return list(piece.bits)

    def _give(self, cell: Cell, bits: Bits) -> None:
        """Assigns bits to the targets."""
        for target in cell.targets:
            self._assign(
                target.piece.name,
                self._text(extended(bits, cell.live, False)[target.low : target.low + target.width]),
                target.width,
            )

    def _whole(self, cell: Cell, expression: str, width: Optional[int] = None) -> None:
        """Assigns an expression of the output's width, or of one bit that is extended."""
        if len(cell.targets) == 1 and not cell.targets[0].low:
            self._assign(cell.targets[0].piece.name, expression, cell.targets[0].width if width is None else width)
        elif cell.targets:
            self._give(cell, self._net(expression, width or min(cell.live, WIDEST)))

    def _refuse(self, construct: str, advice: str) -> None:
        raise Refusal(*self._cell.origin, construct, advice)

    # ---- bit by bit

    def _slices(self, cell: Cell, a: Bits, b: Bits) -> None:
        both = cell.signed("A", "B")
        a = extended(a, cell.live, cell.signed("A") if cell.kind in ("$not", "$pos") else both)
        b = extended(b, cell.live, both)
        for target in cell.targets:
            ends = slice(target.low, target.low + target.width)
            left, right = self._text(a[ends]), self._text(b[ends])
            if cell.kind == "$pos":
                expression = left
            elif cell.kind == "$not":
                expression = f"~{left}"
            elif cell.kind == "$mux":
                expression = f"{self._text(cell.connections['S'])} ? {right} : {left}"
            elif cell.kind in ("$tribuf", "$_TBUF_"):
                enable = self._text(cell.connections.get("EN", cell.connections.get("E", [])))
                expression = f"{enable} ? {left} : {target.width}'b{'z' * target.width}"
            else:
                expression = f"{left} {BITWISE[cell.kind]} {right}"
            self._assign(target.piece.name, expression, target.width)

    def _pmux(self, cell: Cell, a: Bits, b: Bits) -> None:
        """Choices of a case, as a ladder of `?:` in steps that do not nest too deep.

        Yosys counts them from the last, so that where more than one holds, as under `parallel_case`, the greatest
        is the first of the text.
        """
        width = len(a)
        choices = [(select, b[at * width : (at + 1) * width]) for at, select in enumerate(cell.connections["S"])]
        choices.reverse()
        for target in cell.targets:
            rest = self._text(a[target.low : target.low + target.width])
            for start in reversed(range(0, len(choices), LADDER)):
                for select, bits in reversed(choices[start : start + LADDER]):
                    rest = (
                        f"{self._text([select])} ? {self._text(bits[target.low : target.low + target.width])} : {rest}"
                    )
                if start:
                    rest = self._text(self._net(rest, target.width))
            self._assign(target.piece.name, rest, target.width)

    # ---- one bit

    def _one_bit(self, cell: Cell, a: Bits, b: Bits) -> str:
        kind = cell.kind
        if kind in RELATIONAL:
            return self._relation(kind, a, b, cell.signed("A", "B"))
        if kind in EQUALITY:
            width = max(len(a), len(b))
            return self._equality(
                kind, extended(a, width, cell.signed("A", "B")), extended(b, width, cell.signed("A", "B"))
            )
        if kind in REDUCING:
            outer, inner = REDUCING[kind]
            parts = [f"{inner}{self._text(a[low : low + width])}" for low, width in chunks(len(a))]
            if len(parts) == 1:
                return f"{outer}{self._text(a)}"
            joined = f" {inner} ".join(f"({part})" for part in parts)
            return f"!({joined})" if outer != inner else joined
        if kind == "$logic_not":
            return f"!{self._truth(a)}"
        if kind in ("$logic_and", "$logic_or"):
            return f"{self._truth(a)} {'&&' if kind == '$logic_and' else '||'} {self._truth(b)}"
        self._refuse(f"a cell {kind} of Yosys", "write it with operators of docs/FORMATS.md")
        return ""

    def _truth(self, bits: Bits) -> str:
        parts = [self._text(bits[low : low + width]) for low, width in chunks(len(bits))]
        return parts[0] if len(parts) == 1 else "(" + " | ".join(f"(|{part})" for part in parts) + ")"

    def _equality(self, kind: str, a: Bits, b: Bits) -> str:
        same = {"$ne": "==", "$nex": "==="}.get(kind, EQUALITY[kind])
        ends = chunks(len(a))
        if len(ends) == 1:
            return f"{self._text(a)} {EQUALITY[kind]} {self._text(b)}"
        joined = " & ".join(
            f"({self._text(a[low : low + width])} {same} {self._text(b[low : low + width])})" for low, width in ends
        )
        return f"!({joined})" if kind in ("$ne", "$nex") else joined

    def _relation(self, kind: str, a: Bits, b: Bits, signed: bool) -> str:
        width = max(len(a), len(b))
        a, b = extended(a, width, signed), extended(b, width, signed)
        if signed:
            # Two numbers in two's complement compare as those without a sign do when their greatest bits are turned
            # round.
            a, b = self._turned(a), self._turned(b)
        if width <= WIDEST:
            return f"{self._text(a)} {RELATIONAL[kind]} {self._text(b)}"
        strict = RELATIONAL[kind][0]
        result = ""
        for at, (low, size) in enumerate(chunks(width)):
            left, right = self._text(a[low : low + size]), self._text(b[low : low + size])
            below = f"({left} {strict} {right})" if at else f"({left} {RELATIONAL[kind]} {right})"
            result = f"({below} | (({left} == {right}) & {result}))" if at else below
        return result

    def _turned(self, bits: Bits) -> Bits:
        last = bits[-1]
        if isinstance(last, str):
            return [*bits[:-1], {"0": "1", "1": "0"}.get(last, "x")]
        return [*bits[:-1], *self._net(f"~{self._text([last])}", 1)]

    # ---- arithmetic

    def _arithmetic(self, cell: Cell, a: Bits, b: Bits) -> None:
        width = cell.live
        both = cell.signed("A", "B")
        if cell.kind == "$neg":
            a, b = ["0"] * width, extended(a, width, cell.signed("A"))
        a, b = extended(a, width, both), extended(b, width, both)
        sign = "-" if cell.kind == "$neg" else ARITHMETIC[cell.kind]
        if width <= WIDEST:
            left, right = self._text(a), self._text(b)
            self._whole(cell, f"-{right}" if cell.kind == "$neg" else f"{left} {sign} {right}")
        elif sign == "*":
            self._refuse("a product of over 64 bits", "multiply parts of it")
        else:
            self._give(cell, self._long_sum(a, b, sign == "-"))

    def _long_sum(self, a: Bits, b: Bits, subtract: bool) -> Bits:
        """A sum of over 64 bits, by parts of 32 with their carries."""
        result: Bits = []
        carry: Bits = ["1" if subtract else "0"]
        for low, width in chunks(len(a), 32):
            left, right = self._text([*a[low : low + width], "0"]), self._text([*b[low : low + width]])
            right = f"{{1'b0, ~{right}}}" if subtract else f"{{1'b0, {right}}}"
            part = self._net(f"{left} + {right} + {self._text([*carry, *['0'] * width])}", width + 1)
            result += part[:width]
            carry = [part[width]]
        return result

    def _divide(self, cell: Cell, a: Bits, b: Bits) -> None:
        """A division by a constant, by shifts where it is a power of two and else by subtraction from the top."""
        word = "a division" if cell.kind == "$div" else "a remainder"
        if not all(bit in ("0", "1") for bit in b):
            self._refuse(f"{word} by a variable", "divide step by step, in a procedure with a clock")
        divisor = sum(1 << at for at, bit in enumerate(b) if bit == "1")
        if cell.signed("A", "B") and b[-1] == "1" or not divisor:
            self._refuse(f"{word} by a number that is not above 0", "divide by a number above 0")
        if cell.signed("A", "B"):
            self._refuse(f"{word} of signed numbers", "divide numbers without a sign")
        if len(a) > WIDEST - 1:
            self._refuse(f"{word} of over 63 bits", "divide parts of it")
        power = divisor.bit_length() - 1
        if divisor == 1 << power:
            quotient, rest = list(a[power:]), list(a[:power])
        else:
            quotient, rest = self._by_subtraction(a, divisor)
        self._give(cell, extended(quotient if cell.kind == "$div" else rest, max(cell.live, 1), False))

    def _by_subtraction(self, a: Bits, divisor: int) -> Tuple[Bits, Bits]:
        width = divisor.bit_length() + 1
        by = f"{width}'d{divisor}"
        rest: Bits = ["0"] * width
        quotient: Bits = []
        for bit in reversed(a):
            rest = [bit, *rest[: width - 1]]
            text = self._text(rest)
            fits = self._net(f"{text} >= {by}", 1)
            rest = self._net(f"{self._text(fits)} ? {text} - {by} : {text}", width)
            quotient = [*fits, *quotient]
        return quotient, rest

    # ---- shifts

    def _shift(self, cell: Cell, a: Bits, b: Bits) -> None:
        left = cell.kind in ("$shl", "$sshl")
        signed = cell.signed("A") and cell.kind not in ("$shiftx",)
        filling: Bit = a[-1] if cell.kind == "$sshr" and signed else "x" if cell.kind == "$shiftx" else "0"
        width = cell.live if left else max(number(cell.parameters["Y_WIDTH"]), len(a))
        a = list(a[:width])
        a = extended(a, width, signed) if cell.kind != "$shiftx" else a + ["x"] * (width - len(a))
        if all(bit in ("0", "1") for bit in b):
            self._give(cell, self._by_constant(cell, a, b, left, filling))
        elif cell.kind in ("$shift", "$shiftx") and cell.signed("B"):
            self._either_way(cell, a, b, filling)
        elif width <= WIDEST and filling in ("0", "x"):
            self._plain_shift(cell, a, b, left)
        else:
            self._give(cell, self._steps(a, b, left, filling))

    def _by_constant(self, cell: Cell, a: Bits, b: Bits, left: bool, filling: Bit) -> Bits:
        amount = sum(1 << at for at, bit in enumerate(b) if bit == "1")
        if cell.kind in ("$shift", "$shiftx") and cell.signed("B") and b[-1] == "1":
            amount, left = (1 << len(b)) - amount, True
        amount = min(amount, len(a))
        low: Bit = "0" if cell.kind != "$shiftx" else "x"
        return [low] * amount + a[: len(a) - amount] if left else a[amount:] + [filling] * amount

    def _plain_shift(self, cell: Cell, a: Bits, b: Bits, left: bool) -> None:
        piece = self._nets.whole(a)
        if cell.kind == "$shiftx" and cell.live == 1 and piece and piece.width > 1 and not piece.offset:
            self._whole(cell, f"{piece.name}[{self._text(b)}]", 1)
        elif cell.live < len(a):
            self._give(cell, self._net(f"{self._text(a)} {'<<' if left else '>>'} {self._text(b)}", len(a)))
        else:
            self._whole(cell, f"{self._text(a)} {'<<' if left else '>>'} {self._text(b)}")

    def _either_way(self, cell: Cell, a: Bits, b: Bits, filling: Bit) -> None:
        """A shift to the right by a signed number: to the left where it is negative."""
        forward = self._steps(a, b[:-1], False, filling)
        if cell.kind == "$shiftx":
            backward: Bits = ["x"] * len(a)
        else:
            backward = self._steps(a, self._net(f"-{self._text(b)}", len(b)), True, "0")
        for target in cell.targets:
            ends = slice(target.low, target.low + target.width)
            self._assign(
                target.piece.name,
                f"{self._text([b[-1]])} ? {self._text(backward[ends])} : {self._text(forward[ends])}",
                target.width,
            )

    def _steps(self, bits: Bits, amount: Bits, left: bool, filling: Bit) -> Bits:
        """A shift by powers of two, one bit of the amount after the other."""
        size = len(bits)
        for at, select in enumerate(amount):
            by = min(1 << at, size)
            moved = [filling] * by + bits[: size - by] if left else bits[by:] + [filling] * by
            if select == "0":
                continue
            following: Bits = []
            for low, width in chunks(size):
                pair = self._text(moved[low : low + width]), self._text(bits[low : low + width])
                following += self._net(f"{self._text([select])} ? {pair[0]} : {pair[1]}", width)
            bits = following
        return bits

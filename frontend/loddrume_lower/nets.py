"""The nets of a module: which name has each bit, what drives it, and how bits are written as an expression."""

from __future__ import annotations

from dataclasses import dataclass, field
from typing import Dict, List, Optional, Sequence, Tuple, Union

from .names import Names

Bit = Union[int, str]
Bits = List[Bit]
WIDEST = 64


@dataclass
class Piece:
    """A net or reg that is declared: of the original, at most 64 bits of it, or a helper."""

    name: str
    width: int
    place: int
    origin: Tuple[str, int]
    kind: str = "wire"
    direction: str = ""
    offset: int = 0
    bits: Bits = field(default_factory=list)
    initial: str = ""
    is_helper: bool = False

    def select(self, low: int, width: int) -> str:
        """The bits from `low` on, as a name or a select."""
        if width == self.width:
            return self.name
        high, low = low + width - 1 + self.offset, low + self.offset
        return f"{self.name}[{low}]" if high == low else f"{self.name}[{high}:{low}]"

    def range(self) -> str:
        """The range of the declaration, with a space after it, or nothing for one bit."""
        return f"[{self.width - 1 + self.offset}:{self.offset}] " if self.width > 1 or self.offset else ""


@dataclass
class Target:
    """Where bits of an output go: `width` of them from `low` on, to the bits of a piece from `index` on."""

    low: int
    width: int
    piece: Piece
    index: int

    @property
    def is_whole(self) -> bool:
        return self.width == self.piece.width


class Nets:
    """The pieces of a module and the owner of each bit."""

    def __init__(self, names: Names) -> None:
        self.names = names
        self.pieces: List[Piece] = []
        self.owner: Dict[int, Tuple[Piece, int]] = {}
        self._counts: Dict[int, int] = {}
        self._made = 0

    def add(self, piece: Piece) -> Piece:
        """Takes up a piece; the bits that have no owner yet are its own."""
        self.pieces.append(piece)
        for index, bit in enumerate(piece.bits):
            if isinstance(bit, int):
                self.owner.setdefault(bit, (piece, index))
        return piece

    def helper(
        self, width: int, place: int, origin: Tuple[str, int], kind: str = "wire", bits: Optional[Bits] = None
    ) -> Piece:
        """A net that is not of the original.

        Helpers are counted by place, so that none betrays how many another place has.
        """
        self._counts[place] = self._counts.get(place, 0) + 1
        name = self.names.fresh(f"_e{place}n{self._counts[place]}" if place else f"_n{self._counts[place]}")
        piece = Piece(
            name, width, place, origin, kind, bits=bits if bits is not None else self.new_bits(width), is_helper=True
        )
        return self.add(piece)

    def new_bits(self, width: int) -> Bits:
        """Bits that no net of Yosys has."""
        self._made -= width
        return list(range(self._made, self._made + width))

    def whole(self, bits: Sequence[Bit]) -> Optional[Piece]:
        """The piece that has exactly these bits."""
        first = self.owner.get(bits[0]) if bits and isinstance(bits[0], int) else None
        if not first or len(bits) != first[0].width:
            return None
        return first[0] if all(self._is(bit, first[0], at) for at, bit in enumerate(bits)) else None

    def _is(self, bit: Bit, piece: Piece, index: int) -> bool:
        return isinstance(bit, int) and self.owner.get(bit) == (piece, index)

    # ---- expressions

    def text(self, bits: Sequence[Bit]) -> str:
        """Bits as an expression, least significant first in the list."""
        parts: List[str] = []
        at = 0
        while at < len(bits):
            part, length = self._run(bits, at)
            parts.append(part)
            at += length
        return parts[0] if len(parts) == 1 else "{" + ", ".join(reversed(parts)) + "}"

    def _run(self, bits: Sequence[Bit], at: int) -> Tuple[str, int]:
        bit = bits[at]
        if isinstance(bit, str):
            return self._same_kind(bits, at)
        if bit not in self.owner:
            length = self._repeats(bits, at)
            return f"{length}'b" + "z" * length, length
        repeats = self._repeats(bits, at)
        piece, index = self.owner[bit]
        if repeats > 1:
            return f"{{{repeats}{{{piece.select(index, 1)}}}}}", repeats
        length = 1
        while at + length < len(bits) and self._is(bits[at + length], piece, index + length):
            length += 1
        return piece.select(index, length), length

    def _same_kind(self, bits: Sequence[Bit], at: int) -> Tuple[str, int]:
        digits = ""
        while at + len(digits) < len(bits) and isinstance(bits[at + len(digits)], str):
            digits = str(bits[at + len(digits)]) + digits
        return f"{len(digits)}'b{digits}", len(digits)

    def _repeats(self, bits: Sequence[Bit], at: int) -> int:
        length = 1
        while at + length < len(bits) and bits[at + length] == bits[at]:
            length += 1
        return length


def extended(bits: Sequence[Bit], width: int, signed: bool) -> Bits:
    """Bits cut or extended to a width: by the greatest bit where they are signed, else by 0."""
    filling: Bit = bits[-1] if signed and bits else "0"
    return list(bits[:width]) + [filling] * (width - len(bits))


def chunks(width: int, size: int = WIDEST) -> List[Tuple[int, int]]:
    """The parts of at most `size` bits that a width has: the lowest bit and the width of each."""
    return [(low, min(size, width - low)) for low in range(0, width, size)]

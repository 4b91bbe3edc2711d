"""The memories of Yosys, as a reg for each word: reads are choices by the address, writes are a case in a procedure."""

from __future__ import annotations

from typing import Any, Callable, Dict, List, Tuple

from .nets import Bit, Bits, Nets, Piece, chunks
from .operators import number
from .refusal import Refusal
from .registers import digits

MOST_WORDS = 1024


class Memory:
    """A cell `$mem_v2`: its words, and the statements that read and write them."""

    def __init__(self, nets: Nets, cell: Dict[str, Any], place: int, origin: Tuple[str, int]) -> None:
        self._nets = nets
        self._parameters = cell["parameters"]
        self._ports: Dict[str, Bits] = cell["connections"]
        self.place = place
        self.origin = origin
        self.name = str(self._parameters["MEMID"]).lstrip("\\")
        self.size = number(self._parameters["SIZE"])
        self.width = number(self._parameters["WIDTH"])
        self._offset = number(self._parameters["OFFSET"])
        self._address_bits = number(self._parameters["ABITS"])
        self.words: List[List[Piece]] = []
        if self.size > MOST_WORDS:
            raise Refusal(
                *origin, f"the memory {self.name} of {self.size} words", f"make it smaller: at most {MOST_WORDS} words"
            )

    def declare(self) -> Dict[str, List[Piece]]:
        """Makes a piece for each word, or several for one of over 64 bits, by the names of the original."""
        named: Dict[str, List[Piece]] = {}
        for at in range(self.size):
            original = f"{self.name}[{at + self._offset}]"
            parts = chunks(self.width)
            name = self._nets.names.of(original)
            names = (
                [name]
                if len(parts) == 1
                else [self._nets.names.fresh(f"{name}__{number}") for number in range(len(parts))]
            )
            word = [
                self._nets.add(
                    Piece(names[part], width, self.place, self.origin, "reg", bits=self._nets.new_bits(width))
                )
                for part, (_, width) in enumerate(parts)
            ]
            self.words.append(word)
            named[original] = word
        return named

    def initial(self) -> str:
        """The initial values as one statement, or nothing where there are none."""
        values = (
            digits(self._parameters["INIT"], self.size * self.width)
            if self._parameters.get("INIT") not in (None, "x")
            else ""
        )
        statements: List[str] = []
        for at, word in enumerate(self.words):
            end = len(values) - at * self.width
            value = values[max(end - self.width, 0) : end] if values else ""
            for (low, width), piece in zip(chunks(self.width), word):
                part = value[len(value) - low - width : len(value) - low]
                if set(part) - {"x"}:
                    statements.append(f"{piece.name} = {width}'b{part};")
        return f"initial begin {' '.join(statements)} end" if statements else ""

    # ---- reads

    def reads(self) -> List[Tuple[Bits, Bits]]:
        """For each port that reads, the bits of its data and those of its address."""
        count = number(self._parameters["RD_PORTS"])
        enabled = digits(self._parameters["RD_CLK_ENABLE"], max(count, 1))
        if "1" in enabled and count:
            raise Refusal(
                *self.origin, f"a read of the memory {self.name} with a clock of its own", "read it into a reg"
            )
        return [
            (
                self._ports["RD_DATA"][at * self.width : (at + 1) * self.width],
                self._ports["RD_ADDR"][at * self._address_bits : (at + 1) * self._address_bits],
            )
            for at in range(count)
        ]

    def choice(self, address: Bits, low: int, width: int) -> str:
        """Some bits of the word at an address, as an expression; x where no word is."""
        needed = max((self.size + self._offset - 1).bit_length(), 1)
        inner = self._tree(address[:needed], low, width, 0, min(needed, len(address)))
        high = [bit for bit in address[needed:] if bit != "0"]
        return f"(|{self._nets.text(high)}) ? {width}'b{'x' * width} : {inner}" if high else inner

    def _tree(self, address: Bits, low: int, width: int, base: int, level: int) -> str:
        if base >= self.size + self._offset or base + (1 << level) <= self._offset:
            return f"{width}'b{'x' * width}"
        if not level:
            return self._part(base - self._offset, low, width)
        bit = address[level - 1]
        if bit in ("0", "1"):
            return self._tree(address, low, width, base + (int(bit) << (level - 1)), level - 1)
        greater = self._tree(address, low, width, base + (1 << (level - 1)), level - 1)
        return f"{self._nets.text([bit])} ? ({greater}) : ({self._tree(address, low, width, base, level - 1)})"

    def _part(self, at: int, low: int, width: int) -> str:
        bits = [bit for piece in self.words[at] for bit in piece.bits]
        return self._nets.text(bits[low : low + width])

    # ---- writes

    def join_enables(self, same: Callable[[Bit], Bit]) -> None:
        """Lets bits that are enabled alike have one enable."""
        self._ports["WR_EN"] = [same(bit) for bit in self._ports["WR_EN"]]

    def writes(self, net_of: Callable[[Bits], str]) -> List[str]:
        """A procedure for each edge of a clock at which the memory is written."""
        count = number(self._parameters["WR_PORTS"])
        enabled = digits(self._parameters["WR_CLK_ENABLE"], max(count, 1))[::-1]
        rising = digits(self._parameters["WR_CLK_POLARITY"], max(count, 1))[::-1]
        procedures: Dict[str, List[str]] = {}
        for port in range(count):
            if enabled[port] == "0":
                raise Refusal(
                    *self.origin, f"a write of the memory {self.name} without a clock", "write it at an edge of a clock"
                )
            event = f"{'posedge' if rising[port] == '1' else 'negedge'} {net_of([self._ports['WR_CLK'][port]])}"
            procedures.setdefault(event, []).extend(self._port(port))
        return [f"always @({event}) begin {' '.join(statements)} end" for event, statements in procedures.items()]

    def _port(self, port: int) -> List[str]:
        ends = slice(port * self.width, (port + 1) * self.width)
        enables, data = self._ports["WR_EN"][ends], self._ports["WR_DATA"][ends]
        address = self._ports["WR_ADDR"][port * self._address_bits : (port + 1) * self._address_bits]
        return [
            statement
            for low, width in _runs(enables)
            if (statement := self._part_write(address, enables[low], data[low : low + width], low))
        ]

    def _part_write(self, address: Bits, enable: Any, data: Bits, low: int) -> str:
        if enable == "0":
            return ""
        if all(bit in ("0", "1") for bit in address):
            at = sum(1 << place for place, bit in enumerate(address) if bit == "1") - self._offset
            body = self._assignments(at, data, low) if 0 <= at < self.size else ""
        else:
            choices = " ".join(
                f"{self._address_bits}'d{at + self._offset}: {self._assignments(at, data, low)}"
                for at in range(self.size)
                if at + self._offset < 1 << self._address_bits
            )
            body = f"case ({self._nets.text(address)}) {choices} endcase"
        if not body or enable == "1":
            return body
        return f"if ({self._nets.text([enable])}) {body}"

    def _assignments(self, at: int, data: Bits, low: int) -> str:
        result: List[str] = []
        for (start, size), piece in zip(chunks(self.width), self.words[at]):
            first, last = max(low, start), min(low + len(data), start + size)
            if first < last:
                result.append(
                    f"{piece.select(first - start, last - first)} <= {self._nets.text(data[first - low : last - low])};"
                )
        return result[0] if len(result) == 1 else f"begin {' '.join(result)} end"


def _runs(enables: Bits) -> List[Tuple[int, int]]:
    """The runs of bits that have the same enable: the first bit and how many."""
    runs: List[Tuple[int, int]] = []
    for at, enable in enumerate(enables):
        if runs and enables[runs[-1][0]] == enable:
            runs[-1] = (runs[-1][0], runs[-1][1] + 1)
        else:
            runs.append((at, 1))
    return runs

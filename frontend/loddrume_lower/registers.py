"""The cells of Yosys that store: flip-flops and latches, as procedures."""

from __future__ import annotations

from typing import Any, Callable, Dict, List, Tuple

from .nets import Bits, Nets, Target
from .operators import number
from .refusal import Refusal

FLIPFLOPS = ("$dff", "$dffe", "$adff", "$adffe", "$aldff", "$dffsr", "$sdff", "$sdffe", "$sdffce")
LATCHES = ("$dlatch", "$adlatch", "$dlatchsr")
REGISTERS = FLIPFLOPS + LATCHES


def digits(value: Any, width: int) -> str:
    """A parameter as binary digits, the greatest first, filled with 0 or cut on the left."""
    text = value if isinstance(value, str) else format(value, "b")
    return text[-width:].rjust(width, "0")


class Registers:
    """Writes a register for each of its targets."""

    def __init__(self, nets: Nets, net_of: Callable[[Bits], str]) -> None:
        self._nets = nets
        self._net_of = net_of

    def procedures(
        self,
        kind: str,
        parameters: Dict[str, Any],
        ports: Dict[str, Bits],
        targets: List[Target],
        origin: Tuple[str, int],
    ) -> List[Tuple[str, str]]:
        """The event and the statement for each target."""
        return [self._one(kind, parameters, ports, target, origin) for target in targets]

    def _one(
        self, kind: str, parameters: Dict[str, Any], ports: Dict[str, Bits], target: Target, origin: Tuple[str, int]
    ) -> Tuple[str, str]:
        ends = slice(target.low, target.low + target.width)
        name = target.piece.select(target.index, target.width)
        blocking = kind in LATCHES
        statement = f"{name} {'=' if blocking else '<='} {self._nets.text(ports['D'][ends])};"
        enable = {
            "$dffe": "EN",
            "$adffe": "EN",
            "$sdffe": "EN",
            "$dlatch": "EN",
            "$adlatch": "EN",
            "$dlatchsr": "EN",
        }.get(kind)
        if enable:
            statement = f"if ({self._level(parameters, ports, enable)}) {statement}"
        events = [] if blocking else [self._edge(parameters, ports, "CLK")]
        for level, value in self._overrides(kind, parameters, ports, ends, origin):
            port = level
            assigned = f"{name} {'=' if blocking else '<='} {value};"
            statement = f"if ({self._level(parameters, ports, port)}) {assigned} else {statement}"
            if not blocking and port != "SRST":
                events.append(self._edge(parameters, ports, port))
        return ("always @* " + statement, "") if blocking else (f"always @({' or '.join(events)})", statement)

    def _overrides(
        self, kind: str, parameters: Dict[str, Any], ports: Dict[str, Bits], ends: slice, origin: Tuple[str, int]
    ) -> List[Tuple[str, str]]:
        """What comes before the data: a port, and the value that it gives; the one that goes first stands last."""
        width = ends.stop - ends.start
        total = len(ports["D"])
        if kind in ("$adff", "$adffe", "$adlatch", "$sdff", "$sdffe", "$sdffce"):
            port = "SRST" if "SRST" in ports else "ARST"
            value = digits(parameters[f"{port}_VALUE"], total)
            return [(port, f"{width}'b{value[total - ends.stop : total - ends.start]}")]
        if kind == "$aldff":
            return [("ALOAD", self._nets.text(ports["AD"][ends]))]
        if kind in ("$dffsr", "$dlatchsr"):
            if len(set(ports["SET"][ends])) > 1 or len(set(ports["CLR"][ends])) > 1:
                raise Refusal(
                    *origin, "a register whose bits are set and cleared one by one", "set all bits of it at once"
                )
            ports["SET"], ports["CLR"] = ports["SET"][ends][:1], ports["CLR"][ends][:1]
            return [("SET", f"{width}'b{'1' * width}"), ("CLR", f"{width}'b{'0' * width}")]
        return []

    def _level(self, parameters: Dict[str, Any], ports: Dict[str, Bits], port: str) -> str:
        return f"{'' if number(parameters[f'{port}_POLARITY']) else '!'}{self._nets.text(ports[port])}"

    def _edge(self, parameters: Dict[str, Any], ports: Dict[str, Bits], port: str) -> str:
        return f"{'posedge' if number(parameters[f'{port}_POLARITY']) else 'negedge'} {self._net_of(ports[port])}"

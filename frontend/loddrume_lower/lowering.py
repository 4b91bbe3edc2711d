"""Lowers a module of Yosys's JSON netlist to items of the server's Verilog, each with its place and its origin."""

from __future__ import annotations

import re
from dataclasses import dataclass, field
from typing import Any, Callable, Dict, List, Set, Tuple

from .memories import Memory
from .modules import Module
from .names import Names, plain
from .nets import WIDEST, Bit, Bits, Nets, Piece, Target, chunks
from .netlist import is_helper
from .operators import Cell, Operators
from .places import Places
from .refusal import Refusal
from .registers import REGISTERS, Registers, digits

CHECKS = ("$assert", "$assume", "$cover", "$live", "$fair", "$check", "$print", "$initstate", "$scopeinfo")
Origin = Tuple[str, int]


@dataclass
class Statement:
    """An item of the lowered module that is no declaration."""

    text: str
    place: int
    origin: Origin
    width: int = 0


@dataclass
class Lowered:
    """A module that is lowered: what is declared, its statements, and what became of each name of the original."""

    name: str
    original: str
    ports: List[Piece] = field(default_factory=list)
    pieces: List[Piece] = field(default_factory=list)
    statements: List[Statement] = field(default_factory=list)
    names: Dict[str, List[str]] = field(default_factory=dict)
    instances: Dict[str, Tuple[str, str]] = field(default_factory=dict)
    left_out: List[str] = field(default_factory=list)


@dataclass
class _Output:
    """An output of a cell, and where its bits go."""

    kind: str
    place: int
    origin: Origin
    bits: Bits
    targets: List[Target] = field(default_factory=list)


class Lowering:
    """Lowers one module. `netlist` is all of the JSON, `named` gives each module of it the name that it gets."""

    def __init__(
        self, name: str, netlist: Dict[str, Any], named: Dict[str, str], module: Module, places: Places
    ) -> None:
        self._design = netlist["modules"]
        self._data = dict(self._design[name])
        self._data["cells"] = dict(sorted(self._data["cells"].items(), key=lambda item: natural(item[0])))
        self._named = named
        self._module = module
        self._places = places
        self._nets = Nets(Names())
        self._operators = Operators(self._nets)
        self._registers = Registers(self._nets, self._named_net)
        self._memories: List[Memory] = []
        self._outputs: Dict[Tuple[str, str], _Output] = {}
        self._drivers: Dict[int, Tuple[Tuple[str, str], int]] = {}
        self._joins: Dict[int, Dict[int, Tuple[Piece, int]]] = {}
        self._public: Dict[str, List[Piece]] = {}
        self._clocks: Dict[Tuple[int, Bit], str] = {}
        self._procedures: Dict[Tuple[str, int, Origin], List[str]] = {}
        self._choices: Dict[Tuple[Bit, Bit, Bit], Bit] = {}
        self._cell = Statement("", module.place, (module.file, module.line))
        self.lowered = Lowered(named[name], module.name)

    def lower(self) -> Lowered:
        """The lowered module."""
        self._declare()
        self._find_drivers()
        self._keep_live()
        self._place_registers()
        for key, output in self._outputs.items():
            self._aim(key, output)
        for name, cell in self._data["cells"].items():
            self._write(name, cell)
        for (event, place, origin), texts in self._procedures.items():
            self._say(
                f"{event} {texts[0]}" if len(texts) == 1 else f"{event} begin {' '.join(texts)} end", place, origin
            )
        for memory in self._memories:
            self._write_memory(memory)
        self._join_parts()
        self._write_initial()
        self.lowered.pieces = self._nets.pieces
        self.lowered.ports = [piece for port in self._data["ports"] for piece in self._public[port]]
        self.lowered.names.update({name: [piece.name for piece in pieces] for name, pieces in self._public.items()})
        return self.lowered

    # ---- declarations

    def _declare(self) -> None:
        for name, port in self._data["ports"].items():
            net = self._data["netnames"].get(name, {})
            origin = self._places.origin(net.get("attributes", {}).get("src", "")) or (
                self._module.file,
                self._module.line,
            )
            if port["direction"] == "inout":
                raise Refusal(*origin, f"the inout port {name}", "make an input, an output and an enable of it")
            if self._place(net, f"the port {name}") != self._module.place:
                raise Refusal(
                    *origin, f"the port {name} is declared in an envelope", "declare it outside, or in the header"
                )
            self._declare_net(name, net or port, port["direction"])
        for name, net in self._data["netnames"].items():
            if name not in self._public and not net.get("hide_name") and not is_helper(name):
                self._declare_net(name, net, "")
        for name, cell in self._data["cells"].items():
            if cell["type"] in ("$mem", "$mem_v2"):
                memory = Memory(self._nets, cell, self._place(cell, name), self._origin(cell))
                self._memories.append(memory)
                self._public.update(memory.declare())

    def _declare_net(self, name: str, net: Dict[str, Any], direction: str) -> None:
        place = self._place(net, f"the net {name}")
        bits: Bits = net["bits"]
        parts = chunks(len(bits))
        base = self._nets.names.of(name)
        names = (
            [base] if len(parts) == 1 else [self._nets.names.fresh(f"{base}__{number}") for number in range(len(parts))]
        )
        offset = int(net.get("offset", 0)) if len(parts) == 1 and not net.get("upto") else 0
        offset = offset if 0 <= offset <= 65535 - len(bits) else 0
        initial = net.get("attributes", {}).get("init", "")
        value = digits(initial, len(bits)) if isinstance(initial, str) and initial else ""
        self._public[name] = [
            self._nets.add(
                Piece(
                    names[at], width, place, self._origin(net), direction=direction, offset=offset,
                    bits=bits[low : low + width], initial=value[len(bits) - low - width : len(bits) - low],
                )
            )
            for at, (low, width) in enumerate(parts)
        ]  # fmt: skip

    def _place(self, what: Dict[str, Any], construct: str) -> int:
        return self._places.place(what.get("attributes", {}).get("src", ""), self._module, construct)

    def _origin(self, what: Dict[str, Any]) -> Origin:
        return self._places.origin(what.get("attributes", {}).get("src", "")) or (self._module.file, self._module.line)

    # ---- what drives what

    def _is_instance(self, cell: Dict[str, Any]) -> bool:
        return cell["type"] in self._design

    def _refuse_foreign(self, name: str, cell: Dict[str, Any]) -> None:
        if not cell["type"].startswith("$"):
            raise Refusal(
                *self._origin(cell),
                f"{name} is of {cell['type']}, a cell of a vendor",
                "give its module, or one that stands for it",
            )
        if self._is_instance(cell) and self._design[cell["type"]].get("attributes", {}).get("blackbox"):
            raise Refusal(*self._origin(cell), f"{name} is of a module without a body", "give its body")

    def _find_drivers(self) -> None:
        for name, cell in self._data["cells"].items():
            if cell["type"] in CHECKS:
                continue
            if not self._is_instance(cell):
                self._refuse_foreign(name, cell)
            place, origin = self._place(cell, f"the cell {name}"), self._origin(cell)
            for port, bits in cell["connections"].items():
                if self._drives(cell, port) and cell["type"] not in ("$mem", "$mem_v2"):
                    self._add_output((name, port), _Output(cell["type"], place, origin, bits))
        for memory in self._memories:
            for at, (data, _) in enumerate(memory.reads()):
                self._add_output((memory.name, f"read {at}"), _Output("$mem_v2", memory.place, memory.origin, data))

    def _drives(self, cell: Dict[str, Any], port: str) -> bool:
        if self._is_instance(cell):
            return bool(self._design[cell["type"]]["ports"][port]["direction"] != "input")
        return port in ("Y", "Q")

    def _add_output(self, key: Tuple[str, str], output: _Output) -> None:
        self._outputs[key] = output
        for at, bit in enumerate(output.bits):
            if not isinstance(bit, int):
                continue
            if bit in self._drivers:
                raise Refusal(
                    *output.origin, f"a second driver of {self._nets.text([bit])}", "drive each bit of a net once"
                )
            self._drivers[bit] = (key, at)

    def _inputs(self, key: Tuple[str, str]) -> List[Bit]:
        name = key[0]
        if name not in self._data["cells"]:
            return []
        cell = self._data["cells"][name]
        return [bit for port, bits in cell["connections"].items() if not self._drives(cell, port) for bit in bits]

    def _keep_live(self) -> None:
        """Finds which bits anything reads, from the nets of the original on."""
        self._live: Set[int] = set()
        waiting: List[Bit] = [bit for piece in self._nets.pieces for bit in piece.bits]
        for memory in self._memories:
            memory.join_enables(self._same_bit)
        for cell in self._data["cells"].values():
            if self._is_instance(cell) or cell["type"] in ("$mem", "$mem_v2"):
                waiting += [bit for bits in cell["connections"].values() for bit in bits]
        done: Set[str] = set()
        while waiting:
            bit = waiting.pop()
            if not isinstance(bit, int) or bit in self._live:
                continue
            self._live.add(bit)
            driver = self._drivers.get(bit)
            if driver and driver[0][0] not in done:
                done.add(driver[0][0])
                waiting += self._inputs(driver[0])

    def _same_bit(self, bit: Bit) -> Bit:
        """A bit that always has the value of this one: bits that the same choices give from the same bits are one."""
        driver = self._drivers.get(bit) if isinstance(bit, int) else None
        if not driver or self._outputs[driver[0]].kind != "$mux":
            return bit
        ports = self._data["cells"][driver[0][0]]["connections"]
        no, yes, select = (
            self._same_bit(ports[port][at]) for port, at in (("A", driver[1]), ("B", driver[1]), ("S", 0))
        )
        if no == yes:
            return no
        if (no, yes) == ("0", "1"):
            return select
        return self._choices.setdefault((no, yes, select), bit)

    # ---- where outputs go

    def _place_registers(self) -> None:
        """Makes a reg of each net of the original whose bits registers drive, and of one without a driver that has an
        initial value, or is a reg of the original that nothing but an `initial` assigns."""
        unassigned = self._module.unassigned_regs()
        for name, pieces in self._public.items():
            for piece in pieces:
                if piece.direction != "input" and piece.kind != "reg" and self._is_own(piece):
                    kinds = self._kinds_of_drivers(piece)
                    is_set = bool(set(piece.initial) - {"x"})
                    if kinds <= set(REGISTERS) if kinds else is_set or name in unassigned:
                        piece.kind = "reg"

    def _is_own(self, piece: Piece) -> bool:
        """Whether each bit of a piece is a constant or its own."""
        return all(
            self._nets.owner.get(bit) == (piece, at) for at, bit in enumerate(piece.bits) if isinstance(bit, int)
        )

    def _kinds_of_drivers(self, piece: Piece) -> Set[str]:
        keys = [self._drivers[bit][0] for bit in piece.bits if isinstance(bit, int) and bit in self._drivers]
        return {self._outputs[key].kind for key in keys}

    def _aim(self, key: Tuple[str, str], output: _Output) -> None:
        """Finds targets for an output: whole pieces, bits of a reg, or helpers."""
        is_register = output.kind in REGISTERS
        parts = chunks(len(output.bits)) if output.kind in self._design else [(0, len(output.bits))]
        for start, length in parts:
            at, end = start, start + length
            while at < end:
                width = self._run(output.bits, at, end, output.kind in self._design)
                if width:
                    self._target(output, at, width, is_register)
                at += width or 1

    def _run(self, bits: Bits, at: int, end: int, is_instance: bool) -> int:
        """How many bits from one on go to one target; none where nothing reads the first."""
        if is_instance:
            return end - at
        if bits[at] not in self._live:
            return 0
        owner = self._nets.owner.get(bits[at])  # type: ignore[arg-type]
        width = 1
        while at + width < end and width < WIDEST and bits[at + width] in self._live:
            following = self._nets.owner.get(bits[at + width])  # type: ignore[arg-type]
            if (following is None) != (owner is None) or (owner and following != (owner[0], owner[1] + width)):
                break
            width += 1
        return width

    def _target(self, output: _Output, at: int, width: int, is_register: bool) -> None:
        bits = output.bits[at : at + width]
        piece = self._nets.whole(bits)
        owner = self._nets.owner.get(bits[0]) if isinstance(bits[0], int) else None
        if piece and piece.kind != "reg" and not is_register and piece.direction != "input":
            output.targets.append(Target(at, width, piece, 0))
        elif is_register and owner and owner[0].kind == "reg":
            output.targets.append(Target(at, width, owner[0], owner[1]))
        else:
            self._by_helper(output, at, bits, "reg" if is_register else "wire")

    def _by_helper(self, output: _Output, at: int, bits: Bits, kind: str) -> None:
        """Lets a helper take an output; bits that nets of the original have are joined from it."""
        free = all(bit not in self._nets.owner for bit in bits)
        helper = self._nets.helper(len(bits), output.place, output.origin, kind, list(bits) if free else None)
        output.targets.append(Target(at, len(bits), helper, 0))
        for index, bit in enumerate(bits):
            owner = self._nets.owner.get(bit)  # type: ignore[arg-type]
            if free or not isinstance(bit, int):
                continue
            if owner is None:
                self._nets.owner[bit] = (helper, index)
            else:
                self._joins.setdefault(id(owner[0]), {})[owner[1]] = (helper, index)

    # ---- statements

    def _say(self, text: str, place: int, origin: Origin, width: int = 0) -> None:
        self.lowered.statements.append(Statement(text, place, origin, width))

    def _check_helpers(self, bits: Bits, place: int, origin: Origin) -> None:
        """Refuses a helper that is read in another envelope than it stands in."""
        for bit in bits:
            owner = self._nets.owner.get(bit) if isinstance(bit, int) else None
            if owner and owner[0].is_helper and owner[0].place != place:
                raise Refusal(
                    *origin,
                    "an expression that comes of both sides of a border of an envelope",
                    "give its value a net of its own",
                )

    def _named_net(self, bits: Bits) -> str:
        """The name of a net with this one bit, for an event."""
        piece = self._nets.whole(bits[:1])
        if piece:
            return piece.name
        key = (self._cell.place, bits[0])
        if key not in self._clocks:
            helper = self._nets.helper(1, self._cell.place, self._cell.origin)
            self._say(f"assign {helper.name} = {self._nets.text(bits[:1])};", self._cell.place, self._cell.origin)
            self._clocks[key] = helper.name
        return self._clocks[key]

    def _write(self, name: str, cell: Dict[str, Any]) -> None:
        kind = cell["type"]
        if kind in ("$mem", "$mem_v2"):
            return
        place, origin = self._place(cell, f"the cell {name}"), self._origin(cell)
        if kind in CHECKS:
            self.lowered.left_out.append(f"{origin[0]}:{origin[1]}: {kind[1:]}")
            return
        self._cell = Statement("", place, origin)
        if self._is_instance(cell):
            self._check_helpers(self._inputs((name, "")), place, origin)
            self._instance(name, cell, place, origin)
            return
        output = next((self._outputs[(name, port)] for port in ("Y", "Q") if (name, port) in self._outputs), None)
        if not output or not output.targets:
            return
        self._check_helpers(self._inputs((name, "")), place, origin)
        if kind in REGISTERS:
            for event, text in self._registers.procedures(
                kind, cell["parameters"], dict(cell["connections"]), output.targets, origin
            ):
                self._procedures.setdefault((event, place, origin), []).append(text)
            return
        written = self._operators.assignments(
            Cell(kind, cell.get("parameters", {}), cell["connections"], place, origin, output.targets)
        )
        for target, expression, width in written:
            self._say(f"assign {target} = {expression};", place, origin, width)

    def _instance(self, name: str, cell: Dict[str, Any], place: int, origin: Origin) -> None:
        child = self._design[cell["type"]]
        child_module = self._named[cell["type"]]
        words: List[str] = []
        for port, described in child["ports"].items():
            bits = cell["connections"].get(port, [])
            parts = chunks(len(described["bits"]))
            inner = port_names(child, port)
            for at, (low, width) in enumerate(parts):
                if described["direction"] == "input":
                    text = self._nets.text(bits[low : low + width])
                else:
                    output = self._outputs.get((name, port))
                    text = (
                        next((target.piece.name for target in output.targets if target.low == low), "")
                        if output
                        else ""
                    )
                if bits:
                    words.append(f".{inner[at]}({text})")
        called = self._nets.names.of(name)
        self.lowered.instances[name] = (called, child_module)
        self._say(f"{child_module} {called}({', '.join(words)});", place, origin)

    def _write_memory(self, memory: Memory) -> None:
        self._cell = Statement("", memory.place, memory.origin)
        for at, (_, address) in enumerate(memory.reads()):
            output = self._outputs[(memory.name, f"read {at}")]
            self._check_helpers(address, memory.place, memory.origin)
            for target in output.targets:
                self._say(
                    f"assign {target.piece.name} = {memory.choice(address, target.low, target.width)};",
                    memory.place,
                    memory.origin,
                )
        for text in memory.writes(self._named_net):
            self._say(text, memory.place, memory.origin)
        initial = memory.initial()
        if initial:
            self._say(initial, memory.place, memory.origin)

    def _join_parts(self) -> None:
        """Assigns nets of the original that are driven in parts, or that have constant bits or another net's."""
        for piece in [piece for pieces in self._public.values() for piece in pieces]:
            joined = self._joins.get(id(piece), {})
            foreign = [
                at
                for at, bit in enumerate(piece.bits)
                if isinstance(bit, str) or self._nets.owner.get(bit) != (piece, at)
            ]
            if piece.direction == "input" or piece.kind == "reg" or not (joined or foreign):
                continue
            bits: Bits = []
            for at, bit in enumerate(piece.bits):
                if at in joined:
                    bits.append(joined[at][0].bits[joined[at][1]])
                elif isinstance(bit, int) and self._nets.owner.get(bit) == (piece, at):
                    bits.append("z")
                else:
                    bits.append(bit)
            sources = {helper.place for helper, _ in joined.values()}
            if len(sources) > 1:
                helper = max((helper for helper, _ in joined.values()), key=lambda one: one.place)
                what = f"the net {piece.name} is driven on both sides of a border of an envelope"
                raise Refusal(*helper.origin, what, "drive it on one side alone")
            place = sources.pop() if len(sources) == 1 else piece.place
            self._say(f"assign {piece.name} = {self._nets.text(bits)};", place, piece.origin)

    def _write_initial(self) -> None:
        for name, pieces in self._public.items():
            for piece in pieces:
                if piece.kind != "reg" or not set(piece.initial) - {"x"}:
                    continue
                place, origin = piece.place, piece.origin
                if self._module.places():
                    place, origin = self._initial_place(name)
                self._say(f"initial {piece.name} = {piece.width}'b{piece.initial};", place, origin)

    def _initial_place(self, name: str) -> Tuple[int, Origin]:
        kinds = ("initial", "reg", "output", "integer", "logic", "module")
        return self._places.place_of_target(name, self._module, kinds, "the initial value of")


def port_names(module: Dict[str, Any], port: str) -> List[str]:
    """The names that a port has in the lowered module: one, or several where it is wider than 64 bits."""
    names = Names()
    for other, described in module["ports"].items():
        base = names.of(other)
        parts = chunks(len(described["bits"]))
        made = [base] if len(parts) == 1 else [names.fresh(f"{base}__{number}") for number in range(len(parts))]
        if other == port:
            return made
    return []


def module_names(
    netlist: Dict[str, Any], source: Callable[[str], str], derived_in: Callable[[str], Set[int]]
) -> Dict[str, str]:
    """A name for each module of the netlist.

    Those derived by parameters are counted, and by themselves where an envelope sets them.
    """
    names = Names()
    result = {name: names.of(name) for name in netlist["modules"] if not name.startswith("$paramod")}
    counts: Dict[Tuple[str, int], int] = {}
    for name in netlist["modules"]:
        if name.startswith("$paramod"):
            key = source(name), min(derived_in(name), default=0)
            counts[key] = counts.get(key, 0) + 1
            result[name] = names.fresh(plain(f"{key[0]}__{'e' + str(key[1]) + '_' if key[1] else ''}{counts[key]}"))
    return result


def natural(name: str) -> List[Tuple[int, str]]:
    """A key that sorts by numbers in a name, so that the order of cells stays when Yosys counts from another number."""
    return [(int(part), "") if part.isdigit() else (-1, part) for part in re.split(r"(\d+)", name)]

"""The front end as a whole: from files to the text, the map and the report."""

from __future__ import annotations

import json
import os
import tempfile
from dataclasses import dataclass, field
from pathlib import Path
from typing import Any, Dict, List, Optional, Sequence, Set, Tuple

from .headers import Passed, passed_modules, readable_modules
from .inlining import inlined
from .lowering import Lowered, Lowering, module_names
from .modules import Layout, Module, Splitter, instantiated, refuse_values_across
from .netlist import ASSIGNING, PROCEDURAL, Bufferer
from .places import Places, source_name
from .printing import in_envelope, printed
from .refusal import Refusal
from .report import Account, account_of
from .sources import Reader, Sources
from .verify import Leak, netlist_by, verify
from .yosys import Yosys

MOST_BYTES = 1 << 20
# The passes of `proc`, without proc_rom and opt_expr, which join what stands in different places.
PROCEDURES = (
    "proc_clean; proc_rmdead; proc_prune; proc_init; proc_arst; proc_mux; proc_dlatch; proc_dff; proc_memwr; proc_clean"
)


@dataclass
class Result:
    """What the front end makes: the design's text, the map of names, and an account of each module."""

    text: str
    names: Dict[str, Any]
    accounts: List[Account] = field(default_factory=list)


def lower(
    top: str, files: Sequence[str], define: Sequence[str] = (), include: Sequence[str] = (), lower_all: bool = False
) -> Result:
    """Turns the files of a design into text that the server reads. Raises `Refusal`."""
    with tempfile.TemporaryDirectory(prefix="loddrume-lower-") as folder:
        yosys = Yosys(folder)
        reader = Reader(yosys, include, define)
        sources = reader.read(files)
        layout = Splitter(sources.tokens, sources.pragmas).split()
        if top not in layout.modules:
            raise Refusal(files[0] if files else "", 0, f"no module {top}", "name a module of the files by --top")
        refuse_absent_modules(layout, top)
        refuse_values_across(layout)
        netlist = elaborated(yosys, reader, layout, top, sources)
        result = Assembly(top, netlist, layout, sources, Places(layout), lower_all).result()
        try:
            verify(netlist_by(yosys), sources, top, result.text, result.names["top"])
        except Leak as leak:
            raise Refusal(
                layout.modules[top].file,
                layout.modules[top].line,
                f"the text does not hold: {leak}",
                "report this with the design",
            ) from leak
    return result


def refuse_absent_modules(layout: Layout, top: str) -> None:
    """Refuses an instance of a module that there is not, such as a cell of a vendor."""
    waiting, done = [top], set()
    while waiting:
        module = layout.modules[waiting.pop()]
        if module.name in done:
            continue
        done.add(module.name)
        for item in module.items:
            for name, token in instantiated(item):
                if name in layout.modules:
                    waiting.append(name)
                else:
                    raise Refusal(
                        token.file,
                        token.line,
                        f"an instance of {name}, which is no module of these files",
                        "name its file; of a vendor's cell give a module that stands for it",
                    )


def elaborated(yosys: Yosys, reader: Reader, layout: Layout, top: str, sources: Sources) -> Dict[str, Any]:
    """The netlist of a design as Yosys's JSON, with sources that name the files of the origin."""
    folder = Path(yosys.folder)
    flat = without_procedures(sources.flat, readable_modules(layout, sources))
    (folder / "flat.v").write_bytes(flat.encode("utf-8", errors="surrogateescape"))
    escaped = top if top.isidentifier() else f"\\{top}"
    bufferer = Bufferer(Places(layout, reader.origin))
    yosys.run(
        f"read_verilog -nopp {yosys.path('flat.v')}; hierarchy -check -top {escaped}; "
        f"write_rtlil {yosys.path('read.il')}",
        origin=reader.origin,
    )
    _buffer(bufferer, folder, "read.il", ASSIGNING)
    yosys.run(
        f"read_rtlil {yosys.path('read.il')}; {PROCEDURES}; write_rtlil {yosys.path('procedures.il')}",
        origin=reader.origin,
    )
    _buffer(bufferer, folder, "procedures.il", PROCEDURAL)
    yosys.run(
        f"read_rtlil {yosys.path('procedures.il')}; memory_collect; write_json {yosys.path('netlist.json')}",
        origin=reader.origin,
    )
    netlist: Dict[str, Any] = json.loads(
        (folder / "netlist.json").read_text(encoding="utf-8", errors="surrogateescape")
    )
    _rename_sources(netlist, reader)
    for module in netlist["modules"].values():
        place_by_readers(module)
    return netlist


def place_by_readers(module: Dict[str, Any]) -> None:
    """Gives a cell without a source that of the cells which read it, as the enable of a latch that Yosys makes.

    One that nothing reads is left out."""
    cells = module["cells"]
    shown = {bit for net in module["netnames"].values() if not net.get("hide_name") for bit in net["bits"]}
    readers: Dict[Any, Set[str]] = {}
    for name, cell in cells.items():
        for port, bits in cell["connections"].items():
            for bit in bits if port not in ("Y", "Q") else ():
                readers.setdefault(bit, set()).add(name)
    waiting = [name for name, cell in cells.items() if not cell["attributes"].get("src")]
    while waiting:
        found = {}
        for name in waiting:
            outer = {
                cells[reader]["attributes"].get("src", "")
                for bit in cells[name]["connections"].get("Y", [])
                for reader in readers.get(bit, ())
            }
            if (
                not outer
                and not shown & set(cells[name]["connections"].get("Y", [0]))
                and cells[name]["type"].startswith("$")
            ):
                outer = {"unread:0.0-0.0"}
            if outer and "" not in outer:
                found[name] = "|".join(sorted(outer))
        if not found:
            return
        for name, source in found.items():
            cells[name]["attributes"]["src"] = source.replace("unread:0.0-0.0|", "")
            if source == "unread:0.0-0.0":
                del cells[name]
        waiting = [name for name in waiting if name not in found]


def without_procedures(flat: str, modules: List[Module]) -> str:
    """The text for Yosys. Of modules that are passed on it needs ports, nets and instances alone, and can't read all
    the rest."""
    for module in sorted(modules, key=lambda module: -module.header[0].start):
        for item in reversed(module.items):
            if item.kind in ("always", "initial", "assign"):
                first, last = item.tokens[0].start, item.tokens[-1].end
                flat = flat[:first] + "\n" * flat.count("\n", first, last) + flat[last:]
    return flat


def _buffer(bufferer: Bufferer, folder: Path, name: str, kinds: Tuple[str, ...]) -> None:
    """Rewrites a file of RTLIL.

    It is done before procedures are lowered and after, since Yosys reads through connections.
    """
    text = (folder / name).read_text(encoding="utf-8", errors="surrogateescape")
    (folder / name).write_text(bufferer.rewrite(text, kinds), encoding="utf-8", errors="surrogateescape")


def _rename_sources(netlist: Dict[str, Any], reader: Reader) -> None:
    """Lets every source name the file of the origin, in place of its copy."""
    for module in netlist["modules"].values():
        for what in [module, *module["cells"].values(), *module["netnames"].values()]:
            source = what.get("attributes", {}).get("src")
            if source:
                parts = [part.rpartition(":") for part in source.split("|")]
                what["attributes"]["src"] = "|".join(f"{reader.origin(file)}:{where}" for file, _, where in parts)


class Assembly:
    """Puts the text together from modules that are passed on and modules that are lowered."""

    def __init__(
        self,
        top: str,
        netlist: Dict[str, Any],
        layout: Layout,
        sources: Sources,
        places: Places,
        lower_all: bool = False,
    ) -> None:
        self._top = top
        self._netlist = netlist
        self._layout = layout
        self._sources = sources
        self._places = places
        self._derived: Dict[str, Set[int]] = {}
        self._reached = reached(netlist, top)
        self._named = module_names(netlist, source_name, self._derived_in)
        self._passed: Dict[str, Passed] = {} if lower_all else passed_modules(layout, sources, netlist)

    def result(self) -> Result:
        """The text and its map."""
        names: Dict[str, Any] = {"version": 1, "top": self._named[self._top], "modules": {}, "envelopes": []}
        accounts: List[Account] = []
        parts: List[str] = []
        for original, module in self._layout.modules.items():
            for name in self._order(original):
                if not self._derived_in(name):
                    parts.append(self._printed(name, module, names, accounts))
            for place in self._inside(module) or [module.place]:
                parts += self._derived_group(place, module, names, accounts)
        text = "\n".join(parts)
        if len(text.encode()) > MOST_BYTES:
            module = self._layout.modules[self._top]
            raise Refusal(
                module.file,
                module.line,
                f"a text of {len(text.encode())} bytes",
                f"make memories smaller: at most {MOST_BYTES} bytes",
            )
        return Result(text, names, accounts)

    def _printed(self, name: str, module: Module, names: Dict[str, Any], accounts: List[Account]) -> str:
        """The text of one module, which is noted in the map and the report."""
        passed = self._passed.get(name)
        lowered = None if passed and not passed.fault else self._lowered(name, module)
        text = passed.text if passed and lowered is None else ""
        if lowered:
            text = printed(lowered, module.place, self._layout.envelopes, self._inside(module))
        names["modules"][self._named[name]] = _entry(module, lowered, passed)
        accounts.append(account_of(self._named[name], module, lowered, passed))
        if self._derived_in(name):
            return text
        for number in [module.place] if module.place else self._inside(module):
            self._note_envelope(number, self._named[name], names)
        if not module.place:
            return text
        return (
            "\n".join(
                in_envelope(text.rstrip("\n").split("\n"), self._layout.envelopes[module.place], [], lowered is None)
            )
            + "\n"
        )

    def _note_envelope(self, number: int, module: str, names: Dict[str, Any]) -> None:
        envelope = self._layout.envelopes[number]
        author = json.loads(envelope.author)
        names["envelopes"].append(
            {
                "number": len(names["envelopes"]) + 1,
                "author": author,
                "file": envelope.file,
                "line": envelope.line,
                "module": module,
            }
        )

    def _derived_group(self, place: int, module: Module, names: Dict[str, Any], accounts: List[Account]) -> List[str]:
        """The modules whose parameters instances in an envelope set: all in one envelope more, so that their count
        is not seen."""
        inside = [name for name in self._netlist["modules"] if place and place in self._derived_in(name)]
        if not inside:
            return []
        self._note_envelope(place, module.name, names)
        texts = [
            self._printed(name, self._layout.modules[source_name(name)], names, accounts).rstrip("\n")
            for name in inside
            if min(self._derived_in(name)) == place
        ]
        return ["\n".join(in_envelope("\n".join(texts).split("\n"), self._layout.envelopes[place], [])) + "\n"]

    def _lowered(self, name: str, module: Module) -> Lowered:
        lowered = Lowering(name, self._netlist, self._named, module, self._places).lower()
        inlined(lowered)
        return lowered

    def _order(self, original: str) -> List[str]:
        """A module of the text and those that are derived from it by parameters."""
        kept = [name for name in self._netlist["modules"] if source_name(name) == original and name in self._reached]
        return sorted(kept, key=lambda name: (name.startswith("$"), name))

    def _inside(self, module: Module) -> List[int]:
        return sorted(number for number, home in self._layout.homes.items() if home == module.name and number)

    def _derived_in(self, name: str) -> Set[int]:
        """The envelopes in which instances alone set the parameters of a module, or none."""
        return self._derived.setdefault(name, derived_in(name, self._netlist, self._layout, self._places))


def reached(netlist: Dict[str, Any], top: str) -> Set[str]:
    """The modules of a netlist that its top instantiates, at any depth, and the top."""
    found: Set[str] = set()
    waiting = [top]
    while waiting:
        name = waiting.pop()
        if name in netlist["modules"] and name not in found:
            found.add(name)
            waiting += [cell["type"] for cell in netlist["modules"][name]["cells"].values()]
    return found


def derived_in(name: str, netlist: Dict[str, Any], layout: Layout, places: Places) -> Set[int]:
    """The envelopes of all instances of a derived module, where none stands in the open text.

    Refuses what would be an envelope in another.
    """
    module = layout.modules[source_name(name)]
    if module.place or not name.startswith("$paramod"):
        return set()
    found = instances_of(name, netlist, layout, places)
    if any(not place for place, _ in found):
        return set()
    numbers = {place for place, _ in found}
    if numbers and (len({layout.envelopes[place].author for place in numbers}) > 1 or module.places()):
        file, line = found[0][1] or (module.file, module.line)
        raise Refusal(
            file,
            line,
            f"an envelope sets parameters of {module.name}, which has envelopes of its own or instances of another "
            "author",
            "set them outside",
        )
    return numbers


def instances_of(name: str, netlist: Dict[str, Any], layout: Layout, places: Places) -> List[Any]:
    """The place and the origin of each instance of a module."""
    found = []
    for parent, data in netlist["modules"].items():
        module = layout.modules.get(source_name(parent))
        for cell in data["cells"].values():
            if module and cell["type"] == name:
                source = cell.get("attributes", {}).get("src", "")
                found.append(
                    (places.place(source, module, f"an instance of {source_name(name)}"), places.origin(source))
                )
    return found


def _entry(module: Module, lowered: Optional[Lowered], passed: Optional[Passed]) -> Dict[str, Any]:
    entry: Dict[str, Any] = {"module": module.name, "file": module.file, "line": module.line}
    if lowered is None:
        same = passed or Passed()
        instances = {name: {"name": name, "module": child} for name, child in same.instances.items()}
        return {**entry, "how": same.how, "names": {name: [name] for name in same.names}, "instances": instances}
    changed = {old: new for old, new in lowered.names.items()}
    instances = {old: {"name": new, "module": child} for old, (new, child) in lowered.instances.items()}
    return {**entry, "how": "lowered", "names": changed, "instances": instances}


def write(result: Result, output: str, names: Optional[str]) -> None:
    """Writes the text and the map, each whole or not at all."""
    for path, text in ((output, result.text), (names, json.dumps(result.names, indent=1) + "\n")):
        if path:
            part = Path(path + ".part")
            part.write_text(text, encoding="utf-8", errors="surrogateescape")
            os.replace(part, path)

"""What the tests share: sources without preprocessing, stored netlists, and texts with planted leaks."""

from __future__ import annotations

import hashlib
import json
import re
from pathlib import Path
from typing import Any, Dict, Iterator, List, Tuple

from loddrume_lower.front import Assembly, Result
from loddrume_lower.modules import Layout, Splitter
from loddrume_lower.places import Places
from loddrume_lower.sources import Pragma, Sources
from loddrume_lower.tokens import tokens_of

HERE = Path(__file__).resolve().parent
DESIGNS = (
    "parameters", "memory", "initial_values", "function_call", "generate_loop", "loop_case", "signed_numbers", "wide_vectors", "resets_latches",
    "parts", "envelopes",
)  # fmt: skip


def sources_of(text: str, file: str = "design.v") -> Sources:
    """The sources of one file without macros."""
    pragmas: List[Pragma] = []

    def mark(found: "re.Match[str]") -> str:
        pragmas.append(Pragma(file, text.count("\n", 0, found.start()) + 1, found[1]))
        return f"/*loddrume-pragma {len(pragmas) - 1}*/"

    marked = re.sub(r"`pragma([^\n]*)", mark, text)
    flat = f'`file_push "{file}"\n{marked}'
    return Sources({file: text}, pragmas, flat, tokens_of(marked, file))


def layout_of(text: str, file: str = "design.v") -> Layout:
    """The modules and envelopes of a text."""
    sources = sources_of(text, file)
    return Splitter(sources.tokens, sources.pragmas).split()


def assembled(top: str, text: str, netlist: Dict[str, Any], file: str = "design.v") -> Result:
    """What the front end makes of a text and its netlist."""
    sources = sources_of(text, file)
    layout = Splitter(sources.tokens, sources.pragmas).split()
    return Assembly(top, netlist, layout, sources, Places(layout)).result()


def stored_design(name: str) -> Tuple[str, Dict[str, Any], str]:
    """A stored design: its text, its netlist, and the text that it becomes."""
    folder = HERE / "designs"
    netlist = json.loads((folder / f"{name}.json").read_text(encoding="utf-8"))
    return (
        (folder / f"{name}.v").read_text(encoding="utf-8"),
        netlist,
        (folder / f"{name}.expected").read_text(encoding="utf-8"),
    )


def key_of(text: str, top: str, which: str) -> str:
    """The name under which the netlist of a text is stored."""
    return hashlib.sha256(f"{which} {top} {text}".encode()).hexdigest()[:16]


def stored_netlist(netlist: Dict[str, Any]) -> Dict[str, Any]:
    """A netlist with what `verify` reads alone."""
    modules = {}
    for name, module in netlist["modules"].items():
        cells = {
            cell_name: {key: cell[key] for key in ("type", "parameters", "connections")}
            for cell_name, cell in module["cells"].items()
        }
        nets = {
            net: {
                "bits": data["bits"],
                "hide_name": data["hide_name"],
                "attributes": {key: data["attributes"][key] for key in ("init",) if key in data["attributes"]},
            }
            for net, data in module["netnames"].items()
            if not data["hide_name"]
        }
        attributes = {key: module["attributes"][key] for key in ("blackbox",) if key in module["attributes"]}
        modules[name] = {"attributes": attributes, "ports": module["ports"], "cells": cells, "netnames": nets}
    return {"modules": modules, "constants": netlist["constants"]}


# ---- planted leaks

_INSIDE = re.compile(r"^(wire|reg) [^;]*;", re.MULTILINE)


def _moved(text: str, pattern: str) -> str:
    """The text with a piece of an inside moved to the open text of the module `core`."""
    found = re.search(pattern, text)
    assert found, pattern
    rest = text[: found.start()] + text[found.end() :]
    return _added(rest, re.sub(r"/\*.*?\*/", "", found.group()))


def _added(text: str, item: str) -> str:
    assert "  assign q = " in text
    return text.replace("  assign q = ", f"  {item}\n  assign q = ", 1)


def _replaced(text: str, old: str, new: str) -> str:
    assert old in text, old
    return text.replace(old, new, 1)


def leaks(text: str) -> Iterator[Tuple[str, str]]:
    """Twenty texts that show something of an inside: ten a name, ten a value."""
    yield "name 1: a net is declared outside", _moved(text, r"wire \[7:0\] k; ")
    yield "name 2: a net of the same name is added", _added(text, "wire secret_mul;")
    yield "name 3: a reg of a memory is declared outside", _moved(text, r"reg \[7:0\] tab__0; ")
    yield "name 4: a comment has the name", _replaced(text, "  assign q = ", "  // tab\n  assign q = ")
    yield "name 5: an instance is moved outside", _moved(text, r"mul__e\d+_1 secret_mul\([^;]*;")
    yield "name 6: a viewport shows another net", _replaced(text, 'object="st"', 'object="look"')
    yield "name 7: a viewport gives more rights", _replaced(text, 'access="read"', 'access="read+put"')
    yield "name 8: an envelope has another author", _replaced(
        text, '`pragma protect author="other"', '`pragma protect author="acme"'
    )
    yield "name 9: a module of an inside stands outside", _unwrapped(text)
    yield "name 10: a helper is named for a net", _added(text, "wire [7:0] look_copy = d;")
    yield "value 1: a net is replaced by its constant", _replaced(text, "d + k", "d + 8'b01011010")
    yield "value 2: a driver with a constant is moved outside", _moved(text, r"assign cfg = [^;]*;")
    yield "value 3: a localparam has the constant", _added(text, "localparam _n99 = 8'b01011010;")
    yield "value 4: a helper that nothing reads has the constant", _added(text, "wire [7:0] _n99 = 8'b01011010;")
    yield "value 5: a choice has the constant and the same value", _replaced(
        text, "d + k", "k == 8'b01011010 ? 8'b01011010 + d : d + k"
    )
    yield "value 6: a register is driven outside", _moved(text, r"always @\(posedge clk\) r <= [^;]*;")
    yield "value 7: an initial value is set outside", _added(text, "initial r = 4'b0011;")
    yield "value 8: an operand is what the inside computes", _replaced(text, "st ^ open_sum", "(look + d) ^ open_sum")
    yield "value 9: an instance is given a constant of the inside", _replaced(
        text, "mul m(.clk(clk), .a(d[3:0])", "mul m(.clk(clk), .a(4'b0101)"
    )
    yield "value 10: a constant of another register is changed", _replaced(text, "acc ^ 4'b0101", "acc ^ 4'b1001")


def _unwrapped(text: str) -> str:
    lines = text.split("\n")
    at = next(at for at, line in enumerate(lines) if line.startswith("module mul__e"))
    return "\n".join([*lines[: at - 1], lines[at], *lines[at + 2 :]])


def planted() -> Iterator[Tuple[str, Sources, str]]:
    """The sound text of the design with envelopes, and each with a leak."""
    text, _, expected = stored_design("envelopes")
    sources = sources_of(text, "envelopes.v")
    yield "sound", sources, expected
    for label, wrong in leaks(expected):
        yield label, sources, wrong

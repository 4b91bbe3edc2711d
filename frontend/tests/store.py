"""Makes the stored files of the tests anew: python3 store.py, in this folder, with yosys and iverilog.

Each design in `designs` is lowered as a whole. Its JSON netlist is stored, and the text is stored only if
Icarus Verilog gives all kept names of both texts the same values in 400 cycles of random inputs, wherever the
original's are known.
"""

from __future__ import annotations

import json
import os
import re
import subprocess
import sys
import tempfile
from pathlib import Path
from typing import Any, Dict, List

HERE = Path(__file__).resolve().parent
TOP = HERE.parents[1]
sys.path.insert(0, str(HERE.parent))
sys.path.insert(0, str(TOP / "tools" / "real-designs"))

import compare  # noqa: E402
from loddrume_lower import front, verify  # noqa: E402
from loddrume_lower.yosys import Yosys  # noqa: E402
from common import DESIGNS, key_of, stored_netlist, planted  # noqa: E402

compare.CYCLES = 400
CLOCKS = {
    "parameters": ["clk"],
    "memory": ["clk"],
    "initial_values": ["clk"],
    "function_call": ["clk"],
    "generate_loop": ["clk"],
    "wide_vectors": ["clk"],
    "resets_latches": ["clk"],
    "envelopes": ["clk"],
}


def small(netlist: Dict[str, Any]) -> Dict[str, Any]:
    """A netlist without what no test reads."""
    for module in netlist["modules"].values():
        module.pop("memories", None)
        for cell in module["cells"].values():
            cell.pop("port_directions", None)
    return {"modules": netlist["modules"]}


def lowered(name: str) -> front.Result:
    """Lowers a design, and keeps its netlist."""
    kept: Dict[str, Any] = {}
    real = front.elaborated

    def keeping(*words: Any) -> Any:
        kept.update(json.loads(json.dumps(real(*words))))
        return json.loads(json.dumps(kept))

    front.elaborated = keeping  # type: ignore[assignment]
    try:
        result = front.lower(name, [f"{name}.v"])
    finally:
        front.elaborated = real
    Path(f"{name}.json").write_text(json.dumps(small(kept), separators=(",", ":")) + "\n", encoding="utf-8")
    return result


def without_pragmas(text: str) -> str:
    """A text that Icarus reads: it knows no pragma."""
    return re.sub(r"`pragma[^\n]*", "", text)


def differences(name: str, result: front.Result, folder: Path) -> Dict[str, Any]:
    """What differs between the original and the lowered text, both in Icarus Verilog."""
    design = compare.Design(name, "", name, CLOCKS.get(name, []), None, [f"{name}.v"])
    ports = compare.top_ports(result.text, result.names)
    cycles = compare.stimulus(ports, design)
    kept = dict(compare.names_of(result.names, name, "dut", "dut"))
    (folder / f"{name}.v").write_text(without_pragmas(Path(f"{name}.v").read_text(encoding="utf-8")), encoding="utf-8")
    found, theirs = compare.icarus(design, folder, ports, list(kept), cycles, {}, folder)
    (folder / f"{name}.v").write_text(without_pragmas(result.text), encoding="utf-8")
    cut = [compare.Port(part, port.direction, [(part, width)]) for port in ports for part, width in port.parts]
    inputs = [
        {
            path.split(".")[1]: digits
            for port in ports
            if port.name in values
            for path, digits in compare.port_values(port, values[port.name]).items()
        }
        for values in cycles
    ]
    parts = [part for one in found for part in reversed(kept[one])]
    _, ours = compare.icarus(design, folder, cut, parts, inputs, {}, folder)
    rows: List[List[str]] = []
    for row in ours:
        digits = iter(row)
        rows.append(["".join(next(digits) for _ in kept[one]) for one in found])
    return compare.compared(rows, theirs, found)


def store_designs() -> None:
    os.chdir(HERE / "designs")
    for name in DESIGNS:
        result = lowered(name)
        with tempfile.TemporaryDirectory() as folder:
            told = differences(name, result, Path(folder))
        print(name, {word: told[word] for word in ("equal", "unequal", "x on the server", "x in both", "known")})
        if told["unequal"] or told["known"] < 90:
            raise SystemExit(f"{name} is not stored")
        Path(f"{name}.expected").write_text(result.text, encoding="utf-8")


def store_verify() -> None:
    """Stores the netlists that `verify` asks Yosys for, of the sound text and of each planted one."""
    os.chdir(HERE / "designs")
    kept: Dict[str, Any] = {}
    with tempfile.TemporaryDirectory() as folder:
        yosys = Yosys(folder)

        def netlist(text: str, top: str, which: str) -> Dict[str, Any]:
            made = verify.netlist_by(yosys)(text, top, which)
            kept[key_of(text, top, which)] = stored_netlist(made)
            return made

        for label, sources, text in planted():
            try:
                verify.verify(netlist, sources, "envelopes", text, "envelopes")
                print(label, "holds")
            except verify.Leak as leak:
                print(label, "refused:", leak)
    (HERE / "verify.json").write_text(json.dumps(kept, separators=(",", ":")) + "\n", encoding="utf-8")


if __name__ == "__main__":
    subprocess.run(["iverilog", "-V"], stdout=subprocess.DEVNULL, stderr=subprocess.DEVNULL, check=True)
    store_designs()
    store_verify()

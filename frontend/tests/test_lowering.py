"""Ten designs, one a construct, and one with envelopes: from stored netlists to stored text. Neither Yosys nor
Icarus is needed.

The stored text was compared with the original in Icarus Verilog by store.py.
"""

import copy
import json
import re
import sys
import unittest
from pathlib import Path

sys.path[:0] = [str(Path(__file__).resolve().parent), str(Path(__file__).resolve().parents[1])]

from common import DESIGNS, assembled, sources_of, stored_design  # noqa: E402
from loddrume_lower.front import without_procedures  # noqa: E402
from loddrume_lower.headers import readable_modules  # noqa: E402
from loddrume_lower.modules import Splitter  # noqa: E402
from loddrume_lower.names import Names  # noqa: E402
from loddrume_lower.profile import Left, Profile  # noqa: E402
from loddrume_lower.tokens import tokens_of  # noqa: E402


class StoredDesigns(unittest.TestCase):
    """Each stored netlist becomes the stored text."""

    maxDiff = None

    def test_each_design(self) -> None:
        for name in DESIGNS:
            with self.subTest(name):
                text, netlist, expected = stored_design(name)
                result = assembled(name, text, netlist, f"{name}.v")
                self.assertEqual(result.text, expected)

    def test_the_text_does_not_depend_on_the_order_of_cells(self) -> None:
        text, netlist, expected = stored_design("envelopes")
        for module in netlist["modules"].values():
            module["cells"] = dict(reversed(module["cells"].items()))
        self.assertEqual(assembled("envelopes", text, netlist, "envelopes.v").text, expected)

    def test_the_map_has_what_each_name_became(self) -> None:
        text, netlist, _ = stored_design("memory")
        names = assembled("memory", text, netlist, "memory.v").names["modules"]["memory"]["names"]
        self.assertEqual([names[f"words[{at}]"] for at in range(5)], [[f"words__{at}"] for at in range(5)])
        text, netlist, _ = stored_design("wide_vectors")
        names = assembled("wide_vectors", text, netlist, "wide_vectors.v").names["modules"]["wide_vectors"]["names"]
        self.assertEqual(names["sum"], ["sum__0", "sum__1"])
        text, netlist, _ = stored_design("generate_loop")
        entry = assembled("generate_loop", text, netlist, "generate_loop.v").names["modules"]["generate_loop"]
        self.assertEqual(entry["names"]["lane[2].kept"], ["lane__2__kept"])
        text, netlist, _ = stored_design("parameters")
        result = assembled("parameters", text, netlist, "parameters.v")
        self.assertEqual(
            {one["name"] for one in result.names["modules"]["parameters"]["instances"].values()}, {"plain", "wide"}
        )

    def test_the_report_tells_why_and_what_is_lost(self) -> None:
        text, netlist, _ = stored_design("memory")
        lines = assembled("memory", text, netlist, "memory.v").accounts[0].lines()
        self.assertEqual(lines[0], "memory: lowered, since a memory at memory.v:3")
        self.assertIn(
            "  lost: 2 processes of the original, and so races inside them; those of the text are others", lines
        )


    def test_a_reg_that_nothing_assigns_stays_a_reg(self) -> None:
        text = (
            "module m(input c);\n  parameter P = 1;\n  reg [1:0] idle; wire open;\n  integer number, index;\n"
            "  initial for (number = 0; number < P; number = number + 1) ;\n"
            "  always @(posedge c) for (index = 0; index < P; index = index + 1) ;\nendmodule\n"
        )
        widths = {"idle": 2, "open": 1, "number": 32, "index": 32}
        source = {"src": "design.v:3.1-3.2"}
        nets = {
            name: {"hide_name": 0, "bits": list(range(at, at + width)), "attributes": source}
            for at, (name, width) in zip((3, 5, 6, 38), widths.items())
        }
        nets["c"] = {"hide_name": 0, "bits": [2], "attributes": source}
        ports = {"c": {"direction": "input", "bits": [2]}}
        made = assembled("m", text, {"modules": {"m": {"ports": ports, "cells": {}, "netnames": nets, "attributes": {}}}})
        for declared in ("reg [1:0] idle;", "wire open;", "reg [31:0] number;", "wire [31:0] index;"):
            self.assertIn(f"  {declared}", made.text)


class Envelopes(unittest.TestCase):
    """What stands inside stays inside."""

    def setUp(self) -> None:
        self.text, self.netlist, self.expected = stored_design("envelopes")

    def test_each_inside_is_one_line(self) -> None:
        lines = self.expected.split("\n")
        begins = [at for at, line in enumerate(lines) if line.endswith("begin")]
        self.assertEqual(len(begins), 3)
        for at in begins:
            inside = [
                line
                for line in lines[at + 1 : lines.index("`pragma protect end", at)]
                if not line.startswith("`pragma")
            ]
            self.assertEqual(len(inside), 1)

    def test_a_constant_of_an_inside_does_not_change_the_open_text(self) -> None:
        changed = copy.deepcopy(self.netlist)
        core = changed["modules"]["core"]["cells"]
        found = [
            cell for cell in core.values() if cell["type"] == "$pos" and cell["connections"]["A"] == list("01011010")
        ]
        self.assertEqual(len(found), 1)
        found[0]["connections"]["A"] = list("11011011")
        text = assembled("envelopes", self.text, changed, "envelopes.v").text
        self.assertNotEqual(text, self.expected)
        self.assertEqual(self._open(text), self._open(self.expected))

    @staticmethod
    def _open(text: str) -> str:
        return re.sub(r"(begin\n)(`pragma protect viewport[^\n]*\n)*[^\n]*\n(`pragma protect end)", r"\1\3", text)

    def test_the_envelopes_are_told_by_number(self) -> None:
        told = assembled("envelopes", self.text, self.netlist, "envelopes.v").names["envelopes"]
        self.assertEqual(
            [(one["number"], one["author"], one["module"]) for one in told],
            [(1, "acme", "core"), (2, "other", "core"), (3, "acme", "core")],
        )

    def test_helpers_are_counted_by_place(self) -> None:
        self.assertEqual(set(re.findall(r"\b_e(\d+)n\d+", self.expected)), {"1", "2"})


class ThePassing(unittest.TestCase):
    """Modules that the server can read are passed on."""

    def netlist(self, *names: str) -> dict:  # type: ignore[type-arg]
        ports = {"c": {"direction": "input", "bits": [2]}, "q": {"direction": "output", "bits": [3, 4]}}
        return {"modules": {name: {"ports": ports, "cells": {}, "netnames": {}, "attributes": {}} for name in names}}

    def test_verbatim(self) -> None:
        text = "module m(input wire c, output reg [1:0] q);\n  // a comment\n  always @(posedge c) #3 q = q + 1;\nendmodule\n"
        result = assembled("m", text, self.netlist("m"))
        self.assertEqual(result.text, f"// verbatim: design.v:1\n{text}")
        self.assertEqual(result.accounts[0].lines(), ["m: verbatim"])

    def test_an_envelope_keeps_its_author(self) -> None:
        text = (
            'module m(input wire c, output reg [1:0] q);\n`pragma protect author = "a"\n`pragma protect begin\n  reg k;\n'
            "`pragma protect end\nendmodule\n"
        )
        result = assembled("m", text, self.netlist("m"))
        self.assertIn('`pragma protect author="a", begin\n  reg k;\n`pragma protect end\n', result.text)
        self.assertEqual(
            result.names["envelopes"], [{"number": 1, "author": "a", "file": "design.v", "line": 3, "module": "m"}]
        )

    def test_a_bare_header(self) -> None:
        text = "module m(c,\n  q);\n  input c;\n  output [1:0] q; reg [1:0] q; reg r;\n  always @(posedge c) q = q + 1;\nendmodule\n"
        result = assembled("m", text, self.netlist("m"))
        self.assertEqual(result.accounts[0].how, "header rewritten")
        lines = result.text.split("\n")
        self.assertEqual(lines[1:3], ["module m", "(input wire c, output reg [1:0] q);"])
        self.assertEqual(lines[4].strip(), "reg r;")
        self.assertEqual(lines[5], "  always @(posedge c) q = q + 1;")

    def test_the_first_construct_is_told(self) -> None:
        faults = {
            "reg [7:0] m [0:3];": "a memory",
            "reg q = 1;": "a reg with an initial value",
            "parameter P = 1;": "`parameter`",
            "wire [64:0] w;": "a vector of over 64 bits",
            "wire [3:0] w; assign w[0] = 1'b1;": "a continuous assignment to a part of a net",
            "reg a; initial a = $random;": "`$random`",
            "reg a; initial a = f(1);": "a call of a function",
            "reg [3:0] a; initial a = a / 2;": "the operator /",
            "reg [3:0] a; initial a = 4'sd1;": "a signed literal",
            "reg a; initial a = 1 < 2;": "a relation of two signed operands",
            "reg [3:0] a; reg b; initial b = a[4:3];": "a part-select that is not inside the range",
            "reg a; initial a = {1, 1'b0};": "a number without a size in braces",
            "wire a; assign a = 1; assign a = 0;": "a second driver of a",
            "reg a; initial begin : n a = 1; end": "a named block",
            "always @(posedge none) ;": "none, which is no net or reg of the module",
        }
        for item, construct in faults.items():
            with self.subTest(item), self.assertRaises(Left) as left:
                Profile(tokens_of(f"module m(input wire i);\n{item}\nendmodule", "m.v"), lambda _: None).read()
            self.assertEqual((left.exception.construct, left.exception.token.line), (construct, 2))

    def test_yosys_is_not_given_the_procedures_of_what_is_passed_on(self) -> None:
        text = "module m;\n  reg c;\n  initial forever\n #5 c = ~c;\n  n u(c);\nendmodule\n"
        sources = sources_of(text)
        layout = Splitter(sources.tokens, sources.pragmas).split()
        modules = readable_modules(layout, sources)
        self.assertEqual([module.name for module in modules], ["m"])
        self.assertEqual(without_procedures(text, modules), "module m;\n  reg c;\n  \n\n  n u(c);\nendmodule\n")

    def test_what_is_read(self) -> None:
        text = """module m(input wire [3:0] a, b, output reg [7:0] q, output wire z);
  localparam K = 4'd3;
  wire [4:0] s = a + late, t = {2{a[1:0]}} ^ (s << 1);
  assign z = &t ? a[0] : !b;
  wire [3:0] late;
  always @(posedge a or negedge z) begin if (a == K) q <= #2 q + 1; else case (b) 1, 2: q = 0; default ; endcase end
  always @(*) casez (a) 4'b1??0: q[3:0] = b; endcase
  initial begin #5 q = 0; forever #1 ; end
  initial begin : x end
endmodule
"""
        with self.assertRaises(Left):
            Profile(tokens_of(text, "m.v"), lambda _: None).read()
        reading = Profile(tokens_of(text.replace(" : x", ""), "m.v"), lambda _: None).read()
        self.assertEqual(reading.ports, ["a", "b", "q", "z"])


class NamesOfAScope(unittest.TestCase):
    """What names become."""

    def test_names(self) -> None:
        names = Names()
        self.assertEqual(
            [names.of(name) for name in ("mem[3]", "g[0].h", "a+b", "3x", "end", "mem__3")],
            ["mem__3", "g__0__h", "a_b", "_3x", "end_", "mem__3_1"],
        )
        self.assertEqual(names.of("mem[3]"), "mem__3")


class TheStore(unittest.TestCase):
    """The stored files are whole."""

    def test_json(self) -> None:
        for name in DESIGNS:
            self.assertIn(name, stored_design(name)[1]["modules"], json.dumps(name))


if __name__ == "__main__":
    unittest.main()

"""What can't be lowered is refused in words, with file, line, construct and what to do."""

import contextlib
import io
import sys
import tempfile
import unittest
from pathlib import Path
from typing import Any, Dict
from unittest import mock

sys.path[:0] = [str(Path(__file__).resolve().parent), str(Path(__file__).resolve().parents[1])]

from common import assembled, layout_of  # noqa: E402
from loddrume_lower import command  # noqa: E402
from loddrume_lower.front import refuse_absent_modules  # noqa: E402
from loddrume_lower.modules import refuse_values_across  # noqa: E402
from loddrume_lower.netlist import ASSIGNING, Bufferer  # noqa: E402
from loddrume_lower.places import Places  # noqa: E402
from loddrume_lower.refusal import Refusal  # noqa: E402
from loddrume_lower.sources import Reader  # noqa: E402
from loddrume_lower.tokens import tokens_of  # noqa: E402
from loddrume_lower.yosys import Yosys  # noqa: E402

BEGIN = '`pragma protect author="a", begin\n'
END = "`pragma protect end\n"


def net(line: int, *bits: Any) -> Dict[str, Any]:
    return {"hide_name": 0, "bits": list(bits), "attributes": {"src": f"design.v:{line}.1-{line}.2"}}


def cell(kind: str, line: int, connections: Dict[str, Any], **parameters: Any) -> Dict[str, Any]:
    return {
        "type": kind,
        "parameters": parameters,
        "attributes": {"src": f"design.v:{line}.1-{line}.2"},
        "connections": connections,
    }


class Refusals(unittest.TestCase):
    """Each refusal by its words."""

    def refused(self, made: Any, words: str) -> None:
        with self.assertRaises(Refusal) as refusal:
            made()
        self.assertIn(words, str(refusal.exception))

    # ---- the text

    def test_borders(self) -> None:
        module = "module m;\n{}endmodule\n"
        for inside, words in (
            (f"always @* begin\n{BEGIN}a = 1; end\n{END}", "design.v:3: a begin of an envelope within an item"),
            (f"{BEGIN}{BEGIN}{END}", "design.v:3: a begin within an envelope"),
            (END, "design.v:2: a end outside of an envelope"),
            (BEGIN, "design.v:2: an envelope that does not end in its module"),
            ("`pragma protect begin_protected\n", "design.v:2: the keyword begin_protected of an encrypted envelope"),
            ("`pragma protect author=3\n", "design.v:2: an author that is no string"),
            (
                '`pragma protect viewport=(object="x", access="read")\n',
                "design.v:2: a viewport that can't be read, or outside of an envelope",
            ),
            (
                f"function f; input a;\n{BEGIN}f = a; endfunction\n{END}",
                "design.v:3: a begin of an envelope within an item",
            ),
            (
                f"generate\n{BEGIN}wire w;\nendgenerate\n{END}",
                "design.v:5: an envelope across the end of a generate region",
            ),
            ('`pragma protect author="a\n', "a pragma that can't be read"),
        ):
            with self.subTest(words):
                self.refused(lambda inside=inside: layout_of(module.format(inside)), words)
        self.refused(
            lambda: layout_of(f"{BEGIN}module m;\n{END}endmodule\n"),
            "an envelope that ends in another module than it begins",
        )
        self.refused(lambda: layout_of(f"{BEGIN}module m; endmodule\n"), "design.v:1: an envelope that does not end")

    def test_tokens_and_modules(self) -> None:
        self.refused(lambda: tokens_of("module m;\n  \u00e4\nendmodule", "a.v"), "a.v:2: no token of Verilog begins")
        self.refused(lambda: layout_of("module m;"), "the text ends within a module")
        self.refused(lambda: layout_of("module m; endmodule\nmodule m; endmodule\n"), "design.v:2: a second module m")
        self.refused(lambda: layout_of("wire w;"), "design.v:1: wire outside of modules")

    def test_values_across_a_border(self) -> None:
        for items, words in (
            (
                f"{BEGIN}localparam K = 3;\n{END}wire [K:0] w;\n",
                "design.v:5: the localparam K is used across a border of an envelope",
            ),
            (
                f"{BEGIN}function f; input a; f = a; endfunction\n{END}wire w = f(1);\n",
                "the function f is used across a border",
            ),
            (
                f"function f; input a; f = a; endfunction\n{BEGIN}wire w = f(1);\n{END}",
                "design.v:4: the function f is used across a border",
            ),
            (
                f"reg [7:0] few [0:3], q;\n{BEGIN}wire w = few[0];\n{END}",
                "design.v:4: the memory few is used across a border of an envelope; read and write it",
            ),
        ):
            with self.subTest(words):
                self.refused(
                    lambda items=items: refuse_values_across(layout_of(f"module m;\n{items}endmodule\n")), words
                )
        again = f"module m(q);\noutput q;\n{BEGIN}reg k, q;\n{END}endmodule\n"
        self.refused(
            lambda: refuse_values_across(layout_of(again)), "design.v:4: the port q is declared in an envelope; declare"
        )
        read = f"module m(input q);\n{BEGIN}wire w = q;\n{END}endmodule\n"
        refuse_values_across(layout_of(read))
        refuse_values_across(layout_of(f"module m;\nlocalparam K = 3;\n{BEGIN}wire [K:0] w;\n{END}endmodule\n"))
        nets = "reg signed [7:0] q;\nwire v = q[0], u = {v, q[1]};\n"
        refuse_values_across(layout_of(f"module m;\n{nets}{BEGIN}wire w = q[0];\n{END}endmodule\n"))

    def test_a_macro_of_an_envelope(self) -> None:
        text = f"module m;\n{BEGIN}`define K 3\nlocalparam A = `K;\n{END}localparam B = `K;\nendmodule\n"
        reader = Reader(mock.Mock(), [], [])
        self.refused(lambda: reader._marked(text, "a.v"), "a.v:6: the macro K, which an envelope defines at a.v:3")
        inside = text.replace("localparam B = `K;", "")
        self.assertIn("/*loddrume-pragma 0*/", Reader(mock.Mock(), [], [])._marked(inside, "a.v"))

    def test_a_cell_of_a_vendor(self) -> None:
        text = "module m(input c);\n  SB_GB buffer(.I(c));\nendmodule\n"
        self.refused(
            lambda: refuse_absent_modules(layout_of(text), "m"),
            "design.v:2: an instance of SB_GB, which is no module of these files",
        )
        looped = (
            "module m(input c);\n  generate if (1) begin : g\n    VENDOR #(.A(1)) x(c);\n  end endgenerate\nendmodule\n"
        )
        self.refused(lambda: refuse_absent_modules(layout_of(looped), "m"), "design.v:3: an instance of VENDOR")

    # ---- RTLIL

    def buffered(self, text: str, rtlil: str) -> str:
        return Bufferer(Places(layout_of(text))).rewrite(rtlil, ASSIGNING)

    def test_a_large_memory(self) -> None:
        text = "module m;\nreg [7:0] big [0:4095];\nendmodule\n"
        rtlil = 'module \\m\n  attribute \\src "design.v:2.1-2.2"\n  memory width 8 size 4096 \\big\nend\n'
        self.refused(
            lambda: self.buffered(text, rtlil),
            "design.v:2: the memory big of 4096 words; make it smaller: at most 1024 words",
        )

    def test_an_assignment_on_both_sides(self) -> None:
        text = f"module m(output [1:0] y);\nassign y[0] = 1'b1;\n{BEGIN}assign y[1] = 1'b0;\n{END}endmodule\n"
        rtlil = "module \\m\n  wire width 2 output 1 \\y\n  connect \\y [1] 1'0\nend\n"
        self.refused(
            lambda: self.buffered(text, rtlil),
            "design.v:4: the assignment of y stands on both sides of a border of an envelope",
        )

    def test_a_connection_keeps_its_place(self) -> None:
        text = f"module m(output y);\n{BEGIN}assign y = 1'b1;\n{END}endmodule\n"
        made = self.buffered(text, "module \\m\n  wire output 1 \\y\n  connect \\y 1'1\nend\n")
        self.assertIn('attribute \\src "design.v:3.1-3.2"\n  cell $pos $buffer$1\n', made)

    def test_an_output_of_another_width_keeps_the_place_of_its_instance(self) -> None:
        text = f"module m(output [1:0] y);\nchild a();\n{BEGIN}child b(.q(y));\n{END}endmodule\n"
        made = self.buffered(text, "module \\m\n  wire width 2 output 1 \\y\n  connect \\y [1] 1'0\nend\n")
        self.assertIn('attribute \\src "design.v:4.1-4.2"\n  cell $pos $buffer$1\n', made)

    # ---- the netlist

    def lowered(self, text: str, ports: Dict[str, Any], nets: Dict[str, Any], cells: Dict[str, Any]) -> Any:
        module = {"ports": ports, "netnames": nets, "cells": cells, "attributes": {}}
        return lambda: assembled("m", text, {"modules": {"m": module}})

    def test_ports(self) -> None:
        text = "module m(inout p);\n  parameter P = 1;\nendmodule\n"
        made = self.lowered(text, {"p": {"direction": "inout", "bits": [2]}}, {"p": net(1, 2)}, {})
        self.refused(made, "design.v:1: the inout port p; make an input, an output and an enable of it")
        text = f"module m(p);\n{BEGIN}input p;\n{END}parameter P = 1;\nendmodule\n"
        made = self.lowered(text, {"p": {"direction": "input", "bits": [2]}}, {"p": net(3, 2)}, {})
        self.refused(made, "design.v:3: the port p is declared in an envelope")

    def test_operators(self) -> None:
        text = "module m(input [1:0] a, b, output [1:0] y);\n  parameter P = 1;\n  assign y = a / b;\nendmodule\n"
        ports = {
            name: {"direction": "output" if name == "y" else "input", "bits": bits}
            for name, bits in (("a", [2, 3]), ("b", [4, 5]), ("y", [6, 7]))
        }
        nets = {name: net(1, *port["bits"]) for name, port in ports.items()}
        operands = {"A": [2, 3], "B": [4, 5], "Y": [6, 7]}
        for kind, words in (
            ("$div", "design.v:3: a division by a variable; divide step by step"),
            ("$mod", "a remainder by a variable"),
            ("$pow", "a cell $pow of Yosys"),
        ):
            self.refused(
                self.lowered(text, ports, nets, {"$d": cell(kind, 3, operands, A_SIGNED=0, B_SIGNED=0, Y_WIDTH=2)}),
                words,
            )
        both = {
            "$d": cell("$and", 3, operands, A_SIGNED=0, B_SIGNED=0),
            "$e": cell("$or", 3, operands, A_SIGNED=0, B_SIGNED=0),
        }
        self.refused(self.lowered(text, ports, nets, both), "design.v:3: a second driver of y")

    def test_a_cell_on_both_sides(self) -> None:
        text = f"module m(input [1:0] a, b, output [1:0] y);\n{BEGIN}wire w;\n{END}assign y = a & b;\nparameter P = 1;\nendmodule\n"
        ports = {
            name: {"direction": "output" if name == "y" else "input", "bits": bits}
            for name, bits in (("a", [2, 3]), ("b", [4, 5]), ("y", [6, 7]))
        }
        nets = {name: net(1, *port["bits"]) for name, port in ports.items()}
        one = cell("$and", 3, {"A": [2, 3], "B": [4, 5], "Y": [6, 7]}, A_SIGNED=0, B_SIGNED=0)
        one["attributes"]["src"] = "design.v:3.1-3.2|design.v:5.1-5.2"
        self.refused(
            self.lowered(text, ports, nets, {"$d": one}),
            "design.v:3: the cell $d comes of both sides of a border of an envelope",
        )
        one["attributes"]["src"] = ""
        self.refused(
            self.lowered(text, ports, nets, {"$d": one}), "no place is known of the cell $d, in a module with envelopes"
        )

    # ---- the command line

    def test_yosys_is_wanted(self) -> None:
        self.refused(
            lambda: Yosys("/tmp", "no-such-yosys"), "no-such-yosys is not installed; on Debian: apt-get install yosys"
        )

    def test_no_traceback(self) -> None:
        with tempfile.TemporaryDirectory() as folder, contextlib.redirect_stderr(io.StringIO()) as told:
            with mock.patch("loddrume_lower.yosys.shutil.which", return_value="/usr/bin/yosys"):
                status = command.main(["--top", "m", f"{folder}/none.v", "-o", f"{folder}/out.v"])
            self.assertEqual(status, 1)
            self.assertIn(
                "none.v can't be read: No such file or directory; name a file that can be read", told.getvalue()
            )
            self.assertFalse(Path(folder, "out.v").exists())
        with contextlib.redirect_stderr(io.StringIO()), self.assertRaises(SystemExit) as ended:
            command.main(["--top", "m"])
        self.assertEqual(ended.exception.code, 2)


if __name__ == "__main__":
    unittest.main()

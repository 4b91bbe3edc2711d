"""`verify` holds for a sound text and finds twenty planted leaks, over netlists that are stored."""

import json
import sys
import unittest
from pathlib import Path
from typing import Any, Dict

sys.path[:0] = [str(Path(__file__).resolve().parent), str(Path(__file__).resolve().parents[1])]

from common import HERE, key_of, planted, sources_of  # noqa: E402
from loddrume_lower.evaluate import Evaluator  # noqa: E402
from loddrume_lower.verify import Leak, cut, declared, verify  # noqa: E402


class PlantedLeaks(unittest.TestCase):
    """Ten names and ten values of insides, planted in the open text."""

    def setUp(self) -> None:
        self.stored = json.loads((HERE / "verify.json").read_text(encoding="utf-8"))

    def netlist(self, text: str, top: str, which: str) -> Dict[str, Any]:
        stored: Dict[str, Any] = self.stored[key_of(text, top, which)]
        return stored

    def test_each(self) -> None:
        found = 0
        for label, sources, text in planted():
            with self.subTest(label):
                if label == "sound":
                    verify(self.netlist, sources, "envelopes", text, "envelopes")
                    continue
                with self.assertRaises(Leak):
                    verify(self.netlist, sources, "envelopes", text, "envelopes")
                found += 1
        self.assertEqual(found, 20)


class Cutting(unittest.TestCase):
    """What is left without the insides."""

    def test_a_net_of_an_inside_is_free(self) -> None:
        text = 'module m(input a, output y);\n`pragma protect author="x", begin\nreg [3:0] k, l;\n`pragma protect end\nassign y = a ^ k[0];\nendmodule\n'
        sources = sources_of(text)
        left = cut(sources.tokens, sources.pragmas)
        self.assertEqual(
            left.text.split(";"),
            ["module m ( input a , output y ) ", " assign y = a ^ k [ 0 ] ", " reg [ 3 : 0 ] k ", " endmodule"],
        )
        self.assertEqual([(envelope.author, envelope.home) for envelope in left.envelopes], [("x", "m")])

    def test_a_width_of_an_inside_is_refused(self) -> None:
        text = "module m(output y);\n`pragma protect begin\nlocalparam W = 3; reg [W:0] k;\n`pragma protect end\nassign y = k[0];\nendmodule\n"
        sources = sources_of(text)
        with self.assertRaises(Leak):
            cut(sources.tokens, sources.pragmas)

    def test_declarations(self) -> None:
        sources = sources_of("wire signed [3:0] a = b + c, d; reg e; cell u(x); localparam K = 3; assign f = 1;")
        self.assertEqual(
            declared(sources.tokens),
            {"a": "wire signed [ 3 : 0 ]", "d": "wire signed [ 3 : 0 ]", "e": "reg", "u": "", "K": ""},
        )


class Evaluation(unittest.TestCase):
    """Operators on two-valued vectors, against numbers that were reckoned by hand."""

    def value(self, kind: str, a: int, b: int, width: int = 4, signed: bool = False) -> int:
        bits = {
            "A": [format(a, "04b")[3 - at] for at in range(4)],
            "B": [format(b, "04b")[3 - at] for at in range(4)],
            "Y": list(range(2, 2 + width)),
        }
        cell = {"type": kind, "parameters": {"A_SIGNED": int(signed), "B_SIGNED": int(signed)}, "connections": bits}
        module = {"ports": {}, "cells": {"c": cell}, "netnames": {}}
        evaluator = Evaluator(module, {})
        return sum(evaluator.value(bit) << at for at, bit in enumerate(bits["Y"]))

    def test_operators(self) -> None:
        for kind, a, b, wanted in (
            ("$add", 9, 8, 1), ("$sub", 3, 5, 14), ("$mul", 5, 5, 9), ("$and", 12, 10, 8), ("$xnor", 12, 10, 9), ("$lt", 3, 9, 1), ("$ge", 3, 9, 0),
            ("$shl", 3, 2, 12), ("$shr", 12, 2, 3), ("$div", 13, 4, 3), ("$mod", 13, 4, 1), ("$logic_and", 2, 0, 0), ("$eq", 7, 7, 1),
        ):  # fmt: skip
            self.assertEqual(self.value(kind, a, b), wanted, kind)
        for kind, a, b, wanted in (("$lt", 3, 9, 0), ("$mul", 15, 15, 1), ("$add", 8, 8, 0)):
            self.assertEqual(self.value(kind, a, b, 4, True), wanted, kind)


if __name__ == "__main__":
    unittest.main()

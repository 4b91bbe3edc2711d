"""`--seeds` of the program: how many orders a search tries of each time slot. python3 -m unittest, in this folder, over the program of test_loddrume."""

import json
import subprocess
import tempfile
import unittest
from pathlib import Path
from typing import List

from test_loddrume import PROGRAM, RACE

POLICY = '{"users":[{"name":"ann","token":"t","open":"list+read+race","run":true}]}'
SCRIPT = [{"op": "open", "user": "ann", "token": "t"}, {"op": "run", "until": 10}, {"op": "races"}]


class Seeds(unittest.TestCase):
    """Without a seed no race is found; the first seed, which takes the last event, finds both."""

    def ran(self, words: List[str]) -> "subprocess.CompletedProcess[str]":
        lines = "".join(json.dumps(request) + "\n" for request in SCRIPT)
        with tempfile.TemporaryDirectory() as folder:
            Path(folder, "design.v").write_text(RACE)
            Path(folder, "policy.json").write_text(POLICY)
            command = [PROGRAM, words[0], "design.v", "policy.json", *words[1:]]
            return subprocess.run(command, cwd=folder, input=lines, capture_output=True, encoding="utf-8", timeout=60, check=True)

    def races(self, *words: str) -> List[str]:
        return [race["name"] for race in json.loads(self.ran(["run", *words]).stdout.splitlines()[2])["races"]]

    def races_told(self, *words: str) -> int:
        """How many races come to the user in an audit, which is the same."""
        audit = self.ran(["audit", "ann", "--explain", *words])
        self.assertEqual(audit.stdout, "same 4\n")
        return sum(" race top." in line for line in audit.stderr.splitlines())

    def test_a_run_searches_by_so_many(self) -> None:
        self.assertEqual(self.races("--seeds", "0"), [])
        self.assertEqual(self.races("--seeds", "1"), ["top.a", "top.b"])
        self.assertEqual(self.races(), ["top.a", "top.b"])

    def test_so_does_an_audit(self) -> None:
        self.assertEqual([self.races_told("--seeds", "0"), self.races_told("--seeds", "1"), self.races_told()], [0, 2, 2])


if __name__ == "__main__":
    unittest.main()

"""Tests that the documents show what the program prints: README's tour, and the tables and views of docs/POLICY.md; and that docs/PROVED.md names
each public call. python3 -m unittest, in this folder, over the program of test_loddrume.
"""

import contextlib
import json
import re
import socket
import subprocess
import tempfile
import time
import unittest
from pathlib import Path
from typing import Callable, Dict, Iterator, List

from test_loddrume import PROGRAM, TOP, needs_serve, serving

TOUR = TOP / "docs" / "tour"
EXAMPLE = TOP / "docs" / "policy"


def program(folder: Path, *words: str, lines: str = "") -> str:
    """What the program prints on standard output, of the files of a folder."""
    return subprocess.run([PROGRAM, *words], cwd=folder, input=lines, stdout=subprocess.PIPE, encoding="utf-8", check=True).stdout


def table_after(text: str, head: str) -> List[List[str]]:
    """The cells of the table that has this head, row by row."""
    rows = text[text.index(head) :].split("\n\n")[0].splitlines()[2:]
    return [[cell.strip() for cell in row.strip("|").split(" | ")] for row in rows]


def replies_in(cell: str) -> List[str]:
    """The replies that a cell shows."""
    return re.findall(r"`(\{.*?\})`", cell)


@contextlib.contextmanager
def connected(port: int, user: Dict[str, str]) -> Iterator[Callable[[str], str]]:
    """A session of a user of a policy's file on a server, as a function from lines to the lines that answer them."""
    with socket.create_connection(("127.0.0.1", port), 60) as connection, connection.makefile("rw", encoding="utf-8", newline="\n") as stream:

        def ask(line: str) -> str:
            stream.write(line + "\n")
            stream.flush()
            return stream.readline().rstrip("\n")

        ask(json.dumps({"op": "open", "user": user["name"], "token": user["token"]}))
        yield ask


def asked_until(ask: Callable[[str], str], line: str, wanted: str) -> str:
    """The reply to a line, which is asked again for half a minute where its reply does not begin so."""
    last = time.monotonic() + 30
    reply = ask(line)
    while not reply.startswith(wanted) and time.monotonic() < last:
        time.sleep(0.05)
        reply = ask(line)
    return reply


class Readme(unittest.TestCase):
    """README.md, and the tour's files."""

    text = (TOP / "README.md").read_text()

    @needs_serve
    def test_the_tour(self) -> None:
        shown = re.findall(r"^    (ann|bob)  (\{.*?\}) {2,}(\{.*)$", self.text, re.MULTILINE)
        self.assertGreater(len(shown), 8)
        ann, bob = json.loads((TOUR / "policy.json").read_text())["users"]
        with serving(self, TOUR / "top.v", TOUR / "policy.json", 2) as port, connected(port, ann) as anns, connected(port, bob) as bobs:
            asks = {"ann": anns, "bob": bobs}
            for user, line, reply in shown:
                if reply.endswith(" .."):
                    # The workers find races a little after the run.
                    wanted = reply[: -len(" ..")]
                    self.assertEqual(asked_until(asks[user], line, wanted)[: len(wanted)], wanted)
                else:
                    self.assertEqual(asks[user](line), reply)
                if '"op":"run"' in line:
                    asked_until(anns, '{"op":"time"}', '{"finished":false,"time":5}')

    def test_the_audit(self) -> None:
        shown = re.search(r"`vp_served (audit [^<`]*) < (\S+)`\s+prints\s+`(same \d+)`", self.text)
        assert shown
        self.assertEqual(program(TOUR, *shown[1].split(), lines=(TOUR / shown[2]).read_text()), shown[3] + "\n")


class Policy(unittest.TestCase):
    """docs/POLICY.md, and the example's files."""

    text = (TOP / "docs" / "POLICY.md").read_text()
    denials = dict(re.findall(r"^(\d)\. `(\{.*\})`$", text, re.MULTILINE))

    def replies(self, lines: str) -> List[str]:
        """The replies to the lines of a script after its `open`."""
        told = program(EXAMPLE, "run", "soc.v", "policy.json", lines=lines).splitlines()
        self.assertEqual(told[0], '{"ok":true}')
        return told[1:]

    def wanted(self, cell: str) -> str:
        """The reply that a cell stands for."""
        found = re.match(r"denied \((\d)\)", cell)
        return self.denials[found[1]] if found else replies_in(cell)[0]

    def script(self, user: str, *lines: Dict[str, object]) -> str:
        """A script of a user, by these lines after his `open`."""
        opening = (EXAMPLE / f"{user}.script").read_text().splitlines()[0]
        return "".join(line + "\n" for line in [opening, *map(json.dumps, lines)])

    def test_handles_and_values(self) -> None:
        table = table_after(self.text, "| Line | vera | sam | carl |")
        self.assertEqual(len(table), 16)
        for column, user in enumerate(("vera", "sam", "carl"), 1):
            told = self.replies((EXAMPLE / f"{user}.script").read_text())
            self.assertEqual(told, [self.wanted(row[column]) for row in table], user)

    def test_listings(self) -> None:
        for users, shown in table_after(self.text, "| User | answer |"):
            for user in users.split(", "):
                lines = self.script(user, {"op": "handle", "name": "soc.cpu"}, {"op": "iterate", "h": 1, "kind": "reg"})
                self.assertEqual(self.replies(lines)[1:], replies_in(shown), user)

    def test_callbacks(self) -> None:
        table = table_after(self.text, "| Line | sam | carl |")
        handles = [{"op": "handle", "name": f"soc.{name}"} for name in ("bus", "cpu.pc", "cpu.cycles", "cpu.acc", "key")]
        asked: List[Dict[str, object]] = [*({"op": "watch", "h": handle} for handle in (3, 4, 5)), {"op": "run", "until": 0}, {"op": "poll"}]
        for column, user in enumerate(("sam", "carl"), 1):
            told = self.replies(self.script(user, *handles, *asked))
            self.assertEqual(told[len(handles) :], [self.wanted(row[column]) for row in table], user)

    def test_puts(self) -> None:
        told = self.replies(self.script("sam", {"op": "handle", "name": "soc.cpu.cycles"}, {"op": "put", "h": 1, "value": "00000000"}))
        self.assertIn(f"`{told[1]}`", self.text)

    def test_views(self) -> None:
        self.assertEqual(program(EXAMPLE, "check", "soc.v", "policy.json"), "")
        views = re.findall(r"```\n(envelope 1 .*?)```", self.text, re.DOTALL)
        for user, shown in zip(("carl", "vera"), views):
            self.assertEqual(program(EXAMPLE, "view", "soc.v", "policy.json", user), shown, user)
        self.assertEqual(len(views), 2)

    def test_a_contract(self) -> None:
        """Each reply of the table comes in its turn; the others are those of which the table speaks in words."""
        told = iter(self.replies((EXAMPLE / "contract.script").read_text()))
        table = table_after(self.text, "| Line | answer |")
        for reply in [reply for _, shown in table for reply in replies_in(shown)]:
            self.assertIn(reply, told)

    def test_a_race_told_differently(self) -> None:
        design = re.search(r"```verilog\n(module top;.*?)```", self.text, re.DOTALL)
        assert design
        rights = "list+read+watch+put+race"
        grants = [{"envelope": number, "access": rights} for number in (1, 2)]
        users = [{"name": name, "token": name, "open": rights, "run": True, "grants": granted} for name, granted in (("ann", []), ("bob", grants))]
        table = table_after(self.text, "| Line | ann | bob |")
        with tempfile.TemporaryDirectory() as folder:
            (Path(folder) / "top.v").write_text(design[1])
            (Path(folder) / "policy.json").write_text(json.dumps({"users": users}))
            for column, user in enumerate(("ann", "bob"), 1):
                races, named, *orders = [row[column] for row in table]
                number = int(named.split()[-1])
                asked = [{"op": "open", "user": user, "token": user}, {"op": "run", "until": 10}, {"op": "races"}, {"op": "race", "no": number}]
                lines = "".join(json.dumps(line) + "\n" for line in asked)
                *_, listed, race = program(Path(folder), "run", "top.v", "policy.json", lines=lines).splitlines()
                self.assertEqual(listed, races.strip("`"), user)
                self.assertEqual(json.loads(race)["steps"], [json.loads(order.strip("`")) for order in orders], user)


class Lists(unittest.TestCase):
    """What the tools check and list."""

    def test_each_public_call_is_named(self) -> None:
        subprocess.run([TOP / "tools" / "public-calls"], stdout=subprocess.DEVNULL, check=True)

    def test_each_wrong_body_can_be_applied(self) -> None:
        subprocess.run([TOP / "tools" / "edits"], stdout=subprocess.DEVNULL, check=True)

    def test_the_definitions_of_a_call_are_listed(self) -> None:
        words = [TOP / "tools" / "definitions", "vp_script", "bundle_refused"]
        listed = subprocess.run(words, stdout=subprocess.PIPE, encoding="utf-8", check=True).stdout
        for file, name in [("vp_script/specs/Failure.antt", "IsBundleDiagnostic"), ("vp_wire/src/error.rt", "WireError"), ("vp_lex/specs/Tokens.antt", "AreTokens")]:
            self.assertRegex(listed, rf"(?m)^crates/{file}:[0-9]+: {name} \(")


if __name__ == "__main__":
    unittest.main()

"""Out of memory at each growth in turn: a shim over the C library's allocator (tools/refuse-growth.c) refuses the first growth of a run, then the second,
and so on. Each run ends by itself, and what it prints is that of a run without a refusal up to a fault of out of memory or a request that is answered
`no memory`. Where the simulation or a search lacks memory it goes on before the next request, so the values and the races after a run are as ever. A
request that is answered `no memory` was not done: sent again it is answered as ever. So it is with a server, over a fixed dialogue: it ends, and its log
has what was answered.
python3 -m unittest, in this folder, over the program of test_loddrume. It wants the machine's C compiler, and is skipped where there is none.
"""

import contextlib
import json
import os
import re
import shutil
import socket
import subprocess
import sys
import tempfile
import unittest
from concurrent.futures import ThreadPoolExecutor
from pathlib import Path
from typing import List, Optional, Sequence, Tuple

from test_faults import envelopes, policy
from test_loddrume import PROGRAM, RACE, TOP, needs_serve

# The numbers of out of memory, by docs/FORMATS.md.
OUT_OF_MEMORY = {206, 310, 404, 510, 604, 905, 1307, 1507, 1607}
REFUSED = '{"error":"no memory"}'
MISSING = "there was no memory for a line or to let the simulation run on"
FAULT = re.compile(r"fault (\d+) line 0")
NO_THREAD = "fault 1606 line 0"
# What a server is asked.
DIALOGUE = [
    {"op": "open", "user": "u0", "token": "t"},
    {"op": "handle", "name": "top.a"},
    {"op": "iterate", "kind": "module"},
    {"op": "watch", "h": 1},
    {"op": "put", "h": 1, "value": "1"},
    {"op": "value", "h": 1},
    {"op": "poll"},
    {"op": "races"},
    {"op": "time"},
    {"op": "close"},
]
# Each server has a port of its own, from this one on.
FIRST_PORT = 26_000
# So many runs go on at once.
BESIDE = os.cpu_count() or 1


def ends_by_memory(line: str) -> bool:
    """A line is a fault of out of memory."""
    found = FAULT.fullmatch(line)
    return bool(found) and int(found[1]) in OUT_OF_MEMORY


@unittest.skipUnless(shutil.which("cc"), "there is no C compiler")
class Refusing(unittest.TestCase):
    """A folder with the shim."""

    folder: Path
    shim: Path

    @classmethod
    def setUpClass(cls) -> None:
        folder = tempfile.TemporaryDirectory()
        cls.addClassCleanup(folder.cleanup)
        cls.folder = Path(folder.name)
        cls.shim = cls.folder / "refuse-growth.so"
        subprocess.run(["cc", "-shared", "-fPIC", "-O2", "-o", cls.shim, TOP / "tools" / "refuse-growth.c"], check=True)

    def write(self, design: str, rules: str) -> Tuple[str, str]:
        """Files of a design and a policy, by their names."""
        (self.folder / "design.v").write_text(design)
        (self.folder / "policy.json").write_text(rules)
        return "design.v", "policy.json"


class Growths(Refusing):
    """One growth of a run is refused."""

    def run_refusing(self, growth: int, words: Sequence[str], lines: str) -> "subprocess.CompletedProcess[str]":
        """A run over these lines of which a growth is refused; of 0 none is."""
        return subprocess.run(
            [PROGRAM, *words],
            cwd=self.folder,
            input=lines,
            capture_output=True,
            encoding="utf-8",
            env={**os.environ, "LD_PRELOAD": str(self.shim), "REFUSE_GROWTH": str(growth)},
            timeout=60,
            check=False,
        )

    def growths(self, words: Sequence[str], lines: str) -> int:
        """How many growths a run makes."""
        count = self.folder / "count"
        subprocess.run(
            [PROGRAM, *words],
            cwd=self.folder,
            input=lines,
            stdout=subprocess.DEVNULL,
            stderr=subprocess.DEVNULL,
            encoding="utf-8",
            env={**os.environ, "LD_PRELOAD": str(self.shim), "COUNT_GROWTHS": str(count)},
            timeout=60,
            check=False,
        )
        return int.from_bytes(count.read_bytes(), sys.byteorder)

    def fault_of(self, growth: int, words: Sequence[str], lines: str, wanted: List[str]) -> Optional[str]:
        """What is wrong with a run of which a growth is refused; nothing where it is right."""
        run = self.run_refusing(growth, words, lines)
        told = run.stdout.splitlines()
        other = next((line for line, as_ever in zip(told, wanted) if line != as_ever), None)
        ends = bool(told) and ends_by_memory(told[-1])
        if run.returncode != (1 if ends else 0) or len(told) > len(wanted) + ends:
            return f"growth {growth}: {run.returncode} {run.stdout!r} {run.stderr!r}"
        if other is None:
            return None if ends or len(told) == len(wanted) else f"growth {growth}: {run.stdout!r} {run.stderr!r}"
        return None if other == REFUSED or ends_by_memory(other) else f"growth {growth}: {other!r}"

    def check(self, words: Sequence[str], script: Sequence[str] = ()) -> int:
        """Each growth of a run is refused in turn: how many these are."""
        lines = "".join(line + "\n" for line in script)
        whole = self.run_refusing(0, words, lines)
        self.assertEqual(whole.returncode, 0, whole.stderr)
        wanted = whole.stdout.splitlines()
        count = self.growths(words, lines)
        self.assertGreater(count, 100)
        with ThreadPoolExecutor(BESIDE) as pool:
            found = list(pool.map(lambda growth: self.fault_of(growth, words, lines, wanted), range(1, count + 1)))
        self.assertEqual([fault for fault in found if fault], [])
        return count

    def reply_to(self, program: "subprocess.Popen[str]", request: str) -> str:
        """What a program that runs answers a line."""
        assert program.stdin and program.stdout
        with contextlib.suppress(BrokenPipeError):
            program.stdin.write(request + "\n")
            program.stdin.flush()
        return program.stdout.readline().rstrip("\n")

    def lost_by(self, growth: int, words: Sequence[str], requests: Sequence[str], wanted: Sequence[str]) -> Optional[str]:
        """What is lost where a growth is refused, and a request that is answered `no memory` is sent again; nothing where it is right."""
        env = {**os.environ, "LD_PRELOAD": str(self.shim), "REFUSE_GROWTH": str(growth)}
        program = subprocess.Popen(
            [PROGRAM, *words],
            cwd=self.folder,
            stdin=subprocess.PIPE,
            stdout=subprocess.PIPE,
            stderr=subprocess.DEVNULL,
            encoding="utf-8",
            env=env,
        )
        with contextlib.suppress(BrokenPipeError), program:
            for request, as_ever in zip(requests, wanted):
                reply = self.reply_to(program, request)
                if reply == REFUSED:
                    reply = self.reply_to(program, request)
                if ends_by_memory(reply):
                    break
                if reply != as_ever:
                    program.kill()
                    return f"growth {growth}: {request} {reply}"
        return None

    def check_sent_again(self, words: Sequence[str], requests: Sequence[str]) -> None:
        """Each growth of a run is refused in turn, and what is answered `no memory` is sent again: it is answered as ever."""
        lines = "".join(request + "\n" for request in requests)
        wanted = self.run_refusing(0, words, lines).stdout.splitlines()
        self.assertEqual(len(wanted), len(requests))
        count = self.growths(words, lines)
        with ThreadPoolExecutor(BESIDE) as pool:
            found = list(pool.map(lambda growth: self.lost_by(growth, words, requests, wanted), range(1, count + 1)))
        self.assertEqual([fault for fault in found if fault], [])

    def misaudited_by(self, growth: int, words: Sequence[str], lines: str, wanted: str) -> Optional[str]:
        """What is wrong with an audit of which a growth is refused; nothing where it is as ever, a fault, or `same` of fewer replies, as is reported."""
        run = self.run_refusing(growth, words, lines)
        if run.returncode == 1 and ends_by_memory(run.stdout.rstrip("\n")):
            return None
        fewer = run.stdout.startswith("same ") and int(run.stdout[5:]) <= int(wanted[5:]) and MISSING in run.stderr
        return None if run.returncode == 0 and (run.stdout == wanted or fewer) else f"growth {growth}: {run.stdout!r} {run.stderr!r}"

    def test_64_users(self) -> None:
        requests = [{"op": "open", "user": "u63", "token": "t"}, {"op": "iterate", "kind": "module"}]
        self.check(["run", *self.write(RACE, policy(64, 0))], script=[json.dumps(request) for request in requests])

    def test_long_authors(self) -> None:
        requests = [{"op": "open", "user": "u0", "token": "t"}, {"op": "handle", "name": "top.r1"}, {"op": "handle", "name": "top.r2"}]
        self.check(["run", *self.write(envelopes(3, "a" * 1000), policy(1, 2))], script=[json.dumps(request) for request in requests])

    def test_run(self) -> None:
        requests = [
            {"op": "open", "user": "u0", "token": "t"},
            {"op": "handle", "name": "top.r"},
            {"op": "watch", "h": 1},
            {"op": "run", "until": 6},
            {"op": "value", "h": 1},
            {"op": "poll"},
            {"op": "time"},
        ]
        design = "module top; reg [3:0] r; initial begin r = 4'd1; while (r < 4'd6) #1 r = r + 4'd1; end endmodule"
        rules = '{"users":[{"name":"u0","token":"t","open":"list+read+watch","run":true}]}'
        self.check(["run", *self.write(design, rules)], script=[json.dumps(request) for request in requests])

    def test_races(self) -> None:
        requests = [
            {"op": "open", "user": "u0", "token": "t"},
            {"op": "run", "until": 10},
            {"op": "races"},
            {"op": "race", "no": 1},
            {"op": "races", "from": 2},
            {"op": "time"},
        ]
        rules = '{"users":[{"name":"u0","token":"t","open":"list+read+watch+race","run":true}]}'
        self.check(["run", *self.write(RACE, rules)], script=[json.dumps(request) for request in requests])

    def test_stored_script_sent_again(self) -> None:
        design, rules, script = (TOP / "crates" / "vp_served" / "stdin").read_text().split("%%\n")
        self.check_sent_again(["run", *self.write(design, rules)], script.splitlines())

    def test_races_and_notices_sent_again(self) -> None:
        requests = [
            {"op": "open", "user": "u0", "token": "t"},
            {"op": "handle", "name": "top.a"},
            {"op": "iterate", "kind": "module"},
            {"op": "watch", "h": 1},
            {"op": "run", "until": 10},
            {"op": "poll"},
            {"op": "races"},
            {"op": "race", "no": 1},
            {"op": "unwatch", "cb": 1},
            {"op": "free", "h": 2},
            {"op": "close"},
        ]
        rules = '{"users":[{"name":"u0","token":"t","open":"list+read+watch+race","run":true}]}'
        self.check_sent_again(["run", *self.write(RACE, rules)], [json.dumps(request) for request in requests])

    def test_audits(self) -> None:
        design, rules, lines = (TOP / "crates" / "vp_served" / "stdin").read_text().split("%%\n")
        for more in ([], ["--explain"]):
            words = ["audit", *self.write(design, rules), "ann", *more]
            wanted = self.run_refusing(0, words, lines).stdout
            self.assertEqual(wanted, "same 10\n")
            with ThreadPoolExecutor(BESIDE) as pool:
                found = list(pool.map(lambda growth: self.misaudited_by(growth, words, lines, wanted), range(1, self.growths(words, lines) + 1)))
            self.assertEqual([fault for fault in found if fault], [])

    def test_view(self) -> None:
        self.check(["view", *self.write(envelopes(3, "acme"), policy(2, 2)), "u1"])

    def test_check(self) -> None:
        self.check(["check", *self.write(envelopes(3, "acme"), policy(2, 2))])


@needs_serve
class Served(Refusing):
    """One growth of a server is refused."""

    words: Sequence[str]

    def server(self, port: int, **env: str) -> "subprocess.Popen[str]":
        """A server of one connection."""
        return subprocess.Popen(
            [PROGRAM, "serve", *self.words, "--port", str(port), "--workers", "0", "--sessions", "1"],
            cwd=self.folder,
            stdout=subprocess.PIPE,
            stderr=subprocess.DEVNULL,
            encoding="utf-8",
            env={**os.environ, "LD_PRELOAD": str(self.shim), **env},
        )

    def replies(self, port: int) -> List[str]:
        """What the requests are answered, until the connection ends; one that is answered `no memory` is sent again."""
        told: List[str] = []
        with contextlib.suppress(OSError), socket.create_connection(("127.0.0.1", port), timeout=20) as connection:
            lines = connection.makefile("rw", encoding="utf-8", newline="\n")
            for request in DIALOGUE:
                reply = REFUSED
                for _ in range(2):
                    if reply == REFUSED:
                        lines.write(json.dumps(request) + "\n")
                        lines.flush()
                        reply = lines.readline().rstrip("\n")
                if not reply:
                    break
                told.append(reply)
        return told

    def dialogue(self, port: int, **env: str) -> Tuple[List[str], str, int]:
        """What a server answers, what it prints, and its status."""
        server = self.server(port, **env)
        with server:
            assert server.stdout
            first = server.stdout.readline()
            told = self.replies(port) if first == f"listening {port}\n" else []
            rest = server.stdout.read()
            return told, first + rest, server.wait(timeout=60)

    def misserved_by(self, growth: int, port: int, wanted: Sequence[str]) -> Optional[str]:
        """What is wrong with a server of which a growth is refused; nothing where it is right."""
        told, printed, status = self.dialogue(port, REFUSE_GROWTH=str(growth))
        lines = printed.splitlines()
        closed = re.fullmatch(r"closed (\d+)", lines[-1]) if lines else None
        if closed:
            # A dialogue that broke off may have a request more in the log, and the close of its session.
            more = 0 if len(told) == len(wanted) else 2
            right = status == 0 and len(told) <= int(closed[1]) <= len(told) + more
        else:
            right = status == 1 and bool(lines) and not told and (ends_by_memory(lines[-1]) or lines[-1] == NO_THREAD)
        return None if right and told == list(wanted[: len(told)]) else f"growth {growth}: {told} {printed!r} {status}"

    def test_dialogue(self) -> None:
        rules = '{"users":[{"name":"u0","token":"t","open":"list+read+watch+put+race"}]}'
        self.words = self.write(RACE, rules)
        wanted, printed, status = self.dialogue(FIRST_PORT)
        self.assertEqual((printed, status), (f"listening {FIRST_PORT}\nclosed {len(DIALOGUE)}\n", 0))
        self.assertEqual(len(wanted), len(DIALOGUE))
        self.assertNotIn(REFUSED, wanted)
        count = self.folder / "count"
        self.dialogue(FIRST_PORT, COUNT_GROWTHS=str(count))
        growths = int.from_bytes(count.read_bytes(), sys.byteorder)
        self.assertGreater(growths, 100)
        with ThreadPoolExecutor(BESIDE) as pool:
            found = list(pool.map(lambda growth: self.misserved_by(growth, FIRST_PORT + growth, wanted), range(1, growths + 1)))
        self.assertEqual([fault for fault in found if fault], [])


if __name__ == "__main__":
    unittest.main()

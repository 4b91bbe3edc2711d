"""Tests of a server that goes on: past what a log holds, and with a log that is kept, whose last entries are left to users, the operator and closes.
python3 -m unittest, in this folder, over the program of test_loddrume.
"""

import json
import re
import socket
import subprocess
import tempfile
import time
import unittest
from pathlib import Path
from types import TracebackType
from typing import IO, List, Optional, Tuple, Type

from test_loddrume import PROGRAM, free_port, needs_serve

DESIGN = "module top; reg c; initial begin c = 0; forever #1 c = ~c; end endmodule\n"
GOING_ROUND = "module top; reg c; initial begin c = 0; forever c = ~c; end endmodule\n"
GONE_ROUND = "top.initial@1:20 goes round: its time slot has 4194304 steps, and stands still until a put\n"
POLICY = {"users": [{"name": "ann", "token": "t1", "open": "list+read", "run": True}]}

# A log that is kept holds so many entries. The last 65,536 the simulation leaves to others, users the last 4,096 to the operator and to closes.
HELD = 4_194_304
SIMULATION = HELD - 65_536
USERS = HELD - 4_096


class Served:
    """A server of a design, and a client of it."""

    def __init__(self, *words: str, design: str = DESIGN, policy: object = POLICY, workers: int = 0, sessions: int = 1) -> None:
        self.folder = tempfile.TemporaryDirectory()
        folder = Path(self.folder.name)
        (folder / "d.v").write_text(design)
        (folder / "p.json").write_text(json.dumps(policy))
        self.port = free_port()
        asked = [PROGRAM, "serve", "d.v", "p.json", "--port", str(self.port), "--workers", str(workers), "--sessions", str(sessions), *words]
        self.process = subprocess.Popen(asked, cwd=folder, stdout=subprocess.PIPE, stderr=subprocess.PIPE, encoding="utf-8")
        assert self.process.stdout and self.process.stderr
        self.errors: IO[str] = self.process.stderr
        self.listening = self.process.stdout.readline()
        self.connection = socket.create_connection(("127.0.0.1", self.port), 60)
        self.stream: IO[str] = self.connection.makefile("rw", encoding="utf-8", newline="\n")

    def __enter__(self) -> "Served":
        return self

    def __exit__(self, kind: Optional[Type[BaseException]], error: Optional[BaseException], trace: Optional[TracebackType]) -> None:
        self.process.kill()
        self.process.communicate()
        self.hang_up()
        self.folder.cleanup()

    def ask(self, *lines: str) -> List[str]:
        """What lines are answered."""
        self.stream.write("".join(f"{line}\n" for line in lines))
        self.stream.flush()
        return [self.stream.readline().rstrip("\n") for _ in lines]

    def time(self) -> int:
        """The current time."""
        found: int = json.loads(self.ask('{"op":"time"}')[0])["time"]
        return found

    def most_memory(self) -> int:
        """The most memory that it had at any time, or since that was forgotten, in KiB (proc(5))."""
        status = Path(f"/proc/{self.process.pid}/status").read_text()
        return int(re.findall(r"^VmHWM:\s+(\d+) kB$", status, re.MULTILINE)[0])

    def forget_most_memory(self) -> None:
        """Lets the most memory be what it has now."""
        Path(f"/proc/{self.process.pid}/clear_refs").write_text("5")

    def hang_up(self) -> None:
        """Ends the connection."""
        self.stream.close()
        self.connection.close()

    def end(self) -> Tuple[str, str]:
        """Ends the connection, and gives what the server prints at its end, and all that it said on standard error."""
        self.hang_up()
        return self.process.communicate(timeout=60)


OPEN = '{"op":"open","token":"t1","user":"ann"}'


@needs_serve
class Lasting(unittest.TestCase):
    """A server that goes on."""

    def test_past_a_full_log(self) -> None:
        """More events than a log holds, in 64 MiB."""
        until = 2_500_000
        with Served() as served:
            self.assertEqual(served.ask(OPEN, f'{{"op":"run","until":{until}}}', '{"name":"top.c","op":"handle"}')[:2], ['{"ok":true}'] * 2)
            deadline = time.monotonic() + 120
            while served.time() < until and time.monotonic() < deadline:
                time.sleep(0.1)
            self.assertEqual(served.ask('{"op":"time"}', '{"h":1,"op":"value"}'), [f'{{"finished":false,"time":{until}}}', '{"value":"0"}'])
            memory = served.most_memory()
            closed, _ = served.end()
        self.assertGreater(int(closed.split()[1]), HELD)
        self.assertLess(memory, 64 << 10)

    def test_past_long_texts(self) -> None:
        """More bytes of requests than the server may take, in 64 MiB."""
        asked = json.dumps({"name": "x" * 60_000, "op": "handle"})
        with Served() as served:
            served.ask(OPEN)
            for _ in range(2_000):
                self.assertEqual(served.ask(asked), ['{"error":"no such name"}'])
            self.assertLess(served.most_memory(), 64 << 10)

    def test_a_slot_that_goes_round(self) -> None:
        """The simulation stands still after 4,194,304 steps, and the server says once which process goes round."""
        with Served(design=GOING_ROUND) as served:
            served.ask(OPEN, '{"op":"run","until":0}')
            self.assertEqual(served.errors.readline(), GONE_ROUND)
            self.assertEqual(served.ask('{"op":"time"}'), ['{"finished":false,"time":0}'])
            closed, errors = served.end()
        self.assertEqual((closed, errors), (f"closed {HELD + 4}\n", ""))

    def test_a_log_that_is_kept(self) -> None:
        """The simulation stands still, then requests are refused, and a close is not."""
        with Served("--keep") as served:
            served.ask(OPEN, '{"op":"run","until":1000000000}')
            found = [served.time()]
            while len(found) < 3 or len(set(found[-3:])) > 1:
                time.sleep(0.5)
                found.append(served.time())
            answers: List[str] = []
            while '{"error":"log full"}' not in answers:
                answers = served.ask(*['{"op":"time"}'] * 1_000)
            self.assertLessEqual(set(answers), {f'{{"finished":false,"time":{found[-1]}}}', '{"error":"log full"}'})
            self.assertEqual(served.ask('{"op":"close"}'), ['{"ok":true}'])
            closed, _ = served.end()
        self.assertEqual(closed, f"closed {USERS + 1}\n")


if __name__ == "__main__":
    unittest.main()

"""Devices that fail, at each call in turn: standard input and output by a shim over the C library (tools/fail-device.c), and a connection by its client,
who resets it. The script is the stored one, so its replies are those that are stored. python3 -m unittest, in this folder, over the program of
test_loddrume. The shim wants the machine's C compiler; without one its tests are skipped.
"""

import os
import shutil
import socket
import struct
import subprocess
import tempfile
import unittest
from pathlib import Path
from typing import Tuple

from test_loddrume import PROGRAM, TOP, free_port, needs_serve

STORED = TOP / "crates" / "vp_served"
DESIGN, POLICY, SCRIPT = (STORED / "stdin").read_text().split("%%\n")
REPLIES = (STORED / "stdout").read_text()
# So many bytes are read or written by one call.
PIECE = 11


class Stored(unittest.TestCase):
    """The stored design and policy, as files."""

    def setUp(self) -> None:
        folder = tempfile.TemporaryDirectory()
        self.addCleanup(folder.cleanup)
        self.folder = Path(folder.name)
        (self.folder / "d.v").write_text(DESIGN)
        (self.folder / "p.json").write_text(POLICY)


@unittest.skipUnless(shutil.which("cc"), "there is no C compiler")
class Failing(Stored):
    """Standard input or output fails at some call, and at each after it."""

    def setUp(self) -> None:
        super().setUp()
        self.shim = self.folder / "fail-device.so"
        subprocess.run(["cc", "-shared", "-fPIC", "-O2", "-o", self.shim, TOP / "tools" / "fail-device.c"], check=True)

    def outcome(self, **failing: int) -> Tuple[int, str, str]:
        """The status, standard output and standard error of a run over the stored script."""
        env = {name: str(call) for name, call in {"PIECE": PIECE, **failing}.items()}
        run = subprocess.run(
            [PROGRAM, "run", "d.v", "p.json"],
            cwd=self.folder,
            input=SCRIPT,
            capture_output=True,
            encoding="utf-8",
            env={**os.environ, "LD_PRELOAD": str(self.shim), **env},
            timeout=60,
            check=False,
        )
        return run.returncode, run.stdout, run.stderr

    def test_nothing_fails(self) -> None:
        self.assertEqual(self.outcome(), (0, REPLIES, ""))

    def test_each_read(self) -> None:
        """The lines that were read whole are answered, and then the fault is reported."""
        replies = REPLIES.splitlines(keepends=True)
        for call in range(1, len(SCRIPT) // PIECE + 2):
            whole = SCRIPT[: (call - 1) * PIECE].count("\n")
            wanted = "".join(replies[:whole]) + "fault 1504 line 0\n"
            self.assertEqual(self.outcome(FAIL_READ=call), (1, wanted, "fault 1504: standard input can't be read\n"), call)

    def test_each_write(self) -> None:
        """What went out is the first of the replies, and the fault is reported in words."""
        for call in range(1, len(REPLIES) // PIECE + 1):
            status, written, told = self.outcome(FAIL_WRITE=call)
            self.assertEqual((status, told.splitlines()[0]), (1, "fault 1505: standard output can't be written"), call)
            self.assertTrue(REPLIES.startswith(written), call)
            self.assertLess(len(written), call * PIECE, call)


@needs_serve
class Resetting(Stored):
    """A client resets its connection."""

    def test_others_are_served_on(self) -> None:
        """Its session is closed, and the log has its opening, its closing, and what another client asks: `closed 5`."""
        port = free_port()
        words = [PROGRAM, "serve", "d.v", "p.json", "--port", str(port), "--sessions", "2"]
        with subprocess.Popen(words, cwd=self.folder, stdout=subprocess.PIPE, encoding="utf-8") as process:
            try:
                assert process.stdout
                self.assertEqual(process.stdout.readline(), f"listening {port}\n")
                self.reset(port)
                with socket.create_connection(("127.0.0.1", port), 30) as other:
                    other.sendall(b'{"op":"open","user":"ann","token":"t1"}\n{"op":"time"}\n')
                    other.shutdown(socket.SHUT_WR)
                    with other.makefile() as replies:
                        self.assertEqual(replies.read(), '{"ok":true}\n{"finished":false,"time":0}\n')
                self.assertEqual(process.communicate(timeout=30)[0], "closed 5\n")
                self.assertEqual(process.returncode, 0)
            finally:
                process.kill()

    def reset(self, port: int) -> None:
        """Opens a session, begins a line, and resets the connection (socket(7), SO_LINGER of 0 seconds)."""
        with socket.create_connection(("127.0.0.1", port), 30) as client:
            client.sendall(b'{"op":"open","user":"ann","token":"t1"}\n')
            self.assertEqual(client.recv(100), b'{"ok":true}\n')
            client.sendall(b'{"op":"ti')
            client.setsockopt(socket.SOL_SOCKET, socket.SO_LINGER, struct.pack("ii", 1, 0))


if __name__ == "__main__":
    unittest.main()

"""How long a server waits for a client who does not read: ten seconds for something of a reply, and a minute for all of one. python3 -m unittest, in this
folder, over the program of test_loddrume. Both clients wait at once, so all takes a minute.
"""

import json
import socket
import tempfile
import threading
import time
import unittest
from pathlib import Path
from typing import Dict

from test_loddrume import free_port, needs_serve, serving

# Three lists of so many regs are longer than what the system takes for a client, and their handles are not more than a session may have.
REGS, LISTS = 20_000, 3
DESIGN = "module top;\n" + "".join(f"reg r{number:_>40};\n" for number in range(REGS)) + "endmodule\n"
POLICY = json.dumps({"users": [{"name": "ann", "token": "t1", "open": "list"}]})
OPEN = b'{"op":"open","user":"ann","token":"t1"}\n'
LIST = b'{"op":"iterate","h":1,"kind":"reg"}\n'
# Seconds: what a server gives, and what a busy machine may add.
SILENCE, PATIENCE, SPARE = 10.0, 60.0, 8.0


def connected(port: int) -> socket.socket:
    """A client with an open session and a handle of `top`, whose system takes little that it does not read."""
    client = socket.socket()
    client.setsockopt(socket.SOL_SOCKET, socket.SO_RCVBUF, 4096)
    client.settimeout(30)
    client.connect(("127.0.0.1", port))
    client.sendall(OPEN)
    assert client.recv(100) == b'{"ok":true}\n'
    client.sendall(b'{"op":"handle","name":"top"}\n')
    assert client.recv(100) == b'{"h":1}\n'
    return client


def waited(port: int, taken: int) -> float:
    """A client asks for the lists and takes so many bytes of them each half of a second, until its connection ends: how long that took."""
    with connected(port) as client:
        client.sendall(LIST * LISTS)
        begun = time.monotonic()
        while time.monotonic() - begun < 2 * PATIENCE:
            # What is sent to an ended connection resets it.
            try:
                client.sendall(b"{}\n")
                if taken > 0:
                    client.recv(taken)
            except OSError:
                return time.monotonic() - begun
            time.sleep(0.5)
    return float("inf")


@needs_serve
class Patience(unittest.TestCase):
    """Clients who do not read, or read slowly."""

    def test_two_clients(self) -> None:
        with tempfile.TemporaryDirectory() as folder:
            design, policy = Path(folder) / "d.v", Path(folder) / "p.json"
            design.write_text(DESIGN)
            policy.write_text(POLICY)
            seconds: Dict[int, float] = {}
            with serving(self, design, policy, 2) as port:
                clients = [threading.Thread(target=lambda taken=taken: seconds.update({taken: waited(port, taken)})) for taken in (0, 512)]
                for client in clients:
                    client.start()
                for client in clients:
                    client.join()
        self.assertGreater(seconds[0], SILENCE - 1)
        self.assertLess(seconds[0], SILENCE + SPARE)
        self.assertGreater(seconds[512], PATIENCE - 1)
        self.assertLess(seconds[512], PATIENCE + SPARE)


if __name__ == "__main__":
    unittest.main()

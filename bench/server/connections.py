"""Connections one after another: connections.py PORT COUNT silent|open. Each ends at once, or opens a session, closes it and ends."""

import socket
import sys

port, count = map(int, sys.argv[1:3])
lines = [b'{"op":"open","user":"ann","token":"t1"}\n', b'{"op":"close"}\n'] if sys.argv[3] == "open" else []
for _ in range(count):
    with socket.create_connection(("127.0.0.1", port)) as client:
        for line in lines:
            client.sendall(line)
            if client.recv(100) != b'{"ok":true}\n':
                sys.exit("refused")
        client.shutdown(socket.SHUT_WR)
        if client.recv(100):
            sys.exit("more was said")

#!/usr/bin/env python3
"""How long a server without workers takes for the events of the five designs of bench/events.sh, beside `run --seeds 0`, which searches for no races either.
served.py [UNTIL] [PROGRAM]: the time at which each run ends, in time units (60000). Of `run` the time of a run that ends at once is taken away.
"""

import json
import socket
import subprocess
import sys
import tempfile
import time
from pathlib import Path

TOP = Path(__file__).resolve().parent.parent
DESIGNS = ["chain", "pipeline", "bus", "idle", "assigns"]
POLICY = {"users": [{"name": "ann", "token": "t1", "open": "list+read", "run": True}]}
OPEN = '{"op":"open","user":"ann","token":"t1"}\n'
RUNS = 5


def run(program: str, folder: Path, until: int, *words: str) -> float:
    """The seconds of `run` until a time."""
    script = OPEN + (f'{{"op":"run","until":{until}}}\n' if until else "") + '{"op":"time"}\n'
    begin = time.monotonic()
    told = subprocess.run([program, "run", "d.v", "p.json", *words], cwd=folder, input=script, stdout=subprocess.PIPE, encoding="utf-8", check=True).stdout
    assert json.loads(told.splitlines()[-1])["time"] == until, told
    return time.monotonic() - begin


def served(program: str, folder: Path, until: int) -> float:
    """The seconds from a request to run until a time, until a server tells that it is so far."""
    with socket.create_server(("127.0.0.1", 0)) as free:
        port = free.getsockname()[1]
    words = ["serve", "d.v", "p.json", "--port", str(port), "--workers", "0", "--sessions", "1"]
    with subprocess.Popen([program, *words], cwd=folder, stdout=subprocess.PIPE, encoding="utf-8") as server:
        assert server.stdout
        server.stdout.readline()
        with socket.create_connection(("127.0.0.1", port)) as connection, connection.makefile("rw", encoding="utf-8", newline="\n") as stream:

            def ask(line: str) -> str:
                stream.write(line)
                stream.flush()
                return stream.readline()

            ask(OPEN)
            begin = time.monotonic()
            ask(f'{{"op":"run","until":{until}}}\n')
            while json.loads(ask('{"op":"time"}\n'))["time"] < until:
                time.sleep(0.002)
            seconds = time.monotonic() - begin
        server.communicate()
        return seconds


def main() -> None:
    """Prints a row for each design."""
    until = int(sys.argv[1]) if len(sys.argv) > 1 else 60_000
    program = sys.argv[2] if len(sys.argv) > 2 else str(TOP / "crates/vp_served/out/vp_served")
    for name in DESIGNS:
        with tempfile.TemporaryDirectory() as made:
            folder = Path(made)
            text = subprocess.run(["sh", "-c", f". {TOP}/bench/designs.sh; {name}"], stdout=subprocess.PIPE, encoding="utf-8", check=True).stdout
            (folder / "d.v").write_text(f"{text}endmodule\n")
            (folder / "p.json").write_text(json.dumps(POLICY))
            still = min(run(program, folder, 0, "--seeds", "0") for _ in range(RUNS))
            recorded = min(run(program, folder, until, "--seeds", "0") for _ in range(RUNS)) - still
            server = min(served(program, folder, until) for _ in range(RUNS))
            print(f"{name}: server {server:.3f} s, run {recorded:.3f} s, ratio {server / recorded:.2f}", flush=True)


if __name__ == "__main__":
    main()

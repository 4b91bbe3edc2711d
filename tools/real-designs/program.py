#!/usr/bin/env python3
"""Runs the program of docs/real on the server, and reads its result from the memory.

    program.py PICORV32 PROGRAM FOLDER

PICORV32 is the file of the Debian source package `nextpnr`, PROGRAM is vp_served, FOLDER takes what is made. It
prints how long the lowering took, how long the run, and what stands in the memory at its end; the status is 1 where
that is wrong.
"""

from __future__ import annotations

import socket
import subprocess
import sys
import time
from pathlib import Path
from typing import List

HERE = Path(__file__).resolve().parent
TOP = HERE.parents[1]
sys.path[:0] = [str(TOP / "frontend"), str(TOP / "clients" / "python")]

from loddrume import NameMap, Server  # noqa: E402
from loddrume_lower.front import lower, write  # noqa: E402

WANTED = 386946
UNTIL = 7500


def main(words: List[str]) -> int:
    """Lowers the board, runs it until its program has ended, and compares."""
    core, program, folder = Path(words[0]).resolve(), str(Path(words[1]).resolve()), Path(words[2])
    folder.mkdir(parents=True, exist_ok=True)
    began = time.monotonic()
    result = lower("board", [str(TOP / "docs" / "real" / "soc.v"), str(core)])
    print(f"lowered in {time.monotonic() - began:.1f} s", flush=True)
    write(result, str(folder / "design.v"), str(folder / "names.json"))
    (folder / "policy.json").write_text((TOP / "docs" / "real" / "plain.json").read_text(encoding="utf-8"))
    with socket.socket() as free:
        free.bind(("127.0.0.1", 0))
        port = free.getsockname()[1]
    asked = [program, "serve", "design.v", "policy.json", "--port", str(port), "--workers", "0", "--sessions", "1"]
    with subprocess.Popen(asked, cwd=folder, stdout=subprocess.PIPE, encoding="utf-8") as process:
        assert process.stdout
        process.stdout.readline()
        began = time.monotonic()
        with Server(port, timeout=600.0).open("ann", "soc-1") as session:
            session.names = NameMap.read(folder / "names.json")
            word, trap = (session.handle_by_name(f"board.{name}") for name in ("chip.memory[32]", "trap"))
            session.run(UNTIL)
            while session.time() < UNTIL:
                time.sleep(1)
            digits, ended = word.get_value(), trap.get_value()
        print(f"ran {time.monotonic() - began:.1f} s; {process.stdout.readline().strip()} entries of the log")
    print(f"trap {ended}, memory[32] {digits}")
    return 0 if ended == "1" and digits == format(WANTED, "032b") else 1


if __name__ == "__main__":
    sys.exit(main(sys.argv[1:]))

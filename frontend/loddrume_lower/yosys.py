"""Runs Yosys in a folder, and tells its faults by the file and line of the origin."""

from __future__ import annotations

import os
import re
import shutil
import subprocess
from typing import Callable

from .refusal import Refusal

_FAULT = re.compile(r"(?:(?P<file>[^\s:]*source\d+\.v):(?P<line>\d+): )?ERROR: (?P<words>.*)")
_COPY = re.compile(r"\S*\bsource\d+\.v\b")


class Yosys:
    """Yosys, with a folder in which its files lie."""

    def __init__(self, folder: str, program: str = "yosys") -> None:
        self.folder = folder
        self._program = program
        if not shutil.which(program):
            raise Refusal("", 0, f"{program} is not installed", "on Debian: apt-get install yosys")

    def path(self, name: str) -> str:
        """The path of a file in the folder.

        Yosys itself runs where we are, since files of memories are named from there.
        """
        return os.path.join(self.folder, name)

    def run(self, script: str, check: bool = True, origin: Callable[[str], str] = str, log: str = "") -> str:
        """Runs a script, and gives what was printed."""
        words = [self._program, "-q", *(["-L", log] if log else []), "-p", script]
        ran = subprocess.run(
            words,
            stdout=subprocess.PIPE,
            stderr=subprocess.STDOUT,
            encoding="utf-8",
            errors="surrogateescape",
            check=False,
        )
        if check and ran.returncode:
            self.fail(ran.stdout, origin)
        return ran.stdout

    def fail(self, told: str, origin: Callable[[str], str]) -> None:
        """Raises a refusal with what Yosys told of its fault."""
        found = _FAULT.search(told)
        if not found:
            raise Refusal(
                "",
                0,
                f"yosys failed: {told.strip()[-300:] or 'it told nothing'}",
                "look for modules that instantiate themselves",
            )
        words = _COPY.sub(lambda name: origin(name.group()), found["words"])
        if found["file"] and int(found["line"]):
            raise Refusal(origin(found["file"]), int(found["line"]), f"yosys refuses it: {words}", "write it otherwise")
        raise Refusal("", 0, f"yosys refuses it: {words}", "write it otherwise")

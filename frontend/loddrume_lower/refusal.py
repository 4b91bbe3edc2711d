"""What can't be lowered, told in words: file, line, construct, and what to do."""

from __future__ import annotations


class Refusal(Exception):
    """A design is refused. `construct` says what was found, `advice` what to do about it."""

    def __init__(self, file: str, line: int, construct: str, advice: str = "") -> None:
        self.file = file
        self.line = line
        self.construct = construct
        self.advice = advice
        super().__init__(str(self))

    def __str__(self) -> str:
        where = f"{self.file}:{self.line}: " if self.line else f"{self.file}: " if self.file else ""
        return f"{where}{self.construct}{'; ' + self.advice if self.advice else ''}"

"""Says in which envelope a place stands that Yosys tells, and refuses what would stand in two."""

from __future__ import annotations

import re
from typing import Callable, Dict, Iterable, Optional, Set, Tuple

from .modules import Layout, Module, instantiated
from .refusal import Refusal

_RANGE = re.compile(r"^(?P<file>.*):(?P<first>\d+)(?:\.\d+)?(?:-(?P<last>\d+)(?:\.\d+)?)?$")
_DERIVED = re.compile(r"^\$paramod(?:\$[0-9a-f]+)?\\([^\\]+)")


def source_name(name: str) -> str:
    """The name that a module of Yosys has in the text: parameters are cut off."""
    derived = _DERIVED.match(name)
    return derived[1] if derived else name.lstrip("\\")


class Places:
    """The places of one design."""

    def __init__(self, layout: Layout, origin: Callable[[str], str] = str) -> None:
        self.layout = layout
        self._origin = origin

    def origins(self, source: str) -> Iterable[Tuple[str, int, int]]:
        """The files and lines that a `src` attribute names; line 0 says nothing."""
        for part in source.split("|") if source else ():
            found = _RANGE.match(part)
            if found and int(found["first"]):
                yield self._origin(found["file"]), int(found["first"]), int(found["last"] or found["first"])

    def origin(self, source: str) -> Optional[Tuple[str, int]]:
        """The first file and line of a `src` attribute."""
        return next(((file, first) for file, first, _ in self.origins(source)), None)

    def envelopes(self, source: str) -> Set[int]:
        """The envelopes in which the places of a `src` attribute stand."""
        result: Set[int] = set()
        for file, first, last in self.origins(source):
            result |= self.layout.place_of_lines(file, first, last)
        return result

    def place(self, source: str, module: Module, construct: str) -> int:
        """The one envelope of a `src` attribute.

        Refuses a source that stands in two, or, beside envelopes, in none that is known.
        """
        found = self.envelopes(source)
        file, line = self.origin(source) or (module.file, module.line)
        if len(found) > 1:
            raise Refusal(
                file,
                line,
                f"{construct} comes of both sides of a border of an envelope",
                "draw the border so that it stands on one side",
            )
        if found:
            return found.pop()
        if module.places():
            raise Refusal(
                file,
                line,
                f"no place is known of {construct}, in a module with envelopes",
                "write it as a continuous assignment or a procedure",
            )
        return module.place

    def place_of_target(
        self, name: str, module: Module, kinds: Tuple[str, ...], construct: str
    ) -> Tuple[int, Tuple[str, int]]:
        """The one place at which items of some kinds assign a name, with the file and line of the first."""
        last = re.sub(r"\[-?\d+\]", "", name).split(".")[-1]
        items = [item for item in module.items if last in item.targets and _is_kind(item.kind, kinds)]
        # An output of another width than its net: Yosys assigns the rest.
        items = items or [item for item in module.items if last in item.words() and instantiated(item)]
        found: Dict[int, Tuple[str, int]] = {}
        for item in items:
            found.setdefault(item.place, (item.file, item.line))
        if len(found) > 1:
            (file, line) = found[max(found)]
            raise Refusal(
                file,
                line,
                f"{construct} {last} stands on both sides of a border of an envelope",
                "assign it on one side alone",
            )
        if found:
            return next(iter(found.items()))
        if module.places():
            raise Refusal(
                module.file, module.line, f"no place is known of {construct} {last}", "write it as an item of its own"
            )
        return module.place, (module.file, module.line)


def _is_kind(kind: str, kinds: Tuple[str, ...]) -> bool:
    return kind in kinds or kind in ("if", "for", "case", "begin", "generate")

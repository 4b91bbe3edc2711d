"""Names that the server reads, one for each name of the original."""

from __future__ import annotations

import re
from typing import Dict

KEYWORDS = frozenset(
    "module endmodule input output wire reg localparam assign initial always begin end if else case casez endcase "
    "default while for forever wait posedge negedge or inout parameter defparam generate genvar task function "
    "specify signed integer time real realtime event tri supply0 supply1 primitive fork join repeat disable force "
    "release deassign casex and nand nor not xor xnor buf".split()
)


class Names:
    """The names of one scope. `mem[3]` becomes `mem__3`, and `g[0].h` becomes `g__0__h`."""

    def __init__(self) -> None:
        self._taken: Dict[str, str] = {}
        self._of: Dict[str, str] = {}

    def of(self, original: str) -> str:
        """The name for one of the original, always the same."""
        if original not in self._of:
            self._of[original] = self._free(plain(original), original)
        return self._of[original]

    def fresh(self, wanted: str) -> str:
        """A name that nothing has yet."""
        return self._free(wanted, "")

    def _free(self, wanted: str, original: str) -> str:
        name, count = wanted, 0
        while name in self._taken:
            count += 1
            name = f"{wanted}_{count}"
        self._taken[name] = original
        return name


def plain(original: str) -> str:
    """A name of letters, digits, `_` and `$` that is no keyword."""
    name = re.sub(r"\[(\d+)\]", r"__\1", original).replace(".", "__")
    name = re.sub(r"[^A-Za-z0-9_$]", "_", name) or "_"
    if not re.match(r"[A-Za-z_]", name):
        name = "_" + name
    return name + "_" if name in KEYWORDS else name

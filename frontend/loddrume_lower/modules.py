"""Splits the tokens of a design into modules and their items, and says in which envelope each place stands."""

from __future__ import annotations

from dataclasses import dataclass, field
from typing import Dict, List, Set, Tuple

from .pragmas import Borders, Envelope
from .refusal import Refusal
from .sources import Pragma
from .tokens import Token

_BLOCKS = {"begin": "end", "fork": "join", "case": "endcase", "casex": "endcase", "casez": "endcase"}
_REGIONS = {
    "function": "endfunction",
    "task": "endtask",
    "specify": "endspecify",
    "table": "endtable",
    "covergroup": "endgroup",
}
_PROCEDURES = ("always", "initial", "always_comb", "always_ff", "always_latch", "final")
_STORING = ("reg", "integer", "time", "logic")


@dataclass
class Item:
    """An item of a module: its first word, its tokens, its place, and the names that it assigns or declares."""

    kind: str
    tokens: List[Token]
    place: int
    targets: Set[str] = field(default_factory=set)
    # Parameters, genvars, functions and tasks; nets are not among them.
    declared: Set[str] = field(default_factory=set)
    memories: Set[str] = field(default_factory=set)

    @property
    def file(self) -> str:
        return self.tokens[0].file

    @property
    def line(self) -> int:
        return self.tokens[0].line

    def words(self) -> Set[str]:
        """The names that it has."""
        return {token.text.lstrip("\\") for token in self.tokens if token.kind in ("name", "escaped")}


@dataclass
class Module:
    """A module: its name, where it stands, the tokens of its header, and its items."""

    name: str
    file: str
    line: int
    place: int
    header: List[Token] = field(default_factory=list)
    items: List[Item] = field(default_factory=list)
    tokens: List[Token] = field(default_factory=list)

    def places(self) -> Set[int]:
        """The envelopes that stand in the module."""
        return {item.place for item in self.items} - {self.place}

    def unassigned_regs(self) -> Set[str]:
        """The regs that nothing assigns but an `initial`."""
        regs: Set[str] = set()
        for item in self.items:
            if item.kind in _STORING:
                regs |= _declared_by(_without_attributes(item.tokens)[1:], item.kind)
        return regs.difference(*(item.targets for item in self.items if item.kind != "initial"))


@dataclass
class Layout:
    """The modules and envelopes of a design, in the order of the text."""

    modules: Dict[str, Module] = field(default_factory=dict)
    envelopes: List[Envelope] = field(default_factory=list)
    homes: Dict[int, str] = field(default_factory=dict)
    lines: Dict[Tuple[str, int], Set[int]] = field(default_factory=dict)

    def place_of_lines(self, file: str, first: int, last: int) -> Set[int]:
        """The envelopes of what stands on some lines of a file."""
        ends = self.lines.get((file, first), set()) | self.lines.get((file, last), set())
        return ends


class Splitter:
    """Goes over the tokens of a design once."""

    def __init__(self, tokens: List[Token], pragmas: List[Pragma]) -> None:
        self._all = tokens
        self._pragmas = pragmas
        self._at = 0
        self._borders = Borders()
        self._home = ""
        self._region = 0
        self.layout = Layout(envelopes=self._borders.envelopes)

    def split(self) -> Layout:
        """The modules of the tokens, in order."""
        while self._skip_borders(True):
            if self._word() in ("module", "macromodule"):
                self._module()
            elif self._here().kind == "directive" or self._word() in (";", "(*"):
                takes_a_word = self._here().text == "`default_nettype"
                self._take(skip=self._word() == "(*")
                if takes_a_word:
                    self._take()
            else:
                token = self._here()
                raise Refusal(token.file, token.line, f"{token.text} outside of modules", "put it into a module")
        if self._borders.place:
            envelope = self._borders.envelopes[self._borders.place]
            raise Refusal(envelope.file, envelope.line, "an envelope that does not end", "write `pragma protect end")
        return self.layout

    # ---- tokens

    def _here(self) -> Token:
        if self._at >= len(self._all):
            last = self._all[-1] if self._all else Token("", "", "", 0, 0, 0)
            raise Refusal(last.file, last.line, "the text ends within a module", "write endmodule")
        return self._all[self._at]

    def _word(self) -> str:
        token = self._here()
        return token.text if token.kind in ("name", "op") else ""

    def _skip_borders(self, free: bool) -> bool:
        """Applies the pragmas that stand here. False at the end of the text."""
        while self._at < len(self._all) and self._all[self._at].kind == "border":
            mark = self._all[self._at]
            pragma = self._pragmas[int(mark.text.split()[1].rstrip("*/"))]
            border = self._borders.apply(pragma, free)
            if border == "begin":
                self.layout.homes[self._borders.place] = self._home
            elif border == "end" and self.layout.homes[len(self.layout.envelopes) - 1] != self._home:
                raise Refusal(
                    pragma.file,
                    pragma.line,
                    "an envelope that ends in another module than it begins",
                    "pair begin and end in one module",
                )
            self._at += 1
        return self._at < len(self._all)

    def _take(self, skip: bool = False) -> List[Token]:
        """Takes a token; with `skip`, what stands in its parentheses, brackets or braces too.

        A border may not stand there.
        """
        taken: List[Token] = []
        closing: List[str] = []
        pairs = {"(": ")", "[": "]", "{": "}", "(*": "*)"}
        while True:
            self._skip_borders(False)
            token = self._here()
            self.layout.lines.setdefault((token.file, token.line), set()).add(self._borders.place)
            taken.append(token)
            self._at += 1
            if token.text in pairs and token.kind == "op":
                closing.append(pairs[token.text])
            elif closing and token.text == closing[-1]:
                closing.pop()
            if not closing or not skip:
                return taken

    def _until(self, end: str) -> List[Token]:
        """Takes tokens up to a word, and that too."""
        taken: List[Token] = []
        while True:
            self._skip_borders(False)
            last = self._word() == end
            taken += self._take(skip=not last)
            if last:
                return taken

    # ---- modules and items

    def _module(self) -> None:
        opening = self._take()
        name = self._take()[0]
        module = Module(name.text.lstrip("\\"), name.file, opening[0].line, self._borders.place)
        if module.name in self.layout.modules:
            raise Refusal(name.file, name.line, f"a second module {module.name}", "give each module a name of its own")
        module.header = [*opening, name, *self._until(";")]
        module.tokens = list(module.header)
        self._home = module.name
        while True:
            self._skip_borders(True)
            if self._word() == "endmodule":
                module.tokens += self._take()
                break
            self._items(module)
        if self._borders.place and self.layout.homes[self._borders.place] == module.name:
            envelope = self._borders.envelopes[self._borders.place]
            raise Refusal(
                envelope.file, envelope.line, "an envelope that does not end in its module", "write `pragma protect end"
            )
        self._home = ""
        self.layout.modules[module.name] = module

    def _items(self, module: Module) -> None:
        """Takes an item, or a word that only opens or closes a region of items."""
        if self._word() in ("generate", "endgenerate"):
            if self._word() == "endgenerate" and self._borders.place != self._region:
                token = self._here()
                raise Refusal(
                    token.file,
                    token.line,
                    "an envelope across the end of a generate region",
                    "begin and end it within, or outside",
                )
            self._region = self._borders.place
            module.tokens += self._take()
            return
        place = self._borders.place
        tokens = self._item()
        module.tokens += tokens
        kind = next((token.text for token in _without_attributes(tokens)), "")
        item = Item(kind, tokens, place)
        _name_targets(item)
        module.items.append(item)

    def _item(self) -> List[Token]:
        taken: List[Token] = []
        while self._word() == "(*":
            taken += self._take(skip=True)
            self._skip_borders(False)
        word = self._word()
        if word in _REGIONS:
            return taken + self._until(_REGIONS[word])
        if word in _PROCEDURES:
            return taken + self._take() + self._statement()
        if word in ("if", "for", "case", "begin", "while"):
            return taken + self._statement()
        return taken + self._until(";")

    def _statement(self) -> List[Token]:
        """Takes a statement, or an item of a generate construct, which has the same shape."""
        self._skip_borders(False)
        word = self._word()
        if word in _BLOCKS:
            return self._block(word)
        if word in ("if", "for", "while", "repeat", "wait"):
            taken = self._take() + self._take(skip=True) + self._statement()
            return taken + self._else() if word == "if" else taken
        if word in ("@", "#", "forever"):
            taken = self._take()
            if word != "forever":
                self._skip_borders(False)
                taken += self._take(skip=True)
                while self._word() == ".":
                    taken += self._take() + self._take()
            return taken + self._statement()
        return self._item() if word in _REGIONS or word in _PROCEDURES or word == "(*" else self._until(";")

    def _else(self) -> List[Token]:
        if self._at < len(self._all) and self._word() == "else":
            return self._take() + self._statement()
        return []

    def _block(self, word: str) -> List[Token]:
        """Takes a block with the blocks in it; what stands in them is not looked at."""
        taken = self._take()
        closing = [_BLOCKS[word]]
        while closing:
            self._skip_borders(False)
            here = self._word()
            taken += self._take()
            if here in _BLOCKS:
                closing.append(_BLOCKS[here])
            elif here == closing[-1]:
                closing.pop()
        if taken[0].text == "begin" and self._at < len(self._all) and self._word() == ":":
            taken += self._take() + self._take()
        return taken


def refuse_values_across(layout: Layout) -> None:
    """Refuses a parameter of an envelope that is used outside of it, a function or task that is called from another
    side, and a memory that is read or written from another side.

    Yosys puts the value of a parameter, and the body of a function, where they are used, and makes regs of a small
    memory; no place tells them from what stands there.
    """
    for module in layout.modules.values():
        if not module.places():
            continue
        _refuse_ports_inside(module)
        for home in module.items:
            for name in home.declared:
                if home.place != module.place or home.kind in ("function", "task"):
                    _refuse_across(module, home, f"{home.kind} {name}", "move it, or declare it on that side too")
            for name in home.memories:
                _refuse_across(module, home, f"memory {name}", "read and write it on the side of its declaration")


def _refuse_across(module: Module, home: Item, what: str, advice: str) -> None:
    """Refuses what an item declares, by its kind and name, where an item of another place has the name."""
    for item in module.items:
        for token in item.tokens if item.place != home.place else ():
            if token.kind in ("name", "escaped") and token.text.lstrip("\\") == what.split(" ")[1]:
                raise Refusal(
                    token.file,
                    token.line,
                    f"the {what} is used across a border of an envelope",
                    f"{advice}; it is declared at {home.file}:{home.line}",
                )


def _refuse_ports_inside(module: Module) -> None:
    """Refuses a port that an envelope declares, or declares again as a reg."""
    opening = next((at for at, token in enumerate(module.header) if token.text == "("), len(module.header))
    ports = {token.text for token in module.header[opening:] if token.kind in ("name", "escaped")}
    for item in module.items:
        if item.place == module.place or item.kind not in ("input", "output", "inout", "reg", "wire"):
            continue
        token = next((token for token in item.tokens[1:] if token.text in ports and _declares(item, token)), None)
        if token:
            what = f"the port {token.text} is declared in an envelope"
            raise Refusal(token.file, token.line, what, "declare it outside, or in the header")


def _declares(item: Item, token: Token) -> bool:
    """Whether an item of nets declares a name, and does not only read it."""
    at = item.tokens.index(token)
    depth = 0
    for other in item.tokens[1:at]:
        depth += {"(": 1, "[": 1, "{": 1, ")": -1, "]": -1, "}": -1}.get(other.text, 0)
        if other.text == "=" and not depth:
            depth = 100
        if other.text == "," and depth >= 100:
            depth = 0
    return depth == 0


def _without_attributes(tokens: List[Token]) -> List[Token]:
    result, inside = [], False
    for token in tokens:
        if token.kind == "op" and token.text in ("(*", "*)"):
            inside = token.text == "(*"
        elif not inside:
            result.append(token)
    return result


def _name_targets(item: Item) -> None:
    """Finds by tokens which names an item assigns, and which parameters, functions, tasks and memories it declares."""
    tokens = _without_attributes(item.tokens)
    if item.kind in (*_STORING, "wire"):
        item.memories = _memories(tokens)
    for at, token in enumerate(tokens):
        if token.text in ("parameter", "localparam", "genvar", "function", "task") and token.kind == "name":
            item.declared |= _declared_by(tokens[at + 1 :], token.text)
    depth, assigned = 0, False
    for at, token in enumerate(tokens):
        if token.text == "for" and at + 2 < len(tokens):
            item.targets.add(tokens[at + 2].text.lstrip("\\"))
        if token.kind != "op":
            continue
        depth += {"(": 1, "{": 1, ")": -1, "}": -1}.get(token.text, 0)
        if token.text in ("=", "<=") and not depth and not assigned:
            item.targets |= _targets_before(tokens, at)
            assigned = True
        elif token.text == ";" or (token.text == "," and not depth):
            assigned = False


def _declared_by(tokens: List[Token], word: str) -> Set[str]:
    names: Set[str] = set()
    depth = 0
    for at, token in enumerate(tokens):
        depth += {"(": 1, "[": 1, "{": 1, ")": -1, "]": -1, "}": -1}.get(token.text, 0) if token.kind == "op" else 0
        if token.text == ";" or depth < 0:
            break
        following = tokens[at + 1].text if at + 1 < len(tokens) else ";"
        if token.kind in ("name", "escaped") and not depth and following in ("=", ",", ";", "("):
            names.add(token.text.lstrip("\\"))
            if word in ("function", "task"):
                break
    return names


def _memories(tokens: List[Token]) -> Set[str]:
    """The names that a declaration gives a range after the name."""
    names: Set[str] = set()
    depth = 0
    for before, token, following in zip(tokens, tokens[1:], tokens[2:]):
        depth += {"(": 1, "[": 1, "{": 1, ")": -1, "]": -1, "}": -1}.get(before.text, 0)
        is_declared = before.text in (tokens[0].text, "signed", "]", ",") and token.text != "signed"
        if not depth and is_declared and token.kind in ("name", "escaped") and following.text == "[":
            names.add(token.text.lstrip("\\"))
    return names


def _targets_before(tokens: List[Token], at: int) -> Set[str]:
    """The names in what stands to the left of an assignment, without those of its selects."""
    names: Set[str] = set()
    at -= 1
    depth = 0
    while at >= 0:
        text = tokens[at].text
        if text == "]":
            depth += 1
        elif text == "[":
            depth -= 1
        elif depth == 0 and tokens[at].kind in ("name", "escaped"):
            names.add(text.lstrip("\\"))
            if at and tokens[at - 1].text not in (",", "{", "."):
                break
        elif depth == 0 and text not in (",", "{", "}", "."):
            break
        at -= 1
    return names


_WORDS = set(
    "always always_comb always_ff always_latch and assign assert assume automatic begin buf bufif0 bufif1 case "
    "casex casez cell config cover deassign default defparam disable edge else end endcase endfunction "
    "endgenerate endmodule endtask event final for force forever fork function generate genvar if initial inout "
    "input integer join localparam logic macromodule module nand negedge nor not notif0 notif1 or output "
    "parameter posedge property pulldown pullup real realtime reg release repeat signed specify specparam supply0 "
    "supply1 table task time tri tri0 tri1 triand trior trireg typedef unsigned var wait wand while wire wor xnor "
    "xor".split()
)


def instantiated(item: Item) -> List[Tuple[str, Token]]:
    """The modules that an item instantiates, also within generate constructs."""
    if item.kind in _WORDS - {"if", "for", "case", "begin"}:
        return []
    tokens = _without_attributes(item.tokens)
    found: List[Tuple[str, Token]] = []
    starts = True
    for at, token in enumerate(tokens):
        if starts and token.kind in ("name", "escaped") and token.text not in _WORDS and _is_instance(tokens, at):
            found.append((token.text.lstrip("\\"), token))
        starts = token.text in (";", "begin", "else", ")", ":", "end")
        starts = starts or (
            at > 0 and tokens[at - 1].text == ":" and token.kind == "name" and tokens[max(at - 2, 0)].text == "begin"
        )
    return found


def _is_instance(tokens: List[Token], at: int) -> bool:
    """Whether a name is followed by parameters or a range or not, then a name, and a parenthesis: an instance."""
    following = [token.text for token in tokens[at + 1 : at + 3]]
    if following[:1] == ["#"]:
        return True
    return (
        len(following) == 2
        and tokens[at + 1].kind in ("name", "escaped")
        and tokens[at + 1].text not in _WORDS
        and following[1] in ("(", "[")
    )

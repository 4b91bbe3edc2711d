"""Checks that a lowered design shows of envelopes nothing that the original does not show.

It is written apart from the lowering, and reads `design.v` alone of what that makes. What stands inside
envelopes is cut out of both texts. What is left of the original can't depend on an inside. So what is left of
the lowered text must have no other names, and each of its nets, registers and instances must have the same
function of its inputs. Functions are compared on random vectors, by Yosys's netlists of both.
"""

from __future__ import annotations

import json
import random
import re
from collections import Counter
from dataclasses import dataclass, field
from pathlib import Path
from typing import Any, Callable, Dict, Iterable, List, Optional, Sequence, Set, Tuple

from .evaluate import Evaluator, Source, plain
from .modules import Module, Splitter
from .sources import Pragma, Sources
from .tokens import Token, flat_tokens, pieces, tokens_of
from .yosys import Yosys

VECTORS = 1024
_WORD = re.compile(r"[A-Za-z_][\w$]*")
_HELPER = re.compile(r"_n\d+(_\d+)?$")
_SAID = re.compile(
    r'author\s*=\s*("(?:\\.|[^"\\])*")'
    r'|viewport\s*=\s*\(\s*object\s*=\s*"([^"]*)"\s*,\s*access\s*=\s*"([^"]*)"\s*\)'
    r"|\b(begin|end|reset)\b"
)
_DECLARING = (
    "wire",
    "reg",
    "integer",
    "input",
    "output",
    "inout",
    "tri",
    "wand",
    "wor",
    "logic",
    "supply0",
    "supply1",
    "time",
)
_VALUES = ("parameter", "localparam", "genvar", "function", "task")
# No pass runs that leaves out what nothing reads: it is compared too.
_MEMORIES = "memory_collect; memory_map; "


class Leak(Exception):
    """The lowered text shows something of an envelope, or is not what the original says."""


@dataclass
class Envelope:
    """What stands between two pragmas: its author, its home module, its tokens, and its viewports."""

    author: str
    home: str
    tokens: List[Token] = field(default_factory=list)
    viewports: List[Tuple[str, str]] = field(default_factory=list)


@dataclass
class Cut:
    """A text without the insides of its envelopes."""

    text: str = ""
    words: Set[str] = field(default_factory=set)
    envelopes: List[Envelope] = field(default_factory=list)
    closed: Set[str] = field(default_factory=set)
    open_modules: Set[str] = field(default_factory=set)
    free: Dict[str, Set[str]] = field(default_factory=dict)


# ---- cutting


def _apply(text: str, author: str, envelope: Optional[Envelope]) -> Tuple[str, str]:
    """What a pragma says: `begin`, `end` or nothing, and the author from then on."""
    said = ""
    text = re.sub(r'("(?:\\.|[^"\\])*")|//.*', lambda found: found[1] or "", text)
    if not re.match(r"\s*protect\b", text):
        return said, ("" if re.match(r"\s*(resetall|reset\s+protect)", text) else author)
    for found in _SAID.finditer(text):
        if found[1]:
            author = json.loads(found[1])
        elif found[2] is not None and envelope:
            envelope.viewports.append((found[2], found[3]))
        elif found[4] == "reset":
            author = ""
        elif found[4]:
            said = found[4]
    return said, author


def cut(tokens: Sequence[Token], pragmas: Sequence[Pragma]) -> Cut:
    """Cuts the insides of envelopes out of tokens in which each pragma has left a mark."""
    result = Cut()
    author, home = "", ""
    envelope: Optional[Envelope] = None
    modules: Dict[str, List[Token]] = {}
    order: List[str] = []
    at = 0
    while at < len(tokens):
        token = tokens[at]
        if token.kind == "border":
            said, author = _apply(pragmas[int(re.sub(r"\D", "", token.text))].text, author, envelope)
            if said == "begin":
                envelope = Envelope(author, home)
                result.envelopes.append(envelope)
            elif said == "end":
                envelope = None
        else:
            if token.text in ("module", "macromodule") and token.kind == "name" and not home:
                home = tokens[at + 1].text.lstrip("\\")
                order.append(home)
                if envelope:
                    result.closed.add(home)
                    envelope.home = ""
            if envelope:
                envelope.tokens.append(token)
            if home and (not envelope or home in result.closed):
                modules.setdefault(home, []).append(token)
            if token.text == "endmodule":
                home = ""
        at += 1
    result.open_modules = set(order) - result.closed
    for name in result.open_modules:
        result.words |= {token.text.lstrip("\\") for token in modules[name]}
    result.text = "\n".join(_remade(name, modules[name], result) for name in order)
    return result


def _items(tokens: Sequence[Token]) -> Iterable[List[Token]]:
    """Tokens up to each `;`, which is enough to find declarations."""
    item: List[Token] = []
    for token in tokens:
        item.append(token)
        if token.text == ";":
            yield item
            item = []


def declared(tokens: Sequence[Token]) -> Dict[str, str]:
    """The names that items declare, each with its declaration, or an empty text for what is no net."""
    names: Dict[str, str] = {}
    for item in _items(tokens):
        start = next(
            (at for at, token in enumerate(item) if token.kind == "name" and token.text in (*_DECLARING, *_VALUES)),
            None,
        )
        if start is not None and all(
            token.text in ("generate", "endgenerate", "end", "begin", ")", "(*", "*)") or token.kind != "name"
            for token in item[:start]
        ):
            names.update(_names_in(item[start:]))
        elif (
            len(item) > 2
            and item[0].kind in ("name", "escaped")
            and item[1].kind in ("name", "escaped")
            and item[2].text == "("
        ):
            names[item[1].text.lstrip("\\")] = ""
    return names


def _names_in(item: List[Token]) -> Dict[str, str]:
    names: Dict[str, str] = {}
    at, head = 1, item[0].text
    while item[at].text in (*_DECLARING, "signed", "automatic"):
        head += " " + item[at].text
        at += 1
    if item[at].text == "[":
        end = next(index for index, token in enumerate(item) if token.text == "]")
        head += " " + " ".join(token.text for token in item[at : end + 1])
        at = end + 1
    depth, fresh = 0, True
    for token in item[at:]:
        depth += {"(": 1, "{": 1, "[": 1, ")": -1, "}": -1, "]": -1}.get(token.text, 0)
        if fresh and token.kind in ("name", "escaped"):
            names[token.text.lstrip("\\")] = "" if item[0].text in _VALUES else head
            fresh = False
        elif token.text == "," and not depth:
            fresh = True
    return names


def _remade(name: str, tokens: List[Token], result: Cut) -> str:
    """A module without its insides, in which nets of insides that it names are free."""
    if name in result.closed:
        end = next(at for at, token in enumerate(tokens) if token.text == ";" and _level(tokens[:at]) == 0)
        ports = [
            token
            for item in _items(tokens[end + 1 :])
            if item[0].text in ("input", "output", "inout", "parameter")
            for token in item
        ]
        return " ".join(["(* blackbox *)", *(_spelled(token) for token in [*tokens[: end + 1], *ports]), "endmodule"])
    words = {token.text.lstrip("\\") for token in tokens}
    free: Dict[str, str] = {}
    for envelope in result.envelopes:
        if envelope.home == name:
            inside = declared(envelope.tokens)
            values = {word for word, declaration in inside.items() if not declaration}
            for word in set(inside) & words:
                if not inside[word] and _instances(envelope.tokens, word):
                    continue
                if not inside[word] or set(_WORD.findall(inside[word])) & values:
                    token = envelope.tokens[0]
                    raise Leak(
                        f"{token.file}:{token.line}: {word} is declared in an envelope, and its value or width is "
                        "used outside of it"
                    )
                free[word] = inside[word]
    result.free[name] = set(free)
    added = " ".join(f"{declaration} {_escaped(word)} ;" for word, declaration in sorted(free.items()))
    return " ".join([*(_spelled(token) for token in tokens[:-1]), added, "endmodule"])


def _instances(tokens: List[Token], word: str) -> bool:
    return not any(
        token.text in _VALUES
        and token.kind == "name"
        and word in _names_in([*tokens[at:], Token("op", ";", "", 0, 0, 0)])
        for at, token in enumerate(tokens)
    )


def _level(tokens: List[Token]) -> int:
    return sum({"(": 1, ")": -1}.get(token.text, 0) for token in tokens)


def _spelled(token: Token) -> str:
    return token.text + (" " if token.kind == "escaped" else "")


def _escaped(word: str) -> str:
    return word if _WORD.fullmatch(word) else f"\\{word} "


# ---- names


def _parts(name: str, width: int) -> List[Tuple[str, int, int]]:
    """The nets that a net becomes: the name, the lowest bit and the width of each."""
    if width <= 64:
        return [(plain(name), 0, width)]
    return [(f"{plain(name)}__{at}", low, min(64, width - low)) for at, low in enumerate(range(0, width, 64))]


def check_words(original: Cut, design: Cut, design_text: str, original_words: Set[str]) -> None:
    """No word of the open text of the lowered design may be a name that only insides have."""
    inside: Set[str] = set()
    for envelope in original.envelopes:
        for name in declared(envelope.tokens):
            inside |= {name, plain(name)}
    for name in inside - original_words:
        pattern = re.compile(rf"(?<![\w$]){re.escape(name)}(?:__\d+)*(?![\w$])")
        if pattern.search(design_text):
            raise Leak(f"the open text has the name {name}, which only an envelope has")


def check_envelopes(original: Cut, design: Cut) -> None:
    """Names of insides stand in envelopes of the same author, and viewports open no more than those of the original."""
    authors: Dict[str, Set[str]] = {}
    for envelope in original.envelopes:
        for name in declared(envelope.tokens):
            authors.setdefault(plain(name), set()).add(envelope.author)
    allowed = Counter(
        (envelope.author, plain(item.split(".")[-1]))
        for envelope in original.envelopes
        for item, _ in envelope.viewports
    )
    rights = {
        (envelope.author, plain(item.split(".")[-1])): access
        for envelope in original.envelopes
        for item, access in envelope.viewports
    }
    known = {envelope.author for envelope in original.envelopes}
    for envelope in design.envelopes:
        if envelope.author not in known:
            raise Leak(f"an envelope of {envelope.author}, who has none in the original")
        for name in declared(envelope.tokens):
            base = re.sub(r"__\d+$", "", name)
            wanted = authors.get(name, authors.get(base))
            if wanted and envelope.author not in wanted:
                raise Leak(f"{name} stands in an envelope of {envelope.author}")
        for item, access in envelope.viewports:
            name = item.split(".")[-1]
            key = next(
                (
                    key
                    for key in ((envelope.author, name), (envelope.author, re.sub(r"__\d+$", "", name)))
                    if allowed[key]
                ),
                None,
            )
            if key is None or set(access.split("+")) - set(rights[key].split("+")):
                raise Leak(f"a viewport of {item} with {access}, which the original has not")


def check_constants(known: Set[str], open_text: str) -> None:
    """Each constant of the open text is one of the original's, or a part of one; small ones, which extend and
    compare, are not looked at."""
    for digits in re.findall(r"'b([01]+)", re.sub(r"//[^\n]*", "", open_text)):
        value = digits.lstrip("0")
        if len(value) < 5 or set(value) == {"1"} or set(value[1:]) == {"0"}:
            continue
        turned = ("0" if len(digits) == len(value) else "1") + digits[1:]
        if not any(value in constant or turned.lstrip("0") in constant for constant in known):
            raise Leak(f"the open text has the constant {digits}, which that of the original has not")


# ---- functions


@dataclass
class Pair:
    """A module of the original and the module that it became."""

    original: Dict[str, Any]
    design: Dict[str, Any]
    name: str


class Comparison:
    """Compares the modules of two netlists, from their tops down."""

    def __init__(
        self,
        original: Dict[str, Any],
        design: Dict[str, Any],
        free: Dict[str, Set[str]],
        design_free: Dict[str, Set[str]],
    ) -> None:
        self._original = original["modules"]
        self._design = design["modules"]
        self._free = free
        self._design_free = design_free
        self._done: Dict[str, str] = {}

    def compare(self, top: str, design_top: str) -> Set[str]:
        """The modules of the design that were found to be those of the original."""
        waiting = [(top, design_top)]
        while waiting:
            name, made = waiting.pop()
            if made in self._done:
                if self._done[made] != name:
                    raise Leak(f"the module {made} stands for two of the original")
                continue
            self._done[made] = name
            self._check_declared(name, made)
            waiting += self._module(Pair(self._original[name], self._design[made], made))
        return set(self._done)

    def _check_declared(self, name: str, made: str) -> None:
        """A net that an inside declares is not declared in the open text."""
        source = re.sub(r"^\$paramod(\$[0-9a-f]+)?\\([^\\]+).*", r"\2", name)
        nets = self._design[made]["netnames"]
        for free in self._free.get(source, set()):
            widths = [
                part for part in nets if part == plain(free) or re.fullmatch(re.escape(plain(free)) + r"__\d+", part)
            ]
            declared_here = [part for part in widths if part not in self._design_free.get(made, set())]
            if declared_here:
                raise Leak(f"{made}: {free} is declared in the open text, and in an envelope of the original")

    def _module(self, pair: Pair) -> List[Tuple[str, str]]:
        self._check_names(pair)
        old, new = Evaluator(pair.original, self._original), Evaluator(pair.design, self._design)
        sinks = self._sinks(pair, old, new)
        chance = random.Random(pair.name)
        values: Dict[Source, int] = {}
        old.start(values, chance, VECTORS)
        new.start(values, chance, VECTORS)
        for what, left, right in sinks:
            try:
                same = old.value(left) == new.value(right)
            except ValueError as error:
                raise Leak(f"{pair.name}: {what} can't be checked, since it comes of {error}") from error
            if not same:
                raise Leak(f"{pair.name}: {what} has another function than in the original")
        self._check_used(pair, new, sinks)
        return self._children(pair)

    def _check_names(self, pair: Pair) -> None:
        """Nets and instances of the open text are those of the original, or helpers."""
        wanted: Set[str] = set()
        for name, net in pair.original["netnames"].items():
            if not net.get("hide_name"):
                wanted |= {part for part, _, _ in _parts(name, len(net["bits"]))}
        wanted |= {plain(name) for name in pair.original["cells"]}
        made = {name for name, net in pair.design["netnames"].items() if not net.get("hide_name")}
        made |= {name for name, cell in pair.design["cells"].items() if not cell["type"].startswith("$")}
        for name in sorted(made - wanted):
            if not _HELPER.fullmatch(name) and not re.sub(r"(_\d+|_)$", "", name) in wanted:
                raise Leak(f"{pair.name}: {name} stands in the open text, and not in that of the original")

    def _sinks(self, pair: Pair, old: Evaluator, new: Evaluator) -> List[Tuple[str, Any, Any]]:
        """What is compared: nets, what registers store, and what instances are given."""
        sinks: List[Tuple[str, Any, Any]] = []
        for name, net in pair.original["netnames"].items():
            if net.get("hide_name") or "$" in name:
                continue
            for part, low, width in _parts(name, len(net["bits"])):
                made = pair.design["netnames"].get(part)
                if made is None:
                    raise Leak(f"{pair.name}: the net {part} is not in the text")
                if len(made["bits"]) != width:
                    raise Leak(f"{pair.name}: the net {part} has another width")
                self._initial(f"{pair.name}.{part}", net, made, low, width)
                for at in range(width):
                    sinks += self._bit(f"{part}[{at}]", old, net["bits"][low + at], new, made["bits"][at])
        for name, cell in pair.original["cells"].items():
            if cell["type"].startswith("$") and cell["type"] not in self._original:
                continue
            sinks += self._instance(name, cell, pair)
        return sinks

    def _initial(self, what: str, net: Dict[str, Any], made: Dict[str, Any], low: int, width: int) -> None:
        def digits(which: Dict[str, Any], at: int) -> str:
            text = which.get("attributes", {}).get("init", "")
            text = text.rjust(len(which["bits"]), "x")
            return str(text[len(text) - at - width : len(text) - at])

        if "init" in made.get("attributes", {}) and digits(made, 0) != digits(net, low):
            raise Leak(f"{what} has another initial value than in the open text of the original")

    def _bit(self, what: str, old: Evaluator, left: Any, new: Evaluator, right: Any) -> List[Tuple[str, Any, Any]]:
        stored, made = old.storing(left), new.storing(right)
        if (stored is None) != (made is None):
            raise Leak(f"{what} is stored in one text alone")
        if stored is None or made is None:
            if old.is_free(left):
                if not new.is_free(right):
                    raise Leak(f"{what} has a driver in the open text, and none in that of the original")
                return []
            return [(what, left, right)]
        if old.shape(stored) != new.shape(made):
            raise Leak(f"{what} is stored otherwise than in the original")
        return [(f"what {what} stores ({port})", one, new.input(made, port)) for port, one in old.inputs(stored)]

    def _instance(self, name: str, cell: Dict[str, Any], pair: Pair) -> List[Tuple[str, Any, Any]]:
        made = pair.design["cells"].get(plain(name))
        if made is None:
            raise Leak(f"{pair.name}: the instance {name} is not in the open text")
        child = self._original[cell["type"]]
        sinks: List[Tuple[str, Any, Any]] = []
        for port, bits in cell["connections"].items():
            if child["ports"][port]["direction"] != "input":
                continue
            for part, low, width in _parts(port, len(child["ports"][port]["bits"])):
                given = made["connections"].get(part, [])
                wanted = bits[low : low + width]
                if len(given) != len(wanted):
                    raise Leak(f"{pair.name}: the port {port} of {name} is connected otherwise")
                sinks += [(f"{name}.{part}[{at}]", one, other) for at, (one, other) in enumerate(zip(wanted, given))]
        return sinks

    def _check_used(self, pair: Pair, new: Evaluator, sinks: List[Tuple[str, Any, Any]]) -> None:
        """Each helper of the open text is read by something that was compared."""
        reached = new.cone([right for _, _, right in sinks])
        for name, net in pair.design["netnames"].items():
            if (
                _HELPER.fullmatch(name)
                and not net.get("hide_name")
                and not any(bit in reached for bit in net["bits"] if isinstance(bit, int))
            ):
                if any(isinstance(bit, str) or not new.is_free(bit) for bit in net["bits"]):
                    raise Leak(f"{pair.name}: nothing of the open text reads {name}")

    def _children(self, pair: Pair) -> List[Tuple[str, str]]:
        found = []
        for name, cell in pair.original["cells"].items():
            if cell["type"] in self._original:
                made = pair.design["cells"][plain(name)]["type"]
                if self._original[cell["type"]].get("attributes", {}).get("blackbox"):
                    continue
                found.append((cell["type"], made))
        return found


# ---- the whole


Netlist = Callable[[str, str, str], Dict[str, Any]]


def netlist_by(yosys: Yosys) -> Netlist:
    """Makes the netlist of a text by Yosys: of what a top module reaches, or, without one, of each module by itself."""

    def netlist(text: str, top: str, which: str) -> Dict[str, Any]:
        path, rtlil = Path(yosys.path(f"verify_{which}.v")), Path(yosys.path(f"verify_{which}.il"))
        path.write_text(text, encoding="utf-8", errors="surrogateescape")
        hierarchy = f"hierarchy -top {_escaped(top)}" if top else "hierarchy"
        yosys.run(f"read_verilog -nopp {path}; {hierarchy}; proc -noopt; write_rtlil {rtlil}")
        told = _settled(rtlil.read_text(encoding="utf-8", errors="surrogateescape"))
        rtlil.write_text(told, encoding="utf-8", errors="surrogateescape")
        yosys.run(f"read_rtlil {rtlil}; {_MEMORIES if which == 'original' else ''}write_json {path}.json")
        made: Dict[str, Any] = json.loads(Path(f"{path}.json").read_text(encoding="utf-8", errors="surrogateescape"))
        numbers = {
            format(int(digits), "b")
            for digits in re.findall(r"^ +(?:connect|assign|update) \S+ (\d+)$", told, flags=re.MULTILINE)
        }
        made["constants"] = sorted(set(re.findall(r"\d+'([01xz]+)", told)) | numbers)
        return made

    return netlist


def _settled(rtlil: str) -> str:
    """RTLIL in which cells that give memories their initial values have constants, where they name wires that are
    constant."""
    constant = dict(re.findall(r"^  connect (\$\S+) (\d+'[01xz]+|\d+)$", rtlil, flags=re.MULTILINE))

    def cell(found: "re.Match[str]") -> str:
        return re.sub(
            r"(    connect \\\w+ )(\$\S+)$",
            lambda one: one[1] + constant.get(one[2], one[2]),
            found.group(),
            flags=re.MULTILINE,
        )

    return re.sub(r"^  cell \$meminit.*?^  end$", cell, rtlil, flags=re.MULTILINE | re.DOTALL)


def _marked(text: str) -> Tuple[List[Token], List[Pragma], str]:
    """The tokens of a lowered text with a mark for each pragma, and the text of its open lines."""
    pragmas: List[Pragma] = []
    lines: List[str] = []
    kept: List[str] = []
    inside = False
    for number, line in enumerate(text.split("\n"), 1):
        found = re.match(r"\s*`pragma\b(.*)", line)
        if found:
            lines.append(f"/*loddrume-pragma {len(pragmas)}*/")
            pragmas.append(Pragma("design.v", number, found[1]))
            inside = bool(re.search(r"\bbegin\s*$", found[1])) or (
                inside and not re.search(r"\bprotect\s+end\s*$", found[1])
            )
            continue
        lines.append(line)
        if not inside:
            kept.append(line)
    return (
        [token for token in pieces("\n".join(lines), "design.v") if token.kind not in ("blank", "comment")],
        pragmas,
        "\n".join(kept),
    )


def verify(netlist: Netlist, sources: Sources, top: str, text: str, design_top: str) -> None:
    """Raises `Leak` where the lowered text shows more of envelopes than the original, or says something else in the
    open text."""
    original = cut(flat_tokens(sources.flat), sources.pragmas)
    if not original.envelopes:
        return
    tokens, pragmas, open_text = _marked(text)
    design = cut(tokens, pragmas)
    files = "|".join(re.escape(re.sub(r"[^\x20-\x7e]", "?", file)) for file in sources.texts)
    open_text = re.sub(rf"// (?:\w+(?: \w+)?: )?(?:{files}):\d+$", "", open_text, flags=re.MULTILINE)
    words = {word for name, raw in sources.texts.items() for word in _WORD.findall(_open_of(raw))} | original.words
    check_words(original, design, open_text, words)
    _leave_out_same(original, design)
    check_envelopes(original, design)
    if top in original.closed:
        if design_top not in design.closed:
            raise Leak(f"the top module {top} stands in an envelope, and in none in the text")
        return
    old = netlist(original.text, top, "original")
    new = netlist(design.text, design_top, "design")
    numbers = [format(int(word.replace("_", "")), "b") for word in original.words if re.fullmatch(r"\d[\d_]*", word)]
    check_constants({*old["constants"], *numbers}, open_text)
    comparison = Comparison(old, new, original.free, design.free)
    found = comparison.compare(top, design_top)
    left = sorted(design.open_modules - found)
    if left:
        for netlist_of, modules, text_of in (
            ("original", old["modules"], original.text),
            ("design", new["modules"], design.text),
        ):
            for name, data in netlist(text_of, "", netlist_of)["modules"].items():
                modules.setdefault(name, data)
    for name in left:
        same = next((module for module in old["modules"] if plain(module) == name), None)
        if same is None or same in original.closed:
            raise Leak(f"the module {name} stands in the open text, and no open instance makes it")
        found |= comparison.compare(same, name)


def _leave_out_same(original: Cut, design: Cut) -> None:
    """Leaves procedures and assignments out of modules that have the same text in both: they need no comparison, and
    Yosys may not read them."""
    old, new = (Splitter(tokens_of(one.text, "design.v"), []).split().modules for one in (original, design))
    same = [name for name in old if name in new and _texts(old[name]) == _texts(new[name])]
    if not same:
        return
    for one, modules in ((original, old), (design, new)):
        one.text = "\n".join(
            _spell_module(module, module.name in same, module.name in one.closed) for module in modules.values()
        )


def _texts(module: Module) -> List[str]:
    return [token.text for token in module.tokens]


def _spell_module(module: Module, leaves_out: bool, is_closed: bool) -> str:
    items = [item for item in module.items if not leaves_out or item.kind not in ("always", "initial", "assign")]
    tokens = module.tokens
    if leaves_out:
        tokens = [*module.header, *(token for item in items for token in item.tokens), module.tokens[-1]]
    return ("(* blackbox *) " if is_closed else "") + " ".join(_spelled(token) for token in tokens)


def _open_of(raw: str) -> str:
    """A file's text, comments too, without the lines inside envelopes."""
    kept, inside = [], False
    for line in raw.split("\n"):
        found = re.search(r"`pragma\s+protect\b(.*)", line)
        if found:
            inside = bool(re.search(r"\bbegin\b", re.sub(r'"[^"]*"', "", found[1]))) or (
                inside and not re.search(r"\bend\b", re.sub(r'"[^"]*"', "", found[1]))
            )
        elif not inside:
            kept.append(line)
    return "\n".join(kept)

"""Reads a module as docs/FORMATS.md has it, and tells the first construct that the server can't read."""

from __future__ import annotations

import re
from dataclasses import dataclass, field
from typing import Callable, Dict, List, NamedTuple, Optional, Set, Tuple

from .names import KEYWORDS
from .tokens import Token

USED = frozenset(
    "module endmodule input output wire reg localparam assign initial always begin end if else case casez endcase "
    "default while for forever wait posedge negedge or".split()
)
_BINARY = [
    ["||"],
    ["&&"],
    ["|"],
    ["^", "~^", "^~"],
    ["&"],
    ["==", "!=", "===", "!=="],
    ["<", "<=", ">", ">="],
    ["<<", ">>"],
    ["+", "-"],
    ["*"],
]
_UNARY = ("+", "-", "!", "~", "&", "~&", "|", "~|", "^", "~^", "^~")
_ARITHMETIC = ("*", "+", "-", "&", "|", "^", "~^", "^~")
DEEPEST = 64
# The ports of a module that is not known yet: any connection is read.
ANY_PORTS: Dict[str, str] = {"": "any"}
WIDEST = 64


class Left(Exception):
    """A construct that the server can't read."""

    def __init__(self, token: Token, construct: str) -> None:
        self.token = token
        self.construct = construct
        super().__init__(f"{construct} at {token.file}:{token.line}")


class Kind(NamedTuple):
    """What a name is: `net`, `reg`, `localparam` or `instance`, its direction as a port, and its bounds."""

    what: str
    direction: str
    bounds: Optional[Tuple[int, int]]

    @property
    def width(self) -> int:
        return self.bounds[0] - self.bounds[1] + 1 if self.bounds else 1


class Value(NamedTuple):
    """The size of an expression, whether it is signed, and whether it is a literal alone without a size."""

    width: int
    signed: bool = False
    unsized: bool = False


@dataclass
class Reading:
    """What was read of a module."""

    kinds: Dict[str, Kind] = field(default_factory=dict)
    ports: List[str] = field(default_factory=list)
    instances: Dict[str, str] = field(default_factory=dict)


class Profile:
    """A reader of one module.

    `children` gives the ports of a module by name: the direction of each, in order, and whether it is too wide.
    """

    def __init__(
        self,
        tokens: List[Token],
        children: Callable[[str], Optional[Dict[str, str]]],
        known: Optional[Dict[str, Kind]] = None,
    ) -> None:
        self._tokens = tokens
        # Names may be used before they are declared, so a text is read twice: the second time all names are known.
        self._known_names = known
        self._at = 0
        self._depth = 0
        self._children = children
        self._driven: Set[str] = set()
        self.reading = Reading()
        self._later: List[Callable[[], None]] = []

    def read(self) -> Reading:
        """Reads the whole module. Raises `Left`."""
        self._expect("module")
        self._name()
        if self._is("("):
            self._header()
        self._expect(";")
        while not self._is("endmodule"):
            self._item()
        self._take()
        for check in self._later:
            check()
        if self._known_names is None:
            return Profile(self._tokens, self._children, self.reading.kinds).read()
        return self.reading

    # ---- tokens

    def _here(self) -> Token:
        return self._tokens[min(self._at, len(self._tokens) - 1)]

    def _is(self, *words: str) -> bool:
        return self._at < len(self._tokens) and self._here().kind in ("name", "op") and self._here().text in words

    def _take(self) -> Token:
        token = self._here()
        self._at += 1
        return token

    def _left(self, construct: str = "") -> Left:
        token = self._here()
        return Left(token, construct or f"`{token.text}`")

    def _expect(self, word: str) -> Token:
        if not self._is(word):
            raise self._left()
        return self._take()

    def _name(self) -> Token:
        token = self._here()
        if token.kind != "name" or token.text in USED or token.text in KEYWORDS or not token.text.isascii():
            raise self._left("an escaped name" if token.kind == "escaped" else "")
        return self._take()

    def _deeper(self) -> None:
        self._depth += 1
        if self._depth > DEEPEST:
            raise self._left("something nested more than 64 deep")

    # ---- declarations

    def _declare(self, token: Token, kind: Kind) -> None:
        if token.text in self.reading.kinds:
            raise Left(token, f"a second declaration of {token.text}")
        self.reading.kinds[token.text] = kind

    def _range(self) -> Optional[Tuple[int, int]]:
        if not self._is("["):
            return None
        opening = self._take()
        high = self._whole()
        self._expect(":")
        low = self._whole()
        self._expect("]")
        if high < low or high > 65535 or high - low + 1 > WIDEST:
            raise Left(opening, "a range that ascends" if high < low else "a vector of over 64 bits")
        return high, low

    def _whole(self) -> int:
        token = self._here()
        following = self._tokens[self._at + 1] if self._at + 1 < len(self._tokens) else token
        if token.kind != "number" or not re.fullmatch(r"\d[\d_]*", token.text) or following.kind == "base":
            raise self._left("a bound that is no number" if token.kind != "number" else "")
        value = int(token.text.replace("_", ""))
        if value >= 1 << 31:
            raise self._left("a number of 2^31 or more")
        self._take()
        return value

    def _header(self) -> None:
        self._take()
        if self._is(")"):
            raise self._left("a header with empty parentheses")
        if not self._is("input", "output"):
            raise self._left("a port header that is a list of names")
        kind = Kind("net", "", None)
        while True:
            if self._is("input", "output"):
                direction = self._take().text
                what = "net"
                if self._is("wire", "reg"):
                    if self._is("reg") and direction == "input":
                        raise self._left()
                    what = "reg" if self._take().text == "reg" else "net"
                kind = Kind(what, direction, self._range())
            token = self._name()
            self._declare(token, kind)
            self.reading.ports.append(token.text)
            if self._is(")"):
                self._take()
                return
            self._expect(",")

    def _item(self) -> None:
        if self._is("wire", "reg"):
            self._nets()
        elif self._is("localparam"):
            self._take()
            self._list(self._localparam)
        elif self._is("assign"):
            self._take()
            self._list(self._assign)
        elif self._is("initial", "always"):
            self._take()
            self._statement()
        else:
            module = self._name()
            if self._is("#"):
                raise self._left("parameters of an instance")
            self._list(lambda: self._instance(module))

    def _list(self, one: Callable[[], None]) -> None:
        one()
        while self._is(","):
            self._take()
            one()
        self._expect(";")

    def _nets(self) -> None:
        what = "reg" if self._take().text == "reg" else "net"
        bounds = self._range()

        def one() -> None:
            token = self._name()
            self._declare(token, Kind(what, "", bounds))
            if self._is("["):
                raise self._left("a memory")
            if self._is("="):
                if what == "reg":
                    raise self._left("a reg with an initial value")
                self._take()
                self._drive(token)
                self._expression()

        self._list(one)

    def _localparam(self) -> None:
        token = self._name()
        self._expect("=")
        size = self._here()
        value = self._literal()
        if size.kind != "number" or value.unsized:
            raise Left(size, "a localparam without a size")
        self._declare(token, Kind("localparam", "", (value.width - 1, 0)))

    def _assign(self) -> None:
        token = self._here()
        if self._is("{"):
            raise self._left("a concatenation that is assigned")
        token = self._name()
        if self._is("["):
            raise self._left("a continuous assignment to a part of a net")
        self._expect("=")
        self._drive(token)
        self._expression()

    def _drive(self, token: Token) -> None:
        """Notes a driver of a whole net."""
        if token.text in self._driven:
            raise Left(token, f"a second driver of {token.text}")
        self._driven.add(token.text)

        def check() -> None:
            kind = self.reading.kinds.get(token.text)
            if kind is None or kind.what != "net" or kind.direction == "input":
                raise Left(token, f"an assignment to {token.text}, which is no net that may be driven")

        self._later.append(check)

    def _instance(self, module: Token) -> None:
        name = self._name()
        ports = self._children(module.text)
        if ports is None:
            raise Left(
                module, f"an instance of {module.text}, whose ports are wider than 64 bits or can't be connected so"
            )
        self._declare(name, Kind("instance", "", None))
        self.reading.instances[name.text] = module.text
        if self._is("["):
            raise self._left("an array of instances")
        self._expect("(")
        order, at = list(ports), 0
        while not self._is(")"):
            if ports is ANY_PORTS and not self._is("."):
                if not self._is(","):
                    self._expression()
            elif self._is("."):
                self._take()
                port = self._here().text
                self._take()
                self._expect("(")
                self._connection(port, ports, ")")
                self._expect(")")
            else:
                if at >= len(order):
                    raise self._left("a connection too many")
                self._connection(order[at], ports, ",", ")")
                at += 1
            if not self._is(")"):
                self._expect(",")
        self._take()

    def _connection(self, port: str, ports: Dict[str, str], *ends: str) -> None:
        if ports is ANY_PORTS:
            if not self._is(*ends):
                self._expression()
            return
        if port not in ports:
            raise self._left(f"a connection of {port}, which is no port")
        if self._is(*ends):
            return
        if ports[port] == "output":
            token = self._here()
            if self._tokens[self._at + 1].text not in (")", ",") or token.kind != "name":
                raise self._left("an output connected to what is no whole net")
            self._drive(self._name())
        else:
            self._expression()

    # ---- statements

    def _statement(self) -> None:
        self._deeper()
        if self._is(";"):
            self._take()
        elif self._is("begin"):
            self._take()
            if self._is(":"):
                raise self._left("a named block")
            while not self._is("end"):
                self._statement()
            self._take()
        elif self._is("#"):
            self._take()
            self._delay()
            self._statement()
        elif self._is("@"):
            self._take()
            self._event()
            self._statement()
        elif self._is("if", "while", "wait"):
            self._conditional()
        elif self._is("case", "casez"):
            self._case()
        elif self._is("forever"):
            self._take()
            self._statement()
        elif self._is("for"):
            self._for()
        elif self._here().kind == "system":
            self._finish()
        else:
            self._assignment()
        self._depth -= 1

    def _conditional(self) -> None:
        word = self._take().text
        self._expect("(")
        self._expression()
        self._expect(")")
        self._statement()
        if word == "if" and self._is("else"):
            self._take()
            self._statement()

    def _delay(self) -> None:
        if self._is("("):
            self._take()
            self._whole()
            self._expect(")")
        else:
            self._whole()

    def _event(self) -> None:
        if self._is("*") or re.sub(r"\s", "", self._here().text) == "(*)":
            self._take()
            return
        if not self._is("("):
            self._known(self._name(), ("net", "reg"))
            return
        self._take()
        while True:
            if self._is("posedge", "negedge"):
                self._take()
            self._known(self._name(), ("net", "reg"))
            if self._is(")"):
                self._take()
                return
            if not self._is("or", ","):
                raise self._left("an event of an expression")
            self._take()

    def _case(self) -> None:
        self._take()
        self._expect("(")
        self._expression()
        self._expect(")")
        defaults = choices = 0
        while not self._is("endcase"):
            choices += 1
            if self._is("default"):
                defaults += 1
                self._take()
                if self._is(":"):
                    self._take()
            else:
                self._expression()
                while self._is(","):
                    self._take()
                    self._expression()
                self._expect(":")
            self._statement()
        if not choices or defaults > 1:
            raise self._left("a case without choices, or with two defaults")
        self._take()

    def _for(self) -> None:
        self._take()
        self._expect("(")
        self._target()
        self._expect("=")
        self._expression()
        self._expect(";")
        self._expression()
        self._expect(";")
        self._target()
        self._expect("=")
        self._expression()
        self._expect(")")
        self._statement()

    def _finish(self) -> None:
        if self._here().text != "$finish":
            raise self._left()
        self._take()
        if self._is("("):
            self._take()
            self._whole()
            self._expect(")")
        self._expect(";")

    def _assignment(self) -> None:
        if self._is("{"):
            raise self._left("a concatenation that is assigned")
        self._target()
        if self._is("<="):
            self._take()
            if self._is("#"):
                self._take()
                self._delay()
        else:
            self._expect("=")
            if self._is("#", "@"):
                raise self._left("a delay within a blocking assignment")
        self._expression()
        self._expect(";")

    def _target(self) -> None:
        token = self._name()
        self._known(token, ("reg",))
        if self._is("["):
            self._select(token)

    # ---- expressions

    def _known(self, token: Token, whats: Tuple[str, ...]) -> None:
        def check() -> None:
            kind = self.reading.kinds.get(token.text)
            if kind is None or kind.what not in whats:
                raise Left(token, f"{token.text}, which is no {' or '.join(whats)} of the module")

        self._later.append(check)

    def _expression(self) -> Value:
        self._deeper()
        value = self._binary(0)
        if self._is("?"):
            self._take()
            yes = self._expression()
            self._expect(":")
            no = self._expression()
            value = Value(max(yes.width, no.width), yes.signed and no.signed)
        self._depth -= 1
        return value

    def _binary(self, level: int) -> Value:
        if level == len(_BINARY):
            return self._unary()
        left = self._binary(level + 1)
        while self._is(*_BINARY[level]):
            operator = self._take()
            self._deeper()
            right = self._binary(level + 1)
            self._depth -= 1
            left = self._joined(operator, left, right)
        if self._is("/", "%", "**", "<<<", ">>>"):
            raise self._left(f"the operator {self._here().text}")
        return left

    def _joined(self, operator: Token, left: Value, right: Value) -> Value:
        if operator.text in ("<", "<=", ">", ">=") and left.signed and right.signed:
            raise Left(operator, "a relation of two signed operands")
        if operator.text in _ARITHMETIC:
            return Value(max(left.width, right.width), left.signed and right.signed)
        if operator.text in ("<<", ">>"):
            return Value(left.width, left.signed)
        return Value(1)

    def _unary(self) -> Value:
        if not self._is(*_UNARY):
            return self._primary()
        operator = self._take().text
        self._deeper()
        value = self._unary()
        self._depth -= 1
        return Value(value.width, value.signed) if operator in ("+", "-", "~") else Value(1)

    def _primary(self) -> Value:
        token = self._here()
        if token.kind in ("number", "base"):
            return self._literal()
        if self._is("("):
            self._take()
            value = self._expression()
            self._expect(")")
            return Value(value.width, value.signed)
        if self._is("{"):
            return self._braces()
        token = self._name()
        self._known(token, ("net", "reg", "localparam"))
        if self._is("["):
            return self._select(token)
        if self._is("(", "."):
            raise self._left("a call of a function" if self._is("(") else "a hierarchical name")
        return Value(self._width_of(token))

    def _width_of(self, token: Token) -> int:
        kind = self.reading.kinds.get(token.text) if self._known_names is None else self._known_names.get(token.text)
        return kind.width if kind else 1

    def _select(self, token: Token) -> Value:
        opening = self._take()
        following = self._tokens[self._at + 1].text
        if self._here().kind == "number" and following == ":":
            high = self._whole()
            self._take()
            low = self._whole()
            self._expect("]")
            bounds = self._bounds(token)
            if high < low or high > bounds[0] or low < bounds[1]:
                raise Left(opening, "a part-select that is not inside the range")
            return Value(high - low + 1)
        self._expression()
        if not self._is("]"):
            raise self._left("a part-select by +: or -:" if self._is("+", "-") else "")
        self._take()
        self._bounds(token)
        return Value(1)

    def _bounds(self, token: Token) -> Tuple[int, int]:
        if self._known_names is None:
            return 65535, 0
        kind = self._known_names.get(token.text)
        if kind is None or kind.bounds is None:
            raise Left(token, f"a select of {token.text}, which has no range")
        return kind.bounds

    def _braces(self) -> Value:
        opening = self._take()
        times = 1
        if self._here().kind == "number" and self._tokens[self._at + 1].text == "{":
            times = self._whole()
            self._take()
            value = self._parts()
            self._expect("}")
        else:
            value = self._parts()
        if not times or times * value > WIDEST:
            raise Left(opening, "a concatenation of over 64 bits" if times else "a replication of 0")
        return Value(times * value)

    def _parts(self) -> int:
        width = 0
        while True:
            token = self._here()
            value = self._expression()
            if value.unsized:
                raise Left(token, "a number without a size in braces")
            width += value.width
            if self._is("}"):
                self._take()
                return width
            self._expect(",")

    def _literal(self) -> Value:
        token = self._take()
        if token.kind == "base":
            return self._based(token, None)
        if not re.fullmatch(r"\d[\d_]*", token.text):
            raise Left(token, "a real number")
        value = int(token.text.replace("_", ""))
        if self._here().kind == "base":
            if not 1 <= value <= WIDEST:
                raise Left(token, "a literal of over 64 bits")
            return self._based(self._take(), value)
        if value >= 1 << 31:
            raise Left(token, "a number of 2^31 or more")
        return Value(32, True, True)

    def _based(self, token: Token, size: Optional[int]) -> Value:
        found = re.fullmatch(r"'\s*([sS]?)([bodhBODH])\s*(.*)", token.text, re.DOTALL)
        digits = found[3].replace("_", "") if found else ""
        if not found or found[1]:
            raise Left(token, "a signed literal")
        base = {"b": 2, "o": 8, "d": 10, "h": 16}[found[2].lower()]
        unknown = bool(re.search("[xXzZ?]", digits))
        if unknown and (base == 10 or size is None):
            raise Left(token, "a literal with unknown digits and no size")
        try:
            value = 0 if unknown else int(digits, base)
            int(re.sub("[xXzZ?]", "0", digits), base)
        except ValueError as error:
            raise Left(token, "a literal with digits of another base") from error
        if size is None and value >= 1 << 32:
            raise Left(token, "a literal of 2^32 or more")
        return Value(size or 32, False, size is None)

#!/usr/bin/env python3
"""Makes the file data/expressions.cases: a Verilog module that assigns random expressions, and what Icarus Verilog computes of it.

Run it in this folder: ./make_expressions.py. It wants iverilog and vvp on the path (Debian's package iverilog, version 11:
apt-get update && apt-get install -y iverilog). The seed is fixed, so that it makes the same files again.

The module has source regs s0, s1, .., which are given new literals again and again, and target regs r0, r1, ..: each is
assigned one or more random expressions, as a whole, by a bit or by a part. The script of the case reads each target after
the run, and its last value, as vvp prints it, is what it must be told.

Each assignment is also evaluated here, by IEEE Std 1364-2005, clause 5, from the values that vvp showed just before it.
An assignment on which the two differ is replaced by another and counted, where a known departure of Icarus is the reason:

- `?:` with an unknown condition keeps a z that both arms have, where the standard's table says x (5.1.13);
- of an index the lowest 32 bits count, where one with a 1 above them is out of range and one with an x or z there unknown: x is
  read, and nothing is written (5.2.1).

Programs of make_programs.py have one more: a constant 0 that is shifted by an unknown bit of a localparam stays 0, where the
standard says x (5.1.12).

Any other difference ends the script, with the case.

Signed operands: the only ones are decimal numbers without a base, below 2^31. They have 32 bits of which the greatest is
0, so that their extension by the sign (5.5.2) is the same as by zeros; and an operator on them, as the minus of -1,
is computed at the size of its context, so that nothing signed is extended after an operator. So all operands are
extended by zeros here. Relational operators with two signed operands, where the sign counts, are not made.
"""

import random
import re
import subprocess
import tempfile
from collections import Counter
from collections.abc import Callable
from dataclasses import dataclass

SEED = 1364
ASSIGNMENTS = 6400  # of a random expression
SOURCES = 24
MIXED = 6  # source regs, the last ones, with many x and z
ROUND = 40  # assignments before source regs get new values
LIMIT = 64  # bits of a vector, a literal and braces
GREATEST_INDEX = 65535
LONGEST = 240  # characters of an expression
# Departures of Icarus.
KEEPS_Z, CUTS_INDEX, SHIFTS_NOTHING = "merge of two z", "index of over 32 bits", "constant 0 shifted by a bit of a localparam"

# How tightly operators bind (table 5-4): 0 is ?:, those of one operand 11.
LEVELS = {"*": 10, "+": 9, "-": 9, "<<": 8, ">>": 8, "<": 7, "<=": 7, ">": 7, ">=": 7, "==": 6, "!=": 6, "===": 6, "!==": 6,
          "&": 5, "^": 4, "~^": 4, "^~": 4, "|": 3, "&&": 2, "||": 1}
CHOICE, UNARY, PRIMARY = 0, 11, 12
SHIFTS = ["<<", ">>"]
RELATIONS = ["<", "<=", ">", ">="]
EQUALITIES = ["==", "!=", "===", "!=="]
JUNCTIONS = ["&&", "||"]
ALIKE = ["+", "-", "~"]  # operators of one operand, as wide as that
REDUCTIONS = ["!", "&", "~&", "|", "~|", "^", "~^", "^~"]


# ---- values: strings of the digits 0, 1, x and z, greatest bit first

def resize(digits, size):
    return digits[-size:].rjust(size, "0")


def is_known(digits):
    return not set(digits) & {"x", "z"}


def of_number(number, size):
    return format(number % 2**size, f"0{size}b")


def negation(bit):
    return {"0": "1", "1": "0"}.get(bit, "x")


def conjunction(a, b):
    return "0" if "0" in (a, b) else "1" if a == b == "1" else "x"


def disjunction(a, b):
    return negation(conjunction(negation(a), negation(b)))


def difference(a, b):
    return "x" if not is_known(a + b) else "1" if a != b else "0"


def bitwise(function, a, b):
    return "".join(function(x, y) for x, y in zip(a, b, strict=True))


def fold(function, digits):
    """A reduction (5.1.11)."""
    result = resize(digits[0], 1)
    for bit in digits[1:]:
        result = function(result, bit)
    return result if is_known(result) else "x"


def truth(digits):
    """1 where some bit is 1, 0 where all are 0, else x (5.1.9)."""
    return fold(disjunction, digits)


def arithmetic(operator, a, b):
    """x in all bits where some bit of an operand is unknown (5.1.5)."""
    if not is_known(a + b):
        return "x" * len(a)
    a, b, size = int(a, 2), int(b, 2), len(a)
    return of_number({"+": a + b, "-": a - b, "*": a * b}[operator], size)


def combined(operator, a, b):
    """An operator on two operands of one size (5.1.5, 5.1.10)."""
    if operator in "+-*":
        return arithmetic(operator, a, b)
    if operator == "&":
        return bitwise(conjunction, a, b)
    if operator == "|":
        return bitwise(disjunction, a, b)
    result = bitwise(difference, a, b)
    return result if operator == "^" else "".join(map(negation, result))


def shifted(operator, digits, amount):
    """The amount is unsigned; an unknown one gives x in all bits (5.1.12)."""
    if not is_known(amount):
        return "x" * len(digits)
    count = min(int(amount, 2), len(digits))
    if operator == "<<":
        return digits[count:] + "0" * count
    return "0" * count + digits[:len(digits) - count]


def related(operator, a, b):
    """x where some bit of an operand is unknown (5.1.7)."""
    if not is_known(a + b):
        return "x"
    a, b = int(a, 2), int(b, 2)
    return str(int({"<": a < b, "<=": a <= b, ">": a > b, ">=": a >= b}[operator]))


def equality(operator, a, b):
    """0 of == where two known bits differ, else x with an unknown bit; === compares x and z too (5.1.8)."""
    if operator in ("===", "!=="):
        return str(int((a == b) == (operator == "===")))
    differing = fold(disjunction, bitwise(difference, a, b))
    return differing if operator == "!=" else negation(differing)


def reduced(operator, digits):
    if operator in ("&", "~&"):
        result = fold(conjunction, digits)
    elif operator in ("|", "~|", "!"):
        result = fold(disjunction, digits)
    else:
        result = fold(difference, digits)
    return result if operator in ("&", "|", "^") else negation(result)


def merged(a, b, kept):
    """`?:` with an unknown condition: of the bits that are alike some kinds are kept, the standard's are 0 and 1 (5.1.13)."""
    return "".join(x if x == y and x in kept else "x" for x, y in zip(a, b, strict=True))


def filled(digits, size):
    """The digits of a literal, cut to its size or filled there, with x or z where the first is one (3.5.1)."""
    pad = digits[0] if digits[0] in "xz" else "0"
    return digits[-size:].rjust(size, pad)


# ---- expressions

@dataclass
class Environment:
    """The values of regs, and the departures of Icarus that are taken for granted."""
    values: dict[str, str]
    departures: tuple[str, ...] = ()

    def bit(self, reg, index):
        """Where the bit of an index stands among the digits of a reg; none where there is none (5.2.1)."""
        index = index.own(self)
        if CUTS_INDEX in self.departures:
            index = index[-32:]
        place = reg.high() - int(index, 2) if is_known(index) else -1
        return place if 0 <= place < reg.width else None

    def kept(self):
        """The bits that a merge keeps."""
        return "01z" if KEEPS_Z in self.departures else "01"


@dataclass
class Reg:
    name: str
    width: int
    low: int
    is_scalar: bool = False

    def declaration(self):
        return f"reg {self.name};" if self.is_scalar else f"reg [{self.high()}:{self.low}] {self.name};"

    def high(self):
        return self.low + self.width - 1


@dataclass
class Node:
    """An expression: how tightly it binds, its own size and sign, and its value in a context of a size (5.4.1, 5.5.1)."""
    text: str
    level: int
    size: int
    is_signed: bool
    value: Callable[[Environment, int], str]

    def own(self, environment):
        """The value at its own size."""
        return self.value(environment, self.size)


def grouped(node, level):
    """The text where an operand must bind at least so tightly; with parentheses also where none are needed."""
    if node.level < level or random.random() < 0.08:
        return f"({node.text})"
    return node.text


def between(left, operator, right):
    """An operator between two texts, often without blanks where none are needed."""
    if (right[0].isalnum() or right[0] == "(") and random.random() < 0.5:
        return f"{left}{operator}{right}"
    return f"{left} {operator} {right}"


def constant(text, digits, is_signed=False):
    return Node(text, PRIMARY, len(digits), is_signed, lambda e, size: resize(digits, size))


def whole(reg):
    return Node(reg.name, PRIMARY, reg.width, False, lambda e, size: resize(e.values[reg.name], size))


def part_select(reg, high, low):
    first, end = reg.high() - high, reg.high() - low + 1
    return Node(f"{reg.name}[{high}:{low}]", PRIMARY, high - low + 1, False,
                lambda e, size: resize(e.values[reg.name][first:end], size))


def bit_select(reg, index):
    """x where the index is unknown or out of range (5.2.1)."""
    def value(e, size):
        place = e.bit(reg, index)
        return resize("x" if place is None else e.values[reg.name][place], size)
    return Node(f"{reg.name}[{index.text}]", PRIMARY, 1, False, value)


def unary(operator, a):
    text = operator + random.choice(["", "", "", " "]) + grouped(a, PRIMARY)
    if operator in REDUCTIONS:
        return Node(text, UNARY, 1, False, lambda e, size: resize(reduced(operator, a.own(e)), size))

    def value(e, size):
        digits = a.value(e, size)
        if operator == "~":
            return "".join(map(negation, digits))
        return digits if operator == "+" else arithmetic("-", "0" * size, digits)
    return Node(text, UNARY, a.size, a.is_signed, value)


def without_literals(text):
    return re.sub(r"'\s*[bdoh]\s*[0-9a-fxz?_]+", "", text, flags=re.IGNORECASE)


def is_constant(text):
    """Of an expression: it reads nothing but localparams, whose names begin with P."""
    return all(name[0] == "P" for name in re.findall(r"[A-Za-z]\w*", without_literals(text)))


def selects_constant(text):
    """Of an expression: it selects a bit or a part of a localparam."""
    return re.search(r"\bP\w*\[", without_literals(text)) is not None


def binary(operator, a, b):
    level = LEVELS[operator]
    text = between(grouped(a, level), operator, grouped(b, level + 1))
    common = max(a.size, b.size)
    if operator in SHIFTS:
        def value(e, size):
            digits, amount = a.value(e, size), b.own(e)
            if SHIFTS_NOTHING in e.departures and not is_known(amount) and is_constant(a.text) and selects_constant(b.text):
                return "0" * size if set(digits) == {"0"} else "x" * size
            return shifted(operator, digits, amount)
        return Node(text, level, a.size, a.is_signed, value)
    if operator in RELATIONS + EQUALITIES:
        function = related if operator in RELATIONS else equality
        return Node(text, level, 1, False,
                    lambda e, size: resize(function(operator, a.value(e, common), b.value(e, common)), size))
    if operator in JUNCTIONS:
        function = conjunction if operator == "&&" else disjunction
        return Node(text, level, 1, False, lambda e, size: resize(function(truth(a.own(e)), truth(b.own(e))), size))
    return Node(text, level, common, a.is_signed and b.is_signed,
                lambda e, size: combined(operator, a.value(e, size), b.value(e, size)))


def choice(condition, a, b):
    def value(e, size):
        chosen = truth(condition.own(e))
        if chosen == "x":
            return merged(a.value(e, size), b.value(e, size), e.kept())
        return (a if chosen == "1" else b).value(e, size)
    text = f"{grouped(condition, CHOICE + 1)} ? {grouped(a, CHOICE)} : {grouped(b, CHOICE)}"
    return Node(text, CHOICE, max(a.size, b.size), a.is_signed and b.is_signed, value)


def braces(parts, count=None):
    """A concatenation, or with a count a replication (5.1.14)."""
    text = "{" + ", ".join(grouped(p, CHOICE) for p in parts) + "}"
    text = text if count is None else "{%d%s}" % (count, text)
    times = 1 if count is None else count
    return Node(text, PRIMARY, times * sum(p.size for p in parts), False,
                lambda e, size: resize("".join(p.own(e) for p in parts) * times, size))


# ---- random literals and regs

BASES = {"b": (1, "01"), "o": (3, "01234567"), "h": (4, "0123456789abcdef")}  # bits of a digit, digits


def random_width():
    return random.choice([1, 2, 8, 32, 33, 63, 64]) if random.random() < 0.2 else random.randint(1, LIMIT)


def written(digits):
    """Digits in either case, with some underscores after the first."""
    digits = random.choice([digits, digits, digits.upper()])
    return digits[0] + "".join(random.choice(["_", "", "", "", "", "", "", ""]) + d for d in digits[1:])


def base_mark(letter):
    return "'" + random.choice([letter, letter, letter, letter.upper()]) + random.choice(["", "", "", "", "", " "])


def digit_bits(letter, digit):
    """The bits of a digit; ? is z."""
    width = BASES[letter][0]
    digit = "z" if digit == "?" else digit
    return digit * width if digit in "xz" else of_number(int(digit, 16), width)


def random_digits(letter, count):
    """Known digits, or some x and z among them, or many."""
    known = BASES[letter][1]
    alphabet = random.choice([known, known, known, known * (40 // len(known)) + "xz?", "01xz?", random.choice("01xz?")])
    return "".join(random.choice(alphabet) for _ in range(count))


def digit_count(letter, size):
    """As many as the size wants, or fewer, or more."""
    width = BASES[letter][0]
    full = (size + width - 1) // width
    kind = random.random()
    if kind < 0.6:
        return full
    return random.randint(1, full) if kind < 0.85 else full + random.randint(1, 3)


def sized_literal(size=None):
    size = size or random_width()
    mark = str(size) + random.choice(["", "", "", "", "", " "])
    if random.random() < 0.15:
        number = random.getrandbits(random.randint(1, size + 2))
        return constant(mark + base_mark("d") + written(str(number)), of_number(number, size))
    letter = random.choice("boh" if size <= 24 else "oh" if size <= 48 else "h")
    digits = random_digits(letter, digit_count(letter, size))
    bits = filled("".join(digit_bits(letter, d) for d in digits), size)
    return constant(mark + base_mark(letter) + written(digits), bits)


def mixed_literal(size):
    """Bits of all kinds."""
    digits = "".join(random.choice("01xz?") for _ in range(size))
    return constant(f"{size}'b{digits}", digits.replace("?", "z"))


def unknown_literal():
    """Neither true nor false."""
    digits = random.choice(["x", "z", "0x", "x0", "z0", "0xz"])
    return constant(f"{len(digits)}'b{digits}", digits)


def sized_number(size, number):
    return constant(f"{size}'{random.choice('dD')}{number}", of_number(number, size))


def unsized_literal():
    number = random.getrandbits(random.choice([1, 3, 6, 16, 32]))
    letter = random.choice("bodh" if number < 256 else "odh")
    digits = format(number, letter.replace("h", "x"))
    return constant(base_mark(letter) + written(digits), of_number(number, 32))


def plain_number(number=None):
    if number is None:
        number = random.getrandbits(random.choice([1, 2, 4, 7, 16, 31]))
    return constant(written(str(number)), of_number(number, 32), is_signed=True)


def random_reg(name):
    """A reg of a random range, or a scalar."""
    if random.random() < 0.06:
        return Reg(name, 1, 0, is_scalar=True)
    width = random_width()
    highest = GREATEST_INDEX - width + 1
    low = random.choice([0, 0, random.randint(1, 40), random.randint(1, highest), random.choice([1, highest])])
    return Reg(name, width, low)


def vectors(regs):
    return [r for r in regs if not r.is_scalar]


def random_part(reg):
    low = random.randint(reg.low, reg.high())
    return random.randint(low, reg.high()), low


# ---- random expressions

@dataclass
class Maker:
    """Makes expressions over regs: the sources, and some targets that are read now and then. Within braces nothing is
    unsized, since Icarus refuses operators on literals without a size there."""
    sources: list[Reg]
    targets: list[Reg]

    def reg(self):
        return random.choice(self.targets if self.targets and random.random() < 0.15 else self.sources)

    def vector(self):
        return random.choice(vectors(self.sources + self.targets[-8:]))

    def leaf(self, is_within):
        kind = random.random()
        if kind < 0.45:
            return whole(self.reg())
        if kind < 0.58:
            reg = self.vector()
            return part_select(reg, *random_part(reg))
        if kind < 0.7:
            reg = self.vector()
            return bit_select(reg, self.index(reg, 0, is_within))
        if kind < 0.88 or is_within:
            return sized_literal()
        return unsized_literal() if kind < 0.93 else plain_number()

    def index(self, reg, depth, is_within):
        """An index: mostly one that is in the range of a reg, or close to it."""
        kind = random.random()
        number = random.randint(max(0, reg.low - 1), min(GREATEST_INDEX, reg.high() + 1))
        if kind < 0.4 and not is_within:
            return plain_number(number)
        if kind < 0.6:
            return sized_number(random.randint(16, 32), number)
        if kind < 0.8:
            step = braces([whole(random.choice([r for r in self.sources if r.width < 8])), sized_number(2, random.randrange(4))])
            return binary(random.choice("+-^"), sized_number(16, number), step)
        return self.inner(depth, is_within) if depth else whole(self.reg())

    def inner(self, depth, is_within=False):
        """An expression so deep."""
        if depth == 0:
            return self.leaf(is_within)
        make = random.choice([self.unary, self.unary, self.unary, self.binary, self.binary, self.binary, self.binary, self.binary,
                              self.choice, self.choice, self.braces, self.select])
        return make(depth, is_within)

    def other(self, depth, is_within):
        """A further operand, not so deep."""
        return self.inner(random.randint(0, min(depth - 1, 2)), is_within)

    def unary(self, depth, is_within):
        return unary(random.choice(ALIKE * 2 + REDUCTIONS), self.inner(depth - 1, is_within))

    def binary(self, depth, is_within):
        operator = random.choice(list(LEVELS))
        a, b = self.inner(depth - 1, is_within), self.other(depth, is_within)
        if operator in SHIFTS and random.random() < 0.7:
            return binary(operator, a, self.amount(a.size, is_within))
        if operator in EQUALITIES and random.random() < 0.2:
            b = a
        if random.random() < 0.4:
            a, b = b, a
        if operator in RELATIONS and a.is_signed and b.is_signed:
            b = sized_literal()
        return binary(operator, a, b)

    def amount(self, size, is_within):
        """An amount of a shift that leaves something of it."""
        number = random.randint(0, size)
        kind = random.random()
        if kind < 0.4 and not is_within:
            return plain_number(number)
        if kind < 0.6:
            return sized_number(random.randint(7, LIMIT), number)
        reg = self.vector()
        low = random.randint(reg.low, reg.high())
        return part_select(reg, min(low + 3, reg.high()), low)

    def choice(self, depth, is_within):
        parts = [self.inner(depth - 1, is_within), self.other(depth, is_within), self.other(depth, is_within)]
        random.shuffle(parts)
        if random.random() < 0.3:
            parts[0] = unknown_literal()
        if random.random() < 0.3:
            parts[2] = random.choice([mixed_literal(parts[1].size), whole(random.choice(self.sources[-MIXED:]))])
        return choice(*parts)

    def braces(self, depth, _is_within):
        """A concatenation or a replication of at most 64 bits."""
        parts = [self.inner(depth - 1, True)] + [self.other(depth, True) for _ in range(random.randrange(3))]
        random.shuffle(parts)
        room, fitting = LIMIT, []
        for part in parts:
            if part.size <= room:
                fitting.append(part)
                room -= part.size
        used = LIMIT - room
        return braces(fitting, random.choice([None, None, random.randint(1, LIMIT // used)]))

    def select(self, depth, is_within):
        reg = self.vector()
        return bit_select(reg, self.index(reg, depth - 1, is_within))

    def expression(self):
        """An expression of depth 1 to 5, some deeper."""
        while True:
            node = self.inner(random.choice([1, 2, 2, 3, 3, 4, 4, 5, 5, random.randint(6, 9)]))
            if len(node.text) <= LONGEST:
                return node


# ---- assignments

@dataclass
class Assignment:
    """An assignment to a reg: as a whole, to the bit of an index, or to the part of a range."""
    reg: Reg
    node: Node
    index: Node | None = None
    part: tuple[int, int] | None = None
    maker: Maker | None = None  # none of a source reg

    def text(self):
        select = ""
        if self.index:
            select = f"[{self.index.text}]"
        elif self.part:
            select = "[%d:%d]" % self.part
        return f"{self.reg.name}{select} = {self.node.text};"

    def result(self, environment):
        """What the reg holds afterwards (5.2.1, 5.4.1)."""
        old = environment.values[self.reg.name]
        first, end = self.places(environment)
        value = self.node.value(environment, max(end - first, self.node.size, 1))
        return old[:first] + value[len(value) - (end - first):] + old[end:]

    def places(self, environment):
        """Which digits of the reg are assigned, from the first up to the end."""
        if self.index:
            place = environment.bit(self.reg, self.index)
            return (0, 0) if place is None else (place, place + 1)
        high, low = self.part or (self.reg.high(), self.reg.low)
        return self.reg.high() - high, self.reg.high() - low + 1

    def again(self):
        """Another assignment to as much of the reg."""
        index = target_index(self.reg, self.maker) if self.index else None
        return Assignment(self.reg, self.maker.expression(), index, self.part, self.maker)


def target_index(reg, maker):
    """The index of an assigned bit: a number, or something of which a reg is part. Icarus aborts where it finds some great
    constants there, so that the other expressions have no numbers."""
    number = random.randint(max(0, reg.low - 1), min(GREATEST_INDEX, reg.high() + 1))
    kind = random.random()
    if kind < 0.4:
        return plain_number(number)
    if kind < 0.7:
        short = random.choice([r for r in maker.sources if r.width < 8])
        return binary(random.choice("+-^|"), sized_number(16, number), whole(short))
    while kind < 0.85:
        node = maker.inner(2)
        if not re.search(r"'|\b[0-9]", node.text):
            return node
    return whole(maker.reg())


def selected(reg, maker):
    """An assignment to a bit or to a part of a vector."""
    if random.random() < 0.5:
        return Assignment(reg, maker.expression(), part=random_part(reg), maker=maker)
    return Assignment(reg, maker.expression(), index=target_index(reg, maker), maker=maker)


def assignments_to(reg, maker):
    """The assignments to a target: mostly one as a whole, and then some that leave something of it."""
    made = []
    if reg.is_scalar or random.random() < 0.85:
        made.append(Assignment(reg, maker.expression(), maker=maker))
    count = 0 if reg.is_scalar else random.choice([0, 0, 1, 1, 2, 3]) or 1 - len(made)
    return made + [selected(reg, maker) for _ in range(count)]


def renewed(sources):
    """Literals to all source regs."""
    literals = [sized_literal(r.width) for r in sources[:-MIXED]] + [mixed_literal(r.width) for r in sources[-MIXED:]]
    return [Assignment(reg, literal) for reg, literal in zip(sources, literals)]


def source_regs():
    """Some short ones, one of 64 bits, a scalar, and random ones."""
    regs = [Reg("s0", 3, 0), Reg("s1", 5, 2), Reg("s2", 64, 0), Reg("s3", 1, 0, is_scalar=True)]
    return regs + [random_reg(f"s{i}") for i in range(len(regs), SOURCES)]


def cases():
    """The source regs, the target regs, and the assignments to all."""
    sources = source_regs()
    targets, assignments, count, due = [], [], 0, 0
    while count < ASSIGNMENTS:
        if count >= due:
            assignments += renewed(sources)
            due += ROUND
        reg = random_reg(f"r{len(targets)}")
        made = assignments_to(reg, Maker(sources, targets[-30:]))
        assignments += made
        count += len(made)
        targets.append(reg)
    return sources, targets, assignments


# ---- Icarus Verilog

def program(regs, statements):
    return "\n".join(["module cases;"] + [r.declaration() for r in regs] + ["initial begin"] + statements + ["end", "endmodule", ""])


def shown_by_icarus(regs, targets, assignments):
    """The digits of the assigned reg after each assignment, and in the end the line of each target."""
    statements = [f'{a.text()} $display("%b", {a.reg.name});' for a in assignments]
    statements += [f'$display("{r.name} %b", {r.name});' for r in targets]
    with tempfile.TemporaryDirectory() as folder:
        with open(f"{folder}/cases.v", "w") as f:
            f.write(program(regs, statements))
        command = ["iverilog", "-g2005", "-gstrict-expr-width", "-o", f"{folder}/cases", f"{folder}/cases.v"]
        compiled = subprocess.run(command, capture_output=True, text=True)
        assert compiled.returncode == 0, compiled.stderr[-2000:]
        lines = subprocess.run(["vvp", "-n", f"{folder}/cases"], check=True, capture_output=True, text=True).stdout.splitlines()
    return lines[:len(assignments)], lines[len(assignments):]


def told(assignment, values, digits):
    """What a failure tells: the assignment, the values before it of the regs in it, and the two answers."""
    named = set(re.findall("[rs][0-9]+", assignment.text()))
    held = ", ".join(f"{name} {value}" for name, value in values.items() if name in named)
    wanted = assignment.result(Environment(values))
    return f"{assignment.reg.declaration()} {assignment.text()} from {held}: Icarus {digits}, by the standard {wanted}"


def reason(assignment, values, digits):
    """The departures by which an assignment gives what Icarus shows; none where it follows the standard."""
    for departures in [(), (KEEPS_Z,), (CUTS_INDEX,), (KEEPS_Z, CUTS_INDEX)]:
        if digits == assignment.result(Environment(values, departures)):
            return departures
    raise AssertionError(told(assignment, values, digits))


def departing(regs, assignments, shown):
    """The places of the assignments in which Icarus departs from the standard, and by what; a difference for no known reason fails."""
    values = {reg.name: "x" * reg.width for reg in regs}
    found = {}
    for place, (assignment, digits) in enumerate(zip(assignments, shown, strict=True)):
        departures = reason(assignment, values, digits)
        if departures:
            found[place] = " and ".join(departures)
        values[assignment.reg.name] = digits
    return found


def agreed(regs, targets, assignments):
    """The lines of the targets once no assignment departs from the standard, and how many were replaced, by the reason."""
    replaced = Counter()
    while True:
        shown, lines = shown_by_icarus(regs, targets, assignments)
        found = departing(regs, assignments, shown)
        if not found:
            return lines, replaced
        replaced.update(found.values())
        for place in found:
            assignments[place] = assignments[place].again()


POLICY = '{"users":[{"name":"ann","token":"t1","open":"list+read","run":true}]}'


def case(text, values):
    """The case of a text, whose script reads each reg of these values."""
    script = ['{"op":"open","user":"ann","token":"t1"}', '{"op":"run","until":0}']
    told = ['{"ok":true}', '{"ok":true}']
    for handle, (name, digits) in enumerate(values, 1):
        script += ['{"op":"handle","name":"cases.%s"}' % name, '{"op":"value","h":%d}' % handle]
        told += ['{"h":%d}' % handle, '{"value":"%s"}' % digits]
    title = "## random assignments, as Icarus Verilog computed them"
    return "\n".join([title, text.rstrip("\n"), "%%", POLICY, "%%"] + script + ["=="] + told + [""])


def main():
    random.seed(SEED)
    sources, targets, assignments = cases()
    lines, replaced = agreed(sources + targets, targets, assignments)
    text = program(sources + targets, [a.text() for a in assignments])
    assert len(text) < 1_000_000, len(text)
    with open("data/expressions.cases", "w") as f:
        f.write(case(text, [line.split(" ") for line in lines]))
    count = sum(a.maker is not None for a in assignments)
    print(f"{len(targets)} targets, {count} assignments of an expression, {len(text)} bytes")
    for departures, times in sorted(replaced.items()):
        print(f"replaced for a departure of Icarus, {departures}: {times}")


if __name__ == "__main__":
    main()

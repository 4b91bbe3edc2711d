#!/usr/bin/env python3
"""Makes the file data/vectors.txt: random operands, and what Icarus Verilog computes of them (Debian's package iverilog).

Run it in this folder: ./make_vectors.py. The seed is fixed, so that it makes the same file again.
Rows that were worked out by hand come first; Icarus has to agree with them. Each operation runs in vvp, on regs of the
operands' widths. A result with a star departs from Icarus, by a rule
of docs/DECISIONS.md ("Vectors"): the script puts the profile's result there, and only there.
"""

import random
import subprocess
import tempfile

CASES = 2304  # of each kind, 36 of each width from 1 to 64
SEED = 1364

HEAD = """\
# Operands and results, digits as in Verilog, greatest bit first. Made by make_cases.py with Icarus Verilog.
# pair A B: & | ^ ~A + - * == === < merge(x ? A : B) &A |A ^A
# shift A AMOUNT: << >>
# join A B COUNT: {A, B} {COUNT{A}}
# part A LOW WIDTH PART SIZE: A[LOW +: WIDTH], A after A[LOW +: PART's width] = PART, A assigned to SIZE bits
"""

PAIR = ["{a} & {b}", "{a} | {b}", "{a} ^ {b}", "~{a}", "{a} + {b}", "{a} - {b}", "{a} * {b}",
        "{a} == {b}", "{a} === {b}", "{a} < {b}", "1'bx ? {a} : {b}", "&{a}", "|{a}", "^{a}"]
ADD, SUB, EQUAL, CASE_EQUAL, LESS, MERGE, AND_ALL, OR_ALL, XOR_ALL = 4, 5, 7, 8, 9, 10, 11, 12, 13
ONE_BIT = {EQUAL, CASE_EQUAL, LESS, AND_ALL, OR_ALL, XOR_ALL}
LEFT, RIGHT = 0, 1  # of a shift
JOINED, REPLICATED = 0, 1  # of a join

# Rows that were worked out by hand, from the standard and the profile: operands, which result, its digits.
WORKED = [
    ("pair 1x00 0x00", EQUAL, "0"),
    ("pair 1x00 1x00", EQUAL, "x"),
    ("pair 1x00 1x00", CASE_EQUAL, "1"),
    ("pair x x", EQUAL, "x"),
    ("pair 1x0z 1x0z", CASE_EQUAL, "1"),
    ("pair 1100 0101", ADD, "0001"),
    ("pair 01100 00101", ADD, "10001"),
    ("pair 1000 1000", ADD, "0000"),
    ("pair 01000 01000", ADD, "10000"),
    ("pair 0000 0001", SUB, "1111"),
    ("pair 0011 010x", LESS, "x"),
    ("pair 0011 0101", MERGE, "0xx1"),
    ("pair 0x1 0x1", AND_ALL, "0"),
    ("pair 0x1 0x1", OR_ALL, "1"),
    ("pair 1x0 1x0", XOR_ALL, "x"),
    ("pair 1111 1111", AND_ALL, "1"),
    ("pair " + "1" * 64 + " " + "0" * 63 + "1", ADD, "0" * 64),
    ("pair " + "0" * 60 + "x000 " + "0" * 63 + "1", ADD, "x" * 64),
    ("shift 1001 x", LEFT, "xxxx"),
    ("shift 1001 01", RIGHT, "0100"),
    ("shift 0000 1", RIGHT, "0000"),
    ("shift 10000 1", RIGHT, "01000"),
    ("join 1x z 1", JOINED, "1xz"),
    ("join 10 1 2", REPLICATED, "1010"),
]


def vector(width):
    """Random digits: known ones, ones with some x and z, or all of one kind."""
    kind = random.random()
    if kind < 0.6:
        digits = "01"
    elif kind < 0.8:
        digits = "01" * 10 + "xz"
    elif kind < 0.95:
        digits = "01xz"
    else:
        digits = random.choice("01xz")
    return "".join(random.choice(digits) for _ in range(width))


def like(digits):
    """The same digits, or with one digit made anew."""
    if random.random() < 0.5:
        return digits
    place = random.randrange(len(digits))
    return digits[:place] + random.choice("01xz") + digits[place + 1:]


def number(value, width):
    return format(value % 2**width, f"0{width}b")


def pair(width):
    a = vector(width)
    b = like(a) if random.random() < 0.25 else vector(width)
    return ["pair", a, b]


def shift(width):
    kind = random.random()
    amount_width = random.randint(1, 64)
    if kind < 0.35:
        amount = number(random.randint(0, width), max(7, amount_width))
    elif kind < 0.7:
        amount = number(max(0, width + random.randint(-2, 2)), max(7, amount_width))
    elif kind < 0.85:
        amount = number(random.getrandbits(amount_width), amount_width)
    else:
        amount = vector(amount_width)
    return ["shift", vector(width), amount]


def join(width):
    a = vector(min(width, 63))
    b = vector(random.randint(1, 64 - len(a)))
    return ["join", a, b, str(random.randint(1, 64 // len(a)))]


def part(width):
    a = vector(width)
    low = random.randrange(width)
    length = random.randint(1, width - low)
    return ["part", a, str(low), str(length), vector(random.randint(1, width - low)), str(random.randint(1, 64))]


def reg(name, width):
    return f"reg [{width - 1}:0] {name};"


def assign(name, digits):
    return f"{name} = {len(digits)}'b{digits};"


def show(width, expression, number):
    return f"begin : s{number} {reg('r', width)} r = {expression}; $write(\" %b\", r); end"


def statements(case):
    """A Verilog block that writes the case's results, each after a blank."""
    kind, a = case[0], case[1]
    if kind == "pair":
        b = case[2]
        wants = [(1 if i in ONE_BIT else len(a), e.format(a="a", b="b")) for i, e in enumerate(PAIR)]
        return [reg("a", len(a)), reg("b", len(a)), assign("a", a), assign("b", b)] + [show(w, e, i) for i, (w, e) in enumerate(wants)]
    if kind == "shift":
        n = case[2]
        return [reg("a", len(a)), reg("n", len(n)), assign("a", a), assign("n", n), show(len(a), "a << n", 0), show(len(a), "a >> n", 1)]
    if kind == "join":
        b, count = case[2], int(case[3])
        return [reg("a", len(a)), reg("b", len(b)), assign("a", a), assign("b", b),
                show(len(a) + len(b), "{a, b}", 0), show(len(a) * count, "{%d{a}}" % count, 1)]
    low, width, p, size = int(case[2]), int(case[3]), case[4], int(case[5])
    return [reg("a", len(a)), reg("p", len(p)), assign("a", a), assign("p", p), show(width, f"a[{low} +: {width}]", 0),
            f"begin : before {reg('q', size)} q = a; a[{low} +: {len(p)}] = p; $write(\" %b %b\", a, q); end"]


def program(cases):
    lines = ["module m;", "initial begin"]
    for i, case in enumerate(cases):
        body = statements(case)
        declarations = [s for s in body if s.startswith("reg ")]
        lines += [f"begin : c{i}"] + declarations + [s for s in body if not s.startswith("reg ")] + ["$display;", "end"]
    return "\n".join(lines + ["end", "endmodule", ""])


def computed(cases):
    with tempfile.TemporaryDirectory() as folder:
        with open(f"{folder}/m.v", "w") as f:
            f.write(program(cases))
        subprocess.run(["iverilog", "-o", f"{folder}/m", f"{folder}/m.v"], check=True)
        out = subprocess.run(["vvp", "-n", f"{folder}/m"], check=True, capture_output=True, text=True).stdout
    return [line.split() for line in out.splitlines()]


def by_profile(case, results):
    """Puts the profile's result, with a star, where a decision departs from Icarus."""
    if case[0] != "pair":
        return results
    a, b = case[1], case[2]
    results = list(results)
    known_difference = any({x, y} == {"0", "1"} for x, y in zip(a, b))
    if known_difference and results[EQUAL] != "0":
        results[EQUAL] = "0*"
    if any(x == y == "z" and r == "z" for x, y, r in zip(a, b, results[MERGE])):
        results[MERGE] = "".join("x" if x == y == "z" else r for x, y, r in zip(a, b, results[MERGE])) + "*"
    return results


def main():
    random.seed(SEED)
    cases = [operands.split() for operands, _, _ in WORKED]
    cases += [make(1 + i % 64) for make in (pair, shift, join, part) for i in range(CASES)]
    results = [by_profile(case, found) for case, found in zip(cases, computed(cases), strict=True)]
    for (operands, place, digits), found in zip(WORKED, results):
        assert found[place].rstrip("*") == digits, (operands, place, found)
    with open("data/vectors.txt", "w") as f:
        f.write(HEAD)
        for case, found in zip(cases, results):
            f.write(" ".join(case + found) + "\n")


main()

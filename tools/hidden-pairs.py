#!/usr/bin/env python3
"""Runs random scripts over pairs of texts that differ inside an envelope alone, and compares what a user reads to whom it is closed.

    tools/hidden-pairs.py              200 pairs of a fixed seed
    tools/hidden-pairs.py COUNT SEED   so many of another seed

It wants crates/vp_served/out/vp_served, as `rt run` and the gate leave it there. The texts of a pair have the same open text and the same second
envelope. Inside the first, names, processes, values and hidden races are others; what leaves it, a port and a reg that a viewport opens, is the
same by another way. Ann may list nothing in it but what the viewport opens. She asks for everything in a session, and between her requests stand
the operator's: grants to her where the texts are alike, grants to Bob anywhere, ends of sessions, stops, a status. Each line that is answered
must be the same over both texts, byte by byte.

Then ten more pairs differ in what leaves the envelope, and each must show Ann a difference. Ends with status 1 where a pair is not as expected.
"""

import json
import pathlib
import random
import subprocess
import sys
import tempfile
from dataclasses import dataclass

TOP = pathlib.Path(__file__).resolve().parent.parent
PROGRAM = TOP / "crates" / "vp_served" / "out" / "vp_served"
PAIRS = 200
CONTROLS = 10
SEED = 20261201
NOISE = 5
EVERYTHING = "list+read+watch+put+race"
RIGHTS = EVERYTHING.split("+")
KINDS = ["module", "net", "reg", "parameter", "always", "initial", "assign"]
NAMES = "top top.clk top.a top.b top.r top.q top.y top.u top.u.q top.u.clk top.u.s top.u.zz top.v top.v.m top.v.y top.initial@20:3 zz".split()

DESIGN = """module counter(input wire clk, output reg [3:0] q);
`pragma protect author="acme", begin
  reg [3:0] s;
`pragma protect viewport=(object="s", access="read+watch")
{hidden}
`pragma protect end
endmodule
module mixer(input wire [3:0] c, output reg [3:0] y);
`pragma protect author="bell", begin
  reg [3:0] m;
  always @(c) begin m = c; y = m ^ 4'd3; end
`pragma protect end
endmodule
module top;
  reg clk;
  reg [3:0] a, b, r;
  wire [3:0] q, y;
  counter u(.clk(clk), .q(q));
  mixer v(.c(q), .y(y));
  initial clk = 1'b0;
  always #2 clk = ~clk;
  always @(posedge clk) r <= a ^ b;
endmodule
"""

POLICY = {
    "users": [
        {"name": "ann", "token": "t1", "open": EVERYTHING, "run": True, "grants": [{"author": "bell", "access": "list+read"}]},
        {"name": "bob", "token": "t2", "open": EVERYTHING, "grants": [{"author": "acme", "access": EVERYTHING}]},
    ],
    "operator": "op",
}

# What leaves the envelope, each time by another way; {0} is a hidden name.
COUNTS = [
    "initial #1 q = 4'd0; always @(posedge clk) q <= q + 4'd1;",
    "initial #1 q = 4'd0; reg [3:0] {0}; always @(posedge clk) begin {0} = q - 4'd15; q <= {0}; end",
    "initial #1 q = 4'd0; always @(posedge clk) q <= ~(~q - 4'd1);",
    "initial #1 q = 4'd0; wire [3:0] {0}; assign {0} = q + 4'd1; always @(posedge clk) q <= {0};",
]
SUMS = [
    "initial #1 s = 4'd0; always @(posedge clk) s <= s ^ q;",
    "initial #1 s = 4'd0; always @(posedge clk) s <= q ^ s;",
    "initial #1 s = 4'd0; reg [3:0] {0}; always @(posedge clk) begin {0} = s & q; s <= (s | q) & ~{0}; end",
]
OTHER_COUNT = "initial #1 q = 4'd0; always @(posedge clk) q <= q + 4'd2;"

# What stays inside. It happens at times at which the clock changes too, since the time is seen.
NOISES = [
    "",
    "reg [7:0] {0}; initial {0} = 8'd{1};",
    "reg {0}; initial {0} = 1'b0; always #{2} {0} = ~{0};",
    "wire [3:0] {0}; assign {0} = q ^ 4'd{1};",
    "reg [3:0] {0}; always @(posedge clk) {0} <= {0} + 4'd{1};",
    "reg [3:0] {0}; initial {0} = 4'd0; always @(negedge clk) begin if (s[0]) {0} = {0} + 4'd1; else {0} = 4'd{1}; end",
    "reg [3:0] {0}, {0}_; always @(q) {0} = q; always @(q) {0}_ = {0};",
    "localparam {0} = 4'd{1};",
]


@dataclass
class Inside:
    """What stands in the envelope of a text, and the names of regs there."""

    text: str
    regs: list


def hidden_name(dice):
    return "".join(dice.choice("abcdefgh") for _ in range(dice.randint(2, 6))) + "_" + dice.choice("kmnp")


def inside(dice, count=None):
    """The inside of the envelope: as many lines in each text, so that what follows stands on the same lines."""
    names = list({hidden_name(dice) for _ in range(40)})
    dice.shuffle(names)
    lines = [(count or dice.choice(COUNTS)).format(names.pop()), dice.choice(SUMS).format(names.pop())]
    regs = []
    for _ in range(NOISE):
        name, noise = names.pop(), dice.choice(NOISES)
        regs += [name] if noise.startswith("reg [3:0]") else []
        number = dice.randint(1, 7)
        lines.append(noise.format(name, number, 2 * number))
    dice.shuffle(lines)
    return Inside("\n".join("  " + line for line in lines), regs)


def digits(dice):
    return "".join(dice.choice("0011xz") for _ in range(dice.choice([4, 4, 4, 1])))


def request(dice, names):
    """A random request of Ann's; her handles and callbacks are often there, and her values often fit."""
    handle = dice.randint(1, 12)
    by_name = {"op": "handle", "name": dice.choice(names)}
    return dice.choice([
        by_name, by_name, by_name, by_name,
        {"op": "iterate", "kind": dice.choice(KINDS)},
        {"op": "iterate", "kind": dice.choice(KINDS), "h": handle},
        {"op": "get", "h": handle, "prop": dice.choice(["size", "line"])},
        {"op": "get_str", "h": handle, "prop": dice.choice(["type", "name", "full_name", "def_name"])},
        {"op": "value", "h": handle}, {"op": "value", "h": handle, "format": "vec"},
        {"op": "put", "h": handle, "value": digits(dice)}, {"op": "put", "h": handle, "value": digits(dice)},
        {"op": "compare", "a": handle, "b": dice.randint(1, 12)},
        {"op": "free", "h": dice.randint(2, 12)},
        {"op": "watch", "h": handle}, {"op": "watch", "h": handle}, {"op": "unwatch", "cb": dice.randint(1, 4)},
        {"op": "poll"}, {"op": "poll"}, {"op": "time"},
        {"op": "races"}, {"op": "race", "no": dice.randint(0, 3)},
        {"op": "run", "until": dice.randint(0, 60)}, {"op": "run", "until": dice.randint(0, 60)},
        {"op": "stop"},
    ])


def order(dice, ends):
    """A request of the operator's: Ann's grants change where the texts are alike, Bob's anywhere; Ann's session may end."""
    user = dice.choice(["ann", "bob"])
    envelope = dice.choice([0, 2] if user == "ann" else [0, 1, 2])
    access = "+".join(dice.sample(RIGHTS, dice.randint(0, len(RIGHTS))))
    grant = {"op": "grant", "token": "op", "user": user, "envelope": envelope, "access": access}
    end = {"op": "end", "token": "op", "user": "ann" if ends and dice.random() < 0.3 else "bob"}
    return dice.choice([grant, grant, grant, end, {"op": "stop", "token": "op"}, {"op": "status", "token": "op"}, {"op": "end", "token": "no", "user": user}])


def script(dice, places, ends):
    """The lines of a script for both texts, in which Ann's session may end. Her first handle is of what leaves the envelope, and is read at last."""
    names = NAMES + [f"top.u.{reg}" for place in places for reg in place.regs]
    lines = [{"op": "open", "user": "ann", "token": "t1"}, {"op": "handle", "name": "top.q"}]
    for _ in range(dice.randint(30, 80)):
        lines.append(request(dice, names) if dice.random() < 0.85 else order(dice, ends))
    lines += [{"op": "grant", "token": "op", "user": "ann", "envelope": 0, "access": EVERYTHING}, {"op": "run", "until": 1000}, {"op": "value", "h": 1}]
    return [json.dumps(line) for line in lines]


def shown(folder, place, lines):
    """What is answered over a text, line by line."""
    (folder / "design.v").write_text(DESIGN.format(hidden=place.text))
    text = "".join(line + "\n" for line in lines)
    ran = subprocess.run([PROGRAM, "run", folder / "design.v", folder / "policy.json"], input=text, capture_output=True, text=True)
    replies = ran.stdout.splitlines()
    if ran.returncode != 0 or len(replies) != len(lines):
        sys.exit(f"{len(replies)} replies to {len(lines)} lines, status {ran.returncode}: {ran.stderr}\n{DESIGN.format(hidden=place.text)}\n{text}")
    return replies


def is_alike(dice, folder, places, ends=True):
    """Whether the same is answered over both texts, and how many lines."""
    lines = script(dice, places, ends)
    first, second = (shown(folder, place, lines) for place in places)
    return first == second, len(first)


def main():
    count, seed = (int(sys.argv[1]), int(sys.argv[2])) if len(sys.argv) > 2 else (PAIRS, SEED)
    dice, alike, lines, found = random.Random(seed), 0, 0, 0
    with tempfile.TemporaryDirectory() as name:
        folder = pathlib.Path(name)
        (folder / "policy.json").write_text(json.dumps(POLICY))
        for _ in range(count):
            same, read = is_alike(dice, folder, [inside(dice), inside(dice)])
            alike, lines = alike + same, lines + read
        for _ in range(CONTROLS):
            found += not is_alike(dice, folder, [inside(dice), inside(dice, OTHER_COUNT)], False)[0]
    print(f"{count} pairs with {lines} lines, {alike} alike; {CONTROLS} pairs that differ outside, {found} found")
    return 0 if alike == count and found == CONTROLS else 1


sys.exit(main())

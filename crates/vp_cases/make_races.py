#!/usr/bin/env python3
"""Makes the file data/races.cases: small programs full of races, which are run with random choices, and with puts in the middle of time slots.

Run it in this folder: ./make_races.py RESULTS. RESULTS is what another body of the recorder printed of the cases, for the results are its own and not this
program's: without it the cases are written to standard output with nothing wanted, and `vp_cases` prints of each what came of it. A case's results are
each event's refusal, then each kept segment with its time and its order, and each race that a search finds in it, with both values, the second order and
whose events both took.

Those of the file are from the recorder at commit 79e79f87, which kept a copy of the simulation at the start of each segment: its `vp_race` under the
same reader of cases (`src/events.rt`). The seed is fixed. Those of a program whose events never closed a segment are kept too.

A program has regs and nets of up to three bits, and two to five processes without an order among them: blocking and nonblocking assignments to the same
regs, also of single bits and with delays, `#0`, delays, event controls, waits, and tests. Its events are steps by random choices, of which some are
refused, advances, and puts.
"""

import random
import sys

SEED = 20261130
PROGRAMS = 3000
SEEDS = 3
GOAL = 9
POLICY = '{"users":[{"name":"ann","token":"t1","open":"list+read+put","run":true}]}'


class Program:
    """A program's declarations and processes, drawn one after another."""

    def __init__(self, draw):
        self.draw = draw
        self.widths = {name: draw.choice((1, 1, 2, 3)) for name in "abcd"[: draw.randint(2, 4)]}
        self.nets = {}
        self.lines = [self.declared("reg", name, width) for name, width in self.widths.items()]
        for number in range(draw.choice((0, 0, 1, 1, 2))):
            self.add_net(f"w{number}")
        for _ in range(draw.randint(2, 5)):
            self.lines.append(self.process())

    @staticmethod
    def declared(word, name, width):
        return f"{word} {name};" if width == 1 else f"{word} [{width - 1}:0] {name};"

    def add_net(self, name):
        width = self.draw.choice((1, 2))
        expression = self.expression()
        self.nets[name] = width
        self.lines += [self.declared("wire", name, width), f"assign {name} = {expression};"]

    def reg(self):
        return self.draw.choice(list(self.widths))

    def operand(self):
        readable = list(self.widths) + list(self.nets)
        return self.draw.choice(readable + ["1'b1", "2'd2", "1'bx"]) if self.draw.random() < 0.3 else self.draw.choice(readable)

    def expression(self):
        form = self.draw.choice(("{}", "~{}", "{} + 1", "{} ^ {}", "{} & {}", "{} + {}", "{} ? {} : {}", "1", "0"))
        return form.format(*(self.operand() for _ in range(form.count("{}"))))

    def target(self):
        name = self.reg()
        width = self.widths[name]
        return f"{name}[{self.draw.randrange(width)}]" if width > 1 and self.draw.random() < 0.2 else name

    def assignment(self):
        between = self.draw.choice(("=", "=", "=", "<=", "<=", "<= #1", "<= #2"))
        return f"{self.target()} {between} {self.expression()};"

    def awaited(self):
        return self.draw.choice(("@({})", "@({})", "@(posedge {})", "@(negedge {})")).format(self.draw.choice(list(self.widths) + list(self.nets)))

    def statement(self):
        drawn = self.draw.random()
        if drawn < 0.55:
            return self.assignment()
        if drawn < 0.65:
            return f"#{self.draw.choice((0, 0, 1, 2))} {self.assignment()}"
        if drawn < 0.75:
            return f"{self.awaited()} {self.assignment()}"
        if drawn < 0.8:
            return f"wait ({self.operand()}) {self.assignment()}"
        return f"if ({self.operand()}) {self.assignment()} else {self.assignment()}"

    def body(self):
        count = self.draw.choice((1, 1, 2, 3))
        statements = " ".join(self.statement() for _ in range(count))
        return statements if count == 1 else f"begin {statements} end"

    def process(self):
        drawn = self.draw.random()
        if drawn < 0.4:
            return f"initial {self.body()}"
        if drawn < 0.55:
            return f"always #{self.draw.choice((1, 2, 3))} {self.body()}"
        return f"always {self.awaited()} {self.body()}"

    def put(self):
        name = self.reg()
        value = "".join(self.draw.choice("0101x") for _ in range(self.widths[name]))
        return f'0.1 {{"op":"put","h":{list(self.widths).index(name) + 1},"value":"{value}"}}'

    def choices(self):
        return " ".join(self.draw.choice("000001111223aaa") for _ in range(self.draw.randint(8, 30)))

    def events(self):
        lines = ['- {"op":"open","user":"ann","token":"t1"}', f'0.1 {{"op":"run","until":{GOAL}}}']
        lines += [f'0.1 {{"op":"handle","name":"top.{name}"}}' for name in self.widths]
        for _ in range(self.draw.randint(1, 4)):
            lines.append(f"run {self.choices()}")
            if self.draw.random() < 0.6:
                lines.append(self.put())
        lines.append(f"run {' '.join('0 1 0 0 a' for _ in range(8))}")
        return [*lines, f"races {SEEDS}"]


def case_of(number):
    """The bundle of a program."""
    draw = random.Random(f"{SEED} {number}")
    program = Program(draw)
    return "\n".join([f"## races {number}", "%~", "module top;", *program.lines, "endmodule", "%%", POLICY, "%%", *program.events(), "=="])


def results_in(printed):
    """Of each case's name what came of it, from what `vp_cases` printed of cases with nothing wanted."""
    found, name, wanted = {}, None, False
    for line in printed.splitlines():
        if line.startswith("races ") and " " not in line[6:]:
            name = line
        elif line == "printed:" and name:
            found[name] = []
            wanted = True
        elif line.startswith("races.cases: "):
            break
        elif name and wanted and line not in ("", "wanted:"):
            found[name].append(line)
    return found


def main():
    cases = [case_of(number) for number in range(PROGRAMS)]
    if len(sys.argv) < 2:
        print("\n".join(cases))
        return
    with open(sys.argv[1], encoding="utf-8") as file:
        results = results_in(file.read())
    with open("data/races.cases", "w", encoding="utf-8") as file:
        for number, case in enumerate(cases):
            print(case, *results[f"races {number}"], sep="\n", file=file)


if __name__ == "__main__":
    main()

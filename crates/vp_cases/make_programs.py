#!/usr/bin/env python3
"""Makes the file data/programs.cases: random programs over all statements, and what Icarus Verilog computes of each.

Run it in this folder: ./make_programs.py. It wants iverilog and vvp on the path (Debian's package iverilog, version 11:
apt-get update && apt-get install -y iverilog). The seed is fixed, so that it makes the same file again. With a number, as
./make_programs.py 3000, it makes so many programs and writes no file; a second number is another seed, and a third word a file for
the cases, which `rt try --seconds 900 --data programs.cases=FILE -- programs.cases` runs through Loddrume's program, without proofs. What it prints in the end is how often each form of a statement and of an event stands in the programs.

A program has one to five modules, with ports, regs, nets, localparams, continuous assignments, instances, and processes that run for
30 to 200 units of time. Half of the programs end by their own `$finish`, at the others is looked while they run. The script of a case lets the
program run, asks the time, and reads each net, reg and localparam of each instance.

Programs are free of races, for each time modulo 10 has its own work:

- A reg `ck` of the top module is the clock, handed down through ports: it rises at 5, 15, .. and falls at 10, 20, ... A reg `go` rises at 1.
- Synchronous processes run at 5 (and at 8, those that a reset wakes too). They read everything, assign their own state regs by
  nonblocking assignments, and their private temporaries at once. So state regs change after all that is active at 5, and at 7, 8, 9 and 0.
  A reg `cnt` in each module counts the rising edges.
- Scripts run at 6. They assign private regs, and read these, state regs, and what hangs on state regs alone; at 7, 9, 0, 3 and 4 they may touch their
  own private regs. Whatever they wait for, they go on at 6: `@(posedge ck) #1`, `@(negedge ck) #6`. What they wait for first is a
  reg; a net, or a condition of `wait`, only where it hangs on `cnt` alone, so that it changes once at a time.
- Nets and combinational processes, which give all that they assign a value first, are driven by what stands before them in one order;
  so they settle. Combinational processes read `go`, and so run when all wait.
- Regs begin at 0, if no process waits for them then, or at 2, 3 or 4; the reset changes at 8; `$finish` is executed at 2, and the values are shown at 1.

What is expected is computed here, by a simulator of IEEE Std 1364-2005, clauses 5, 6, 9, 11 and 12, which runs each program in several orders of
its active events, statement by statement. Where they do not agree, the program is passed over. One in which Icarus departs from the standard in one of the ways that
make_expressions.py and make_hierarchy.py name, or in one of these, is left out and counted; any other difference ends the script:

- KEEPS_Z, CUTS_INDEX and SHIFTS_NOTHING of make_expressions.py, SIZES_ALONE of make_hierarchy.py;
- WAITS_NESTED, SKIPS_IDLE and LOSES_SELECT of simulate_programs.py, which holds the simulator.

Not made, since the profile leaves it out: all that the grammar of docs/FORMATS.md leaves out. Not made though the profile has it: races; strings of several
declarations or assignments after one word; names of events that are localparams; loops without an end at one time; a process that
assigns what another one assigns, but for the first value of a state reg.
"""

import random
import subprocess
import sys
import tempfile
from collections import Counter
from dataclasses import dataclass, field, replace
from itertools import combinations

from make_expressions import (CUTS_INDEX, KEEPS_Z, POLICY, REDUCTIONS, SHIFTS_NOTHING, Assignment, Environment, Maker, base_mark, binary, bit_select,
                              braces, choice, constant, is_known, mixed_literal, of_number, part_select, plain_number, random_part, random_width,
                              sized_literal, sized_number, target_index, truth, unary, unknown_literal, whole, written)
from make_hierarchy import SIZES_ALONE, Declared, Driver, Instance, Module, connections, declare
from simulate_programs import (CHANGE, FALL, LOSES_SELECT, RISE, SKIPS_IDLE, WAITS_NESTED, Assign, At, Block, Case, Delay, Empty, Finish, For,
                               Forever, If, Item, Procedure, Simulation, Wait, While, awaited, holds, later, names_in)

SEED = 1364
PROGRAMS = 300
LONGEST = 70  # characters of an expression
LINES = 20, 150
MOST_INSTANCES = 9
ORDERS = 3  # in which a program is run here, one of them first come first served
DEPARTURES = [SIZES_ALONE, KEEPS_Z, CUTS_INDEX, SHIFTS_NOTHING, WAITS_NESTED, LOSES_SELECT, SKIPS_IDLE]

CLOCK, START, RESET, BEAT, WAVE = "ck", "go", "rst", "beat", "e0"
OUTSIDE = "outside"
SYNCHRONOUS_DELAYS = [None, None, None, None, 0, 2, 3, 4, 10, 12]  # of nonblocking assignments at 5
RESET_DELAYS = [None, None, None, 0, 2, 10, 12]  # at 5 and 8
SCRIPT_DELAYS = [None, None, 0, 1, 3, 4, 10, 11]  # at 6
AT_ONCE_DELAYS = [None, None, 0]
INTERLUDES = [1, 3, 4, 7, 8]  # after 6, the times at which a script may touch its private regs

# ---- random expressions

def known_literal(size=None):
    size = size or random.choice([1, 2, 3, 4, 5, 8, random_width()])
    number = random.getrandbits(random.randint(1, size))
    letter = random.choice("bodh" if size <= 16 else "oh")
    return constant(f"{size}{base_mark(letter)}{written(format(number, letter.replace('h', 'x')))}", of_number(number, size))


class Wild(Maker):
    """Makes expressions that often are unknown."""

    def expression(self):
        return self.inner(random.choice([0, 1, 1, 2]))


class Calm(Maker):
    """Makes expressions that seldom are unknown where what they read is known."""

    def leaf(self, is_within):
        kind = random.random()
        if kind < 0.6:
            return whole(self.reg())
        if kind < 0.78:
            return self.small()
        return known_literal() if kind < 0.92 or is_within else plain_number()

    def expression(self):
        return self.inner(random.choice([0, 0, 1, 1, 1, 2, 2, 3]))

    def small(self):
        """A few bits of something."""
        reg = self.reg()
        if reg.width < 5 and random.random() < 0.7:
            return whole(reg)
        reg = self.vector()
        low = random.choice([reg.low, random.randint(reg.low, reg.high())])
        if random.random() < 0.4:
            return bit_select(reg, random.choice([plain_number, lambda n: sized_number(17, n)])(low))
        return part_select(reg, min(reg.high(), low + random.randint(0, 3)), low)

    def index(self, reg, depth, is_within):
        """One that is in the range of a reg, or the value of something short."""
        short = [r for r in self.sources if r.width < 8]
        if random.random() < 0.7:
            return sized_number(random.randint(16, 20), random.randint(reg.low, reg.high()))
        return whole(random.choice(short)) if reg.low < 4 or random.random() < 0.2 else binary(
            "+", sized_number(16, reg.low), whole(random.choice(short)))

    def choice(self, depth, is_within):
        return choice(self.condition(), self.inner(depth - 1, is_within), self.other(depth, is_within))

    def condition(self):
        """A truth, mostly known."""
        kind = random.random()
        if kind < 0.4:
            small = self.small()
            number = random.getrandbits(small.size)
            other = plain_number(number) if random.random() < 0.5 else sized_number(max(small.size, random.randint(1, 8)), number)
            return binary(random.choice(["==", "!=", "<", ">", "<=", ">=", "===", "!=="]), small, other)
        if kind < 0.65:
            return self.small()
        if kind < 0.75:
            return unary(random.choice(REDUCTIONS), self.small())
        if kind < 0.78:
            return unknown_literal()
        if kind < 0.9:
            return binary(random.choice(["&&", "||"]), self.condition(), self.small())
        return binary(random.choice(["==", "!=", "<", ">="]), whole(self.reg()), whole(self.reg()))


class Plain(Calm):
    """Makes expressions without numbers, of which Icarus computes nothing beforehand, so that it keeps all that they read; nor is
    a statement that reads something without effect, where these are made."""

    def leaf(self, is_within):
        return whole(self.reg()) if random.random() < 0.85 else self.small()

    def index(self, reg, depth, is_within):
        return whole(random.choice([r for r in self.sources if r.width < 8]))

    def amount(self, size, is_within):
        return self.small()

    def condition(self):
        kind = random.random()
        if kind < 0.4:
            return self.small()
        if kind < 0.6:
            return unary(random.choice(REDUCTIONS), whole(self.reg()))
        return binary(random.choice(["==", "!=", "<", ">=", "===", "&&", "||"]), whole(self.reg()), whole(self.reg()))


def short(make):
    """An expression that is not too long."""
    while True:
        node = make()
        if len(node.text) <= LONGEST:
            return node


@dataclass
class Author:
    """Makes statements without time control, over what may be read, what is assigned at once and what by nonblocking assignments."""
    readable: list[Declared]
    at_once: list[Declared]
    later: list[Declared]
    delays: list[int | None]
    loops: list[Declared]  # free variables of loops
    share_of_later: float = 0.85
    counting: list[Declared] = field(default_factory=list)  # variables of the loops round what is made
    makers: tuple[type, type] = (Calm, Wild)  # mostly the first

    def calm(self):
        return self.makers[0](self.readable + self.counting * 2, [])

    def maker(self):
        return random.choice([self.makers[0]] * 7 + [self.makers[1]])(self.readable + self.counting * 2, [])

    def expression(self):
        return short(lambda: self.maker().expression())

    def condition(self):
        return short(lambda: self.calm().condition() if random.random() < 0.9 else self.expression())

    def assignment_to(self, reg):
        """An assignment to a reg, or to a part or a bit of it, at times that whose index a loop counts."""
        kind = random.random()
        if reg.is_scalar or kind < 0.65:
            return Assignment(reg, self.expression())
        if kind < 0.8:
            return Assignment(reg, self.expression(), part=random_part(reg))
        return Assignment(reg, self.expression(), index=self.target_index(reg))

    def target_index(self, reg):
        if self.counting and random.random() < 0.6:
            variable = whole(random.choice(self.counting))
            return variable if reg.low < 3 else binary("+", variable, sized_number(16, reg.low))
        maker = self.maker()
        maker.sources = [d for d in maker.sources if d.word != "localparam"]
        return maker.index(reg, 0, False) if isinstance(maker, Calm) else target_index(reg, maker)

    def assigned(self):
        if self.later and (not self.at_once or random.random() < self.share_of_later):
            return later(self.assignment_to(random.choice(self.later)), random.choice(self.delays))
        return Assign(self.assignment_to(random.choice(self.at_once)))

    def simple(self):
        return Empty() if random.random() < 0.06 and self.makers[0] is not Plain else self.assigned()

    def statement(self, size):
        """A statement of about so many."""
        if size < 2:
            return self.simple()
        make = random.choice([self.block, self.block, self.conditional, self.conditional, self.conditional, self.selection, self.selection,
                              self.selection, self.counted_for, self.counted_while])
        return make(size)

    def several(self, size):
        """Statements that are so many together."""
        made = []
        while size > 0:
            part = random.randint(1, size)
            made.append(self.statement(part))
            size -= part
        return made

    def block(self, size):
        return Block([] if random.random() < 0.04 and self.makers[0] is not Plain else self.several(size))

    def conditional(self, size):
        then = self.statement(max(1, (size - 1) // 2))
        if random.random() < 0.4:
            return If(self.condition(), then)
        return If(self.condition(), then, self.statement(max(1, size // 2)))

    def selection(self, size):
        """A case, often over a few bits with labels of that size."""
        word = random.choice(["case", "casez"])
        selector, label = (self.sum(), sum_label) if random.random() < 0.3 else (self.selector(), self.label)
        bodies = [self.statement(max(1, size // 4)) for _ in range(random.randint(1, min(5, size)))]
        items = [Item([label(word, selector) for _ in range(random.choice([1, 1, 1, 2, 3]))], body) for body in bodies]
        if random.random() < 0.7:
            text = random.choice(["default:", "default:", "default :", "default"])
            place = random.choice([len(items), random.randint(0, len(items))])
            items.insert(place, Item([], self.statement(max(1, size // 4)), text))
        return Case(word, selector, items)

    def selector(self):
        """What a case tells apart; for `casez` at times with a z in it."""
        kind = random.random()
        maker = self.calm()
        waves = [d for d in self.readable if d.name == WAVE]
        if waves and kind < 0.25:
            return whole(waves[0])
        if kind < 0.58:
            return maker.small()
        if kind < 0.73 or isinstance(maker, Plain):
            return braces([maker.small() for _ in range(random.randint(1, 3))])
        if kind < 0.85:
            return sized_number(1, random.choice([0, 1, 1]))
        if kind < 0.9:
            return braces(shuffled([maker.small(), mixed_literal(random.randint(1, 2))]))
        return self.expression()

    def sum(self):
        """What hangs on the size of the longest label."""
        a, b = self.calm().small(), self.calm().small()
        return random.choice([lambda: binary("+", a, b), lambda: binary("-", a, b), lambda: unary("~", a), lambda: unary("-", a)])()

    def label(self, word, selector):
        kind = random.random()
        size = selector.size
        if selector.text.startswith("1'") and kind < 0.8:
            return self.condition()
        if selector.text == WAVE and kind < 0.8:
            return mixed_literal(size)
        if word == "casez" and kind < 0.6:
            return wild_literal(size)
        if word == "case" and kind < 0.08:
            return mixed_literal(size)
        if kind < 0.75:
            return known_literal(size)
        if kind < 0.85:
            return plain_number(random.randrange(2**min(size, 5)))
        return random.choice([sized_literal, known_literal, self.expression])()

    def counted(self, size):
        """The variable of a loop, and its body; none where all are in use."""
        if not self.loops or len(self.counting) > 1:
            return None, self.block(size)
        variable = self.loops.pop()
        self.counting.append(variable)
        body = self.statement(size - 1)
        self.counting.remove(variable)
        self.loops.append(variable)
        return variable, body

    def count(self, variable):
        """How a variable is counted: its first value, the condition, and the next value."""
        least = random.choice([plain_number, lambda number: sized_number(variable.width, number)])
        node, number = whole(variable), random.randint(1, 5)
        kind = random.random()
        if kind < 0.5:
            first, step = random.randint(0, 2), random.choice([1, 1, 2])
            condition = binary(random.choice(["<", "<="]), node, least(number))
            return Assignment(variable, least(first)), condition, Assignment(variable, binary("+", node, least(step)))
        if kind < 0.65:
            return Assignment(variable, least(0)), binary("!=", node, least(number)), Assignment(variable, binary("+", least(1), node))
        if kind < 0.85:
            condition = random.choice([node, binary("!=", node, least(0)), binary(">", node, least(0))])
            return Assignment(variable, least(number)), condition, Assignment(variable, binary("-", node, least(1)))
        if kind < 0.95:
            return Assignment(variable, least(1)), binary("<", node, least(number)), Assignment(variable, binary("<<", node, least(1)))
        low = variable.low
        return (Assignment(variable, least(0), part=(low + 1, low)), binary("<", part_select(variable, low + 1, low), least(3)),
                Assignment(variable, binary("+", part_select(variable, low + 1, low), least(1)), part=(low + 1, low)))

    def bounded(self, condition):
        """The condition of a loop, at times with another."""
        return binary("&&", condition, self.condition()) if random.random() < 0.15 else condition

    def counted_for(self, size):
        variable, body = self.counted(size)
        if not variable:
            return body
        first, condition, step = self.count(variable)
        return For(Assign(first), self.bounded(condition), Assign(step), body)

    def counted_while(self, size):
        variable, body = self.counted(size)
        if not variable:
            return body
        first, condition, step = self.count(variable)
        return Block([Assign(first), While(self.bounded(condition), Block([body, Assign(step)]))])


def sum_label(_word, selector):
    """A number that is as long as a sum or longer."""
    size = selector.size + random.choice([0, 0, 1, 1, 2])
    return sized_number(size, random.choice([random.randrange(2**size), 2**selector.size + random.randrange(4), 2**size - 1 - random.randrange(4)]) % 2**size)


def wild_literal(size):
    """A label of casez: 0, 1, and some z or ?."""
    digits = "".join(random.choice("01010101zz??x" if random.random() < 0.1 else "010101zz??") for _ in range(size))
    return constant(f"{size}'b{digits}", digits.replace("?", "z"))


@dataclass
class Steps:
    """What scripts of a module wait for."""
    steady: list[Declared] = field(default_factory=list)  # change after a rising edge of the clock, once, and at no other time
    states: list[Declared] = field(default_factory=list)
    late_states: list[Declared] = field(default_factory=list)  # those that get no value at time 0
    flags: list[Declared] = field(default_factory=list)  # private regs of scripts that become 1 once


@dataclass
class Script(Author):
    """Makes statements with time control: each begins and ends at a time that is 6 modulo 10."""
    steps: Steps = None
    flag: Declared = None  # its own
    toggle: Declared = None
    own_nets: list[Declared] = field(default_factory=list)  # what hangs on no other script's regs; it has settled after #0

    def simple(self):
        if random.random() < 0.03:
            return Assign(Assignment(self.flag, sized_number(1, 1)))
        return super().simple()

    def statement(self, size):
        if random.random() < 0.4:
            return self.timed(size)
        return super().statement(size)

    def timed(self, size):
        make = random.choice([self.step] * 8 + [self.interlude, self.no_time, self.no_time, self.own_event, self.own_wait] + [self.star] * 3)
        return make(size - 1)

    def body(self, size):
        return self.statement(size) if size > 0 else random.choice([Empty(), self.simple()])

    def step(self, size):
        return self.stepped(self.body(size))

    def stepped(self, body):
        """A statement after a wait from one time to the next."""
        make = random.choice([self.for_time, self.to_rise, self.to_rise, self.to_fall, self.to_steady, self.to_steady, self.to_condition,
                              self.to_condition, self.to_state, self.to_state, self.to_flag])
        return chained(make(), body)

    def for_time(self):
        return [delayed(random.choice([10, 10, 20]))]

    def to_rise(self):
        more = [self.steady_term() for _ in range(random.choice([0, 0, 0, 1, 2]))]
        return [at(shuffled([(RISE, CLOCK)] + more)), delayed(1)]

    def to_fall(self):
        more = [self.steady_term() for _ in range(random.choice([0, 0, 1, 2]))]
        terms = random.choice([[(FALL, CLOCK)], [(FALL, CLOCK)], [(CHANGE, CLOCK)], [(FALL, CLOCK), (RISE, CLOCK)]])
        return [at(shuffled(terms + more)), delayed(6)]

    def steady_term(self):
        return random.choice([RISE, FALL, CHANGE, CHANGE]), random.choice(self.steps.steady).name

    def to_steady(self):
        return [at([self.steady_term() for _ in range(random.choice([1, 1, 2, 3]))]), delayed(1)]

    def to_state(self, states=None):
        """To an edge of state regs, and then to a rise of the clock."""
        edges = [RISE, FALL, CHANGE, CHANGE, CHANGE]
        terms = [(random.choice(edges), random.choice(states or self.steps.states).name) for _ in range(random.choice([1, 2, 2, 3]))]
        return [at(terms)] + RISEN

    def to_condition(self):
        return [waiting(self.steady_condition())] + RISEN

    def to_flag(self):
        return [waiting(whole(random.choice(self.steps.flags)))] + RISEN if self.steps.flags else self.to_state()

    def steady_condition(self):
        """A condition over what changes once at a time, and over private regs."""
        reg = random.choice(self.steps.steady)
        small = Calm([reg], []).small() if not reg.is_scalar else whole(reg)
        kind = random.random()
        if kind < 0.5:
            return binary(random.choice([">=", ">", "==", "!="]), whole(reg), plain_number(random.randrange(1, min(2**reg.width, 9))))
        if kind < 0.7:
            return small
        if kind < 0.8:
            return unary(random.choice(["!", "|", "^", "~|", "&"]), small)
        if kind < 0.9:
            return binary("||", small, binary(">", whole(reg), plain_number(3)))
        return binary(random.choice(["!=", "==", "<"]), small, whole(random.choice(self.at_once)))

    def no_time(self, _size):
        """Something after all that is active, so that nets have settled, but before what is assigned by nonblocking assignments."""
        before, after = self.instants(self.readable), self.instants(self.readable + self.own_nets * 3)
        first = [later(before.assignment_to(random.choice(self.at_once)), random.choice(AT_ONCE_DELAYS)),
                 Assign(before.assignment_to(random.choice(self.at_once)))]
        target, net = random.choice(self.at_once), random.choice(self.own_nets or self.readable)
        make = random.choice([lambda size: Assign(Assignment(target, binary(random.choice("+^|"), whole(net), known_literal())))] * 2
                             + [after.conditional, after.selection])
        return Block(shuffled(first)[:random.randint(1, 2)] + [Delay(0, make(1))])

    def instants(self, readable):
        """Makes what takes no time, over some readable things."""
        return Author(readable + self.counting, self.at_once, self.later, AT_ONCE_DELAYS, self.loops, 0.15, [], self.makers)

    def interlude(self, size):
        """Something at another time, when nothing is touched but private regs."""
        author = self.instants(self.at_once)
        number = random.choice(INTERLUDES)
        return Block([Delay(number, author.statement(min(size, 4))), Delay(10 - number, self.body(size - 4))])

    def own_event(self, size):
        """An event that a nonblocking assignment of its own makes, now or later."""
        change = Assignment(self.toggle, unary("~", whole(self.toggle)))
        return self.after(change, at([(CHANGE, self.toggle.name)]), size)

    def own_wait(self, size):
        first, second = Assignment(self.toggle, sized_number(1, 0)), Assignment(self.toggle, sized_number(1, 1))
        return Block([Assign(first), self.after(second, waiting(whole(self.toggle)), size)])

    def after(self, assignment, control, size):
        if random.random() < 0.4:
            return Block([later(assignment, random.choice([None, 0])), control(self.body(size))])
        return Block([later(assignment, 4), chained([control, delayed(6)], self.body(size))])

    def star(self, size, states=None):
        """Waits for the regs that are read in what follows."""
        states = states or self.steps.states
        author = replace(self, readable=self.at_once, counting=list(self.counting), steps=replace(self.steps, flags=[]), own_nets=[],
                         makers=(Plain, Plain))
        reg = whole(random.choice(self.at_once))
        statements = [author.witness(random.choice(states)) for _ in range(random.choice([1, 1, 2]))]
        statements += [Assign(Assignment(self.at_once[0], binary("+", reg, unary("!", braces([reg])))))] * (random.random() < 0.3)
        return At(None, chained(RISEN, Block(statements + author.several(random.randint(0, max(0, size))))))

    def witness(self, reg):
        """A statement that reads a reg, anywhere."""
        node = whole(reg) if reg.is_scalar or random.random() < 0.8 else Calm([reg], []).small()
        target, own = random.choice(self.at_once), whole(random.choice(self.at_once))
        index = Assignment(self.at_once[0], self.expression(), index=node)
        makes = [lambda: Assign(Assignment(target, binary(random.choice("+^|-"), own, node))),
                 lambda: later(Assignment(target, binary(random.choice("+^|-"), own, node)), random.choice(SCRIPT_DELAYS)),
                 lambda: Assign(index), lambda: later(index, random.choice(SCRIPT_DELAYS)),
                 lambda: If(node, self.simple(), self.simple()),
                 lambda: Case("case", own, [Item([node], self.simple()), Item([], self.simple())]),
                 lambda: Case("casez", node, [Item([wild_literal(node.size)], self.simple()), Item([], self.simple())]),
                 lambda: self.loop_while(node), lambda: At(None, chained(RISEN, Assign(Assignment(target, node))))]
        return random.choice(makes)()

    def loop_while(self, node):
        """At most three times, while something holds."""
        if not self.loops:
            return If(node, self.simple())
        first, condition, step = self.count(self.loops[0])
        condition = binary("&&", condition, node)
        if random.random() < 0.5:
            return For(Assign(first), condition, Assign(step), self.simple())
        return Block([Assign(first), While(condition, Block([self.simple(), Assign(step)]))])

    def opening(self, word):
        """A wait from time 0 or 6 modulo 10 up to 6; an `always` comes to it from both."""
        kinds = [RISEN, RISEN, self.to_condition(), self.to_state(self.steps.late_states)]
        if word == "initial":
            start = whole(scalar(START))
            kinds += [[delayed(random.choice([6, 16]))], [at([(RISE, START)]), delayed(5)], [waiting(start), delayed(5)]]
        return random.choice(kinds)

    def initial(self, size):
        """Something at time 0, then a script, which at times goes on without end."""
        own = self.instants(self.at_once)
        first = self.first_values() + own.several(random.randint(0, 2))
        if random.random() < 0.2:
            first.append(Delay(0, own.statement(2)))
        statements = [chained(self.opening("initial"), self.statement(size // 2))] + self.several(size // 2)
        if random.random() < 0.5:
            statements.append(Forever(self.stepped(self.statement(size // 2))))
        return [Procedure("initial", Block(first + statements))]

    def first_values(self):
        return [Assign(first_value(reg)) for reg in [self.toggle, self.flag] + self.at_once if random.random() < 0.85]

    def always(self, size):
        """A script that begins again, at times with first values by another process."""
        first = [Procedure("initial", Delay(random.choice([2, 3, 4]), Block(self.first_values())))] * (random.random() < 0.8)
        if random.random() < 0.3:
            return first + [Procedure("always", self.star(size, self.steps.late_states))]
        body = Block(self.several(size)) if random.random() < 0.8 else self.statement(size)
        return first + [Procedure("always", chained(self.opening("always"), body))]

    def procedures(self, size):
        return self.initial(size) if random.random() < 0.55 else self.always(size)


def shuffled(items):
    return random.sample(items, len(items))


def chained(controls, body):
    """Each control with the next one as its statement, or before it in a block."""
    for control in reversed(controls):
        body = control(body) if random.random() < 0.85 else Block([control(Empty()), body])
    return body


def delayed(number):
    return lambda body: Delay(number, body)


def at(terms):
    return lambda body: At(terms, body)


def waiting(condition):
    return lambda body: Wait(condition, body)


RISEN = [at([(RISE, CLOCK)]), delayed(1)]


# ---- random modules

@dataclass
class Plan:
    """What the modules of a program have in common."""
    share: int  # how much stands in a module
    reset: str | None  # the edge at which the reset begins
    length: int  # about so long it runs
    ends: bool  # by its own `$finish`


@dataclass
class Combinational:
    """A process whose regs hang on what it reads alone."""
    procedure: Procedure
    outputs: list[Declared]


@dataclass
class Unit(Module):
    """A module with processes."""
    plan: Plan = None
    processes: list[Procedure] = field(default_factory=list)
    states: list[Declared] = field(default_factory=list)
    scripts: list[Script] = field(default_factory=list)
    steps: Steps = field(default_factory=Steps)
    late: dict[str, set] = field(default_factory=dict)  # what hangs on private regs, of which scripts; other scripts don't read it
    readable: list[Declared] = field(default_factory=list)
    floating: set[str] = field(default_factory=set)  # what may be z from the start on, so that nets don't read it
    waiting: list[Declared] = field(default_factory=list)  # outputs that nothing drives yet
    initially: list[Declared] = field(default_factory=list)  # nets that are declared with what drives them

    def early(self):
        return [d for d in self.readable if d.name not in self.late]

    def driven(self):
        return [d for d in self.readable if d.name not in self.floating]

    def has_z(self, node):
        """Whether it has a z where nothing has happened yet but for the localparams."""
        values = {d.name: "x" * d.width for d in self.declared()}
        values.update({name: constant.own(Environment(values)) for name, constant in self.constants.items()})
        return "z" in node.own(Environment(values))

    def reg(self, name, is_short=False):
        """A new reg of the module, at times an output."""
        waiting = [o for o in self.outputs if o in self.waiting and not is_short]
        if waiting and random.random() < 0.5:
            output = waiting[0]
            self.waiting.remove(output)
            output.word = "reg"
            return output
        made = short_vector(name, "reg") if is_short else declare(name, "reg")
        self.inside.append(made)
        return made


def short_vector(name, word):
    return Declared(name, random.randint(3, 6), random.choice([0, 0, 0, 1, 4]), word=word)


def scalar(name, word="wire"):
    return Declared(name, 1, 0, is_scalar=True, word=word)


def make_unit(name, lower, plan):
    """A module; the top module has no ports."""
    unit = Unit(name, plan=plan)
    add_ports(unit)
    for k in range(random.choice([0, 0, 1, 2] if plan.share > 1 else [0, 0, 0, 1])):
        add_constant(unit, f"P{k}")
    add_states(unit)
    for k in range(random.choice([0, 1, 1, 2] if plan.share > 3 else [0, 1, 1] if plan.share > 1 else [0, 0, 1])):
        add_private_regs(unit, k)
    add_parts(unit, lower)
    add_processes(unit)
    leave_out_unused(unit)
    unit.lines = lines_of(unit)
    return unit


def leave_out_unused(unit):
    """Without the regs that nothing names."""
    texts = [line for procedure in unit.processes for line in procedure.lines()] + [p.node.text for p in unit.order if isinstance(p, Driver)]
    texts += [connections(p) for p in unit.order if isinstance(p, Instance)]
    used = names_in(" ".join(texts)).union(signals(unit.plan))
    unit.inside = [d for d in unit.inside if d.word != "reg" or d.name in used]


def signals(plan):
    """What is handed down to all modules."""
    return [CLOCK, START] + [RESET] * bool(plan.reset)


def add_ports(unit):
    if unit.name == "top":
        unit.inside += [scalar(name, "reg") for name in signals(unit.plan)]
        return
    unit.inputs = [declare(f"i{k}") for k in range(random.randint(0, 3))]
    unit.late = {i.name: {OUTSIDE} for i in unit.inputs if random.random() < 0.3}
    unit.floating = {i.name for i in unit.inputs if random.random() < 0.12}
    unit.readable += unit.inputs
    beats = [short_vector(BEAT, "wire")] * (random.random() < 0.3)
    unit.steps.steady += beats
    unit.readable += beats
    unit.inputs = shuffled([scalar(name) for name in signals(unit.plan)] + beats + unit.inputs)
    unit.outputs = [declare(f"o{k}") for k in range(random.randint(1, 3 if unit.plan.share > 3 else 2 if unit.plan.share else 1))]
    unit.waiting = list(unit.outputs)


def add_constant(unit, name, literal=None):
    literal = literal or random.choice([known_literal, known_literal, sized_literal])()
    unit.constants[name] = literal
    unit.inside.append(Declared(name, literal.size, 0, word="localparam"))
    unit.readable.append(unit.inside[-1])


def add_states(unit):
    """The counter and the state regs, with their first values."""
    counter = Declared("cnt", random.randint(5, 7), random.choice([0, 0, 0, 1, 9]), word="reg")
    unit.inside.append(counter)
    unit.states = [unit.reg(f"s{k}") for k in range(random.randint(1, 2 + unit.plan.share // 8) if unit.plan.share else 1)]
    at_start = [s for s in unit.states if random.random() < 0.3]
    others = [s for s in unit.states if s not in at_start and random.random() < 0.85]
    if at_start:
        unit.processes.append(Procedure("initial", one_or_block([Assign(first_value(s)) for s in at_start])))
    add_late_values(unit, others)
    add_counter(unit, counter)
    unit.steps.steady.append(counter)
    waves = add_wave(unit, counter) if random.random() < (0.4 if unit.plan.share > 3 else 0.2) else []
    unit.readable += [counter] + unit.states + waves[:1] + waves
    unit.steps.states = [counter] + unit.states + waves + [scalar(RESET)] * bool(unit.plan.reset)
    unit.steps.late_states = [counter] + [s for s in unit.states + waves[:1] if s not in at_start]


def add_wave(unit, counter):
    """A state reg whose least bit takes all four values, one at each rise of the clock."""
    digits = "".join(random.choice("0011xz?") for _ in range(16))
    add_constant(unit, "W0", constant(f"16'b{digits}", digits.replace("?", "z")))
    bit = bit_select(unit.inside[-1], part_select(counter, counter.low + 3, counter.low))
    wave = scalar(WAVE, "reg") if random.random() < 0.5 else Declared(WAVE, random.randint(2, 3), random.choice([0, 0, 2]), word="reg")
    node = bit if wave.is_scalar else braces([part_select(counter, counter.low + 1, counter.low), bit])
    unit.inside.append(wave)
    unit.processes.append(Procedure("always", At([(RISE, CLOCK)], later(Assignment(wave, node), None))))
    add_late_values(unit, [wave] * (random.random() < 0.5))
    unit.steps.steady.append(wave)
    return [wave] + [add_edge_counter(unit, wave, f"k{k}") for k in range(random.randint(1, 2))]


def add_edge_counter(unit, wave, name):
    """A state reg that counts some edges of the wave, or what the wave then is."""
    counter = Declared(name, random.randint(4, 6), 0, word="reg")
    terms = [(random.choice([RISE, RISE, FALL, FALL, CHANGE]), WAVE)] + [(unit.plan.reset, RESET)] * bool(unit.plan.reset and random.random() < 0.3)

    def more(number):
        assignment = Assignment(counter, binary("+", whole(counter), plain_number(number)))
        return random.choice([Assign(assignment), later(assignment, random.choice([None, None, 2]))])
    body = random.choice([lambda: more(1), lambda: case_of_wave(wave, more)])()
    unit.inside.append(counter)
    unit.processes += [Procedure("initial", Assign(Assignment(counter, known_literal(4)))), Procedure("always", At(shuffled(terms), body))]
    return counter


def case_of_wave(wave, more):
    literals = [mixed_literal(wave.width) for _ in range(random.randint(2, 4))] + [sized_number(1, 1)] * (random.random() < 0.2)
    items = [Item([literal], more(2 * k + 1)) for k, literal in enumerate(literals)]
    default = [Item([], more(10), random.choice(["default:", "default"]))] * (random.random() < 0.7)
    return Case(random.choice(["case", "casez"]), whole(wave), shuffled(items + default))


def one_or_block(statements):
    return statements[0] if len(statements) == 1 and random.random() < 0.7 else Block(statements)


def first_value(reg):
    return Assignment(reg, mixed_literal(reg.width) if random.random() < 0.05 else known_literal(reg.width))


def add_late_values(unit, regs):
    """First values at 2, 3 or 4."""
    if not regs:
        return
    if random.random() < 0.5:
        body = one_or_block([later(first_value(reg), random.choice([2, 3, 4])) for reg in regs])
    else:
        body = Delay(random.choice([2, 3, 4]), one_or_block([Assign(first_value(reg)) for reg in regs]))
    unit.processes.append(Procedure("initial", body))


def add_counter(unit, counter):
    """One more at each rise of the clock."""
    number = random.choice([0, 0, 0, 1, 2])
    first = Assignment(counter, random.choice([plain_number, lambda n: sized_number(counter.width, n)])(number))
    more = later(Assignment(counter, binary("+", whole(counter), random.choice([plain_number(1), sized_number(1, 1)]))), None)
    counted = At([(RISE, CLOCK)], more)
    if random.random() < 0.3:
        both = Block([Delay(2, Assign(first)), Forever(counted)])
        unit.processes.append(Procedure("initial", both))
    else:
        unit.processes += shuffled([Procedure("initial", random.choice([Delay(2, Assign(first)), later(first, 3)])),
                                    Procedure("always", counted)])


def add_private_regs(unit, number):
    """The regs of a script, of which the first is short."""
    regs = [unit.reg(f"q{number}_0", is_short=True)] + [unit.reg(f"q{number}_{k}") for k in range(1, random.randint(2, 3))]
    loops = [short_vector(f"n{number}_{k}", "reg") for k in range(2)]
    for loop in loops:
        loop.width = max(loop.width, 4)
    flag, toggle = scalar(f"f{number}", "reg"), scalar(f"h{number}", "reg")
    unit.inside += loops + [flag, toggle]
    unit.late |= {reg.name: {number} for reg in regs}
    unit.readable += regs
    unit.scripts.append(Script([], regs, regs, SCRIPT_DELAYS, loops, 0.25, flag=flag, toggle=toggle))


def add_parts(unit, lower):
    """Nets, combinational processes and instances, each after what it reads; in the end what drives the outputs that are left."""
    makes = [add_net] * 4 + [add_combinational] * 3 + [add_beat] + [add_instance] * 4 * bool(lower)
    for k in range(random.randint(1, 2 + unit.plan.share // 4) if unit.plan.share else 1):
        random.choice(makes)(unit, k, lower)
    for k, script in enumerate(unit.scripts):
        if random.random() < 0.5 and unit.plan.share > 1:
            add_net(unit, 70 + k, lower, readable=script.at_once)
            add_combinational(unit, 70 + k, lower, readable=[unit.readable[-1]] + script.at_once)
    if unit.name == "top":
        for k, module in enumerate(m for m in lower if not any(m.name in reached_from(part) for part in lower + drawn(unit) if part is not m)):
            add_instance(unit, 80 + k, [module])
    for k, output in enumerate(list(unit.waiting)):
        random.choice([add_net, add_combinational])(unit, 91 + k, lower, output)
        unit.waiting = [o for o in unit.waiting if o is not output]


def drawn(unit):
    """The modules that a module instantiates."""
    return [part.module for part in unit.order if isinstance(part, Instance)]


def author_of(readable):
    return Author(readable, [], [], [], [])


def depends(unit, names, made):
    """What is made of names hangs on them."""
    scripts = set().union(*(unit.late.get(name, set()) for name in names))
    if scripts:
        unit.late |= {d.name: scripts for d in made}
    unit.readable += made


def add_net(unit, number, _lower, output=None, readable=()):
    """A net, driven or not; not all that is readable may be read."""
    net = output or declare(f"w{number}")
    names = set()
    if not output:
        unit.inside.append(net)
    if output or readable or random.random() < 0.92:
        driver = Driver(net, driving(unit, readable or unit.driven()))
        names = names_in(driver.node.text)
        unit.order.append(driver)
        if not output and random.random() < 0.4:
            unit.initially.append(net)
    else:
        unit.floating.add(net.name)
    depends(unit, names, [net])


def driving(unit, readable):
    """What a net is given."""
    kind = random.random()
    while True:
        node = Calm(readable, []).small() if kind < 0.2 else author_of(readable).expression()
        if not unit.has_z(node) and not node.is_signed:
            return node


def add_beat(unit, number, _lower):
    """A net that hangs on one thing that changes with the clock alone, once in its expression, so that it changes once too."""
    source = random.choice(unit.steps.steady)
    small = Calm([source], []).small() if not source.is_scalar else whole(source)
    makes = [lambda: whole(source), lambda: small, lambda: binary("+", whole(source), plain_number(random.randrange(9))),
             lambda: unary("~", whole(source)), lambda: braces([small, sized_number(2, random.randrange(4))]),
             lambda: binary(random.choice([">", "==", "<"]), whole(source), plain_number(random.randrange(9)))]
    net = declare(f"b{number}")
    unit.inside.append(net)
    unit.order.append(Driver(net, random.choice(makes)()))
    unit.steps.steady.append(net)
    depends(unit, set(), [net])


def add_combinational(unit, number, _lower, output=None, readable=()):
    """A process that gives each of its regs a value first."""
    outputs = [output] if output else [unit.reg(f"c{number}_{k}") for k in range(random.randint(1, 2))]
    for made in outputs:
        made.word = "reg"
    loops = [short_vector(f"n{number}c", "reg")]
    loops[0].width = max(loops[0].width, 4)
    body = combinational_body(readable or unit.readable, outputs, loops, random.randint(1, 2 + unit.plan.share // 4))
    unit.inside += loops
    names = awaited(body) - {d.name for d in outputs + loops} - set(unit.constants)
    procedure = Procedure("always", At(None if random.random() < 0.6 else [(CHANGE, name) for name in shuffled(sorted(names))], body), is_whole=True)
    unit.order.append(Combinational(procedure, outputs))
    unit.processes.append(procedure)
    depends(unit, names, outputs)


def combinational_body(readable, outputs, loops, size):
    """By blocking assignments, which may read what they made; or by nonblocking ones."""
    before = author_of(readable)
    if random.random() < 0.15:
        first = [later(Assignment(reg, started(before.expression())), random.choice(AT_ONCE_DELAYS)) for reg in outputs]
        author = Author(readable, [], outputs, AT_ONCE_DELAYS, loops, 1)
    else:
        first = [Assign(Assignment(reg, started(before.expression()))) for reg in outputs]
        author = Author(readable + outputs, outputs, [], [], loops)
    statements = author.several(size)
    counted = {name for statement in statements for name in names_in(" ".join(statement.lines()))}
    first += [Assign(Assignment(loop, known_literal(3))) for loop in loops if loop.name in counted]
    return Block(first + statements)


def started(node):
    """An expression that reads what rises when all processes wait."""
    start = whole(scalar(START))
    return random.choice([lambda: choice(start, node, known_literal()), lambda: choice(unary("!", start), known_literal(), node),
                          lambda: binary(random.choice("&^+"), node, start)])()


def add_instance(unit, number, lower):
    module = random.choice(lower)
    if len(lower) > 1 and len(drawn(unit)) > 1:
        return
    inputs = {port.name: connected(unit, module, port) for port in module.inputs}
    outputs = {port.name: None if random.random() < 0.12 else declare(f"w{number}_{k}") for k, port in enumerate(module.outputs)}
    made = [net for net in outputs.values() if net]
    unit.inside += made
    unit.order.append(Instance(f"u{number}", module, inputs, outputs))
    unit.late |= {net.name: {OUTSIDE} for name, net in outputs.items() if net and name in module.late}
    unit.readable += made


def connected(unit, module, port):
    """What an input is given; one that scripts of the module may read hangs on state regs alone."""
    if port.name in signals(unit.plan):
        return whole(port)
    if port.name == BEAT:
        return whole(random.choice(unit.steps.steady))
    if port.name in module.floating and random.random() < 0.6:
        return None
    readable = [d for d in unit.driven() if port.name in module.late or d.name not in unit.late]
    names = [whole(d) for d in readable if d.word != "localparam"]
    return random.choice(names) if random.random() < 0.5 else driving(unit, readable)


def add_processes(unit):
    """Synchronous processes, each over some of the state regs, and scripts."""
    owners = [[] for _ in range(random.randint(1, len(unit.states)))]
    for place, state in enumerate(shuffled(unit.states)):
        owners[place % len(owners)].append(state)
    for number, states in enumerate(owners):
        unit.processes.append(synchronous(unit, f"{number}s", states, random.randint(1, 2 + unit.plan.share // 2)))
    for script in unit.scripts:
        add_script(unit, script)


def add_script(unit, script):
    others = [other.flag for other in unit.scripts if other is not script]
    script.readable = unit.early() + script.at_once
    number = unit.scripts.index(script)
    script.own_nets = [d for d in unit.readable if unit.late.get(d.name) == {number} and d not in script.at_once]
    script.steps = replace(unit.steps, flags=others)
    unit.processes += script.procedures(random.randint(2, 3 + unit.plan.share))


def synchronous(unit, number, states, size):
    """A process at each rise of the clock."""
    temporaries = [unit.reg(f"t{number}", is_short=True)] * (random.random() < 0.4)
    loops = [short_vector(f"n{number}", "reg")]
    loops[0].width = max(loops[0].width, 4)
    with_reset = unit.plan.reset and random.random() < 0.4
    author = Author(unit.readable + temporaries, temporaries, states, RESET_DELAYS if with_reset else SYNCHRONOUS_DELAYS, loops)
    body = one_or_block(author.several(size))
    unit.inside += loops
    return reset_or(unit.plan.reset, states, body) if with_reset else at_each_rise(body)


def at_each_rise(body):
    """The ways to write it."""
    event = At([(RISE, CLOCK)], body)
    kind = random.random()
    if kind < 0.6:
        return Procedure("always", event)
    if kind < 0.7:
        return Procedure("always", Block([event]))
    if kind < 0.8:
        return Procedure("always", Block([At([(RISE, CLOCK)], Empty()), body]))
    if kind < 0.9:
        return Procedure("initial", Forever(event))
    return Procedure("initial", While(random.choice([plain_number(1), sized_number(1, 1)]), event))


def reset_or(edge, states, body):
    """A process that the reset wakes too."""
    reset = whole(scalar(RESET))
    condition = reset if edge == RISE else random.choice([unary("!", reset), unary("~", reset), binary("==", reset, sized_number(1, 0))])
    first = Block([later(first_value(state), random.choice(RESET_DELAYS)) for state in states])
    return Procedure("always", At(shuffled([(RISE, CLOCK), (edge, RESET)]), If(condition, first, body)))


def lines_of(unit):
    """The module's text: declarations first, then all else in any order."""
    ports = [f"input {random.choice(['wire ', ''])}{p.range()}{p.name}" for p in unit.inputs]
    ports += [f"output {'reg ' if p.word == 'reg' else random.choice(['wire ', ''])}{p.range()}{p.name}" for p in unit.outputs]
    lines = [f"module {unit.name}({', '.join(ports)});" if ports else f"module {unit.name};"]
    lines += [declaration(unit, d) for d in unit.inside if d not in unit.initially]
    drivers = [part for part in unit.order if isinstance(part, Driver)]
    lines += [f"wire {d.target.range()}{d.target.name} = {d.node.text};" for d in drivers if d.target in unit.initially]
    parts = [[f"assign {d.target.name} = {d.node.text};"] for d in drivers if d.target not in unit.initially]
    parts += [[f"{i.module.name} {i.name}({connections(i)});"] for i in unit.order if isinstance(i, Instance)]
    parts += [procedure.lines() for procedure in unit.processes]
    return lines + [line for part in shuffled(parts) for line in part] + ["endmodule"]


def declaration(unit, declared):
    if declared.word == "localparam":
        return f"localparam {declared.name} = {unit.constants[declared.name].text};"
    return f"{declared.word} {declared.range()}{declared.name};"


# ---- random programs

def add_signals(top):
    """The processes of the clock, of what rises at 1, and of the reset."""
    top.processes.append(clock(top))
    start = Assignment(scalar(START, "reg"), sized_number(1, 1))
    first = Assign(Assignment(scalar(START, "reg"), random.choice([plain_number(0), sized_number(1, 0)])))
    rise = random.choice([Delay(1, Assign(start)), later(start, 1)])
    top.processes.append(Procedure("initial", Block([first, rise]) if random.random() < 0.7 else rise))
    if top.plan.reset:
        top.processes.append(reset(top.plan))


def value_of(name, number):
    return Assign(Assignment(scalar(name, "reg"), random.choice([plain_number, lambda n: sized_number(1, n)])(number)))


def clock(top):
    """A clock, at times one that stops."""
    turned = Delay(5, Assign(Assignment(scalar(CLOCK, "reg"), unary(random.choice("~!"), whole(scalar(CLOCK))))))
    both = Block([Delay(5, value_of(CLOCK, 1)), Delay(5, value_of(CLOCK, 0))])
    kind = random.random()
    if kind < 0.3:
        return Procedure("initial", Block([value_of(CLOCK, 0), Forever(turned)]))
    if kind < 0.5:
        return Procedure("initial", Forever(both))
    if kind < 0.7:
        return Procedure("always", both)
    if kind < 0.85:
        return Procedure("initial", Block([value_of(CLOCK, 0), While(sized_number(1, 1), turned)]))
    return Procedure("initial", bounded_clock(top, both))


def bounded_clock(top, both):
    variable = Declared("periods", 6, 0, word="reg")
    top.inside.append(variable)
    node, count = whole(variable), plain_number(random.randint(4, 3 + top.plan.length // 10))
    first, step = Assign(Assignment(variable, plain_number(0))), Assign(Assignment(variable, binary("+", node, plain_number(1))))
    if random.random() < 0.5:
        return For(first, binary("<", node, count), step, both)
    return Block([first, While(binary("!=", node, count), Block([both, step]))])


def reset(plan):
    """Off at first, then on and off at 8 modulo 10."""
    on = int(plan.reset == RISE)
    times = random.randint(1, 2)
    turned = Assign(Assignment(scalar(RESET, "reg"), unary("~", whole(scalar(RESET)))))
    if random.random() < 0.3:
        return Procedure("initial", Block([value_of(RESET, 1 - on), Delay(8, Empty()), Forever(Delay(random.choice([20, 30]), turned))]))
    pulses = [Delay(random.choice([10, 20, 30]), value_of(RESET, int(k % 2 == on))) for k in range(1, 2 * times + 1)]
    return Procedure("initial", Block([value_of(RESET, 1 - on), Delay(8, Empty())] + pulses))


def ending(top):
    """A process that ends the run at a time that is 2 modulo 10."""
    counter = next(d for d in top.inside if d.name == "cnt")
    periods = max(3, top.plan.length // 10)
    reached = binary(random.choice([">=", ">"]), whole(counter), plain_number(min(periods, 2**counter.width - 2)))
    ended = scalar("ended", "reg")
    finish = Finish()
    if random.random() < 0.5:
        top.inside.append(ended)
        finish = Block([finish, Assign(Assignment(ended, sized_number(1, 1)))])
    kind = random.choice(range(6))
    if kind == 0:
        return Procedure("initial", Delay(10 * periods + 2, finish))
    if kind == 1:
        return Procedure("initial", Wait(reached, Delay(7, finish)))
    if kind == 2:
        return Procedure("always", At([(RISE, CLOCK)], If(reached, Delay(7, finish))))
    if kind == 3:
        return Procedure("initial", Block([Delay(12, Empty()), While(unary("!", braces([reached])), Delay(10, Empty())), finish]))
    if kind == 4:
        items = [Item([plain_number(periods)], finish), Item([], Empty(), "default")]
        return Procedure("always", At([(FALL, CLOCK)], Delay(2, Case(random.choice(["case", "casez"]), whole(counter), shuffled(items)))))
    return Procedure("initial", Block([Delay(2, Empty()), Forever(Delay(10, If(reached, finish, Empty())))]))


def make_program():
    """The modules of a program, those first that others instantiate."""
    count = random.choice([1, 1, 2, 2, 3, 3, 4, 4, 5, 5])
    plan = Plan({1: 12, 2: 4, 3: 3, 4: 1, 5: 0}[count], random.choice([None, None, RISE, FALL]), random.randrange(30, 200), random.random() < 0.5)
    modules = []
    for k in range(count - 1):
        modules.append(make_unit(f"m{k}", modules[-3:], plan))
    top = make_unit("top", modules, plan)
    add_signals(top)
    if plan.ends:
        top.processes.append(ending(top))
    top.lines = lines_of(top)
    used = reached_from(top)
    return top, [m for m in modules if m.name in used] + [top]


def reached_from(module):
    names = {module.name}
    for part in module.order:
        if isinstance(part, Instance):
            names |= reached_from(part.module)
    return names


# ---- Icarus Verilog

def shown_by_icarus(text, names, time):
    """The values at a time, none where the run ended before, and whether it goes on two units later."""
    show = f"module show; initial begin #{time} " + " ".join(f'$display("= %b", {name});' for name in names)
    show += ' #2 $display("+"); $finish; end endmodule\n'
    with tempfile.TemporaryDirectory() as folder:
        with open(f"{folder}/cases.v", "w") as f:
            f.write(text + show)
        command = ["iverilog", "-g2005", "-gstrict-expr-width", "-s", "top", "-s", "show", "-o", f"{folder}/cases", f"{folder}/cases.v"]
        compiled = subprocess.run(command, capture_output=True, text=True)
        assert compiled.returncode == 0, compiled.stderr[-2000:] + text
        run = subprocess.run(["vvp", "-n", f"{folder}/cases"], check=True, capture_output=True, text=True, timeout=60)
    lines = run.stdout.splitlines()
    values = [line[2:] for line in lines if line.startswith("= ")]
    return dict(zip(names, values, strict=True)) if values else None, "+" in lines


# ---- cases

@dataclass
class Run:
    """What is known of a program's run: until when it goes, the time and the values then."""
    until: int
    time: int
    is_finished: bool
    values: dict[str, str]


def run_of(top, generator=None):
    """The run of a program up to its end, or to a time at which it is left."""
    simulation = Simulation(top, (), generator)
    until = top.plan.length // 10 * 10 + 2
    simulation.run(until + 100 if top.plan.ends else until)
    if top.plan.ends and not simulation.is_finished:
        simulation = Simulation(top, (), generator)
        simulation.run(until)
    return Run(simulation.time if simulation.is_finished else until, simulation.time, simulation.is_finished, simulation.shown())


def shown_by_standard(top, time, departures):
    """As Icarus shows it, with some of its departures."""
    simulation = Simulation(top, departures)
    simulation.run(time)
    values = None if simulation.is_finished else simulation.shown()
    simulation.run(time + 2)
    return values, not simulation.is_finished


def differences(told, shown):
    """What a failure tells."""
    if told[0] is None or shown[0] is None or told[1] != shown[1]:
        return [f"goes on: Icarus {shown[1]}, by the standard {told[1]}"]
    return [f"{name}: Icarus {shown[0][name]}, by the standard {told[0][name]}" for name in told[0] if shown[0][name] != told[0][name]]


def changed(run, other):
    return [f"until {run.until}, {other.until}"] + [f"{name}: {run.values[name]}, {other.values[name]}"
                                                    for name in run.values if run.values[name] != other.values[name]]


def text_of(modules):
    return "".join("\n".join(module.lines) + "\n" for module in modules)


def fitting():
    """A program that is neither too long nor too short, and its text."""
    while True:
        top, modules = make_program()
        text = text_of(shuffled(modules))
        if LINES[0] <= text.count("\n") <= LINES[1] and instances_in(top) <= MOST_INSTANCES:
            return top, modules, text


def judged():
    """A program, its text, its run, and the departures of Icarus in it. One with a race is told, and another is made: some few have one."""
    while True:
        top, modules, text = fitting()
        run = run_of(top)
        others = [run_of(top, random.Random(seed)) for seed in range(1, ORDERS)]
        if all(run == other for other in others):
            break
        print("passed over, since it has a race: " + "; ".join(difference for other in others for difference in changed(run, other)), file=sys.stderr)
    assert run.until % 10 == 2, f"at another time:\n{text}"
    told = shown_by_standard(top, run.until - 1, ())
    assert told == (run.values, not run.is_finished), f"the values change after what is shown:\n{text}"
    return modules, text, run, departures_in(top, text, run, told)


def departures_in(top, text, run, told):
    """The fewest departures with which the simulator shows what Icarus shows; none where it follows the standard."""
    shown = shown_by_icarus(text, list(run.values), run.until - 1)
    for count in range(len(DEPARTURES) + 1):
        for departures in combinations(DEPARTURES, count):
            if shown == shown_by_standard(top, run.until - 1, departures):
                return departures
    raise AssertionError("\n".join([text] + differences(told, shown)))


def case(number, text, run):
    script = ['{"op":"open","user":"ann","token":"t1"}', '{"op":"run","until":%d}' % (run.until + 100 * run.is_finished), '{"op":"time"}']
    told = ['{"ok":true}', '{"ok":true}', '{"finished":%s,"time":%d}' % (str(run.is_finished).lower(), run.time)]
    for handle, (name, digits) in enumerate(run.values.items(), 1):
        script += ['{"op":"handle","name":"%s"}' % name, '{"op":"value","h":%d}' % handle]
        told += ['{"h":%d}' % handle, '{"value":"%s"}' % digits]
    title = f"## random program {number}, as Icarus Verilog computed it"
    return "\n".join([title, text.rstrip("\n"), "%%", POLICY, "%%"] + script + ["=="] + told + [""])


def instances_in(module):
    return 1 + sum(instances_in(part.module) for part in module.order if isinstance(part, Instance))


def main():
    numbers, file = [int(word) for word in sys.argv[1:3]], sys.argv[3:]
    wanted = numbers[0] if numbers else PROGRAMS
    random.seed(numbers[1] if len(numbers) > 1 else SEED)
    made, left_out, forms, counts = [], Counter(), Counter(), Counter()
    while len(made) < wanted:
        modules, text, run, departures = judged()
        if departures:
            left_out[" and ".join(departures)] += 1
            continue
        made.append(case(len(made) + 1, text, run))
        forms.update(form for module in modules for procedure in module.processes for form in procedure.forms())
        counts.update(values=len(run.values), lines=text.count("\n"), finished=run.is_finished, modules=len(modules),
                      instances=len({name.rpartition(".")[0] for name in run.values}),
                      unknown=sum(not is_known(digits) for digits in run.values.values()))
    for name in file or ([] if numbers else ["data/programs.cases"]):
        with open(name, "w") as f:
            f.write("".join(made))
    print(f"{len(made)} programs, " + ", ".join(f"{number} {name}" for name, number in counts.items()))
    print("; ".join(f"{name}: {number}" for name, number in sorted(forms.items())))
    for departures, times in sorted(left_out.items()):
        print(f"left out for a departure of Icarus, {departures}: {times}")


if __name__ == "__main__":
    main()

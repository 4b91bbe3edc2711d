"""Statements and processes of Verilog, and a simulator of them by IEEE Std 1364-2005, clauses 5, 6, 9, 11 and 12.

make_programs.py makes programs of these, and runs them. A statement is its text and what it does: a generator that yields what it waits
for. The simulator can also depart from the standard in ways in which Icarus Verilog 11 does, each by its name:

- WAITS_NESTED: `@*` waits also for what the condition of a `wait` within its statement reads, which the standard leaves out (9.7.5), as in
  `always @* wait (a) y = b;`, which Icarus runs again when `a` changes.
- SKIPS_IDLE: `@*` does not wait for what the labels of an item of a case read whose statement is empty (9.7.5), as in
  `always @* case (1) a: ; default: y = b; endcase`, which Icarus does not run where `a` changes.
- LOSES_SELECT: the first assignment of a `for` sets its whole target where a bit or a part of it is selected (9.6), as in
  `for (i[1:0] = 3; ..)`, which leaves the other bits of `i` at 0.
"""

import functools
import random
import re
from dataclasses import dataclass

from make_expressions import Assignment, Environment, Node, resize, truth
from make_hierarchy import Driver, Instance, given_to, in_context

WIDEST = 110  # characters of a line that a further statement may follow on
MOST_EVENTS = 20000  # of a time
WAITS_NESTED = "wait's condition within @*"
SKIPS_IDLE = "labels of empty items within @*"
LOSES_SELECT = "select of for's first target"
RISE, FALL, CHANGE = "posedge", "negedge", ""


# ---- what a process waits for

PAUSE = object()  # another active event may come before what follows


@dataclass
class Delayed:
    time: int


@dataclass
class Changes:
    """The first that comes of some edges of objects."""
    terms: list[tuple[str, str]]


LITERAL = r"[0-9_]*\s*'[bodhBODH]\s*[0-9a-fA-FxXzZ?_]+"


@functools.cache
def names_in(text):
    """The names in the text of an expression."""
    return frozenset(re.findall(r"\b[A-Za-z]\w*", re.sub(LITERAL, " ", text)))


def holds(node, scope):
    """Whether the truth of a condition is 1 (9.4, 9.6)."""
    return truth(node.own(scope.environment)) == "1"


# ---- statements

def indented(lines):
    return ["  " + line for line in lines]


def headed(head, body):
    """A statement after its head, on the same line where there is room."""
    lines = body.lines()
    if len(head) + len(lines[0]) < WIDEST:
        return [f"{head} {lines[0]}"] + lines[1:]
    return [head] + indented(lines)


class Statement:
    """Its text, what it does in a scope, which yields what it waits for, and what `@*` waits for: the expressions that it reads."""

    def parts(self):
        """The statements in it."""
        return []

    def nodes(self):
        return []

    def nodes_but_idle(self):
        """The same without the labels of items that do nothing."""
        return self.nodes()

    def conditions(self):
        """The expressions that it waits for."""
        return []

    def is_open(self):
        """Whether an `else` after it would be its own."""
        return False

    def forms(self):
        """The names of the forms that it shows."""
        return []


def awaited_nodes(statement, departures=()):
    """What `@*` waits for: not what is read in nested events and conditions of `wait` (9.7.5)."""
    nodes = statement.nodes_but_idle() if SKIPS_IDLE in departures else statement.nodes()
    nodes = nodes + (statement.conditions() if WAITS_NESTED in departures else [])
    return nodes + [node for part in statement.parts() for node in awaited_nodes(part, departures)]


def awaited(statement):
    return frozenset().union(*(names_in(node.text) for node in awaited_nodes(statement)))


def awaited_terms(statement, scope):
    nodes = awaited_nodes(statement, scope.environment.departures)
    return [(CHANGE, name) for name in frozenset().union(*(names_in(node.text) for node in nodes))]


def forms_of(statement):
    return statement.forms() + [form for part in statement.parts() for form in forms_of(part)]


@dataclass
class Empty(Statement):
    def lines(self):
        return [";"]

    def run(self, _scope):
        yield PAUSE

    def forms(self):
        return ["empty statement"]


@dataclass
class Block(Statement):
    statements: list[Statement]

    def parts(self):
        return self.statements

    def lines(self):
        return ["begin"] + indented(line for s in self.statements for line in s.lines()) + ["end"] if self.statements else ["begin end"]

    def run(self, scope):
        yield PAUSE
        for statement in self.statements:
            yield from statement.run(scope)

    def forms(self):
        return ["block" if self.statements else "empty block"]


def target_forms(assignment):
    return ["target bit"] if assignment.index else ["target part"] if assignment.part else []


def given_bits(assignment, environment):
    """Which digits of its target an assignment sets, and to what."""
    first, end = assignment.places(environment)
    return first, end, assignment.result(environment)[first:end]


@dataclass
class Assign(Statement):
    assignment: Assignment

    def nodes(self):
        return [self.assignment.node] + ([self.assignment.index] if self.assignment.index else [])

    def lines(self):
        return [self.assignment.text()]

    def run(self, scope):
        scope.put(self.assignment.reg.name, *given_bits(self.assignment, scope.environment))
        yield PAUSE

    def forms(self):
        return ["blocking assignment"] + target_forms(self.assignment)


@dataclass
class Later(Assign):
    """A nonblocking assignment (9.2.2)."""
    delay: int | None
    delay_text: str

    def lines(self):
        target, _, value = self.assignment.text().partition(" = ")
        return [f"{target} <= {self.delay_text}{value}"]

    def run(self, scope):
        name, bits = self.assignment.reg.name, given_bits(self.assignment, scope.environment)
        scope.simulation.update_later(self.delay or 0, lambda: scope.put(name, *bits))
        yield PAUSE

    def forms(self):
        kind = "nonblocking assignment" + ("" if self.delay is None else " with delay" if self.delay else " with delay 0")
        return [kind] + target_forms(self.assignment)


def delay_text(number):
    digits = random.choice([str(number)] * 9 + [str(number)[0] + "_" + str(number)[1:] if number > 9 else str(number)])
    return f"#({digits})" if random.random() < 0.2 else f"#{digits}"


def later(assignment, delay):
    return Later(assignment, delay, "" if delay is None else delay_text(delay) + " ")


@dataclass
class Delay(Statement):
    number: int
    body: Statement
    text: str = ""

    def __post_init__(self):
        self.text = delay_text(self.number)

    def parts(self):
        return [self.body]

    def lines(self):
        return headed(self.text, self.body)

    def run(self, scope):
        yield Delayed(self.number)
        yield from self.body.run(scope)

    def is_open(self):
        return self.body.is_open()

    def forms(self):
        return ["delay" if self.number else "delay 0"] + ["delay in parentheses"] * ("(" in self.text)


def event_text(terms):
    """An event over some edges: without parentheses at times where it is one name."""
    texts = [f"{edge} {name}".strip() for edge, name in terms]
    if len(terms) == 1 and terms[0][0] == CHANGE and random.random() < 0.5:
        return "@" + texts[0]
    separators = [random.choice([" or ", ", "]) for _ in texts[1:]] + [""]
    return "@(" + "".join(text + separator for text, separator in zip(texts, separators)) + ")"


@dataclass
class At(Statement):
    """An event control; without terms `@*`."""
    terms: list[tuple[str, str]] | None
    body: Statement
    text: str = ""

    def __post_init__(self):
        self.text = event_text(self.terms) if self.terms else random.choice(["@*", "@(*)"])

    def parts(self):
        return [self.body]

    def lines(self):
        return headed(self.text, self.body)

    def run(self, scope):
        yield Changes(self.terms or awaited_terms(self.body, scope))
        yield from self.body.run(scope)

    def is_open(self):
        return self.body.is_open()

    def forms(self):
        if not self.terms:
            return [f"event {self.text}"]
        kind = "event name" if "(" not in self.text else "event (term)" if len(self.terms) == 1 else "event (terms)"
        separators = ["event with or"] * (" or " in self.text) + ["event with ,"] * ("," in self.text)
        return [kind] + separators + sorted({edge or "change" for edge, _ in self.terms}) + self.mixed()

    def mixed(self):
        return ["event with and without edges"] * (len({edge == CHANGE for edge, _ in self.terms}) > 1)


@dataclass
class Wait(Statement):
    condition: Node
    body: Statement

    def parts(self):
        return [self.body]

    def conditions(self):
        return [self.condition]

    def lines(self):
        return headed(f"wait ({self.condition.text})", self.body)

    def run(self, scope):
        while not holds(self.condition, scope):
            yield Changes([(CHANGE, name) for name in names_in(self.condition.text)])
        yield from self.body.run(scope)

    def is_open(self):
        return self.body.is_open()

    def forms(self):
        return ["wait"]


@dataclass
class If(Statement):
    condition: Node
    then: Statement
    other: Statement | None = None

    def __post_init__(self):
        if self.other and self.then.is_open():
            self.then = Block([self.then])

    def parts(self):
        return [self.then] + ([self.other] if self.other else [])

    def nodes(self):
        return [self.condition]

    def lines(self):
        return headed(f"if ({self.condition.text})", self.then) + (headed("else", self.other) if self.other else [])

    def run(self, scope):
        chosen = self.then if holds(self.condition, scope) else self.other
        yield PAUSE
        if chosen:
            yield from chosen.run(scope)

    def is_open(self):
        return self.other is None or self.other.is_open()

    def forms(self):
        dangling = ["if with else, of which an if is the first"] * isinstance(self.then, If)
        return ["if with else" if self.other else "if"] + dangling


@dataclass
class Item:
    """An item of a case; without labels the default."""
    labels: list[Node]
    body: Statement
    default_text: str = "default:"

    def lines(self):
        return headed(", ".join(label.text for label in self.labels) + ":" if self.labels else self.default_text, self.body)


def matches(word, label, selector):
    """Digit for digit; `casez` lets a z on either side match everything (9.5.1)."""
    return all(a == b or word == "casez" and "z" in (a, b) for a, b in zip(label, selector, strict=True))


@dataclass
class Case(Statement):
    word: str
    selector: Node
    items: list[Item]

    def parts(self):
        return [item.body for item in self.items]

    def nodes(self):
        return [self.selector] + [label for item in self.items for label in item.labels]

    def nodes_but_idle(self):
        return [self.selector] + [label for item in self.items if not isinstance(item.body, Empty) for label in item.labels]

    def lines(self):
        return [f"{self.word} ({self.selector.text})"] + indented(line for item in self.items for line in item.lines()) + ["endcase"]

    def run(self, scope):
        item = self.chosen(scope.environment)
        yield PAUSE
        if item:
            yield from item.body.run(scope)

    def chosen(self, environment):
        """The first item of which a label matches, all at the size of the longest; else the default (9.5)."""
        size = max(node.size for node in self.nodes())
        selector = self.selector.value(environment, size)
        for item in self.items:
            if any(matches(self.word, label.value(environment, size), selector) for label in item.labels):
                return item
        return next((item for item in self.items if not item.labels), None)

    def forms(self):
        places = [place for place, item in enumerate(self.items) if not item.labels]
        default = ["default" if ":" in self.items[place].default_text else "default without colon" for place in places]
        before = ["default before labels"] * bool(places and places[0] < len(self.items) - 1)
        sizes = ["case of several sizes"] * (len({node.size for node in self.nodes()}) > 1)
        return [self.word] + default + before + sizes + ["item of several labels"] * sum(len(item.labels) > 1 for item in self.items)


@dataclass
class While(Statement):
    condition: Node
    body: Statement

    def parts(self):
        return [self.body]

    def nodes(self):
        return [self.condition]

    def lines(self):
        return headed(f"while ({self.condition.text})", self.body)

    def run(self, scope):
        while holds(self.condition, scope):
            yield PAUSE
            yield from self.body.run(scope)

    def is_open(self):
        return self.body.is_open()

    def forms(self):
        return ["while"]


@dataclass
class Forever(Statement):
    body: Statement

    def parts(self):
        return [self.body]

    def lines(self):
        return headed("forever", self.body)

    def run(self, scope):
        while True:
            yield from self.body.run(scope)

    def is_open(self):
        return self.body.is_open()

    def forms(self):
        return ["forever"]


@dataclass
class For(Statement):
    start: Assign
    condition: Node
    step: Assign
    body: Statement

    def parts(self):
        return [self.start, self.step, self.body]

    def nodes(self):
        return [self.condition]

    def lines(self):
        return headed(f"for ({self.start.lines()[0]} {self.condition.text}; {self.step.lines()[0][:-1]})", self.body)

    def run(self, scope):
        start = self.start
        if LOSES_SELECT in scope.environment.departures:
            start = Assign(Assignment(start.assignment.reg, start.assignment.node))
        yield from start.run(scope)
        while holds(self.condition, scope):
            yield PAUSE
            yield from self.body.run(scope)
            yield from self.step.run(scope)

    def is_open(self):
        return self.body.is_open()

    def forms(self):
        return ["for"]


@dataclass
class Finish(Statement):
    text: str = "$finish"

    def __post_init__(self):
        self.text += random.choice(["", "", "(0)", "(1)", "(2)"])

    def lines(self):
        return [f"{self.text};"]

    def run(self, scope):
        scope.simulation.is_finished = True
        yield Changes([])

    def forms(self):
        return ["$finish with number" if "(" in self.text else "$finish"]


@dataclass
class Procedure:
    word: str  # initial or always
    body: Statement
    is_whole: bool = False  # nothing happens between its statements

    def lines(self):
        return headed(self.word, self.body)

    def run(self, scope):
        yield from self.body.run(scope)
        while self.word == "always":
            yield from self.body.run(scope)

    def forms(self):
        return [self.word] + forms_of(self.body)


# ---- the simulator (clause 11)

@dataclass
class Waiting:
    """A process that waits for the first of some edges."""
    process: object
    is_over: bool = False


def fits(edge, old, new):
    """Whether a change is such an edge, by the least significant bit (9.7.1)."""
    old, new = old[-1], new[-1]
    if edge == RISE:
        return old != new and (old == "0" or new == "1")
    if edge == FALL:
        return old != new and (old == "1" or new == "0")
    return True


class Scope:
    """An instance: the values of its objects, and who waits for them."""

    def __init__(self, simulation, path, module):
        self.simulation, self.path, self.module = simulation, path, module
        self.values = {d.name: ("z" if d.word == "wire" else "x") * d.width for d in module.declared()}
        self.environment = Environment(self.values, simulation.departures)
        self.values.update({name: node.own(self.environment) for name, node in module.constants.items()})
        self.readers, self.waiting = {}, {}

    def put(self, name, first, end, digits):
        old = self.values[name]
        self.give(name, old[:first] + digits + old[end:])

    def give(self, name, digits):
        """A value to an object; where it is another one, that is an event."""
        old = self.values[name]
        if digits == old:
            return
        self.values[name] = digits
        for reader in self.readers.get(name, ()):
            self.simulation.activate(reader)
        kept = []
        for waiting, edge in self.waiting.pop(name, ()):
            if waiting.is_over:
                continue
            if fits(edge, old, digits):
                waiting.is_over = True
                self.simulation.resume(waiting.process)
            else:
                kept.append((waiting, edge))
        self.waiting.setdefault(name, []).extend(kept)


@dataclass
class Connection:
    """What drives a net: a continuous assignment or a connection of a port."""
    outside: Scope
    names: frozenset[str]
    value: object  # a function without arguments
    target: Scope
    name: str
    is_active: bool = False

    def evaluate(self):
        self.is_active = False
        self.target.give(self.name, self.value())


class Simulation:
    """A run of a program; with a generator of random numbers in a random order of the active events, statement by statement."""

    def __init__(self, top, departures=(), generator=None):
        self.departures, self.generator = departures, generator
        self.time, self.is_finished = 0, False
        self.active, self.inactive, self.updates, self.future = [], [], [], {}
        self.scopes = []
        self.elaborate(top, "top")

    def elaborate(self, module, path):
        scope = Scope(self, path, module)
        self.scopes.append(scope)
        for part in module.order:
            if isinstance(part, Driver):
                self.drive(scope, part)
            elif isinstance(part, Instance):
                self.connect(scope, part, self.elaborate(part.module, f"{path}.{part.name}"))
        for procedure in module.processes:
            self.resume((procedure.run(scope), procedure, scope))
        return scope

    def drive(self, scope, driver):
        self.add(Connection(scope, names_in(driver.node.text), lambda: in_context(driver.node, driver.target, scope.environment),
                            scope, driver.target.name))

    def connect(self, outside, instance, inside):
        for port in instance.module.inputs:
            node = instance.inputs[port.name]
            if node:
                value = functools.partial(given_to, port, node, outside.environment)
                self.add(Connection(outside, names_in(node.text), value, inside, port.name))
        for port in instance.module.outputs:
            net = instance.outputs[port.name]
            if net:
                value = functools.partial(lambda name, width: resize(inside.values[name], width), port.name, net.width)
                self.add(Connection(inside, frozenset([port.name]), value, outside, net.name))

    def add(self, connection):
        for name in connection.names:
            connection.outside.readers.setdefault(name, []).append(connection)
        self.activate(connection)

    def activate(self, connection):
        if not connection.is_active:
            connection.is_active = True
            self.active.append((False, connection.evaluate))

    def resume(self, process):
        self.active.append((False, lambda: self.go_on(process)))

    def go_on(self, process):
        """Runs a process up to what it waits for."""
        statements, procedure, scope = process
        for wait in statements:
            if wait is not PAUSE:
                return self.suspend(process, scope, wait)
            if self.generator and not procedure.is_whole and self.generator.random() < 0.4:
                return self.resume(process)

    def suspend(self, process, scope, wait):
        if isinstance(wait, Changes):
            waiting = Waiting(process)
            for edge, name in wait.terms:
                scope.waiting.setdefault(name, []).append((waiting, edge))
        elif wait.time == 0:
            self.inactive.append((False, lambda: self.go_on(process)))
        else:
            self.at(wait.time)[0].append((False, lambda: self.go_on(process)))

    def at(self, delay):
        """The events of a later time: those that are active then, and the nonblocking updates."""
        return self.future.setdefault(self.time + delay, ([], []))

    def update_later(self, delay, update):
        (self.at(delay)[1] if delay else self.updates).append((True, update))

    def run(self, until):
        """All up to a time, but nothing after a `$finish`."""
        events = 0
        while not self.is_finished:
            if self.active:
                self.active.pop(self.next_place())[1]()
                events += 1
                assert events < MOST_EVENTS, "a time does not end"
            elif self.inactive:
                self.active, self.inactive = self.inactive, []
            elif self.updates:
                self.active, self.updates = self.updates, []
            elif self.future and min(self.future) <= until:
                self.time, events = min(self.future), 0
                self.active, self.updates = self.future.pop(self.time)
            else:
                return

    def next_place(self):
        """Any active event, but of nonblocking updates the oldest (11.4.1)."""
        if not self.generator:
            return 0
        oldest = next((place for place, (is_update, _) in enumerate(self.active) if is_update), None)
        places = [place for place, (is_update, _) in enumerate(self.active) if not is_update or place == oldest]
        return self.generator.choice(places)

    def shown(self):
        return {f"{scope.path}.{d.name}": scope.values[d.name] for scope in self.scopes for d in scope.module.declared()}

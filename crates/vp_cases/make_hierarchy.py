#!/usr/bin/env python3
"""Makes the file data/hierarchy.cases: random designs of modules, and what Icarus Verilog computes of each.

Run it in this folder: ./make_hierarchy.py. It wants iverilog and vvp on the path (Debian's package iverilog, version 11:
apt-get update && apt-get install -y iverilog). The seed is fixed, so that it makes the same file again. With a number, as
./make_hierarchy.py 3000, it makes so many designs, writes no file, and tells how many agree with the standard.

A design has some modules, each with input and output ports, regs, nets, localparams, continuous assignments, an `initial`, and
instances of modules before it. They are free of races: a reg is assigned once, by the one `initial` of its module, which reads
none but regs that it assigned before; a net is driven once, by an expression over inputs, regs, localparams and nets before it, or by an
output of an instance whose inputs read no others; so all nets settle. Some nets and inputs are left open. The script of a case
reads each net, reg and localparam of each instance after the run.

Each value is also computed here, by IEEE Std 1364-2005, clauses 5, 6 and 12. A design in which Icarus departs from the
standard, in one of the ways that make_expressions.py names or in what a port is given, whose expression Icarus sizes by itself and
not by the port's width too (12.3.9.2, 5.4.1), is left out and counted; any other difference ends the script.
"""

import random
import subprocess
import sys
import tempfile
from collections import Counter
from dataclasses import dataclass, field

from make_expressions import (CUTS_INDEX, KEEPS_Z, POLICY, Environment, Maker, Node, Reg, mixed_literal, random_width, resize, sized_literal, whole)

SEED = 1364
DESIGNS = 60
LONGEST = 160  # characters of an expression
SIZES_ALONE = "port's value sized by itself"  # a departure of Icarus: the context of a port's width is left out (12.3.9.2)


@dataclass
class Declared(Reg):
    """A net, a reg or a localparam, with the word that declares it."""
    word: str = "wire"

    def range(self):
        return "" if self.is_scalar else f"[{self.high()}:{self.low}] "


@dataclass
class Driver:
    """What a net or a reg gets: an expression."""
    target: Declared
    node: Node


@dataclass
class Instance:
    name: str
    module: "Module"
    inputs: dict[str, Node | None]  # by port; none where it is open
    outputs: dict[str, Declared | None]


@dataclass
class Module:
    name: str
    inputs: list[Declared] = field(default_factory=list)
    outputs: list[Declared] = field(default_factory=list)
    order: list = field(default_factory=list)  # drivers of nets and instances, each after those that it reads
    procedure: list[Driver] = field(default_factory=list)
    inside: list[Declared] = field(default_factory=list)
    constants: dict[str, Node] = field(default_factory=dict)
    lines: list[str] = field(default_factory=list)

    def declared(self):
        return self.inputs + self.outputs + self.inside


def declare(name, word="wire"):
    """A short vector, a scalar, or one of any width."""
    kind = random.random()
    if kind < 0.2:
        return Declared(name, 1, 0, is_scalar=True, word=word)
    width = random.randint(1, 7) if kind < 0.6 else random_width()
    return Declared(name, width, random.choice([0, 0, 0, random.randint(1, 9)]), word=word)


def expression(maker):
    while True:
        node = maker.inner(random.choice([0, 1, 1, 2, 2, 3]))
        if len(node.text) <= LONGEST:
            return node


def instance_of(module, number, readable, maker, new_net):
    """An instance of a module, and the nets that its outputs drive."""
    inputs = {p.name: None if random.random() < 0.1 else expression(maker) for p in module.inputs}
    outputs = {p.name: None if random.random() < 0.15 else new_net() for p in module.outputs}
    return Instance(f"u{number}", module, inputs, outputs)


def connections(instance):
    """By names in any order, where some open ones are left out; or by positions, up to the last that is connected."""
    parts = [(p.name, instance.inputs[p.name].text if instance.inputs[p.name] else "") for p in instance.module.inputs]
    parts += [(p.name, instance.outputs[p.name].name if instance.outputs[p.name] else "") for p in instance.module.outputs]
    if random.random() < 0.5:
        return ", ".join(text for _, text in parts)
    random.shuffle(parts)
    return ", ".join(f".{name}({text})" for name, text in parts if text or random.random() < 0.5)


def make_module(name, lower, is_top):
    module = Module(name)
    if not is_top:
        module.inputs = [declare(f"i{k}") for k in range(random.randint(0, 4))]
        module.outputs = [declare(f"o{k}", random.choice(["wire", "wire", "reg"])) for k in range(random.randint(1, 3))]
    regs = [Declared("r0", 3, 0, word="reg")] + [declare(f"r{k}", "reg") for k in range(1, random.randint(2, 4))]
    module.inside += regs
    for k in range(random.randint(0, 2)):
        literal = sized_literal()
        module.constants[f"P{k}"] = literal
        module.inside.append(Declared(f"P{k}", literal.size, 0, word="localparam"))
    assign_regs(module, regs[:1] + [r for r in module.outputs if r.word == "reg"] + regs[1:])
    parameters = [d for d in module.inside if d.word == "localparam"]
    readable = regs + parameters + module.inputs
    fill(module, lower, readable)
    module.lines = written(module)
    return module


def assign_regs(module, regs):
    """The regs that are assigned, each once; an expression reads those before it."""
    done = []
    for reg in regs:
        if not done or random.random() < 0.6:
            node = mixed_literal(reg.width) if random.random() < 0.3 else sized_literal(reg.width)
        else:
            node = expression(Maker(done, []))
        done.append(reg)
        module.procedure.append(Driver(reg, node))


def fill(module, lower, readable):
    """The nets of a module, in an order in which each is driven by what stands before it."""
    waiting = [o for o in module.outputs if o.word == "wire"]
    count = random.randint(1, 5)
    instances = 0
    for k in range(count + len(waiting)):
        net = waiting.pop() if waiting and k >= count else None
        if net is None and lower and random.random() < 0.55 and instances < 3:
            fresh = []

            def new_net():
                fresh.append(declare(f"w{k}_{len(fresh)}"))
                return fresh[-1]

            instance = instance_of(random.choice(lower), instances, readable, Maker(readable, []), new_net)
            instances += 1
            module.order.append(instance)
            module.inside += fresh
            readable += fresh
            continue
        if net is None:
            net = declare(f"w{k}")
            module.inside.append(net)
        if random.random() < 0.92:
            module.order.append(Driver(net, expression(Maker(readable, []))))
        readable.append(net)


def written(module):
    header = ", ".join([f"input wire {p.range()}{p.name}" for p in module.inputs]
                       + [f"output {p.word} {p.range()}{p.name}" for p in module.outputs])
    lines = [f"module {module.name}({header});" if header else f"module {module.name};"]
    at_once = {d.target.name: d for d in module.order if isinstance(d, Driver) and d.target in module.inside and random.random() < 0.4}
    for d in module.inside:
        if d.word == "localparam":
            lines.append(f"localparam {d.name} = {module.constants[d.name].text};")
        elif d.name not in at_once:
            lines.append(f"{d.word} {d.range()}{d.name};")
    body = [f"{d.module.name} {d.name}({connections(d)});" if isinstance(d, Instance)
            else f"wire {d.target.range()}{d.target.name} = {d.node.text};" if d.target.name in at_once
            else f"assign {d.target.name} = {d.node.text};" for d in module.order]
    procedure = ["initial begin " + " ".join(f"{d.target.name} = {d.node.text};" for d in module.procedure) + " end"]
    return lines + (procedure + body if random.random() < 0.5 else body + procedure) + ["endmodule"]


# ---- what the standard says

def values_of(module, path, given, departures, told):
    """The values of an instance after the run, by what its inputs are given; with those of the instances in it, by their paths."""
    values = {d.name: "z" * d.width for d in module.inputs + module.outputs + module.inside if d.word == "wire"}
    values.update({d.name: "x" * d.width for d in module.outputs + module.inside if d.word == "reg"})
    environment = Environment(values, departures)
    values.update({name: node.own(environment) for name, node in module.constants.items()})
    values.update(given)
    for driver in module.procedure:
        values[driver.target.name] = in_context(driver.node, driver.target, environment)
    for part in module.order:
        if isinstance(part, Driver):
            values[part.target.name] = in_context(part.node, part.target, environment)
        else:
            give(part, path, environment, departures, told)
    told.update({f"{path}.{d.name}": values[d.name] for d in module.declared()})
    return values


def in_context(node, target, environment):
    """The value of an expression in the context of its own size and its target's width, cut to that (5.4.1)."""
    return node.value(environment, max(node.size, target.width))[-target.width:]


def given_to(port, node, environment):
    """What a port gets of an expression outside: that of a continuous assignment to it (12.3.9.2)."""
    if SIZES_ALONE in environment.departures:
        return resize(node.own(environment), port.width)
    return in_context(node, port, environment)


def give(instance, path, environment, departures, told):
    """The values of an instance, and of the nets outside that its outputs drive."""
    given = {p.name: given_to(p, instance.inputs[p.name], environment) for p in instance.module.inputs if instance.inputs[p.name]}
    inner = values_of(instance.module, f"{path}.{instance.name}", given, departures, told)
    for port in instance.module.outputs:
        net = instance.outputs[port.name]
        if net:
            environment.values[net.name] = resize(inner[port.name], net.width)


# ---- Icarus Verilog

DEPARTURES = [(SIZES_ALONE,), (KEEPS_Z,), (CUTS_INDEX,), (KEEPS_Z, CUTS_INDEX), (SIZES_ALONE, KEEPS_Z), (SIZES_ALONE, CUTS_INDEX),
              (SIZES_ALONE, KEEPS_Z, CUTS_INDEX)]


def shown_by_icarus(text, names):
    show = "module show; initial begin #1; " + " ".join(f'$display("%b", {name});' for name in names) + " end endmodule\n"
    with tempfile.TemporaryDirectory() as folder:
        with open(f"{folder}/cases.v", "w") as f:
            f.write(text + show)
        command = ["iverilog", "-g2005", "-gstrict-expr-width", "-s", "top", "-s", "show", "-o", f"{folder}/cases", f"{folder}/cases.v"]
        compiled = subprocess.run(command, capture_output=True, text=True)
        assert compiled.returncode == 0, compiled.stderr[-2000:] + text
        return subprocess.run(["vvp", "-n", f"{folder}/cases"], check=True, capture_output=True, text=True).stdout.split()


def make_design():
    modules = []
    for k in range(random.randint(1, 4)):
        modules.append(make_module(f"m{k}", modules[-3:], is_top=False))
    top = make_module("top", modules, is_top=True)
    used = reached(top)
    return top, [m for m in modules if m.name in used] + [top]


def reached(module):
    names = {module.name}
    for part in module.order:
        if isinstance(part, Instance):
            names |= reached(part.module)
    return names


def case(number, text, values):
    script = ['{"op":"open","user":"ann","token":"t1"}', '{"op":"run","until":0}']
    told = ['{"ok":true}', '{"ok":true}']
    for handle, (name, digits) in enumerate(values.items(), 1):
        script += ['{"op":"handle","name":"%s"}' % name, '{"op":"value","h":%d}' % handle]
        told += ['{"h":%d}' % handle, '{"value":"%s"}' % digits]
    title = f"## random design {number}, as Icarus Verilog computed it"
    return "\n".join([title, text.rstrip("\n"), "%%", POLICY, "%%"] + script + ["=="] + told + [""])


def judged():
    """A design's text and its values; or the departures of Icarus in it."""
    top, modules = make_design()
    order = random.sample(modules, len(modules))
    text = "\n".join("\n".join(m.lines) for m in order) + "\n"
    told = {}
    values_of(top, "top", {}, (), told)
    shown = dict(zip(told, shown_by_icarus(text, told), strict=True))
    if shown == told:
        return text, told, None
    for departures in DEPARTURES:
        other = {}
        values_of(top, "top", {}, departures, other)
        if other == shown:
            return text, told, " and ".join(departures)
    differing = [f"{name}: Icarus {shown[name]}, by the standard {told[name]}" for name in told if shown[name] != told[name]]
    raise AssertionError("\n".join([text] + differing))


def main():
    random.seed(SEED)
    wanted = int(sys.argv[1]) if len(sys.argv) > 1 else DESIGNS
    made, left_out, values = [], Counter(), 0
    while len(made) < wanted:
        text, told, departures = judged()
        if departures:
            left_out[departures] += 1
            continue
        made.append(case(len(made) + 1, text, told))
        values += len(told)
    if len(sys.argv) == 1:
        with open("data/hierarchy.cases", "w") as f:
            f.write("".join(made))
    print(f"{len(made)} designs, {values} values")
    for departures, times in sorted(left_out.items()):
        print(f"left out for a departure of Icarus, {departures}: {times}")


if __name__ == "__main__":
    main()

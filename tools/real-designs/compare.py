#!/usr/bin/env python3
"""Tries the front end on the designs of a list, and compares each with Icarus Verilog on the original.

    compare.py SOURCES PROGRAM FOLDER [NAME ..]

SOURCES is a folder with the Debian source packages, one folder each (see fetch.sh); PROGRAM is vp_served;
FOLDER takes what is made. Each design is lowered. Then 1,000 cycles of inputs, with the reset first, run in both
simulators, and all names that the map keeps are compared, bit by bit, at each cycle. Inputs are random, but for what
stimuli.py has. `results.json` in FOLDER has a record for each design, and `table.md` the table. First Icarus runs the
lowered text too: where under 90 percent of the bits are known in both, each reg without an initial value is set to a
random one before the first cycle. Then the server runs it. With `iverilog` as PROGRAM it does not: that is quick, and tells nothing of the server.
"""

from __future__ import annotations

import json
import os
import random
import re
import socket
import subprocess
import sys
import time
from dataclasses import dataclass, field
from pathlib import Path
from typing import Any, Dict, Iterator, List, Optional, Set, Tuple

HERE = Path(__file__).resolve().parent
sys.path.insert(0, str(HERE.parents[1] / "frontend"))

from loddrume_lower.front import Result, lower, write  # noqa: E402
from loddrume_lower.refusal import Refusal  # noqa: E402
from stimuli import STIMULI  # noqa: E402

CYCLES = 1000
SETTLE = 4
RESET_CYCLES = 8
SETTLED = 10
# How many objects a session watches: few enough that its notices of a cycle all fit.
WATCHED = 512
POLICY = '{"users":[{"name":"ann","token":"t","open":"list+read+watch+put","run":true}]}'


@dataclass
class Design:
    """A line of the list."""

    name: str
    package: str
    top: str
    clocks: List[str]
    reset: Optional[Tuple[str, str]]
    files: List[str]

    @property
    def folder(self) -> str:
        """The folder of its first file, from which files of memories are named."""
        return os.path.dirname(self.files[0])


@dataclass
class Port:
    """A port of the top module: its name in the original, the names of its parts, lowest part first, and their
    widths."""

    name: str
    direction: str
    parts: List[Tuple[str, int]] = field(default_factory=list)

    @property
    def width(self) -> int:
        return sum(width for _, width in self.parts)


def designs(path: Path) -> Iterator[Design]:
    """The designs of the list."""
    for line in path.read_text(encoding="utf-8").splitlines():
        if line.startswith("#") or not line.strip():
            continue
        name, package, top, clocks, reset, files = (part.strip() for part in line.split("|"))
        level = tuple(reset.split(":")) if reset != "-" else None
        called = clocks.split(",") if clocks != "-" else []
        yield Design(name, package, top, called, level, files.split())  # type: ignore[arg-type]


def top_ports(text: str, names: Dict[str, Any]) -> List[Port]:
    """The ports of the top module, by the header of the lowered text and the map."""
    top = names["top"]
    text = re.sub(r"//[^\n]*|/\*.*?\*/", "", text, flags=re.DOTALL)
    header = re.search(rf"^module {re.escape(top)}\s*\((.*?)\);", text, re.MULTILINE | re.DOTALL)
    assert header, f"no header of {top}"
    was = {new: (old, at) for old, parts in names["modules"][top]["names"].items() for at, new in enumerate(parts)}
    ports: Dict[str, Port] = {}
    direction, bounds = "", ""
    for part in filter(str.strip, header[1].split(",")):
        found = re.fullmatch(
            r"\s*(?:(input|output)\s*(?:(?:wire|reg)\b)?\s*(\[\s*\d+\s*:\s*\d+\s*\])?\s*)?([\w$]+)\s*", part
        )
        assert found, part
        direction, bounds = (found[1], found[2] or "") if found[1] else (direction, bounds)
        width = 1
        if bounds:
            high, low = map(int, bounds.strip("[]").split(":"))
            width = high - low + 1
        old, _ = was.get(found[3], (found[3], 0))
        ports.setdefault(old, Port(old, direction)).parts.append((found[3], width))
    return list(ports.values())


def names_of(names: Dict[str, Any], module: str, old: str, new: str) -> Iterator[Tuple[str, List[str]]]:
    """Each kept name below an instance: its path in the original, and the paths of its parts."""
    entry = names["modules"][module]
    for name, parts in entry["names"].items():
        yield f"{old}.{name}", [f"{new}.{part}" for part in parts]
    for name, instance in entry["instances"].items():
        yield from names_of(names, instance["module"], f"{old}.{name}", f"{new}.{instance['name']}")


def stimulus(ports: List[Port], design: Design) -> List[Dict[str, str]]:
    """For each cycle the digits of each input that is no clock."""
    chance = random.Random(design.name)
    inputs = [port for port in ports if port.direction == "input" and port.name not in design.clocks]
    result = []
    for cycle in range(CYCLES):
        values = {port.name: format(chance.getrandbits(port.width), f"0{port.width}b") for port in inputs}
        for name, given in STIMULI.get(design.name, {}).items():
            values[name] = given if isinstance(given, str) else given(chance)
        if design.reset:
            name, level = design.reset
            values[name] = level if cycle < RESET_CYCLES else "10"[int(level)]
        result.append(values)
    return result


# ---- Icarus


def icarus_bench(
    design: Design, ports: List[Port], kept: List[str], cycles: List[Dict[str, str]], regs: Dict[str, str], folder: Path
) -> str:
    """The testbench for the original."""
    inputs = [port for port in ports if port.direction == "input" and port.name not in design.clocks]
    width = sum(port.width for port in inputs) or 1
    (folder / "stimulus.txt").write_text(
        "".join("".join(values[port.name] for port in inputs) + "\n" if inputs else "0\n" for values in cycles),
        encoding="utf-8",
    )
    lines = [
        "module loddrume_bench;",
        "  integer cycle;",
        f"  reg [{width - 1}:0] rows [0:{CYCLES - 1}];",
        f"  reg [{width - 1}:0] row;",
    ]
    for port in ports:
        lines.append(f"  {'reg' if port.direction == 'input' else 'wire'} [{port.width - 1}:0] {port.name};")
    lines.append(f"  {design.top} dut({', '.join(f'.{port.name}({port.name})' for port in ports)});")
    lines.append('  initial begin\n    $readmemb("' + str(folder / "stimulus.txt") + '", rows);')
    lines += [f"    {clock} = 0;" for clock in design.clocks]
    lines.append("    #1;")
    lines += [f"    loddrume_bench.{name} = {len(value)}'b{value};" for name, value in regs.items()]
    given = f"{{{', '.join(port.name for port in inputs)}}} = rows[cycle];" if inputs else ";"
    lines.append(f"    cycle = 0; {given}")
    lines.append(f"    #1; for (cycle = 0; cycle < {CYCLES}; cycle = cycle + 1) begin")
    lines += [f"      #1 {clock} = 1;" for clock in design.clocks]
    lines.append(f"      #{SETTLE} sample;")
    lines.append(f"      cycle = cycle + 1; if (cycle < {CYCLES}) {given} cycle = cycle - 1;")
    lines += [f"      #1 {clock} = 0;" for clock in design.clocks]
    lines.append(f"      #{SETTLE};")
    lines += ["    end\n    $finish(0);\n  end", "  task sample; begin"]
    lines += [f'    $display("%b", loddrume_bench.{name});' for name in kept]
    lines += ["  end endtask", "endmodule", ""]
    return "\n".join(lines)


def icarus(
    design: Design,
    sources: Path,
    ports: List[Port],
    kept: List[str],
    cycles: List[Dict[str, str]],
    regs: Dict[str, str],
    folder: Path,
) -> Tuple[List[str], List[List[str]]]:
    """The values of the kept names at each cycle. Names that Icarus does not find are left out."""
    files = [str(sources / design.package / file) for file in design.files]
    kept = compiled(design, files, ports, kept, cycles, regs, folder)
    ran = subprocess.run(["vvp", "-n", str(folder / "bench.vvp")], capture_output=True, text=True, check=False)
    values = [line for line in ran.stdout.splitlines() if re.fullmatch("[01xz]+", line)]
    if len(values) != len(kept) * CYCLES:
        raise RuntimeError(
            f"vvp printed {len(values)} values, not {len(kept) * CYCLES}: {ran.stdout[:200]} {ran.stderr[:200]}"
        )
    return kept, [values[at * len(kept) : (at + 1) * len(kept)] for at in range(CYCLES)]


def compiled(
    design: Design,
    files: List[str],
    ports: List[Port],
    kept: List[str],
    cycles: List[Dict[str, str]],
    regs: Dict[str, str],
    folder: Path,
) -> List[str]:
    """Compiles the original with its testbench, and gives the names that Icarus finds."""
    grammar = "-g2005"
    while True:
        (folder / "bench.v").write_text(icarus_bench(design, ports, kept, cycles, regs, folder), encoding="utf-8")
        words = ["iverilog", grammar, "-s", "loddrume_bench", "-o", str(folder / "bench.vvp")]
        made = subprocess.run([*words, *files, str(folder / "bench.v")], capture_output=True, text=True, check=False)
        if not made.returncode:
            return list(kept)
        if grammar == "-g2005" and "bench.v:" not in made.stderr:
            grammar = "-g2012"
            continue
        missing = {word for line in made.stderr.splitlines() for word in re.findall(r"bench\.v:(\d+):", line)}
        lines = (folder / "bench.v").read_text(encoding="utf-8").splitlines()
        wrong = {
            found[1]
            for number in missing
            if (found := re.search(r"loddrume_bench\.(\S+?)(?:\)| =)", lines[int(number) - 1]))
        }
        if not wrong:
            raise RuntimeError(f"iverilog: {made.stderr.strip()[:300]}")
        kept = [name for name in kept if name not in wrong]
        regs = {name: value for name, value in regs.items() if name not in wrong}


# ---- the server's program


@dataclass
class Bench:
    """The module round the lowered top: its text, and which bits of which reg each input has."""

    text: str
    regs: List[Tuple[str, int]]
    places: Dict[str, Tuple[int, int]]
    settle: int

    def puts(self, values: Dict[str, str], ports: List[Port]) -> Dict[str, str]:
        """The values of the regs, for values of inputs."""
        digits = [["0"] * width for _, width in self.regs]
        for port in ports:
            if port.name not in values:
                continue
            low = 0
            for part, width in port.parts:
                value = values[port.name][port.width - low - width : port.width - low]
                which, start = self.places[part]
                total = len(digits[which])
                digits[which][total - start - width : total - start] = list(value)
                low += width
        return {f"loddrume_bench.{name}": "".join(digits[at]) for at, (name, _) in enumerate(self.regs)}


def server_bench(names: Dict[str, Any], ports: List[Port], clocks: List[str], settle: int) -> Bench:
    """A module that instantiates the lowered top, with its clocks, and with regs that have all inputs."""
    regs: List[Tuple[str, int]] = []
    places: Dict[str, Tuple[int, int]] = {}
    lines, words = ["module loddrume_bench;"], []
    called = [part for port in ports if port.name in clocks for part, _ in port.parts]
    for port in ports:
        for part, width in port.parts:
            if port.direction == "input" and part not in called:
                if not regs or regs[-1][1] + width > 64:
                    regs.append((f"loddrume_inputs{len(regs)}", 0))
                places[part] = (len(regs) - 1, regs[-1][1])
                regs[-1] = (regs[-1][0], regs[-1][1] + width)
                continue
            bounds = f"[{width - 1}:0] " if width > 1 else ""
            lines.append(f"  {'reg' if part in called else 'wire'} {bounds}{part};")
            words.append(f".{part}({part})")
    for part, (which, low) in places.items():
        width = next(size for port in ports for name, size in port.parts if name == part)
        high = low + width - 1
        words.append(f".{part}({regs[which][0]}[{high}:{low}])")
    lines += [f"  reg [{width - 1}:0] {name};" for name, width in regs]
    toggles = [f"#1 {clock} = {level};" for level in "10" for clock in called]
    half = len(called)
    steps = [*toggles[:half], f"#{settle} ;", *toggles[half:], f"#{settle} ;"]
    start = " ".join(f"{clock} = 0;" for clock in called)
    lines += [f"  {names['top']} dut({', '.join(words)});"]
    lines += [f"  initial begin {start} #1 ; #1 ; forever begin {' '.join(steps)} end end", "endmodule", ""]
    return Bench("\n".join(lines), regs, places, settle)


class LogFull(RuntimeError):
    """The log of a server is full."""


class Session:
    """A session of a server."""

    def __init__(self, port: int) -> None:
        self._socket = socket.create_connection(("127.0.0.1", port), 600)
        self._lines = self._socket.makefile("r", encoding="utf-8", newline="\n")
        self._handles: Dict[str, int] = {}
        self._watched: Dict[int, str] = {}
        self._wait = 0.002
        self.ask([{"op": "open", "user": "ann", "token": "t"}])

    def ask(self, requests: List[Dict[str, Any]]) -> List[Dict[str, Any]]:
        """The replies to requests, which are sent some hundreds at once."""
        replies: List[Dict[str, Any]] = []
        for at in range(0, len(requests), 500):
            part = requests[at : at + 500]
            self._socket.sendall("".join(json.dumps(request) + "\n" for request in part).encode())
            replies += [json.loads(self._lines.readline() or '{"error":"the server has ended"}') for _ in part]
        for request, reply in zip(requests, replies):
            if reply.get("error") == "log full":
                raise LogFull("vp_served: log full")
            if "error" in reply or "denied" in reply:
                raise RuntimeError(f"vp_served: {request} {reply}")
        return replies

    def handles(self, paths: List[str]) -> List[int]:
        """The handles of objects, made where there are none yet."""
        new = [path for path in paths if path not in self._handles]
        for path, reply in zip(new, self.ask([{"op": "handle", "name": path} for path in new])):
            self._handles[path] = reply["h"]
        return [self._handles[path] for path in paths]

    def run(self, until: int) -> None:
        """Lets the design run until a time is reached, so that nothing of the times before is left to do."""
        self.ask([{"op": "run", "until": until}])
        # Each request is an entry of the log, so the first wait grows or shrinks until few requests are enough.
        time.sleep(self._wait)
        asked = 1
        while self.ask([{"op": "time"}])[0]["time"] < until:
            time.sleep(max(0.001, self._wait / 8))
            asked += 1
        self._wait = min(5.0, 1.3 * self._wait) if asked > 2 else max(0.001, 0.8 * self._wait)

    def put(self, values: Dict[str, str]) -> None:
        handles = self.handles(list(values))
        self.ask([{"op": "put", "h": handle, "value": value} for handle, value in zip(handles, values.values())])

    def watch(self, paths: List[str]) -> None:
        """Watches objects: at most 1,024."""
        replies = self.ask([{"op": "watch", "h": handle} for handle in self.handles(paths)])
        self._watched = {reply["cb"]: path for reply, path in zip(replies, paths)}

    def values(self) -> Dict[str, str]:
        """The values of all watched objects."""
        paths = list(self._watched.values())
        replies = self.ask([{"op": "value", "h": handle} for handle in self.handles(paths)])
        return {path: reply["value"] for path, reply in zip(paths, replies)}

    def changes(self) -> Dict[str, str]:
        """The values of watched objects that changed since the last poll; of all, where notices were lost."""
        polled = self.ask([{"op": "poll"}])[0]
        if polled["lost"]:
            return self.values()
        return {self._watched[notice["cb"]]: notice["value"] for notice in polled["notices"]}

    def close(self) -> None:
        self._lines.close()
        self._socket.close()


class Served:
    """`vp_served serve` with so many sessions. It searches for no races here, so that long runs are quick."""

    def __init__(self, program: str, folder: Path, sessions: int) -> None:
        with socket.socket() as free:
            free.bind(("127.0.0.1", 0))
            port = free.getsockname()[1]
        words = [program, "serve", "served.v", "policy.json", "--port", str(port), "--workers", "0"]
        words += ["--sessions", str(sessions)]
        self._process = subprocess.Popen(words, cwd=folder, stdout=subprocess.PIPE, stderr=subprocess.STDOUT, text=True)
        assert self._process.stdout
        first = self._process.stdout.readline()
        if not first.startswith("listening"):
            raise RuntimeError(f"vp_served: {first}")
        self.sessions = [Session(port) for _ in range(sessions)]

    def end(self, patience: float) -> str:
        """Ends the sessions, and gives the last line of the server, which has the length of its log."""
        for session in self.sessions:
            session.close()
        try:
            return self._process.communicate(timeout=patience)[0].strip()
        except subprocess.TimeoutExpired:
            self._process.terminate()
            self._process.communicate()
            return "ended"


def port_values(port: Port, value: str) -> Dict[str, str]:
    """The value of each part of a port."""
    result, low = {}, 0
    for part, width in port.parts:
        result[f"loddrume_bench.{part}"] = value[len(value) - low - width : len(value) - low]
        low += width
    return result


def served(
    program: str,
    folder: Path,
    design: Design,
    ports: List[Port],
    kept: Dict[str, List[str]],
    cycles: List[Dict[str, str]],
    regs: Dict[str, str],
    bench: Bench,
    state: Dict[str, str],
) -> Tuple[List[List[str]], List[str]]:
    """The values of the kept names at each cycle, and the last line of each server. Where a log is full, another
    server goes on, whose regs are put as they were: `state` has the paths of all regs, or nothing."""
    rows: List[List[str]] = []
    closed = []
    parts = sum(map(len, kept.values()))
    while len(rows) < CYCLES:
        server, patience, first = Served(program, folder, -(-parts // WATCHED)), 0.0, len(rows)
        try:
            for row in part_served(server, design, ports, kept, cycles[first:], regs, bench):
                rows.append(row)
            patience = 600.0
        except LogFull:
            if len(rows) == first or not state:
                raise
            last = dict(zip(kept, rows[-1]))
            regs = {path: last[name] for name, path in state.items() if name in last}
        finally:
            closed.append(server.end(patience))
    return rows, closed


def part_served(
    server: Served,
    design: Design,
    ports: List[Port],
    kept: Dict[str, List[str]],
    cycles: List[Dict[str, str]],
    regs: Dict[str, str],
    bench: Bench,
) -> Iterator[List[str]]:
    """The values of the kept names at each cycle. The next inputs are put when a cycle has been read, before clocks
    fall."""
    first = server.sessions[0]
    first.run(1)
    first.put({**regs, **bench.puts(cycles[0], ports)})
    paths = ["loddrume_bench." + part for parts in kept.values() for part in reversed(parts)]
    values: Dict[str, str] = {}
    for at, session in enumerate(server.sessions):
        session.watch(paths[at * WATCHED : (at + 1) * WATCHED])
        values.update(session.values())
    length = 2 * len(design.clocks) + 2 * bench.settle
    for cycle in range(len(cycles)):
        first.run(2 + cycle * length + len(design.clocks) + bench.settle)
        for session in server.sessions:
            values.update(session.changes())
        digits = iter([values[path] for path in paths])
        yield ["".join(next(digits) for _ in parts) for parts in kept.values()]
        if cycle + 1 < len(cycles):
            first.put(bench.puts(cycles[cycle + 1], ports))


def declared_regs(text: str) -> Dict[str, Dict[str, int]]:
    """The regs that each module of a lowered text declares, with their widths."""
    found: Dict[str, Dict[str, int]] = {}
    for module, body in bodies(text):
        regs = found.setdefault(module, {})
        for reg in re.finditer(r"\breg\b\s*(?:\[\s*(\d+)\s*:\s*(\d+)\s*\])?\s*([\w$]+(?:\s*,\s*[\w$]+)*)", body):
            for name in map(str.strip, reg[3].split(",")):
                if name not in ("input", "output", "inout", "wire", "reg"):
                    regs[name] = int(reg[1]) - int(reg[2]) + 1 if reg[1] else 1
    return found


def initial_regs(text: str) -> Dict[str, Set[str]]:
    """The regs of each module that an `initial` assigns."""
    found: Dict[str, Set[str]] = {}
    for module, body in bodies(text):
        for one, block in re.findall(r"\binitial\s+(?:(?!begin\b)([^;]*;)|begin\b(.*?)\bend\b)", body, re.DOTALL):
            names = re.findall(r"([\w$]+)\s*(?:\[[^\]]*\]\s*)?<?=", one or block)
            found.setdefault(module, set()).update(names)
    return found


def bodies(text: str) -> List[Tuple[str, str]]:
    """The modules of a text: the name and what follows it, without comments."""
    text = re.sub(r"//[^\n]*|/\*.*?\*/", "", text, flags=re.DOTALL)
    return re.findall(r"\bmodule\s+([\w$]+)(.*?)\bendmodule\b", text, re.DOTALL)


def regs_of(result: Result, kept: Dict[str, List[str]]) -> Dict[str, Tuple[str, str, int]]:
    """The kept regs of one part, by their names in the original: the module, the path in the lowered text and the
    width."""
    declared = declared_regs(result.text)
    modules = dict(modules_of(result.names, result.names["top"], "dut"))
    found: Dict[str, Tuple[str, str, int]] = {}
    for name, parts in kept.items():
        path, _, last = parts[0].rpartition(".")
        width = declared.get(modules[path], {}).get(last)
        if len(parts) == 1 and width:
            found[name] = modules[path], parts[0], width
    return found


def random_values(result: Result, kept: Dict[str, List[str]], seed: str) -> Tuple[Dict[str, str], Dict[str, str]]:
    """A random value for each reg that has no initial one: by its name in the original, and by its path in the
    lowered text."""
    initial = initial_regs(result.text)
    chance = random.Random(seed)
    old: Dict[str, str] = {}
    new: Dict[str, str] = {}
    for name, (module, path, width) in regs_of(result, kept).items():
        if path.rpartition(".")[2] not in initial.get(module, ()):
            old[name] = new[path] = format(chance.getrandbits(width), f"0{width}b")
    return old, new


def state_of(result: Result, kept: Dict[str, List[str]]) -> Dict[str, str]:
    """The path of each reg of the lowered text, by its name in the original. Nothing, where a reg has no name of the
    original for it alone, or where something waits for a clock that falls."""
    declared = declared_regs(result.text)
    regs = regs_of(result, kept)
    total = sum(len(declared.get(module, {})) for _, module in modules_of(result.names, result.names["top"], "dut"))
    if len(regs) < total or "negedge" in result.text:
        return {}
    return {name: f"loddrume_bench.{path}" for name, (_, path, _) in regs.items()}


def modules_of(names: Dict[str, Any], module: str, path: str) -> Iterator[Tuple[str, str]]:
    """The module of each instance of a lowered design, by its path."""
    yield path, module
    for instance in names["modules"][module]["instances"].values():
        yield from modules_of(names, instance["module"], f"{path}.{instance['name']}")


def in_icarus(
    design: Design,
    result: Result,
    ports: List[Port],
    kept: Dict[str, List[str]],
    cycles: List[Dict[str, str]],
    regs: Dict[str, str],
    folder: Path,
) -> List[List[str]]:
    """The values of the kept names at each cycle, where Icarus Verilog runs the lowered text too."""
    folder.mkdir(exist_ok=True)
    (folder / "lowered.v").write_text(re.sub(r"`pragma[^\n]*", "", result.text), encoding="utf-8")
    cut = [Port(part, port.direction, [(part, width)]) for port in ports for part, width in port.parts]
    given = [
        {
            path.split(".", 1)[1]: digits
            for port in ports
            if port.name in values
            for path, digits in port_values(port, values[port.name]).items()
        }
        for values in cycles
    ]
    clocks = [part for port in ports if port.name in design.clocks for part, _ in port.parts]
    parts = [part for one in kept.values() for part in reversed(one)]
    lowered = Design(design.name, "", result.names["top"], clocks, None, ["lowered.v"])
    found, rows = icarus(lowered, folder, cut, parts, given, regs, folder)
    if found != parts:
        raise RuntimeError("names of the map are not in the lowered text")
    result_rows = []
    for row in rows:
        digits = iter(row)
        result_rows.append(["".join(next(digits) for _ in one) for one in kept.values()])
    return result_rows


# ---- comparison


def compared(ours: List[List[str]], theirs: List[List[str]], kept: List[str]) -> Dict[str, Any]:
    """Counts of compared bits after the reset, and the names that differ."""
    counts = {"equal": 0, "unequal": 0, "x in Icarus": 0, "x on the server": 0, "x in both": 0}
    differing: Dict[str, int] = {}
    unknown: Dict[str, int] = {}
    for cycle in range(SETTLED, CYCLES):
        for name, our, their in zip(kept, ours[cycle], theirs[cycle]):
            if our == their and "x" not in our and "z" not in our:
                counts["equal"] += len(our)
                continue
            if len(our) != len(their):
                raise RuntimeError(f"{name} has {len(our)} bits on the server and {len(their)} in Icarus")
            for one, other in zip(our, their):
                kind = _kind(one in "01", other in "01", one == other)
                counts[kind] += 1
                if kind == "unequal":
                    differing.setdefault(name, cycle)
                elif kind != "equal":
                    unknown[name] = unknown.get(name, 0) + 1
    total = sum(counts.values()) or 1
    known = counts["equal"] + counts["unequal"]
    return {
        **counts,
        "known": round(100 * known / total, 2),
        "differing": differing,
        "unknown": dict(sorted(unknown.items(), key=lambda item: -item[1])[:8]),
    }


def _kind(ours: bool, theirs: bool, same: bool) -> str:
    if ours and theirs:
        return "equal" if same else "unequal"
    return "x in Icarus" if ours else "x on the server" if theirs else "x in both"


def simulate(
    design: Design, result: Result, sources: Path, program: str, folder: Path, setting: bool
) -> Dict[str, Any]:
    """Runs both simulators on a design, and compares."""
    ports = top_ports(result.text, result.names)
    # Where nothing waits for a time, what is put settles at once.
    settle = SETTLE if re.search(r"#\s*\d", result.text) else 1
    bench = server_bench(result.names, ports, design.clocks, settle)
    (folder / "served.v").write_text(result.text + bench.text, encoding="utf-8")
    (folder / "policy.json").write_text(POLICY, encoding="utf-8")
    cycles = stimulus(ports, design)
    kept = dict(names_of(result.names, result.names["top"], "dut", "dut"))
    all_names = len(kept)
    old, new = random_values(result, kept, design.name) if setting else ({}, {})
    found, theirs = icarus(design, sources, ports, list(kept), cycles, old, folder)
    kept = {name: kept[name] for name in found}
    began = time.monotonic()
    closed: List[str] = []
    if program == "iverilog":
        ours = in_icarus(design, result, ports, kept, cycles, new, folder / "lowered")
    else:
        puts = {f"loddrume_bench.{path}": value for path, value in new.items()}
        state = state_of(result, kept) if settle == 1 else {}
        ours, closed = served(program, folder, design, ports, kept, cycles, puts, bench, state)
    return {
        "names": len(found),
        "not in Icarus": all_names - len(found),
        "set": setting,
        "seconds of the run": round(time.monotonic() - began, 1),
        "servers": closed,
        **compared(ours, theirs, found),
    }


def tried(design: Design, sources: Path, program: str, folder: Path) -> Dict[str, Any]:
    """The record of one design."""
    folder.mkdir(parents=True, exist_ok=True)
    record: Dict[str, Any] = {"name": design.name, "package": design.package, "top": design.top}
    began = time.monotonic()
    try:
        os.chdir(sources / design.package / design.folder)
        result = lower(design.top, [os.path.relpath(sources / design.package / file) for file in design.files])
    except Refusal as refusal:
        return {**record, "status": "refused", "why": str(refusal).replace(str(sources) + "/", "")}
    write(result, str(folder / "design.v"), str(folder / "names.json"))
    record["seconds"] = round(time.monotonic() - began, 2)
    record["bytes"] = len(result.text)
    record["how"] = {account.name: account.how for account in result.accounts}
    check = ["-t", "null"] if program == "iverilog" else ["check"]
    checked = subprocess.run([program, *check, "design.v"], cwd=folder, capture_output=True, text=True, check=False)
    if checked.returncode:
        return {**record, "status": "not read", "why": checked.stderr[:400]}
    try:
        # Icarus tells quickly whether regs are to be set.
        compare = simulate(design, result, sources, "iverilog", folder, False)
        setting = compare["known"] < 90
        if setting:
            record["without setting"] = {key: compare[key] for key in ("known", "unequal")}
        if setting or program != "iverilog":
            compare = simulate(design, result, sources, program, folder, setting)
    except RuntimeError as error:
        return {**record, "status": "not compared", "why": str(error)}
    return {**record, "status": "compared", **compare}


def table(records: List[Dict[str, Any]]) -> str:
    """The table of results, in Markdown."""
    lines = [
        "| Design | Package | In | Names | Bits compared | Known in both | Unequal | x in both | x in Icarus alone "
        "| x on the server alone | Regs set |",
        "|---|---|---|---|---|---|---|---|---|---|---|",
    ]
    for record in records:
        if record["status"] != "compared":
            why = record.get("why", "").splitlines()[0][:160]
            lines.append(f"| {record['name']} | {record['package']} | {record['status']}: {why} | | | | | | | | |")
            continue
        total = sum(record[key] for key in ("equal", "unequal", "x in Icarus", "x on the server", "x in both"))
        hows = sorted(set(record["how"].values()))
        lines.append(
            f"| {record['name']} | {record['package']} | {', '.join(hows)} | {record['names']} | {total:,} "
            f"| {record['known']} % | {record['unequal']} | {record['x in both']:,} | {record['x in Icarus']:,} "
            f"| {record['x on the server']:,} | {'yes' if record['set'] else 'no'} |"
        )
    return "\n".join(lines) + "\n"


def main(words: List[str]) -> int:
    """Tries all designs, or those that are named."""
    sources, folder = Path(words[0]).resolve(), Path(words[2]).resolve()
    program = "iverilog" if words[1] == "iverilog" else str(Path(words[1]).resolve())
    folder.mkdir(parents=True, exist_ok=True)
    kept = folder / "results.json"
    records = (
        {record["name"]: record for record in json.loads(kept.read_text(encoding="utf-8"))} if kept.exists() else {}
    )
    listed = list(designs(HERE / "designs.list"))
    for design in listed:
        if words[3:] and design.name not in words[3:]:
            continue
        records[design.name] = tried(design, sources, program, folder / design.name)
        record = records[design.name]
        print(
            design.name,
            record["status"],
            record.get("why", ""),
            {key: record[key] for key in ("known", "unequal", "set", "seconds") if key in record},
            flush=True,
        )
        ordered = [records[one.name] for one in listed if one.name in records]
        kept.write_text(json.dumps(ordered, indent=1), encoding="utf-8")
        (folder / "table.md").write_text(table(ordered), encoding="utf-8")
    return 0


if __name__ == "__main__":
    sys.exit(main(sys.argv[1:]))

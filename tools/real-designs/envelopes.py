#!/usr/bin/env python3
"""Tries the front end on fifty designs with envelopes at random places.

    envelopes.py SOURCES PROGRAM FOLDER [COUNT]

Each design is one of the list, with pragmas at random places between items of its modules: one or two
envelopes, of one or two authors, some with a viewport. What the front end refuses is counted, and another place
is tried. Of each design that comes in, three things are checked. The view of a user without grants has no name
that only an inside has. A constant of an inside is changed: then the view is the same to the byte, and so is
the open text. The program reads the text.
"""

from __future__ import annotations

import json
import os
import random
import re
import subprocess
import sys
from collections import Counter
from pathlib import Path
from typing import Any, Dict, List, Optional, Tuple

HERE = Path(__file__).resolve().parent
sys.path.insert(0, str(HERE.parents[1] / "frontend"))
sys.path.insert(0, str(HERE))

from compare import Design, designs  # noqa: E402
from loddrume_lower.front import lower  # noqa: E402
from loddrume_lower.modules import Item, Module, Splitter  # noqa: E402
from loddrume_lower.refusal import Refusal  # noqa: E402
from loddrume_lower.tokens import tokens_of  # noqa: E402
from loddrume_lower.verify import declared  # noqa: E402

POLICY = '{"users":[{"name":"ann","token":"t","open":"list+read+watch+put+race","run":true}]}'
AUTHORS = ("acme cores", "soc team")
STAYING = ("input", "output", "inout", "parameter", "defparam", "")


def blanked(text: str) -> str:
    """A text with blanks for directives that no token of a module needs."""
    return re.sub(
        r"`(timescale|default_nettype|include|celldefine|endcelldefine|pragma)[^\n]*",
        lambda found: " " * len(found.group()),
        text,
    )


def spans(module: Module, chance: random.Random) -> List[Tuple[int, int]]:
    """One or two runs of items, one after the other."""
    free = [at for at, item in enumerate(module.items) if item.kind not in STAYING]
    cuts = sorted(chance.sample(range(len(free) + 1), min(2 * chance.choice((1, 1, 2)), (len(free) + 1) // 2 * 2)))
    found = []
    for first, last in zip(cuts[::2], cuts[1::2]):
        run = free[first:last]
        if run and run[-1] - run[0] == len(run) - 1:
            found.append((run[0], run[-1]))
    return found


def with_envelopes(text: str, chance: random.Random) -> Optional[Tuple[str, List[List[Item]]]]:
    """A text with envelopes in one of its modules, and the items of each."""
    layout = Splitter(tokens_of(blanked(text), "design.v"), []).split()
    modules = [
        module for module in layout.modules.values() if sum(item.kind not in STAYING for item in module.items) > 2
    ]
    if not modules:
        return None
    module = chance.choice(modules)
    edits: List[Tuple[int, str]] = []
    insides: List[List[Item]] = []
    for first, last in spans(module, chance):
        items = module.items[first : last + 1]
        lines = f'`pragma protect author="{chance.choice(AUTHORS)}", begin'
        nets = [
            name
            for name, head in declared([token for item in items for token in item.tokens]).items()
            if head and name.isidentifier()
        ]
        if nets and chance.random() < 0.4:
            shown, access = chance.choice(nets), chance.choice(("list", "read", "read+watch"))
            lines += f'\n`pragma protect viewport=(object="{shown}", access="{access}")'
        edits.append((items[0].tokens[0].start, f"\n{lines}\n"))
        edits.append((items[-1].tokens[-1].end, "\n`pragma protect end\n"))
        insides.append(items)
    if not edits:
        return None
    for at, added in sorted(edits, reverse=True):
        text = text[:at] + added + text[at:]
    return text, insides


def changed_constant(text: str, chance: random.Random) -> Optional[str]:
    """The text with another value for one constant of an inside, of the same width; not one that says how wide a net
    is."""
    tokens = tokens_of(
        re.sub(r"`(timescale|default_nettype|include)[^\n]*", lambda found: " " * len(found.group()), text), "design.v"
    )
    inside, depth, found = False, 0, []
    for at, token in enumerate(tokens):
        if token.kind == "directive" and token.text == "`pragma":
            line = text[token.start : text.find("\n", token.start)]
            inside = line.endswith("begin") or (inside and not line.endswith("protect end"))
            end = token.start + len(line)
        if not inside or token.start < end:
            continue
        depth += {"[": 1, "]": -1}.get(token.text, 0)
        if depth:
            continue
        before = tokens[at - 1]
        if (
            token.kind == "base"
            and before.kind == "number"
            or token.kind == "number"
            and tokens[at + 1].kind != "base"
            and before.text not in ("#", "repeat", "(")
        ):
            found.append(token)
    if not found:
        return None
    token = chance.choice(found)
    return text[: token.start] + other_value(token.text) + text[token.end :]


def other_value(text: str) -> str:
    """Another number of the same form."""
    head = re.match(r"'\s*[sS]?[bodhBODH]\s*", text)
    start = head.end() if head else 0
    digits = text[start:]
    base = head.group().strip()[-1].lower() if head else "d"
    last = digits[-1]
    new = {"b": "10", "o": "70", "d": "10", "h": "70"}[base]
    return text[:start] + digits[:-1] + (new[0] if last != new[0] else new[1])


def open_text(text: str) -> str:
    """A lowered text without what stands inside envelopes."""
    kept, inside = [], False
    for line in text.split("\n"):
        if line.startswith("`pragma protect end"):
            inside = False
        if not inside or line.startswith("`pragma"):
            kept.append(line)
        if line.startswith("`pragma") and line.endswith("begin"):
            inside = True
    return "\n".join(kept)


def view(program: str, text: str, folder: Path) -> str:
    """What a user without grants sees."""
    (folder / "design.v").write_text(text, encoding="utf-8")
    (folder / "policy.json").write_text(POLICY, encoding="utf-8")
    ran = subprocess.run(
        [program, "view", "design.v", "policy.json", "ann"], cwd=folder, capture_output=True, text=True, check=False
    )
    if ran.returncode:
        raise RuntimeError(f"the program does not read it: {ran.stderr[:300]}")
    return ran.stdout


def hidden_names(text: str, insides: List[List[Item]]) -> List[str]:
    """Names that insides declare, that no viewport shows, and that stand nowhere else in the text."""
    tokens = [token for items in insides for item in items for token in item.tokens]
    shown = set(re.findall(r'object="([^"]*)"', text))
    counts = Counter(token.text for token in tokens_of(blanked(text), "design.v"))
    inner = Counter(token.text for token in tokens)
    names = [name for name in declared(tokens) if name not in shown]
    names += [
        item.tokens[1].text
        for items in insides
        for item in items
        if len(item.tokens) > 2 and item.tokens[1].kind == "name" and item.tokens[2].text == "("
    ]
    return [name for name in set(names) if counts[name] == inner[name]]


def made(design: Design, text: str, sources: Path, folder: Path) -> Any:
    """Lowers a design whose first file has another text."""
    first = folder / "changed.v"
    first.write_bytes(text.encode("utf-8", errors="surrogateescape"))
    return lower(design.top, [str(first), *(str(sources / design.package / file) for file in design.files[1:])])


def counts_of(text: str, insides: List[List[Item]]) -> Dict[str, int]:
    """How many envelopes, authors, viewports and hidden names a text has."""
    return {
        "envelopes": len(insides),
        "authors": len(set(re.findall(r'author="([^"]*)"', text))),
        "viewports": text.count("viewport="),
        "hidden": len(hidden_names(text, insides)),
    }


def one(design: Design, seed: int, sources: Path, program: str, folder: Path) -> Dict[str, Any]:
    """The record of one design."""
    chance = random.Random(seed)
    raw = (
        (sources / design.package / design.files[0])
        .read_bytes()
        .decode("utf-8", errors="surrogateescape")
        .replace("\r\n", "\n")
    )
    record: Dict[str, Any] = {"design": design.name, "seed": seed}
    found = with_envelopes(raw, chance)
    if not found:
        return {**record, "status": "no place"}
    text, insides = found
    (folder / "original.v").write_bytes(text.encode("utf-8", errors="surrogateescape"))
    os.chdir((sources / design.package / design.files[0]).parent)
    try:
        result = made(design, text, sources, folder)
    except Refusal as refusal:
        return {**record, "status": "refused", "why": str(refusal)}
    seen = view(program, result.text, folder)
    words = set(re.findall(r"[A-Za-z_][\w$]*", seen))
    leaked = [
        name
        for name in hidden_names(text, insides)
        if name in words or any(re.fullmatch(re.escape(name) + r"(__\d+)+", word) for word in words)
    ]
    other = changed_constant(text, chance)
    record.update(counts_of(text, insides))
    if other is None:
        return {**record, "status": "no constant"}
    try:
        again = made(design, other, sources, folder)
    except Refusal as refusal:
        return {**record, "status": "refused when changed", "why": str(refusal)}
    same_view = view(program, again.text, folder) == seen
    same_open = open_text(again.text) == open_text(result.text)
    differs = again.text != result.text
    return {
        **record,
        "status": "in",
        "leaked": leaked,
        "same view": same_view,
        "same open text": same_open,
        "inside differs": differs,
    }


def main(words: List[str]) -> int:
    """Goes on until as many designs as are wanted have come in."""
    sources, program, folder = Path(words[0]).resolve(), str(Path(words[1]).resolve()), Path(words[2]).resolve()
    wanted = int(words[3]) if len(words) > 3 else 50
    listed = [design for design in designs(HERE / "designs.list") if not design.name.startswith(("picosoc", "attosoc"))]
    records: List[Dict[str, Any]] = []
    seed = 0
    while sum(record["status"] == "in" for record in records) < wanted and seed < 20 * wanted:
        design = listed[seed % len(listed)]
        place = folder / f"{seed}_{design.name}"
        place.mkdir(parents=True, exist_ok=True)
        try:
            record = one(design, seed, sources, program, place)
        except Refusal as refusal:
            record = {"design": design.name, "seed": seed, "status": "base refused", "why": str(refusal)}
        except RuntimeError as error:
            record = {"design": design.name, "seed": seed, "status": "fault", "why": str(error)}
        records.append(record)
        print(json.dumps(record), flush=True)
        seed += 1
        (folder / "envelopes.json").write_text(json.dumps(records, indent=1), encoding="utf-8")
    counts = Counter(record["status"] for record in records)
    taken = [record for record in records if record["status"] == "in"]
    print(
        dict(counts),
        "leaked",
        sum(bool(record["leaked"]) for record in taken),
        "other view",
        sum(not record["same view"] for record in taken),
        "other open text",
        sum(not record["same open text"] for record in taken),
    )
    return 0


if __name__ == "__main__":
    sys.exit(main(sys.argv[1:]))

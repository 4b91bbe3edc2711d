#!/usr/bin/env python3
"""Audits users of random scripts by the program, and compares what it prints with what the protocol alone says.

    tools/audit-scripts.py              1,000 scripts of a fixed seed
    tools/audit-scripts.py COUNT SEED   so many of another seed

It wants crates/vp_served/out/vp_served, as `rt run` and the gate leave it there. A script opens a session of one of the policy's users, asks
20 to 60 random requests, and has two to six lines `grant` of the operator, to random users and for random envelopes, at random places
between. Some lines are no requests; some scripts ask before they open, open with a wrong token first or once more, or close the session and go on.
The designs and policies are those of the README's tour, of docs/POLICY.md, and of a race between envelopes, from the repository's own files; where a
policy names no operator, it gets one.

What is expected is counted here, by docs/FORMATS.md: an `open` that is answered ok is an event of its user, and so is each request after it that
is no `open` and no `grant`, and the closing, by `close` or at the end of the input; after that nothing is. So for who opened the session
`same N` is printed, N the number of these, and for another user of the policy `same 0`. Ends with status 1 where anything else is printed.
"""

import json
import pathlib
import random
import re
import subprocess
import sys
import tempfile
from dataclasses import dataclass

TOP = pathlib.Path(__file__).resolve().parent.parent
PROGRAM = TOP / "crates" / "vp_served" / "out" / "vp_served"
SCRIPTS = 1000
SEED = 20261127
RIGHTS = ["list", "read", "watch", "put", "race"]
KINDS = ["module", "net", "reg", "parameter", "always", "initial", "assign"]
NO_REQUESTS = ['{"op":"time"', '{"op":"tim"}', '{"op":"value","h":-1}', '{"op":"handle"}', "[1]", "", '{"op":"time","h":1}']
ENVELOPE = re.compile(r"^`pragma protect .*\bbegin$", re.M)
RACE = "races: a reg and a process in an envelope, without a grant"


@dataclass
class Setting:
    """A design with a policy, the number of its envelopes, and names that are asked of it: shown, hidden and absent ones."""

    design: str
    policy: dict
    envelopes: int
    names: list


@dataclass
class Script:
    """The lines of a script, who opens its session, and how many events of his it has."""

    lines: list
    user: str
    events: int


def race_bundle():
    """The bundle of the case of a race between envelopes."""
    cases = (TOP / "crates" / "vp_cases" / "data" / "rows.cases").read_text()
    return cases.split(f"## {RACE}\n")[1].split("==\n")[0]


def setting(design, policy, names):
    policy = json.loads(policy)
    policy.setdefault("operator", "op")
    return Setting(design, policy, len(ENVELOPE.findall(design)), names.split())


def settings():
    tour = (TOP / "crates" / "vp_served" / "stdin").read_text().split("%%\n")
    race = race_bundle().split("%%\n")
    soc = TOP / "docs" / "policy"
    return [
        setting(tour[0], tour[1], "top top.c top.q top.u top.u.c top.u.q top.u.k top.u.s top.u.zz top.initial@13:3 top.zz zz"),
        setting(race[0], race[1], "top top.a top.b top.c top.initial@7:3 top.always@8:3 top.always@10:3 top.zz top.a.b"),
        setting((soc / "soc.v").read_text(), (soc / "policy.json").read_text(),
                "soc soc.bus soc.start soc.key soc.cpu soc.cpu.seed soc.cpu.pc soc.cpu.cycles soc.cpu.acc soc.cpu.microcode "
                "soc.spare soc.spare.cycles soc.spare.acc soc.debug soc.cpu.debug"),
    ]


def access(dice):
    return "+".join(dice.sample(RIGHTS, dice.randint(0, len(RIGHTS))))


def grant(dice, place):
    """A line of the operator; a few have a wrong token, no such user, or no such envelope."""
    user = "zed" if dice.random() < 0.05 else dice.choice(place.policy["users"])["name"]
    token = "no" if dice.random() < 0.05 else place.policy["operator"]
    return {"op": "grant", "token": token, "user": user, "envelope": dice.randint(0, place.envelopes + (dice.random() < 0.05)), "access": access(dice)}


def digits(dice):
    return "".join(dice.choice("0011xz") for _ in range(dice.choice([1, 1, 4, 8])))


def request(dice, place):
    """A random request of a session; its handles and callbacks are often there, and its values often fit."""
    handle, callback = dice.randint(1, 12), dice.randint(1, 4)
    handle_by_name = {"op": "handle", "name": dice.choice(place.names)}
    return dice.choice([
        handle_by_name, handle_by_name, handle_by_name,
        {"op": "iterate", "kind": dice.choice(KINDS)},
        {"op": "iterate", "kind": dice.choice(KINDS), "h": handle},
        {"op": "get", "h": handle, "prop": dice.choice(["size", "line"])},
        {"op": "get_str", "h": handle, "prop": dice.choice(["type", "name", "full_name", "def_name"])},
        {"op": "value", "h": handle},
        {"op": "value", "h": handle, "format": dice.choice(["bin", "vec"])},
        {"op": "put", "h": handle, "value": digits(dice)},
        {"op": "put", "h": handle, "vector": [[dice.randint(0, 1), dice.randint(0, 1)]]},
        {"op": "compare", "a": handle, "b": dice.randint(1, 12)},
        {"op": "free", "h": handle},
        {"op": "watch", "h": handle}, {"op": "watch", "h": handle},
        {"op": "unwatch", "cb": callback},
        {"op": "poll"}, {"op": "poll"},
        {"op": "races"}, {"op": "races", "from": dice.randint(0, 3)},
        {"op": "race", "no": dice.randint(0, 3)},
        {"op": "run", "until": dice.randint(0, 20)}, {"op": "run", "until": dice.randint(0, 20)},
        {"op": "time"},
    ])


def opening(dice, place, user):
    """The lines up to the `open` that is answered ok, of which that one alone is an event of the user."""
    lines = []
    if dice.random() < 0.1:
        lines.append(json.dumps(request(dice, place)))
    if dice.random() < 0.1:
        lines.append(json.dumps({"op": "open", "user": user["name"], "token": "no"}))
    if dice.random() < 0.1:
        lines.append(json.dumps(grant(dice, place)))
    return lines + [json.dumps({"op": "open", "user": user["name"], "token": user["token"]})]


def body(dice, place, user):
    """Each line after the `open`, with whether it is a request of the session."""
    lines = [(json.dumps(request(dice, place)), True) for _ in range(dice.randint(20, 60))]
    others = [json.dumps(grant(dice, place)) for _ in range(dice.randint(2, 6))]
    others += dice.sample(NO_REQUESTS, dice.choice([0, 0, 1, 2]))
    if dice.random() < 0.1:
        others.append(json.dumps({"op": "open", "user": user["name"], "token": user["token"]}))
    for line in others:
        lines.insert(dice.randint(0, len(lines)), (line, False))
    return lines


def script(dice, place):
    user = dice.choice(place.policy["users"])
    lines = body(dice, place, user)
    end = dice.randint(0, len(lines)) if dice.random() < 0.125 else len(lines)
    events = 2 + sum(is_request for _, is_request in lines[:end])
    closing = [] if end == len(lines) else ['{"op":"close"}']
    texts = [line for line, _ in lines]
    return Script(opening(dice, place, user) + texts[:end] + closing + texts[end:], user["name"], events)


def printed(folder, text, user):
    ran = subprocess.run([PROGRAM, "audit", folder / "design.v", folder / "policy.json", user], input=text, capture_output=True, text=True)
    return ran.stdout, ran.returncode


def is_as_expected(folder, told, user, events):
    """Whether the audit of a user prints so many events; shows the script where it does not."""
    text = "".join(line + "\n" for line in told.lines)
    found = printed(folder, text, user)
    if found == (f"same {events}\n", 0):
        return True
    print(f"{user}: wanted same {events}, printed {found[0]!r} with status {found[1]}, of the script\n{text}")
    return False


def audits(dice, folder, place):
    """Writes a setting, and audits who opens a random script and another user: how many of the two are as expected, and the events."""
    (folder / "design.v").write_text(place.design)
    (folder / "policy.json").write_text(json.dumps(place.policy))
    told = script(dice, place)
    other = dice.choice([user["name"] for user in place.policy["users"] if user["name"] != told.user])
    return is_as_expected(folder, told, told.user, told.events) + is_as_expected(folder, told, other, 0), told.events


def main():
    count, seed = (int(sys.argv[1]), int(sys.argv[2])) if len(sys.argv) > 2 else (SCRIPTS, SEED)
    dice, places = random.Random(seed), settings()
    agreeing = events = 0
    with tempfile.TemporaryDirectory() as folder:
        for _ in range(count):
            found = audits(dice, pathlib.Path(folder), dice.choice(places))
            agreeing, events = agreeing + found[0], events + found[1]
    print(f"{count} scripts with {events} events, {2 * count} audits, {agreeing} as expected")
    return 0 if agreeing == 2 * count else 1


sys.exit(main())

#!/usr/bin/env python3
"""Wrong hubs and servers that no contract refuses, since no clause can say what a lock held or that anybody is served: each must fail a test.

Makes each change in a copy of the repository, and runs the tests by `rt try --test`: some minutes for the first, less for the others.
Without words all are tried, else those that are named."""

import shutil
import subprocess
import sys
import tempfile
from pathlib import Path
from typing import Dict, List, NamedTuple, Set

TOP = Path(__file__).resolve().parents[1]


class Wrong(NamedTuple):
    name: str
    crate: str
    file: str
    old: str
    new: str
    tests: str


SEARCH = "        let Ok(findings) = search(self.alloc, &segment, SEED_COUNT, STEP_LIMIT, gate) else {"
SPAWN = """    if scope
        .spawn(move || serve_connection(rt, service, stream))
        .is_err()
    {"""

WRONG: List[Wrong] = [
    Wrong("run_sim_does_nothing", "vp_hub", "hub.rt", "match desk.run_next() {", "match Err::<(), HubError>(HubError::World(WorldError::BeyondGoal)) {", "vp_server_tests"),
    Wrong("work_once_does_nothing", "vp_hub", "hub.rt", "let Some(segment) = self.take_job(rt)? else {", "let Some(segment) = None::<Arc<Segment>> else {", "vp_server_tests"),
    Wrong("searches_under_the_lock", "vp_hub", "hub.rt", SEARCH, SEARCH.replace("let Ok(findings) = search", "let held = self.desk.lock(rt);\n        let found = search").replace(
        " else {", ";\n        drop(held);\n        let Ok(findings) = found else {"), "vp_server_tests"),
    Wrong("close_always_mismatched", "vp_hub", "desk.rt", "        if !desk.passes_out.is_empty() {\n", "        if desk.log().len() < 100_000_000 {\n", "vp_server_tests"),
    Wrong("open_always_without_memory", "vp_hub", "hub.rt", "        let pass = desk.open(user, token)?;\n", "        let pass = desk.open(user, token)?;\n        drop(pass);\n        let pass = Err(HubError::World(WorldError::NoMemory))?;\n", "vp_server_tests"),
    Wrong("grant_logs_nothing", "vp_hub", "hub.rt", "        let answer = desk.event(Event::Grant(change))?;\n", "        drop(change);\n        let answer = Reply::Done;\n", "vp_server_tests"),
    Wrong("all_connections_on_one_thread", "vp_hub", "accept.rt", SPAWN, "    serve_connection(rt, service, stream);\n    if false {", "vp_server_tests"),
    Wrong("gate_not_asked", "vp_hub", "client.rt", "        let _open = self.gate.turn();\n", "", "vp_server_tests"),
    Wrong("pass_not_handed_back", "vp_hub", "connection.rt", "        let _returned = service.hub.hand_back(rt, pass);\n", "        drop(pass);\n", "vp_server_tests"),
    Wrong("connections_without_limit", "vp_hub", "accept.rt", "CONNECTION_LIMIT: usize = 256", "CONNECTION_LIMIT: usize = 1_000_000", "vp_server_tests"),
    Wrong("silent_client_waited_for", "vp_hub", "incoming.rt", "if !self.is_known.load(Ordering::SeqCst) {", "if false {", "vp_server_tests"),
    Wrong("time_anew_for_each_byte", "vp_hub", "incoming.rt", "let elapsed = self.start.elapsed(self.rt)?;", "let elapsed = Duration::ZERO;", "vp_server_tests"),
    Wrong("deaf_client_waited_for", "vp_hub", "outgoing.rt", ".set_write_timeout(Some(self.wait.min(remaining)))", ".set_write_timeout(None)", "vp_server_tests"),
    Wrong("open_session_must_talk", "vp_hub", "client.rt", "                self.pass = Some(pass);\n                self.note_known();\n", "                self.pass = Some(pass);\n", "vp_server_tests"),
    Wrong("operator_must_talk", "vp_hub", "client.rt", "                self.note_known();\n                reply\n", "                reply\n", "vp_server_tests"),
    Wrong("run_does_not_wake", "vp_hub", "client.rt", "                    self.simulation.unpark();\n", "", "vp_server_tests"),
    Wrong("no_simulation", "vp_hub", "background.rt", "match service.hub.run_sim(rt, EVENTS_AT_ONCE) {", "match service.hub.run_sim(rt, 0) {", "vp_server_tests"),
]


def failed_tests(copy: Path, crate: str) -> Set[str]:
    """The tests of a crate that fail; none where it is no program. What the compiler says is printed."""
    told = subprocess.run(["rt", "try", "--test"], cwd=copy / "crates" / crate, stdout=subprocess.PIPE, stderr=subprocess.STDOUT, encoding="utf-8").stdout
    print("".join(f"    {line}\n" for line in told.splitlines() if "error" in line), end="")
    return {line.split()[1] for line in told.splitlines() if line.startswith("test ") and line.endswith("... FAILED")}


def failed_under(copy: Path, wrong: Wrong) -> Set[str]:
    """The tests that fail under a change."""
    file = copy / "crates" / wrong.crate / "src" / wrong.file
    text = file.read_text()
    assert text.count(wrong.old) == 1, f"{wrong.name}: the text to be changed stands {text.count(wrong.old)} times in {wrong.file}"
    file.write_text(text.replace(wrong.old, wrong.new))
    failed = failed_tests(copy, wrong.tests)
    file.write_text(text)
    return failed


def main() -> int:
    names = sys.argv[1:]
    passed = []
    # A test that takes long fails for its time where it is tried unproved, so what fails without a change says nothing.
    unchanged: Dict[str, Set[str]] = {}
    with tempfile.TemporaryDirectory(dir=TOP.parent) as folder:
        copy = Path(folder) / "copy"
        shutil.copytree(TOP, copy, ignore=shutil.ignore_patterns("out", ".git"))
        for wrong in WRONG:
            if names and wrong.name not in names:
                continue
            if wrong.tests not in unchanged:
                unchanged[wrong.tests] = failed_tests(copy, wrong.tests)
            failed = failed_under(copy, wrong) - unchanged[wrong.tests]
            print(f"{wrong.name}: {', '.join(sorted(failed)) or 'NOT NOTICED'}", flush=True)
            if not failed:
                passed.append(wrong.name)
    return 1 if passed else 0


if __name__ == "__main__":
    sys.exit(main())

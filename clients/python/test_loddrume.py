"""Tests of the client over the program, by pipes and over a socket: python3 -m unittest, in this folder.

They want crates/vp_served/out/vp_served, as the gate leaves it, or another program in the environment's VP_SERVED. Those of a server are skipped
where the program has no command `serve`, and that of TLS where there is no stunnel.
"""

import contextlib
import io
import itertools
import json
import os
import re
import shutil
import socket
import subprocess
import sys
import tempfile
import threading
import time
import unittest
from pathlib import Path
from typing import Callable, Dict, Iterator, List, Tuple
from unittest import mock

import loddrume
from loddrume import Denied, Disconnected, LoddrumeError, LostNotices, Now, Program, Refused, Server, Session, Shell, Status, wave

HERE = Path(__file__).resolve().parent
TOP = HERE.parents[1]
PROGRAM = os.environ.get("VP_SERVED", str(TOP / "crates" / "vp_served" / "out" / "vp_served"))
WAVES = HERE / "waves"
UNTIL = 100

RACE = """module top; reg clk, a, b;
initial begin clk = 0; a = 0; b = 1; #5 clk = 1; end
always @(posedge clk) a = b;
always @(posedge clk) b = a;
endmodule
"""
RACING = """{"users":[
  {"name":"ann","token":"t1","open":"list+read+watch+put+race","run":true},
  {"name":"bob","token":"t2","open":"list+read+watch"}
],"operator":"op"}"""
CLOCK = "module top; reg clk; initial begin clk = 0; forever #1 clk = ~clk; end endmodule\n"
FAR = 1 << 60
MANY = """module top; reg [15:0] i; reg done;
initial begin done = 0; #3 for (i = 0; i < 5000; i = i + 1) ; #1 done = 1; end
endmodule
"""


def has_serve() -> bool:
    """Whether the program has the command `serve`."""
    with contextlib.suppress(OSError):
        told = subprocess.run([PROGRAM, "--help"], stdout=subprocess.PIPE, encoding="utf-8", check=True)
        return any(line.split()[:1] == ["serve"] for line in told.stdout.splitlines())
    return False


needs_serve = unittest.skipUnless(has_serve(), f"{PROGRAM} has no command serve")


class Files(unittest.TestCase):
    """Tests with a folder of their own for a design and a policy."""

    def setUp(self) -> None:
        folder = tempfile.TemporaryDirectory()
        self.addCleanup(folder.cleanup)
        self.folder = Path(folder.name)
        self.design, self.policy = self.folder / "design.v", self.folder / "policy.json"

    def write(self, design: str, policy: str) -> None:
        self.design.write_text(design)
        self.policy.write_text(policy)

    def open(self, user: str = "ann", token: str = "t1") -> Session:
        session = Program(self.design, self.policy, PROGRAM).open(user, token)
        self.addCleanup(session.close)
        return session


class Tour(Files):
    """A design with an envelope, and a user without a grant for it, by `vp_served run`."""

    def setUp(self) -> None:
        super().setUp()
        design, policy, _ = (TOP / "crates" / "vp_served" / "stdin").read_text().split("%%\n")
        self.write(design, policy)

    def test_values_and_runs(self) -> None:
        session = self.open()
        shown = session.handle_by_name("top.u.s")
        self.assertEqual((shown.get_value(), shown.get_vector()), ("x", [(1, 1)]))
        self.assertEqual(session.run_until(10), Now(5, False))
        self.assertEqual((shown.get_value(), shown.get_vector()), ("1", [(1, 0)]))
        self.assertEqual((shown.get("size"), shown.get_str("full_name")), (1, "top.u.s"))
        self.assertEqual((session.handle_by_name("top.u").get_str("def_name"), session.time()), ("ip", 5))

    def test_puts(self) -> None:
        clock = self.open().handle_by_name("top.c")
        clock.put_value("z")
        self.assertEqual(clock.get_value(), "z")
        clock.put_value([(1, 0)])
        self.assertEqual(clock.get_value(), "1")
        with self.assertRaisesRegex(Refused, "bad value"):
            clock.put_value("01")

    def test_a_hidden_name_is_denied_as_an_absent_one(self) -> None:
        session = self.open()
        for name in ("top.u.k", "top.u.zz"):
            with self.assertRaises(Denied) as denied:
                session.handle_by_name(name)
            found = denied.exception
            self.assertEqual((found.author, found.right, found.object), ("acme", "list", None))
            self.assertEqual((found.by, found.envelope), ("envelope", 1))
            self.assertEqual(str(found), 'you lack the right list: you have no grant for envelope 1 of "acme"')

    def test_a_viewport_names_its_object(self) -> None:
        with self.assertRaises(Denied) as denied:
            self.open().handle_by_name("top.u.s").put_value("0")
        self.assertEqual((denied.exception.by, denied.exception.object), ("viewport", "ip.s"))
        self.assertEqual(str(denied.exception), 'you lack the right put: a viewport shows ip.s of envelope 1 of "acme" without it')

    def test_a_run_is_denied_in_words(self) -> None:
        with self.assertRaisesRegex(Denied, "the policy does not let you run the design"):
            self.open("bob", "t2").run(10)

    def test_listings(self) -> None:
        session = self.open()
        inner = session.handle_by_name("top").handle_by_name("u")
        listing = inner.iterate("reg")
        self.assertEqual((list(listing.handles), listing.closed), (["q", "s"], [1]))
        self.assertEqual([handle.get_str("name") for handle in listing], ["q", "s"])
        self.assertTrue(listing.handles["s"].compare_objects(session.handle_by_name("top.u.s")))
        self.assertEqual([name for name, _ in session.objects()], ["top.q", "top.c", "top.u.c", "top.u.q", "top.u.s"])
        listing.handles["s"].free_object()
        with self.assertRaisesRegex(Refused, "bad handle"):
            listing.handles["s"].get_value()

    def test_refusals(self) -> None:
        session = self.open()
        with self.assertRaisesRegex(Refused, "no such name"):
            session.handle_by_name("top.zz")
        with self.assertRaisesRegex(Refused, "bad token"):
            self.open("ann", "no")
        self.design.write_text("module")
        with self.assertRaisesRegex(Disconnected, "fault 401 line 1"):
            self.open()
        with self.assertRaises(Disconnected):
            Program(self.design, self.policy, str(self.folder / "none")).open("ann", "t1")

    def test_callbacks(self) -> None:
        session = self.open()
        called: List[loddrume.Notice] = []
        clock = session.handle_by_name("top.c")
        callback = clock.register_cb(called.append)
        session.run(10)
        told = session.poll()
        self.assertEqual([(n.callback, n.time, n.value) for n in told.notices], [(callback, 0, "0"), (callback, 5, "1")])
        self.assertEqual((called, told.lost), (told.notices, 0))
        session.remove_cb(callback)
        with self.assertRaisesRegex(Refused, "no such callback"):
            session.remove_cb(callback)

    def test_over_a_socket(self) -> None:
        listener = socket.create_server(("127.0.0.1", 0))
        self.addCleanup(listener.close)

        def serve_one() -> None:
            connection, _ = listener.accept()
            with connection:
                subprocess.run([PROGRAM, "run", self.design, self.policy], stdin=connection.fileno(), stdout=connection.fileno(), check=True)

        serving = threading.Thread(target=serve_one)
        serving.start()
        with Server(listener.getsockname()[1], timeout=10).open("ann", "t1") as session:
            session.run(10)
            self.assertEqual(session.handle_by_name("top.u.s").get_value(), "1")
        serving.join()

    def test_shell(self) -> None:
        lines = ["ls top.u", "info top.u.s", "value top.u.k", "watch top.c", "run 10", "poll", "value top.q top.c", "put top.c x", "unwatch 1", "put", "now", "quit"]
        printed = io.StringIO()
        Shell(self.open(), io.StringIO("\n".join(lines)), printed).cmdloop("")
        told = printed.getvalue().replace(Shell.prompt, "").splitlines()
        told = [line for line in told if line]
        self.assertEqual(
            told,
            [
                "c  vpiNet",
                "q  vpiReg",
                "s  vpiReg",
                "something here is closed to you, in envelope 1",
                "top.u.s  vpiReg  line 3  1 bits",
                'you lack the right list: you have no grant for envelope 1 of "acme"',
                "callback 1",
                "time 5",
                "0  top.c  0",
                "5  top.c  1",
                "top.q  1",
                "top.c  1",
                "what does that mean? `help` tells the commands",
                "what does that mean? `help` tells the commands",
            ],
        )

    def test_completion(self) -> None:
        shell = Shell(self.open(), io.StringIO(), io.StringIO())
        self.assertEqual(shell.completedefault("t", "value t", 6, 7), ["top"])
        self.assertEqual(shell.completedefault("top.", "value top.", 6, 10), ["top.u", "top.q", "top.c", "top.initial@13:3"])
        self.assertEqual(shell.completedefault("top.u.", "value top.u.", 6, 12), ["top.u.c", "top.u.q", "top.u.s"])
        self.assertEqual(shell.completedefault("top.u.k", "value top.u.k", 6, 13), [])
        self.assertEqual(shell.completedefault("none.", "value none.", 6, 11), [])


LOWERED = """module cell__1(input wire c, output reg q); always @(posedge c) q <= ~q; initial q = 1'b0; endmodule
module top; reg c; reg [3:0] mem__0; wire g__0__h; wire [7:0] v__1; wire [7:0] v__0;
`pragma protect author="acme", begin
  reg key__3;
`pragma protect end
  cell__1 g__0__u(.c(c), .q(g__0__h));
endmodule
"""
NAMES = """{"version":1,"top":"top","modules":{
  "cell__1":{"names":{"c":["c"],"q":["q"]},"instances":{}},
  "top":{"names":{"c":["c"],"mem[0]":["mem__0"],"g[0].h":["g__0__h"],"v":["v__1","v__0"],"key[3]":["key__3"]},
         "instances":{"g[0].u":{"name":"g__0__u","module":"cell__1"}}}}}"""
LISTING = """{"users":[{"name":"ann","token":"t1","open":"list+read+watch+put+race","run":true}]}"""


class NamesOfTheOriginal(unittest.TestCase):
    """A design that was lowered, by the names of the original."""

    def setUp(self) -> None:
        place = tempfile.TemporaryDirectory()
        self.addCleanup(place.cleanup)
        folder = Path(place.name)
        for name, text in {"design.v": LOWERED, "policy.json": LISTING, "names.json": NAMES}.items():
            (folder / name).write_text(text, encoding="utf-8")
        self.folder = folder
        self.session = Program(folder / "design.v", folder / "policy.json", PROGRAM).open("ann", "t1")
        self.session.names = loddrume.NameMap.read(folder / "names.json")
        self.addCleanup(self.session.close)

    def test_a_name_of_the_original_is_found(self) -> None:
        word = self.session.handle_by_name("top.mem[0]")
        word.put_value("1010")
        self.assertEqual(word.get_value(), "1010")
        self.assertEqual([word.get_str("name"), word.get_str("full_name")], ["mem[0]", "top.mem[0]"])
        inner = self.session.handle_by_name("top.g[0].u.q")
        self.assertEqual(inner.get_str("full_name"), "top.g[0].u.q")
        top = self.session.handle_by_name("top")
        self.assertEqual(top.handle_by_name("g[0].h").get_str("name"), "g[0].h")
        self.assertEqual(self.session.handle_by_name("top.v__1").get_str("name"), "v__1")

    def test_only_what_he_may_list_is_shown(self) -> None:
        listed = [path for path, _ in self.session.objects()]
        self.assertEqual(listed, ["top.g[0].h", "top.v__1", "top.v__0", "top.c", "top.mem[0]", "top.g[0].u.c", "top.g[0].u.q"])
        told = []
        for name in ("top.key[3]", "top.key[4]", "top.none"):
            with self.assertRaises(Denied) as denied:
                self.session.handle_by_name(name)
            told.append(str(denied.exception))
        self.assertEqual(len(set(told)), 1)

    def test_the_option(self) -> None:
        words = ["wave", "--files", str(self.folder / "design.v"), str(self.folder / "policy.json"), "--program", PROGRAM, "--user", "ann"]
        out = self.folder / "out.vcd"
        with mock.patch.dict(os.environ, LODDRUME_TOKEN="t1"):
            self.assertEqual(loddrume.main([*words, "--names", str(self.folder / "names.json"), "0", str(out)]), 0)
            with contextlib.redirect_stderr(io.StringIO()) as told:
                self.assertEqual(loddrume.main([*words, "--names", str(self.folder / "none.json"), "0", str(out)]), 1)
        self.assertIn("none.json is no map of names", told.getvalue())
        dumped = out.read_text(encoding="utf-8")
        self.assertIn(" mem[0] ", dumped)
        self.assertNotIn("key", dumped)


class Waiting(unittest.TestCase):
    """How a call waits for the server's simulation, over lines that are made up."""

    class Times:
        """Answers what is asked of a simulation whose time goes on."""

        def __init__(self, *times: Tuple[int, bool]) -> None:
            self.asked: List[str] = []
            self._times = itertools.chain(times, itertools.repeat(times[-1]))

        def ask(self, line: str) -> str:
            self.asked.append(json.loads(line)["op"])
            if self.asked[-1] != "time":
                return '{"ok":true}'
            time_told, finished = next(self._times)
            return json.dumps({"finished": finished, "time": time_told})

        def end(self) -> None:
            self.asked.append("end")

    def test_a_time_that_is_past_is_sure(self) -> None:
        lines = self.Times((0, False), (5, False), (11, False))
        self.assertEqual(Session(lines, 0.1).run_until(10), Now(11, False))
        self.assertEqual(lines.asked, ["run", "time", "time", "time"])

    def test_a_finish_is_sure(self) -> None:
        self.assertEqual(Session(self.Times((0, False), (5, True)), 0.1).run_until(10), Now(5, True))

    def test_a_time_that_stays_is_waited_for(self) -> None:
        lines = self.Times((0, False), (5, False))
        began = time.monotonic()
        self.assertEqual(Session(lines, 0.05).run_until(10), Now(5, False))
        self.assertGreaterEqual(time.monotonic() - began, 0.05)
        self.assertEqual(lines.asked, ["run", "time", "time", "time", "time"])

    def test_nothing_is_waited_for_where_a_reply_comes_after_the_run(self) -> None:
        lines = self.Times((5, False))
        self.assertEqual(Session(lines).run_until(10), Now(5, False))
        self.assertEqual(lines.asked, ["run", "time"])

    def test_an_author_cannot_steer_a_terminal(self) -> None:
        denied = Denied({"author": "a\x1b[2J\nb", "by": "envelope", "no": 3, "right": "read"})
        self.assertEqual(str(denied), 'you lack the right read: you have no grant for envelope 3 of "a\\u001b[2J\\nb"')


# ---- waves

Changes = Dict[str, List[Tuple[int, str]]]


def read_vcd(text: str) -> Changes:
    """The changes of each variable of a VCD file, by its full name; each value is filled up to its variable's width (clause 18.2.2)."""
    header, body = text.split("$enddefinitions $end")
    scope: List[str] = []
    names: Dict[str, List[Tuple[str, int]]] = {}
    changes: Changes = {}
    for words in (command.split() for command in header.split("$end")):
        if words[:1] == ["$scope"]:
            scope.append(words[2])
        elif words[:1] == ["$upscope"]:
            scope.pop()
        elif words[:1] == ["$var"] and words[1] != "parameter":
            name = ".".join(scope + [words[4]])
            names.setdefault(words[3], []).append((name, int(words[2])))
            changes[name] = []
    now = -1
    for line in body.splitlines():
        if line.startswith("#"):
            assert int(line[1:]) >= now, "the time goes back"
            now = int(line[1:])
        elif line and line[0] in "01xzb":
            digits, identifier = line[1:].split(" ") if line[0] == "b" else (line[0], line[1:])
            for name, size in names.get(identifier, []):
                filling = "0" if digits[0] == "1" else digits[0]
                changes[name].append((now, digits.rjust(size, filling)))
    return changes


def value_at(changes: List[Tuple[int, str]], moment: int) -> str:
    """The last value that was given until a time."""
    return [value for when, value in changes if when <= moment][-1]


def compare(test: unittest.TestCase, name: str, written: str, hidden: Callable[[str], bool] = lambda _: False) -> None:
    """Compares a wave with the stored dump: the values at each time, of all signals that are not hidden; of those that are, none is written."""
    ours, dumped = read_vcd(written), read_vcd((WAVES / f"{name}.vcd").read_text())
    test.assertEqual(sorted(ours), sorted(signal for signal in dumped if not hidden(signal)))
    for signal, changes in ours.items():
        for moment in range(UNTIL + 1):
            test.assertEqual(value_at(changes, moment), value_at(dumped[signal], moment), f"{signal} at time {moment}")


class Waves(Files):
    """What `wave` writes, beside what Icarus Verilog dumped of the same designs (tools/make-waves.sh)."""

    def written(self, name: str, user: str, token: str) -> str:
        file = io.StringIO()
        with Program(WAVES / f"{name}.v", WAVES / f"{name}.json", PROGRAM).open(user, token) as session:
            wave(session, UNTIL, file)
        return file.getvalue()

    def test_open_designs(self) -> None:
        for name in ("counter", "stream"):
            with self.subTest(name):
                compare(self, name, self.written(name, "ann", "t1"))

    def test_visible_signals(self) -> None:
        for user, (token, hidden) in HIDDEN.items():
            with self.subTest(user):
                compare(self, "chip", self.written("chip", user, token), hidden)

    @unittest.skipUnless(shutil.which("vcd2fst") and shutil.which("fst2vcd"), "GTKWave's readers are not there")
    def test_gtkwave_reads_them(self) -> None:
        """GTKWave's reader makes of a wave a file in its own format, which has the same values."""
        written = self.folder / "wave.vcd"
        written.write_text(self.written("chip", "sam", "soc-1"))
        subprocess.run(["vcd2fst", str(written), str(self.folder / "wave.fst")], check=True)
        again = subprocess.run(["fst2vcd", str(self.folder / "wave.fst")], stdout=subprocess.PIPE, encoding="utf-8", check=True)
        compare(self, "chip", again.stdout, HIDDEN["sam"][1])

    def test_a_part(self) -> None:
        file = io.StringIO()
        with Program(WAVES / "chip.v", WAVES / "chip.json", PROGRAM).open("carl", "check-3") as session:
            session.run_until(50)
            wave(session, UNTIL, file, session.handle_by_name("chip.cpu"), timescale="1 ns")
        changes = read_vcd(file.getvalue())
        self.assertEqual(sorted(changes), [f"chip.cpu.{name}" for name in ("clk", "cycles", "ready", "seed", "state", "sum")])
        self.assertIn("$timescale 1 ns $end", file.getvalue())
        dumped = read_vcd((WAVES / "chip.vcd").read_text())
        # What he may watch and not read is unknown until it changes.
        self.assertEqual(value_at(changes.pop("chip.cpu.state"), 50), "xx")
        for signal, values in changes.items():
            self.assertEqual([value_at(values, t) for t in range(50, 101)], [value_at(dumped[signal], t) for t in range(50, 101)])

    def test_lost_changes(self) -> None:
        self.write(MANY, RACING)
        with self.assertRaisesRegex(LostNotices, "[0-9]+ changes were lost at time"):
            wave(self.open(), 10, io.StringIO())

    def test_too_many_signals(self) -> None:
        self.write(f"module top; reg {', '.join(f'r{i}' for i in range(1025))}; endmodule\n", RACING)
        with self.assertRaisesRegex(LoddrumeError, "too many callbacks: dump a smaller part of the design, by --scope"):
            wave(self.open(), 10, io.StringIO())

    def test_a_right_that_ends(self) -> None:
        self.write(RACE, RACING)
        session = self.open()

        class Ending(io.StringIO):
            """A file whose writer loses a right once time 5 is written."""

            def write(self, text: str) -> int:
                if "#5" in text:
                    session.grant("op", "ann", 0, "list+read")
                return super().write(text)

        with self.assertRaisesRegex(LoddrumeError, "the right to watch top.clk ended meanwhile"):
            wave(session, 10, Ending())


def _is_hidden_to_sam(signal: str) -> bool:
    return re.fullmatch(r"chip\.(cpu|spare)\.(acc|carry)", signal) is not None


def _is_in_the_teams_part(signal: str) -> bool:
    return re.fullmatch(r"chip\.(key|checked|match|spare\..*)", signal) is not None


HIDDEN: Dict[str, Tuple[str, Callable[[str], bool]]] = {
    "vera": ("acme-7", _is_in_the_teams_part),
    "sam": ("soc-1", _is_hidden_to_sam),
    "carl": ("check-3", lambda signal: _is_hidden_to_sam(signal) or _is_in_the_teams_part(signal)),
}


# ---- commands


class Asking(Files):
    """Tests that do commands, over a design with a race."""

    def setUp(self) -> None:
        super().setUp()
        self.write(RACE, RACING)

    def command(self, *words: str, token: str = "t1", status: int = 0) -> str:
        """Does a command, and gives what it prints, on standard output and then on standard error."""
        with contextlib.redirect_stdout(io.StringIO()) as printed, contextlib.redirect_stderr(io.StringIO()) as told:
            with mock.patch.dict(os.environ, {"LODDRUME_TOKEN": token}):
                self.assertEqual(loddrume.main(list(words)), status)
        return printed.getvalue() + told.getvalue()


class Commands(Asking):
    """What the commands print and write."""

    def over_files(self, name: str, *further: str, user: str = "ann", token: str = "t1", status: int = 0) -> str:
        where = ["--files", str(self.design), str(self.policy), "--program", PROGRAM, "--user", user]
        return self.command(name, *where, *further, token=token, status=status)

    def test_races(self) -> None:
        printed = self.over_files("races", "10").splitlines()
        self.assertEqual(printed[0], "race 1 of top.a at time 5")
        self.assertEqual([line.split() for line in printed[1:2]], [["the", "run's", "order", "another", "order"]])
        self.assertIn(["top.a", "=", "1", "top.a", "=", "0"], [line.split() for line in printed])
        self.assertEqual(printed[3].split(), ["top.always@3:1", "top.always@4:1"])

    def test_wave(self) -> None:
        file = self.folder / "out.vcd"
        self.over_files("wave", "10", str(file))
        changes = read_vcd(file.read_text())
        self.assertEqual(changes["top.clk"], [(0, "x"), (0, "0"), (5, "1")])
        self.assertEqual(file.read_text().splitlines()[-1], "#10")

    def test_a_wave_of_who_may_not_run(self) -> None:
        file = self.folder / "out.vcd"
        told = self.over_files("wave", "10", str(file), user="bob", token="t2", status=1)
        self.assertEqual(told, "loddrume: you lack the right run: the policy does not let you run the design\n")
        self.assertFalse(file.exists())

    def test_a_wrong_token(self) -> None:
        self.assertEqual(self.over_files("races", token="no", status=1), "loddrume: bad token\n")

    def test_no_server(self) -> None:
        told = self.command("races", "--server", f"127.0.0.1:{free_port()}", "--user", "ann", status=1)
        self.assertIn("Connection refused", told)

    def test_no_token(self) -> None:
        words = [sys.executable, "-m", "loddrume", "races", "--server", "127.0.0.1:7000", "--user", "ann"]
        without = {name: value for name, value in os.environ.items() if name != "LODDRUME_TOKEN"}
        ended = subprocess.run(
            words, cwd=HERE, env=without, stdin=subprocess.DEVNULL, capture_output=True, encoding="utf-8", start_new_session=True, timeout=30, check=False
        )
        self.assertEqual(ended.returncode, 1)
        self.assertEqual(ended.stderr.splitlines()[-1].removeprefix("token: "), "loddrume: no token: set LODDRUME_TOKEN, or type it")

    def test_a_wave_that_cant_be_written(self) -> None:
        file = self.folder / "none" / "out.vcd"
        told = self.over_files("wave", "10", str(file), status=1)
        self.assertEqual(told, f"loddrume: [Errno 2] No such file or directory: '{file}.part'\n")

    def test_no_certificates(self) -> None:
        told = self.command("races", "--server", "127.0.0.1:7000", "--user", "ann", "--ca", str(self.folder / "none"), status=1)
        self.assertEqual(told, "loddrume: the files of --ca and --cert: [Errno 2] No such file or directory\n")

    def test_words_that_ask_nothing(self) -> None:
        for words, told in [
            (["races", "--server", "localhost"], "localhost is no HOST:PORT, such as localhost:7000"),
            (["races", "--server", "localhost:65536"], "localhost:65536 is no HOST:PORT, such as localhost:7000"),
            (["races", "--server", ":7000", "-5"], "-5 is no number from 0 on"),
            (["grant", "--server", ":7000", "two", "list"], "two is no number from 0 on"),
        ]:
            with contextlib.redirect_stderr(io.StringIO()) as printed, self.assertRaises(SystemExit) as ended:
                loddrume.main([*words, "--user", "ann"])
            self.assertEqual(ended.exception.code, 2)
            self.assertIn(told, printed.getvalue())


# ---- the operator

OK = '{"ok":true}'
BAD_OPERATOR = '{"error":"bad operator"}'
RUN_DENIED = '{"denied":{"author":"","by":"grant","no":0,"right":"run"}}'
STATUS = (
    '{"connections":4,"denials":6,"version":"0.1.0","world":{"bytes":40,"entries":12,"held":7,"jobs":1,"races":3,"running":true,'
    '"sessions":[{"sessions":2,"user":"ann"},{"sessions":0,"user":"bob"}],"time":5},"wrong_tokens":0}'
)
STANDS = Status(
    version="0.1.0",
    time=5,
    running=True,
    entries=12,
    held=7,
    bytes=40,
    jobs=1,
    races=3,
    connections=4,
    denials=6,
    wrong_tokens=0,
    sessions={"ann": 2, "bob": 0},
)
# What the operator asks of a server, the line for it, and what that is answered.
ORDERS: List[Tuple[Callable[[Server], object], Dict[str, object], str]] = [
    (lambda server: server.grant("op", "bob", 0, "list"), {"op": "grant", "token": "op", "user": "bob", "envelope": 0, "access": "list"}, OK),
    (lambda server: server.stop("op"), {"op": "stop", "token": "op"}, OK),
    (lambda server: server.end_user("op", "ann"), {"op": "end", "token": "op", "user": "ann"}, OK),
    (lambda server: server.status("op"), {"op": "status", "token": "op"}, STATUS),
    (lambda server: server.shut_down("op"), {"op": "shutdown", "token": "op"}, OK),
]


class MadeUp:
    """Lines that answer one thing after another, whatever is asked."""

    def __init__(self, *answers: str) -> None:
        self.asked: List[Dict[str, object]] = []
        self.has_ended = False
        self._answers = iter(answers)

    def ask(self, line: str) -> str:
        self.asked.append(json.loads(line))
        return next(self._answers)

    def end(self) -> None:
        self.has_ended = True


class Operating(Asking):
    """What the operator asks, and what a user may ask beside him, over lines that are made up."""

    @contextlib.contextmanager
    def connected(self, *answers: str) -> Iterator[MadeUp]:
        """Lines in place of a connection to a server, which is let go of."""
        lines = MadeUp(*answers)
        with mock.patch.object(Server, "_connected", return_value=lines):
            yield lines
        self.assertTrue(lines.has_ended)

    def ordered(self, *words: str, answer: str = OK, status: int = 0) -> Tuple[List[Dict[str, object]], str]:
        """What a command of the operator asks, and what it prints."""
        with self.connected(answer) as lines:
            printed = self.command(words[0], "--server", ":7000", *words[1:], token="op", status=status)
        return lines.asked, printed

    def test_a_stop_of_a_session(self) -> None:
        lines = MadeUp(OK, OK, RUN_DENIED)
        session = Session(lines)
        session.stop()
        session.stop("op")
        with self.assertRaisesRegex(Denied, "you lack the right run: the policy does not let you run the design"):
            session.stop()
        self.assertEqual(lines.asked, [{"op": "stop"}, {"op": "stop", "token": "op"}, {"op": "stop"}])

    def test_a_stop_in_the_shell(self) -> None:
        lines, printed = MadeUp(OK, RUN_DENIED), io.StringIO()
        Shell(Session(lines), io.StringIO("stop\nstop\nquit\n"), printed).cmdloop("")
        self.assertEqual(lines.asked, [{"op": "stop"}] * 2)
        told = printed.getvalue().replace(Shell.prompt, "").split("\n")
        self.assertEqual([line for line in told if line], ["you lack the right run: the policy does not let you run the design"])

    def test_orders(self) -> None:
        for order, asked, answer in ORDERS:
            with self.subTest(asked["op"]), self.connected(answer) as lines:
                order(Server(7000))
                self.assertEqual(lines.asked, [asked])

    def test_a_wrong_token(self) -> None:
        for order, asked, _ in ORDERS:
            with self.subTest(asked["op"]), self.connected(BAD_OPERATOR), self.assertRaisesRegex(Refused, "bad operator"):
                order(Server(7000))

    def test_how_a_server_stands(self) -> None:
        with self.connected(STATUS):
            self.assertEqual(Server(7000).status("op"), STANDS)
        self.assertEqual(Session(MadeUp(STATUS)).status("op"), STANDS)

    def test_commands(self) -> None:
        for words, asked in [
            (["stop"], {"op": "stop", "token": "op"}),
            (["end", "ann"], {"op": "end", "token": "op", "user": "ann"}),
            (["shutdown"], {"op": "shutdown", "token": "op"}),
        ]:
            with self.subTest(words[0]):
                self.assertEqual(self.ordered(*words), ([asked], ""))
                self.assertEqual(self.ordered(*words, answer=BAD_OPERATOR, status=1), ([asked], "loddrume: bad operator\n"))

    def test_the_command_status(self) -> None:
        asked, printed = self.ordered("status", answer=STATUS)
        self.assertEqual(asked, [{"op": "status", "token": "op"}])
        self.assertEqual(
            printed.splitlines(),
            [
                "version 0.1.0",
                "time 5",
                "running true",
                "entries 12",
                "held 7",
                "bytes 40",
                "jobs 1",
                "races 3",
                "connections 4",
                "denials 6",
                "wrong_tokens 0",
                "sessions ann 2",
            ],
        )

    def test_words_that_ask_nothing(self) -> None:
        for words, told in [
            (["end", "--server", ":7000"], "the following arguments are required: USER"),
            (["stop"], "one of the arguments --server is required"),
            (["status", "--server", ":7000", "--token", "op"], "unrecognized arguments: --token op"),
            (["shutdown", "--server", ":7000", "op"], "unrecognized arguments: op"),
        ]:
            with contextlib.redirect_stderr(io.StringIO()) as printed, self.assertRaises(SystemExit) as ended:
                loddrume.main(words)
            self.assertEqual(ended.exception.code, 2)
            self.assertIn(told, printed.getvalue())

    def test_a_session_that_the_operator_ended(self) -> None:
        """A server that answers so, once, and closes the connection."""
        listener = socket.create_server(("127.0.0.1", 0))
        self.addCleanup(listener.close)

        def answer() -> None:
            connection, _ = listener.accept()
            with connection, connection.makefile("rw", encoding="utf-8", newline="\n") as stream:
                for reply in (OK, '{"error":"not open"}'):
                    stream.readline()
                    stream.write(reply + "\n")
                    stream.flush()

        answering = threading.Thread(target=answer)
        answering.start()
        with Server(listener.getsockname()[1], timeout=10).open("ann", "t1") as session:
            with self.assertRaisesRegex(Refused, "^not open$"):
                session.time()
            answering.join()
            for _ in range(3):
                with self.assertRaises(Disconnected):
                    session.time()


class OperatingAScript(Asking):
    """What the operator may ask in a script, which has no server."""

    def test_orders(self) -> None:
        session = self.open()
        for order in (session.status, session.shut_down):
            with self.assertRaisesRegex(Refused, "^bad request$"):
                order("op")
        session.run(10)
        session.stop()
        session.stop("op")
        with self.assertRaisesRegex(Refused, "^bad operator$"):
            session.stop("no")
        with self.assertRaisesRegex(Refused, "^no such user$"):
            session.end_user("op", "carl")
        session.end_user("op", "bob")
        self.assertEqual(session.time(), 5)
        session.end_user("op", "ann")
        with self.assertRaisesRegex(Refused, "^not open$"):
            session.time()

    def test_a_stop_of_who_may_not_run(self) -> None:
        with self.assertRaisesRegex(Denied, "you lack the right run: the policy does not let you run the design"):
            self.open("bob", "t2").stop()


# ---- a server


def free_port() -> int:
    """A port on which nothing listens."""
    with socket.create_server(("127.0.0.1", 0)) as listener:
        port: int = listener.getsockname()[1]
        return port


@contextlib.contextmanager
def serving(test: unittest.TestCase, design: Path, policy: Path, sessions: int) -> Iterator[int]:
    """A server that is to end after so many connections, and its port."""
    port = free_port()
    words = [PROGRAM, "serve", str(design), str(policy), "--port", str(port), "--workers", "2", "--sessions", str(sessions)]
    with subprocess.Popen(words, stdout=subprocess.PIPE, encoding="utf-8") as process:
        try:
            assert process.stdout
            test.assertEqual(process.stdout.readline(), f"listening {port}\n")
            yield port
            told, _ = process.communicate(timeout=30)
            test.assertRegex(told, r"\Aclosed [0-9]+\n\Z")
            test.assertEqual(process.returncode, 0)
        finally:
            process.kill()


@needs_serve
class Serving(Asking):
    """Sessions of one server, which share a simulation; each server ends when its connections have."""

    def test_users_share_one_simulation(self) -> None:
        with serving(self, self.design, self.policy, 2) as port:
            with Server(port, still=1).open("ann", "t1") as ann, Server(port, still=1).open("bob", "t2") as bob:
                clock = bob.handle_by_name("top.clk")
                callback = clock.register_cb()
                with self.assertRaises(Denied):
                    bob.run(10)
                self.assertEqual(ann.run_until(10), Now(5, False))
                self.assertEqual((bob.wait(5), clock.get_value()), (Now(5, False), "1"))
                ann.handle_by_name("top.clk").put_value("z")
                told = [(notice.callback, notice.time, notice.value) for notice in bob.poll().notices]
                self.assertEqual(told, [(callback, 0, "0"), (callback, 5, "1"), (callback, 5, "z")])

    def test_grants_change_in_a_run(self) -> None:
        with serving(self, self.design, self.policy, 4) as port:
            where = ["--server", f"127.0.0.1:{port}", "--user", "bob", "0"]
            with Server(port).open("bob", "t2") as bob:
                clock = bob.handle_by_name("top.clk")
                self.assertEqual(clock.get_value(), "x")
                self.assertEqual(self.command("grant", *where, "list", token="wrong", status=1), "loddrume: bad operator\n")
                self.assertEqual(self.command("grant", *where, "list", token="op"), "")
                with self.assertRaisesRegex(Denied, "you lack the right read: what is open to you in the open text is without it"):
                    clock.get_value()
                Server(port).grant("op", "bob", 0, "list+read")
                self.assertEqual(clock.get_value(), "x")

    def test_a_user_whose_sessions_are_ended(self) -> None:
        """By the command, and on a connection of his own; he may open another session."""
        with serving(self, self.design, self.policy, 6) as port:
            where = ["--server", f"127.0.0.1:{port}"]
            with Server(port).open("ann", "t1") as ann, Server(port).open("bob", "t2") as bob:
                self.assertEqual(self.command("end", *where, "ann", token="wrong", status=1), "loddrume: bad operator\n")
                self.assertEqual(self.command("end", *where, "carl", token="op", status=1), "loddrume: no such user\n")
                self.assertEqual(ann.time(), 0)
                self.assertEqual(self.command("end", *where, "ann", token="op"), "")
                self.check_ended(ann)
                self.assertEqual(bob.time(), 0)
                bob.end_user("op", "bob")
                self.check_ended(bob)
            with Server(port).open("ann", "t1") as ann:
                self.assertEqual(ann.time(), 0)

    def check_ended(self, session: Session) -> None:
        """A session is not open, which is answered once, and then its connection is closed."""
        with self.assertRaisesRegex(Refused, "^not open$"):
            session.time()
        with self.assertRaises(Disconnected):
            session.time()

    def test_a_run_that_is_stopped(self) -> None:
        """By the operator, on a connection of his own, on that of a user and by the command; and by a user who may run."""
        self.write(CLOCK, RACING)
        with serving(self, self.design, self.policy, 4) as port:
            with Server(port).open("ann", "t1") as ann, Server(port).open("bob", "t2") as bob:
                stops: List[Callable[[], object]] = [
                    lambda: Server(port).stop("op"),
                    lambda: bob.stop("op"),
                    lambda: self.command("stop", "--server", f"127.0.0.1:{port}", token="op"),
                    ann.stop,
                ]
                for stop in stops:
                    began, deadline = ann.time(), time.monotonic() + 30
                    ann.run(FAR)
                    while ann.time() == began and time.monotonic() < deadline:
                        time.sleep(0.01)
                    with self.assertRaisesRegex(Denied, "you lack the right run"):
                        bob.stop()
                    self.assertTrue(bob.status("op").running)
                    stop()
                    stopped = ann.now()
                    self.assertGreater(stopped.time, began)
                    self.assertLess(stopped.time, FAR)
                    time.sleep(0.2)
                    self.assertEqual(ann.now(), stopped)
                    self.assertFalse(bob.status("op").running)
                until = ann.time() + 10
                self.assertEqual(ann.run_until(until, still=1), Now(until, False))

    def test_how_a_server_stands(self) -> None:
        with serving(self, self.design, self.policy, 4) as port:
            with Server(port, still=1).open("ann", "t1") as ann:
                with Server(port).open("bob", "t2") as bob:
                    with self.assertRaises(Denied):
                        bob.run(10)
                    with self.assertRaisesRegex(Refused, "bad operator"):
                        bob.status("wrong")
                    ann.run_until(10)
                    stands, deadline = bob.status("op"), time.monotonic() + 30
                    while not stands.races and time.monotonic() < deadline:
                        # The workers find races a little after the run.
                        time.sleep(0.05)
                        stands = bob.status("op")
                    self.assertEqual((stands.connections, stands.denials, stands.wrong_tokens), (2, 1, 1))
                    self.assertEqual((stands.time, stands.running, stands.sessions), (5, False, {"ann": 1, "bob": 1}))
                    self.assertGreaterEqual(stands.races, 1)
                    self.assertGreaterEqual(stands.jobs, 0)
                    self.assertGreater(stands.held, 0)
                    self.assertGreaterEqual(stands.entries, stands.held)
                    self.assertGreater(stands.bytes, 0)
                    self.assertRegex(stands.version, "^[0-9]+[.][0-9]+[.][0-9]+")
                    self.assertEqual(Server(port).status("op").connections, 3)
                printed = self.command("status", "--server", f"127.0.0.1:{port}", token="op").splitlines()
        names = list(vars(stands))[:-1]
        self.assertEqual([line.split()[0] for line in printed[:-1]], names)
        self.assertIn("running false", printed)
        self.assertEqual(printed[-1], "sessions ann 1")

    def test_a_server_that_is_shut_down(self) -> None:
        """It ends long before its last connection, by status 0 and with `closed` as its last line, and an open session ends with it."""
        with serving(self, self.design, self.policy, 100) as port:
            where = ["--server", f"127.0.0.1:{port}"]
            ann = Server(port).open("ann", "t1")
            self.addCleanup(ann.end)
            self.assertEqual(self.command("shutdown", *where, token="wrong", status=1), "loddrume: bad operator\n")
            self.assertEqual(ann.time(), 0)
            self.assertEqual(self.command("shutdown", *where, token="op"), "")
        with self.assertRaises(Disconnected):
            ann.time()

    def test_a_port_that_is_taken(self) -> None:
        with socket.create_server(("127.0.0.1", 0)) as listener:
            words = [PROGRAM, "serve", str(self.design), str(self.policy), "--port", str(listener.getsockname()[1])]
            told = subprocess.run(words, stdout=subprocess.PIPE, stderr=subprocess.PIPE, encoding="utf-8", timeout=30)
        self.assertEqual((told.stdout, told.returncode), ("fault 1605 line 0\n", 1))
        self.assertEqual(told.stderr, "fault 1605: the port can't be listened on\n")

    def test_races_of_a_server(self) -> None:
        with serving(self, self.design, self.policy, 1) as port:
            printed = self.command("races", "--server", f"127.0.0.1:{port}", "--user", "ann", "--still", "1", "10").splitlines()
        self.assertIn("race 1 of top.a at time 5", printed)

    def test_waves_of_a_server(self) -> None:
        for user, (token, hidden) in HIDDEN.items():
            with self.subTest(user), serving(self, WAVES / "chip.v", WAVES / "chip.json", 1) as port:
                file = self.folder / f"{user}.vcd"
                self.command("wave", "--server", f"127.0.0.1:{port}", "--user", user, "--still", "1", str(UNTIL), str(file), token=token)
                compare(self, "chip", file.read_text(), hidden)

    def test_a_wave_that_follows(self) -> None:
        with serving(self, self.design, self.policy, 2) as port:
            with Server(port, still=1).open("bob", "t2") as bob, Server(port, still=1).open("ann", "t1") as ann:
                file = io.StringIO()
                following = threading.Thread(target=wave, args=(bob, 5, file), kwargs={"follow": True})
                following.start()
                time.sleep(0.2)
                ann.run_until(10)
                following.join(30)
                self.assertFalse(following.is_alive())
        self.assertEqual(read_vcd(file.getvalue())["top.clk"], [(0, "x"), (0, "0"), (5, "1")])

    def test_the_example(self) -> None:
        """The example of README.md prints what stands there."""
        text = (HERE / "README.md").read_text()
        example, printed = re.findall(r"```(?:python)?\n(.*?)```", text, re.DOTALL)
        with serving(self, WAVES / "chip.v", WAVES / "chip.json", 1) as port, contextlib.redirect_stdout(io.StringIO()) as told:
            exec(example.replace("Server(7000)", f"Server({port}, still=1)"), {})
        self.assertEqual(told.getvalue(), printed)

    @unittest.skipUnless(shutil.which("stunnel4") and shutil.which("openssl"), "there is no stunnel4, or no openssl")
    def test_by_tls(self) -> None:
        """By stunnel, as docs/OPERATING.md configures it: whose certificate is in its file comes in, and nobody else."""
        for name in ("loddrume", "sam", "mallory"):
            words = "req -x509 -newkey ec -pkeyopt ec_paramgen_curve:prime256v1 -nodes -days 2 -addext subjectAltName=DNS:localhost".split()
            files = ["-subj", f"/CN={name}", "-keyout", str(self.folder / f"{name}.key"), "-out", str(self.folder / f"{name}.crt")]
            subprocess.run(["openssl", *words, *files], stderr=subprocess.DEVNULL, check=True)
            (self.folder / f"{name}.pem").write_text("".join((self.folder / f"{name}.{end}").read_text() for end in ("crt", "key")))
        (self.folder / "users.crt").write_text((self.folder / "sam.crt").read_text())
        outside = free_port()
        with serving(self, self.design, self.policy, 2) as inside, self.stunnel(outside, inside):
            where = ["--server", f"localhost:{outside}", "--user", "ann", "--ca", str(self.folder / "loddrume.crt"), "--still", "1"]
            printed = self.command("races", *where, "--cert", str(self.folder / "sam.pem"), "10")
            self.assertIn("race 1 of top.a at time 5", printed)
            # How it fails is the proxy's own: by an alert, or by a connection that ends.
            self.assertRegex(self.command("races", *where, "--cert", str(self.folder / "mallory.pem"), status=1), "^loddrume: ")
            self.assertRegex(self.command("races", *where, status=1), "^loddrume: ")
            Server(inside).grant("op", "bob", 0, "")

    @contextlib.contextmanager
    def stunnel(self, outside: int, inside: int) -> Iterator[None]:
        """A proxy from one port to another."""
        found = re.search(r"```ini\n(foreground.*?)```", (TOP / "docs" / "OPERATING.md").read_text(), re.DOTALL)
        assert found
        written = found[1].replace("accept = 7443", f"accept = 127.0.0.1:{outside}").replace("127.0.0.1:7000", f"127.0.0.1:{inside}")
        (self.folder / "stunnel.conf").write_text(written.replace("/etc/stunnel/", f"{self.folder}/"))
        with subprocess.Popen(["stunnel4", str(self.folder / "stunnel.conf")], stderr=subprocess.PIPE, encoding="utf-8") as process:
            try:
                assert process.stderr
                for line in process.stderr:
                    if "Configuration successful" in line:
                        break
                yield
            finally:
                process.kill()

    def test_a_session_that_is_left(self) -> None:
        with serving(self, self.design, self.policy, 2) as port:
            left = Server(port).open("ann", "t1")
            left.end()
            with self.assertRaises(Disconnected):
                left.time()
            with Server(port).open("ann", "t1") as session, self.assertRaises(Refused):
                session.request("open", user="ann", token="t1")


if __name__ == "__main__":
    unittest.main()

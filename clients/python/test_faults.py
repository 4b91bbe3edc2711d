"""Tests of the faults that no text brings: words that ask nothing, standard input or output that fails, and out of memory and of threads. Each but the
first is reported by its number on standard output, and in words on standard error. python3 -m unittest, in this folder, over the program of test_loddrume.
"""

import errno
import fcntl
import json
import os
import resource
import socket
import subprocess
import tempfile
import unittest
from pathlib import Path
from typing import Callable, Set, Tuple

from test_loddrume import PROGRAM, TOP, free_port, needs_serve

EXAMPLE = TOP / "docs" / "policy"

# Sets the size of a pipe (fcntl(2)); Python has the name from 3.10 on.
F_SETPIPE_SZ = 1031

# What is reported of each out of memory, by docs/FORMATS.md: of the design d.v and the policy p.json.
WANTS = {
    **{number: [f"d.v: fault {number}: no memory (no line is known for it)\n"] for number in (206, 310, 404, 510, 604)},
    905: ["p.json: fault 905: no memory (no line is known for it)\n"],
    1307: ["fault 1307: no memory for a world\n"],
    1607: [f"{name}fault 1607: no memory\n" for name in ("d.v: ", "p.json: ", "")],
}
# The C library asks for memory page by page (mallopt(3)), so that a little more of it lets a run come a little further.
BY_PAGES = {"MALLOC_TOP_PAD_": "0", "MALLOC_MMAP_THRESHOLD_": str(32 << 20)}
# So many sizes of memory are tried, from the least with which the program prints its help.
SIZES = 40


def limited(**sizes: int) -> Callable[[], None]:
    """What sets limits of a new process (setrlimit(2)), in bytes."""

    def limit() -> None:
        for name, size in sizes.items():
            resource.setrlimit(getattr(resource, f"RLIMIT_{name}"), (size, size))

    return limit


def outcome(process: "subprocess.CompletedProcess[str]") -> Tuple[int, str, str]:
    """The status, standard output and standard error."""
    return process.returncode, process.stdout, process.stderr


class Words(unittest.TestCase):
    """The command line."""

    def test_words_that_ask_nothing(self) -> None:
        run = subprocess.run([PROGRAM, "frob"], capture_output=True, encoding="utf-8", check=False)
        wanted = "error: unrecognized subcommand 'frob'\n\nUsage: vp_served [COMMAND]\n\nFor more information, try '--help'.\n"
        self.assertEqual(outcome(run), (2, "", wanted))


class Lines(unittest.TestCase):
    """Standard input and standard output."""

    words = [PROGRAM, "run", "soc.v", "policy.json"]

    def test_input_that_fails(self) -> None:
        folder = os.open(EXAMPLE, os.O_RDONLY)
        try:
            run = subprocess.run(self.words, cwd=EXAMPLE, stdin=folder, capture_output=True, encoding="utf-8", check=False)
        finally:
            os.close(folder)
        self.assertEqual(outcome(run), (1, "fault 1504 line 0\n", "fault 1504: standard input can't be read\n"))

    def test_output_that_fails(self) -> None:
        with (EXAMPLE / "sam.script").open() as script, open("/dev/full", "w") as full:
            run = subprocess.run(self.words, cwd=EXAMPLE, stdin=script, stdout=full, stderr=subprocess.PIPE, encoding="utf-8", check=False)
        system = f'Error: Os {{ code: {errno.ENOSPC}, kind: StorageFull, message: "{os.strerror(errno.ENOSPC)}" }}\n'
        self.assertEqual((run.returncode, run.stderr), (1, "fault 1505: standard output can't be written\n" + system))

    def test_input_of_too_many_reads(self) -> None:
        """Each byte of the writer is read by itself, since each write makes a packet of the pipe (pipe(2))."""
        reader, writer = os.pipe2(os.O_DIRECT)
        fcntl.fcntl(writer, F_SETPIPE_SZ, 1 << 20)
        zeros = ["dd", "if=/dev/zero", "bs=1", f"count={1 << 25}"]
        with subprocess.Popen(zeros, stdout=writer, stderr=subprocess.DEVNULL) as writing:
            os.close(writer)
            run = subprocess.run(self.words, cwd=EXAMPLE, stdin=reader, capture_output=True, encoding="utf-8", check=False)
            os.close(reader)
        self.assertNotEqual(writing.returncode, 0)
        self.assertEqual(outcome(run), (1, "fault 1506 line 0\n", "fault 1506: standard input was read 16,777,216 times\n"))


class Cuts(unittest.TestCase):
    """The stored bundle cut after each of its bytes: the first fault of what is left, or the replies to its lines."""

    bundle = (TOP / "crates" / "vp_served" / "stdin").read_bytes()
    replies = (TOP / "crates" / "vp_served" / "stdout").read_text().splitlines()

    def answered(self, end: int) -> "subprocess.CompletedProcess[bytes]":
        """A run over the first bytes of the bundle, so many."""
        return subprocess.run([PROGRAM], input=self.bundle[:end], capture_output=True, check=False, timeout=60)

    def test_each_cut_before_the_script(self) -> None:
        # (the last line may lack its newline)
        script = self.bundle.rindex(b"%%\n") + len(b"%%")
        for end in range(script):
            run = self.answered(end)
            self.assertEqual((run.returncode, run.stdout), (1, b"fault 1601 line 0\n"), end)

    def test_each_cut_of_the_script(self) -> None:
        begins = self.bundle.rindex(b"%%\n") + len(b"%%\n")
        for end in range(begins - 1, len(self.bundle) + 1):
            whole, _, begun = self.bundle[begins:end].rpartition(b"\n")
            lines = self.answered(end).stdout.decode().splitlines()
            count = whole.count(b"\n") + (1 if whole else 0)
            self.assertEqual(lines[:count], self.replies[:count], end)
            more = [self.replies[count], '{"error":"bad json"}', '{"error":"bad request"}'] if begun else []
            self.assertEqual(len(lines) - count, 1 if begun else 0, end)
            self.assertTrue(all(line in more for line in lines[count:]), end)


class Nesting(unittest.TestCase):
    """JSON is read up to 127 deep."""

    def nested(self, depth: int) -> str:
        """An array in an array, so deep."""
        return "[" * depth + "]" * depth

    def test_lines(self) -> None:
        for depth, error in ((127, "bad request"), (128, "bad json")):
            words = [PROGRAM, "run", "soc.v", "policy.json"]
            run = subprocess.run(words, cwd=EXAMPLE, input=self.nested(depth), capture_output=True, encoding="utf-8", check=False)
            self.assertEqual(run.stdout, f'{{"error":"{error}"}}\n')

    def test_policies(self) -> None:
        with tempfile.TemporaryDirectory() as folder:
            Path(folder, "p.json").write_text('{"users":' + self.nested(127) + "}")
            words = [PROGRAM, "check", str(EXAMPLE / "soc.v"), "p.json"]
            run = subprocess.run(words, cwd=folder, capture_output=True, encoding="utf-8", check=False)
        self.assertEqual((run.returncode, run.stdout), (1, "fault 901 line 0\n"))


def wires(count: int) -> str:
    """A module with so many wires, and an expression for each."""
    items = [f"wire w{number} = a & (a | {number % 7}) ^ ~a;\n" for number in range(count)]
    return "module top(input wire a);\n" + "".join(items) + "endmodule\n"


def levels(count: int) -> str:
    """Modules, each of which has two instances of the next, so many levels deep."""
    modules = [f"module m{level}; reg r; m{level + 1} a(), b(); endmodule\n" for level in range(count)]
    return "".join(modules) + f"module m{count}; reg r; endmodule\n"


def envelopes(count: int, author: str) -> str:
    """A module with so many envelopes, each of an author of its own."""
    items = [f'`pragma protect author="{author}{number}", begin\nreg r{number};\n`pragma protect end\n' for number in range(count)]
    return "module top;\n" + "".join(items) + "endmodule\n"


def policy(users: int, grants: int) -> str:
    """A policy of so many users, each with grants for so many envelopes."""
    granted = [{"envelope": number + 1, "access": "list+read"} for number in range(grants)]
    return json.dumps({"users": [{"name": f"u{number}", "token": "t", "open": "list", "run": True, "grants": granted} for number in range(users)]})


class Memory(unittest.TestCase):
    """Out of memory for a file, a design, a policy or a world, and for threads."""

    def run_within(self, size: int, folder: Path, *words: str) -> "subprocess.CompletedProcess[str]":
        """A run of the program with so many bytes of memory."""
        return subprocess.run(
            [PROGRAM, *words],
            cwd=folder,
            stdin=subprocess.DEVNULL,
            capture_output=True,
            encoding="utf-8",
            env={**os.environ, **BY_PAGES},
            preexec_fn=limited(DATA=size, CORE=0),
            timeout=60,
            check=False,
        )

    def enough(self, size: int, growth: Callable[[int], int], folder: Path, *words: str) -> int:
        """The first size of memory, from this one on, in which a run succeeds."""
        while self.run_within(size, folder, *words).returncode:
            size = growth(size)
            self.assertLess(size, 1 << 32)
        return size

    def faults(self, folder: Path, *words: str) -> Set[Tuple[str, str]]:
        """What the program reports of files for which there is too little memory: faults, and their words."""
        least = self.enough(64 << 10, lambda size: size + (16 << 10), folder, "--help")
        enough = self.enough(least, lambda size: 2 * size, folder, *words)
        found = set()
        for size in range(least, enough, (enough - least) // SIZES):
            status, output, error = outcome(self.run_within(size, folder, *words))
            if (status, output, error) != (0, "", ""):
                self.assertEqual(status, 1, error)
                found.add((output, error))
        return found

    def check(self, command: str, design: str, rules: str, *wanted: int) -> None:
        """Each fault of a design and a policy is out of memory and reported so, and among them are these."""
        with tempfile.TemporaryDirectory() as folder:
            (Path(folder) / "d.v").write_text(design)
            (Path(folder) / "p.json").write_text(rules)
            found = self.faults(Path(folder), command, "d.v", "p.json")
        self.assertLessEqual(found, {(f"fault {number} line 0\n", text) for number, texts in WANTS.items() for text in texts})
        self.assertLessEqual({f"fault {number} line 0\n" for number in wanted}, {output for output, _ in found})

    def test_a_text_of_many_wires(self) -> None:
        self.check("check", wires(1000), policy(1, 0), 206, 404, 604)

    def test_envelopes_of_long_authors(self) -> None:
        self.check("check", envelopes(200, "a" * 2000), policy(1, 0), 310, 1607)

    def test_a_policy_of_many_grants(self) -> None:
        self.check("check", envelopes(20, "acme"), policy(100, 20), 905)

    def test_a_world_of_many_objects(self) -> None:
        self.check("run", levels(10), policy(1, 0), 510, 1307)

    @needs_serve
    def test_threads(self) -> None:
        port = free_port()
        run = self.run_within(4 << 20, EXAMPLE, "serve", "soc.v", "policy.json", "--port", str(port))
        self.assertEqual(outcome(run), (1, f"listening {port}\nfault 1606 line 0\n", "fault 1606: no thread can be started\n"))

    @needs_serve
    def test_the_end_of_a_server(self) -> None:
        """A server that may have no more memory ends as ever after a long session."""
        port = free_port()
        words = [PROGRAM, "serve", "soc.v", "policy.json", "--port", str(port), "--sessions", "1"]
        opening = (EXAMPLE / "sam.script").read_text().splitlines(keepends=True)[0]
        lines = [opening, *['{"op":"time"}\n'] * 20_000]
        with subprocess.Popen(words, cwd=EXAMPLE, stdout=subprocess.PIPE, stderr=subprocess.PIPE, encoding="utf-8") as server:
            try:
                assert server.stdout
                self.assertEqual(server.stdout.readline(), f"listening {port}\n")
                with socket.create_connection(("127.0.0.1", port), 60) as connection, connection.makefile("rw", encoding="utf-8", newline="\n") as stream:
                    for line in lines:
                        stream.write(line)
                        stream.flush()
                        self.assertTrue(stream.readline())
                    resource.prlimit(server.pid, resource.RLIMIT_DATA, (0, 0))
                output, error = server.communicate(timeout=60)
            finally:
                server.kill()
        self.assertEqual((server.returncode, output, error), (0, "closed 20002\n", ""))


if __name__ == "__main__":
    unittest.main()

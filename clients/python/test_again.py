"""Nothing of a server grows with what is done again and again: it never has more than 1 MiB more than it had until the first hundredth of it.

As a test (python3 -m unittest, in this folder, over the program of test_loddrume) each is done 10^5 times, and what is dear 10^3 times. As a program each is
done so many times, what is dear a hundredth of that, and a table is printed: test_again.py TIMES [PART OF A NAME].

A server has some MiB less after its log was handed out than before, so what is compared is the most memory that it had at any time. Until the first
hundredth is done the log was handed out twice, by the same requests, and its lists have their full size. Few connections, as in the test, hand it out less
than once: before them requests do so. Threads that come and go take turns at the C library's arenas, so that of many connections the most memory goes up
and down by some MiB; with MALLOC_ARENA_MAX=1 in the environment it does not.
"""

import socket
import sys
import time
import unittest
from typing import Callable, Iterable, List, NamedTuple, Tuple

from test_lasting import DESIGN, OPEN, Served
from test_loddrume import needs_serve

# How often in the gate, KiB that it may have more, and how much dearer some are than the others.
TIMES, MORE, DEAR = 100_000, 1_024, 100
# In a round of the log come a little more entries, or bytes of texts, than those with which it is handed out.
ENTRIES, TEXTS = 70_000, 20 << 20
# So few connections leave less than MORE in a log, and no round of it comes before them.
FEW = 2_000
# So many lines are sent before their answers are read.
AT_ONCE = 1_000

PARTS = """module ip(input wire c, output reg q);
`pragma protect author="acme", begin
  reg k, s;
`pragma protect viewport=(object="ip.s", access="read")
`pragma protect end
endmodule
module top; reg x, y; ip u(.c(x), .q()); always @(x) y = x; endmodule
"""
# Two processes race for a and b in each time slot.
RACING = """module top; reg c, a, b; initial begin a = 0; b = 1; for (c = 0; 1; c = ~c) #1 ; end
always @(c) a = b;
always @(c) b = ~a;
endmodule
"""
# Eight processes of 63 steps go on in each time slot, in any order, and each to a reg of its own.
CHOICES = (
    "module top; reg c; "
    + "".join(f"reg [7:0] i{k}; " for k in range(8))
    + "initial for (c = 0; 1; c = ~c) #1 ;\n"
    + "".join(f"always @(c) for (i{k} = 0; i{k} < 20; i{k} = i{k} + 1) ;\n" for k in range(8))
    + "endmodule\n"
)
ALL = "list+read+watch+put+race"
POLICY = {"users": [{"name": "ann", "token": "t1", "open": ALL, "run": True}], "operator": "op"}
OK = '{"ok":true}'
LONG = "n" * 65_000
DENIED = '{"denied":{"author":"acme","by":"viewport","no":1,"object":"ip.s","right":"put"}}'

# A line, and what it is answered.
Pair = Tuple[str, str]


def exchange(served: Served, pairs: Iterable[Pair], at_once: int = AT_ONCE) -> None:
    """Sends lines, some at once, and compares their answers."""
    waiting: List[Pair] = []

    def ask() -> None:
        answers = served.ask(*(line for line, _ in waiting))
        for (line, wanted), answer in zip(waiting, answers):
            assert answer == wanted, f"{line[:200]} is answered {answer}, and not {wanted}"
        waiting.clear()

    for pair in pairs:
        waiting.append(pair)
        if len(waiting) >= at_once:
            ask()
    ask()


def wait(is_so: Callable[[], bool]) -> None:
    """Waits until something is so, for ten minutes at most."""
    deadline = time.monotonic() + 600
    while not is_so():
        assert time.monotonic() < deadline, "ten minutes were not enough"
        time.sleep(0.05)


class Kind:
    """What is done again and again at a server of a design, which is DEAR or not, and how often it is done in a round of the log."""

    design, workers, sessions, dear, round = PARTS, 0, 1, False, ENTRIES

    def __init__(self, name: str) -> None:
        self.name = name

    def begin(self, served: Served) -> None:
        """Does what comes before it."""
        exchange(served, [(OPEN, OK)])

    def do(self, served: Served, done: int, times: int) -> None:
        """Does it so many times more."""
        raise NotImplementedError


class Requests(Kind):
    """Requests of one connection; the n-th time, from 1, has some lines and their answers."""

    def __init__(self, name: str, pairs: Callable[[int], List[Pair]], *before: Pair, dear: bool = False) -> None:
        super().__init__(name)
        self.pairs, self.before, self.dear = pairs, before, dear
        self.at_once, self.round = (8, TEXTS // len(LONG)) if dear else (AT_ONCE, ENTRIES // len(pairs(1)))

    def begin(self, served: Served) -> None:
        exchange(served, [(OPEN, OK), *self.before])

    def do(self, served: Served, done: int, times: int) -> None:
        exchange(served, (pair for n in range(done + 1, done + times + 1) for pair in self.pairs(n)), self.at_once)


class Waking(Requests):
    """The same, after a round in which nothing runs: its entries are the greatest that a round may have."""

    def begin(self, served: Served) -> None:
        super().begin(served)
        self.do(served, 0, self.round)
        exchange(served, [('{"op":"run","until":10}', OK)])


class Connections(Kind):
    """Connections, one after another, that say these lines and end, beside another, which hands the log out twice before them."""

    sessions, dear = 0, True

    def __init__(self, name: str, *pairs: Pair) -> None:
        super().__init__(name)
        self.lines = "".join(f"{line}\n" for line, _ in pairs).encode()
        self.answers = "".join(f"{answer}\n" for _, answer in pairs).encode()
        self.round //= 2

    def begin(self, served: Served) -> None:
        super().begin(served)
        exchange(served, [('{"op":"time"}', '{"finished":false,"time":0}')] * (2 * ENTRIES))
        served.forget_most_memory()

    def do(self, served: Served, done: int, times: int) -> None:
        for _ in range(times):
            with socket.create_connection(("127.0.0.1", served.port), 60) as connection:
                connection.sendall(self.lines)
                connection.shutdown(socket.SHUT_WR)
                with connection.makefile("rb") as answers:
                    assert answers.read() == self.answers


class Slots(Kind):
    """Time slots of a design, with so many workers; if it has races, then once the book is full."""

    def __init__(self, name: str, design: str, workers: int = 2, races: bool = False, dear: bool = False) -> None:
        super().__init__(name)
        self.design, self.workers, self.races, self.dear = design, workers, races, dear
        self.round //= DEAR if dear else 1
        self.begun = 0

    def begin(self, served: Served) -> None:
        super().begin(served)
        self.begun = 0
        if self.races:
            wait(lambda: self.fills_book(served))

    def do(self, served: Served, done: int, times: int) -> None:
        until = self.begun + done + times
        exchange(served, [(f'{{"op":"run","until":{until}}}', OK)])
        wait(lambda: served.time() == until)

    def fills_book(self, served: Served) -> bool:
        """Lets it run for a while, and reports whether the book has its 65,536 races."""
        self.do(served, 0, 10_000)
        self.begun += 10_000
        return served.ask('{"from":65536,"op":"races"}') != ['{"races":[]}']


def free(handle: int) -> Pair:
    """A handle that is freed."""
    return f'{{"h":{handle},"op":"free"}}', OK


def handle_of(name: str, handle: int) -> Pair:
    """A handle of a name, and its number."""
    return f'{{"name":"{name}","op":"handle"}}', f'{{"h":{handle}}}'


def put(n: int) -> Pair:
    """A put of a value that is another than the one before."""
    return f'{{"h":1,"op":"put","value":"{n % 2}"}}', OK


def watch(callback: int) -> Pair:
    """A callback on the reg of handle 1, and its number."""
    return '{"h":1,"op":"watch"}', f'{{"cb":{callback}}}'


def poll(notices: str = "") -> Pair:
    """A poll, and the notices that waited."""
    return '{"op":"poll"}', f'{{"lost":0,"notices":[{notices}]}}'


def grant(access: str) -> Pair:
    """A grant for the open text."""
    return f'{{"access":"{access}","envelope":0,"op":"grant","token":"op","user":"ann"}}', OK


def list_of_regs(n: int) -> List[Pair]:
    """A list of the regs of top, the n-th, and each of its handles freed."""
    first = 2 * n
    items = f'[{{"h":{first},"name":"x"}},{{"h":{first + 1},"name":"y"}}]'
    return [('{"h":1,"kind":"reg","op":"iterate"}', f'{{"closed":[],"items":{items}}}'), free(first), free(first + 1)]


def notice(n: int) -> List[Pair]:
    """A put of a reg that is watched, and its notice."""
    return [put(n), poll(f'{{"cb":1,"time":0,"value":"{n % 2}"}}')]


REG = handle_of("top.x", 1)
KINDS: List[Kind] = [
    Requests("a handle made and freed", lambda n: [handle_of("top.x", n), free(n)]),
    Requests("a list of two handles made, and they are freed", list_of_regs, handle_of("top", 1)),
    Requests("a callback registered and removed", lambda n: [watch(n), (f'{{"cb":{n},"op":"unwatch"}}', OK)], REG),
    Requests("a request that is denied in words", lambda n: [('{"h":1,"op":"put","value":"0"}', DENIED)], handle_of("top.u.s", 1)),
    Requests("a name that is not there", lambda n: [('{"name":"top.none","op":"handle"}', '{"error":"no such name"}')]),
    Requests("a line that is no JSON", lambda n: [('{"op"', '{"error":"bad json"}')]),
    Requests("a poll without notices", lambda n: [poll()], REG, watch(1)),
    Requests("a put that is watched, and a poll", notice, REG, watch(1)),
    Requests("a put whose notice is lost", lambda n: [put(n)], REG, watch(1)),
    Waking("a put that wakes a process, and a value", lambda n: [put(n), ('{"h":1,"op":"value"}', f'{{"value":"{n % 2}"}}')], REG),
    Requests("grants back and forth, a callback between them", lambda n: [grant("list"), grant(ALL), watch(n)], REG),
    Requests("a request of 65,000 letters", lambda n: [(f'{{"name":"{LONG}","op":"handle"}}', '{"error":"no such name"}')], dear=True),
    Connections("a connection that opens and closes a session", (OPEN, OK), ('{"op":"close"}', OK)),
    Connections("a connection that leaves a handle, a callback and notices", (OPEN, OK), REG, watch(1), put(0), put(1)),
    Connections("a connection that says nothing"),
    Slots("a time slot without a race, no workers", DESIGN, workers=0),
    Slots("a time slot with two races, two workers, a full book", RACING, races=True),
    Slots("a time slot of five hundred choices, two workers", CHOICES, dear=True),
]


class Measured(NamedTuple):
    """What was done how often, the most KiB until before it and until after it, and its seconds."""

    name: str
    times: int
    before: int
    after: int
    seconds: float


def measured(kind: Kind, times: int) -> Measured:
    """Does it for two rounds of the log and a hundredth of so many times, and then so many times."""
    times //= DEAR if kind.dear else 1
    with Served(design=kind.design, policy=POLICY, workers=kind.workers, sessions=kind.sessions) as served:
        kind.begin(served)
        done = 2 * (kind.round if times > FEW else min(kind.round, times)) + times // 100
        kind.do(served, 0, done)
        before, begun = served.most_memory(), time.monotonic()
        kind.do(served, done, times)
        return Measured(kind.name, times, before, served.most_memory(), time.monotonic() - begun)


@needs_serve
class Again(unittest.TestCase):
    """What is done again and again."""

    def test_nothing_grows(self) -> None:
        for kind in KINDS:
            with self.subTest(kind.name):
                found = measured(kind, TIMES)
                self.assertLessEqual(found.after, found.before + MORE, f"KiB after {found.times} times")


def main() -> int:
    """Prints the table, and reports whether something grew."""
    times, part = int(sys.argv[1]) if sys.argv[1:] else TIMES, " ".join(sys.argv[2:])
    grew = 0
    print("| | Times | Most KiB until the first hundredth | until the end | Seconds |\n|---|---|---|---|---|", flush=True)
    for kind in KINDS:
        if part in kind.name:
            found = measured(kind, times)
            grew += found.after > found.before + MORE
            print(f"| {found.name} | {found.times:,} | {found.before:,} | {found.after:,} | {found.seconds:.0f} |", flush=True)
    return 1 if grew else 0


if __name__ == "__main__":
    sys.exit(main())

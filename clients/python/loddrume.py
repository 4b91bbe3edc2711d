"""A client of Loddrume in the manner of VPI (IEEE Std 1364-2005, clauses 26 and 27). It needs Python 3.9 and its standard library alone.

    from loddrume import Server

    with Server(7000).open("sam", "soc-1") as session:
        clock = session.handle_by_name("chip.clk")
        clock.register_cb(lambda notice: print(notice.time, notice.value))
        session.run_until(100)
        session.poll()
        print(clock.get_value())

`Server` connects to `vp_served serve`, where all sessions share one simulation; `Program` starts `vp_served run` for a session that has its own.
Each request is one line and each reply one line (docs/FORMATS.md, "Lines"). Every call raises `Denied` where a right is lacking, with the
author, the right and the object; `Refused` where the request is refused otherwise; `Disconnected` where the server has ended. A session and
its handles are for one thread at a time.

    python3 -m loddrume shell --server HOST:PORT --user USER                  a prompt, which completes names and puts denials into words
    python3 -m loddrume wave --server HOST:PORT --user USER UNTIL FILE        what the user may watch, as a VCD file (clause 18)
    python3 -m loddrume races --server HOST:PORT --user USER [UNTIL]          the races that the user is shown, both orders side by side
    python3 -m loddrume grant --server HOST:PORT --user USER ENVELOPE ACCESS  what a user is granted from now on, by the operator's token
    python3 -m loddrume stop --server HOST:PORT                               lets the design stand still, by the operator's token
    python3 -m loddrume end --server HOST:PORT USER                           ends a user's open sessions, by the operator's token
    python3 -m loddrume status --server HOST:PORT                             how the server stands, by the operator's token
    python3 -m loddrume shutdown --server HOST:PORT                           ends the server, by the operator's token

The token is read from the environment's LODDRUME_TOKEN, or asked for. `--files DESIGN POLICY` in place of `--server` starts `vp_served run`.
`--names FILE` is the map of a design that was lowered: names are those of the original then (docs/REAL-DESIGNS.md).

Apache-2.0, see LICENSE.
"""

from __future__ import annotations

import argparse
import cmd
import contextlib
import getpass
import itertools
import json
import os
import re
import socket
import ssl
import subprocess
import sys
import time as clock
from dataclasses import dataclass
from pathlib import Path
from typing import IO, Any, Callable, Dict, Iterator, List, Literal, NamedTuple, Optional, Protocol, Sequence, TextIO, Tuple, Union

Kind = Literal["module", "net", "reg", "parameter", "always", "initial", "assign"]
KINDS: Tuple[Kind, ...] = ("module", "net", "reg", "parameter", "always", "initial", "assign")

# ---- errors


class LoddrumeError(Exception):
    """What was not done as asked."""


class Disconnected(LoddrumeError):
    """The server, or the program, is not there or has ended."""


class Refused(LoddrumeError):
    """A refusal other than a denial, by its text: `bad handle`, `no such name` and so on (docs/FORMATS.md, "Lines")."""


class Denied(LoddrumeError):
    """A right is lacking.

    `right` is the right that is lacking; `author` the author of the envelope, empty for the open text; `envelope` its number, 0 for the open text;
    `by` what keeps the user out, `envelope`, `viewport` or `grant`; `object` the object as a viewport names it, where one keeps him out.
    """

    def __init__(self, denial: Dict[str, Any]) -> None:
        self.right: str = denial["right"]
        self.author: str = denial["author"]
        self.envelope: int = denial["no"]
        self.by: str = denial["by"]
        self.object: Optional[str] = denial.get("object")
        super().__init__(f"you lack the right {self.right}: {self._why()}")

    def _why(self) -> str:
        # The author is any text of the design: it is quoted, so that it can't steer a terminal.
        whose = f" of {json.dumps(self.author)}" if self.author else ""
        if self.right == "run":
            return "the policy does not let you run the design"
        if self.by == "viewport":
            return f"a viewport shows {self.object} of envelope {self.envelope}{whose} without it"
        if self.by == "envelope":
            return f"you have no grant for envelope {self.envelope}{whose}"
        return f"your grant for envelope {self.envelope}{whose} is without it" if self.envelope else "what is open to you in the open text is without it"


class LostNotices(LoddrumeError):
    """More changes came between two polls than wait for a session, so that a wave has a gap."""


# ---- connections


class Lines(Protocol):
    """Something that takes a line and answers a line."""

    def ask(self, line: str) -> str:
        """The line that answers a line, both without their newlines."""

    def end(self) -> None:
        """Lets go of what answers."""


class _Streams:
    """Lines over two streams, and what is done at their end."""

    def __init__(self, written: IO[str], read: IO[str], closing: Callable[[], None]) -> None:
        self._written = written
        self._read = read
        self._closing = closing

    def ask(self, line: str) -> str:
        # What has ended may have said why before: its last line is read even where nothing can be written.
        with contextlib.suppress(OSError, ValueError):
            self._written.write(line + "\n")
            self._written.flush()
        try:
            answer = self._read.readline()
        except (OSError, ValueError) as error:
            raise Disconnected(str(error)) from error
        if not answer.endswith("\n") or answer.startswith("fault "):
            raise Disconnected(answer.rstrip() or "the connection was closed")
        return answer[:-1]

    def end(self) -> None:
        self._closing()


class Source(Protocol):
    """Something that sessions can be opened on: a `Server` or a `Program`."""

    def open(self, user: str, token: str) -> "Session":
        """Opens a session for a user."""


class Program:
    """`vp_served run` over the files of a design and a policy. Each session is a run of its own, in which nobody else takes part."""

    def __init__(self, design: Union[str, Path], policy: Union[str, Path], program: str = "vp_served") -> None:
        self._words = [program, "run", str(design), str(policy)]

    def open(self, user: str, token: str) -> "Session":
        """Opens a session. Raises `Refused` for a wrong user or token, and `Disconnected` with the program's line for a design or policy at fault."""
        try:
            process = subprocess.Popen(self._words, stdin=subprocess.PIPE, stdout=subprocess.PIPE, encoding="utf-8")
        except OSError as error:
            raise Disconnected(str(error)) from error
        assert process.stdin and process.stdout
        written: IO[str] = process.stdin
        read: IO[str] = process.stdout

        def closing() -> None:
            with contextlib.suppress(BrokenPipeError):
                written.close()
            read.close()
            process.wait()

        return _opened(_Streams(written, read, closing), user, token, 0.0)


class Server:
    """A server of lines: `vp_served serve`, or a proxy before it.

    `timeout` is how many seconds a reply is waited for; `tls` a context of `ssl` where the proxy wants TLS; `still` as for `Session.run_until`.
    """

    def __init__(
        self, port: int, host: str = "127.0.0.1", timeout: float = 60.0, tls: Optional[ssl.SSLContext] = None, still: float = 0.1
    ) -> None:
        self._address = (host, port)
        self._timeout = timeout
        self._tls = tls
        self._still = still

    def open(self, user: str, token: str) -> "Session":
        """Connects, and opens a session. Raises `Disconnected` where nothing listens, and `Refused` for a wrong user or token."""
        return _opened(self._connected(), user, token, self._still)

    def grant(self, token: str, user: str, envelope: int, access: str) -> None:
        """Changes a grant as `Session.grant` does, by a connection without a session."""
        with self._unopened() as session:
            session.grant(token, user, envelope, access)

    def end_user(self, token: str, user: str) -> None:
        """Ends a user's open sessions as `Session.end_user` does, by a connection without a session."""
        with self._unopened() as session:
            session.end_user(token, user)

    def stop(self, token: str) -> None:
        """Lets the design stand still as `Session.stop` does, by the operator's token and a connection without a session."""
        with self._unopened() as session:
            session.stop(token)

    def status(self, token: str) -> "Status":
        """How the server stands, as `Session.status` gives it, by a connection without a session."""
        with self._unopened() as session:
            return session.status(token)

    def shut_down(self, token: str) -> None:
        """Ends the server as `Session.shut_down` does, by a connection without a session."""
        with self._unopened() as session:
            session.shut_down(token)

    @contextlib.contextmanager
    def _unopened(self) -> Iterator["Session"]:
        """A connection on which nobody has opened a session; it is let go of at the end."""
        session = Session(self._connected())
        try:
            yield session
        finally:
            session.end()

    def _connected(self) -> Lines:
        try:
            connection = socket.create_connection(self._address, self._timeout)
            if self._tls:
                connection = self._tls.wrap_socket(connection, server_hostname=self._address[0])
        except OSError as error:
            raise Disconnected(f"{self._address[0]}:{self._address[1]}: {error}") from error
        stream = connection.makefile("rw", encoding="utf-8", newline="\n")

        def closing() -> None:
            with contextlib.suppress(OSError):
                stream.close()
            connection.close()

        return _Streams(stream, stream, closing)


def _opened(lines: Lines, user: str, token: str, still: float) -> "Session":
    """A session that is open; where it is refused, what answers is let go of first."""
    session = Session(lines, still)
    try:
        session.request("open", user=user, token=token)
    except LoddrumeError:
        session.end()
        raise
    return session


# ---- names of the original

class NameMap:
    """What became of the names of a design that was lowered (docs/REAL-DESIGNS.md): users speak of the original's names.

    It says nothing to a user: it only translates names that he gives, and names that the server shows him.
    """

    def __init__(self, data: Dict[str, Any]) -> None:
        self._modules: Dict[str, Dict[str, Any]] = data["modules"]
        self._top: str = data["top"]
        self._was = {name: self._backwards(entry) for name, entry in self._modules.items()}

    @classmethod
    def read(cls, path: Union[str, Path]) -> "NameMap":
        """Reads the file that `loddrume_lower --map` writes. Raises `LoddrumeError` where it is none."""
        try:
            return cls(json.loads(Path(path).read_text(encoding="utf-8")))
        except (OSError, ValueError, KeyError, TypeError, AttributeError) as error:
            raise LoddrumeError(f"{path} is no map of names: {error}") from error

    @staticmethod
    def _backwards(entry: Dict[str, Any]) -> Dict[str, str]:
        """The name of the original for each name of a module. A part of a net that was cut up keeps its own."""
        was = {parts[0]: name for name, parts in entry["names"].items() if len(parts) == 1}
        return {**was, **{instance["name"]: name for name, instance in entry["instances"].items()}}

    def lowered(self, name: str, module: Optional[str] = None) -> str:
        """The path that a path of the original has now, from the top or from a module. What is not in the map stays."""
        words = name.split(".")
        path: List[str] = []
        if module is None:
            path, module, words = [words[0]], self._module_of_top(words[0]), words[1:]
        while words:
            count, new, module = self._longest(words, module)
            path.append(new)
            words = words[count:]
        return ".".join(path)

    def original(self, path: str) -> str:
        """The path that a path of the server has in the original."""
        return ".".join(self._originals(path))

    def original_name(self, path: str) -> str:
        """The last name of a path of the server, as the original has it."""
        return self._originals(path)[-1]

    def name_in(self, module: str, name: str) -> str:
        """What the original calls an object of a module."""
        return self._was.get(module, {}).get(name, name)

    def _module_of_top(self, name: str) -> Optional[str]:
        return name if name in self._modules else None

    def _longest(self, words: List[str], module: Optional[str]) -> Tuple[int, str, Optional[str]]:
        """How many words the first object of a path takes, for `g[0].h` is one name, its name now, and its module."""
        entry = self._modules.get(module or "", {"names": {}, "instances": {}})
        for count in range(len(words), 0, -1):
            name = ".".join(words[:count])
            if name in entry["instances"]:
                return count, entry["instances"][name]["name"], entry["instances"][name]["module"]
            if len(entry["names"].get(name, ())) == 1:
                return count, entry["names"][name][0], None
        return 1, words[0], None

    def _originals(self, path: str) -> List[str]:
        words = path.split(".")
        module = self._module_of_top(words[0])
        result = [words[0]]
        for word in words[1:]:
            result.append(self.name_in(module or "", word))
            module = next((one["module"] for one in self._instances(module) if one["name"] == word), None)
        return result

    def _instances(self, module: Optional[str]) -> List[Dict[str, str]]:
        return list(self._modules.get(module or "", {"instances": {}})["instances"].values())


# ---- what is answered


@dataclass(frozen=True)
class Notice:
    """A change of which a callback is notified: the callback's number, the time in time units, and the value after it in binary digits."""

    callback: int
    time: int
    value: str


@dataclass(frozen=True)
class Notices:
    """What a poll answers: the notices that waited, oldest first, and how many were lost since the last poll."""

    notices: List[Notice]
    lost: int


class Now(NamedTuple):
    """The current time, in time units, and whether `$finish` was executed."""

    time: int
    finished: bool


@dataclass(frozen=True)
class Race:
    """A race in the user's list: its number, the full name of its net or reg, its time, and the values after the run's order and after another."""

    number: int
    name: str
    time: int
    values: Tuple[str, str]


@dataclass(frozen=True)
class Orders:
    """A race with the steps of both orders, of which each is the full name of a process that the user may list."""

    race: Race
    first: List[str]
    second: List[str]


@dataclass(frozen=True)
class Status:
    """How a server stands, as its operator is shown it.

    `version` is the program's; `time` the current time, in time units; `running` whether the design has something to do and may do it; `entries` how
    many the log has had, `held` how many of them it still holds, and `bytes` how many the texts of these take; `jobs` how many parts of the run wait
    to be searched for races; `races` how many were found; `connections` how many are open, that of the request among them; `denials` and
    `wrong_tokens` how many there were since the server began; `sessions` how many each user of the policy has open.
    """

    version: str
    time: int
    running: bool
    entries: int
    held: int
    bytes: int
    jobs: int
    races: int
    connections: int
    denials: int
    wrong_tokens: int
    sessions: Dict[str, int]


@dataclass(frozen=True)
class Handle:
    """A handle of an object, in a session. Each use of it is tested by the grants that hold then."""

    session: "Session"
    number: int

    def get(self, prop: Literal["size", "line"]) -> int:
        """vpi_get: `size` in bits of a net, reg or parameter (vpiSize), or the `line` of any object (vpiLineNo). Needs the right list."""
        return int(self.session.request("get", h=self.number, prop=prop)["n"])

    def get_str(self, prop: Literal["type", "name", "full_name", "def_name"]) -> str:
        """vpi_get_str: `type` (such as `vpiReg`), `name`, `full_name`, or the `def_name` of a module. Needs the right list."""
        names = self.session.names if prop in ("name", "full_name") else None
        name_there = str(self.session.request("get_str", h=self.number, prop="full_name" if names else prop)["s"])
        if not names:
            return name_there
        return names.original(name_there) if prop == "full_name" else names.original_name(name_there)

    def get_value(self) -> str:
        """vpi_get_value in the format vpiBinStrVal: the value in digits of `01xz`, greatest bit first. Needs the right read."""
        return str(self.session.request("value", h=self.number)["value"])

    def get_vector(self) -> List[Tuple[int, int]]:
        """vpi_get_value in the format vpiVectorVal: words of 32 bits (aval, bval), least significant first. Needs the right read."""
        return [(aval, bval) for aval, bval in self.session.request("value", h=self.number, format="vec")["vector"]]

    def put_value(self, value: Union[str, Sequence[Tuple[int, int]]]) -> None:
        """vpi_put_value with vpiNoDelay: gives a reg as many digits of `01xz` as it has bits, or words (aval, bval). Needs the right put.

        Raises `Refused`: `bad value` for another width, `finished` after `$finish`, `wrong kind` for what is no reg.
        """
        if isinstance(value, str):
            self.session.request("put", h=self.number, value=value)
        else:
            self.session.request("put", h=self.number, vector=[list(word) for word in value])

    def register_cb(self, routine: Optional[Callable[[Notice], None]] = None) -> int:
        """vpi_register_cb for cbValueChange: each change of a net or reg from now on makes a notice. Gives the callback's number. Needs the right watch.

        Nothing calls the routine by itself: `Session.poll` brings the notices, and calls it with each. A callback stays when the handle is freed,
        and ends where a grant ends that it needs. Raises `Refused`: `too many callbacks` after 1,024 in a session.
        """
        callback = int(self.session.request("watch", h=self.number)["cb"])
        if routine:
            self.session.routines[callback] = routine
        return callback

    def handle_by_name(self, name: str) -> "Handle":
        """vpi_handle_by_name with this module as its scope."""
        return self.session.handle_by_name(name, self)

    def iterate(self, kind: Kind) -> "Listing":
        """vpi_iterate and vpi_scan with this module as the reference."""
        return self.session.iterate(kind, self)

    def compare_objects(self, other: "Handle") -> bool:
        """vpi_compare_objects: whether both are of one object. Needs no right."""
        return bool(self.session.request("compare", a=self.number, b=other.number)["same"])

    def free_object(self) -> None:
        """vpi_free_object: gives the handle back, of which a session has at most 65,536. Needs no right."""
        self.session.request("free", h=self.number)


@dataclass(frozen=True)
class Listing:
    """What an iteration answers: the handles by name, and the numbers of the envelopes in which something is declared there that is closed to the user."""

    handles: Dict[str, Handle]
    closed: List[int]

    def __iter__(self) -> Iterator[Handle]:
        return iter(self.handles.values())


class Session:
    """An open session of a user. It ends with `close`, or with the `with` statement that it stands in.

    Where `names` is set, names are those of the original that was lowered.
    """

    def __init__(self, lines: Lines, still: float = 0.0) -> None:
        self.still = still
        self.names: Optional[NameMap] = None
        self.routines: Dict[int, Callable[[Notice], None]] = {}
        self._lines = lines

    def __enter__(self) -> "Session":
        return self

    def __exit__(self, *_: object) -> None:
        self.close()

    def request(self, op: str, **keys: Any) -> Dict[str, Any]:
        """Asks one request, by its name and keys, and gives the object of its reply. All other calls rest on this one."""
        given = {key: value for key, value in keys.items() if value is not None}
        answer = self._lines.ask(json.dumps({"op": op, **given}))
        try:
            reply: Dict[str, Any] = json.loads(answer)
        except json.JSONDecodeError as error:
            raise Disconnected(answer) from error
        if "denied" in reply:
            raise Denied(reply["denied"])
        if "error" in reply:
            raise Refused(reply["error"])
        return reply

    def close(self) -> None:
        """Closes the session, if what answers is still there, and lets go of it."""
        with contextlib.suppress(LoddrumeError):
            self.request("close")
        self.end()

    def end(self) -> None:
        """Lets go of what answers; a server closes the session then."""
        self._lines.end()

    def handle_by_name(self, name: str, scope: Optional[Handle] = None) -> Handle:
        """vpi_handle_by_name: a handle of the object of a dotted name, among the top modules or in a module.

        Where something in the scope is closed to the user, an absent name raises `Denied` as a hidden one does; else `Refused`, `no such name`.
        """
        if self.names:
            name = self.names.lowered(name, scope.get_str("def_name") if scope else None)
        return Handle(self, self.request("handle", name=name, scope=scope and scope.number)["h"])

    def iterate(self, kind: Kind, scope: Optional[Handle] = None) -> Listing:
        """vpi_iterate and vpi_scan: handles of all objects of a kind that the user may list, among the top modules or in a module."""
        reply = self.request("iterate", kind=kind, h=scope and scope.number)
        module = scope.get_str("def_name") if scope and self.names and reply["items"] else ""
        called = [self.names.name_in(module, item["name"]) if self.names else item["name"] for item in reply["items"]]
        return Listing({name: Handle(self, item["h"]) for name, item in zip(called, reply["items"])}, reply["closed"])

    def objects(self, scope: Optional[Handle] = None, kinds: Sequence[Kind] = ("net", "reg")) -> Iterator[Tuple[str, Handle]]:
        """All objects of these kinds that the user may list below a scope, each with its path from there, module by module."""
        for kind in kinds if scope else ():
            yield from self.iterate(kind, scope).handles.items()
        for name, module in self.iterate("module", scope).handles.items():
            yield from ((f"{name}.{path}", inner) for path, inner in self.objects(module, kinds))

    def remove_cb(self, callback: int) -> None:
        """vpi_remove_cb. Notices of it that wait are still polled. Raises `Refused`, `no such callback`, also where it ended with a grant."""
        self.routines.pop(callback, None)
        self.request("unwatch", cb=callback)

    def poll(self) -> Notices:
        """The notices of the callbacks since the last poll; the routine of each is called. At most 4,096 notices wait, and later ones are lost."""
        reply = self.request("poll")
        notices = Notices([Notice(notice["cb"], notice["time"], notice["value"]) for notice in reply["notices"]], reply["lost"])
        for notice in notices.notices:
            self.routines.get(notice.callback, lambda _: None)(notice)
        return notices

    def run(self, until: int) -> None:
        """Lets the design run until a time, in time units, if nobody has let it run further. It answers at once. Needs the policy's run flag."""
        self.request("run", until=until)

    def run_until(self, until: int, still: Optional[float] = None) -> Now:
        """Lets the design run until a time, waits for it, and gives the time at which it stands then. Needs the policy's run flag.

        No reply says that nothing is left to do at a time: this would show events of which the user may not know. So what is waited for is that the
        time is past `until`, that `$finish` was executed, or that the time stays the same for `still` seconds, which is the session's own number
        unless it is given here. The last is a guess that a busy server can make wrong; of a `Program` it is sure without waiting.
        """
        self.run(until)
        return self.wait(until, still)

    def wait(self, until: int, still: Optional[float] = None) -> Now:
        """Waits as `run_until` does, and lets nothing run: it is for a user whose design is run by others."""
        still = self.still if still is None else still
        now, since = self.now(), clock.monotonic()
        while now.time <= until and not now.finished and clock.monotonic() - since < still:
            # Each question is an entry of the server's log, so they are few.
            clock.sleep(still / 2)
            before, now = now, self.now()
            if now != before:
                since = clock.monotonic()
        return now

    def stop(self, token: Optional[str] = None) -> None:
        """Lets the design stand still until somebody asks for a run again. Needs the policy's run flag, or else the operator's token.

        Raises `Refused` where a token is given: `bad operator`, `log full`, `no memory`.
        """
        self.request("stop", token=token)

    def now(self) -> Now:
        """vpi_get_time, and whether `$finish` was executed."""
        reply = self.request("time")
        return Now(reply["time"], reply["finished"])

    def time(self) -> int:
        """vpi_get_time, in time units."""
        return self.now().time

    def races(self) -> Iterator[Race]:
        """The races that the user is shown, in the order in which they were found."""
        for first in itertools.count(1, 100):
            page = self.request("races", **{"from": first})["races"]
            yield from (self._race_of(race) for race in page)
            if len(page) < 100:
                return

    def race(self, number: int) -> Orders:
        """A race by its number in the user's list, with the steps of both orders. Raises `Refused`, `no such race`."""
        reply = self.request("race", no=number)
        first, second = reply["steps"]
        if self.names:
            first, second = ([self._step_of(step, self.names) for step in steps] for steps in (first, second))
        return Orders(self._race_of(reply), first, second)

    def _race_of(self, reply: Dict[str, Any]) -> Race:
        first, second = reply["values"]
        return Race(reply["no"], self.names.original(reply["name"]) if self.names else reply["name"], reply["time"], (first, second))

    @staticmethod
    def _step_of(step: str, names: NameMap) -> str:
        port = step.startswith("port ")
        return f"port {names.original(step[5:])}" if port else names.original(step)

    def grant(self, token: str, user: str, envelope: int, access: str) -> None:
        """Gives a user exactly this access to an envelope from now on, by the operator's token; for envelope 0, to the open text.

        Access is rights joined by `+`, or empty. Raises `Refused`: `bad operator`, `no such user`, `no such envelope`, `bad request` for an access.
        """
        self.request("grant", token=token, user=user, envelope=envelope, access=access)

    def end_user(self, token: str, user: str) -> None:
        """Ends all open sessions of a user, by the operator's token. He may open others.

        A request of such a session raises `Refused`, `not open`; then the server closes its connection, and later ones raise `Disconnected`. Where
        nothing is asked it is closed some seconds later. Raises `Refused`: `bad operator`, `no such user`, `log full`, `no memory`.
        """
        self.request("end", token=token, user=user)

    def status(self, token: str) -> Status:
        """How the server stands, by the operator's token. Raises `Refused`: `bad operator`, `no memory`, and `bad request` of a `Program`."""
        reply = self.request("status", token=token)
        world = reply["world"]
        return Status(
            version=reply["version"],
            time=world["time"],
            running=world["running"],
            entries=world["entries"],
            held=world["held"],
            bytes=world["bytes"],
            jobs=world["jobs"],
            races=world["races"],
            connections=reply["connections"],
            denials=reply["denials"],
            wrong_tokens=reply["wrong_tokens"],
            sessions={user["user"]: user["sessions"] for user in world["sessions"]},
        )

    def shut_down(self, token: str) -> None:
        """Ends the server, by the operator's token. Raises `Refused`: `bad operator`, and `bad request` of a `Program`."""
        self.request("shutdown", token=token)


# ---- waves

_STEP_STILL = 0.004
"""How long the time stays the same before a wave lets the design run on: longer than a server without work rests, which is a millisecond."""

_FOLLOWING_PAUSE = 0.02
"""How long a wave that follows the runs of others waits between two polls."""


def _identifiers() -> Iterator[str]:
    """Short identifiers of a VCD file, of printable characters."""
    letters = [chr(code) for code in range(33, 127)]
    for length in itertools.count(1):
        yield from ("".join(word) for word in itertools.product(letters, repeat=length))


@dataclass
class _Wire:
    """An object that is dumped."""

    path: List[str]
    keyword: str
    size: int
    identifier: str
    value: str

    def change(self) -> str:
        return f"{self.value}{self.identifier}" if self.size == 1 else f"b{self.value} {self.identifier}"


def _watched(session: Session, scope: Optional[Handle]) -> Dict[int, _Wire]:
    """All nets and regs below a scope that the user may watch, by their callbacks. What he may not read besides is x until it changes."""
    wires: Dict[int, _Wire] = {}
    identifiers = _identifiers()
    above = scope.get_str("full_name").split(".") if scope else []
    kinds: Tuple[Tuple[Kind, str], ...] = (("net", "wire"), ("reg", "reg"))
    for kind, keyword in kinds:
        for path, handle in session.objects(scope, (kind,)):
            with contextlib.suppress(Denied):
                # The callback comes first, so that no change between the two is missed.
                callback, size = _registered(handle), handle.get("size")
                wires[callback] = _Wire(above + path.split("."), keyword, size, next(identifiers), "x" * size)
                wires[callback].value = handle.get_value()
    return wires


def _registered(handle: Handle) -> int:
    try:
        return handle.register_cb()
    except Refused as refused:
        raise LoddrumeError(f"{refused}: dump a smaller part of the design, by --scope") from refused


def _declarations(wires: Iterator[_Wire]) -> Iterator[str]:
    """The declarations of a VCD file: each module is a scope."""
    here: List[str] = []
    for wire in sorted(wires, key=lambda wire: wire.path[:-1]):
        scope = wire.path[:-1]
        shared = len(list(itertools.takewhile(lambda pair: pair[0] == pair[1], zip(here, scope))))
        yield from ("$upscope $end" for _ in here[shared:])
        yield from (f"$scope module {name} $end" for name in scope[shared:])
        here = scope
        vector = f" [{wire.size - 1}:0]" if wire.size > 1 else ""
        yield f"$var {wire.keyword} {wire.size} {wire.identifier} {wire.path[-1]}{vector} $end"
    yield from ("$upscope $end" for _ in here)


class _Dump:
    """A VCD file that is being written: of each time each object's last value, where it is another than before."""

    def __init__(self, session: Session, scope: Optional[Handle], file: TextIO, timescale: str) -> None:
        self._session = session
        self._file = file
        self._wires = _watched(session, scope)
        self.start = self._time = session.time()
        polled = self._poll()
        for notice in polled:
            if notice.time <= self.start:
                self._wires[notice.callback].value = notice.value
        header = ("$version loddrume wave $end", f"$timescale {timescale} $end", *_declarations(iter(self._wires.values())), "$enddefinitions $end")
        print(*header, f"#{self.start}", "$dumpvars", *(wire.change() for wire in self._wires.values()), "$end", sep="\n", file=file)
        self._later = [notice for notice in polled if notice.time > self.start]

    def _poll(self) -> List[Notice]:
        polled = self._session.poll()
        if polled.lost:
            raise LostNotices(f"{polled.lost} changes were lost at time {self._session.time()}: dump a smaller part of the design, by --scope")
        return [notice for notice in polled.notices if notice.callback in self._wires]

    def take(self, until: int) -> None:
        """Writes what has changed, but nothing that is later than a time."""
        notices = [notice for notice in self._later + self._poll() if notice.time <= until]
        self._later = []
        for time, together in itertools.groupby(notices, key=lambda notice: notice.time):
            last = {notice.callback: notice.value for notice in together}
            changed = [callback for callback, value in last.items() if self._wires[callback].value != value]
            if changed:
                self._to(time)
            for callback in changed:
                self._wires[callback].value = last[callback]
                print(self._wires[callback].change(), file=self._file)

    def _to(self, time: int) -> None:
        if time > self._time:
            print(f"#{time}", file=self._file)
            self._time = time

    def end(self, until: int) -> None:
        """Ends the file at a time. Raises `Denied` where the right to watch something has ended since."""
        self._to(until)
        for callback, wire in self._wires.items():
            try:
                self._session.remove_cb(callback)
            except Refused as refused:
                raise LoddrumeError(f"the right to watch {'.'.join(wire.path)} ended meanwhile") from refused


def wave(
    session: Session, until: int, file: TextIO, scope: Optional[Handle] = None, timescale: str = "1 s", follow: bool = False
) -> None:
    """Writes what the user may watch as VCD, from the current time until another, all of it or what is below a module.

    The design is let run from one time unit to the next, so that few notices wait at once; with `follow` it is not let run, and what others let run
    is written, until the time is `until`. The server has no timescale, so the file has the one that is given here. Raises `LostNotices` where
    changes were lost, `Denied` for a user who may not run the design, and `LoddrumeError` where the right to watch something ends meanwhile: the
    file is not whole then.
    """
    dump = _Dump(session, scope, file, timescale)
    if follow:
        while (now := session.now()).time < until and not now.finished:
            dump.take(until)
            clock.sleep(_FOLLOWING_PAUSE)
    else:
        for time in range(dump.start, until + 1):
            session.run_until(time, min(_STEP_STILL, session.still))
            dump.take(until)
    now = session.wait(until)
    dump.take(until)
    dump.end(min(until, now.time) if now.finished else until)


# ---- races


def _settled_races(session: Session) -> List[Race]:
    """The races that are shown, once none has come for a while: they are searched for beside the run."""
    races = list(session.races())
    while session.still:
        clock.sleep(session.still)
        before, races = races, list(session.races())
        if races == before:
            break
    return races


def side_by_side(orders: Orders) -> str:
    """A race in words: the steps of both orders, the run's on the left, and the value after each."""
    race = orders.race
    left = ["the run's order", *orders.first, f"{race.name} = {race.values[0]}"]
    right = ["another order", *orders.second, f"{race.name} = {race.values[1]}"]
    between = max(len(orders.first), len(orders.second))
    for side in (left, right):
        side[-1:-1] = [""] * (between - len(side) + 2)
    width = max(map(len, left))
    return "\n".join([f"race {race.number} of {race.name} at time {race.time}", *(f"  {a:{width}}  {b}".rstrip() for a, b in zip(left, right))])


# ---- commands

_OPERATORS = ("grant", "stop", "end", "status", "shutdown")
"""The commands that ask as the operator, and open no session."""


class Shell(cmd.Cmd):
    """A prompt over a session. Names are completed by what `iterate` shows the user, and denials are put into words."""

    prompt = "loddrume> "
    intro = "`help` tells the commands, and the Tab key completes names"

    def __init__(self, session: Session, stdin: Optional[IO[str]] = None, stdout: Optional[IO[str]] = None) -> None:
        super().__init__(stdin=stdin, stdout=stdout)
        self.use_rawinput = stdin is None
        self._session = session
        self._handles: Dict[str, Handle] = {}
        self._names: Dict[str, List[str]] = {}
        self._watched: Dict[int, str] = {}

    def onecmd(self, line: str) -> bool:
        try:
            return super().onecmd(line)
        except Disconnected as error:
            self._say(f"disconnected: {error}")
            return True
        except LoddrumeError as error:
            self._say(str(error))
        except (ValueError, KeyError):
            self._say("what does that mean? `help` tells the commands")
        return False

    def emptyline(self) -> bool:
        return False

    def default(self, line: str) -> None:
        raise ValueError(line)

    def do_ls(self, line: str) -> None:
        """ls [NAME]: what you may list in a module, or among the top modules"""
        name = line.strip()
        closed = self._look(name)
        for inner in self._names[name]:
            handle = self._handles[f"{name}.{inner}" if name else inner]
            self._say(f"{inner}  {handle.get_str('type')}")
        if closed:
            self._say(f"something here is closed to you, in envelope {', '.join(map(str, closed))}")

    def do_info(self, line: str) -> None:
        """info NAME: the type, full name and line of an object, its size or its definition"""
        handle = self._handle(line.strip())
        kind = handle.get_str("type")
        words = [handle.get_str("full_name"), kind, f"line {handle.get('line')}"]
        if kind == "vpiModule":
            words.append(f"of {handle.get_str('def_name')}")
        elif kind in ("vpiNet", "vpiReg", "vpiParameter"):
            words.append(f"{handle.get('size')} bits")
        self._say("  ".join(words))

    def do_value(self, line: str) -> None:
        """value NAME ..: the values of nets, regs and parameters"""
        for name in line.split():
            self._say(f"{name}  {self._handle(name).get_value()}")

    def do_put(self, line: str) -> None:
        """put NAME DIGITS: gives a reg a value"""
        name, digits = line.split()
        self._handle(name).put_value(digits)

    def do_watch(self, line: str) -> None:
        """watch NAME: tells the changes of a net or a reg from now on, by `poll`"""
        name = line.strip()
        callback = self._handle(name).register_cb()
        self._watched[callback] = name
        self._say(f"callback {callback}")

    def do_unwatch(self, line: str) -> None:
        """unwatch CALLBACK: ends a watch, by the number that it gave"""
        self._session.remove_cb(int(line))

    def do_poll(self, _: str) -> None:
        """poll: the changes since the last poll"""
        polled = self._session.poll()
        for notice in polled.notices:
            self._say(f"{notice.time}  {self._watched.get(notice.callback, notice.callback)}  {notice.value}")
        if polled.lost:
            self._say(f"{polled.lost} more were lost")

    def do_run(self, line: str) -> None:
        """run TIME: lets the design run until a time, and waits for it"""
        self._say_now(self._session.run_until(int(line)))

    def do_stop(self, _: str) -> None:
        """stop: lets the design stand still until somebody asks for a run again"""
        self._session.stop()

    def do_time(self, _: str) -> None:
        """time: the current time"""
        self._say_now(self._session.now())

    def do_races(self, _: str) -> None:
        """races: the races that you are shown"""
        for race in self._session.races():
            self._say(f"{race.number}  {race.name}  at time {race.time}: {race.values[0]} or {race.values[1]}")

    def do_race(self, line: str) -> None:
        """race NUMBER: both orders of a race, side by side"""
        self._say(side_by_side(self._session.race(int(line))))

    def do_quit(self, _: str) -> bool:
        """quit: ends the session"""
        return True

    def do_EOF(self, _: str) -> bool:
        """the end of the input: ends the session"""
        self._say("")
        return True

    def completedefault(self, *ignored: Any) -> List[str]:
        """The names that begin as the word before the cursor does."""
        text: str = ignored[0]
        scope, dot, begun = text.rpartition(".")
        with contextlib.suppress(LoddrumeError):
            if scope not in self._names:
                self._look(scope)
        return [f"{scope}{dot}{name}" for name in self._names.get(scope, []) if name.startswith(begun)]

    def _look(self, name: str) -> List[int]:
        """Takes up what the user may list in a module, and gives the envelopes that are closed to him there."""
        scope = self._handle(name) if name else None
        kinds = KINDS if scope else KINDS[:1]
        listings = [self._session.iterate(kind, scope) for kind in kinds]
        self._names[name] = [inner for listing in listings for inner in listing.handles]
        for listing in listings:
            for inner, handle in listing.handles.items():
                path = f"{name}.{inner}" if name else inner
                # Of two handles of one object the older one is kept.
                if self._handles.setdefault(path, handle) is not handle:
                    handle.free_object()
        return listings[0].closed

    def _handle(self, name: str) -> Handle:
        if not name:
            raise ValueError(name)
        if name not in self._handles:
            self._handles[name] = self._session.handle_by_name(name)
        return self._handles[name]

    def _say_now(self, now: Now) -> None:
        self._say(f"time {now.time}{', finished' if now.finished else ''}")

    def _say(self, text: str) -> None:
        print(text, file=self.stdout)


def _address(text: str) -> Tuple[str, int]:
    """A server's host, this machine's own where none is named, and its port."""
    host, _, port = text.rpartition(":")
    if not re.fullmatch("[0-9]{1,5}", port) or int(port) > 65535:
        raise argparse.ArgumentTypeError(f"{text} is no HOST:PORT, such as localhost:7000")
    return host or "127.0.0.1", int(port)


def _number(text: str) -> int:
    """The number of an envelope, or a time."""
    if not re.fullmatch("[0-9]+", text):
        raise argparse.ArgumentTypeError(f"{text} is no number from 0 on")
    return int(text)


def _with_words(parser: argparse.ArgumentParser, has_files: bool = True, has_user: bool = True) -> argparse.ArgumentParser:
    """The words that all commands have; those that open a session may do so over files, and some need no user."""
    where = parser.add_mutually_exclusive_group(required=True)
    where.add_argument("--server", type=_address, metavar="HOST:PORT", help="a server: vp_served serve, or a proxy before it")
    if has_files:
        where.add_argument("--files", nargs=2, metavar=("DESIGN", "POLICY"), help="a run of one's own: vp_served run")
        parser.add_argument("--program", default="vp_served", help="the program that --files starts")
        parser.add_argument("--names", metavar="FILE", help="the map that loddrume_lower wrote: names are those of the original")
    if has_user:
        parser.add_argument("--user", required=True, help="the name of a user of the policy")
    parser.add_argument("--still", type=float, default=0.1, metavar="SECONDS", help="how long the time stays the same where a run is over (0.1)")
    parser.add_argument("--ca", metavar="FILE", help="speaks TLS with a server whose certificate is signed by one in this file")
    parser.add_argument("--cert", metavar="FILE", help="with --ca: one's own certificate and its key, in one file")
    return parser


def _parser() -> argparse.ArgumentParser:
    parser = argparse.ArgumentParser(
        prog="python3 -m loddrume",
        description="Looks into a design by Loddrume.",
        epilog="The token is read from the environment's LODDRUME_TOKEN, or asked for.",
    )
    commands = parser.add_subparsers(dest="command", required=True)
    _with_words(commands.add_parser("shell", help="a prompt"))
    waves = _with_words(commands.add_parser("wave", help="writes what the user may watch as VCD"))
    waves.add_argument("--scope", metavar="NAME", help="only what is below this module")
    waves.add_argument("--timescale", default="1 s", help="what a time unit is, as the file is to have it (1 s)")
    waves.add_argument("--follow", action="store_true", help="lets nothing run, and writes what others let run")
    waves.add_argument("UNTIL", type=_number)
    waves.add_argument("FILE")
    races = _with_words(commands.add_parser("races", help="prints races, both orders side by side"))
    races.add_argument("UNTIL", type=_number, nargs="?", help="lets the design run until this time before")
    grant = _with_words(commands.add_parser("grant", help="changes what a user is granted, by the operator's token"), has_files=False)
    grant.add_argument("ENVELOPE", type=_number)
    grant.add_argument("ACCESS", help='such as list+read, or ""')
    _with_words(commands.add_parser("stop", help="lets the design stand still, by the operator's token"), has_files=False, has_user=False)
    end = _with_words(commands.add_parser("end", help="ends a user's open sessions, by the operator's token"), has_files=False, has_user=False)
    end.add_argument("USER", help="the name of a user of the policy")
    _with_words(commands.add_parser("status", help="prints how the server stands, by the operator's token"), has_files=False, has_user=False)
    _with_words(commands.add_parser("shutdown", help="ends the server, by the operator's token"), has_files=False, has_user=False)
    return parser


def _tls(asked: argparse.Namespace) -> Optional[ssl.SSLContext]:
    try:
        tls = ssl.create_default_context(cafile=asked.ca) if asked.ca else None
        if tls and asked.cert:
            tls.load_cert_chain(asked.cert)
        return tls
    except OSError as error:
        raise LoddrumeError(f"the files of --ca and --cert: {error}") from error


def _server(asked: argparse.Namespace) -> Server:
    host, port = asked.server
    return Server(port, host, tls=_tls(asked), still=asked.still)


def _source(asked: argparse.Namespace) -> Source:
    if asked.server:
        return _server(asked)
    design, policy = asked.files
    return Program(design, policy, asked.program)


def _write_wave(session: Session, asked: argparse.Namespace) -> None:
    """Writes a wave, which has its name once it is whole."""
    scope = session.handle_by_name(asked.scope) if asked.scope else None
    part = Path(asked.FILE + ".part")
    with part.open("w", encoding="utf-8") as file:
        wave(session, asked.UNTIL, file, scope, asked.timescale, asked.follow)
    part.replace(asked.FILE)


def _print_races(session: Session, until: Optional[int]) -> None:
    if until is not None:
        session.run_until(until)
    for race in _settled_races(session):
        print(side_by_side(session.race(race.number)))


def _print_status(status: Status) -> None:
    """Prints how a server stands: a line for each name and its value, and then one for each user who has sessions open."""
    for name, value in vars(status).items():
        if name != "sessions":
            print(name, json.dumps(value) if name == "running" else value)
    for user, count in status.sessions.items():
        if count > 0:
            print("sessions", user, count)


def _ask_as_operator(server: Server, token: str, asked: argparse.Namespace) -> None:
    """Does a command of the operator."""
    if asked.command == "grant":
        server.grant(token, asked.user, asked.ENVELOPE, asked.ACCESS)
    elif asked.command == "stop":
        server.stop(token)
    elif asked.command == "end":
        server.end_user(token, asked.USER)
    elif asked.command == "status":
        _print_status(server.status(token))
    else:
        server.shut_down(token)


def _run_shell(session: Session) -> None:
    with contextlib.suppress(ImportError):
        import readline  # Takes up the line editing of `input`.

        readline.set_completer_delims(" \t")
    with contextlib.suppress(KeyboardInterrupt):
        Shell(session, None if sys.stdin.isatty() else sys.stdin).cmdloop()


def _token() -> str:
    """The token in `LODDRUME_TOKEN`, or else the one that is typed."""
    try:
        return os.environ.get("LODDRUME_TOKEN") or getpass.getpass("token: ")
    except EOFError as error:
        raise LoddrumeError("no token: set LODDRUME_TOKEN, or type it") from error


def main(words: Optional[List[str]] = None) -> int:
    """Does what the words of the command line ask. The status is 1 where that was not done, and 2 where they ask for nothing."""
    asked = _parser().parse_args(words)
    try:
        token = _token()
        if asked.command in _OPERATORS:
            _ask_as_operator(_server(asked), token, asked)
            return 0
        names = NameMap.read(asked.names) if asked.names else None
        with _source(asked).open(asked.user, token) as session:
            session.names = names
            if asked.command == "shell":
                _run_shell(session)
            elif asked.command == "races":
                _print_races(session, asked.UNTIL)
            else:
                _write_wave(session, asked)
    except (LoddrumeError, OSError) as error:
        print(f"loddrume: {error}", file=sys.stderr)
        return 1
    return 0


if __name__ == "__main__":
    sys.exit(main())

#!/usr/bin/env python3
"""Writes the bundles of data/limits.cases: texts, policies, lines and bundles at a limit of size, and one beyond it.

    python3 make_limits.py > data/limits.cases

What each must print is told by docs/FORMATS.md: the limits, and the numbers of the refusals.
"""

import string

OPEN = '{"op":"open","user":"ann","token":"t1"}'
ANN = '{"name":"ann","token":"t1"}'
OK = '{"ok":true}'


def case(name, design, policy, script, wanted):
    """A bundle with its name, and the lines that it must print."""
    print("## " + name)
    for part in (design, policy):
        print(part)
        print("%%")
    print(script)
    print("==")
    print(wanted)


def users(count):
    """A policy file of so many users."""
    return '{"users":[' + ",".join([ANN] + [f'{{"name":"u{i}","token":"t{i}"}}' for i in range(1, count)]) + "]}"


def envelopes(count):
    """A text of so many envelopes."""
    return "\n".join(["`pragma protect"] + ["`pragma protect begin\n`pragma protect end"] * count)


def tower(count, declared):
    """So many modules, each but the first with an instance of the one before it, and what the first declares."""
    below = [f"module m{i}; m{i - 1} u(); endmodule" for i in range(2, count + 1)]
    return "\n".join([f"module m1; {declared} endmodule"] + below)


def copies(count, text):
    """The line of a case that stands for so many copies of a text, and a newline."""
    return f"%* {count} {text}"


def parentheses(opening, closing):
    """A pragma with a list within so many others, of which so many end."""
    return f"%+ 1 `pragma protect x=\n%+ {opening} (\n%+ 1 1\n%* {closing} )"


def regs(count):
    """A module of so many regs, each with a name of three characters that is no keyword."""
    rest = string.ascii_letters + string.digits + "_$"
    names = [a + b + c for a in string.ascii_uppercase for b in rest for c in rest]
    return f"module m; reg {','.join(names[:count])}; endmodule"


def callbacks():
    """One callback more than there may be, and what is answered."""
    ann = '{"users":[{"name":"ann","token":"t1","open":"watch"}]}'
    asked = [OPEN, '{"op":"handle","name":"m.c"}'] + ['{"op":"watch","h":1}'] * 1_025 + ['{"op":"unwatch","cb":7}', '{"op":"watch","h":1}']
    answered = [OK, '{"h":1}'] + [f'{{"cb":{i}}}' for i in range(1, 1_025)] + ['{"error":"too many callbacks"}', OK, '{"cb":1025}']
    case("1,025 callbacks", "module m; reg c; endmodule", ann, "\n".join(asked), "\n".join(answered))


def notices():
    """One notice more than may wait, and what is answered: the first notices stay, the last is lost."""
    ann = '{"users":[{"name":"ann","token":"t1","open":"watch+put"}]}'
    values = ["01"[i % 2] for i in range(4_097)]
    puts = [f'{{"op":"put","h":1,"value":"{value}"}}' for value in values]
    asked = [OPEN, '{"op":"handle","name":"m.c"}', '{"op":"watch","h":1}'] + puts + ['{"op":"poll"}'] * 2
    told = [f'{{"cb":1,"time":0,"value":"{value}"}}' for value in values[:4_096]]
    polled = ['{"lost":1,"notices":[' + ",".join(told) + "]}", '{"lost":0,"notices":[]}']
    answered = [OK, '{"h":1}', '{"cb":1}'] + [OK] * 4_097 + polled
    case("4,097 notices", "module m; reg c; endmodule", ann, "\n".join(asked), "\n".join(answered))


def main():
    one = users(1)
    case("a line of 65,537 bytes", "", one, copies(65_537, "1") + '\n{"op":"value","h":1}', '{"error":"line too long"}\n{"error":"not open"}')
    case("a text of 1,048,576 bytes", copies(1_048_575, "/"), one, OPEN, OK)
    case("a text of 1,048,577 bytes", copies(1_048_576, "/"), one, OPEN, "fault 1603 line 0")
    blank = copies(1_048_574 - len(one), " ")
    case("a policy of 1,048,576 bytes", "", blank + "\n" + one, OPEN, OK)
    case("a policy of 1,048,577 bytes", "", copies(1_048_576, " "), OPEN, "fault 1603 line 0")
    case("a bundle of over 16,777,216 bytes", "", one, copies(16_777_216, "1"), "fault 1603 line 0")
    case("65,535 regs", regs(65_535), one, OPEN, OK)
    case("65,536 regs", regs(65_536), one, OPEN, "fault 507 line 0")
    listing = '{"users":[{"name":"ann","token":"t1","open":"list"}]}'
    asked = ['{"op":"handle","name":"m"}', '{"op":"handle","name":"m.Aaa"}', '{"op":"iterate","h":1,"kind":"reg"}', '{"op":"handle","name":"m.Aab"}', '{"op":"iterate","h":1,"kind":"net"}']
    answered = ['{"h":1}', '{"h":2}', '{"error":"too many handles"}', '{"h":3}', '{"closed":[],"items":[]}']
    case("an iteration over 65,535 regs after two handles makes none", regs(65_535), listing, "\n".join([OPEN] + asked), "\n".join([OK] + answered))
    callbacks()
    notices()
    case("256 users", "", users(256), OPEN, OK)
    case("257 users", "", users(257), OPEN, "fault 904 line 0")
    case("255 envelopes", envelopes(255), one, OPEN, OK)
    case("256 envelopes", envelopes(256), one, OPEN, "fault 308 line 512")
    case("a list within 499,999 others in a pragma", parentheses(500_000, 500_000), one, OPEN, OK)
    case("a list within 499,999 others in a pragma, of which the outermost does not end", parentheses(500_000, 499_999), one, OPEN, "fault 309 line 1")
    case("a path of 64 instances", tower(64, ""), one, OPEN, OK)
    case("a path of 64 instances and a reg", tower(64, "reg r;"), one, OPEN, "fault 507 line 0")
    case("a path of 63 instances and a reg", tower(63, "reg r;"), one, OPEN, OK)
    case("a path of 65 instances", tower(65, ""), one, OPEN, "fault 507 line 0")


if __name__ == "__main__":
    main()

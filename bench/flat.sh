#!/bin/sh
# Whether a step costs the same in a large design, beside procedures that sleep, and after a long log: the instructions (callgrind) of a time unit of a
# counter, alone, beside 30,000 regs, beside 3,000 procedures that wait, and after a long log. By the program, which searches each time slot, from time 10
# on and after 10,000; with the word `recorded` by a small program over `World`, which searches none, from time 20,000 on and with a log that is nearly full.
# Of these it tells too what is copied when the log's lists grow: callgrind counts that byte by byte.
# Wants valgrind (Debian's package) and crates/vp_served/out/vp_served, which `rt run` in crates/vp_served builds. Takes the time units that are counted
# (8000).
set -eu
top=$(cd "$(dirname "$0")/.." && pwd)
. "$top/bench/common.sh"
. "$top/bench/designs.sh"
. "$top/bench/programs.sh"
units=${1:-8000}
{ counter 0; echo 'endmodule'; } > "$work/alone.v"
{ counter 30000; echo 'endmodule'; } > "$work/large.v"
{
    counter 0
    echo 'reg never;'
    for i in $(seq 3000); do echo "reg r$i; always @(never) r$i = 1;"; done
    echo 'endmodule'
} > "$work/asleep.v"
cp "$work/alone.v" "$work/logged.v"

# The instructions on a design until a time.
if [ "${2:-}" = recorded ]; then
    build_program world_speed "$top/bench/world/main.txt" "time 0" vp_text vp_lex vp_policy vp_answer vp_world vp_design
    instructions() { instructions_of "time $2" "$work/world_speed" "$2" < "$work/$1.v"; }
    short=20000
    long=1375000
else
    instructions() {
        scripts_until "$2"
        instructions_of "{\"finished\":false,\"time\":$2}" "$program" run "$work/$1.v" "$work/policy.json" < "$work/run"
    }
    short=10
    long=10000
fi
# Of the last of these, what was spent in copying.
copied() { callgrind_annotate --threshold=100 "$work/profile" | sed -n 's/^ *\([0-9,]*\) .*:__memcpy.*$/\1/p' | tr -d , | awk '{ sum += $1 } END { print sum + 0 }'; }
# The instructions of a time unit of a design from a time on.
cost() {
    before=$(instructions "$1" "$2")
    copied_before=$(copied)
    after=$(instructions "$1" "$(($2 + units))")
    copying=$((($(copied) - copied_before) / units))
    echo "$1: $(((after - before) / units)) instructions a time unit, from time $2 on, $copying of them copying"
}
cost alone "$short"
cost large "$short"
cost asleep "$short"
cost logged "$long"

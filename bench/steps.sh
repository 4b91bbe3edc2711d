#!/bin/sh
# How fast steps are applied: the program on a text of many assignments, beside Icarus Verilog's vvp on the same text.
# Wants iverilog (Debian's package) and crates/vp_served/out/vp_served, which `rt run` in crates/vp_served builds.
set -eu
top=$(cd "$(dirname "$0")/.." && pwd)
. "$top/bench/common.sh"
statements=${1:-100000}
{
    echo 'module top; reg a, b; initial begin'
    yes 'a=b;b=1'"'"'b1;' | head -n "$((statements / 2))"
    echo 'end endmodule'
} > "$work/design.v"
echo "$one_user" > "$work/policy.json"
reading='{"op":"handle","name":"top.a"}
{"op":"value","h":1}'
printf '%s\n' "$opening" "$reading" > "$work/still"
printf '%s\n' "$opening" '{"op":"run","until":0}' "$reading" > "$work/run"
iverilog -o "$work/design.vvp" "$work/design.v"

still=$(shortest_of 5 serve design still)
all=$(shortest_of 5 serve design run)
tail -n 1 "$work/out"
vvp=$(shortest_of 5 vvp "$work/design.vvp")
ours=$((all - still))
echo "statements: $statements"
echo "program: $still us without a run, $all us with it: $((statements * 1000000 / ours)) steps a second"
echo "vvp, which loads the compiled design and runs it: $vvp us"
echo "ratio to vvp: the steps $((ours * 100 / vvp)) %, the whole run of the program $((all * 100 / vvp)) %"

#!/bin/sh
# What the tables of a policy cost: the time in which a policy of 256 users is read for a design of 65,473 objects, and the memory that it takes, beside the
# design alone; and what a `value` line costs whose object stands 2 and 60 steps deep. Wants GNU time and valgrind (Debian's packages time and valgrind), and
# crates/vp_served/out/vp_served, which `rt run` in crates/vp_served builds.
set -eu
top=$(cd "$(dirname "$0")/.." && pwd)
. "$top/bench/common.sh"
. "$top/bench/programs.sh"
build_program rights_speed "$top/bench/rights/main.txt" "users 0" vp_lex vp_policy vp_design

none=$(shortest_of 5 "$work/rights_speed" 256 0)
once=$(shortest_of 5 "$work/rights_speed" 256 1)
echo "256 users on 65,473 objects: $(((once - none) / 1000)) ms"
peak() { /usr/bin/time -f %M "$work/rights_speed" 256 "$1" 2>&1 > "$work/out"; }
echo "memory: $((($(peak 1) - $(peak 0)) / 1024)) MiB"

# A top module with a reg, in which 58 modules stand, each in the one before, with a reg each.
{
    echo 'module top; reg r; m58 u(); endmodule'
    for number in $(seq 58 -1 2); do
        echo "module m$number; reg r; m$((number - 1)) u(); endmodule"
    done
    echo 'module m1; reg r; endmodule'
} > "$work/deep.v"
echo "$one_user" > "$work/policy.json"
# So many values of a reg, of which the name is given.
values_of() {
    echo "$opening"
    echo "{\"op\":\"handle\",\"name\":\"$1\"}"
    yes '{"op":"value","h":1}' | head -n "$2"
}
inside=$(yes u. | head -n 58 | tr -d '\n')
for name in top.r "top.${inside}r"; do
    values_of "$name" 1 > "$work/one"
    values_of "$name" 10001 > "$work/many"
    one=$(instructions_of '{"value":"x"}' "$program" run "$work/deep.v" "$work/policy.json" < "$work/one")
    many=$(instructions_of '{"value":"x"}' "$program" run "$work/deep.v" "$work/policy.json" < "$work/many")
    echo "a value line, $(echo "$name" | tr -cd . | wc -c) steps below the top: $(((many - one) / 10000)) instructions"
done

#!/bin/sh
# What recorded time slots cost, and the search for races in them: in instructions (callgrind), by a small program that runs a design in a world without a
# search, and by crates/vp_served/out/vp_served, which `rt run` in crates/vp_served builds, and which searches each slot by 16 orders. Wants valgrind (Debian's
# package). Takes the time units that are counted, a multiple of 40 (2000).
set -eu
top=$(cd "$(dirname "$0")/.." && pwd)
. "$top/bench/common.sh"
. "$top/bench/programs.sh"
. "$top/bench/designs.sh"
units=${1:-2000}
build_program world_speed "$top/bench/world/main.txt" "time 0" vp_text vp_lex vp_policy vp_answer vp_world vp_design
one_user='{"users":[{"name":"ann","token":"t1","open":"race","run":true}]}'

# Writes a design, which ends here.
design() {
    name=$1
    shift
    { "$@"; echo endmodule; } > "$work/$name.v"
}
# The instructions of a design until a time, in a world without a search.
recorded() { instructions_of "time $2" "$work/world_speed" "$2" < "$work/$1.v"; }
# The same in the program, with a search of each slot.
searched() {
    scripts_until "$2"
    instructions_of "{\"finished\":false,\"time\":$2}" "$program" run "$work/$1.v" "$work/policy.json" < "$work/run"
}
# The instructions of a time unit of a design, from time 320 on, by one of these. The bus changes at each 40th unit.
unit_of() { echo "$((($("$1" "$2" $((320 + units))) - $("$1" "$2" 320)) / units))"; }

design pipeline pipeline
design bus bus
echo "pipeline, without a search: $(($(unit_of recorded pipeline) * 20 / 1030)) instructions an event"
echo "bus, without a search: $(($(unit_of recorded bus) * 40 / 2002)) instructions an event"

design few counter 100
design many counter 30000
for name in few many; do
    plain=$(unit_of recorded "$name")
    whole=$(unit_of searched "$name")
    echo "counter beside $name regs: $plain instructions a time unit without a search, $whole with it, ratio $(awk "BEGIN { printf \"%.2f\", $whole / $plain }")"
done

design slot slot 10000
once=$(($(recorded slot 1) - $(recorded slot 0)))
orders=$(($(searched slot 1) - $(searched slot 0) - once))
echo "a slot of 10,000 procedures: $once instructions once, $orders by 16 orders, ratio $(awk "BEGIN { printf \"%.1f\", $orders / $once }")"

# The allocations of a command.
allocations_of() {
    valgrind "$@" > "$work/out" 2> "$work/told"
    sed -n 's/^.*total heap usage: \([0-9,]*\) allocs.*$/\1/p' "$work/told" | tr -d ,
}
design slot slot 1000
scripts_until 1
whole=$(allocations_of "$program" run "$work/slot.v" "$work/policy.json" < "$work/run")
plain=$(allocations_of "$work/world_speed" 1 < "$work/slot.v")
echo "a search of slots of 1,000 procedures: $(awk "BEGIN { printf \"%.3f\", ($whole - $plain) / (16 * 3005) }") allocations a step"

for others in 800 59000; do
    design races racing 200 1 "$others"
    design alike racing 200 0 "$others"
    found=$(($(searched races 3) - $(searched races 1)))
    none=$(($(searched alike 3) - $(searched alike 1)))
    echo "a race that is found and booked beside $((others + 200)) regs: $(((found - none) / 400)) instructions"
done

# (of few regs, since a book keeps a limited number of steps)
design races racing 50 1 0
{
    printf '%s\n' "$opening" '{"op":"run","until":1302}'
    for i in $(seq 200); do echo '{"op":"race","no":65000}'; done
} > "$work/deep"
sed 's/65000/1/' "$work/deep" > "$work/first"
deep=$(shortest_of 3 serve races deep)
tail -n 1 "$work/out" | grep -q '"no":65000' || { echo "there is no race 65000: $(tail -n 1 "$work/out")"; exit 1; }
first=$(shortest_of 3 serve races first)
echo "race 65,000 of a book: $(((deep - first) / 200)) us more than race 1"

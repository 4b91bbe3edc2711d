#!/bin/sh
# How fast events are applied, beside Icarus Verilog's vvp on the same five designs: a chain of counters, a pipeline of nonblocking assignments, a bus
# with 1,000 listeners, a counter beside 1,000 procedures that wait, and a chain of continuous assignments. Of each it tells the events a second, and the
# ratio of the times.
# Wants iverilog (Debian's package) and crates/vp_served/out/vp_served, which `rt run` in crates/vp_served builds. Takes the time units to run (20000), and
# the word `recorded` if a small program over `World` shall run them, which records time slots and searches none.
set -eu
top=$(cd "$(dirname "$0")/.." && pwd)
. "$top/bench/common.sh"
. "$top/bench/designs.sh"
until=${1:-20000}
scripts_until "$until"
if [ "${2:-}" = recorded ]; then
    . "$top/bench/programs.sh"
    build_program world_speed "$top/bench/world/main.txt" "time 0" vp_text vp_lex vp_policy vp_answer vp_world vp_design
    still() { "$work/world_speed" 0 < "$work/$1.v"; }
    run() { "$work/world_speed" "$until" < "$work/$1.v"; }
    ending="time $until"
else
    still() { serve "$1" still; }
    run() { serve "$1" run; }
    ending="\"time\":$until"
fi

# How many events there are until a time: each statement that a procedure executes (a delay or event control is one too), each nonblocking update, and of
# a continuous assignment each evaluation and each update of its net.
events_of() {
    awk -v until="$until" -v name="$1" 'BEGIN {
        events = 2 * until
        if (name == "chain") { falls = until / 2; for (i = 1; i <= 16; i++) { events += 2 * int(falls); falls /= 2 } }
        if (name == "pipeline") events += int(until / 2) * 33 * 3
        if (name == "bus") events = int(until / 40) * (2 + 1000 * 2)
        if (name == "assigns") events += int(until / 2) * (2 + 32 * 2)
        printf "%d\n", events
    }'
}
for name in chain pipeline bus idle assigns; do
    { "$name"; echo 'endmodule'; } > "$work/$name.v"
    { "$name"; echo "initial #$until \$finish; endmodule"; } > "$work/$name.all.v"
    { "$name"; echo "initial \$finish; endmodule"; } > "$work/$name.none.v"
    iverilog -o "$work/$name.all" "$work/$name.all.v"
    iverilog -o "$work/$name.none" "$work/$name.none.v"
    still=$(shortest_of 5 still "$name")
    all=$(shortest_of 5 run "$name")
    tail -n 1 "$work/out" | grep -q "$ending" || { echo "$name did not run: $(cat "$work/out")"; exit 1; }
    none=$(shortest_of 5 vvp -n "$work/$name.none")
    theirs=$(shortest_of 5 vvp -n "$work/$name.all")
    events=$(events_of "$name")
    ours=$((all - still))
    echo "$name: some $events events in $ours us, $((events * 1000 / ours)) thousand a second; vvp $((theirs - none)) us; ratio $(awk "BEGIN { printf \"%.2f\", $ours / ($theirs - $none) }")"
done

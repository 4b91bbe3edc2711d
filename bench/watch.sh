#!/bin/sh
# What callbacks on other objects cost an event: the instructions (callgrind) of a time unit of a counter with one session that watches one other reg, and
# with 64 sessions that watch 1,024 each. Wants valgrind (Debian's package). Takes the time units that are counted (8000).
set -eu
top=$(cd "$(dirname "$0")/.." && pwd)
. "$top/bench/common.sh"
. "$top/bench/programs.sh"
units=${1:-8000}
build_program watch_speed "$top/bench/watch/main.txt" "time 1" vp_text vp_lex vp_policy vp_answer vp_world vp_design

# The instructions of a time unit with so many sessions and callbacks.
cost() {
    before=$(instructions_of "time 10" "$work/watch_speed" "$1" "$2" 10)
    after=$(instructions_of "time $((10 + units))" "$work/watch_speed" "$1" "$2" "$((10 + units))")
    echo "$(((after - before) / units))"
}
few=$(cost 1 1)
many=$(cost 64 1024)
echo "one callback in one session: $few instructions a time unit"
echo "1,024 callbacks in each of 64 sessions: $many instructions a time unit, ratio $(awk "BEGIN { printf \"%.3f\", $many / $few }")"

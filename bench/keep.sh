#!/bin/sh
# What a copy of a simulation costs that is kept: the instructions (callgrind) of a time unit of a counter with none at each, with one, and with two, of
# which the second finds nothing written; the last 256 are held. Beside 50 regs that 50 processes wait for, and beside 30,000. Wants valgrind (Debian's
# package). Takes the time units that are counted (4000).
set -eu
top=$(cd "$(dirname "$0")/.." && pwd)
. "$top/bench/common.sh"
. "$top/bench/programs.sh"
units=${1:-4000}
build_program keep_speed "$top/bench/keep/main.txt" "time 0" vp_lex vp_sim vp_design circular_buffer

# The instructions of a time unit beside so many others, with so many copies. The first 300 units, in which the copies become 256, are left out.
cost() {
    before=$(instructions_of "time 300" "$work/keep_speed" "$1" "$2" 300)
    after=$(instructions_of "time $((300 + units))" "$work/keep_speed" "$1" "$2" "$((300 + units))")
    echo "$(((after - before) / units))"
}
for others in 50 30000; do
    plain=$(cost "$others" 0)
    once=$(cost "$others" 1)
    twice=$(cost "$others" 2)
    echo "$((2 * others)) objects beside, of which $others wait: $plain instructions a time unit, $once with a copy, $twice with two: where nothing was written a copy costs $((twice - once))"
    costs="${costs:-} $once"
done
echo "$costs" | awk '{ printf "a unit with a copy, of the large design to the small: ratio %.2f\n", $2 / $1 }'

#!/bin/sh
# What an audit costs beside the run that makes its log: a counter runs until its log has a quarter, a half and all of so many entries (1,000,000), for one
# user who sees it all. Wants crates/vp_served/out/vp_served, which `rt run` in crates/vp_served builds. Each time is the shortest of five.
set -eu
top=$(cd "$(dirname "$0")/.." && pwd)
. "$top/bench/common.sh"
entries=${1:-1000000}
echo 'module top; reg [31:0] count; initial count = 0; always #1 count = count + 1; endmodule' > "$work/counter.v"

# A time unit of the counter has four entries: its delay, its assignment, an advance, and a job.
for part in 4 2 1; do
    units=$((entries / part / 4))
    scripts_until "$units"
    run=$(shortest_of 5 sh -c "'$program' run '$work/counter.v' '$work/policy.json' < '$work/run'")
    grep -q "\"time\":$units" "$work/out" || { echo "it did not run: $(cat "$work/out")" >&2; exit 1; }
    audit=$(shortest_of 5 sh -c "'$program' audit '$work/counter.v' '$work/policy.json' ann < '$work/run'")
    grep -q '^same 4$' "$work/out" || { echo "no audit: $(cat "$work/out")" >&2; exit 1; }
    echo "$((4 * units)) entries: run $((run / 1000)) ms, with the audit $((audit / 1000)) ms, so the audit takes $(((audit - run) * 100 / run)) % of the run"
done

#!/bin/sh
# How much memory a long script takes, and how many lines a second are answered: the program on scripts of more and more lines, and
# on iterations over more and more objects.
# Wants crates/vp_served/out/vp_served, which `rt run` in crates/vp_served builds.
set -eu
top=$(cd "$(dirname "$0")/.." && pwd)
. "$top/bench/common.sh"
echo 'module top; reg a; endmodule' > "$work/design.v"
echo '{"users":[{"name":"ann","token":"t1","open":"list+read+put","run":true}]}' > "$work/policy.json"

# Runs a script on standard input, through a pipe; tells lines answered, peak memory and time.
measure() {
    python3 -c '
import resource, subprocess, sys, time
begin = time.monotonic()
run = subprocess.Popen(sys.argv[2:], stdin=sys.stdin, stdout=subprocess.PIPE)
lines = sum(1 for line in run.stdout)
run.wait()
peak = resource.getrusage(resource.RUSAGE_CHILDREN).ru_maxrss
print(f"{sys.argv[1]}: {lines} lines answered, {peak} KiB at most, {time.monotonic() - begin:.2f} s, status {run.returncode}")
' "$1" "$program" run "$work/design.v" "$work/policy.json"
}

# The same of an `open` and so many copies of a line.
run() {
    {
        echo "$opening"
        yes "$2" | head -n "$1"
    } | measure "$3"
}
for count in 10000 100000 1000000; do
    run "$count" 'no request' "$count lines that are no JSON"
done
for count in 10000 100000 1000000; do
    run "$count" '{"op":"time"}' "$count requests, each an entry of the log"
done

# Five requests in turn, of which each put is a change. No handle is freed, so after 65,536 no more is made.
turn() {
    echo '{"op":"handle","name":"top.a"}'
    echo '{"op":"value","h":1}'
    echo "{\"op\":\"put\",\"h\":1,\"value\":\"$1\"}"
    echo '{"op":"get_str","h":1,"prop":"full_name"}'
    echo '{"op":"compare","a":1,"b":1}'
}
for count in 10000 100000 1000000; do
    run "$count" "$(turn 1)
$(turn 0)" "$count requests, a fifth each of handle, value, put, get_str and compare"
done

# One iteration over more and more regs.
for count in 600 6000 60000; do
    {
        printf 'module top; reg a'
        seq -f ', r%.0f' 2 "$count" | tr -d '\n'
        echo '; endmodule'
    } > "$work/design.v"
    {
        echo "$opening"
        echo '{"op":"handle","name":"top"}'
        echo '{"op":"iterate","h":1,"kind":"reg"}'
    } | measure "an iteration over $count regs"
done

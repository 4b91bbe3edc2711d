#!/bin/sh
# What instances cost: the program on a text of one large module, on a small module instantiated many times, and on the large one instantiated as
# often. The last is to take at most twice what the first two take together. Wants crates/vp_served/out/vp_served, which `rt run` in crates/vp_served builds.
set -eu
top=$(cd "$(dirname "$0")/.." && pwd)
. "$top/bench/common.sh"
count=${1:-20000}
echo '{"users":[]}' > "$work/policy.json"
: > "$work/script"

# A module with a reg and a procedure of so many assignments, instantiated so often.
design() {
    awk -v assignments="$1" -v instances="$2" 'BEGIN {
        print "module part;\n  reg [63:0] r;\n  initial begin"
        for (i = 0; i < assignments; i++) print "    r = r + (r << " i % 64 ") ^ 64'"'"'d" i ";"
        print "  end\nendmodule\nmodule top;"
        for (i = 0; i < instances; i++) print "  part u" i "();"
        print "endmodule"
    }'
}
# The shortest of five runs of the program on a design, in milliseconds, and its largest resident memory, in KiB.
measure() {
    for _ in 1 2 3 4 5; do
        begin=$(date +%s%N)
        /usr/bin/time -f %M -o "$work/peak" "$program" run "$work/$1" "$work/policy.json" < "$work/script" > "$work/out"
        end=$(date +%s%N)
        echo "$(((end - begin) / 1000000)) $(cat "$work/peak")"
    done | sort -n | head -n 1
}
design 20000 1 > "$work/large"
design 1 "$count" > "$work/many"
design 20000 "$count" > "$work/both"
for name in large many both; do
    measure "$name" > "$work/$name.cost"
    test ! -s "$work/out" || { echo "$name: refused, $(cat "$work/out")"; exit 1; }
    echo "$name: $(wc -c < "$work/$name") bytes, $(cut -d' ' -f1 "$work/$name.cost") ms, $(cut -d' ' -f2 "$work/$name.cost") KiB"
done
cat "$work/large.cost" "$work/many.cost" "$work/both.cost" | awk '
    { time[NR] = $1; peak[NR] = $2 }
    END { printf "time: %d %% of the first two together, memory: %d %%\n", time[3] * 100 / (time[1] + time[2]), peak[3] * 100 / (peak[1] + peak[2]) }'

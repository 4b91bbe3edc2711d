#!/bin/sh
# How fast a text is read and tested: the program on a text of many small modules, beside `iverilog -t null` on the same text.
# Wants iverilog (Debian's package) and crates/vp_served/out/vp_served, which `rt run` in crates/vp_served builds.
set -eu
top=$(cd "$(dirname "$0")/.." && pwd)
. "$top/bench/common.sh"
bytes=${1:-1048576}
# Modules of a counter's size, each instantiated by the next, eight deep, up to so many bytes; the last begins a new tower.
awk -v limit="$((bytes - 400))" 'BEGIN {
    size = 0; n = 0
    while (size < limit) {
        body = "module m" n "(input wire [7:0] a, input wire c, output wire [7:0] y);\n  reg [7:0] k;\n  wire [7:0] w = a + 8'"'"'d" (n % 200) ";\n"
        if (n % 8 > 0) body = body "  wire [7:0] v;\n  m" (n - 1) " u(.a(w), .c(c), .y(v));\n  assign y = c ? v : k;\n"
        else body = body "  assign y = c ? w : k;\n"
        body = body "  initial k = 8'"'"'d" (n % 100) ";\nendmodule\n"
        printf "%s", body
        size += length(body); n++
    }
}' > "$work/design.v"
echo '{"users":[]}' > "$work/policy.json"
: > "$work/script"

ours=$(shortest_of 9 serve design script)
echo "bytes: $(wc -c < "$work/design.v"), modules: $(grep -c '^module' "$work/design.v")"
echo "program: $ours us; it said: $(head -n 1 "$work/out")"
theirs=$(shortest_of 9 iverilog -t null "$work/design.v")
echo "iverilog -t null: $theirs us; it said: $(head -n 1 "$work/out")"
echo "ratio: $((ours * 100 / theirs)) %"

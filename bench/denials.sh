#!/bin/sh
# What denials cost in memory: the same hidden name is asked again and again in a design whose envelope has a long author, which each
# denial tells. Each stays in the log, with its texts shared.
# Wants GNU time (Debian's package `time`) and crates/vp_served/out/vp_served, which `rt run` in crates/vp_served builds.
set -eu
top=$(cd "$(dirname "$0")/.." && pwd)
. "$top/bench/common.sh"
letters=${1:-900000}
count=${2:-2000}
{
    printf 'module top;\n  reg q;\n`pragma protect author="'
    head -c "$letters" /dev/zero | tr '\0' a
    printf '", begin\n  reg k;\n`pragma protect end\nendmodule\n'
} > "$work/design.v"
echo "$one_user" > "$work/policy.json"
asked() { echo "$opening"; yes '{"op":"handle","name":"top.k"}' | head -n "$1"; }
asked 1 > "$work/one"
asked "$count" > "$work/all"
for script in one all; do
    /usr/bin/time -f "peak of $script: %M KiB, %e s" "$program" run "$work/design.v" "$work/policy.json" < "$work/$script" | tail -n 1 | cut -c 1-40
done

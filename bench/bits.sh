#!/bin/sh
# How fast the operations of vp_bits are: each beside the same on a pair of words in plain Rust, in one run.
# Wants rustc. The program bench/bits/main.txt is proved and built in a folder that is removed, beside copies of vp_text and vp_bits.
set -eu
top=$(cd "$(dirname "$0")/.." && pwd)
work=$(mktemp -d)
trap 'rm -rf "$work"' EXIT
mkdir -p "$work/crates/bits_speed/src" "$work/crates/bits_speed/specs" "$work/crates/bits_speed/proofs"
printf 'vp_text:\nvp_bits: vp_text thiserror\nbits_speed: vp_bits\n' > "$work/crates.txt"
for crate in vp_text vp_bits; do
    mkdir "$work/crates/$crate"
    for part in src specs proofs; do cp -R "$top/crates/$crate/$part" "$work/crates/$crate/"; done
done
cp "$top/bench/bits/main.txt" "$work/crates/bits_speed/src/main.rt"
touch "$work/crates/bits_speed/specs/Lib.antt" "$work/crates/bits_speed/proofs/Lib.antt"
(cd "$work/crates/bits_speed" && rt run --jobs 1 > "$work/first" 2> "$work/log") || { cat "$work/log"; exit 1; }
rustc --edition 2021 -O -C target-cpu=x86-64-v2 -o "$work/pairs" "$top/bench/bits/pairs.rs"

# Nine runs of each program in turn; both print lines 'operation, picoseconds a turn, sum', of which the shortest counts.
for _ in 1 2 3 4 5 6 7 8 9; do
    "$work/crates/bits_speed/out/bits_speed" >> "$work/all_ours"
    "$work/pairs" >> "$work/all_plain"
done
shortest() { sort -k1,1 -k2,2n "$1" | awk '$1 != last { print; last = $1 }'; }
shortest "$work/all_ours" > "$work/ours"
shortest "$work/all_plain" > "$work/plain"
echo "operation, nanoseconds a turn here and in plain Rust, ratio:"
join "$work/ours" "$work/plain" | awk '
    $3 != $5 { print $1 ": the sums differ"; failed = 1 }
    { printf "%-12s %6.2f %6.2f %5.2f\n", $1, $2 / 1000, $4 / 1000, $2 / $4 }
    END { exit failed }'

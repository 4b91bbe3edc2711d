#!/bin/sh
# How fast a text is read to tokens: a small program over vp_lex, beside Icarus Verilog's preprocessor on the same text.
# Wants iverilog (Debian's package) and rt. It builds the program in a temporary folder, which takes some minutes.
set -eu
top=$(cd "$(dirname "$0")/.." && pwd)
work=$(mktemp -d)
trap 'rm -rf "$work"' EXIT
mkdir -p "$work/crates/bench_tokens/src"
cp -a "$top/crates/vp_lex" "$work/crates/vp_lex"
rm -rf "$work/crates/vp_lex/out"
cat > "$work/crates.txt" <<'END'
vp_lex: thiserror
bench_tokens: vp_lex
END
cat > "$work/crates/bench_tokens/src/main.rt" <<'END'
//! Reads standard input to tokens, and prints how many.
#![tactic(auto)]

use std::io::{self, Read};
use vp_lex::{TEXT_LIMIT, tokens};

fn main(rt: HostRuntime) -> io::Result<()> {
    let mut bytes = Vec::new(rt.alloc());
    rt.reader().read_to_end(&mut bytes)?;
    if bytes.len() > TEXT_LIMIT {
        return println!(rt; "too long");
    }
    let Ok(text) = str::from_utf8(&bytes) else {
        return println!(rt; "no text");
    };
    match tokens(rt.alloc(), text) {
        Ok(tokens) => {
            let count = tokens.len();
            println!(rt; "{count} tokens")
        }
        Err(error) => println!(rt; "{error}"),
    }
}
END
(cd "$work/crates/bench_tokens" && rt run --jobs 1 < /dev/null > "$work/log" 2>&1) || { cat "$work/log"; exit 1; }
program=$work/crates/bench_tokens/out/bench_tokens

# A module with declarations, comments, numbers, strings, operators and statements, many times over, of so many MiB.
text() {
    awk -v size="$(($1 * 1048576))" 'BEGIN {
        for (n = 1; written < size; n++) {
            part = sprintf("// The module of number %d.\n`timescale 1ns / 1ps\nmodule stage_%d(input wire clock, input wire [7:0] data_in, output reg [7:0] data_out);\n", n, n)
            part = part sprintf("  reg [7:0] held_%d, next_value; /* two\n  registers */\n  wire enable = (held_%d != 8%sh%02x) && clock;\n", n, n, "\047", n % 256)
            part = part sprintf("`pragma protect author=\"stage %d\", begin\n  reg secret;\n`pragma protect end\n", n)
            part = part sprintf("  always @(posedge clock) begin\n    if (enable) held_%d <= #%d data_in + 8%sb0000_0001;\n    else next_value <= ~data_in | {held_%d[3:0], 4%sb10xz};\n", n, n, "\047", n, "\047")
            part = part sprintf("    case (held_%d)\n      1: data_out = next_value << 2;\n      default: data_out = held_%d === 8%sd255 ? 0 : data_in;\n    endcase\n  end\nendmodule\n\n", n, n, "\047")
            if (written + length(part) > size) break
            written += length(part)
            printf "%s", part
        }
    }'
}

# The shortest of nine runs of a command, in microseconds.
shortest() {
    for _ in 1 2 3 4 5 6 7 8 9; do
        begin=$(date +%s%N)
        "$@" > "$work/out"
        end=$(date +%s%N)
        echo "$(((end - begin) / 1000))"
    done | sort -n | head -n 1
}
run_tokens() { "$program" < "$work/text.v"; }
run_icarus() { iverilog -E -o "$work/text.pre" "$work/text.v"; }
: > "$work/text.v"
echo "nothing to read: tokens $(shortest run_tokens) us, iverilog -E $(shortest run_icarus) us"
for size in 1 4 16; do
    text "$size" > "$work/text.v"
    ours=$(shortest run_tokens)
    count=$(cat "$work/out")
    icarus=$(shortest run_icarus)
    echo "$size MiB: $count in $ours us, iverilog -E $icarus us: ratio $((ours * 100 / icarus)) %"
done

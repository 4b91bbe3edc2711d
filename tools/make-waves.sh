#!/bin/sh
# Makes the stored dumps of clients/python/waves anew: each design there is simulated by Icarus Verilog (Debian's iverilog), which dumps all its
# signals from time 0 to 100. The tests of the client compare with these what `loddrume wave` writes of the same design.
#
#     tools/make-waves.sh             the dumps
#     tools/make-waves.sh pictures    docs/pictures: what Sam and Vera may watch of the chip there, as GTKWave shows it
#
# Icarus knows no pragma, so the lines that begin with one are left out. The date and Icarus's version are taken out of the dumps, so that the
# same designs give the same bytes. The pictures want crates/vp_served/out/vp_served or another program in VP_SERVED, and Debian's gtkwave, xvfb,
# xauth and imagemagick.
set -eu
top=$(cd "$(dirname "$0")/.." && pwd)
waves=$top/clients/python/waves
work=$(mktemp -d)
trap 'rm -rf "$work"' EXIT

dump() {
    {
        sed 's/^`pragma.*//' "$waves/$1.v"
        echo "module dump; initial begin \$dumpfile(\"$work/$1.vcd\"); \$dumpvars(0, $1); #101 \$finish; end endmodule"
    } > "$work/$1.v"
    iverilog -g2005 -o "$work/$1.vvp" -s "$1" -s dump "$work/$1.v"
    vvp -n "$work/$1.vvp" > /dev/null
    sed '/^\$date/,/^\$end/d; /^\$version/,/^\$end/d' "$work/$1.vcd" > "$waves/$1.vcd"
}

# A picture of what a user with a token may watch of the chip.
picture() {
    LODDRUME_TOKEN=$2 PYTHONPATH=$top/clients/python python3 -m loddrume wave --files "$waves/chip.v" "$waves/chip.json" \
        --program "${VP_SERVED:-$top/crates/vp_served/out/vp_served}" --user "$1" 100 "$work/$1.vcd"
    (
        cd "$work"
        cat > rc <<'END'
splash_disable on
hide_sst on
hier_max_level 0
initial_window_x 1000
initial_window_y 560
END
        cat > show.tcl <<'END'
set names [list]
for {set i 0} {$i < [gtkwave::getNumFacs]} {incr i} { lappend names [gtkwave::getFacName $i] }
gtkwave::addSignalsFromList $names
gtkwave::setZoomRangeTimes 0 100
END
        cat > show.sh <<'END'
gtkwave -r rc -S show.tcl "$1.vcd" > /dev/null 2>&1 &
shown=$!
sleep 5
import -window root "$1.png"
kill "$shown"
END
        xvfb-run -a -s "-screen 0 1000x560x24" sh show.sh "$1"
    )
    convert "$work/$1.png" -strip -colors 64 "$top/docs/pictures/chip-$1.png"
}

if [ "${1:-}" = pictures ]; then
    mkdir -p "$top/docs/pictures"
    picture sam soc-1
    picture vera acme-7
else
    for design in "$waves"/*.v; do
        dump "$(basename "$design" .v)"
    done
fi

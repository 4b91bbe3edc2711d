# Designs that several measuring scripts run, each without its `endmodule`.

# 16 regs, of which each toggles where the one before it falls.
chain() {
    echo 'module top; reg clock; initial clock = 0; always #1 clock = ~clock;'
    last=clock
    for i in $(seq 16); do
        echo "reg q$i; initial q$i = 0; always @(negedge $last) q$i = ~q$i;"
        last=q$i
    done
}
# 32 regs of 16 bits, which hand a value on at each rising edge.
pipeline() {
    echo 'module top; reg clock; reg [15:0] s0; initial begin clock = 0; s0 = 0; end always #1 clock = ~clock; always @(posedge clock) s0 <= s0 + 1;'
    for i in $(seq 32); do
        echo "reg [15:0] s$i; always @(posedge clock) s$i <= s$((i - 1));"
    done
}
# 1,000 procedures that take the value of a bus at each change; it changes once in 40 time units.
bus() {
    echo 'module top; reg [7:0] bus; initial bus = 0; always #40 bus = bus + 1;'
    for i in $(seq 1000); do echo "reg [7:0] r$i; always @(bus) r$i = bus;"; done
}
# A counter, and 1,000 procedures that wait for a reg that never changes.
idle() {
    echo 'module top; reg never; reg [31:0] count; initial count = 0; always #1 count = count + 1;'
    for i in $(seq 1000); do echo "reg r$i; always @(never) r$i = 1;"; done
}
# 32 continuous assignments, each of which adds one to the one before it, after a counter that a clock drives.
assigns() {
    echo 'module top; reg clock; reg [15:0] s0; initial begin clock = 0; s0 = 0; end always #1 clock = ~clock; always @(posedge clock) s0 = s0 + 1;'
    last=s0
    for i in $(seq 32); do
        echo "wire [15:0] w$i; assign w$i = $last + 1;"
        last=w$i
    done
}
# A counter beside so many regs.
counter() {
    echo 'module top; reg [31:0] count; initial count = 0; always #1 count = count + 1;'
    for i in $(seq "$1"); do echo "reg r$i;"; done
}
# So many procedures that all have an event at time 1, each of which gives its own reg a value.
slot() {
    echo 'module top; reg go; initial begin go = 0; #1 go = 1; end'
    for i in $(seq "$1"); do echo "reg r$i; always @(posedge go) r$i = 1;"; done
}
# Two procedures that race for so many regs at each time unit, or, where the second writes what the first does (0), do not; beside so many other regs.
racing() {
    echo 'module top; reg go; initial go = 0; always #1 go = ~go;'
    for i in $(seq "$3"); do echo "reg o$i;"; done
    for i in $(seq "$1"); do echo "reg r$i;"; done
    for value in 0 "$2"; do
        echo 'always @(go) begin'
        for i in $(seq "$1"); do echo "r$i = $value;"; done
        echo 'end'
    done
}

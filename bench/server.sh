#!/bin/sh
# How fast a server answers. Round trips of `time` over loopback, beside those of redis's PING by the same client; the time of a `value` beside a search for races, and without one; how much sooner
# four workers find the races of a run than one; what an idle server with 64 sessions uses of a processor; and what an entry of the log and 1,000 connections take of memory. Wants gcc, redis-server (Debian's packages), and
# crates/vp_served/out/vp_served; four processors for the workers.
set -eu
top=$(cd "$(dirname "$0")/.." && pwd)
. "$top/bench/common.sh"
[ -x "$program" ] || { echo "$program is not there: rt run in crates/vp_served builds it" >&2; exit 1; }
cc -O2 -pthread -o "$work/client" "$top/bench/server/client.c"
echo '{"users":[{"name":"ann","token":"t1","open":"list+read+watch+put+race","run":true}]}' > "$work/policy.json"

# A server of the design of a name on a port, with so many workers; `server` is its process.
begin() {
    "$program" serve "$work/$1.v" "$work/policy.json" --port "$2" --workers "$3" > "$work/out" &
    server=$!
    while ! grep -q listening "$work/out"; do sleep 0.05; done
}

end() {
    kill "$server"
    wait "$server" 2> /dev/null || true
}

# Trips a second, half and 99th percentile in microseconds.
trips() { "$work/client" "$1" "$2" "$seconds" "$3" "$4"; }

echo 'module top; reg a; initial a = 0; endmodule' > "$work/still.v"
seconds=5

redis-server --port 20151 --save "" --appendonly no > /dev/null &
redis=$!
sleep 1
begin still 20150 2
for clients in 1 16; do
    theirs=$(trips 20151 "$clients" "" PING)
    ours=$(trips 20150 "$clients" "$opening" '{"op":"time"}')
    echo "clients: $clients; redis PING: $theirs; time: $ours (trips a second, half, 99th percentile in microseconds)"
    echo "$ours $theirs" | awk '{printf "ratio: %.2f\n", $1 / $4}'
done
kill "$redis"
end

# Each of 100 slots has a race, and 2,000 steps of a loop, so that its 16 orders are long.
echo 'module top; reg c, a, b, x; reg [15:0] i;
initial begin a = 0; b = 1; x = 0; for (c = 0; 1; c = ~c) #5 ; end
always @(posedge c) a = b;
always @(posedge c) b = ~a;
always @(posedge c) for (i = 0; i < 1000; i = i + 1) x = ~x;
endmodule' > "$work/races.v"
reading=$(printf '%s\n%s' "$opening" '{"op":"handle","name":"top.x"}')
seconds=5
begin races 20152 2
idle=$(trips 20152 1 "$reading" '{"op":"value","h":1}')
end
begin races 20153 2
python3 "$top/bench/server/search.py" 20153 8000 800 0.5 > "$work/searched" &
sleep 0.3
seconds=3
searching=$(trips 20153 1 "$reading" '{"op":"value","h":1}')
wait $!
end
echo "value, idle: $idle; beside a search: $searching; the search took $(cat "$work/searched") s, of which the first 0.3 are not looked at, and the next 3"
echo "$searching $idle" | awk '{printf "ratio of the 99th percentiles: %.2f\n", $3 / $6}'

# Three runs of each in turn, since one of them alone is a tenth more or less.
for turn in 0 1 2; do
    for workers in 1 4; do
        port=$((20154 + 2 * turn + workers / 4))
        begin races "$port" "$workers"
        python3 "$top/bench/server/search.py" "$port" 8000 800 0.02 >> "$work/with$workers"
        end
    done
done
paste "$work/with1" "$work/with4" | awk '{ one += $1; four += $2; printf "workers: 1 and 4; seconds: %s and %s; ratio: %.2f\n", $1, $2, $1 / $2 }
    END { printf "in all: %.2f and %.2f; ratio: %.2f\n", one, four, one / four }'

# An idle server with 64 sessions: what it uses in ten seconds, in hundredths of a second of one processor.
begin still 20160 2
"$work/client" 20160 64 0 "$opening" '{"op":"time"}' > /dev/null &
python3 - 20160 "$server" <<'P'
import socket, sys, time
port, server = int(sys.argv[1]), sys.argv[2]
clients = [socket.create_connection(("127.0.0.1", port)) for _ in range(64)]
for client in clients:
    client.sendall(b'{"op":"open","user":"ann","token":"t1"}\n')
    client.recv(100)
def used():
    fields = open(f"/proc/{server}/stat").read().rsplit(")", 1)[1].split()
    return int(fields[11]) + int(fields[12])
before = used()
time.sleep(10)
print(f"idle with 64 sessions: {(used() - before) / 10:.1f} % of one processor")
P
end

# Memory by entries: so many requests of one session.
begin still 20161 0
resident() { awk '/^VmRSS/ {print $2}' "/proc/$server/status"; }
first=$(resident)
seconds=10
asked=$(trips 20161 1 "$opening" '{"op":"time"}' | awk '{printf "%d", $1 * 10}')
last=$(resident)
echo "memory: $first kB before, $last kB after $asked requests"
echo "$first $last $asked" | awk '{printf "bytes an entry: %.0f\n", ($2 - $1) * 1024 / $3}'
end

# Memory by connections, one after another: of 1,000 that only end, and of 1,000 that open a session and close it; each thousand three times.
begin still 20163 0
for kind in silent open; do
    for thousand in 1 2 3; do
        first=$(resident)
        python3 "$top/bench/server/connections.py" 20163 1000 "$kind"
        echo "1,000 connections, $kind: $(($(resident) - first)) kB more"
    done
done
end

# What the measuring scripts share. They set `top`, the repository's folder, and read this file; it makes a folder `work`, which goes when they end.
program=$top/crates/vp_served/out/vp_served
work=$(mktemp -d)
trap 'rm -rf "$work"' EXIT

# The shortest of so many runs of a command, in microseconds. What it writes is left in the file `out`; its status is not looked at.
shortest_of() {
    runs=$1
    shift
    for _ in $(seq "$runs"); do
        begin=$(date +%s%N)
        "$@" > "$work/out" 2>&1 || true
        end=$(date +%s%N)
        echo "$(((end - begin) / 1000))"
    done | sort -n | head -n 1
}

# A policy with one user, who may find and read what stands in the open text and let the design run.
one_user='{"users":[{"name":"ann","token":"t1","open":"list+read","run":true}]}'
opening='{"op":"open","user":"ann","token":"t1"}'

# Writes the script `still`, which opens a session and asks for the time, and the script `run`, which lets the design run until a time before.
scripts_until() {
    echo "$one_user" > "$work/policy.json"
    printf '%s\n' "$opening" '{"op":"time"}' > "$work/still"
    printf '%s\n' "$opening" "{\"op\":\"run\",\"until\":$1}" '{"op":"time"}' > "$work/run"
}

# The program on the design of a name, with a script.
serve() { "$program" run "$work/$1.v" "$work/policy.json" < "$work/$2"; }

# What the measuring scripts share that build a program of their own. They set `top`, the repository's folder, and read common.sh first.

# Proves and builds the program of a name, whose main.rt is given, and what it prints without words and input, over these crates: beside a copy of the
# repository's crates with what earlier runs proved of them (`rt run` in crates/vp_served); what is missing is proved first. The program stays as
# $work/NAME.
build_program() {
    name=$1
    main=$2
    printed=$3
    shift 3
    mkdir -p "$work/copy"
    cp -al "$top/crates" "$work/copy/" 2> "$work/log" || cp -a "$top/crates" "$work/copy/"
    mkdir -p "$work/copy/crates/$name/src" "$work/copy/crates/$name/specs" "$work/copy/crates/$name/proofs"
    { cat "$top/crates.txt"; echo "$name: $*"; } > "$work/copy/crates.txt"
    cp "$top/HANDLES" "$work/copy/"
    cp "$main" "$work/copy/crates/$name/src/main.rt"
    touch "$work/copy/crates/$name/specs/Lib.antt" "$work/copy/crates/$name/proofs/Lib.antt"
    (cd "$work/copy/crates/$name" && rt run < /dev/null > "$work/out" 2> "$work/log") || { tail -n 20 "$work/log"; exit 1; }
    [ "$(tail -n 1 "$work/out")" = "$printed" ] || { echo "it did not run: $(cat "$work/out")" >&2; exit 1; }
    cp "$work/copy/crates/$name/out/$name" "$work/$name"
}

# The instructions of a command, by callgrind; its last line must be the one given first.
instructions_of() {
    wanted=$1
    shift
    valgrind --tool=callgrind --callgrind-out-file="$work/profile" "$@" > "$work/out" 2> "$work/told"
    [ "$(tail -n 1 "$work/out")" = "$wanted" ] || { echo "it did not run: $(cat "$work/out")" >&2; exit 1; }
    sed -n 's/^.*Collected : //p' "$work/told"
}

# Read by the scripts beside it. Makes a small program over crates of the repository, in a folder that is removed at the end.
set -eu
cd "$(dirname "$0")/.."
room=$(mktemp -d)
trap 'rm -rf "$room"' EXIT

# program_over NAME CRATE.. <TEXT proves, builds and runs the program of that text once, over these crates and no others. It is
# "$program" then, and "$room/said" has what it printed.
program_over() {
    name=$1
    rm -rf "$room/crates" "$room/crates.txt"
    shift
    mkdir -p "$room/crates/$name/src"
    cat >"$room/crates/$name/src/main.rt"
    for crate in "$@"; do
        cp -R "crates/$crate" "$room/crates/"
        grep "^$crate:" crates.txt >>"$room/crates.txt"
    done
    echo "$name: $*" >>"$room/crates.txt"
    git -C "$room" init -q
    (cd "$room/crates/$name" && rt run >"$room/said" 2>"$room/log") || { cat "$room/log" "$room/said"; exit 1; }
    program=$room/crates/$name/out/$name
}

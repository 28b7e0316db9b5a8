# Read by the scripts beside it. Proves and builds a program of the repository, whose path is "$program" then.
set -eu
cd "$(dirname "$0")/.."
said=$(mktemp)
trap 'rm -f "$said"' EXIT

# proved NAME
proved() {
    (cd "crates/$1" && rt run -- --version) >"$said" 2>&1 || { cat "$said"; exit 1; }
    program=crates/$1/out/$1
}

# Sourced by the scripts of this folder, which each time one program. Such a program is no crate of the repository: its
# files have the ending .in, and it is built in a copy of the repository, in a temporary folder.
set -eu
top=$(cd "$(dirname "$0")/.." && pwd)
copy=$(mktemp -d)
trap 'rm -rf "$copy"' EXIT

# time_program NAME PATTERN CRATE..: runs the program of bench/NAME over these crates, and prints the lines of its output
# that the pattern matches. A program that asks for the module `programs` has the compiled ones of bench/steps.
time_program() {
    local name=$1 pattern=$2 folder="$copy/crates/$1"
    shift 2
    cp -r "$top/crates" "$top/crates.txt" "$top/HANDLES" "$copy/"
    cp -r "$top/bench/$name" "$folder"
    if grep -q '^mod programs;' "$folder/src/main.rt.in"; then
        cp "$top/bench/steps/src/programs.rt.in" "$folder/src/"
    fi
    find "$folder" -name '*.in' | while read -r file; do mv "$file" "${file%.in}"; done
    echo "$name: $* anyhow" >>"$copy/crates.txt"
    if ! (cd "$folder" && rt run) >"$copy/output" 2>&1; then
        cat "$copy/output"
        return 1
    fi
    grep -E "$pattern" "$copy/output"
}

#!/usr/bin/env bash
# Each allocation of two runs is refused in turn: of a campaign that is stopped, and of one that goes on with its file.
# usage: refused_memory.sh PROGRAM             the built program on real files, within a minute
#        refused_memory.sh --memory [DRIVER]   the same calls over devices in memory, by refused_memory/main.rt.in: which is proved and
#                                              built first where no DRIVER is named, with all crates that it stands on
set -u
. "$(dirname "$0")/../checks.sh"
command -v python3 >/dev/null || { echo "skipped: refused memory needs python3"; exit 0; }
command -v gcc >/dev/null || { echo "skipped: refused memory needs gcc"; exit 0; }
folder=$(mktemp -d) || exit 2
trap 'rm -rf "$folder"' EXIT
if ! gcc -O1 -shared -fPIC -o "$folder/refuse.so" "$tests/refused_memory/refuse.c" 2>"$folder/gcc.txt"; then
    echo "skipped: refused memory needs a C library whose allocator has a second name"
    exit 0
fi

# build: the driver, in a copy of the repository, since the gate refuses loose .rt files.
build() {
    local crate=$folder/crates/refused_memory
    cp -r "$top/crates" "$top/crates.txt" "$top/HANDLES" "$folder" && mkdir -p "$crate/src" || return 1
    cp "$tests/refused_memory/main.rt.in" "$crate/src/main.rt" || return 1
    echo "refused_memory: fs_model fs_outside test_programs fail_cli" >>"$folder/crates.txt"
    (cd "$crate" && rt run) >"$folder/log.txt" 2>&1 || { tail -n 20 "$folder/log.txt"; return 1; }
    driver=$crate/out/refused_memory
}

if [ "$1" = --memory ]; then
    driver=${2:-}
    [ -n "$driver" ] || build || { echo "the driver could not be built"; exit 1; }
    python3 -B "$tests/refused_memory.py" "$folder/refuse.so" --memory "$driver"
else
    python3 -B "$tests/refused_memory.py" "$folder/refuse.so" "$1"
fi

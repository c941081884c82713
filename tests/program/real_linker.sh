#!/usr/bin/env bash
# A C program as a real compiler and linker make it: the stored file, and, where the compiler is installed, one built now.
# usage: real_linker.sh PROGRAM
set -u
. "$(dirname "$0")/../checks.sh"
program=$(realpath "$1") || exit 2
cd "$tests" || exit 2
command -v python3 >/dev/null || { echo "skipped: real_linker needs python3"; exit 0; }
options=(--rom 0x20000000:512 --ram 0x80000000:32 --limit 400)
folder=$(mktemp -d) || exit 2
trap 'rm -rf "$folder"' EXIT
stored_by=12.2.0 # the version of the compiler that wrote the stored file
passed=0
failed=0

# same NAME WANTED GOT: counts one comparison.
same() {
    if [ "$2" = "$3" ]; then
        passed=$((passed + 1))
    else
        failed=$((failed + 1))
        printf 'differs: %s\nwanted:\n%s\ngot:\n%s\n' "$1" "$2" "$3"
    fi
}

# judged NAME IMAGE: a whole campaign by the reference, in a file of its own.
judged() { timeout 100 python3 -B "$top/tests/definitions/reference.py" run "$2" "$folder/$1.keep" "${options[@]}" 2>&1; echo "status $?"; }

# tried NAME IMAGE WORD..: the same by the program, with more options.
tried() { timeout 100 "$program" run "$2" "$folder/$1.keep" "${options[@]}" "${@:3}" 2>&1; echo "status $?"; }

# alike NAME OTHER: compares two campaign files.
alike() { same "the file $1.keep" same "$(cmp "$folder/$1.keep" "$folder/$2.keep" && echo same)"; }

wanted=$(judged reference inputs/linked.elf)
got=$(tried stored inputs/linked.elf)
same 'the stored file against the reference' "$wanted" "$got"
same 'the stored file halts' 'status 0' "${got##*$'\n'}"
alike stored reference
jobs=$(timeout 100 "$program" plan inputs/linked.elf "${options[@]}" | awk '$1 == "jobs" { print $2 }')
same 'a stop' "stopped: 500 of $jobs jobs kept"$'\n''status 7' "$(tried stopped inputs/linked.elf --stop-after 500)"
same 'taken up' "$wanted" "$(tried stopped inputs/linked.elf)"
same 'a report' "$wanted" "$(timeout 100 "$program" report inputs/linked.elf "$folder/stopped.keep" "${options[@]}" 2>&1; echo "status $?")"

for tool in make riscv64-unknown-elf-gcc riscv64-unknown-elf-ld; do
    command -v "$tool" >/dev/null || missing=$tool
done
if [ -n "${missing:-}" ]; then
    echo "skipped: building the file again needs $missing"
else
    make -s -C inputs BUILD="$folder"
    # Another version of the compiler may write other code: then the reference alone is the judge.
    if [ "$(riscv64-unknown-elf-gcc -dumpfullversion)" != "$stored_by" ]; then
        wanted=$(judged built "$folder/linked.elf")
    fi
    same 'the file built now' "$wanted" "$(tried again "$folder/linked.elf")"
fi

echo "$passed passed, $failed failed"
[ "$failed" -eq 0 ]

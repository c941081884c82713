#!/usr/bin/env bash
# Runs the commands of docs/GUIDE.md, HOWTO.md and METRICS.md, each page on its own copies of examples/ and tools/, and compares
# all that each command prints with what the page says. console.sh says which lines of a page are commands.
# Commands on what make builds are skipped where the compiler is missing or another one than that of examples/built, those on printf
# where picolibc is missing, those on a database where the program that exports or sqlite3 is missing, those that replay where that
# program is missing, those in GDB where gdb-multiarch or fail_debug is missing, and those on parts of a run where fail_window is missing.
# usage: guide.sh PROGRAM [EXPORT [REPLAY [DEBUG [WINDOW]]]]
set -u
. "$(dirname "$0")/../only_given.sh"
program=$(realpath "$1") || exit 2
export=${2:+$(realpath "$2")}
replay=${3:+$(realpath "$3")}
debug=${4:+$(realpath "$4")}
window=${5:+$(realpath "$5")}
cd "$(dirname "$0")/../.." || exit 2
top=$PWD
built_by=12.2.0
# The pages whose commands are run. A page that is not there is left out.
pages=(GUIDE HOWTO METRICS)
folder=$(mktemp -d) || exit 2
trap 'rm -rf "$folder"' EXIT
mkdir "$folder/bin" && ln -s "$program" "$folder/bin/fail_star" || exit 2
PATH=$folder/bin:$PATH
for tool in make riscv64-unknown-elf-gcc riscv64-unknown-elf-ld riscv64-unknown-elf-objdump; do
    command -v "$tool" >/dev/null || missing=$tool
done
if [ -z "${missing:-}" ] && [ "$(riscv64-unknown-elf-gcc -dumpfullversion)" != "$built_by" ]; then
    missing="riscv64-unknown-elf-gcc $built_by"
fi
[ -n "${missing:-}" ] && echo "skipped: the commands that build or disassemble need $missing"
if ! riscv64-unknown-elf-gcc --specs=picolibc.specs -E -x c /dev/null >/dev/null 2>&1; then
    no_library=yes
    echo "skipped: the commands on printf need picolibc-riscv64-unknown-elf"
fi
command -v python3 >/dev/null || { no_python=yes; echo "skipped: the commands on pictures and tables need python3"; }
if [ -n "$export" ] && command -v sqlite3 >/dev/null; then
    ln -s "$export" "$folder/bin/fail_export" || exit 2
else
    no_database=yes
    echo "skipped: the commands on a database need fail_export and sqlite3"
fi
if [ -n "$replay" ]; then
    ln -s "$replay" "$folder/bin/fail_replay" || exit 2
else
    no_replay=yes
    echo "skipped: the commands that replay need fail_replay"
fi

if [ -n "$debug" ] && command -v gdb-multiarch >/dev/null; then
    ln -s "$debug" "$folder/bin/fail_debug" || exit 2
else
    no_debug=yes
    echo "skipped: the commands in GDB need gdb-multiarch and fail_debug"
fi

if [ -n "$window" ]; then
    ln -s "$window" "$folder/bin/fail_window" || exit 2
else
    no_window=yes
    echo "skipped: the commands on parts of a run need fail_window"
fi

. "$top/tests/tools/console.sh"

# unable: whether the command that was read needs what is not there.
unable() {
    [ -n "${missing:-}" ] && [[ $command == make* || $command == *out/* || $command == riscv64-* || $command == *--build* ]] && return
    [ -n "${no_window:-}" ] && [[ $command == fail_window* ]] && return
    [ -n "${no_library:-}" ] && [[ $command == *print.elf* ]] && return
    [ -n "${no_database:-}" ] && [[ $command == fail_export* || $command == *sqlite3* ]] && return
    [ -n "${no_replay:-}" ] && [[ $command == fail_replay* || $command == *--open* || $command == *--classes* || $command == */replay.py* ]] && return
    [ -n "${no_debug:-}" ] && [[ $command == gdb-multiarch* ]] && return
    [ -n "${no_python:-}" ] && [[ $command == *python3* || $command == *.svg || $command == *all.db* ]]
}

# copies PAGE: a fresh copy of what a page's commands need, without what a reader left who followed it in place.
copies() {
    mkdir "$folder/$1" && cp -r "$top/examples" "$top/tools" "$folder/$1" || exit 2
    rm -rf "$folder/$1"/examples/{out,sweep} "$folder/$1"/examples/*.{keep,answers,csv,svg,txt,db,html}
    cd "$folder/$1" || exit 2
}

for page in "${pages[@]}"; do
    [ -f "$top/docs/$page.md" ] || continue
    # The package has no crates.
    compare "folders of the build that $page names" '' "$(grep -n 'crates/[a-z_]*/out' "$top/docs/$page.md")"
    copies "$page"
    run_page "$top/docs/$page.md"
    [ "$page" != GUIDE ] || [ -n "${no_python:-}" ] || {
        compare "docs/maps.svg, the maps side by side" same "$(cmp "$top/docs/maps.svg" maps.svg 2>&1 && echo same)"
        compare "docs/limits.svg, the guide's counts by limit" same "$(python3 -B "$top/docs/limit_plot.py" | cmp - "$top/docs/limits.svg" 2>&1 && echo same)"
    }
done
finish

#!/usr/bin/env bash
# Does what a user does who has only the package: README's first section, the guide, and fail_star-check. released.sh
# calls it in a root of its own, or with ROOT, the folder in which the package is installed.
# usage: user.sh VERSION
set -u
cd "$(dirname "$0")" || exit 2
home=$PWD
. ./console.sh
documents=${ROOT:-}/usr/share/doc/fail-star
command -v sqlite3 >/dev/null || { no_database=yes; echo "skipped: the commands on a database need sqlite3"; }
command -v python3 >/dev/null || { no_python=yes; echo "skipped: the tools need python3"; }
unable() {
    [ -n "${no_database:-}" ] && [[ $command == sqlite3* ]] && return
    [ -n "${no_python:-}" ] && [[ $command == fail_star-* || $command == *.svg ]]
}

if [ -z "${ROOT:-}" ]; then
    compare 'no kit is here' '' \
        "$(command -v rt; for path in /opt/rattle /work; do [ ! -e $path ] || echo $path; done)"
fi
# section PAGE FROM TO: these sections of a page, by their numbers.
section() {
    local number=0 line
    while IFS= read -r line; do
        [[ $line != '## '* ]] || number=$((number + 1))
        [ $number -lt "$2" ] || [ $number -gt "$3" ] || printf '%s\n' "$line"
    done <"$1"
}

# README's first section is for a clone; this folder has its dist and examples.
section "$documents/README.md" 1 1 >quick.md
run_page quick.md

# The guide, with the commands of the package instead of the scripts in tools/.
cd "$home" && mkdir guide && cp -rL "${ROOT:-}/usr/share/fail_star/examples" guide && cd guide || exit 2
sed 's|python3 \.\./tools/\([a-z_]*\)\.py|fail_star-\1|g' "$documents/docs/GUIDE.md" >guide.md
run_page guide.md
[ "$(basename "$PWD")" = examples ] || cd examples || exit 2
if [ -z "${no_python:-}" ]; then
    tables=(twice=built/checksum_twice.elf,twice.keep vote.keep)
    fail_star-check checksum.budget "${tables[@]}" --receipt receipt.json >check.txt 2>&1
    compare 'fail_star-check' 'status 0, instructions <= 2000            twice   1136    holds' \
        "status $?, $(sed -n 2p check.txt)"
    compare 'its receipt' "  \"version\": \"$1\"," "$(grep -m 1 '"version"' receipt.json)"
    compare 'the version' "version $1" "$(fail_star-version | head -n 1)"
    compare 'the programs are those of the release' "$(grep '^fail_' "$documents/RELEASE")" \
        "$(fail_star-version | grep '^fail_')"
fi
finish

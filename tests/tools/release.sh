#!/usr/bin/env bash
# Tests the release: one version everywhere; what `make dist` makes of the given programs, with the same bytes twice,
# its licences, and what lintian says of its Debian package; and by released.sh dist/ and what `make dist` made.
# usage: release.sh [PROGRAM [EXPORT [REPLAY [DEBUG [WINDOW [ANSWERS]]]]]]
set -u
. "$(dirname "$0")/../checks.sh"
program=${1:+$(realpath "$1")} export=${2:+$(realpath "$2")} replay=${3:+$(realpath "$3")} debug=${4:+$(realpath "$4")} window=${5:+$(realpath "$5")}
answers=${6:+$(realpath "$6")}
folder=$(mktemp -d) || exit 2
trap 'rm -rf "$folder"' EXIT
cd "$top" || exit 2
ends() {
    echo "$passed passed, $failed failed"
    [ "$failed" -eq 0 ]
    exit
}

# --- One version ----------------------------------------------------------------------------------

version=$(cat VERSION)
# constant NAME: a text of release.py.
constant() { sed -n "s/^$1 = \"\(.*\)\".*/\1/p" "$top/tools/fail_star_tools/release.py"; }
same 'the version of the tools' "$version" "$(constant VERSION)"
same 'the newest version of the changelog' "$version" \
    "$(sed -n 's/^## \[\([0-9.]*\)\].*/\1/p' CHANGELOG.md | head -n 1)"
# cited KEY: a value of CITATION.cff.
cited() { sed -n "s/^ *$1: //p" CITATION.cff | head -n 1; }
same 'the version that is cited' "$version" "$(cited version)"
same 'the day that is cited' "$(sed -n "s/^## \[$version\] - //p" CHANGELOG.md)" "$(cited date-released)"
same 'the logic that is cited' "$(constant LOGIC)" "$(cited value)"
for page in man/*; do same "the version of $page" "fail_star $version" "$(sed -n 's/^\.Os //p' "$page")"; done
same 'the sum of the logic in README.md' "$(constant LOGIC)" "$(grep -m 1 -oE '`[0-9a-f]{16}`' README.md | tr -d '`')"
if command -v rt >/dev/null; then
    same 'the sum of the logic of the kit' "$(constant LOGIC)" "$(rt version | sed -n 's/.* logic //p')"
fi
if command -v python3 >/dev/null && [ -n "$program" ]; then
    sum_of() { sha256sum "$1" | cut -d ' ' -f 1; }
    # `gives` writes two files, and this script may run twice at the same time: so not in the tree.
    cd "$folder" || exit 2
    gives 'fail_star-version' 0 "version $version
logic $(constant LOGIC)
fail_star $(sum_of "$program")" '' bash -c "python3 -B '$top/tools/version.py' --program '$program' 2>&1 | head -n 3"
    gives 'fail_star-version of no file' 1 '' 'version.py: none/fail_star: No such file or directory' \
        python3 -B "$top/tools/version.py" --program none/fail_star
    cd "$top" || exit 2
fi

# --- One licence ----------------------------------------------------------------------------------

licence='MIT OR Apache-2.0'
same 'the licence in pyproject.toml' "$licence" "$(sed -n 's/^license = { text = "\(.*\)" }.*/\1/p' pyproject.toml)"
same 'the licences that are cited' 'MIT Apache-2.0' "$(sed -n '/^license:/,/^k/s/^  - //p' CITATION.cff | tr '\n' ' ' | sed 's/ $//')"
for name in MIT APACHE; do
    check "README.md names LICENSE-$name" "$([ -s "LICENSE-$name" ] && grep -q "(LICENSE-$name)" README.md && echo yes)"
done
for page in man/*; do check "the licence in $page" "$(grep -q 'MIT or Apache-2.0' "$page" && echo yes)"; done
if [ -f /usr/share/common-licenses/Apache-2.0 ]; then
    same 'the text of Apache-2.0' '' "$(diff LICENSE-APACHE /usr/share/common-licenses/Apache-2.0)"
fi

# --- make dist ------------------------------------------------------------------------------------

for tool in dpkg-deb dpkg git gzip make objdump python3 tar xz; do
    command -v "$tool" >/dev/null || { echo "skipped: a release needs $tool"; ends; }
done
# makes FOLDER: a release of the given programs, from the current folder.
makes() {
    COMMIT=0123456789 SOURCE_DATE_EPOCH=1700000000 make -s dist DIST="$1" \
        PROGRAM="$program" EXPORT="$export" REPLAY="$replay" DEBUG="$debug" WINDOW="$window" ANSWERS="$answers" >"$folder/out.txt" 2>&1
    same "make dist, $1" 'status 0' "status $?$(grep '^dist:' "$folder/out.txt")"
}
makes_none() { make -s dist DIST="$folder/none" PROGRAM="$program" EXPORT="$export" REPLAY="$replay" DEBUG="$debug" WINDOW="$window" ANSWERS="$answers"; }
# third_party FILE: crates of the kit that crates.txt names and FILE does not, and their licence files that FILE lacks.
third_party() {
    python3 - "$1" "$(dirname "$(dirname "$(realpath "$(command -v rt)")")")" <<'END'
import pathlib, re, sys
said, kit = pathlib.Path(sys.argv[1]).read_text(), pathlib.Path(sys.argv[2])
parts = [line.split(":") for line in open("crates.txt") if ":" in line and not line.startswith(("#", "test_"))]
own = {head.split()[0] for head, _ in parts}
for crate in sorted({name for _, below in parts for name in below.split()} - own | {"std"}):
    if not re.search(f"^(  {crate}|{crate} \\(.*)$", said, re.M):
        print(crate)
    for file in (kit / "rattle" / crate).glob("LICEN*"):
        if file.read_text().strip() not in said:
            print(file)
END
}
# licensed: looks for the licences, and for what Debian wants, in the release of the folder first.
licensed() {
    local at=$folder/deb/usr/share/doc/fail-star
    dpkg-deb -x "$folder"/first/*.deb "$folder/deb" && tar -xf "$folder"/first/*.tar.xz -C "$folder" || exit 2
    same 'the licence in RELEASE' "$licence" "$(sed -n 's/^license //p' "$folder/first/RELEASE")"
    check 'the licences in the Debian package' "$(grep -q '^License: Expat or Apache-2.0$' "$at/copyright" && echo yes)"
    for name in LICENSE-MIT LICENSE-APACHE; do
        check "$name in the tarball" "$(cmp "$name" "$folder/fail_star-$version/share/doc/fail-star/$name" 2>&1 && echo yes)"
    done
    same 'crates of the kit in THIRD-PARTY' '' "$(third_party "$at/THIRD-PARTY")"
    same 'manual pages that are not compressed' '' "$(find "$folder/deb/usr/share/man" -type f ! -name '*.gz')"
    same 'files for another processor in share' '' "$(find "$folder/deb/usr/share" -name '*.elf')"
    check 'the package depends on python3' "$(dpkg-deb -f "$folder"/first/*.deb Depends | grep -q 'python3 (' && echo yes)"
    if command -v lintian >/dev/null; then
        lintian --allow-root --fail-on error,warning "$folder"/first/*.deb >"$folder/out.txt" 2>&1
        same 'lintian' 'status 0, ' "status $?, $(cat "$folder/out.txt")"
    else
        echo "skipped: the Debian package is checked by lintian"
    fi
    same 'overrides without a reason' '' "$(awk '/^[^#]/ && !reason { print } { reason = /^#/ }' release/debian/lintian-overrides)"
    rm -rf "$folder/deb" "$folder/fail_star-$version"
}
if ! command -v rt >/dev/null; then
    echo "skipped: make dist needs the kit"
elif [ -n "$program" ] && [ -n "$export" ] && [ -n "$replay" ] && [ -n "$debug" ] && [ -n "$window" ] && [ -n "$answers" ] && git rev-parse HEAD >"$folder/out.txt" 2>&1; then
    makes "$folder/first"
    licensed
    # Another folder, with other times and permissions of its files.
    git clone -q . "$folder/clone" && git diff HEAD --binary >"$folder/changes" || exit 2
    [ ! -s "$folder/changes" ] || git -C "$folder/clone" apply --index "$folder/changes" || exit 2
    cd "$folder/clone" && chmod -R go-rwx . && find . -path ./.git -prune -o -exec touch -h -d 2001-01-01 {} + || exit 2
    mask=$(umask) && umask 077
    makes "$folder/second"
    umask "$mask" && cd "$top" || exit 2
    same 'the same bytes twice' "$(cat "$folder/first/SHA256SUMS")" "$(cat "$folder/second/SHA256SUMS")"
    same 'what a package without a program says' \
        'dist: none: there is no such program; (cd crates/fail_export && rt run) proves and builds it' \
        "$(make -s dist DIST="$folder/none" PROGRAM="$program" EXPORT=none REPLAY="$replay" DEBUG="$debug" WINDOW="$window" ANSWERS="$answers" 2>&1 | grep '^dist:')"
    check 'nothing is made without a program' "$([ ! -e "$folder/none" ] && echo yes)"
    if ! PATH=/usr/bin:/bin command -v rt >/dev/null; then
        same 'what it says without the kit' \
            'dist: needs rt of the Rattle kit that README.md names: the kit has the licences of its crates' \
            "$(PATH=/usr/bin:/bin makes_none 2>&1 | grep '^dist:')"
    fi
    rm -rf "$folder/clone" "$folder/second"
else
    echo "skipped: make dist needs the six programs and git"
fi

# --- dist/ ----------------------------------------------------------------------------------------

# released FOLDER: tries the release that a folder has.
released() { bash "$tests/released.sh" "$1" "$program" "$export" "$replay" "$debug" "$window" "$answers" >"$folder/log.txt" 2>&1; }
# tried FOLDER: the same, with its counts added to these.
tried() {
    released "$1"
    grep -v ' passed, ' "$folder/log.txt"
    counts=$(tail -n 1 "$folder/log.txt")
    if [[ $counts =~ ^([0-9]+)\ passed,\ ([0-9]+)\ failed$ ]]; then
        passed=$((passed + BASH_REMATCH[1])) failed=$((failed + BASH_REMATCH[2]))
    else
        check "the release in $1" "$counts"
    fi
}
if ls dist/*.deb >"$folder/out.txt" 2>&1; then tried dist; else echo "skipped: dist/ has no package"; fi
[ ! -d "$folder/first" ] || tried "$folder/first"
ends

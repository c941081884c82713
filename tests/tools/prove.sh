#!/usr/bin/env bash
# What `make` does without words (release/prove.py), on a tree of nine crates and with a script in the place of the kit's rt: the order
# in which it asks for crates, what it prints, and how it ends if a crate is not proved, a program is not built, or there is no rt.
# usage: prove.sh
set -u
. "$(dirname "$0")/../checks.sh"
for tool in make python3 taskset; do command -v $tool >/dev/null || { echo "skipped: the order of proofs needs $tool"; exit 0; }; done
folder=$(mktemp -d) || exit 2
trap 'rm -rf "$folder"' EXIT
mkdir -p "$folder/bin" "$folder/tree/release" && cp "$top/release/prove.py" "$folder/tree/release" && cp "$top/Makefile" "$folder/tree" || exit 2
cd "$folder/tree" || exit 2
programs=(fail_star fail_export fail_replay fail_debug fail_window fail_answers)
for crate in low middle store unused "${programs[@]}"; do mkdir -p "crates/$crate/src" || exit 2; done
for crate in "${programs[@]}"; do echo '//! A program.' >"crates/$crate/src/main.rt"; done
for crate in low middle unused; do echo '//! A library.' >"crates/$crate/src/lib.rt"; done
# The chain of crates through this one is the longest.
printf '//! A long library.\n\n\n' >crates/store/src/lib.rt
cat >crates.txt <<'TXT'
# programs first: the order of lines says nothing
fail_star: middle low std_of_the_kit
fail_export: store middle

middle: low
low:
store: low sqlite
unused: low
fail_replay: middle
fail_debug: middle
fail_window: middle
fail_answers: middle
TXT

# Stands for rt: notes when it begins and ends with a crate, and leaves a program, which ends with a status. A crate named in
# $BROKEN fails.
cat >"$folder/bin/rt" <<'RT'
#!/usr/bin/env bash
crate=${PWD##*/}
echo "$1 in $crate" >>"$FOLDER/asked.txt"
[ "$crate" != "${BROKEN:-}" ] || { echo "an open goal"; exit 1; }
echo "done $crate" >>"$FOLDER/asked.txt"
[ "$1" = lib ] || { mkdir -p out && printf '#!/bin/sh\n' >"out/$crate" && chmod 755 "out/$crate" && exit 3; }
RT
chmod 755 "$folder/bin/rt"
export FOLDER=$folder

# made: what make prints, without the times, and its status. On one processor it works in one copy of the tree.
made() {
    : >"$folder/asked.txt"
    rm -rf crates/*/out
    PATH=$folder/bin:$PATH taskset -c "$(taskset -cp $$ | grep -oE '[0-9]+' | tail -n 1)" make -s 2>&1 | sed -E 's/^ *[0-9]+:[0-9]{2}  /  /'
    echo "status ${PIPESTATUS[0]}"
}

said=$(made)
same 'make, how far it is' '1 of 9;2 of 9;3 of 9;4 of 9;5 of 9;6 of 9;7 of 9;8 of 9;9 of 9;' "$(grep -o '[0-9] of 9' <<<"$said" | tr '\n' ';')"
same 'make, each crate once' 'fail_answers;fail_debug;fail_export;fail_replay;fail_star;fail_window;low;middle;store;' "$(sed -n 's/.* of 9  //p' <<<"$said" | sort | tr '\n' ';')"
same 'make, the programs' 'crates/fail_answers/out/fail_answers;crates/fail_debug/out/fail_debug;crates/fail_export/out/fail_export;crates/fail_replay/out/fail_replay;crates/fail_star/out/fail_star;crates/fail_window/out/fail_window;' \
    "$(grep -o 'crates/.*/out/.*' <<<"$said" | sort | tr '\n' ';')"
same 'make, its status' 'status 0' "$(tail -n 1 <<<"$said")"
# before FIRST SECOND: whether what is asked for as FIRST came before SECOND.
before() { awk -v first="$1" -v second="$2" '$0 == first { is = 1 } $0 == second { exit } END { exit !is }' "$folder/asked.txt" && echo before; }
for pair in 'low middle' 'low store' 'middle fail_star' 'store fail_export' 'middle fail_export' 'middle fail_replay' 'middle fail_debug' 'middle fail_window' 'middle fail_answers'; do
    upper=${pair#* }
    verb=lib
    [ "${upper#fail_}" = "$upper" ] || verb=run
    same "make, $pair" before "$(before "done ${pair% *}" "$verb in $upper")"
done
same 'make asks for no other crate' '' "$(grep unused "$folder/asked.txt")"

for crate in middle store fail_debug; do
    said=$(BROKEN=$crate made)
    same "make where $crate is not proved" "an open goal, make: $crate was not proved, status 2" \
        "$(grep -om1 'an open goal' <<<"$said"), $(grep -om1 "make: $crate was not proved" <<<"$said"), $(tail -n 1 <<<"$said")"
done
same 'make without rt' 'make: proving needs rt, the command of the Rattle kit that README.md names' \
    "$(python=$(python3 -c 'import sys; print(sys.executable)') && mkdir -p "$folder/few" && PATH=$folder/few "$python" release/prove.py 2>&1)"
same 'make help' 'Proves and builds the programs, installs them with tools, manual pages and completions, or packs them.' "$(make -s help | head -n 1)"
echo "$passed passed, $failed failed"
[ "$failed" -eq 0 ]

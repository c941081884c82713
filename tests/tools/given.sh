#!/usr/bin/env bash
# That a script's calls see only the programs that it was given: each script of these folders sources only_given.sh,
# and explain.sh, which is told of no program, finds none, though some are on the path.
# usage: given.sh
set -u
. "$(dirname "$0")/../checks.sh"
folder=$(mktemp -d) || exit 2
trap 'rm -rf "$folder"' EXIT
cd "$folder" || exit 2

# Those that are sourced or called by others, the reader of a page, and the two that run no program.
others='console.sh crates.sh hand_made.sh stopped.sh user.sh'
for file in "$top"/tests/*/*.sh; do
    [[ " $others " != *" $(basename "$file") "* ]] || continue
    check "$file sees only what it is given" "$(grep -qE '^\. .*/(checks|only_given|hand_made)\.sh"' "$file" && echo yes)"
done

# Programs that are installed beside all that a script needs.
mkdir installed
for folder_of_path in /usr/bin /bin; do find "$folder_of_path/" -maxdepth 1 -exec ln -sf -t installed {} + 2>/dev/null; done
for name in fail_star fail_star-check fail_export fail_replay fail_debug fail_window fail_answers; do
    rm -f "installed/$name"
    printf '#!/bin/sh\necho "%s $*" >>"%s/called"\nexit 99\n' $name "$folder" >installed/$name && chmod 755 installed/$name || exit 2
done
cat >probe.sh <<'E2'
. "$top/tests/only_given.sh"
for name in fail_star fail_star-check fail_export fail_replay fail_debug fail_window fail_answers ls; do command -v $name >/dev/null && echo "$name"; done
echo "$*"
exit 7
E2
got=$(top=$top PATH=$folder/installed bash probe.sh one 'two words' 2>&1)
same 'what a script sees' $'status 7, ls\none two words' "status $?, $got"
PATH=$folder/installed bash "$top/tests/tools/explain.sh" >log.txt 2>&1
same 'explain.sh beside an installed package' 'status 0' "status $?$(grep -A 1 '^failed' log.txt)"
same 'calls of the installed programs' '' "$(cat called 2>/dev/null)"

echo "$passed passed, $failed failed"
[ "$failed" -eq 0 ]

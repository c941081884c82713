#!/usr/bin/env bash
# What `make install` lays down: the programs, the tools as commands, manual pages that mandoc and groff find sound and that have all
# options of the tools, and completions in the shells that are there.
# usage: install.sh [PROGRAM [EXPORT [REPLAY [DEBUG [WINDOW [ANSWERS]]]]]]
set -u
. "$(dirname "$0")/../checks.sh"
folder=$(mktemp -d) || exit 2
trap 'rm -rf "$folder"' EXIT
# Nothing here needs the real programs.
printf '#!/bin/sh\nexit 1\n' >"$folder/program" && chmod +x "$folder/program" || exit 2
for name in export replay debug window answers; do cp "$folder/program" "$folder/$name" || exit 2; done
program=$(realpath "${1:-$folder/program}") && export=$(realpath "${2:-$folder/export}") && replay=$(realpath "${3:-$folder/replay}") || exit 2
debug=$(realpath "${4:-$folder/debug}") && window=$(realpath "${5:-$folder/window}") && answers=$(realpath "${6:-$folder/answers}") || exit 2
cd "$top" || exit 2
command -v make >/dev/null || { echo "skipped: install needs make"; exit 0; }

# The copy of a user, whose name has a space, and a package's folder.
place="$folder/a place"
make -s install PROGRAM="$program" EXPORT="$export" REPLAY="$replay" DEBUG="$debug" WINDOW="$window" ANSWERS="$answers" DESTDIR="$place" PREFIX=/usr >"$folder/out.txt" 2>&1
same 'make install' 'status 0, ' "status $?, $(cat "$folder/out.txt")"
wanted='bin/fail_answers
bin/fail_debug
bin/fail_export
bin/fail_replay
bin/fail_star
bin/fail_star-again
bin/fail_star-check
bin/fail_star-compare
bin/fail_star-estimate
bin/fail_star-explain
bin/fail_star-fault_map
bin/fail_star-keep_info
bin/fail_star-plan
bin/fail_star-replay
bin/fail_star-report
bin/fail_star-sample_places
bin/fail_star-sql
bin/fail_star-sweep
bin/fail_star-version
bin/fail_star-watch
bin/fail_star-where
bin/fail_window
lib/fail_star/again.py
lib/fail_star/check.py
lib/fail_star/compare.py
lib/fail_star/estimate.py
lib/fail_star/explain.py
lib/fail_star/fault_map.py
lib/fail_star/keep_info.py
lib/fail_star/plan.py
lib/fail_star/replay.py
lib/fail_star/report.py
lib/fail_star/sample_places.py
lib/fail_star/sql.py
lib/fail_star/sweep.py
lib/fail_star/version.py
lib/fail_star/watch.py
lib/fail_star/where.py
share/bash-completion/completions/fail_answers
share/bash-completion/completions/fail_debug
share/bash-completion/completions/fail_export
share/bash-completion/completions/fail_replay
share/bash-completion/completions/fail_star
share/bash-completion/completions/fail_star-again
share/bash-completion/completions/fail_star-check
share/bash-completion/completions/fail_star-compare
share/bash-completion/completions/fail_star-estimate
share/bash-completion/completions/fail_star-explain
share/bash-completion/completions/fail_star-fault_map
share/bash-completion/completions/fail_star-keep_info
share/bash-completion/completions/fail_star-plan
share/bash-completion/completions/fail_star-replay
share/bash-completion/completions/fail_star-report
share/bash-completion/completions/fail_star-sample_places
share/bash-completion/completions/fail_star-sql
share/bash-completion/completions/fail_star-sweep
share/bash-completion/completions/fail_star-tools
share/bash-completion/completions/fail_star-version
share/bash-completion/completions/fail_star-watch
share/bash-completion/completions/fail_star-where
share/bash-completion/completions/fail_window
share/fish/vendor_completions.d/fail_answers.fish
share/fish/vendor_completions.d/fail_debug.fish
share/fish/vendor_completions.d/fail_export.fish
share/fish/vendor_completions.d/fail_replay.fish
share/fish/vendor_completions.d/fail_star-again.fish
share/fish/vendor_completions.d/fail_star-check.fish
share/fish/vendor_completions.d/fail_star-compare.fish
share/fish/vendor_completions.d/fail_star-estimate.fish
share/fish/vendor_completions.d/fail_star-explain.fish
share/fish/vendor_completions.d/fail_star-fault_map.fish
share/fish/vendor_completions.d/fail_star-keep_info.fish
share/fish/vendor_completions.d/fail_star-plan.fish
share/fish/vendor_completions.d/fail_star-replay.fish
share/fish/vendor_completions.d/fail_star-report.fish
share/fish/vendor_completions.d/fail_star-sample_places.fish
share/fish/vendor_completions.d/fail_star-sql.fish
share/fish/vendor_completions.d/fail_star-sweep.fish
share/fish/vendor_completions.d/fail_star-tools.fish
share/fish/vendor_completions.d/fail_star-version.fish
share/fish/vendor_completions.d/fail_star-watch.fish
share/fish/vendor_completions.d/fail_star-where.fish
share/fish/vendor_completions.d/fail_star.fish
share/fish/vendor_completions.d/fail_window.fish
share/man/man1/fail_answers.1
share/man/man1/fail_debug.1
share/man/man1/fail_export.1
share/man/man1/fail_replay.1
share/man/man1/fail_star-again.1
share/man/man1/fail_star-check.1
share/man/man1/fail_star-compare.1
share/man/man1/fail_star-estimate.1
share/man/man1/fail_star-explain.1
share/man/man1/fail_star-fault_map.1
share/man/man1/fail_star-keep_info.1
share/man/man1/fail_star-plan.1
share/man/man1/fail_star-replay.1
share/man/man1/fail_star-report.1
share/man/man1/fail_star-sample_places.1
share/man/man1/fail_star-sql.1
share/man/man1/fail_star-sweep.1
share/man/man1/fail_star-tools.1
share/man/man1/fail_star-version.1
share/man/man1/fail_star-watch.1
share/man/man1/fail_star-where.1
share/man/man1/fail_star.1
share/man/man1/fail_window.1
share/man/man5/fail_star-campaign.5
share/man/man5/fail_star-classes.5
share/zsh/site-functions/_fail_answers
share/zsh/site-functions/_fail_debug
share/zsh/site-functions/_fail_export
share/zsh/site-functions/_fail_replay
share/zsh/site-functions/_fail_star
share/zsh/site-functions/_fail_star-tools
share/zsh/site-functions/_fail_window'
same 'the files that are installed' "$wanted" \
    "$(cd "$place/usr" && find . ! -type d ! -path '*/fail_star_tools/*' | sed 's/^..//' | LC_ALL=C sort)"
modules() { (cd "$1" && find . -name '*.py' | LC_ALL=C sort); }
same 'each tool and module is there' "$(modules tools)" "$(modules "$place/usr/lib/fail_star")"
for pair in "fail_star $program" "fail_export $export" "fail_replay $replay" "fail_debug $debug" "fail_window $window" "fail_answers $answers"; do
    name=${pair%% *}
    check "$name is the one that was said" "$(cmp -s "${pair#* }" "$place/usr/bin/$name" && echo yes)"
    check "$name can be run" "$([ -x "$place/usr/bin/$name" ] && echo yes)"
done
if command -v python3 >/dev/null; then
    for tool in again check compare estimate explain fault_map keep_info plan replay report sample_places sql sweep version watch where; do
        # From any folder, by the command's name, with the modules beside it.
        got=$(cd / && PYTHONDONTWRITEBYTECODE=1 PATH="$place/usr/bin:$PATH" "fail_star-$tool" --help 2>&1 | head -n 1)
        check "fail_star-$tool says how it is used" "$([[ $got == usage:* ]] && echo yes)"
    done
    got=$(PYTHONDONTWRITEBYTECODE=1 "$place/usr/bin/fail_star-keep_info" crates/fail_star/data/row1.keep | sed -n 6p)
    same 'fail_star-keep_info of the stored file' 'jobs 32' "$got"
else
    echo "skipped: the installed tools need python3"
fi

# A second time over the first, then all of it away, and nothing else.
touch "$place/usr/bin/other"
make -s install PROGRAM="$program" EXPORT="$export" REPLAY="$replay" DEBUG="$debug" WINDOW="$window" ANSWERS="$answers" DESTDIR="$place" PREFIX=/usr >"$folder/out.txt" 2>&1
same 'make install again' 'status 0, ' "status $?, $(cat "$folder/out.txt")"
make -s uninstall DESTDIR="$place" PREFIX=/usr >"$folder/out.txt" 2>&1
same 'make uninstall' 'status 0, ' "status $?, $(cat "$folder/out.txt")"
same 'what is left' './bin/other' "$(cd "$place/usr" && find . ! -type d)"

# Where a program beside it was not built the rest is installed, and a line says so.
without() {
    make -s install PROGRAM="$program" EXPORT="$export" REPLAY="$replay" DEBUG="$debug" WINDOW="$window" ANSWERS="$answers" "$2=none" DESTDIR="$folder/some" >"$folder/out.txt" 2>&1
    same "make install without $1" "status 0, Without $1: (" "status $?, $(head -c $((11 + ${#1})) "$folder/out.txt")"
    same "$1, the lines" 1 "$(wc -l <"$folder/out.txt")"
    same "what is installed of $1" '' "$(find "$folder/some" -name "*$1*")"
    rm -rf "$folder/some"
}
without fail_export EXPORT
without fail_replay REPLAY
without fail_debug DEBUG
without fail_window WINDOW
without fail_answers ANSWERS

# Without a program nothing is built or installed, and the line says how to make one.
cp -r Makefile tools man completions "$folder" && cd "$folder" || exit 2
make -s install DESTDIR="$folder/none" >out.txt 2>&1
same 'make install without a program' 2 $?
check 'it says how to make it' "$(grep -q 'make proves and builds it' out.txt && echo yes)"
check 'nothing is installed' "$([ ! -e none ] && echo yes)"
same 'make help says what there is' 0 "$(make -s help >out.txt 2>&1; echo $?)"
check 'it names install' "$(grep -q 'make install' out.txt && echo yes)"
cd "$top" || exit 2

# The manual pages.
if command -v mandoc >/dev/null; then
    for page in man/*; do
        # Whether the other page is installed on this machine says nothing of this one, and .Os has the version.
        same "mandoc -Tlint $page" '' "$(mandoc -Tlint "$page" 2>&1 | grep -v 'referenced manual not found\|operating system explicitly')"
    done
    # Bold and underlined letters come with a backspace.
    shown=$(mandoc -Tascii man/fail_star.1 | sed 's/.\x08//g')
    for word in run report audit brute plan trace sample symbols demo --rom --ram --limit --pc --ram-code --workers --page --stop-after --fresh --format --count --live --seed --blocks; do
        check "the manual page has $word" "$(grep -q -e "$word" <<<"$shown" && echo yes)"
    done
    shown=$(mandoc -Tascii man/fail_export.1 | sed 's/.\x08//g')
    for word in IMAGE KEEP DB jobs weight outcome --rom --ram --limit --pc --ram-code; do
        check "the manual page of fail_export has $word" "$(grep -q -e "$word" <<<"$shown" && echo yes)"
    done
    shown=$(mandoc -Tascii man/fail_replay.1 | sed 's/.\x08//g')
    for word in --whole --brief IMAGE CYCLE CELL BIT --rom --ram --limit --pc --ram-code site differs output end outcome 13; do
        check "the manual page of fail_replay has $word" "$(grep -q -e "$word" <<<"$shown" && echo yes)"
    done
    shown=$(mandoc -Tascii man/fail_debug.1 | sed 's/.\x08//g')
    for word in IMAGE CYCLE CELL BIT --rom --ram --limit --pc --ram-code site golden injected diff first output goto 13 14; do
        check "the manual page of fail_debug has $word" "$(grep -q -e "$word" <<<"$shown" && echo yes)"
    done
    shown=$(mandoc -Tascii man/fail_window.1 | sed 's/.\x08//g')
    for word in IMAGE KEEP --cycles --code --function --rom --ram --limit --pc --ram-code --workers --page --stop-after --format instructions window sites 10; do
        check "the manual page of fail_window has $word" "$(grep -q -e "$word" <<<"$shown" && echo yes)"
    done
    shown=$(mandoc -Tascii man/fail_answers.1 | sed 's/.\x08//g')
    for word in IMAGE KEEP --outcome --workers --rom --ram --limit --pc --ram-code silent halted detected trapped limit; do
        check "the manual page of fail_answers has $word" "$(grep -q -e "$word" <<<"$shown" && echo yes)"
    done
else
    echo "skipped: the manual pages are checked by mandoc"
fi
if command -v groff >/dev/null; then
    for page in man/*; do same "groff $page" '' "$(groff -mandoc -Tascii -ww -z "$page" 2>&1)"; done
else
    echo "skipped: the manual pages are formatted by groff"
fi

# Each tool has a page with the options that it has, each in the synopsis too.
for file in tools/*.py; do
    tool=$(basename "$file" .py) page=man/fail_star-$(basename "$file" .py).1
    same "the name of $page" "fail_star-$tool" "$(sed -n 's/^\.Nm \(.*\)/\1/p' "$page" | head -n 1)"
    for line in ".Nm fail_star-$tool" ".It Nm fail_star-$tool" ".Xr fail_star-$tool 1 ,"; do
        check "fail_star-tools.1 has the line $line" "$(grep -qxF -e "$line" man/fail_star-tools.1 && echo yes)"
    done
    command -v python3 >/dev/null || continue
    python3 -B "$file" --help >"$folder/help.txt" 2>&1
    case $tool in
    # These two read their words without a parser, and name their options in sentences.
    again | explain) found=$(printf '%s\n' -h --help; grep -v '^    ' "$folder/help.txt" | grep -oE -e '--[a-z]+') ;;
    *) found=$(sed -n 's/^  \(-[^ ].*\)/\1/p' "$folder/help.txt" | sed 's/   *.*//' | grep -oE -e '(^|[ ,])--?[a-z][a-z0-9-]*' | tr -d ' ,') ;;
    esac
    listed=$(sed -n '/^\.Sh OPTIONS/,/^\.Sh E/s/^\.It //p' "$page" | grep -oE 'Fl -?[a-z][a-z0-9-]*' | sed 's/Fl /-/')
    same "the options of $page" "$(sort <<<"$found")" "$(sort <<<"$listed")"
    # The synopsis has the first name of each but --help and --version.
    firsts=$(sed -n '/^\.Sh OPTIONS/,/^\.Sh E/s/^\.It Fl \([^ ]*\).*/-\1/p' "$page" | grep -vx -e -h -e --version)
    synopsis=$(sed -n '/^\.Sh SYNOPSIS/,/^\.Sh DESC/p' "$page" | grep -oE 'Fl -?[a-z][a-z0-9-]*' | sed 's/Fl /-/')
    same "the synopsis of $page" "$(sort <<<"$firsts")" "$(sort <<<"$synopsis")"
done

# completes SHELL FILE COMMAND: each line of the table, typed with tabs where it has an @, becomes the words behind the arrow.
completes() {
    local typed words
    typed=$(sed 's/ *->.*//' <<<"$table")
    words=$(sed 's/.*-> *//' <<<"$table")
    same "completions of $3 in $1" "$words" "$(timeout 120 python3 -B "$tests/completes.py" "$1" "completions/$2" "$3" <<<"$typed" 2>&1)"
}
table='ru@ -> run
rep@ -> report
au@ -> audit
bru@ -> brute
pl@ -> plan
tr@ -> trace
sa@ -> sample
sy@ -> symbols
de@ -> demo
run im@ ke@ --st@ 5 --fr@ -> run image.elf kept.keep --stop-after 5 --fresh
run image.elf kept.keep --wo@ 2 --pa@ 7 --li@ 9 --for@ j@ -> run image.elf kept.keep --workers 2 --page 7 --limit 9 --format json
report image.elf kept.keep --format c@ -> report image.elf kept.keep --format csv
report image.elf kept.keep --ro@ 1:4 --ra@ 8:4 -> report image.elf kept.keep --rom 1:4 --ram 8:4
run image.elf kept.keep --pc@ --ram-c@ --fr@ -> run image.elf kept.keep --pc --ram-code --fresh
audit image.elf kept.keep --li@ 5 --ra@ 8:4 -> audit image.elf kept.keep --limit 5 --ram 8:4
symbols im@ ke@ --ra@ 8:4 --pc@ -> symbols image.elf kept.keep --ram 8:4 --pc
brute im@ --format j@ -> brute image.elf --format json
plan im@ --format c@ -> plan image.elf --format csv
plan image.elf --format j@ -> plan image.elf --format j
trace im@ --ram-c@ --li@ 5 -> trace image.elf --ram-code --limit 5
sample im@ --co@ 5 --liv@ --se@ 1 -> sample image.elf --count 5 --live --seed 1
demo --se@ 1 --bl@ 3 -> demo --seed 1 --blocks 3'
of_export='im@ ke@ jobs.db --li@ 5 --pc@ -> image.elf kept.keep jobs.db --limit 5 --pc
image.elf kept.keep jobs.db --ro@ 1:4 --ram 8:4 --ram-c@ -> image.elf kept.keep jobs.db --rom 1:4 --ram 8:4 --ram-code'
of_replay='im@ 1 2 3 --li@ 5 --pc@ -> image.elf 1 2 3 --limit 5 --pc
--wh@ im@ 1 2 3 4 5 6 --ro@ 1:4 --ram 8:4 --ram-c@ -> --whole image.elf 1 2 3 4 5 6 --rom 1:4 --ram 8:4 --ram-code
--br@ im@ 1 2 3 --limit=7 --pc@ -> --brief image.elf 1 2 3 --limit=7 --pc'
of_debug='im@ 1 2 3 --li@ 5 --pc@ -> image.elf 1 2 3 --limit 5 --pc
image.elf 1 2 3 --ro@ 1:4 --ram 8:4 --ram-c@ -> image.elf 1 2 3 --rom 1:4 --ram 8:4 --ram-code'
of_window='im@ ke@ --cy@ 1..5 --for@ j@ -> image.elf kept.keep --cycles 1..5 --format json
image.elf kept.keep --fu@ main --ro@ 1:4 --ram 8:4 --ram-c@ --st@ 5 -> image.elf kept.keep --function main --rom 1:4 --ram 8:4 --ram-code --stop-after 5'
of_answers='im@ ke@ --ou@ det@ --li@ 5 --pc@ -> image.elf kept.keep --outcome detected --limit 5 --pc
image.elf kept.keep --wo@ 2 --ro@ 1:4 --ram 8:4 --ram-c@ -> image.elf kept.keep --workers 2 --rom 1:4 --ram 8:4 --ram-code'
of_compare='ke@ im@ --fo@ j@ --any@ -> kept.keep image.elf --format json --anyway
kept.keep --format=mark@ --cl@ im@ -> kept.keep --format=markdown --classes image.elf'
of_again='repo@ im@ ke@ -> report image.elf kept.keep
exp@ ke@ --expo@ im@ -> export kept.keep --export image.elf'
of_report='ke@ --im@ im@ --out@ x.html --ti@ k -> kept.keep --image image.elf --output x.html --title k'
if command -v python3 >/dev/null; then
    mkdir "$folder/completions.new" && python3 -B release/completions.py "$folder/completions.new"
    for file in fail_star-tools.bash _fail_star-tools fail_star-tools.fish; do
        check "completions/$file is what release/completions.py writes" \
            "$(cmp -s "completions/$file" "$folder/completions.new/$file" && echo yes)"
    done
    for pair in bash:fail_star.bash zsh:_fail_star fish:fail_star.fish; do
        shell=${pair%%:*}
        if command -v "$shell" >/dev/null; then
            other=${pair#*:}
            completes "$shell" "$other" fail_star
            table=$of_export completes "$shell" "${other/star/export}" fail_export
            table=$of_replay completes "$shell" "${other/star/replay}" fail_replay
            table=$of_debug completes "$shell" "${other/star/debug}" fail_debug
            table=$of_window completes "$shell" "${other/star/window}" fail_window
            table=$of_answers completes "$shell" "${other/star/answers}" fail_answers
            table=$of_compare completes "$shell" "${other/star/star-tools}" fail_star-compare
            table=$of_again completes "$shell" "${other/star/star-tools}" fail_star-again
            table=$of_report completes "$shell" "${other/star/star-tools}" fail_star-report
        else
            echo "skipped: completions in $shell, which is not there"
        fi
    done
else
    echo "skipped: completions are typed by python3"
fi

echo "$passed passed, $failed failed"
[ "$failed" -eq 0 ]

#!/usr/bin/env bash
# What sql.py stores, read by sqlite3, or by Python if that is missing: the jobs compared with fail_export's table, functions
# and variables with `symbols`, lines with addr2line, classes with replays; several campaigns in one database; and what is
# refused, interrupted or locked out, each time with the database as it was.
# usage: sql.sh PROGRAM [EXPORT [REPLAY]]
set -u
. "$(dirname "$0")/../checks.sh"
[ $# -gt 0 ] || { echo "skipped: sql needs fail_star"; exit 0; }
program=$(realpath "$1") || exit 2
export=${2:+$(realpath "$2")}
replay=${3:+$(realpath "$3")}
python3 -c 'import sqlite3' 2>/dev/null || { echo "skipped: sql needs python3 with sqlite3"; exit 0; }
folder=$(mktemp -d) || exit 2
trap 'rm -rf "$folder"' EXIT
cd "$folder" || exit 2
sql() { timeout 120 python3 -B "$top/tools/sql.py" --program "$program" "$@"; }
built=$top/examples/built
ram=(--ram 0x80000000:64)

separator=' '
. "$top/tests/ask.sh"

for name in checksum checksum_twice; do
    "$program" run "$built/$name.elf" $name.keep "${ram[@]}" >$name.txt 2>&1
done
"$program" run "$built/pin_open.elf" pin.keep "${ram[@]}" --pc --limit 5000 >pin.txt 2>&1
gives 'a database that is missing' 0 'stored checksum: 23304 jobs' '' sql checksum.keep all.db "$built/checksum.elf"
gives 'a second campaign' 0 "stored twice: $(("$program" plan "$built/checksum_twice.elf" "${ram[@]}") | sed -n 's/^jobs //p') jobs" '' \
    sql checksum_twice.keep all.db "$built/checksum_twice.elf" --name twice
gives 'one without an image' 0 'stored plain: 23304 jobs' '' sql checksum.keep all.db --name plain

# --- What is stored -------------------------------------------------------------------------------

"$program" report "$built/checksum.elf" checksum.keep "${ram[@]}" --format csv | sed 1d | tr , ' ' >jobs.txt
same 'the jobs are those of the report' "$(sha256sum <jobs.txt)" \
    "$(ask all.db "select cycle, cell, bit, weight, outcome from jobs where campaign = 'checksum' order by cycle, cell, bit" | sha256sum)"
for name in checksum twice; do
    same "the counts of $name" "$(cut -d ' ' -f 2 "${name/#twice/checksum_twice}.txt" | tr '\n' ' ')" \
        "$(ask all.db "select instructions, sites, no_effect, silent, detected, illegal, address, misaligned, timeout, '' from campaigns where campaign = '$name'")"
done
same 'the case' "536870912 536870912 65536 2147483648 64 1000000 0 0 0 $(sha256sum <"$built/checksum.elf" | cut -d ' ' -f 1)" \
    "$(ask all.db "select entry, rom_base, rom_size, ram_base, ram_size, step_limit, pc_cell, ram_code, halt, image_sha256 from campaigns where campaign = 'checksum'")"
same 'the hashes of the file and of the program' "$(sha256sum checksum.keep "$program" | cut -d ' ' -f 1)" \
    "$(ask all.db "select keep_sha256 from campaigns where campaign = 'checksum' union all select program_sha256 from campaigns where campaign = 'checksum'")"
# The CRC-32 of the nine bytes 123456789 is cbf43926, which is sent from the lowest byte on.
same 'what the program sends' 2639f4cb "$(ask all.db "select output from campaigns where campaign = 'checksum'")"
"$program" trace "$built/checksum.elf" "${ram[@]}" | grep -E '^[0-9]+ ' >trace.txt
same 'the trace and its words' "$(sha256sum <trace.txt)" \
    "$(ask all.db "select cycle, printf('%08x', pc), printf('%08x', word) from trace join instructions using (campaign, pc) where campaign = 'checksum' order by cycle" | sha256sum)"

# symbols NAME: the sites of each function and variable by outcome, as the program divides them.
"$program" symbols "$built/checksum.elf" checksum.keep "${ram[@]}" >symbols.txt
sums=
for outcome in no-effect silent detected illegal address misaligned timeout; do
    sums+=", sum(iif(outcome = '$outcome', weight, 0))"
done
same 'sites by function' "$(grep -E '^function (crc32|main|\(none)' symbols.txt | cut -d ' ' -f 2- | sort)" \
    "$(ask all.db "select coalesce(nullif(function, '_start'), '(none)')$sums from places where campaign = 'checksum' group by 1" | sort)"
# The sites of a variable without effect are dead ones too, which have no place.
dead=$(sed -n 's/^object message \([0-9]*\) .*/\1/p' symbols.txt)
same 'sites by variable' "$(sed -n 's/^object message //p' symbols.txt)" \
    "$(ask all.db "select ${sums#, } from places where campaign = 'checksum' and name = 'message'" | sed "s/^[0-9]*/$dead/")"
same 'bits of a register' "$(awk '$5 == "silent" && $2 == 14 { sites[$3] += $4 } END { for (bit in sites) print bit, sites[bit] }' jobs.txt | sort -n)" \
    "$(ask all.db "select bit, sum(weight) from places where campaign = 'checksum' and name = 'x14 a4' and outcome = 'silent' group by bit order by bit")"
if command -v riscv64-unknown-elf-addr2line >/dev/null; then
    ask all.db "select printf('%08x', pc), line from instructions where campaign = 'checksum' and line is not null order by pc" >lines.txt
    # Some versions of addr2line take the file of inlined code for that of its caller, so the numbers are compared.
    same 'lines of source' "$(cut -d ' ' -f 1 lines.txt | riscv64-unknown-elf-addr2line -e "$built/checksum.elf" | sed 's/ (.*//; s/.*://')" \
        "$(cut -d : -f 2 lines.txt)"
    check 'there are lines' "$([ "$(wc -l <lines.txt)" -gt 20 ] && echo yes)"
else
    echo "skipped: lines beside addr2line"
fi
same 'without an image there are places, without functions and lines' "23304 0 0 0x80000000" \
    "$(ask all.db "select count(*), count(function), count(line), min(iif(cell >= 32, name, null)) from places where campaign = 'plain'")"
same 'each job has a place' "$(ask all.db 'select count(*) from jobs')" "$(ask all.db 'select count(*) from places')"
same 'the file is sound' 'ok' "$(ask all.db 'pragma integrity_check')"
same 'two campaigns side by side' 'checksum 75696 twice 258' \
    "$(ask all.db "select a.campaign, a.silent, b.campaign, b.silent from campaigns a join campaigns b on a.campaign = 'checksum' and b.campaign = 'twice'")"
same 'no file beside it' all.db "$(echo .*db* all.db*| tr ' ' '\n' | grep -v '\*' | tr '\n' ' ' | sed 's/ $//')"

if [ -n "$export" ]; then
    "$export" "$built/checksum.elf" checksum.keep export.db "${ram[@]}" >out.txt 2>&1
    columns="select name, type, \"notnull\" from pragma_table_info('jobs') where name <> 'campaign' order by cid"
    same 'the columns are those of fail_export' "$(ask export.db "$columns")" "$(ask all.db "$columns")"
    same 'and so are the rows' "$(ask export.db 'select cycle, cell, bit, weight, outcome from jobs order by 1, 2, 3' | sha256sum)" \
        "$(ask all.db "select cycle, cell, bit, weight, outcome from jobs where campaign = 'plain' order by 1, 2, 3" | sha256sum)"
    cp all.db before.db && cp export.db exported.db
    gives 'fail_export into such a database' 12 '' 'export could not be stored' "$export" "$built/checksum.elf" checksum.keep all.db "${ram[@]}"
    check 'it is as before' "$(cmp -s all.db before.db && echo yes)"
    gives 'a database of fail_export' 1 '' 'sql.py: export.db: its table jobs was not made by sql.py: name another database' \
        sql checksum.keep export.db
    same 'its rows are as before' "$(ask exported.db 'select count(*), sum(weight) from jobs')" "$(ask export.db 'select count(*), sum(weight) from jobs')"
    same 'its tables too' jobs "$(ask export.db "select name from sqlite_master where type in ('table', 'view')")"
fi

# --- Classes --------------------------------------------------------------------------------------

if [ -n "$replay" ]; then
    printf '%s\n' 'opened: output ~ /O/' 'of silent + detected' >pin.classes
    gives 'a campaign with classes' 0 "stored pin: $("$program" plan "$built/pin_open.elf" "${ram[@]}" --pc | sed -n 's/^jobs //p') jobs" '' \
        sql pin.keep all.db "$built/pin_open.elf" --classes pin.classes --replay "$replay"
    # The silent jobs of the report, each with what fail_replay says of it.
    "$program" report "$built/pin_open.elf" pin.keep "${ram[@]}" --pc --limit 5000 --format csv | grep silent | tr , ' ' >silent.txt
    while read -r cycle cell bit weight _; do
        output=$("$replay" --brief "$built/pin_open.elf" "$cycle" "$cell" "$bit" "${ram[@]}" --pc --limit 5000 | sed -n 's/^output //p')
        echo "$([[ $output =~ ^(..)*4f(..)*$ ]] && echo opened || echo rest) $weight"
    done <silent.txt | awk '{ sites[$1] += $2 } END { for (name in sites) print name, sites[name] }' | sort >sums.txt
    same 'the sites of each class' "$(cat sums.txt)" \
        "$(ask all.db "select class, sum(weight) from places where campaign = 'pin' and class is not null group by class order by class")"
    same 'other jobs have no class' "$(wc -l <silent.txt)" "$(ask all.db "select count(class) from places where campaign = 'pin'")"
    same 'the answer of one' '"O", halted 1' "$(ask all.db "select answer from places where campaign = 'pin' and cycle = 22 and cell = 0 and bit = 4")"
    same 'its flag and limit' '1 5000' "$(ask all.db "select pc_cell, step_limit from campaigns where campaign = 'pin'")"
fi

# --- Refusals -------------------------------------------------------------------------------------

cp all.db before.db
# refused NAME LINE WORD..: a refusal in one line, after which the database is the same, byte for byte.
refused() {
    sql "${@:3}" >out.txt 2>err.txt
    same "$1" "status 1, , $2" "status $?, $(cat out.txt), $(head -n 1 err.txt)"
    check "$1, the database" "$(cmp -s all.db before.db && echo yes)"
    same "$1, files beside it" '' "$(find . -name '.*db*' -o -name 'all.db-*')"
}
refused 'a name that is taken' 'sql.py: all.db: it has a campaign checksum: --name gives another name, --replace replaces it' checksum.keep all.db
refused 'a campaign file that is missing' 'sql.py: none.keep: No such file or directory' none.keep all.db
refused 'no campaign file' 'sql.py: jobs.txt: 1 NotACampaign: it does not begin as a campaign file' jobs.txt all.db
refused 'another image' "sql.py: $built/pin.elf: checksum.keep is a campaign of another image" checksum.keep all.db "$built/pin.elf" --name other
refused 'an image that is missing' 'sql.py: none.elf: No such file or directory' checksum.keep all.db none.elf --name other
"$program" run "$built/checksum.elf" part.keep "${ram[@]}" --stop-after 99 >/dev/null 2>&1
refused 'a campaign that is not finished' 'sql.py: part.keep: fail_star report: stopped: 99 of 23304 jobs kept' part.keep all.db
echo 'open' >wrong.classes
refused 'no file of classes' "sql.py: wrong.classes: line 1: expected NAME: CONDITION [and CONDITION ..], \`of OUTCOME [+ OUTCOME ..]\` or \`rest\`, found 'open'" \
    checksum.keep all.db --name other --classes wrong.classes
refused 'no program' 'sql.py: checksum.keep: ./none: No such file or directory' checksum.keep all.db --name other --program ./none
refused 'a folder' 'sql.py: .: it is not a file' checksum.keep .
refused 'a folder that is missing' 'sql.py: none/all.db: No such file or directory' checksum.keep none/all.db
cp jobs.txt text.db
refused 'no database' 'sql.py: text.db: it is not an SQLite database' checksum.keep text.db
check 'which is as before' "$(cmp -s jobs.txt text.db && echo yes)"
refused 'a part in a new database' 'sql.py: part.keep: fail_star report: stopped: 99 of 23304 jobs kept' part.keep new.db
check 'which is not made' "$([ ! -e new.db ] && echo yes)"
# A program whose table differs the second time: what was stored before is there again.
cat >twice.sh <<END
#!/bin/sh
case "\$*" in
report*csv) [ -e once ] && "$program" "\$@" | sed '2s/,[a-z-]*\$/,detected/' && exit; touch once ;;
esac
exec "$program" "\$@"
END
chmod +x twice.sh
refused 'another table the second time' 'sql.py: checksum.keep: it was changed while it was read' checksum.keep all.db --replace --program ./twice.sh
rm once
refused 'the same for a new database' 'sql.py: checksum.keep: it was changed while it was read' checksum.keep new.db --program ./twice.sh
check 'which is not made either' "$([ ! -e new.db ] && echo yes)"
# Ctrl-C while the jobs are stored, and a database that another program writes to.
cat >slow.sh <<END
#!/bin/sh
case "\$*" in
report*csv) [ -e once ] && { "$program" "\$@" | head -n 5000; touch half; exec sleep 60; }; touch once ;;
esac
exec "$program" "\$@"
END
chmod +x slow.sh
cat >interrupted.py <<'END'
import os, signal, subprocess, sys, time
signal.signal(signal.SIGINT, signal.default_int_handler)  # also where this script runs in the background, without it
tool = subprocess.Popen(sys.argv[1:])
while not os.path.exists("half") and tool.poll() is None: time.sleep(0.05)
time.sleep(0.5)
tool.send_signal(signal.SIGINT)
sys.exit(tool.wait())
END
for db in all.db new.db; do
    rm -f once half
    gives "Ctrl-C, $db" 130 '' '' python3 -B interrupted.py python3 -B "$top/tools/sql.py" checksum.keep $db --replace --program ./slow.sh
    check "the database after Ctrl-C, $db" "$(cmp -s all.db before.db && [ ! -e new.db ] && echo yes)"
    same "files beside it after Ctrl-C, $db" '' "$(find . -name '.*db*' -o -name 'all.db-*')"
done
rm -f once
cat >hold.py <<'END'
import sqlite3, subprocess, sys
held = sqlite3.connect("all.db", isolation_level=None)
held.execute("begin immediate")
sys.exit(subprocess.run(sys.argv[1:]).returncode)
END
gives 'a database that is in use' 1 '' 'sql.py: all.db: database is locked' \
    python3 -B hold.py python3 -B "$top/tools/sql.py" checksum.keep all.db --replace --program "$program"
check 'which is as before' "$(cmp -s all.db before.db && echo yes)"
gives 'an empty name' 2 '' 'sql.py: error: --name: expected a name, found none' \
    bash -c "python3 -B '$top/tools/sql.py' checksum.keep all.db --name '' 2> >(tail -n 1 >&2)"
gives 'a campaign that is replaced' 0 'stored checksum: 23304 jobs' '' sql checksum.keep all.db --replace
same 'it has no image now' '|23304' "$(ask all.db "select coalesce(image_sha256, '') || '|' || jobs from campaigns where campaign = 'checksum'")"
same 'the others are as before' "$(ask before.db "select * from jobs where campaign <> 'checksum'" | sha256sum)" \
    "$(ask all.db "select * from jobs where campaign <> 'checksum'" | sha256sum)"
: >empty.db
gives 'an empty file' 0 'stored checksum: 23304 jobs' '' sql checksum.keep empty.db
umask 027
gives 'a database for a group' 0 'stored checksum: 23304 jobs' '' sql checksum.keep group.db
same 'its permissions' 640 "$(stat -c %a group.db)"
gives 'an output that cannot be written' 1 '' 'sql.py: [Errno 28] No space left on device' \
    bash -c 'exec "$@" >/dev/full' bash python3 -B "$top/tools/sql.py" checksum.keep all.db --name full --program "$program"
same 'the campaign is stored' 23304 "$(ask all.db "select count(*) from jobs where campaign = 'full'")"
ask other.db 'create table notes (text); insert into notes values (7)'
gives 'a database with other tables' 0 'stored checksum: 23304 jobs' '' sql checksum.keep other.db
same 'which stay' 7 "$(ask other.db 'select text from notes')"

echo "$passed passed, $failed failed"
[ "$failed" -eq 0 ]

#!/usr/bin/env bash
# What fail_export stores, read by sqlite3, or by Python where that is not there: the jobs of each example are the lines of `report
# --format csv`; a table is replaced whole; and what cannot be stored leaves the file as it was.
# usage: export.sh PROGRAM [EXPORT]
set -u
. "$(dirname "$0")/../checks.sh"
program=$(realpath "$1") || exit 2
[ $# -gt 1 ] || { echo "skipped: export needs fail_export"; exit 0; }
given=$(realpath "$2") || exit 2
cd "$top" || exit 2
built=$PWD/examples/built
data=$PWD/crates/fail_star/data
folder=$(mktemp -d) || exit 2
trap 'rm -rf "$folder"' EXIT
# Others than root may look into the folder, and run the program there: permissions are tried below.
mkdir "$folder/bin" && cp "$given" "$folder/bin/fail_export" && cp "$data/row1.elf" "$data/row1.keep" "$folder/bin" && chmod -R 755 "$folder" || exit 2
export=$folder/bin/fail_export
image=$folder/bin/row1.elf
whole=$folder/bin/row1.keep
case=(--rom 0x20000000:64 --ram 0x80000000:16 --limit 100)
mkdir "$folder/work" && cd "$folder/work" || exit 2
export HOME=$folder

if ! command -v sqlite3 >/dev/null && ! command -v python3 >/dev/null; then
    echo "skipped: export needs sqlite3 or python3"
    exit 0
fi
separator=,
. "$top/tests/ask.sh"

# expect NAME STATUS OUT ERR WORD..: the same of a command that has two minutes.
expect() { gives "${@:1:4}" timeout 120 "${@:5}"; }

# table DB: all rows as the csv report has them, by the order of the key.
table() {
    echo 'cycle,cell,bit,weight,outcome'
    ask "$1" 'select cycle, cell, bit, weight, outcome from jobs order by cycle, cell, bit'
}

# The jobs of each example. control_twice has four million, the boot loaders more, and what is compared here does not depend on their number.
for file in "$built"/*.elf; do
    name=$(basename "$file" .elf)
    options=(--ram 0x80000000:64 --limit 6000)
    [[ $name = control_twice || $name = loader* ]] && continue
    [ "$name" = checksum_ram ] && options=(--ram 0x80000000:128 --limit 6000 --ram-code)
    [[ $name = siphash* ]] && options=(--ram 0x80000000:256 --limit 6000)
    [ "$name" = pin_checked ] && options+=(--pc)
    timeout 300 "$program" run "$file" "$name.keep" "${options[@]}" >"$name.txt" 2>&1
    timeout 60 "$program" report "$file" "$name.keep" "${options[@]}" --format csv >"$name.csv"
    expect "the export of $name" 0 "exported $(($(wc -l <"$name.csv") - 1))" '' "$export" "$file" "$name.keep" "$name.db" "${options[@]}"
    check "the table of $name" "$(table "$name.db" | cmp - "$name.csv" && echo yes)"
    # Its sums are the report's, but for the dead sites, which have no effect.
    same "the sums of $name" "$(grep -E 'silent|detected|illegal|address|misaligned|timeout' "$name.txt" | grep -v ' 0$' | sort)" \
        "$(ask "$name.db" "select outcome || ' ' || sum(weight) from jobs where outcome <> 'no-effect' group by outcome order by outcome")"
done

# What kind of table it is.
columns='0,cycle,INTEGER,1
1,cell,INTEGER,2
2,bit,INTEGER,3
3,weight,INTEGER,0
4,outcome,TEXT,0'
same 'the columns and the key' "$columns" "$(ask pin.db "select cid, name, type, pk from pragma_table_info('jobs') order by cid")"
same 'the types of the values' 'integer,integer,integer,integer,text' \
    "$(ask pin.db 'select distinct typeof(cycle), typeof(cell), typeof(bit), typeof(weight), typeof(outcome) from jobs')"
same 'no other table' 'jobs' "$(ask pin.db "select name from sqlite_master where type = 'table' order by name")"
same 'the file is sound' 'ok' "$(ask pin.db 'pragma integrity_check')"
# The database's log may stay beside the file, which has all without it.
same 'no other file beside it' 'pin.csv pin.db pin.keep pin.txt' "$(echo pin.* | sed 's/ pin.db-wal//')"

# A table is replaced whole: by itself, by a smaller one and by a larger one. Other tables stay.
options=(--ram 0x80000000:64 --limit 6000)
rows=$(($(wc -l <pin.csv) - 1))
ask pin.db 'create table notes (text); insert into notes values (7)' >out.txt
expect 'a second export' 0 "exported $rows" '' "$export" "$built/pin.elf" pin.keep pin.db "${options[@]}"
check 'a second export, its table' "$(table pin.db | cmp - pin.csv && echo yes)"
"$program" report "$image" "$whole" "${case[@]}" --format csv >small.csv
expect 'an export of fewer jobs' 0 'exported 32' '' "$export" "$image" "$whole" pin.db "${case[@]}"
check 'an export of fewer jobs, its table' "$(table pin.db | cmp - small.csv && echo yes)"
expect 'an export of more jobs' 0 "exported $rows" '' "$export" "$built/pin.elf" pin.keep pin.db "${options[@]}"
check 'an export of more jobs, its table' "$(table pin.db | cmp - pin.csv && echo yes)"
same 'the other table' 7 "$(ask pin.db 'select text from notes')"
: >empty.db
expect 'an empty file' 0 'exported 32' '' "$export" "$image" "$whole" empty.db "${case[@]}"
cp empty.db alone.db
check 'an empty file, its table' "$(table empty.db | cmp - small.csv && echo yes)"
check 'the file alone, its table' "$(table alone.db | cmp - small.csv && echo yes)"
expect 'a database in memory' 0 'exported 32' '' "$export" "$image" "$whole" :memory: "${case[@]}"
check 'no file of that name' "$([ ! -e :memory: ] && echo yes)"
expect 'options in another order' 0 'exported 32' '' "$export" "$image" "$whole" order.db --limit=0x64 --ram 0x80000000:16 --rom 0x20000000:64 --
cp "$whole" before.keep
expect 'the campaign file is only read' 0 'exported 32' '' "$export" "$image" before.keep read.db "${case[@]}"
check 'the campaign file is as it was' "$(cmp before.keep "$whole" && echo yes)"

# Links are followed, also to a database that does not exist yet, and a log is beside the database.
mkdir far
ln -s far/made.db near.db
expect 'a link to a database that is missing' 0 'exported 32' '' "$export" "$image" "$whole" near.db "${case[@]}"
check 'a link to a database that is missing, its table' "$([ -f far/made.db ] && table far/made.db | cmp - small.csv && echo yes)"
expect 'a link to a database' 0 "exported $rows" '' "$export" "$built/pin.elf" pin.keep near.db "${options[@]}"
check 'a link to a database, its table' "$([ -L near.db ] && table far/made.db | cmp - pin.csv && echo yes)"
same 'no log beside the link' near.db "$(echo near.*)"

# What cannot be stored leaves the file as it was, and makes none.
unstored='export could not be stored'
# beside FILE: the names in its folder.
beside() { ls -A "$(dirname "$1")" 2>&1; }
# refuses NAME DB WORD..: an export behind the words.
refuses() {
    local before files
    before=$([ -f "$2" ] && cksum <"$2")
    files=$(beside "$2")
    expect "$1" 12 '' "$unstored" "${@:3}" "$export" "$image" "$whole" "$2" "${case[@]}"
    same "$1, the file" "$before" "$([ -f "$2" ] && cksum <"$2")"
    same "$1, its folder" "$files" "$(beside "$2")"
}
touch out.txt err.txt
printf 'no database' >text.db
head -c 20000 /dev/zero | tr '\0' x >long.db
refuses 'a text' text.db
refuses 'a long text' long.db
refuses 'the campaign file' before.keep
cp "$image" copy.elf
refuses 'an image' copy.elf
refuses 'a folder that is missing' missing/jobs.db
ln -s missing/jobs.db lost.db
refuses 'a link into a folder that is missing' lost.db
ln -s circle.db circle.db
refuses 'a link to itself' circle.db
refuses 'a folder' .
refuses 'a file in place of a folder' text.db/jobs.db
refuses 'an empty name' ''
ask other.db 'create table jobs (cycle, cell, bit, weight, result); insert into jobs values (1, 2, 3, 4, 5)' >out.txt
refuses 'a table of other columns' other.db
ask fewer.db 'create table jobs (cycle integer primary key, cell)' >out.txt
refuses 'a table of fewer columns' fewer.db
ask view.db 'create table rows (a); create view jobs as select a from rows' >out.txt
refuses 'a view' view.db
cp pin.db cut.db && truncate -s 5000 cut.db
refuses 'a database that was cut' cut.db
# What the library of the database does not take, on the table jobs or anywhere.
# made NAME SQL: an exported database, changed by sqlite3.
made() { cp alone.db "$1" && ask "$1" "$2" >out.txt 2>err.txt; }
made trigger.db 'create trigger t after insert on jobs begin select 1; end'
refuses 'a trigger on the table' trigger.db
made partial.db 'create index p on jobs (cycle) where bit = 1'
refuses 'a partial index of the table' partial.db
made expression.db 'create index e on jobs (cycle + 1)'
refuses 'an index of an expression' expression.db
made generated.db 'create table g (a primary key, b as (a + 1), c references g (a))'
refuses 'a generated column beside a foreign key' generated.db
made virtual.db 'create virtual table v using fts5 (a)' && refuses 'a virtual table' virtual.db
ask vacuum.db 'pragma auto_vacuum = full; create table a (b)' >out.txt
refuses 'a database with auto_vacuum' vacuum.db
ask utf16.db "pragma encoding = 'UTF-16'; create table a (b)" >out.txt
refuses 'a database in UTF-16' utf16.db
# What else is on the table goes with it, and the database is in WAL mode then.
made index.db 'pragma journal_mode = delete; create index i on jobs (weight); create table o (a); create trigger t after insert on o begin select 1; end'
# mode FILE: which mode its header names.
mode() { od -An -tu1 -j18 -N2 "$1" | tr -d ' '; }
same 'a database with a rollback journal' 11 "$(mode index.db)"
expect 'a plain index of the table' 0 'exported 32' '' "$export" "$image" "$whole" index.db "${case[@]}"
same 'a database that an export has turned into WAL mode' 22 "$(mode index.db)"
same 'a plain index is gone, a trigger of another table stays' 't' "$(ask index.db "select name from sqlite_master where type in ('index', 'trigger') and sql is not null")"
if command -v python3 >/dev/null; then
    hold='import sqlite3, subprocess, sys
db = sqlite3.connect(sys.argv[1], isolation_level=None)
db.execute("begin exclusive")
sys.exit(subprocess.call(sys.argv[2:]))'
    cp empty.db held.db
    refuses 'a database that another writes to' held.db python3 -c "$hold" held.db
fi
# A log that was left has rows that the file alone lacks: the database is read with its log.
if command -v python3 >/dev/null; then
    cp empty.db logged.db
    python3 -c 'import os, sqlite3
db = sqlite3.connect("logged.db")
db.execute("delete from jobs where bit > 0")
db.commit()
os._exit(0)'
    if [ -s logged.db-wal ]; then
        mkdir moved && cp logged.db logged.db-wal moved
        same 'a copy with its log' 1 "$(ask moved/logged.db 'select count(*) from jobs')"
        same 'a database with a log, opened as usual' 1 "$(ask logged.db 'select count(*) from jobs')"
    fi
    # A program that died in a transaction left a journal, which must be rolled back before an export.
    made hot.db 'pragma journal_mode = delete; create table other (a)'
    python3 -c 'import os, sqlite3
db = sqlite3.connect("hot.db", isolation_level=None)
db.execute("pragma cache_spill = 1")
db.execute("pragma cache_size = 1")
db.execute("begin immediate")
db.execute("with recursive n (i) as (select 1 union all select i + 1 from n where i < 5000) insert into other select randomblob(500) from n")
os._exit(0)'
    if [ -s hot.db-journal ]; then
        refuses 'a database with a journal that is hot' hot.db
        same 'sqlite3 rolls it back' 0 "$(ask hot.db 'select count(*) from other')"
        expect 'and then it is exported' 0 'exported 32' '' "$export" "$image" "$whole" hot.db "${case[@]}"
    fi
fi
# The system takes what fits, and refuses the rest: of 8 KiB here.
limited=(bash -c "trap '' XFSZ; ulimit -f 8 && exec \"\$@\"" -)
cp empty.db grown.db
expect 'a file that must not grow' 12 '' "$unstored" "${limited[@]}" "$export" "$built/pin.elf" pin.keep grown.db "${options[@]}"
check 'a file that must not grow, its table' "$(table grown.db | cmp - small.csv && echo yes)"
# Permissions say nothing to root, who takes another user's place.
user=(env)
[ "$(id -u)" -eq 0 ] && user=(setpriv --reuid 65534 --regid 65534 --clear-groups)
mkdir closed && cp empty.db closed/kept.db && chmod 444 closed/kept.db && chmod 555 closed && chmod 755 .
if "${user[@]}" test -x "$export" -a -r "$image" -a -r closed/kept.db -a ! -w closed/kept.db 2>/dev/null; then
    refuses 'a folder without leave to write' closed/new.db "${user[@]}"
    refuses 'a file without leave to write' closed/kept.db "${user[@]}"
else
    echo 'skipped: permissions need a user other than root, or setpriv'
fi

# How it ends otherwise. Nothing is stored then, and no file is made.
usage='usage: fail_export IMAGE KEEP DB [options]'
# ends NAME STATUS ERR WORD..
ends() {
    rm -f new.db
    expect "$1" "$2" '' "$3" "$export" "${@:4}"
    check "$1, no file is made" "$([ ! -e new.db ] && echo yes)"
}
ends 'no words' 1 "$usage"
ends 'two words' 1 "$usage" "$image" "$whole"
ends 'a command' 1 "$usage" export "$image" "$whole" new.db "${case[@]}"
ends 'options in front' 1 "$usage" "${case[@]}" "$image" "$whole" new.db
ends 'an option between the files' 1 "$usage" "$image" "$whole" --limit 100 new.db
for place in 0 1 2; do
    files=("$image" "$whole" new.db)
    files[place]=-${files[place]}
    ends "a hyphen before file $place" 1 "$usage" "${files[@]}" "${case[@]}"
done
for more in '--format csv' --fresh '--page 7' '--workers 1' '--seed 0' more --limit '--limit 7' --help; do
    # The words hold no spaces.
    ends "the words $more" 1 "$usage" "$image" "$whole" new.db "${case[@]}" $more
done
ends 'a name that is not UTF-8' 1 "$usage" "$image" "$whole" $'\xff.db' "${case[@]}"
ends 'no image' 2 'image could not be read' missing.elf "$whole" new.db "${case[@]}"
ends 'another image' 3 'image refused: 2 NotElf' long.db "$whole" new.db "${case[@]}"
ends 'no golden run' 4 'golden run did not halt within 1 instructions' "$image" "$whole" new.db "${case[@]:0:4}" --limit 1
ends 'a folder for the campaign file' 5 'campaign file could not be read or written' "$image" . new.db "${case[@]}"
ends 'another limit' 6 'campaign file refused: 6 OtherCase at 21' "$image" "$whole" new.db "${case[@]:0:4}" --limit 99
ends 'another kind' 6 'campaign file refused: 6 OtherCase at 0' "$image" "$whole" new.db "${case[@]}" --ram-code
ends 'no campaign file' 7 'stopped: 0 of 32 jobs kept' "$image" none.keep new.db "${case[@]}"
"$program" run "$image" part.keep "${case[@]}" --stop-after 31 >out.txt 2>&1
ends 'a missing job' 7 'stopped: 31 of 32 jobs kept' "$image" part.keep new.db "${case[@]}"
cp empty.db kept.db
expect 'a missing job, over a table' 7 '' 'stopped: 31 of 32 jobs kept' "$export" "$image" part.keep kept.db "${case[@]}"
check 'a missing job, the table' "$(cmp empty.db kept.db && echo yes)"
if [ -c /dev/full ]; then
    "$export" "$image" "$whole" full.db "${case[@]}" >/dev/full 2>err.txt
    same 'a full device' 'status 8, output could not be written' "status $?, $(cat err.txt)"
    check 'a full device, the rows are stored' "$(table full.db | cmp - small.csv && echo yes)"
fi
"$export" "$image" "$whole" closed.db "${case[@]}" >&- 2>err.txt
same 'a closed output' 'status 8, output could not be written' "status $?, $(cat err.txt)"
check 'a closed output, the rows are stored' "$(table closed.db | cmp - small.csv && echo yes)"
"$export" "$image" "$whole" streams.db "${case[@]}" <&- >&- 2>&-
same 'no stream' 8 $?
check 'no stream, the rows are stored' "$(table streams.db | cmp - small.csv && echo yes)"

echo "$passed passed, $failed failed"
[ "$failed" -eq 0 ]

#!/usr/bin/env bash
# The scripts of examples/cluster, and watch.py on their files: by hand, by make, by GNU parallel, and by a Slurm of its own on the loopback. In each one shard is killed
# amid its jobs and given again; then the merged file must have the counts of a run of the whole, and its table, byte by byte.
# With WINDOW, the program fail_window, the same by ranges of cycles, by hand and by make.
# usage: cluster.sh PROGRAM [WINDOW]
# It installs nothing, says what it skips where a tool is missing, and ends what it started by the processes' own numbers.
set -u
. "$(dirname "$0")/../checks.sh"
FAIL_STAR=$(realpath "$1") || exit 2
export FAIL_STAR SPLIT=shards
FAIL_WINDOW=${2:+$(realpath "$2")}
export FAIL_WINDOW
scripts=$top/examples/cluster
image=$top/examples/built/checksum.elf
# Sockets want a short name, and slurm.conf one without spaces.
folder=$(mktemp -d /tmp/cluster.XXXXXX) || exit 2
cd "$folder" || exit 2
PATH=$PATH:/usr/sbin
# Whatever is started here has this word in its environment.
mark=CLUSTER_TEST=$folder
export "${mark?}"

shards=4
case=(--rom 0x20000000:512 --ram 0x80000000:64 --limit 2000000)
# Small pages and one worker: with some 600 pages to be synced, a shard takes long enough to be killed amid them.
options=("${case[@]}" --workers 1 --page 10)
some_pages=1700  # bytes of a file that has its head and some of its pages

# ours: the numbers of the processes that were started here and have not ended.
ours() {
    local process word
    for process in /proc/[0-9]*; do
        while IFS= read -r -d '' word; do
            [ "$word" != "$mark" ] || echo "${process#/proc/}"
        done 2>/dev/null <"$process/environ"
    done
}

# soon WORD..: whether a command holds within half a minute.
soon() {
    local i
    for ((i = 0; i < 600; i++)); do
        "$@" && return
        sleep 0.05
    done
    return 1
}

# runner SHARD: the number of the process that runs it.
runner() {
    local process word
    for process in $(ours); do
        while IFS= read -r -d '' word; do
            [ "$word" != "--shard=$1/$shards" ] || echo "$process"
        done 2>/dev/null <"/proc/$process/cmdline"
    done
}

# amid PLACE SHARD: whether it has rows, and is not done.
amid() { [ "$(stat -c %s "$1/$2-of-$shards.part" 2>/dev/null || echo 0)" -gt $some_pages ]; }

# kills PLACE SHARD: kills a shard amid its jobs. Its process is looked for before, since that takes as long as many pages.
kills() {
    local processes=
    runs() { processes=$(runner "$1") && [ -n "$processes" ]; }
    soon runs "$2" && soon amid "$@" && kill -KILL $processes
}

# merges PLACE: what merge.sh says, in out.txt and err.txt, and its status.
merges() { timeout 60 bash "$scripts/merge.sh" "$image" $shards "$1" "${options[@]}" >out.txt 2>err.txt; }

# left NUMBER: how many jobs err.txt says that shard has, of how many; then what the last line says of all.
left() { sed -n "s/^shard $1 of $shards: .*: \([0-9]* of its [0-9]*\) jobs\$/\1/p" "$2"; }

# partly NAME FILE: whether it says of shard 2 alone that it is not done, and how many jobs it has.
partly() {
    local has=(0) all
    read -r -a has <<<"$(left 2 "$2")"
    all=$(sed -n '$s/^stopped: \([0-9]*\) of '"$jobs"' jobs kept$/\1/p' "$2")
    check "$1" "$([ "$(wc -l <"$2")" -eq 2 ] && [ "${has[3]:-}" = "$((jobs / shards))" ] && [ "${has[0]}" -gt 0 ] && [ "${has[0]}" -lt "${has[3]}" ] \
        && [ "${all:-0}" -eq $((jobs - has[3] + has[0])) ] && echo yes || cat "$2")"
}

# whole NAME PLACE FILE: whether a file has the counts of the whole, and what is merged its table.
whole() {
    check "$1: counts" "$(cmp -s "$3" whole.txt && echo yes || cat "$3")"
    timeout 60 "$FAIL_STAR" report "$image" "$2/whole.keep" "${case[@]}" --format csv >table.csv 2>err.csv
    check "$1: table" "$([ $? -eq 0 ] && cmp -s table.csv whole.csv && echo yes || cat err.csv)"
}

# traces FILE..: what a write to a file changes.
traces() { stat -c '%n %i %s %y' "$@" && cksum "$@"; }

ends() {
    end_slurm
    local process
    for process in $(ours); do kill -KILL "$process" 2>/dev/null; done
    cd / && rm -rf "$folder"
}
end_slurm() { :; }
trap ends EXIT

timeout 120 "$FAIL_STAR" run "$image" whole.keep "${case[@]}" >whole.txt 2>err.txt
check 'a run of the whole' "$([ $? -eq 0 ] && [ "$(wc -l <whole.txt)" -eq 9 ] && echo yes || cat err.txt)"
timeout 60 "$FAIL_STAR" report "$image" whole.keep "${case[@]}" --format csv >whole.csv 2>err.txt
check 'its table' "$([ $? -eq 0 ] && echo yes || cat err.txt)"
jobs=$(($(wc -l <whole.csv) - 1))
check 'jobs that shards share evenly' "$([ $((jobs % shards)) -eq 0 ] && [ "$jobs" -gt 0 ] && echo yes || echo "$jobs")"

# --- By hand ---

by_hand() {
    local place='by hand' number status before
    shard() { timeout 60 bash "$scripts/shard.sh" "$1" "$image" $shards "$place" "${options[@]}" >out.txt 2>err.txt; }
    merges "$place"
    status=$?
    missing=$(for ((number = 1; number <= shards; number++)); do echo "shard $number of $shards: missing"; done)
    check 'no shard yet' "$([ $status -eq 7 ] && [ "$(cat err.txt)" = "$missing"$'\n'"stopped: 0 of $jobs jobs kept" ] && [ ! -s out.txt ] && echo yes || cat err.txt)"
    for number in 1 3; do
        shard $number
        check "shard $number" "$([ $? -eq 0 ] && [ ! -s out.txt ] && [ ! -s err.txt ] && [ -e "$place/$number-of-$shards.keep" ] && echo yes || cat err.txt)"
    done
    shard 2 &
    kills "$place" 2
    wait $!
    check 'a shard that is killed' "$([ $? -eq 137 ] && [ -e "$place/2-of-$shards.part" ] && [ ! -e "$place/2-of-$shards.keep" ] && echo yes || cat err.txt)"
    # What is no campaign file in a shard's place is named, and the others are merged.
    cp "$image" "$place/4-of-$shards.keep"
    merges "$place"
    status=$?
    check 'a shard whose file is none' "$([ $status -eq 7 ] && grep -q "^shard 4 of $shards: .*: other campaign file refused: 1 NotACampaign$" err.txt && echo yes || cat err.txt)"
    check 'one that was killed, beside it' "$([ -n "$(left 2 err.txt)" ] && [ "$(wc -l <err.txt)" -eq 3 ] && echo yes || cat err.txt)"
    # A kill while a file is begun leaves one like this.
    rm "$place/4-of-$shards.keep"
    printf '\0FAILCMP\1' >"$place/4-of-$shards.part"
    shard 4
    check 'a file that was not begun to the end' "$([ $? -eq 0 ] && [ -e "$place/4-of-$shards.keep" ] && echo yes || cat err.txt)"
    merges "$place"
    check 'all but one' "$([ $? -eq 7 ] && echo yes)"
    partly 'what is left of it' err.txt
    shard 2
    check 'that shard given again' "$([ $? -eq 0 ] && echo yes || cat err.txt)"
    merges "$place"
    whole 'by hand' "$place" out.txt
    before=$(traces "$place"/*)
    shard 2 && merges "$place"
    check 'once more, and nothing is written' "$([ "$(traces "$place"/*)" = "$before" ] && cmp -s out.txt whole.txt && echo yes)"
    rm "$place/3-of-$shards.keep" "$place/whole.keep"
    merges "$place"
    check 'a shard whose file is lost' "$([ $? -eq 7 ] && [ "$(head -n 1 err.txt)" = "shard 3 of $shards: missing" ] && [ "$(wc -l <err.txt)" -eq 2 ] && echo yes || cat err.txt)"
    shard 3 && merges "$place"
    whole 'lost, and given again' "$place" out.txt
}

# refused WORD..: whether the words are refused, and nothing is made.
refused() {
    timeout 20 bash "$scripts/merge.sh" "$@" >out.txt 2>err.txt
    check "refused: ${*:2}" "$([ $? -eq 1 ] && tail -n 1 err.txt | grep -q '^usage: merge.sh IMAGE N FOLDER' && [ ! -s out.txt ] && [ ! -e place ] && echo yes || cat err.txt)"
}

by_hand
refused "$image" 0 place
refused "$image" 65536 place
refused "$image" 4
refused missing.elf 4 place
refused "$image" 4 place --fresh
refused "$image" 4 place --stop-after 3
refused "$image" 4 place --ram
refused "$image" 4 place --workers 100

# --- Numbers from 0, a shard of another image, Ctrl-C, and progress ---

# other_words: what a script is told beside the words of a campaign.
other_words() {
    local place='by index' number before
    shard() { timeout 60 bash "$scripts/shard.sh" "$1" "$2" $shards "$place" "${options[@]}" >out.txt 2>err.txt; }
    FIRST=0 shard 0 "$image"
    check 'the first shard by its index' "$([ $? -eq 0 ] && [ -e "$place/1-of-$shards.keep" ] && [ ! -s err.txt ] && echo yes || cat err.txt)"
    for number in 0:1 5:1 4:0 x:0 01:1 1:2; do
        FIRST=${number#*:} shard "${number%:*}" "$image"
        check "no shard: $number" "$([ $? -eq 1 ] && tail -n 1 err.txt | grep -q '^usage: \[FIRST=0\] shard.sh I IMAGE N FOLDER' && echo yes || cat err.txt)"
    done
    before=$(traces "$place"/*)
    shard 1 "$top/examples/built/pin.elf"
    check 'a done shard of another image' "$([ $? -eq 6 ] && [ "$(cut -d: -f1,3- err.txt)" = "shard 1 of $shards: status 6: campaign file refused: 6 OtherCase at $(grep -o '[0-9]*$' <<<"$(head -n 1 err.txt)")
The image or an option is another one than that of this file" ] && echo yes || cat err.txt)"
    shard 1 "$image"
    check 'it is as it was' "$([ $? -eq 0 ] && [ ! -s err.txt ] && [ "$(traces "$place"/*)" = "$before" ] && echo yes || cat err.txt)"
}

# interrupts NAME PLACE WORD..: a command that runs shard 2 of PLACE is ended by Ctrl-C, which a terminal gives to all its processes; its
# last line is the command that goes on, which is carried out.
interrupts() {
    local name=$1 place=$2 process status again
    shift 2
    set -m
    env -u AGAIN "${starter[@]}" timeout --foreground 90 "$@" >out.txt 2>err.txt &
    process=$!
    set +m
    soon amid "$place" 2
    kill -INT -- "-$process"
    wait "$process"
    status=$?
    again=$(sed -n 's/^interrupted; continue by: //p' err.txt | head -n 1)
    check "$name: Ctrl-C" "$([ $status -ne 0 ] && [ -n "$again" ] && [ -e "$place/2-of-$shards.part" ] && echo yes || { echo "status $status"; cat err.txt; })"
    timeout 90 bash -c "$again" >out.txt 2>err.txt
    check "$name: the command that goes on" "$([ $? -eq 0 ] && [ -e "$place/2-of-$shards.keep" ] && echo yes || cat err.txt)"
}
# A command that takes SIGINT, also where this script runs in the background, and so without it.
starter=(python3 -c 'import os, signal, sys
signal.signal(signal.SIGINT, signal.SIG_DFL)
os.execvp(sys.argv[1], sys.argv[1:])')

interrupted() {
    mkdir 'by Ctrl-C' 'by make, Ctrl-C'
    interrupts 'a shard' 'by Ctrl-C' bash "$scripts/shard.sh" 2 "$image" $shards 'by Ctrl-C' "${options[@]}"
    command -v make >/dev/null || return
    interrupts 'make' 'by make, Ctrl-C' make -s -j 2 -f "$scripts/Makefile" -C 'by make, Ctrl-C' IMAGE="$image" SHARDS=$shards OPTIONS="${options[*]}"
    whole 'make that was interrupted' 'by make, Ctrl-C' out.txt
}

# progress: what watch.py says of a shard, and of the folder of all.
progress() {
    local place=watched share=$((jobs / shards))
    watched() { timeout 60 python3 -B "$top/tools/watch.py" "$@" --times 1 --program "$FAIL_STAR" 2>&1 | cut -d ' ' -f 3-; }
    mkdir $place
    timeout 60 "$FAIL_STAR" run "$image" "$place/2-of-$shards.part" "${options[@]}" --shard 2/$shards --stop-after 40 >out.txt 2>&1
    same 'progress of a shard' "40 of $share jobs of shard 2 of $shards" "$(watched "$place/2-of-$shards.part")"
    timeout 60 bash "$scripts/shard.sh" 1 "$image" $shards $place "${options[@]}" >out.txt 2>&1
    same 'progress of a shard that is done' "$share of $share jobs of shard 1 of $shards, all" "$(watched "$place/1-of-$shards.keep")"
    same 'the same by its old name' "$share of $share jobs of shard 1 of $shards, all" "$(watched "$place/1-of-$shards.part")"
    same 'progress of a folder' "$((share + 40)) of $jobs jobs; 1 of $shards shards done, not begun: 3-4" "$(watched $place)"
    cp "$place/1-of-$shards.keep" "$place/3-of-$shards.part"
    same 'rows that a file repeats count for its shard' "$((2 * share + 40)) of $jobs jobs; 2 of $shards shards done, not begun: 4" "$(watched $place)"
    rm "$place/3-of-$shards.part"
    timeout 60 "$FAIL_STAR" run "$top/examples/built/pin.elf" "$place/4-of-$shards.part" --ram 0x80000000:64 --stop-after 4 >out.txt 2>&1
    same 'a shard of another campaign' "$place/4-of-$shards.part: a shard of another campaign than that of the first file here" \
        "$(timeout 60 python3 -B "$top/tools/watch.py" $place --times 1 --program "$FAIL_STAR" 2>&1 | sed 's/^watch.py: //')"
    mv "$place/4-of-$shards.part" "$place/4-of-9.part"
    same 'shards of two campaigns' "watch.py: $place: expected files I-of-N.part or I-of-N.keep of one N, found I-of-4 and I-of-9" \
        "$(timeout 60 python3 -B "$top/tools/watch.py" $place --program "$FAIL_STAR" 2>&1)"
    rm "$place"/*
    same 'no shard' "watch.py: $place: expected files I-of-N.part or I-of-N.keep of one N, found none" \
        "$(timeout 60 python3 -B "$top/tools/watch.py" $place --program "$FAIL_STAR" 2>&1)"
    for number in 1 2 3 4; do timeout 60 bash "$scripts/shard.sh" $number "$image" $shards $place "${options[@]}"; done >out.txt 2>&1
    same 'progress of a folder that is done' "$jobs of $jobs jobs, all; $shards of $shards shards done" "$(watched $place)"
}

# throttled: the words that sbatch gets of a script in its place.
throttled() {
    mkdir sbatches
    printf '#!/bin/sh\necho "$@" >>"%s/sbatch.txt"\necho 7\n' "$folder" >sbatches/sbatch && chmod 755 sbatches/sbatch
    PATH=$folder/sbatches:$PATH AT_ONCE=2 timeout 60 bash "$scripts/submit.sh" "$image" $shards throttled "${options[@]}" >out.txt 2>err.txt
    check 'two shards at the same time' "$([ $? -eq 0 ] && head -n 1 sbatch.txt | grep -q -- '--array=1-4%2 ' && echo yes || cat err.txt sbatch.txt)"
    PATH=$folder/sbatches:$PATH AT_ONCE=none timeout 60 bash "$scripts/submit.sh" "$image" $shards throttled "${options[@]}" >out.txt 2>err.txt
    check 'no number of shards' "$([ $? -eq 1 ] && [ "$(head -n 1 err.txt)" = 'AT_ONCE=none: expected a number of shards' ] && echo yes || cat err.txt)"
}

# by_kubernetes: the command of the manifest, with each index, where the volume is.
by_kubernetes() {
    python3 - "$scripts/kubernetes.yml" "$folder/volume" >pods.sh <<'END' || { echo 'skipped: the manifest for Kubernetes needs python3-yaml'; return; }
import shlex, sys
import yaml
job = yaml.safe_load(open(sys.argv[1]))["spec"]
(pod,) = job["template"]["spec"]["containers"]
assert job["completionMode"] == "Indexed" and job["parallelism"] <= job["completions"]
words = [word.replace("/campaign", sys.argv[2]) for word in pod["command"] + pod["args"]]
for index in range(job["completions"]):
    said = {one["name"]: one["value"] for one in pod["env"]} | {"JOB_COMPLETION_INDEX": str(index)}
    print(*(shlex.quote(f"{name}={value}") for name, value in said.items()), shlex.join(words), sep=" ")
END
    mkdir volume && cp -r "$scripts" volume && cp "$image" volume
    while read -r line; do eval "timeout 60 env $line" || echo failed; done <pods.sh >out.txt 2>err.txt
    check 'the pods of Kubernetes' "$([ ! -s out.txt ] && [ ! -s err.txt ] && [ "$(wc -l <pods.sh)" -eq 9 ] && echo yes || cat out.txt err.txt)"
    timeout 60 bash volume/cluster/merge.sh "$image" 9 volume/shards --ram 0x80000000:64 >out.txt 2>err.txt
    check 'what they kept' "$([ $? -eq 0 ] && [ "$(sed -n 's/^silent //p' out.txt)" = 75696 ] && echo yes || cat out.txt err.txt)"
}

other_words
throttled
if command -v python3 >/dev/null; then interrupted && progress && by_kubernetes; else echo 'skipped: Ctrl-C, progress and Kubernetes need python3'; fi

# --- By make ---

by_make() {
    local place='by make' before
    targets() { timeout 90 make -s -f "$scripts/Makefile" -C "$place" IMAGE="$image" SHARDS=$shards OPTIONS="${options[*]}" "$@" >out.txt 2>err.txt; }
    mkdir "$place"
    targets -j $shards &
    kills "$place" 2
    wait $!
    check 'make, whose shard is killed' "$([ $? -eq 2 ] && [ ! -e "$place/whole.keep" ] && echo yes || cat err.txt)"
    targets merge
    check 'make merge' "$([ $? -eq 2 ] && echo yes)"
    grep -v '^make' err.txt >said.txt
    partly 'what make merge says' said.txt
    before=$(traces "$place"/[134]-of-$shards.keep)
    targets -j $shards
    whole 'by make' "$place" out.txt
    check 'make ran the others once' "$([ "$(traces "$place"/[134]-of-$shards.keep)" = "$before" ] && echo yes)"
}

if command -v make >/dev/null; then by_make; else echo 'skipped: shards by make'; fi

# --- By ranges of cycles ---

by_cycles() {
    local place='by cycles' number before
    export SPLIT=cycles
    range() { timeout 60 bash "$scripts/shard.sh" "$1" "$image" $shards "$place" "${options[@]}" >out.txt 2>err.txt; }
    for number in 1 3; do
        range $number
        check "range $number" "$([ $? -eq 0 ] && [ ! -s err.txt ] && [ -e "$place/cycles-$number-of-$shards.keep" ] && echo yes || cat err.txt)"
    done
    merges "$place"
    check 'ranges that are missing' "$([ $? -eq 7 ] && [ "$(grep -c '^cycles [0-9]*\.\.[0-9]* ([24] of 4): missing$' err.txt)" -eq 2 ] && [ "$(wc -l <err.txt)" -eq 3 ] && echo yes || cat err.txt)"
    same 'progress of a folder of ranges' "; 2 of $shards ranges done, not begun: 2, 4" \
        "$(timeout 60 python3 -B "$top/tools/watch.py" "$place" --times 1 --program "$FAIL_STAR" 2>&1 | sed 's/.* jobs//')"
    for number in 2 4; do range $number; done
    merges "$place"
    whole 'by cycles' "$place" out.txt
    before=$(traces "$place"/*)
    range 2 && merges "$place"
    check 'ranges once more, and nothing is written' "$([ "$(traces "$place"/*)" = "$before" ] && cmp -s out.txt whole.txt && echo yes)"
    same 'progress of ranges that are done' "$jobs of $jobs jobs, all; $shards of $shards ranges done" \
        "$(timeout 60 python3 -B "$top/tools/watch.py" "$place" --times 1 --program "$FAIL_STAR" 2>&1 | cut -d ' ' -f 3-)"
    # More parts than instructions: those without an instruction have no file.
    mkdir few
    for number in 1 2; do timeout 60 bash "$scripts/shard.sh" $number "$image" 65535 few "${options[@]}"; done >out.txt 2>err.txt
    check 'a range without an instruction' "$([ ! -s err.txt ] && [ -z "$(ls few)" ] && echo yes || cat err.txt)"
    command -v make >/dev/null && {
        mkdir 'ranges by make'
        timeout 90 make -s -j 2 -f "$scripts/Makefile" -C 'ranges by make' IMAGE="$image" SHARDS=$shards OPTIONS="${options[*]}" >out.txt 2>err.txt
        whole 'ranges by make' 'ranges by make' out.txt
    }
    export SPLIT=shards
    SPLIT='' FAIL_WINDOW=none timeout 60 bash "$scripts/merge.sh" "$image" $shards 'by hand' "${options[@]}" >out.txt 2>err.txt
    check 'a folder of shards stays one' "$([ $? -eq 0 ] && cmp -s out.txt whole.txt && echo yes || cat err.txt)"
    SPLIT='' FAIL_WINDOW=none timeout 60 bash "$scripts/merge.sh" "$image" $shards 'new' "${options[@]}" >out.txt 2>err.txt
    check 'no fail_window' "$([ $? -eq 1 ] && grep -q '^no fail_window: set FAIL_WINDOW' err.txt && echo yes || cat err.txt)"
}

if [ -n "$FAIL_WINDOW" ]; then by_cycles; else echo 'skipped: ranges of cycles need fail_window'; fi

# --- By GNU parallel ---

# by_parallel PLACE: with a shard that is killed; parallel itself gives it again.
by_parallel() {
    local place=$1
    timeout 90 bash "$scripts/parallel.sh" "$image" $shards "$place" "${options[@]}" >parallel.txt 2>parallel.err &
    kills "$place" 2
    check "$1: a shard that is killed" "$([ $? -eq 0 ] && echo yes)"
    wait $!
    check "$1" "$([ $? -eq 0 ] && echo yes || cat parallel.err)"
    whole "$1" "$place" parallel.txt
}

if parallel --version 2>/dev/null | grep -q '^GNU parallel'; then
    by_parallel 'by parallel'
    # Stands for ssh: it writes the host down, and carries the command out here, with nothing of this environment but the mark.
    cat >ssh <<SSH
#!/usr/bin/env bash
echo "\$1" >>"$folder/hosts.txt"
shift
[ "\$1" != -- ] || shift
cd / && exec env -i "$mark" PATH="\$PATH" SHELL=/bin/bash HOME="$folder" bash -c "\$*"
SSH
    chmod 755 ssh
    printf '2/one.example\n2/two.example\n' >hosts
    PARALLEL_SSH=$folder/ssh HOSTS=hosts by_parallel 'by parallel on hosts'
    check 'both hosts had shards' "$([ "$(sort -u hosts.txt | tr '\n' ' ')" = 'one.example two.example ' ] && echo yes)"
else
    echo 'skipped: shards by GNU parallel'
fi

# --- By Slurm ---

# free_port: one that nothing answers on.
free_port() {
    local port
    while :; do
        port=$((RANDOM % 20000 + 20000))
        (: >"/dev/tcp/127.0.0.1/$port") 2>/dev/null || { echo $port; return; }
    done
}

daemons=()
# daemon WORD..: starts one, and remembers its number.
daemon() {
    "$@" >>"${1##*/}.log" 2>&1 &
    daemons+=($!)
}

idle() { [ "$(timeout 10 sinfo -h -o %T 2>/dev/null)" = idle ]; }
no_jobs() { [ "$(timeout 10 squeue -h 2>&1 && echo none)" = none ]; }

# begin_slurm: a cluster of one node with a key of its own.
begin_slurm() {
    mkdir state spool
    (umask 077 && head -c 128 /dev/urandom >munge.key)
    chmod 755 .
    cat >slurm.conf <<CONF
ClusterName=tried
SlurmctldHost=localhost(127.0.0.1)
SlurmctldPort=$(free_port)
SlurmdPort=$(free_port)
SlurmUser=root
AuthType=auth/munge
CredType=cred/munge
AuthInfo=socket=$folder/munge.socket
SlurmctldPidFile=$folder/slurmctld.pid
SlurmdPidFile=$folder/slurmd.pid
StateSaveLocation=$folder/state
SlurmdSpoolDir=$folder/spool
ProctrackType=proctrack/linuxproc
TaskPlugin=task/none
SelectType=select/cons_tres
SelectTypeParameters=CR_CPU
JobAcctGatherType=jobacct_gather/none
AccountingStorageType=accounting_storage/none
MpiDefault=none
KillWait=2
ReturnToService=2
NodeName=here NodeHostname=$(uname -n | cut -d. -f1) NodeAddr=127.0.0.1 CPUs=$(nproc)
PartitionName=all Nodes=ALL Default=YES
CONF
    export SLURM_CONF=$folder/slurm.conf
    daemon munged --foreground --key-file="$folder/munge.key" --socket="$folder/munge.socket" --pid-file="$folder/munged.pid" \
        --log-file="$folder/munged.log" --seed-file="$folder/munged.seed"
    soon test -S munge.socket
    daemon slurmctld -D -f "$folder/slurm.conf"
    daemon slurmd -D -f "$folder/slurm.conf" -N here
    soon idle
}

# end_slurm: jobs first, since they outlive the daemons; then these, the last one first.
end_slurm() {
    [ ${#daemons[@]} -gt 0 ] || return
    timeout 10 scancel --me 2>/dev/null
    soon no_jobs
    local i
    for ((i = ${#daemons[@]} - 1; i >= 0; i--)); do
        kill "${daemons[i]}" 2>/dev/null
        wait "${daemons[i]}" 2>/dev/null
    done
    daemons=()
}

by_slurm() {
    local place='by Slurm' array
    submit() { timeout 30 bash "$scripts/submit.sh" "$image" $shards "$place" "${options[@]}" >submit.txt 2>&1; }
    submit
    check 'an array is submitted' "$(grep -q "^array [0-9]*: shards 1-4$" submit.txt && echo yes || cat submit.txt)"
    array=$(sed -n 's/^array \([0-9]*\): .*/\1/p' submit.txt)
    soon amid "$place" 2 && timeout 10 scancel "${array}_2"
    check 'a shard is killed' "$([ $? -eq 0 ] && echo yes)"
    check 'the merge comes' "$(soon no_jobs && echo yes || squeue)"
    partly 'what it says' "$place/merge.log"
    submit
    check 'that shard alone is given again' "$(grep -q "^array [0-9]*: shards 2$" submit.txt && echo yes || cat submit.txt)"
    check 'the merge comes again' "$(soon no_jobs && echo yes || squeue)"
    whole 'by Slurm' "$place" "$place/merge.log"
    submit
    check 'a merge alone, where all shards are done' "$([ "$(cut -d' ' -f1 submit.txt)" = merge ] && soon no_jobs && cmp -s "$place/merge.log" whole.txt && echo yes || cat submit.txt)"
}

for tool in slurmctld slurmd munged sbatch; do command -v $tool >/dev/null || without="$tool"; done
[ "$(id -u)" -eq 0 ] || without='leave to be root'
if [ -n "${without:-}" ]; then
    echo "skipped: shards by Slurm need $without"
elif begin_slurm; then
    by_slurm
else
    check 'a cluster begins' "$(tail -n 3 munged.log slurmctld.log slurmd.log)"
fi

end_slurm
none_left() { [ -z "$(ours)" ]; }
check 'nothing is left running' "$(soon none_left && echo yes || for process in $(ours); do tr '\0' ' ' <"/proc/$process/cmdline"; done)"

echo "cluster: $passed passed, $failed failed"
[ "$failed" -eq 0 ]

# Sourced by the scripts of this folder: their common words, and the names of a campaign's files.
# FAIL_STAR names the program and FAIL_WINDOW the one for a part of a run; where one is not set, it is found by PATH.
# SPLIT says how jobs are divided: cycles (part I has the I-th of N equal ranges of instructions) or shards (every N-th job).

# Ctrl-C ends a script with the command that goes on. AGAIN has another one where a script was started by make.
again=("$0" "$@")
goes_on() {
    local quoted
    printf -v quoted ' %q' bash "${again[@]}"
    echo "interrupted; continue by: ${AGAIN:-${quoted# }}" >&2
    exit 130
}
trap goes_on INT

# refuse TEXT: the end, for words that are none.
refuse() {
    echo "$1" >&2
    sed -n 's/^# usage: /usage: /p' "$0" >&2
    exit 1
}

# campaign IMAGE N FOLDER [OPTION..]: sets image, shards and folder, and lists of the options by who takes them:
# asking (all commands), merging (these and --page) and running (these and --workers). `--fresh` is none: it would lose what a shard kept.
campaign() {
    [ $# -ge 3 ] || refuse "expected IMAGE, N and FOLDER"
    [ -f "$1" ] || refuse "$1: no image"
    [[ $2 =~ ^[1-9][0-9]{0,4}$ ]] && [ "$2" -le 65535 ] || refuse "$2: expected a number of shards, 1 to 65535"
    program=$(command -v "${FAIL_STAR:-fail_star}") || refuse "no program: set FAIL_STAR, or put fail_star on the path"
    program=$(realpath -- "$program")
    split=${SPLIT:-}
    [ -n "$split" ] || { split=cycles && compgen -G "$3/[1-9]*-of-$2.*" >/dev/null && split=shards; } || true
    [[ $split =~ ^(cycles|shards)$ ]] || refuse "SPLIT=$split: expected cycles or shards"
    window=$(command -v "${FAIL_WINDOW:-fail_window}") || [ "$split" = shards ] \
        || refuse "no fail_window: set FAIL_WINDOW, put it on the path, or set SPLIT=shards"
    window=${window:+$(realpath -- "$window")}
    image=$(realpath -- "$1")
    shards=$2
    folder=$3
    workers=4
    asking=()
    local option pages=()
    shift 3
    while [ $# -gt 0 ]; do
        option=$1
        shift
        case $option in
        --rom | --ram | --limit | --workers | --page)
            [ $# -gt 0 ] || refuse "$option: expected a value"
            option=$option=$1
            shift
            ;;
        esac
        case $option in
        --rom=* | --ram=* | --limit=* | --pc | --ram-code) asking+=("$option") ;;
        --page=*) pages=("$option") ;;
        --workers=*) workers=${option#*=} ;;
        *) refuse "$option: no option of a shard" ;;
        esac
    done
    [[ $workers =~ ^[1-9][0-9]?$ ]] || refuse "$workers: expected a number of workers, 1 to 64"
    merging=("${asking[@]}" "${pages[@]}")
    running=("${merging[@]}" "--workers=$workers")
    mkdir -p -- "$folder"
    folder=$(realpath -- "$folder")
    whole=$folder/whole.keep
}

# done_file I, part_file I: the file of a shard or of a range of cycles, once all its jobs are kept and before.
name_of() { [ "$split" = shards ] && echo "$1-of-$shards" || echo "cycles-$1-of-$shards"; }
done_file() { echo "$folder/$(name_of "$1").keep"; }
part_file() { echo "$folder/$(name_of "$1").part"; }

# counted: sets instructions, those of the run without a fault.
counted() {
    instructions=$("$program" plan "$image" "${asking[@]}" | sed -n 's/^instructions //p')
    [ -n "$instructions" ] || exit 1
}

# cycles_of I: sets start and end, the range of cycles of part I, which is empty if there are fewer instructions than parts.
cycles_of() {
    start=$((instructions * ($1 - 1) / shards))
    end=$((instructions * $1 / shards))
}

# called I: what part I is called in messages.
called() { [ "$split" = shards ] && echo "shard $1 of $shards" || echo "cycles $start..$end ($1 of $shards)"; }

# open_shards: the numbers of the shards that are not done.
open_shards() {
    local number
    for ((number = 1; number <= shards; number++)); do
        [ -e "$(done_file "$number")" ] || echo "$number"
    done
}

# try WORD..: the program's status and what it said. Its output is empty where the status is not 0, and its error output where it is.
try() {
    status=0
    case $1 in
    window) said=$("$window" "${@:2}" 2>&1) || status=$? ;;
    *) said=$("$program" "$@" 2>&1) || status=$? ;;
    esac
}

# try_on FILE WORD..: the same. A kill while a file is begun leaves one that is refused and has no row: it is put aside, and the program tries again.
try_on() {
    local file=$1
    shift
    try "$@"
    if [ $status -eq 6 ] && [ "$said" = 'campaign file refused: 1 NotACampaign' ]; then
        mv -f -- "$file" "$file.unbegun"
        try "$@"
    fi
}

# bash completion for the tools of fail_star, written by release/completions.py: options, their words, and files.

_fail_star_tools() {
    local word=${COMP_WORDS[COMP_CWORD]} before=${COMP_WORDS[COMP_CWORD - 1]} tool=${COMP_WORDS[0]##*/} options=
    # In --NAME=VALUE the mark is a word.
    if [ "$word" = = ]; then word=; elif [ "$before" = = ]; then before=${COMP_WORDS[COMP_CWORD - 2]}; fi
    COMPREPLY=()
    case "$tool $before" in
    'fail_star-check --workers') return ;;
    'fail_star-check --rom') return ;;
    'fail_star-check --ram') return ;;
    'fail_star-check --limit') return ;;
    'fail_star-check --cycles') return ;;
    'fail_star-check --code') return ;;
    'fail_star-check --function') return ;;
    'fail_star-compare --format') mapfile -t COMPREPLY < <(compgen -W 'text markdown json' -- "$word"); return ;;
    'fail_star-compare --cycles') return ;;
    'fail_star-compare --code') return ;;
    'fail_star-compare --function') return ;;
    'fail_star-compare --workers') return ;;
    'fail_star-compare --flip-rate') return ;;
    'fail_star-compare --fit-per-bit') return ;;
    'fail_star-compare --noticed') return ;;
    'fail_star-estimate --level') return ;;
    'fail_star-estimate --method') mapfile -t COMPREPLY < <(compgen -W 'wilson exact both' -- "$word"); return ;;
    'fail_star-estimate --format') mapfile -t COMPREPLY < <(compgen -W 'text json' -- "$word"); return ;;
    'fail_star-estimate --flip-rate') return ;;
    'fail_star-estimate --fit-per-bit') return ;;
    'fail_star-estimate --noticed') return ;;
    'fail_star-estimate --sites') return ;;
    'fail_star-fault_map --ram') return ;;
    'fail_star-fault_map --name') return ;;
    'fail_star-fault_map --cycles') return ;;
    'fail_star-fault_map --code') return ;;
    'fail_star-fault_map --function') return ;;
    'fail_star-keep_info --format') mapfile -t COMPREPLY < <(compgen -W 'text json' -- "$word"); return ;;
    'fail_star-plan --workers') return ;;
    'fail_star-plan --rom') return ;;
    'fail_star-plan --ram') return ;;
    'fail_star-plan --limit') return ;;
    'fail_star-plan --cycles') return ;;
    'fail_star-plan --code') return ;;
    'fail_star-plan --function') return ;;
    'fail_star-replay --disassembler') return ;;
    'fail_star-report --title') return ;;
    'fail_star-report --ram') return ;;
    'fail_star-report --ram2') return ;;
    'fail_star-report --workers') return ;;
    'fail_star-report --cycles') return ;;
    'fail_star-report --code') return ;;
    'fail_star-report --function') return ;;
    'fail_star-sample_places --count') return ;;
    'fail_star-sample_places --seed') return ;;
    'fail_star-sample_places --outcome') mapfile -t COMPREPLY < <(compgen -W 'no-effect silent detected illegal address misaligned timeout' -- "$word"); return ;;
    'fail_star-sample_places --level') return ;;
    'fail_star-sample_places --method') mapfile -t COMPREPLY < <(compgen -W 'wilson exact' -- "$word"); return ;;
    'fail_star-sample_places --top') return ;;
    'fail_star-sample_places --format') mapfile -t COMPREPLY < <(compgen -W 'text json' -- "$word"); return ;;
    'fail_star-sample_places --disassembler') return ;;
    'fail_star-sample_places --workers') return ;;
    'fail_star-sample_places --rom') return ;;
    'fail_star-sample_places --ram') return ;;
    'fail_star-sample_places --limit') return ;;
    'fail_star-sql --name') return ;;
    'fail_star-sql --workers') return ;;
    'fail_star-sweep --variant') return ;;
    'fail_star-sweep --flags') return ;;
    'fail_star-sweep --build') return ;;
    'fail_star-sweep --format') mapfile -t COMPREPLY < <(compgen -W 'text markdown csv json' -- "$word"); return ;;
    'fail_star-sweep --title') return ;;
    'fail_star-sweep --workers') return ;;
    'fail_star-watch --every') return ;;
    'fail_star-watch --times') return ;;
    'fail_star-where --outcome') return ;;
    'fail_star-where --top') return ;;
    'fail_star-where --format') mapfile -t COMPREPLY < <(compgen -W 'text json' -- "$word"); return ;;
    'fail_star-where --open') return ;;
    'fail_star-where --end') return ;;
    'fail_star-where --workers') return ;;
    'fail_star-where --class') return ;;
    'fail_star-where --disassembler') return ;;
    'fail_star-where --rom') return ;;
    'fail_star-where --ram') return ;;
    'fail_star-where --limit') return ;;
    'fail_star-where --cycles') return ;;
    'fail_star-where --code') return ;;
    'fail_star-where --function') return ;;
    'fail_star-again fail_star-again') mapfile -t COMPREPLY < <(compgen -W 'run report symbols audit merge export replay window answers' -- "$word"); return ;;
    esac
    case $tool in
    fail_star-again) options='-h --help --version --program --export --replay --window --answers' ;;
    fail_star-check) options='-h --help --version --junit --sarif --code-quality --markdown --sources --receipt --trace --keep --classes --answers --replay --workers --program --rom --ram --limit --ram-code --cycles --code --function' ;;
    fail_star-compare) options='-h --help --version --format --markdown --anyway --program --port-flips --cycles --code --function --classes --answers --replay --workers --metrics --flip-rate --fit-per-bit --noticed' ;;
    fail_star-estimate) options='-h --help --version --level --method --format --metrics --flip-rate --fit-per-bit --noticed --sites' ;;
    fail_star-explain) options='-h --help --version' ;;
    fail_star-fault_map) options='-h --help --version --ram --name -o --output --image --program --cycles --code --function' ;;
    fail_star-keep_info) options='-h --help --version --image --format' ;;
    fail_star-plan) options='-h --help --version --workers --pc --window --program --rom --ram --limit --ram-code --cycles --code --function' ;;
    fail_star-replay) options='-h --help --version --image --html --disassembler --replay' ;;
    fail_star-report) options='-h --help --version -o --output --title --compare --image --trace --keep --ram --image2 --trace2 --keep2 --ram2 --sources --classes --answers --replay --workers --objdump --program --cycles --code --function' ;;
    fail_star-sample_places) options='-h --help --version --count --seed --live --outcome --level --method --top --format --disassembler --workers --pc --program --rom --ram --limit --ram-code' ;;
    fail_star-sql) options='-h --help --version --name --replace --classes --answers --replay --workers --program' ;;
    fail_star-sweep) options='-h --help --version --variant --flags --build --into --format --markdown --page --title --program --classes --answers --replay --workers' ;;
    fail_star-version) options='-h --help --version --program' ;;
    fail_star-watch) options='-h --help --version --every --times --program' ;;
    fail_star-where) options='-h --help --version --outcome --top --format --open --end --classes --answers --replay --workers --class --diff --trace --other-trace --disassembler --program --rom --ram --limit --ram-code --cycles --code --function' ;;
    esac
    if [[ $word = -* ]]; then
        mapfile -t COMPREPLY < <(compgen -W "$options" -- "$word")
    else
        compopt -o filenames 2>/dev/null
        mapfile -t COMPREPLY < <(compgen -f -- "$word")
    fi
}
complete -F _fail_star_tools fail_star-again fail_star-check fail_star-compare fail_star-estimate fail_star-explain fail_star-fault_map fail_star-keep_info fail_star-plan fail_star-replay fail_star-report fail_star-sample_places fail_star-sql fail_star-sweep fail_star-version fail_star-watch fail_star-where

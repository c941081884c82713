# Sourced first by the scripts of the folders here. If a package of fail_star is installed, the script is started again
# with a path that has all but its programs, so that its calls see only the programs that it was given.

# has_ours FOLDER: whether it has a program or a tool of fail_star.
ours=(-name fail_star -o -name 'fail_star-*' -o -name fail_export -o -name fail_replay -o -name fail_debug -o -name fail_window -o -name fail_answers)
has_ours() { [ -n "$(find -H "$1" -mindepth 1 -maxdepth 1 \( "${ours[@]}" \) -print -quit 2>/dev/null)" ]; }

# without_ours: runs the script with such a path. A folder that has one is replaced by links to all else that it has.
without_ours() {
    local folders folder path=() links words
    # The words of the script, which may be sourcing this with others.
    mapfile -d '' -t words </proc/$$/cmdline
    IFS=: read -r -a folders <<<"$PATH"
    links=$(mktemp -d) || exit 2
    trap 'rm -rf "$links"' EXIT
    for folder in "${folders[@]}"; do
        if has_ours "$folder"; then
            mkdir "$links/${#path[@]}"
            find -H "$folder" -mindepth 1 -maxdepth 1 ! \( "${ours[@]}" \) -exec ln -s -t "$links/${#path[@]}" {} +
            folder=$links/${#path[@]}
        fi
        path+=("$folder")
    done
    PATH=$(IFS=: && echo "${path[*]}") "${words[@]}"
}

for one in fail_star fail_export fail_replay fail_debug fail_window fail_answers; do
    if command -v $one >/dev/null; then
        without_ours
        exit
    fi
done

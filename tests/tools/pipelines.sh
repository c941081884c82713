#!/usr/bin/env bash
# Runs the commands of the pipelines in examples/ci, as their engines do, on a project whose build copies an example:
# from an empty cache, with nothing changed, after a campaign that was cut off, with another image, and with a budget
# that does not hold. `make install` installs the program and the tools; scripts replace apt-get and sudo.
# usage: pipelines.sh PROGRAM
set -u
. "$(dirname "$0")/../checks.sh"
program=$(realpath "$1") || exit 2
for python in python3 /usr/bin/python3 none; do "$python" -c 'import yaml' 2>/dev/null && break; done
[ "$python" != none ] || { echo "skipped: pipelines are read by PyYAML (python3-yaml)"; exit 0; }
command -v make >/dev/null || { echo "skipped: pipelines need make"; exit 0; }
folder=$(mktemp -d) || exit 2
trap 'rm -rf "$folder"' EXIT
version=$(cat "$top/VERSION")
built=$top/examples/built
(cd "$top" && make -s install PREFIX="$folder/installed" PROGRAM="$program" EXPORT=none REPLAY=none) \
    >"$folder/out.txt" 2>&1 || { cat "$folder/out.txt"; exit 2; }
mkdir "$folder/bin" && cd "$folder" || exit 2
printf '#!/bin/sh\nexec "$@"\n' >bin/sudo
# The package is named as a file, and is there.
cat >bin/apt-get <<'END'
#!/usr/bin/env bash
echo "apt-get $*" >>"$APT_LOG"
for word in "$@"; do [[ $word != ./* ]] || [ -f "$word" ] || exit 100; done
END
chmod +x bin/*
export APT_LOG=$folder/apt.log PYTHONDONTWRITEBYTECODE=1 GITHUB_STEP_SUMMARY=$folder/summary.md
PATH=$folder/bin:$folder/installed/bin:$PATH

# project ENGINE: the folder of a project that uses a pipeline.
project() {
    mkdir -p "$folder/$1/ci" "$folder/$1/build" && cd "$folder/$1" || exit 2
    touch "ci/fail-star_${version}_amd64.deb"
    # The build copies the example that the file `source` names.
    printf 'build/firmware.elf: source\n\tcp "%s/$$(cat source)" $@\n' "$built" >Makefile
    source_is checksum.elf
    printf 'silent <= 75696\ninstructions <= 575\n' >ci/firmware.budget
}
source_is() { echo "$1" >source && rm -f build/firmware.elf; }
# pipeline: the status of a pipeline, whose folder has the results of none.
pipeline() {
    rm -rf results
    bash "$folder/said/run" >log.txt 2>&1
}
# handed: each file that is handed over and is not there.
handed() { while read -r path; do [ -e "$path" ] || echo "$path"; done <"$folder/said/uploads"; }
# ends NAME STATUS SILENT: what a pipeline comes to.
ends() {
    pipeline
    same "$engine, $1" "status $2, silent $3" \
        "status $?, $(sed -n 's/.*"silent": \([0-9]*\).*/silent \1/p' results/receipt.json)"
    same "$engine, $1: what is handed over" '' "$(handed)"
    same "$engine, $1: the verdict in JUnit" "$2" "$(grep -c '<failure' results/junit.xml)"
    if [ "$engine" = github ]; then
        same "$engine, $1: the verdict in the summary" "$2" "$(grep -c '\*\*broken\*\*' "$GITHUB_STEP_SUMMARY")"
        same "$engine, $1: alerts" "$2" "$(grep -c '"ruleId"' results/budget.sarif)"
    else
        same "$engine, $1: alerts" "$2" "$(grep -c '"fingerprint"' results/quality.json)"
    fi
    check "$engine, $1: the page" "$(grep -q "fail_star $version, " results/campaign.html && echo yes)"
}

for engine in gitlab github; do
    rm -rf "$folder/said" && mkdir "$folder/said" || exit 2
    got=$("$python" -B "$tests/pipelines.py" "$engine" "$top/examples/ci/$engine.yml" "$folder/said" 2>&1)
    same "$engine is read" 'status 0, ' "status $?, $got"
    cat "$folder/said/variables" "$folder/said/script" >"$folder/said/run"
    same "$engine caches" 'campaign' "$(cat "$folder/said/cached")"
    same "$engine names the package" "export PACKAGE=ci/fail-star_${version}_amd64.deb" \
        "$(grep PACKAGE= "$folder/said/variables")"
    project "$engine"
    : >"$APT_LOG"
    ends 'from nothing' 0 75696
    same "$engine installs" "apt-get update
apt-get install --yes --no-install-recommends make python3 ./ci/fail-star_${version}_amd64.deb" "$(cat "$APT_LOG")"
    cp campaign/firmware.keep whole.keep
    ends 'with nothing changed' 0 75696
    check "$engine: a complete campaign file is not written to" "$(cmp campaign/firmware.keep whole.keep && echo yes)"
    rm campaign/firmware.keep
    fail_star run build/firmware.elf campaign/firmware.keep --ram 0x80000000:64 --stop-after 5000 >out.txt 2>&1
    same "$engine: a campaign that was cut off" 7 $?
    cp campaign/firmware.keep part.keep
    ends 'after one that was cut off' 0 75696
    # All but the last byte stays, which was the closed gate of the next batch.
    check "$engine: it is continued" \
        "$(cmp -n $(($(wc -c <part.keep) - 1)) part.keep campaign/firmware.keep 2>&1 && echo yes)"
    source_is pin.elf
    ends 'another image' 0 0
    source_is checksum.elf
    echo 'silent <= 258' >ci/firmware.budget
    ends 'a budget that does not hold' 1 75696
    # KEEP names a source by mistake, or an image.
    for wrong in "$top/examples/checksum.c" build/firmware.elf; do
        cp "$wrong" campaign/firmware.keep
        pipeline
        same "$engine: $wrong in place of KEEP ends it" 'status 1, ' "status $?, $(ls results)"
        check "$engine: $wrong is not overwritten" "$(cmp "$wrong" campaign/firmware.keep 2>&1 && echo yes)"
        check "$engine: the log says what is wrong" \
            "$(grep -qx 'fail_star-keep_info: campaign/firmware.keep: 1 NotACampaign: it does not begin as a campaign file' log.txt && echo yes)"
    done
    rm campaign/firmware.keep
    source_is none.elf
    pipeline
    check "$engine: a build that fails ends it" "$([ $? -ne 0 ] && [ ! -e results ] && echo yes)"
    rm -f "ci/fail-star_${version}_amd64.deb"
    pipeline
    same "$engine: a package that is missing ends it" 100 $?
done

# The container is not built here: its package is one that dist/ has or that make dist would write.
copied=$(sed -n 's/^COPY \([^ ]*\) .*/\1/p' "$top/examples/docker/Containerfile")
# shellcheck disable=SC2053
check 'the package of the container' \
    "$([[ dist/fail-star_${version}_amd64.deb == $copied ]] && echo yes || echo "$copied")"

echo "$passed passed, $failed failed"
[ "$failed" -eq 0 ]

#!/usr/bin/env bash
# The tools as a package: types by mypy and lints by ruff or pyflakes, also of the tests; what pip installs; what twine
# says of the distributions; and read_campaign beside tables worked out by hand.
# usage: package.sh [PROGRAM]
set -u
. "$(dirname "$0")/../checks.sh"
program=
[ $# -eq 0 ] || program=$(realpath "$1") || exit 2
command -v python3 >/dev/null || { echo "skipped: the package needs python3"; exit 0; }
folder=$(mktemp -d) || exit 2
trap 'rm -rf "$folder"' EXIT
packed=(pyproject.toml VERSION README.md LICENSE-MIT LICENSE-APACHE tools)
(cd "$top" && cp -r "${packed[@]}" tests "$folder") && cd "$folder" || exit 2
find . -name __pycache__ -prune -exec rm -rf {} +

# --- Types and lints ------------------------------------------------------------------------------

if command -v mypy >/dev/null; then
    mypy --strict --cache-dir "$folder/mypy" >out.txt 2>&1
    same 'mypy --strict' 0 "$?$(grep 'error' out.txt)"
    MYPYPATH=tests/definitions:tests/program mypy --cache-dir "$folder/mypy" tests/*/*.py >out.txt 2>&1
    same 'mypy, the tests' 0 "$?$(grep 'error' out.txt)"
else
    echo "skipped: types are checked by mypy"
fi
if command -v ruff >/dev/null; then
    same 'ruff' '' "$(ruff check --no-cache --quiet tools tests 2>&1)"
elif command -v pyflakes3 >/dev/null; then
    same 'pyflakes' '' "$(pyflakes3 tools tests 2>&1)"
else
    echo "skipped: lints are looked for by ruff or pyflakes3"
fi

# --- pip ------------------------------------------------------------------------------------------

names=$(cd tools && ls ./*.py | sed 's/^..//; s/\.py$//')
listed=$(sed -n 's/^fail_star-\([a-z_]*\) = .*/\1/p' pyproject.toml)
same 'pyproject.toml has each command' "$names" "$listed"
# python_with MODULES: a Python that has these modules; another one than the first may be Debian's.
python_with() { for one in python3 /usr/bin/python3; do "$one" -c "import $1" 2>/dev/null && { echo "$one"; return; }; done; }
builder=$(python_with 'setuptools, wheel')
if [ -n "$builder" ] && "$builder" -m pip --version >out.txt 2>&1; then
    mkdir source && cp -r "${packed[@]}" source
    "$builder" -m pip install --disable-pip-version-check --quiet --no-index --no-build-isolation --no-deps --no-warn-script-location --root-user-action=ignore \
        --target "$folder/installed" "$folder/source" >out.txt 2>&1
    same 'pip install' 'status 0, ' "status $?, $(cat out.txt)"
    modules() { (cd "$1" && find fail_star_tools -name '*.py' | LC_ALL=C sort); }
    same 'the modules that are installed' "$(modules tools)" "$(modules installed)"
    for name in $names; do
        got=$(cd / && PYTHONPATH=$folder/installed "$builder" -B "$folder/installed/bin/fail_star-$name" --help 2>&1 | head -n 1)
        check "fail_star-$name says how it is used" "$([[ $got == usage:* ]] && echo yes)"
    done
    got=$(PYTHONPATH=$folder/installed python3 -c 'from importlib.metadata import version; print(version("fail_star_tools"))')
    same 'its version' "$(cat VERSION)" "$got"
    for name in LICENSE-MIT LICENSE-APACHE; do
        check "$name is installed" "$(find installed -name "$name" -exec cmp "$name" {} \; -exec echo yes \;)"
    done
    check 'type checkers may use the types' "$([ -f installed/fail_star_tools/py.typed ] && echo yes)"
else
    echo "skipped: pip install needs pip, setuptools and wheel"
fi
# Setuptools 66.1 is the first that puts VERSION into a source distribution. twine knows the metadata of its own one.
twine=$(command -v twine)
builder=$(sed -n '1s/^#! *\(.*python[^ ]*\).*/\1/p' "${twine:-/dev/null}")
if "${builder:-false}" -c 'import setuptools, wheel; assert [*map(int, setuptools.__version__.split(".")[:2])] >= [66, 1]' 2>/dev/null; then
    (cd source && rm -rf build tools/*.egg-info && "$builder" -c 'from setuptools import build_meta
build_meta.build_sdist("../packed")
build_meta.build_wheel("../packed")') >out.txt 2>&1
    same 'a source distribution and a wheel' 2 "$(ls packed | wc -l)"
    twine check --strict packed/* >out.txt 2>&1
    same 'twine check --strict' 'status 0' "status $?$(grep -i 'warning\|error' out.txt)"
else
    echo "skipped: distributions are checked by twine, with setuptools 66.1 or newer beside it"
fi

# --- read_campaign --------------------------------------------------------------------------------

# The table `overwrite` of tables.py: of no effect are 8 bits of x2 with a weight of 1 and 2 bits of x3 with a weight of 2.
python3 -B "$tests/tables.py" overwrite >table.csv
python3 -B "$tests/named_image.py" image.elf names
asker=python3
asks() { PYTHONPATH=$folder/tools "$asker" -B -c "from fail_star_tools import *
$1"; }
gives 'the first row' 0 "JobRow(cycle=2, cell=2, name='x2 sp', bit=0, weight=1, outcome='silent')" '' \
    asks 'print(read_campaign("table.csv", pandas=False)[0])'
gives 'silent sites by hand' 0 181 '' \
    asks 'print(sum(row.weight for row in read_campaign("table.csv", pandas=False) if row.outcome == "silent"))'
gives 'a byte of RAM without an image' 0 "{'0x80000000'}" '' \
    asks 'print({row.name for row in read_campaign("table.csv", pandas=False) if row.cell == 33})'
gives 'with an image' 0 "{'low'}" '' \
    asks 'print({row.name for row in read_campaign("table.csv", image="image.elf", pandas=False) if row.cell == 33})'
printf 'cycle,cell,bit,weight,outcome\n' >cut.csv
gives 'its columns without pandas' 0 "cycle cell name bit weight outcome $(awk -F, 'NR > 1 { sum += $4; last = $1 } END { print sum, last + 1 }' table.csv)" '' \
    asks 'table = read_campaign("table.csv", pandas=False); print(*table.names, sum(int(weight) for weight in table.column("weight")), table.attrs["instructions"])'
gives 'a table that is cut' 0 'cut.csv: line 2: expected a job, found the end' '' \
    asks 'try: read_campaign("cut.csv")
except Refusal as refusal: print(refusal)'
gives 'a file that is missing' 0 'none.csv: No such file or directory' '' \
    asks 'try: read_campaign("none.csv")
except Refusal as refusal: print(refusal)'
asker=$(python_with pandas)
if [ -n "$asker" ]; then
    gives 'a DataFrame' 0 $'no-effect 12\nsilent 181' '' asks 'sums = read_campaign("table.csv").groupby("outcome")["weight"].sum()
for outcome in ("no-effect", "silent"): print(outcome, sums[outcome])'
    gives 'its columns' 0 'cycle cell name bit weight outcome' '' asks 'print(*read_campaign("table.csv").columns)'
fi
asker=python3
if ! python3 -c 'import pandas' 2>/dev/null; then
    gives 'no pandas' 0 'read_campaign: pandas is not installed' '' asks 'try: read_campaign("table.csv", pandas=True)
except Refusal as refusal: print(refusal)'
    gives 'rows without pandas' 0 'JobTable JobRow' '' asks 'table = read_campaign("table.csv"); print(type(table).__name__, type(table[-1]).__name__)'
fi
if [ -n "$program" ]; then
    PYTHONDONTWRITEBYTECODE=1 "$program" run "$top/examples/built/pin.elf" pin.keep --ram 0x80000000:64 >report.txt
    for outcome in silent detected address; do
        same "$outcome sites of a campaign file" "$(sed -n "s/^$outcome //p" report.txt)" \
            "$(asks "print(sum(row.weight for row in read_campaign('pin.keep', program='$program', pandas=False) if row.outcome == '$outcome'))")"
    done
    got=$(asks "print(*sorted({row.name for row in read_campaign('pin.keep', '$top/examples/built/pin.elf', '$program', False) if row.cell >= 32}))")
    same 'names of a campaign file' 'entered kept' "$got"
    # The same rows with numpy and without it, and as `report` writes them.
    "$program" report "$top/examples/built/pin.elf" pin.keep --ram 0x80000000:64 --format csv | sed 1d >wanted.csv
    rows="for row in read_campaign('pin.keep', '$top/examples/built/pin.elf', '$program', False): print(row.cycle, row.cell, row.bit, row.weight, row.outcome, sep=',')"
    for asker in python3 $(python_with numpy); do
        same "the rows of a campaign file, by $asker" "$(cat wanted.csv)" "$(asks "$rows")"
        same "what is known of it, by $asker" \
            "$(awk '{ count[$1] = $2 } END { print count["instructions"], count["sites"] }' report.txt) $(($(sed -n 's/^sites //p' report.txt) - $(awk -F, '{ sum += $4 } END { print sum }' wanted.csv))) 1000000 [] $(sha256sum pin.keep | cut -d' ' -f1)" \
            "$(asks "attrs = read_campaign('pin.keep', program='$program', pandas=False).attrs; print(*(attrs[key] for key in ('instructions', 'sites', 'dead', 'limit', 'flags', 'sha256')))")"
        # Functions by the tool that has a way of its own.
        same "functions of a campaign file, by $asker" \
            "$(python3 -B "$top/tools/where.py" "$top/examples/built/pin.elf" pin.keep --program "$program" --disassembler none --format json |
                python3 -c 'import json, sys; print(sorted((row["name"], row["sites"]) for row in json.load(sys.stdin)["by"]["function"]))')" \
            "$(asks "table = read_campaign('pin.keep', '$top/examples/built/pin.elf', '$program', False)
sums = {}
for row, function in zip(table, table.column('function')): sums[function] = sums.get(function, 0) + row.weight * (row.outcome == 'silent')
print(sorted((name, sites) for name, sites in sums.items() if sites))")"
    done
fi

echo "$passed passed, $failed failed"
[ "$failed" -eq 0 ]

#!/usr/bin/env bash
# Runs the commands of README.md, on copies of what they need, and compares all that each prints with what README says; its picture and
# the two numbers below it must be what they give. The given program runs the words of `rt run -- WORDS` and `rt try -- WORDS`. Then it compares
# what the documents say of the crates with crates.txt.
# usage: readme.sh PROGRAM
set -u
. "$(dirname "$0")/../only_given.sh"
program=$(realpath "$1") || exit 2
cd "$(dirname "$0")/../.." || exit 2
top=$PWD
folder=$(mktemp -d) || exit 2
trap 'rm -rf "$folder"' EXIT
mkdir -p "$folder/bin" "$folder/crates/fail_star" && ln -s "$program" "$folder/bin/fail_star" || exit 2
cp -r examples tools docs "$folder" && { [ ! -d dist ] || cp -r dist "$folder"; } && cp -r crates/fail_star/data "$folder/crates/fail_star" || exit 2
rm -rf "$folder/examples/out" "$folder"/examples/*.{keep,csv,svg,txt}
# Stands for the kit's rt: what it builds is the given program, which gets the words behind --.
cat >"$folder/bin/rt" <<'RT'
#!/usr/bin/env bash
case $1:$2 in
run:-- | try:--) exec fail_star "${@:3}" ;;
*) echo "rt $1: not tried here"; exit 1 ;;
esac
RT
chmod 755 "$folder/bin/rt"
PATH=$folder/bin:$PATH
command -v python3 >/dev/null || { no_python=yes; echo "skipped: README's commands on pictures and tables need python3"; }

. "$top/tests/tools/console.sh"

if ! ls dist/*.tar.xz >/dev/null 2>&1 || ! command -v xz >/dev/null; then
    no_release=yes
    echo "skipped: README's commands on dist/ need a release there, and xz"
fi

# unable: whether the command that was read needs what is not there.
unable() {
    [ -n "${no_release:-}" ] && [[ $command == *dist/* || $command == fail_star-[0-9]* ]] && return
    [ -n "${no_python:-}" ] && [[ $command == *python3* ]]
}

# The command that proves and builds has no output in README: it prints what the stored run prints.
cd "$folder" || exit 2
first=$(grep -m 1 '^(cd crates/fail_star && rt run ' "$top/README.md")
compare "$first" "$(cat "$top/crates/fail_star/stdout")" "$(bash -c "$first" 2>&1)"

run_page "$top/README.md"

# silent IMAGE KEEP: the silent sites of a campaign file, as a report has them.
silent() { fail_star report "$1" "$2" --ram 0x80000000:64 2>&1 | sed -n 's/^silent //p'; }
said=$(sed -n 's/^Orange flips give a wrong answer: \([0-9,]*\) if a CRC-32 is computed once, \([0-9,]*\) if it .*/\1 \2/p' "$top/README.md")
compare "the silent sites of both pictures" "${said//,/}" "$(silent built/checksum.elf plain.keep) $(silent built/checksum_twice.elf twice.keep)"

if [ -z "${no_python:-}" ]; then
    compare "docs/plain_twice.svg, the picture" same "$(cmp "$top/docs/plain_twice.svg" maps.svg 2>&1 && echo same)"
    compare "docs/dev/crates.svg, the crates as crates.txt has them" same "$(python3 -B "$top/docs/dev/crate_graph.py" | cmp - "$top/docs/dev/crates.svg" 2>&1 && echo same)"
fi

# Each crate has a place of its own in PROOFS.md and in ARCHITECTURE.md.
crates=$(grep -oE '^[a-z_]+' "$top/crates.txt")
for page in PROOFS dev/ARCHITECTURE; do
    unnamed=$(for crate in $crates; do grep -qF "**$crate**" "$top/docs/$page.md" || echo "$crate"; done)
    compare "crates without a place in $page.md" "" "$unnamed"
done

# A file that a page names by its crate or folder is there.
cd "$top" || exit 2
for page in README.md docs/*.md docs/dev/*.md bench/README.md tests/README.md; do
    gone=$(grep -oE '`[a-z_]+/[A-Za-z0-9_/.]+\.(rt|antt|edit|py|sh|md|svg)`' "$page" | tr -d '`' | sort -u | while read -r file; do
        case $file in
        src/* | specs/* | proofs/* | memory/*) ;;
        *) [ -e "$file" ] || [ -e "crates/$file" ] || echo "$file" ;;
        esac
    done)
    compare "files that $page names and that are not there" "" "$gone"
done

# Pages stay short: each has at most this number of words.
while read -r most page; do
    words=$(wc -w <"$page")
    compare "$page has at most $most words" yes "$([ "$words" -le "$most" ] && echo yes || echo "$words")"
done <<'LIMITS'
600 README.md
1800 docs/GUIDE.md
4000 docs/HOWTO.md
900 docs/CLUSTER.md
4000 docs/FORMATS.md
900 docs/GLOSSARY.md
1600 docs/MODEL.md
700 docs/METRICS.md
2000 docs/PROOFS.md
1600 docs/dev/ARCHITECTURE.md
3000 docs/dev/DECISIONS.md
1200 docs/dev/PERFORMANCE.md
1300 docs/dev/WORKING.md
LIMITS

# Each page that a link of a page leads to is there, with the heading that the link names; and README leads to each page.
compare "links that lead nowhere" "" "$(python3 -B "$top/tests/tools/links.py" "$top")"
finish

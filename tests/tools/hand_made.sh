# Sourced by where.sh, classes.sh, answers.sh, budget.sh and alerts.sh, with a program's name or none: makes a folder with a copy of the tools, and in it
# the table `overwrite` of tables.py, of eight instructions, with images, line tables and a trace that were made by hand.
. "$(dirname "$0")/../checks.sh"
program=
[ $# -eq 0 ] || program=$(realpath "$1") || exit 2
python=$(python3 -c 'import sys; print(sys.executable)')
folder=$(mktemp -d) || exit 2
trap 'rm -rf "$folder"' EXIT
# A copy of the tools, beside which no program is, and no disassembler and no program on the path, until these are named.
cp -r "$top/tools" "$folder" && cd "$folder" || exit 2
everything=$PATH
mkdir bin && ln -s "$(command -v env)" "$(command -v timeout)" bin && few=$folder/bin

# The standard library alone: -S leaves out what was installed beside it.
tool() { PATH=$few timeout 60 "$python" -S "tools/$1.py" "${@:2}"; }
where() { tool where "$@"; }
budget() { tool check "$@"; }

# Of the table's 181 silent sites 24 are read by the store at 20000008, 2 by the one at 2000000c, 58 by the load at 20000010 (2 of its
# address, 16, 8, 16 and 16 of the bytes), 65 by the store to the port (1 and 64), and 32 by the one that halts. 376 sites are live, and
# 8 * (992 + 8 * 16) = 8960 there are. Of x3 there are 60, 30 and 30 traps, 4, 2 and 2 of them misaligned; of x1 30 address, and 32 with 2
# misaligned; one site of x1 is detected.
python3 -B "$tests/tables.py" overwrite >before.csv
sed 's/address\|misaligned/trap/' before.csv >old.csv
image() { python3 -B "$tests/named_image.py" "$@"; }
image image.elf names lines5
image two.elf names lines2
image zipped.elf lines5 names zipped
image bare.elf
words=(800001b7 04100113 0021a023 000180a3 0001a203 f00000b7 00408023 0040a423)
{
    for at in 0 1 2 3 4 5 6 7; do printf '%d %08x %s\n' $at $((0x20000000 + 4 * at)) "${words[at]}"; done
    printf 'output 41\nend halted 65\n'
} >trace.txt
ram=0x80000000:16

# Where the 96 silent sites of x4 are: 64 are read by the store to the port, and 32 by the store that halts.
places_of_x4='function  sites   share
finish       96  1.07 %

line       sites    share
a.c:9         64  0.714 %
(no line)     32  0.357 %

instruction         sites    share
20000018  00408023     64  0.714 %
2000001c  0040a423     32  0.357 %

register  sites   share
x4 tp        96  1.07 %'

# A fail_replay in the folder bin, whose answers follow from the cell of a site.
fake_replay() {
    cat >bin/fail_replay <<'END'
#!/bin/sh
[ "$1" = --brief ] || exit 1
shift 2
while [ $# -gt 2 ] && [ "${1#--}" = "$1" ]; do
    case $2 in 4) sent=42 ;; 2) sent=410a ;; *) sent=41 ;; esac
    printf 'site %s %s %s\ndiffers pc - registers %s output -\noutput %s\nend halted %s\noutcome silent\n' $1 $2 $3 $1 $sent $(($2 > 32))
    shift 3
done
END
    chmod +x bin/fail_replay
}

# A fail_answers in the folder bin, which says the same of the jobs of the table that have the outcomes.
fake_answers() {
    cat >bin/fail_answers <<END
#!/bin/sh
PATH=$everything
[ "\$3" = --outcome ] || exit 1
exec awk -F, -v list=",\$4," 'NR > 1 && index(list, "," \$5 ",") {
    print \$1, \$2, \$3, \$4, \$5, \$2 == 4 ? "42" : \$2 == 2 ? "410a" : "41", "halted " (\$2 > 32)
}' "$folder/before.csv"
END
    chmod +x bin/fail_answers
}

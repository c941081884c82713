#!/usr/bin/env bash
# tools/replay.py: registers and bytes beside the reference's machine, for sites of the examples drawn by a fixed seed; a replay worked out by
# hand; its page, read as XML; and how it ends otherwise.
# usage: replay_eyes.sh PROGRAM REPLAY
set -u
[ $# -eq 2 ] && [ -n "$2" ] || { echo "skipped: replays with registers need fail_star and fail_replay"; exit 0; }
program=$(realpath "$1") && called=$(realpath "$2") || exit 2
. "$(dirname "$0")/../checks.sh"
command -v python3 >/dev/null || { echo "skipped: tools needs python3"; exit 0; }
folder=$(mktemp -d) || exit 2
trap 'rm -rf "$folder"' EXIT
cd "$folder" || exit 2
eyes() { timeout 60 python3 -B "$top/tools/replay.py" "$@" --replay "$called"; }
built=$top/examples/built

for pair in boot_wide:64 pin_twice:64 sort:64 cipher:256 frame:64; do
    name=${pair%:*}
    "$program" run "$built/$name.elf" $name.keep --ram 0x80000000:${pair#*:} --limit 3000 --stop-after 0 >/dev/null 2>&1
    got=$(timeout 300 python3 -B "$tests/replay_eyes.py" "$top/tools" "$built/$name.elf" $name.keep "$called" 0x80000000:${pair#*:} 40 2>&1)
    same "registers and bytes of $name" '40 sites, 0 wrong' "$got"
done

# lui x1,0xF0000; addi x2,x0,65; sb x2,0(x1); sw x0,8(x1): a flip of bit 1 of x2 before the byte is sent.
python3 -B -c 'import known; open("send.elf", "wb").write(known.image(known.SEND))'
"$program" run send.elf send.keep --ram 0x80000000:16 >/dev/null 2>&1
gives 'by hand' 0 '      2 20000008  00208023
            flip of x2 sp, bit 1
      3 2000000c  0000a423
differs pc - registers 2 output 3
output 43
end halted 0
outcome silent' '' eyes send.keep 2 2 1
# Bit 3 makes the halt port of the output port.
gives 'an early end' 0 '      1 20000004  04100113
            flip of x1 ra, bit 3
      2 20000008  00208023
differs pc - registers 1 output -
output -
end halted 65
outcome silent' '' eyes send.keep 1 1 3
gives 'no site' 1 '' 'replay.py: fail_replay: no such site: cycle 9 cell 2 bit 1
  the run without a fault has no instruction 9, counted from 0: `fail_star trace` shows all that it has.' eyes send.keep 9 2 1
gives 'no campaign file' 1 '' 'replay.py: none.keep: No such file or directory' eyes none.keep 2 2 1
eyes boot_wide.keep 77 1 5 --image "$built/boot_wide.elf" --disassembler none >text.txt 2>err.txt
same 'a function and a line' '     78 20000070  3c5aa537                           tag_ok+52 boot_wide.c:6' "$(sed -n 3p text.txt)"
# The tag of the firmware is its FNV-1a hash, 2cacdcbd.
same 'a register that differs' '            x10 a0 = 3c5aa000, without the fault 2cacdcbd' "$(sed -n 5p text.txt)"
export SOURCE_DATE_EPOCH=1000000000
# page_says FILE: what a page shows, in this order: its headings, the rows of the outcome, how many rows are not in a fold, how many are,
# how many instructions it omits, and whether it has at most 400,000 bytes.
page_says() {
    python3 - "$1" <<'END'
import os, re, sys, xml.etree.ElementTree as tree
text = open(sys.argv[1], encoding="utf-8").read()
HTML = "{http://www.w3.org/1999/xhtml}"
root = tree.fromstring(text.replace("<!DOCTYPE html>", ""))
print(*("".join(part.itertext()) for part in root.iter() if part.tag in (HTML + "h1", HTML + "h2")), sep="; ")
facts = next(table for table in root.iter(HTML + "table") if table.get("class") == "facts")
print(*(" ".join("".join(cell.itertext()) for cell in row) for row in facts.iter(HTML + "tr")), sep="; ")
steps = next(table for table in root.iter(HTML + "table") if table.get("class") == "steps")
print(*("".join(cell.itertext()) for cell in steps.find(HTML + "thead").iter(HTML + "th")), sep="; ")
rows = [row for row in steps.iter(HTML + "tr") if row.get("class") == "step"]
folded = [row for fold in steps.iter(HTML + "details") for row in fold.iter(HTML + "tr") if row.get("class") == "step"]
omitted = sum(int(count.replace(",", "")) for count in re.findall(r"([0-9,]+) instructions are omitted here", text))
print(len(rows) - len(folded), "rows,", len(folded), "folded,", omitted, "omitted,", len(rows) + omitted, "in all,",
      len(text) <= 400_000, all("differs" not in "".join(row.itertext()) and row.find(f".//{HTML}div") is None for row in folded))
END
}
eyes boot_wide.keep 77 1 5 --image "$built/boot_wide.elf" --disassembler none --html page.html >out.txt 2>&1
# The run has the 16 instructions 77 to 92; the text omits those that the page folds.
omitted=$(sed -n 's/^ *\.\. \([0-9]*\) more$/\1/p' text.txt | awk '{ sum += $1 } END { print sum + 0 }')
same 'the page, whose outcome comes first' "Bit 5 of x1 ra at instruction 77 of boot_wide; Outcome; What was replayed; Instructions
$(sed -n 's/^outcome /outcome /p' text.txt); $(sed -n 's/^end /end /p' text.txt); $(sed -n 's/^output /output /p' text.txt); first difference, by instruction $(sed -n 's/^differs //; T; s/ registers/, registers/; s/ output/, output/p' text.txt); instructions 16 from the flip on, 77 to 92
instruction; address; word; place; what differs
$((16 - omitted)) rows, $omitted folded, 0 omitted, 16 in all, True True" "$(page_says page.html)"
check 'its version and date' "$(grep -qF "fail_star $(cat "$top/VERSION"), 2001-09-09 01:46 UTC" page.html && echo yes)"
check 'its image' "$(grep -qF "$(sha256sum <"$built/boot_wide.elf" | cut -d ' ' -f 1)" page.html && echo yes)"
check 'its command' "$(grep -qF ">fail_replay $built/boot_wide.elf 77 1 5 --rom 0x20000000:65536 --ram 0x80000000:64 --limit 3000<" page.html && echo yes)"
# Bit 31 of the counter of bits: the loop does not end before the limit of 100,000 instructions.
"$program" run "$built/checksum.elf" long.keep --ram 0x80000000:64 --limit 100000 --stop-after 0 >/dev/null 2>&1
eyes long.keep 100 13 31 --html long.html >out.txt 2>&1
same 'the page of a long run' '99900 in all, True True, outcome timeout' "$(page_says long.html | sed -n 's/.* omitted, //p'), $(page_says long.html | grep -o '^outcome [a-z]*')"
check 'what it omits' "$([ "$(page_says long.html | sed -n 's/.* folded, \([0-9]*\) omitted.*/\1/p')" -ge 98000 ] && echo yes)"

echo "$passed passed, $failed failed"
[ "$failed" -eq 0 ]

#!/usr/bin/env bash
# Draws docs/page.png anew: the page of the checksum and its duplicated variant, as a browser shows it 1280 points wide.
# usage: docs/page.sh PROGRAM     needs chromium and Debian's pngquant; SOURCE_DATE_EPOCH is the date on the page
set -eu
program=$(realpath "$1")
here=$(realpath "$(dirname "$0")")
examples=$here/../examples/built
height=${HEIGHT:-2330}
folder=$(mktemp -d)
trap 'rm -rf "$folder"' EXIT
cd "$folder"
for name in checksum checksum_twice; do
    "$program" run "$examples/$name.elf" "$name.keep" --ram 0x80000000:64 >report.txt
done
python3 -B "$here/../tools/report.py" checksum.keep --image "$examples/checksum.elf" --compare checksum_twice.keep \
    --image2 "$examples/checksum_twice.elf" --program "$program" -o page.html
chromium --headless --no-sandbox --disable-gpu --hide-scrollbars --window-size=1280,"$height" --screenshot=page.png page.html >chromium.txt 2>&1
pngquant --force --output "$here/page.png" 32 page.png

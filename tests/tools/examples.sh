#!/usr/bin/env bash
# What examples/ has for programs of one's own: the functions of mem.c, compared with those of this computer's C library; a program that
# copies structures, built with several flags; the sizes of ROM and RAM; and print.c by picolibc.
# usage: examples.sh PROGRAM
# Without a compiler for RISC-V, or for this computer, or without picolibc it says what it skips.
set -u
. "$(dirname "$0")/../checks.sh"
program=$(realpath "$1") || exit 2
folder=$(mktemp -d) || exit 2
trap 'rm -rf "$folder"' EXIT
cp "$top"/examples/*.{c,h,S,ld} "$top/examples/Makefile" "$folder" && cd "$folder" || exit 2

# --- The functions of mem.c -----------------------------------------------------------------------

cat >compare.c <<'END'
/* For all short pieces of a buffer: our functions beside the C library's. */
#include <stdio.h>
#include <string.h>
void *our_memcpy(void *, const void *, size_t), *our_memmove(void *, const void *, size_t), *our_memset(void *, int, size_t);
int our_memcmp(const void *, const void *, size_t);
enum { SIZE = 12 };
static unsigned char ours[SIZE], theirs[SIZE];
static int failed;
static int sign(int value) { return (value > 0) - (value < 0); }
static void fill(void) { for (int i = 0; i < SIZE; i++) ours[i] = theirs[i] = (unsigned char)(i * 97 % 5 + 126); }
static void expect(int holds, const char *name) { if (!holds || memcmp(ours, theirs, SIZE) != 0) failed++, puts(name); }
int main(void) {
    for (int to = 0; to < SIZE; to++) for (int from = 0; from < SIZE; from++)
        for (int bytes = 0; to + bytes <= SIZE && from + bytes <= SIZE; bytes++) {
            fill();
            memmove(theirs + to, theirs + from, bytes);
            expect(our_memmove(ours + to, ours + from, bytes) == ours + to, "memmove");
            fill();
            memset(theirs + to, 0x1A0 + from, bytes);
            expect(our_memset(ours + to, 0x1A0 + from, bytes) == ours + to, "memset");
            fill();
            expect(sign(our_memcmp(ours + to, ours + from, bytes)) == sign(memcmp(theirs + to, theirs + from, bytes)), "memcmp");
            if (from + bytes > to && to + bytes > from) continue;
            memcpy(theirs + to, theirs + from, bytes);
            expect(our_memcpy(ours + to, ours + from, bytes) == ours + to, "memcpy");
        }
    return failed != 0;
}
END
if command -v cc >/dev/null; then
    names=(-Dmemcpy=our_memcpy -Dmemmove=our_memmove -Dmemset=our_memset -Dmemcmp=our_memcmp)
    cc -O1 -ffreestanding "${names[@]}" -c mem.c -o ours.o && cc compare.c ours.o -o compare
    same 'the functions of mem.c' 'status 0, ' "status $?, $(timeout 60 ./compare || echo differs)"
else
    echo 'skipped: the functions of mem.c need a compiler for this computer'
fi

# --- Programs for the machine ---------------------------------------------------------------------

cat >copies.c <<'END'
#include "port.h"
struct part { uint32_t words[30]; };
static volatile uint32_t input = 20;
static struct part from, to;
__attribute__((noipa)) static void copy(struct part *target, const struct part *source) { *target = *source; }
__attribute__((noreturn)) void main(void) {
    struct part clear = {{0}};
    copy(&from, &clear);
    from.words[29] = input;
    copy(&to, &from);
    out((uint8_t)to.words[29]);
    halt(to.words[28]);
}
END
# runs RAM IMAGE: how the run without a fault ends, and what it sends.
runs() { timeout 60 "$program" trace "$2" --ram "0x80000000:$1" 2>&1 | tail -n 2 | tr '\n' ' '; }
makes() { timeout 120 make -s "$@" >log.txt 2>&1 || cat log.txt; }

if command -v make >/dev/null && command -v riscv64-unknown-elf-gcc >/dev/null; then
    for flags in -O0 -O2 -Os '-O2 -flto'; do
        rm -rf flags
        makes BUILD=flags RAM=1024 CFLAGS="$flags -g" flags/copies.elf
        same "structures, $flags" 'output 14 end halted 0 ' "$(runs 1024 flags/copies.elf)"
    done
    makes out/checksum.elf
    same 'a program that copies nothing' '' "$(riscv64-unknown-elf-nm out/checksum.elf | grep -i ' mem')"
    # 70,000 bytes of constants need more ROM than 65,536 bytes.
    printf '#include "port.h"\nstatic const uint8_t many[70000] = {1, [69999] = 7};\nstatic volatile uint32_t last = 69999;\n__attribute__((noreturn)) void main(void) { out(many[last]); halt(0); }\n' >long.c
    check 'code that is longer than ROM' "$(makes out/long.elf | grep -q "region \`rom' overflowed" && echo yes || cat log.txt)"
    makes ROM=131072 out/long.elf
    same 'a larger ROM' 'output 07 end halted 0 ' "$(timeout 60 "$program" trace out/long.elf --rom 0x20000000:131072 2>&1 | tail -n 2 | tr '\n' ' ')"
    makes ROM=131072 SCRIPT=flash.ld MORE=-DCOPY_DATA BUILD=flash flash/long.elf
    same 'a larger ROM by flash.ld' 'output 07 end halted 0 ' "$(timeout 60 "$program" trace flash/long.elf --rom 0x20000000:131072 2>&1 | tail -n 2 | tr '\n' ' ')"
    if riscv64-unknown-elf-gcc --specs=picolibc.specs -E -x c /dev/null >/dev/null 2>&1; then
        makes RAM=256 out/print.elf
        same 'printf by picolibc' 'output 34320a end halted 0 ' "$(runs 256 out/print.elf)"
    else
        echo 'skipped: printf needs picolibc-riscv64-unknown-elf'
    fi
else
    echo 'skipped: programs for the machine need make and riscv64-unknown-elf-gcc'
fi

echo "$passed passed, $failed failed"
[ "$failed" -eq 0 ]

#!/usr/bin/env bash
# Tests one release: its sums and its version; its programs, compared with the given ones; and its package, installed
# into a root of its own, where a user without kit and sources follows README's first section and the guide.
# release.sh calls it.
# usage: released.sh FOLDER [PROGRAM [EXPORT [REPLAY [DEBUG [WINDOW [ANSWERS]]]]]]
# A release has the programs that its file RELEASE names: those before 1.1.0 have no fail_debug, those up to 1.2.0 no
# fail_window, and those up to 1.4.0 no fail_answers.
# With PLAIN=yes the package is used from its folder, as if no file system could be mounted.
set -u
. "$(dirname "$0")/../checks.sh"
release=$(realpath "$1") || exit 2
given=([1]="${2:-}" [2]="${3:-}" [3]="${4:-}" [4]="${5:-}" [5]="${6:-}" [6]="${7:-}")
names=([1]=fail_star [2]=fail_export [3]=fail_replay [4]=fail_debug [5]=fail_window [6]=fail_answers)
work=$(mktemp -d) || exit 2
trap 'rm -rf "$work"' EXIT
cd "$work" || exit 2
version=$(cat "$top/VERSION")
most_bytes=3000000
package=$release/fail-star_${version}_amd64.deb
tarball=$release/fail_star-$version-linux-x86_64.tar.xz

# --- Its files ------------------------------------------------------------------------------------

same 'the files of the release' "RELEASE SHA256SUMS $(basename "$package") $(basename "$tarball")" \
    "$(cd "$release" && find . -type f | sed 's/^..//' | LC_ALL=C sort | tr '\n' ' ' | sed 's/ $//')"
same 'its sums' '' "$(cd "$release" && sha256sum --check --quiet SHA256SUMS 2>&1)"
# said WORD: what RELEASE says.
said() { sed -n "s/^$1 //p" "$release/RELEASE"; }
same 'its version' "$version" "$(said version)"
same "the package's version" "$version" "$(dpkg-deb -f "$package" Version)"
# The tests also make one of the programs that Rattle's own compiler builds. These are larger, and are never released.
if [ "$release" = "$(realpath "$top/dist")" ]; then
    check 'it is small' "$([ "$(cat "$release"/* | wc -c)" -lt $most_bytes ] && echo yes)"
fi
dpkg-deb -x "$package" unpacked && tar -xf "$tarball" || exit 2
# What only Debian wants, and the two texts that its package has in one file.
apart='^Only in .*(: (lintian|changelog\.gz|copyright)|/share/doc/fail-star: LICENSE-(MIT|APACHE))$'
same 'the tarball has the files of the package' '' \
    "$(diff -r --no-dereference unpacked/usr "fail_star-$version" 2>&1 | grep -vE "$apart")"
same 'all is owned by root' 'root/root' "$(dpkg-deb -c "$package" | awk '{ print $2 }' | sort -u)"
same 'the sums in the package' '' \
    "$(dpkg-deb -e "$package" control && cd unpacked && md5sum --check --quiet ../control/md5sums 2>&1)"
bin=$work/unpacked/usr/bin
numbers=()
for number in 1 2 3 4 5 6; do [ -z "$(said "${names[number]}")" ] || numbers+=("$number"); done
same 'the programs that RELEASE names' "$(cd "$bin" && printf '%s\n' fail_{answers,debug,export,replay,star,window} | while read -r name; do [ ! -e "$name" ] || echo "$name"; done)" \
    "$(for number in "${numbers[@]}"; do echo "${names[number]}"; done | LC_ALL=C sort)"
for number in "${numbers[@]}"; do
    name=${names[number]}
    same "the sum of $name" "$(said "$name")" "$(sha256sum "$bin/$name" | cut -d ' ' -f 1)"
    needs=$(objdump -T "$bin/$name" | sed -n 's/.*GLIBC_\([0-9.]*\).*/\1/p' | sort -Vu | tail -n 1)
    newest=$(printf '%s\n' "$needs" 2.35 | sort -V | tail -n 1)
    same "glibc of $name is 2.35 or older" 2.35 "$newest"
done

# --- Its programs and the given ones -----------------------------------------------------------

# options_of IMAGE: those under which a campaign of an example is short.
options_of() {
    case $1 in
    checksum_ram) echo --ram 0x80000000:128 --limit 6000 --ram-code ;;
    siphash*) echo --ram 0x80000000:256 --limit 6000 ;;
    pin_checked) echo --ram 0x80000000:64 --limit 6000 --pc ;;
    *) echo --ram 0x80000000:64 --limit 6000 ;;
    esac
}
# says PROGRAM WORD..: the status and all that a call writes.
says() { "$@" 2>&1; echo "status $?"; }
# compared WHAT NUMBER WORD..: compares what the given program and the packaged one say.
compared() { same "$1" "$(says "${given[$2]}" "${@:3}")" "$(says "$bin/${names[$2]}" "${@:3}")"; }
for number in "${numbers[@]}"; do
    name=${names[number]}
    [ -n "${given[number]}" ] || continue
    same_bytes[number]=$(cmp -s "${given[number]}" "$bin/$name" && echo yes)
    [ -z "${same_bytes[number]}" ] || check "$name is the given one, byte for byte" yes
done
if [ -n "${given[1]}" ] && [ -z "${same_bytes[1]}" ]; then
    for image in "$top"/examples/built/*.elf; do
        name=$(basename "$image" .elf)
        [[ $name = control_twice || $name = loader* ]] && continue  # millions of jobs
        read -r -a options <<<"$(options_of "$name")"
        same "the campaign of $name" "$(says "${given[1]}" run "$image" given.keep --fresh "${options[@]}")" \
            "$(says "$bin/fail_star" run "$image" packaged.keep --fresh "${options[@]}")"
        check "its file" "$(cmp given.keep packaged.keep 2>&1 && echo yes)"
        compared "the jobs of $name" 1 report "$image" given.keep --format csv "${options[@]}"
        [ -z "${given[3]}" ] || compared "a replay of $name" 3 "$image" 7 5 3 9 10 31 "${options[@]}"
    done
fi
if [ -n "${given[2]}" ] && [ -z "${same_bytes[2]}" ] && command -v sqlite3 >/dev/null; then
    "$bin/fail_star" run "$top/examples/built/pin.elf" pin.keep --ram 0x80000000:64 >out.txt
    for which in "${given[2]}" "$bin/fail_export"; do
        says "$which" "$top/examples/built/pin.elf" pin.keep some.db --ram 0x80000000:64
        sqlite3 some.db 'select * from jobs'
        rm -f some.db*
    done >both.txt
    half=$(($(wc -l <both.txt) / 2))
    same 'an export' '' "$(diff <(head -n $half both.txt) <(tail -n $half both.txt))"
fi
known=$(bash "$top/tests/program/known.sh" "$bin/fail_star" 2>&1 | tail -n 1)
check 'known.sh of the packaged program' \
    "$([[ $known =~ \ passed,\ 0\ failed$ || $known == skipped* ]] && echo yes || echo "$known")"

# --- A user who has only the package -------------------------------------------------------------

mkdir -p root home/dist && cp "$tarball" home/dist || exit 2
cp -rL unpacked/usr/share/fail_star/examples "$tests/console.sh" "$tests/user.sh" home || exit 2
# The scripts of the package run outside of this root, which has no shell, and do nothing there.
forced=(--force-depends --force-not-root --force-script-chrootless)
dpkg --root="$work/root" "${forced[@]}" -i "$package" >out.txt 2>&1
same 'dpkg --install' 'status 0' "status $?$(grep -i error out.txt)"
if [ ! -x root/usr/bin/fail_star ]; then
    cp -a unpacked/. root || exit 2
    echo "skipped: dpkg cannot install here, so the package is unpacked"
fi
chmod -R a+rX . && chmod -R a+w home || exit 2
# The system's own programs and libraries are seen through the root; what is local here, such as a kit, is not.
cat >enter.sh <<'END'
set -e
mkdir -p whole/usr whole/home whole/tmp whole/dev whole/proc
mount -t overlay overlay -o lowerdir="$PWD/root/usr:/usr" whole/usr
mount -t tmpfs tmpfs whole/usr/local
mount -t tmpfs tmpfs whole/tmp
mount --rbind /dev whole/dev
mount --bind home whole/home
for link in bin sbin lib lib32 lib64; do [ ! -L "/$link" ] || ln -s "usr/$link" "whole/$link"; done
chmod 1777 whole/tmp
user=()
[ "$(id -u)" -ne 0 ] || [ -n "${mapped:-}" ] || user=(setpriv --reuid=65534 --regid=65534 --clear-groups)
exec chroot whole "${user[@]}" env -i HOME=/home PATH=/usr/bin:/bin LC_ALL=C bash /home/user.sh "$@"
END
apart=(unshare --mount)
[ "$(id -u)" -eq 0 ] || { apart=(unshare --mount --map-root-user); export mapped=yes; }
overlay="mkdir -p try && mount -t overlay overlay -o lowerdir='$work/root/usr':/usr try"
if [ -z "${PLAIN:-}" ] && "${apart[@]}" bash -c "$overlay" >out.txt 2>&1; then
    got=$(timeout 600 "${apart[@]}" bash enter.sh "$version" 2>&1)
else
    echo "skipped: a root of its own needs an overlay; the package is used from its folder"
    path=$work/root/usr/bin:/usr/bin:/bin
    environment=(HOME="$work/home" PATH="$path" LC_ALL=C ROOT="$work/root")
    got=$(cd home && timeout 600 env -i "${environment[@]}" bash user.sh "$version" 2>&1)
fi
echo "$got" | grep -v ' passed, '
counts=$(tail -n 1 <<<"$got")
if [[ $counts =~ ^([0-9]+)\ passed,\ ([0-9]+)\ failed$ ]]; then
    passed=$((passed + BASH_REMATCH[1])) failed=$((failed + BASH_REMATCH[2]))
else
    check 'what a user does with the package' "$counts"
fi
echo "$passed passed, $failed failed"
[ "$failed" -eq 0 ]

#!/usr/bin/env bash
# Makes a release from programs that were built: a tarball, a Debian package, their SHA-256 sums, and RELEASE, which
# says what they were made of. The same commit and programs give the same bytes. `make dist` calls it.
# usage: dist.sh FOLDER PROGRAM EXPORT REPLAY DEBUG WINDOW ANSWERS
# It needs the kit, which has the licences of the code that the programs contain.
# Packages and tarballs of other versions are removed from FOLDER. The environment may give COMMIT and
# SOURCE_DATE_EPOCH, the commit that the programs were built from and the time of all files. Without COMMIT it is the
# last commit; then every change must be committed, and no program may be older than a source. Without
# SOURCE_DATE_EPOCH the time is that of the commit.
set -euo pipefail
export LC_ALL=C TZ=UTC DPKG_DEB_THREADS_MAX=1 XZ_DEFAULTS="" XZ_OPT=""
[ $# -eq 7 ] || { sed -n 's/^# usage: /usage: /p' "$0"; exit 2; }
fail() { echo "dist: $1" >&2; exit 1; }
wanted_glibc=2.35
# Debian wants an address. The project has no mailbox, and names that end with .example belong to nobody.
maintainer='The fail_star developers <developers@fail-star.example>'
folder=$(realpath -m "$1")
shift
names=(fail_star fail_export fail_replay fail_debug fail_window fail_answers)
files=()
for file in "$@"; do
    name=${names[${#files[@]}]}
    [ -x "$file" ] || fail "$file: there is no such program; (cd crates/$name && rt run) proves and builds it"
    files+=("$(realpath "$file")")
done
cd "$(dirname "$0")/.."
for tool in dpkg-deb git gzip make objdump python3 tar xz; do
    command -v "$tool" >/dev/null || fail "needs $tool"
done
kit=$(command -v rt) || fail 'needs rt of the Rattle kit that README.md names: the kit has the licences of its crates'
kit=$(dirname "$(dirname "$(realpath "$kit")")")

# --- What it is made of ---------------------------------------------------------------------------

version=$(cat VERSION)
if [ -z "${COMMIT:-}" ]; then
    changed=$(git status --porcelain --untracked-files=no -- . ':!dist')
    [ -z "$changed" ] || fail "not in the last commit: $changed"
    for file in "${files[@]}"; do
        newer=$(find crates.txt crates/*/src -newer "$file" -print -quit)
        [ -z "$newer" ] || fail "$file: older than $newer; build it again, or set COMMIT to what it was built from"
    done
    COMMIT=$(git rev-parse HEAD)
fi
SOURCE_DATE_EPOCH=${SOURCE_DATE_EPOCH:-$(git log -1 --format=%ct "$COMMIT")}
export SOURCE_DATE_EPOCH

# glibc_of FILE: the oldest version of glibc that has all that a program needs.
glibc_of() { objdump -T "$1" | sed -n 's/.*GLIBC_\([0-9.]*\).*/\1/p' | sort -Vu | tail -n 1; }
glibc=0
for file in "${files[@]}"; do
    libraries=$(objdump -p "$file" | sed -n 's/^ *NEEDED *//p' | tr '\n' ' ')
    [ "$libraries" = 'libc.so.6 ' ] || fail "$file: needs more than the C library: $libraries"
    glibc=$(printf '%s\n' "$glibc" "$(glibc_of "$file")" | sort -V | tail -n 1)
done
newest=$(printf '%s\n' "$glibc" $wanted_glibc | sort -V | tail -n 1)
[ "$newest" = $wanted_glibc ] || fail "needs glibc $glibc; $wanted_glibc is wanted"

# --- The files ------------------------------------------------------------------------------------

work=$(mktemp -d)
trap 'rm -rf "$work"' EXIT
umask 022
tree=$work/tree
make -s install DESTDIR="$tree" PREFIX=/usr PROGRAM="${files[0]}" EXPORT="${files[1]}" REPLAY="${files[2]}" DEBUG="${files[3]}" WINDOW="${files[4]}" ANSWERS="${files[5]}"
documents=$tree/usr/share/doc/fail-star
shared=$tree/usr/share/fail_star
images=$tree/usr/lib/fail_star/examples
mkdir -p "$documents" "$shared" "$images" "$work/out"
# copy FOLDER FILE..: copies what git knows of these files and folders.
copy() { git ls-files -z "${@:2}" | tar -cf - --null -T - | tar -xf - -C "$1"; }
copy "$documents" README.md CHANGELOG.md CITATION.cff docs
python3 release/third_party.py "$kit" >"$documents/THIRD-PARTY"
# Images of containers often omit share/doc, so the examples are not in it. Files for a processor belong into lib.
copy "$shared" examples
mv "$shared/examples/built" "$images"
ln -s ../../../lib/fail_star/examples/built "$shared/examples/built"
ln -s ../../fail_star/examples "$documents/examples"
python3 - <<'END' >"$work/out/RELEASE"
import sys
sys.dont_write_bytecode = True
sys.path.insert(0, "tools")
from fail_star_tools.release import LOGIC, VERSION
print(f"version {VERSION}\nlogic {LOGIC}")
END
[ "$(head -n 1 "$work/out/RELEASE")" = "version $version" ] || fail 'VERSION and release.py of the tools differ'
for number in 0 1 2 3 4 5; do
    echo "${names[number]} $(sha256sum "${files[number]}" | cut -d ' ' -f 1)"
done >>"$work/out/RELEASE"
printf 'commit %s\nglibc %s\nlicense MIT OR Apache-2.0\n' "$COMMIT" "$glibc" >>"$work/out/RELEASE"
cp "$work/out/RELEASE" "$documents"
find "$tree" -name __pycache__ -prune -exec rm -rf {} +
find "$tree/usr/share/man" -type f -exec gzip -9n {} +
find "$tree" \( -type d -o -perm /111 \) -exec chmod 755 {} + -o -type f -exec chmod 644 {} +

# --- The tarball ----------------------------------------------------------------------------------

top=fail_star-$version
tarball=$top-linux-x86_64.tar.xz
cp -a "$tree/usr" "$work/$top"
install -m 644 LICENSE-MIT LICENSE-APACHE "$work/$top/share/doc/fail-star"
same=(--sort=name --format=ustar --owner=root:0 --group=root:0 --mtime="@$SOURCE_DATE_EPOCH")
tar --create "${same[@]}" -C "$work" "$top" | xz -9 --threads=1 >"$work/out/$tarball"

# --- The Debian package ---------------------------------------------------------------------------

# Debian has the text of Apache-2.0, so its package says the licences in one file, and not in LICENSE-*.
overrides=$tree/usr/share/lintian/overrides
mkdir -p "$tree/DEBIAN" "$overrides"
expat=$(sed '1,/^Copyright/d; s/^$/./; s/^/ /' LICENSE-MIT | sed 1d)
awk -v expat="$expat" '$0 == "@EXPAT@" { $0 = expat } { print }' release/debian/copyright |
    sed "s/@MAINTAINER@/$maintainer/" >"$documents/copyright"
python3 release/debian_changelog.py "$maintainer" | gzip -9n >"$documents/changelog.gz"
install -m 644 release/debian/lintian-overrides "$overrides/fail-star"
install -m 755 release/debian/postinst release/debian/prerm "$tree/DEBIAN"
(cd "$tree" && find usr -type f | sort | xargs -d '\n' md5sum) >"$tree/DEBIAN/md5sums"
size=$(find "$tree/usr" -type f -printf '%s\n' | awk '{ sum += $1 } END { print int(sum / 1024) + 1 }')
sed "s/@VERSION@/$version/; s/@GLIBC@/$glibc/; s/@SIZE@/$size/; s/@MAINTAINER@/$maintainer/" release/debian/control \
    >"$tree/DEBIAN/control"
find "$tree" -exec touch -h -d "@$SOURCE_DATE_EPOCH" {} +
package=fail-star_${version}_amd64.deb
dpkg-deb --root-owner-group -Zxz -z9 --build "$tree" "$work/out/$package" >/dev/null

(cd "$work/out" && sha256sum "$package" "$tarball" RELEASE >SHA256SUMS)
mkdir -p "$folder"
rm -f "$folder"/fail-star_*.deb "$folder"/fail_star-*.tar.xz
cp "$work/out"/* "$folder"
(cd "$folder" && ls -l "$package" "$tarball" && cat RELEASE)

#!/usr/bin/env bash
# Tests all that can be tested here. `make check` calls it. With the Rattle kit that is the whole gate. Without it
# nothing can be proved or built, so the scripts in tests/ try the programs of the release in dist/.
set -u
# The last commit whose tests the programs in dist/ pass, or nothing as long as they pass those of this tree. The first
# change of what a program does sets it, and the next release empties it.
tests_of=

cd "$(dirname "$0")/.." || exit 2
fail() { echo "check: $1" >&2; exit 2; }
if command -v rt >/dev/null; then exec bash .ci/run; fi
command -v python3 >/dev/null || fail 'the tests need python3'
[ -f dist/RELEASE ] || fail 'needs the Rattle kit that README.md names, or a release in dist/'
folder=$(mktemp -d) || exit 2
trap 'rm -rf "$folder"' EXIT
version=$(sed -n 's/^version //p' dist/RELEASE)
echo "The Rattle kit is not here (rt is not on the path), so nothing is proved or built."
echo "The programs that are tested are those of fail_star $version in dist/."
tree=.
if [ -n "$tests_of" ]; then
    echo "Their sources changed since, so the tests are those of commit $tests_of."
    tree=$folder/tree
    mkdir "$tree" && git archive "$tests_of" | tar -xf - -C "$tree" && rm -rf "$tree/dist" && cp -r dist "$tree" ||
        fail "the tests of that commit need git, and a clone with its history"
fi
# Python unpacks the tarball also if xz is missing; newer ones warn of what 3.14 does in another way.
python3 -W ignore -m tarfile -e "dist/fail_star-$version-linux-x86_64.tar.xz" "$folder" || exit 2
bin=$folder/fail_star-$version/bin
programs=("$bin"/fail_{star,export,replay,debug})
# Releases up to 1.2.0 have no fail_window, and those up to 1.4.0 no fail_answers.
for name in fail_window fail_answers; do
    [ ! -f "$bin/$name" ] || programs+=("$bin/$name")
done
bash "$tree/tests/run.sh" "${programs[@]}"

#!/bin/sh
# installed.sh FOLDER: installs the release in FOLDER (scripts/release.sh) into empty roots, and follows the documents there.
#
# The archive and the Debian package are tried each, and the links of their pages must lead to their files. Only /usr/bin and /bin are in
# PATH, and the folder of cargo. Prints what it skips because a tool is missing; with HEAL_NO_SKIP=1 it fails instead.
set -eu
folder=$(cd "$1" && pwd)
cd "$(dirname "$0")/.."
root=$(pwd)
version=$(cat VERSION)
work=$(mktemp -d)
trap 'rm -rf "$work"' EXIT
(cd "$folder" && sha256sum -c --quiet SHA256SUMS)
scripts/documents.py "$folder"
mkdir -p "$work/tar" "$work/debian"
tar -C "$work/tar" -xzf "$folder/heal-$version-x86_64-linux.tar.gz"
dpkg-deb -x "$folder/heal_${version}_amd64.deb" "$work/debian"

# Runs the program with the standard tools alone.
heal() {
    env -i HOME="$work" PATH=/usr/bin:/bin LC_ALL=C.UTF-8 "$prefix/bin/heal" "$@"
}

# Checks the files of a root, and the program on all examples.
check_root() {
    (cd "$prefix" && sha256sum -c --quiet share/doc/heal/SHA256SUMS)
    scripts/documents.py "$prefix"
    # The same checkout gives the same bytes, wherever it is.
    if grep -rlF "$root" "$prefix"; then
        echo "installed.sh: these files of the release name the folder of the checkout" >&2
        exit 1
    fi
    [ "$(heal --version)" = "heal $version" ]
    # A path in a script is relative to the current folder.
    cd "$prefix/share/heal"
    for script in examples/*.heal; do
        heal run "$script" > "$work/printed" 2> /dev/null || [ $? -eq 2 ]
        cmp "$work/printed" "${script%.heal}.out"
    done
    for code in resolvers/*.hex; do
        heal dis "@$code" > "$work/text"
        [ "$(heal asm "$work/text")" = "$(cat "$code")" ]
    done
    cd "$root"
}

for prefix in "$work/tar/heal-$version-x86_64-linux" "$work/debian/usr"; do
    check_root
done
echo "from the archive:"
scripts/documented.py "$folder"
echo "from the package:"
scripts/documented.py "$folder" "$work/debian/usr"
echo "the release works from the archive and from the package"

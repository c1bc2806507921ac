#!/bin/sh
# release.sh [FOLDER]: makes a release of this checkout in FOLDER, by default out/release.
#
#   heal-VERSION-x86_64-linux.tar.gz     the program, the libraries, the bindings, examples and documents
#   heal_VERSION_amd64.deb               the same for Debian, below /usr
#   heal-VERSION-py3-none-linux_x86_64.whl   heal for Python, with the library in it
#   SHA256SUMS                           their checksums
#   INSTALL.md                           how to install them (docs/INSTALL.md)
#
# Requires a clean checkout whose gate passed (.ci/run writes out/passed), with the proved program and library that it built, cc,
# python3 and dpkg-deb. The OTP application is built if erlc is there. The same checkout gives the same bytes: all times are that of
# the commit, and all owners are root.
set -eu
cd "$(dirname "$0")/.."
root=$(pwd)
version=$(cat VERSION)
name=heal-$version-x86_64-linux
out=${1-$root/out/release}
heal=$root/crates/heal_main/out/heal_main
built=$root/bindings/c/out

# Ends with the reason why no release is made.
refuse() {
    echo "release.sh: $1" >&2
    exit 1
}

[ -z "$(git status --porcelain)" ] || refuse "the checkout has changes: $(git status --porcelain | head -n 3)"
commit=$(git rev-parse HEAD)
[ "$(cat out/passed 2> /dev/null)" = "$commit" ] || refuse "the gate has not passed at $commit: run .ci/run"
[ -x "$heal" ] || refuse "there is no proved program"
[ -f "$built/libheal.a" ] && [ -f "$built/libheal.so.$version" ] || refuse "there is no libheal: run bindings/c/build.sh"
scripts/versions.py
SOURCE_DATE_EPOCH=$(git log -1 --format=%ct)
export SOURCE_DATE_EPOCH LC_ALL=C TZ=UTC PYTHONDONTWRITEBYTECODE=1
umask 022
work=$(mktemp -d)
trap 'rm -rf "$work"' EXIT
tree=$work/$name
doc=$tree/share/doc/heal

# Copies the files that git has below a folder: tracked FROM TO.
tracked() {
    mkdir -p "$2"
    (cd "$1" && git ls-files -z | xargs -0 cp --parents -t "$2")
}

mkdir -p "$tree/bin" "$tree/lib/pkgconfig" "$tree/include" "$doc" "$tree/share/man/man1" "$tree/share/heal"
install -m 755 "$heal" "$tree/bin/heal"
strip "$tree/bin/heal"
install -m 644 "$built/libheal.a" "$built/libheal.so.$version" "$tree/lib/"
ln -s "libheal.so.$version" "$tree/lib/libheal.so.${version%%.*}"
ln -s "libheal.so.${version%%.*}" "$tree/lib/libheal.so"
cp bindings/c/heal.h "$tree/include/heal.h"
cat > "$tree/lib/pkgconfig/heal.pc" <<END
prefix=\${pcfiledir}/../..

Name: heal
Description: The name registry that two halves of a cluster use when they meet again after a network split
Version: $version
Cflags: -I\${prefix}/include
Libs: -L\${prefix}/lib -lheal
END
sed "s/@VERSION@/$version/" release/heal.1 | gzip -9n > "$tree/share/man/man1/heal.1.gz"
install -D -m 644 release/heal.bash "$tree/share/bash-completion/completions/heal"
install -D -m 644 release/_heal "$tree/share/zsh/vendor-completions/_heal"
install -D -m 644 release/heal.fish "$tree/share/fish/vendor_completions.d/heal.fish"
cp README.md CHANGELOG.md SECURITY.md CONTRIBUTING.md VERSION "$doc/"
tracked docs "$doc/docs"
tracked examples "$tree/share/heal/examples"
tracked resolvers "$tree/share/heal/resolvers"
tracked bindings/rust "$tree/share/heal/rust"
cp bindings/c/first.c bindings/c/example.c bindings/c/cluster.c bindings/c/node.c bindings/c/nodes.py "$tree/share/heal/examples/"
cp bindings/python/first.py bindings/python/cluster.py bindings/python/node.py "$tree/share/heal/examples/"
tracked bindings/erlang/examples "$tree/share/heal/examples"
find "$tree" -name '*.md' -exec scripts/release_links.py "$tree" {} +
cat > "$doc/PROVED" <<END
heal $version, commit $commit
kit: $(rt version 2> /dev/null | head -n 1 || cat out/kit)
Proved: the program bin/heal and each function of lib/libheal.a. docs/PROOFS.md and docs/proofs list the promises.
Tested, not proved: the bindings for Python, Rust and Erlang, and what README.md lists.
END

# The OTP application, with its NIF, which contains the library.
if command -v erlc > /dev/null && [ -f "$(erl -noshell -eval 'io:format("~s", [code:root_dir()]), halt().')/usr/include/erl_nif.h" ]; then
    tracked bindings/erlang "$work/erlang"
    ERL_COMPILER_OPTIONS=deterministic make -s -C "$work/erlang" HEAL="$built" HEADER="$root/bindings/c" \
        CFLAGS="-O2 -ffile-prefix-map=$work=. -Wl,--build-id=none"
    mkdir -p "$tree/lib/erlang/lib/heal-$version"
    cp -r "$work/erlang/ebin" "$work/erlang/priv" "$work/erlang/src" "$tree/lib/erlang/lib/heal-$version/"
else
    echo "release.sh: there is no Erlang with erl_nif.h, so the release has no OTP application" >&2
fi

# The wheel, with the library in it.
(cd bindings/python && HEAL_LIBRARY="$built/libheal.so.$version" python3 -c "import wheel_of_heal; wheel_of_heal.build_wheel('$work')")
mkdir -p "$out"
wheel=$work/heal-$version-py3-none-linux_x86_64.whl
cp "$wheel" "$out/"
install -D -m 644 "$wheel" "$tree/share/heal/python/${wheel##*/}"
(cd "$tree" && find . -type f ! -name SHA256SUMS | sort | xargs sha256sum > "$work/sums" && mv "$work/sums" "$doc/SHA256SUMS")
find "$tree" -exec touch -hd "@$SOURCE_DATE_EPOCH" {} +
tar --sort=name --mtime="@$SOURCE_DATE_EPOCH" --owner=0 --group=0 --numeric-owner --format=ustar -C "$work" -cf - "$name" \
    | gzip -9n > "$out/$name.tar.gz"

# The Debian package: the same tree below /usr.
mkdir -p "$work/deb/DEBIAN"
cp -r --preserve=all "$tree" "$work/deb/usr"
cat > "$work/deb/DEBIAN/control" <<END
Package: heal
Version: $version
Architecture: amd64
Maintainer: heal
Depends: libc6
Section: net
Priority: optional
Installed-Size: $(du -sk "$tree" | cut -f 1)
Description: name registry of two halves of a cluster, by proved code
 Merges the tables of names of two halves of a cluster that meet again after a
 network split, and resolves each clash by its resolver. Program, C library,
 and bindings for Python, Rust and Erlang.
END
printf '#!/bin/sh\nset -e\n[ -n "$DPKG_ROOT" ] || ldconfig\n' > "$work/deb/DEBIAN/postinst"
chmod 755 "$work/deb/DEBIAN/postinst"
find "$work/deb" -exec touch -hd "@$SOURCE_DATE_EPOCH" {} +
dpkg-deb --root-owner-group -Zgzip -b "$work/deb" "$out/heal_${version}_amd64.deb" > /dev/null
(cd "$out" && sha256sum "$name.tar.gz" "heal_${version}_amd64.deb" "${wheel##*/}" > SHA256SUMS)
cp docs/INSTALL.md "$out/"
scripts/release_links.py "$out" "$out/INSTALL.md"
ls -l "$out"

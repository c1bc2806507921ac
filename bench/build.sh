#!/bin/sh
# build.sh OUT: compiles the resolvers in C to OUT/NAME.hex, and the peer's benchmark to OUT/peer.
# Needs clang-19, llvm-19, librte-bpf23, libdpdk-dev and gcc of Debian.
set -e
here=$(cd "$(dirname "$0")" && pwd)
out=${1:?usage: build.sh OUT}
mkdir -p "$out"
for source in "$here"/../resolvers/*.c; do
    name=$(basename "$source" .c)
    "$here"/../resolvers/compile.sh "$source" > "$out/$name.hex"
done
gcc -O2 -march=native -o "$out/peer" "$here/peer.c" \
    -I/usr/include/dpdk -I/usr/include/x86_64-linux-gnu/dpdk -lrte_bpf -lrte_eal -lrte_mbuf

#!/bin/bash
# replicas.sh [NAMES]: times the calls of replicas and registering the same rows on a side, in one program; each the least of 25.
# Needs bindings/c/build.sh to have run, and a C compiler.
set -e
root=$(cd "$(dirname "$0")/.." && pwd)
. "$root/bench/host.sh"
lib=${HEAL_OUT:-$root/bindings/c/out}
out=$(mktemp -d) && trap 'rm -rf "$out"' EXIT
cc -O2 -o "$out/replicas" "$root/bench/replicas.c" -I"$root/bindings/c" "$lib/libheal.a" -lpthread
for _ in $(seq 25); do
    "$out/replicas" "${1:-4096}" >> "$out/times"
done
for call in register edit apply snapshot again memcpy follow; do
    printf '%-10s %10s\n' $call "$(awk -v call=$call '$1 == call { print $2 }' "$out/times" | sort -g | head -1)"
done
host_took

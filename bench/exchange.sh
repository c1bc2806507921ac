#!/bin/bash
# exchange.sh BEFORE [NAMES [ROUNDS]]: times the calls of a half in an exchange, with the library of this version and with that of an
# earlier one in turn. BEFORE is a checkout of 97b80b0 with bindings/c/build.sh run. Prints for each call the least of 25 rounds, or of
# ROUNDS, in microseconds (exchange: nanoseconds for each name), and the ratio.
set -e
root=$(cd "$(dirname "$0")/.." && pwd)
. "$root/bench/host.sh"
before=$(cd "${1:?usage: exchange.sh BEFORE [NAMES [ROUNDS]]}" && pwd)
lib=${HEAL_OUT:-$root/bindings/c/out}
names=${2:-4096}
rounds=${3:-25}
out=$(mktemp -d) && trap 'rm -rf "$out"' EXIT
cc -O2 -DBEFORE -o "$out/before" "$root/bench/exchange.c" -I"$before/bindings/c" "$before/bindings/c/out/libheal.a" -lpthread
cc -O2 -o "$out/after" "$root/bench/exchange.c" -I"$root/bindings/c" "$lib/libheal.a" -lpthread
for _ in $(seq "$rounds"); do
    for version in before after; do
        "$out/$version" "$names" >> "$out/$version.times"
    done
done
printf '%-10s %10s %10s %7s\n' call before after ratio
for call in begin hear settle hear_list finish rows exchange; do
    least() { awk -v call=$call '$1 == call { print $2 }' "$out/$1.times" | sort -g | head -1; }
    awk -v call=$call -v a="$(least before)" -v b="$(least after)" 'BEGIN { printf "%-10s %10s %10s %7.2f\n", call, a, b, b / a }'
done
host_took

#!/bin/bash
# sizes.sh [ROUNDS]: times the calls of one side in an exchange of 4,096, 65,536 and 1,048,576 names, all of which clash, in turn: as they
# come, and with none of their memory in the caches. Prints for each call the least of ROUNDS (default 5) in nanoseconds for each name,
# and the ratios to 4,096 names; with `least`, the same of a loop in C that copies as many bytes as `begin` from such blocks (least.c); the bytes
# that a side holds for each name at rest, and in an exchange in which all names clash, half of them, and none; and the most that the process
# has for each name, with both sides and their messages. Needs bindings/c/build.sh to have run, and a C compiler. Takes minutes.
set -e
root=$(cd "$(dirname "$0")/.." && pwd)
. "$root/bench/host.sh"
lib=${HEAL_OUT:-$root/bindings/c/out}
rounds=${1:-5}
out=$(mktemp -d) && trap 'rm -rf "$out"' EXIT
cc -O2 -o "$out/sizes" "$root/bench/sizes.c" -I"$root/bindings/c" "$lib/libheal.a" -lpthread
cc -O2 -o "$out/least" "$root/bench/least.c"
for _ in $(seq "$rounds"); do
    for names in 4096 65536 1048576; do
        "$out/sizes" "$names" >> "$out/$names"
        "$out/least" "$names" >> "$out/$names"
        "$out/sizes" "$names" 100 cold | awk '{ print $1 ",cold", $2 }' >> "$out/$names"
        for clashing in 50 0; do
            "$out/sizes" "$names" "$clashing" | awk -v of="$clashing" '$1 == "exchange" { print $1 "," of, $2 }' >> "$out/$names"
        done
    done
done
printf '%-12s %10s %10s %10s %7s %7s\n' call 4,096 65,536 1,048,576 ratio ratio
for call in {register,whereis,begin,hear,settle,finish}{,",cold"} least rest exchange{,",50",",0"} peak; do
    least=()
    for names in 4096 65536 1048576; do
        least+=("$(awk -v call="$call" '$1 == call { print $2 }' "$out/$names" | sort -g | head -1)")
    done
    awk -v call="$call" -v a="${least[0]}" -v b="${least[1]}" -v c="${least[2]}" \
        'BEGIN { printf "%-12s %10s %10s %10s %7.2f %7.2f\n", call, a, b, c, b / a, c / a }'
done
host_took

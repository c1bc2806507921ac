#!/bin/bash
# versions.sh BEFORE: measures this version and an earlier one in turn, with DPDK's rte_bpf and OTP's `global` in the same run.
# BEFORE is a checkout of the earlier version. Both checkouts have heal_bench and heal_main built by `rt run`, this one also
# bindings/c/build.sh and bindings/erlang. Needs what build.sh needs, and Debian's erlang-base and erlang-dev. Each time is
# the least of 25, in nanoseconds for runs, and milliseconds for scripts and clusters.
set -e
here=$(cd "$(dirname "$0")" && pwd)
. "$here/host.sh"
root=$(dirname "$here")
before=$(cd "${1:?usage: versions.sh BEFORE}" && pwd)
rounds=25
runs=200000
out=$(mktemp -d) && trap 'rm -rf "$out"' EXIT
"$here/build.sh" "$out"
record=$(tail -1 "$root/crates/heal_main/args")

# The least number behind a word in a file.
number() { awk -v word="$1" '$1 == word && (least == "" || $2 < least) { least = $2 } END { print least }' "$2"; }

ratio() { awk -v a="$1" -v b="$2" 'BEGIN { printf "%.2f", a / b }'; }

bench_of() { echo "$1/crates/heal_bench/out/heal_bench"; }

# Times a command in microseconds.
time_of() {
    local start=${EPOCHREALTIME/./}
    "$@" > /dev/null
    echo "time $((${EPOCHREALTIME/./} - start))"
}

printf '%-12s %8s %8s %8s %8s %8s %8s\n' resolver before run copied peer ratio copied
for file in "$out"/*.hex; do
    hex=$(cat "$file")
    : > "$out/old" && : > "$out/new" && : > "$out/peers"
    for _ in $(seq $rounds); do
        "$(bench_of "$before")" program "$hex" "$record" $runs >> "$out/old"
        "$(bench_of "$root")" program "$hex" "$record" $runs >> "$out/new"
        "$out/peer" "$hex" "$record" $runs >> "$out/peers" 2> "$out/log"
    done
    old=$(number run "$out/old") new=$(number run "$out/new") copied=$(number run-copied "$out/new") peer=$(number run "$out/peers")
    printf '%-12s %8s %8s %8s %8s %8s %8s\n' "$(basename "$file" .hex)" "$old" "$new" "$copied" "$peer" \
        "$(ratio "$new" "$peer")" "$(ratio "$copied" "$peer")"
done

printf '\n%-12s %8s %8s\n' clashes before after
for clashes in 256 1024 4096; do
    "$here/clashes.sh" $clashes > "$out/script"
    : > "$out/old" && : > "$out/new"
    for _ in $(seq $rounds); do
        time_of "$before/crates/heal_main/out/heal_main" run "$out/script" >> "$out/old"
        time_of "$root/crates/heal_main/out/heal_main" run "$out/script" >> "$out/new"
    done
    printf '%-12s %8s %8s\n' $clashes "$(awk -v t="$(number time "$out/old")" 'BEGIN { printf "%.1f", t / 1000 }')" \
        "$(awk -v t="$(number time "$out/new")" 'BEGIN { printf "%.1f", t / 1000 }')"
done

echo
make -s -C "$root/bindings/erlang" bench
host_took

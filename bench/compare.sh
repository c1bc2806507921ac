#!/bin/bash
# compare.sh [RUNS]: runs the resolvers in C here and on the peer, DPDK's rte_bpf, on one record, in turn, and prints the times
# in nanoseconds with their ratios (ours by the peer's). Both run on a record that stays where it is, and write its word before
# each run; "copied" is the time here of a run on a copy of the record. Then how the times here grow with the length of code.
# Each time is the least of 25: what else a machine does makes a time longer, never shorter.
set -e
here=$(cd "$(dirname "$0")" && pwd)
. "$here/host.sh"
runs=${1:-200000}
rounds=25
out=$(mktemp -d) && trap 'rm -rf "$out"' EXIT
"$here/build.sh" "$out"
cd "$here/../crates/heal_bench"
rt run > "$out/usage"
ours=$PWD/out/heal_bench
record=$(tail -1 ../heal_main/args)

# The least number behind a word in what the rounds of a benchmark printed.
number() { awk -v word="$1" '$1 == word && (least == "" || $2 < least) { least = $2 } END { print least }' "$2"; }

# Measures our side on program $1 with $2 runs.
measure() { "$ours" program "$1" "$record" "$2" >> "$out/ours"; }

ratio() { awk -v ours="$1" -v peers="$2" 'BEGIN { printf "%.2f", ours / peers }'; }

printf '%-12s %6s %8s %8s %8s %8s %6s %8s %8s %8s %6s\n' \
    resolver run peer ratio copied ratio steps decode verify load ratio
for program in "$out"/*.hex; do
    name=$(basename "$program" .hex)
    : > "$out/ours"
    : > "$out/peers"
    for _ in $(seq $rounds); do
        measure "$(cat "$program")" "$runs"
        "$out/peer" "$(cat "$program")" "$record" "$runs" >> "$out/peers" 2> "$out/log"
    done
    [ "$(number sum "$out/ours")" = "$(number sum "$out/peers")" ] || { echo "$name: the answers differ"; exit 1; }
    run=$(number run "$out/ours") copied=$(number run-copied "$out/ours") peer=$(number run "$out/peers")
    decode=$(number decode "$out/ours") verify=$(number verify "$out/ours") load=$(number load "$out/peers")
    printf '%-12s %6s %8s %8s %8s %8s %6s %8s %8s %8s %6s\n' "$name" "$run" "$peer" "$(ratio "$run" "$peer")" \
        "$copied" "$(ratio "$copied" "$peer")" "$(number steps "$out/ours")" \
        "$decode" "$verify" "$load" "$(ratio $((decode + verify)) "$load")"
done

# So many times a slot in hex, and `exit`.
repeated() { for _ in $(seq "$1"); do printf %s "$2"; done; printf 9500000000000000; }

# `mov64 r0, 1`, then N times `jeq r0, 1, +0`, and `exit`.
tests() { printf b700000001000000; repeated "$1" 1500000001000000; }

printf '\n%-22s %8s %8s %8s %6s\n' code decode verify run steps
for slots in 16 128 1024; do
    for shape in straight jumps; do
        if [ $shape = straight ]; then
            code=$(repeated $((slots - 1)) b700000001000000)
        else
            code=$(tests $((slots - 2)))
        fi
        : > "$out/ours"
        for _ in $(seq $rounds); do measure "$code" "$((runs / 10))"; done
        printf '%-22s %8s %8s %8s %6s\n' "$slots slots, $shape" "$(number decode "$out/ours")" \
            "$(number verify "$out/ours")" "$(number run "$out/ours")" "$(number steps "$out/ours")"
    done
done
host_took

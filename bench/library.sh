#!/bin/bash
# library.sh [RUNS]: compares libheal with DPDK's rte_bpf in one C program, on the resolvers in C and one record. Prints times in
# nanoseconds: of loading a program by each, of `run` as heal_bench measures it on copies of the record, of heal_program_judge
# and of rte_bpf_exec, and ratios, heal's by DPDK's. Each is the least of 25, measured in turn. Needs bindings/c/build.sh to
# have run, heal_bench to be built, and Debian's gcc, libdpdk-dev and librte-bpf23.
set -e
root=$(cd "$(dirname "$0")/.." && pwd)
. "$root/bench/host.sh"
lib=${HEAL_OUT:-$root/bindings/c/out}
runs=${1:-200000}
rounds=25
out=$(mktemp -d) && trap 'rm -rf "$out"' EXIT
gcc -O2 -march=native -o "$out/library" "$root/bench/library.c" -I"$root/bindings/c" "$lib/libheal.a" \
    -I/usr/include/dpdk -I/usr/include/x86_64-linux-gnu/dpdk -lrte_bpf -lrte_eal -lrte_mbuf -lpthread
record=$(tail -1 "$root/crates/heal_main/args")

# The least number in a column of a file.
least() { sort -g -k "$1,$1" "$2" | awk -v column="$1" 'NR == 1 { print $column }'; }

printf '%-12s %8s %8s %6s %8s %8s %8s %6s\n' resolver load peer ratio run judge peer ratio
for file in "$root"/resolvers/*.hex; do
    hex=$(cat "$file")
    : > "$out/times"
    : > "$out/runs"
    for _ in $(seq $rounds); do
        "$out/library" "$record" "$runs" "$hex" 2> "$out/log" >> "$out/times"
        "$root/crates/heal_bench/out/heal_bench" program "$hex" "$record" "$runs" | awk '$1 == "run-copied" { print $2 }' >> "$out/runs"
    done
    awk -v name="$(basename "$file" .hex)" -v load="$(least 1 "$out/times")" -v peer_load="$(least 2 "$out/times")" \
        -v run="$(least 1 "$out/runs")" -v judge="$(least 3 "$out/times")" -v peer_run="$(least 4 "$out/times")" \
        'BEGIN { printf "%-12s %8s %8s %6.2f %8s %8s %8s %6.2f\n",
            name, load, peer_load, load / peer_load, run, judge, peer_run, judge / peer_run }'
done
host_took

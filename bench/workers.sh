#!/bin/bash
# workers.sh [ROUNDS]: measures rounds of judging 4,096 clashes, and the threads of C of threads.c, which do as much work as one worker.
# Needs heal_bench built, and gcc. Each time is the least of 20 rounds in each of 25 or ROUNDS runs, those of C of 25 rounds, in
# microseconds. A part of linear is the time of one divided by that of n and by n, or by four if n is more.
set -e
root=$(cd "$(dirname "$0")/.." && pwd)
. "$root/bench/host.sh"
rounds=${1:-25}
out=$(mktemp -d) && trap 'rm -rf "$out"' EXIT
gcc -O2 -o "$out/threads" "$root/bench/threads.c" -lpthread

# Prints a program of this many instructions in hex digits: sets r0 to 1, over and over, and exits.
line_of() {
    for _ in $(seq $(($1 - 1))); do printf 'b700000001000000'; done
    printf '9500000000000000'
}

# Prints the least number behind a word and a count of workers or threads.
least() { awk -v word="$1" -v n="$2" '$1 == word && $2 == n && (least == "" || $3 < least) { least = $3 } END { print least }' "$3"; }

# Prints a time and its part of linear.
shown() {
    local one time
    one=$(least "$1" 1 "$3") time=$(least "$1" "$2" "$3")
    awk -v one="$one" -v time="$time" -v n="$2" 'BEGIN { printf " %8.0f %6.2f", time, one / time / (n < 4 ? n : 4) }'
}

# Appends the time of a round in microseconds.
measure() {
    "$root/crates/heal_bench/out/heal_bench" judge "$1" "$2" | awk -v n="$2" '$1 == "judge" { print "heal", n, $2 / 1000 }' >> "$out/times"
}

printf '%-12s %7s %8s %6s %8s %6s %8s %6s\n' instructions workers heal linear chain linear wide linear
for length in 2 102 1024; do
    hex=$(line_of $length)
    [ $length = 102 ] && hex=$(cat "$root/resolvers/name_hash.hex")
    : > "$out/times"
    for _ in $(seq $rounds); do
        for workers in 1 2 4 16; do
            measure "$hex" $workers
        done
    done
    "$out/threads" "$(least heal 1 "$out/times")" > "$out/threads.$length"
    cat "$out/threads.$length" >> "$out/times"
    for workers in 1 2 4 16; do
        printf '%-12s %7s' $length $workers
        for word in heal chain wide; do shown $word $workers "$out/times"; done
        echo
    done
done

printf '\n%-12s %7s %8s %6s %8s %6s %8s %6s %8s %6s\n' model threads one linear row linear list linear spaced linear
for length in 2 102 1024; do
    for threads in 1 2 4 16; do
        printf '%-12s %7s' $length $threads
        for word in one row list spaced; do shown $word $threads "$out/threads.$length"; done
        echo
    done
done
host_took

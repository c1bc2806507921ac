#!/bin/bash
# native.sh [COUNT [PROGRAM]]: judges COUNT records (100 by default) by each resolver in C, and runs the same C natively on them.
# The records are made from a fixed seed; every second one has small numbers. Judges by the code in resolvers/, and where a clang for BPF
# is installed, also by the object that it compiles. PROGRAM is the built heal, by default the proved one. Needs a C compiler.
set -eo pipefail
here=$(cd "$(dirname "$0")" && pwd)
count=${1:-100}
heal=${2:-$here/../crates/heal_main/out/heal_main}
out=$(mktemp -d) && trap 'rm -rf "$out"' EXIT
clang=$(command -v clang-19 || command -v clang || true)
if [ -z "$clang" ] || ! "$clang" -print-targets | grep -qw bpfel; then
    clang=
    echo "there is no clang for BPF, so only the code in resolvers/ was compared"
fi

awk -v count="$count" 'BEGIN {
    srand(1)
    for (n = 0; n < count; n++) {
        line = ""
        for (i = 0; i < 160; i++)
            line = line sprintf("%02x", n % 2 == 1 && i % 8 > 0 ? 0 : int(256 * rand()))
        print line
    }
}' > "$out/records"

# Prints the verdict of some code on a record, and ends with an error if it isn't that of the C.
judge() {
    judged=$("$heal" judge "$1" "$2") || true
    [ "${judged%% *}" = "$3" ] || { echo "$1: heal returns '$judged', C returns '$3' for $2" >&2; exit 1; }
}

for source in "$here"/../resolvers/*.c; do
    name=$(basename "$source" .c)
    cc -O2 -include "$source" -o "$out/native" "$here/native.c"
    if [ -n "$clang" ]; then
        # As resolvers/compile.sh does.
        "$clang" -O2 -ffreestanding -mllvm -enable-tail-merge=0 -target bpfel -mcpu=v2 -fno-jump-tables -c "$source" -o "$out/$name.o"
    fi
    while read -r record; do
        natively=$("$out/native" "$record")
        judge "@${source%.c}.hex" "$record" "$natively"
        if [ -n "$clang" ]; then
            judge "@$out/$name.o" "$record" "$natively"
        fi
        echo "$natively"
    done < "$out/records" | sort | uniq -c | awk -v name="$name" '{ printf "%s%s %s", sep, $1, $2; sep = ", " } END { print " by " name }'
done

#!/bin/sh
# Proves the crate heal_c, and makes libheal.a, libheal.so and heal.pc of it in bindings/c/out (link.sh). Requires rt, cc and ar.
#
# With --gate, right after `rt ci`, takes the libraries that `rt ci` has just proved, and proves heal_c alone again.
# Otherwise proves each crate that isn't proved yet, and prints one line for each (scripts/prove.py).
set -e
cd "$(dirname "$0")"
root=$(cd ../.. && pwd)
crate=$root/crates/heal_c
kit=$(dirname "$(rt doc)")

# Prints the flags that name the libraries of heal_c: those that its line of crates.txt names, and those below them.
libraries() {
    awk -F: -v kit="$kit" -v crates="$root/crates" '
        { split($1, head, " "); uses[head[1]] = $2 }
        function list(name,    below, count, i) {
            count = split(uses[name], below, " ")
            for (i = 1; i <= count; i++) {
                if (below[i] in seen) continue
                seen[below[i]]
                if (!(below[i] in uses)) continue
                print "-L dependency=" crates "/" below[i] "/out/rlib"
                list(below[i])
            }
        }
        END {
            count = split(uses["heal_c"], own, " ")
            for (i = 1; i <= count; i++)
                print "--extern " own[i] "=" (own[i] in uses ? crates "/" own[i] "/out" : kit) \
                    (own[i] in uses ? "/rlib/" : "/rlibs/") own[i] ".rlib"
            list("heal_c")
        }' "$root/crates.txt"
}

if [ "${1-}" = --gate ] && [ ! -e "$root/crates/exchange_codec/out/rlib/stamp" ]; then
    mkdir -p "$crate/out"
    log=$crate/out/build.log
    echo "heal_c: proving it again over the libraries of the gate" >&2
    # shellcheck disable=SC2046
    (cd "$crate" && "$kit/bin/rattle" build --crate-name heal_c src/lib.rt \
        --extern std="$kit/rlibs/std.rlib" -L dependency="$kit/rlibs" $(libraries) \
        --antt-project "$kit/rattle/logic/antt-project.json" --logic-built "$kit/logic_built" --links heal_c= \
        --crate-type staticlib --toolchain "$kit/toolchain" --backend llvm -o out/libheal_c.a) \
        > "$log" 2>&1 < /dev/null || { tail -n 20 "$log" >&2; exit 125; }
else
    "$root/scripts/prove.py" heal_c
fi
./link.sh

#!/bin/sh
# Tests the bindings for C, Python, Rust and Erlang. Prints what it skips because a tool is missing; with HEAL_NO_SKIP=1 it fails
# instead.
#
# HEAL_OUT is the folder with libheal.a, libheal.so and heal.pc. Unless it is set, this builds them first in bindings/c/out, by
# c/build.sh with these arguments.
set -e
cd "$(dirname "$0")"
version=$(cat ../VERSION)

# Prints what a missing tool leaves untested, or fails if nothing may be skipped.
skip() {
    echo "$1"
    [ "${HEAL_NO_SKIP-}" != 1 ] || { echo "HEAL_NO_SKIP is 1, so nothing may be skipped" >&2; exit 1; }
}

# Ends the tests unless the file has this line: states FILE LINE.
states() {
    grep -qxF "$2" "$1" || { echo "$1 doesn't state the version of the file VERSION: $2" >&2; exit 1; }
}

# The refusals by name are those of the tables, and each binding has the calls of heal.h.
if command -v python3 > /dev/null; then
    ./refusals.py --check
    ./calls.py
fi
../scripts/versions.py
if ! command -v cc > /dev/null; then
    skip "there is no C compiler, so the bindings were not tested"
    exit 0
fi
if [ -z "${HEAL_OUT-}" ]; then
    c/build.sh "$@"
    HEAL_OUT=$PWD/c/out
fi
work=$(mktemp -d)
trap 'rm -rf "$work"' EXIT
flags="-std=c11 -D_POSIX_C_SOURCE=200809L -Wall -Wextra -Wpedantic -Werror -g -O1"

# Compiles a C program against libheal: compile PROGRAM SOURCE [FLAG..]
compile() {
    program=$work/$1
    source=c/$2
    shift 2
    cc $flags "$@" "$source" "$HEAL_OUT/libheal.a" -lpthread -o "$program"
}

# Runs a program under valgrind if it is installed: no leak, no error.
checked() {
    if command -v valgrind > /dev/null; then
        valgrind -q --leak-check=full --trace-children=yes --error-exitcode=9 "$@"
    else
        "$@"
    fi
}

# Lists the functions that heal.h declares, one a line.
declared() {
    sed -n 's/^[a-z].*[ *]\(heal_[a-z_]*\)(.*/\1/p' c/heal.h | sort
}

# Checks libheal.so: its soname, the links to it, and that it exports what heal.h declares and nothing else.
check_shared() {
    soname=libheal.so.${version%%.*}
    readelf -d "$HEAL_OUT/libheal.so" | grep -qF "soname: [$soname]" || { echo "libheal.so has another soname" >&2; exit 1; }
    cmp "$HEAL_OUT/libheal.so" "$HEAL_OUT/$soname"
    cmp "$HEAL_OUT/libheal.so" "$HEAL_OUT/libheal.so.$version"
    nm -D --defined-only "$HEAL_OUT/libheal.so" | awk '{ print $3 }' | sort > "$work/exported"
    declared > "$work/declared"
    diff "$work/declared" "$work/exported"
}

# Compiles first.c by the heal.pc of a folder, and runs it with the shared library of another: check_package FOLDER LIBRARIES.
check_package() {
    states "$1/heal.pc" "Version: $version"
    cp c/first.c "$work/packaged.c"
    (export PKG_CONFIG_PATH="$1" && cc $flags "$work/packaged.c" $(pkg-config --cflags --libs heal) -o "$work/first_shared")
    LD_LIBRARY_PATH=$2 "$work/first_shared" > "$work/printed"
    cmp "$work/printed" "$work/first.out"
    readelf -d "$work/first_shared" | grep -qF "[libheal.so.${version%%.*}]"
}

# Checks that first.c ends with status 1 if a call is refused, for each of its calls that can be.
check_first() {
    cc $flags -c c/first.c -o "$work/first.o"
    for call in $(grep -ow 'heal_[a-z_]*' c/first.c | sort -u | grep -xFf "$work/declared"); do
        case $call in *_free | heal_refusal_words) continue ;; esac
        echo "unsigned __wrap_$call(void) { return 90; }" > "$work/refused.c"
        cc "$work/first.o" "$work/refused.c" "$HEAL_OUT/libheal.a" "-Wl,--wrap=$call" -lpthread -o "$work/refused"
        if "$work/refused" > "$work/printed" 2> "$work/errors" || [ $? -ne 1 ]; then
            echo "first.c doesn't end with status 1 if $call is refused" >&2
            exit 1
        fi
        grep -qx 'refused 90: out of memory' "$work/errors"
    done
}

# Builds the wheel, unpacks it elsewhere, and runs first.py with the library that the wheel has.
check_wheel() {
    (cd python && python3 -c "import wheel_of_heal; print(wheel_of_heal.build_wheel('$work'))") > "$work/wheel"
    python3 -m zipfile -e "$work/$(cat "$work/wheel")" "$work/site"
    cp python/first.py "$work/site"
    (unset HEAL_LIBRARY && python3 "$work/site/first.py") > "$work/printed"
    cmp "$work/printed" "$work/first.out"
}

# Succeeds if the Erlang of Debian's erlang-base, erlang-dev and erlang-eunit is installed.
has_erlang() {
    command -v erl > /dev/null && command -v erlc > /dev/null && command -v make > /dev/null && erl -noshell -eval '
        Header = filename:join(code:root_dir(), "usr/include/erl_nif.h"),
        halt(case filelib:is_file(Header) andalso code:which(eunit) =/= non_existing of true -> 0; false -> 1 end).'
}

command -v valgrind > /dev/null || skip "there is no valgrind, so leaks were left to the sanitizers"
# The owner that each half has in the first programs of docs/EMBEDDING.md: word 7 is odd, so `exit` keeps the second.
printf 'db 2.20\ndb 2.20\n' > "$work/first.out"
compile first first.c
checked "$work/first" > "$work/printed"
cmp "$work/printed" "$work/first.out"
check_shared
check_first
if command -v pkg-config > /dev/null && command -v make > /dev/null; then
    check_package "$HEAL_OUT" "$HEAL_OUT"
    make -s -C c install PREFIX="$work/usr" OUT="$HEAL_OUT"
    check_package "$work/usr/lib/pkgconfig" "$work/usr/lib"
else
    skip "there is no pkg-config or no make, so heal.pc was not tested"
fi
compile example example.c
checked "$work/example" > "$work/printed"
cmp "$work/printed" c/example.out
# The owner that each node of docs/EMBEDDING.md has after a split of four nodes.
printf 'node %s: db 4.10\n' 1 2 4 5 > "$work/cluster.out"
compile cluster cluster.c
checked "$work/cluster" > "$work/printed"
cmp "$work/printed" "$work/cluster.out"
compile sweep sweep.c -Wl,--wrap=malloc,--wrap=realloc
checked "$work/sweep"
compile stated stated.c
checked "$work/stated"
compile replicas replicas.c -Wl,--wrap=malloc,--wrap=realloc
checked "$work/replicas"
compile node node.c
# Calls that only read write nothing, and run at the same time; helgrind watches the threads for less long.
compile readers readers.c -D_DEFAULT_SOURCE -Wl,--wrap=malloc,--wrap=realloc,--wrap=free
"$work/readers" 2
if command -v valgrind > /dev/null; then
    valgrind -q --tool=helgrind --error-exitcode=9 "$work/readers" 0
fi
compile growth growth.c -Wl,--wrap=malloc,--wrap=realloc,--wrap=free
"$work/growth"
compile copies copies.c -Wl,--wrap=malloc,--wrap=realloc
"$work/copies"
if command -v valgrind > /dev/null && command -v python3 > /dev/null; then
    compile cost cost.c
    c/cost.py "$work/cost"
else
    skip "there is no valgrind or no Python, so no instructions were counted"
fi
compile inputs fuzz.c -DFUZZ_FILES
checked "$work/inputs" c/corpus/*
if echo 'int main(void){return 0;}' | cc -fsanitize=address,undefined -x c - -o "$work/sane" 2> /dev/null; then
    for name in example cluster stated sweep replicas; do
        [ $name = sweep ] && wrap=-Wl,--wrap=malloc,--wrap=realloc
        compile sane_$name $name.c -fsanitize=address,undefined -fno-sanitize-recover=all ${wrap-}
        "$work/sane_$name" > /dev/null
    done
    compile sane_inputs fuzz.c -DFUZZ_FILES -fsanitize=address,undefined -fno-sanitize-recover=all
    "$work/sane_inputs" c/corpus/* > /dev/null
else
    skip "the C compiler has no sanitizers, so none was used"
fi
if command -v c++ > /dev/null; then
    echo '#include "heal.h"
    int main() { heal_side side = {}; heal_side_free(&side); return 0; }' > "$work/cpp.cc"
    c++ -std=c++11 -Wall -Wextra -Werror -Ic "$work/cpp.cc" "$HEAL_OUT/libheal.a" -lpthread -o "$work/cpp"
    "$work/cpp"
else
    skip "there is no C++ compiler, so the header was not compiled as C++"
fi
if command -v python3 > /dev/null; then
    export HEAL_LIBRARY="$HEAL_OUT/libheal.so" PYTHONDONTWRITEBYTECODE=1
    ./declarations.py
    (cd python && python3 -m unittest -q)
    c/nodes.py 30 "$work/node"
    cc -shared -fPIC -O1 -Wall -Wextra -Werror c/kill_at.c -o "$work/kill_at.so"
    c/each_write.py "$work/kill_at.so" "$work/node"
    c/nodes.py 10 python3 python/node.py
    python3 python/first.py > "$work/printed"
    cmp "$work/printed" "$work/first.out"
    python3 python/cluster.py > "$work/printed"
    cmp "$work/printed" "$work/cluster.out"
    check_wheel
else
    skip "there is no Python, so its bindings were not tested"
fi
if command -v cargo > /dev/null; then
    export HEAL_LIB_DIR="$HEAL_OUT" CARGO_TARGET_DIR="$work/target"
    (cd rust && cargo test -q --offline)
    (cd rust && cargo run -q --offline -p heal --example first) > "$work/printed"
    cmp "$work/printed" "$work/first.out"
    (cd rust && cargo run -q --offline -p heal --example cluster) > "$work/printed"
    cmp "$work/printed" "$work/cluster.out"
    if command -v python3 > /dev/null; then
        (cd rust && cargo build -q --offline -p heal --example node)
        c/nodes.py 10 "$CARGO_TARGET_DIR/debug/examples/node"
    fi
else
    skip "there is no cargo, so the bindings for Rust were not tested"
fi
if has_erlang; then
    # On three nodes, to save time: `make test` also runs the tests on two and on five.
    HEAL_NODES=${HEAL_NODES:-3} make -s -C erlang HEAL="$HEAL_OUT" test sanitize
    ERL_FLAGS="-pa $PWD/erlang/ebin" escript erlang/examples/cluster.escript > "$work/printed"
    cmp "$work/printed" "$work/cluster.out"
    if command -v python3 > /dev/null; then
        c/nodes.py 6 erl -noshell -pa "$PWD/erlang/ebin" "$PWD/erlang/out" -run heal_node main -extra
    fi
else
    skip "there is no Erlang with erl_nif.h and eunit, so the OTP application was not tested"
fi
echo "the bindings passed their tests"

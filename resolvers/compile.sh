#!/bin/sh
# compile.sh FILE.c: prints the code of a resolver in C as hex digits, wherever the file is. Needs clang and llvm of Debian; takes
# version 19 if it is there.
set -e
source=${1:?usage: compile.sh FILE.c}
case $source in -*) source=./$source ;; esac
here=$(dirname "$(readlink -f "$0")")
clang=$(command -v clang-19 || command -v clang) || { echo "compile.sh: there is no clang" >&2; exit 1; }
object=$(mktemp) && trap 'rm -f "$object" "$object.text"' EXIT
"$clang" -O2 -ffreestanding -mllvm -enable-tail-merge=0 -target bpfel -mcpu=v2 -fno-jump-tables \
    -I "$here" -c "$source" -o "$object"
"llvm-objcopy${clang##*/clang}" -O binary --only-section=.text "$object" "$object.text"
od -An -v -tx1 "$object.text" | tr -d ' \n'
echo

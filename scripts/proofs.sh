#!/bin/sh
# proofs.sh [--anew]: runs `rt ci` on a copy of the crates without their wrong bodies, and takes what it built.
#
# With --anew it proves all crates, also those that this machine has proved before.
# `rt ci` tries each wrong body alone, which takes about as long as all proofs. must_fail.py tries those of a crate together.
set -e
case "$*" in
    '' | --anew) ;;
    *) echo "usage: proofs.sh [--anew]" >&2; exit 2 ;;
esac
cd "$(dirname "$0")/.."
# The `rt ci` of this kit keeps nothing, and takes no flag.
case "$(rt version)" in
    rattle-kit-13b*) set -- ;;
esac
copy=$(mktemp -d)
trap 'rm -rf "$copy"' EXIT
tar -cf - --exclude='crates/*/out' --exclude='crates/*/must-fail' crates crates.txt HANDLES | tar -xf - -C "$copy"
(cd "$copy" && rt ci "$@")
for built in "$copy"/crates/*/out/*; do
    own=crates/${built#"$copy"/crates/}
    # A library with a stamp is one of `rt lib` or `rt check`, which `rt ci` leaves in place too.
    if [ ! -e "$own/stamp" ]; then
        rm -rf "$own"
        mkdir -p "${own%/*}"
        mv "$built" "$own"
    fi
done

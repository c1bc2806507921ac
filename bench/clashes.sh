#!/bin/sh
# clashes.sh [COUNT [CODE]]: prints a script in which two halves of a cluster register COUNT names (256 by default) for
# different owners, heal, and show the names of one half. Each clash is judged by `exit`, or by the program whose hex digits, or
# @ and file, CODE is.
awk -v count="${1:-256}" -v code="${2-}" 'BEGIN {
    resolver = code == "" ? "exit" : "judging"
    if (code != "") print "upload judging " code
    for (k = 0; k < count; k++) {
        printf "register a name%05d 1.%d %d 0 - %s\n", k, k, k, resolver
        printf "register b name%05d 2.%d %d 0 - %s\n", k, k, k, resolver
    }
    print "heal 0"
    print "show a"
}'

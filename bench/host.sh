# Sourced by scripts that measure. `host_took` prints which part of the processors' time the host of a virtual machine has taken since:
# with more than a few percent, the times are those of a busy machine.
ticks() { awk '$1 == "cpu" { for (i = 2; i <= 9; i++) all += $i; print all, $9 }' /proc/stat; }
started=$(ticks)
host_took() {
    echo "$started $(ticks)" | awk '{ printf "\nThe host took %.0f percent of the processors'\'' time.\n", 100 * ($4 - $2) / ($3 - $1) }'
}

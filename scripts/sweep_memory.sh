#!/bin/bash
# sweep_memory.sh: runs heal with each request for memory refused in turn: the Nth alone, and all from the Nth on. Each run has
# to answer as with ample memory, or to end with status 3 and print `refused 90`, or on standard error that memory ran out while
# the words were read. Of a script, a line may be refused 90, and then the other lines answer as if it weren't there; a `heal` may
# be refused with another number where no round could start a worker, or print words of a later round.
# Then it runs memory_sweep, which has each call of the crates refused in turn, and looks whether each refusal was answered and each
# answer had none. Needs what `rt ci` builds of the two programs, and a C compiler.
set -e
here=$(cd "$(dirname "$0")" && pwd)
root=$here/..
heal=$root/crates/heal_main/out/heal_main
out=$(mktemp -d) && trap 'rm -rf "$out"' EXIT
cc -O2 -shared -fPIC -o "$out/refuse.so" "$here/refuse_memory.c" -ldl
runs=0
declare -A answers

# Runs heal with these settings and words, and keeps its output and its status.
run() {
    local settings=$1
    shift
    status=0
    printed=$(env LD_PRELOAD="$out/refuse.so" $settings "$heal" "$@" 2> "$out/errors") || status=$?
    runs=$((runs + 1))
}

# Prints the number of requests that the latest counting run made.
requests_made() {
    od -An -tu8 "$out/count" | tr -d ' '
}

# Succeeds if the run answered as with ample memory, or reported that memory ran out.
is_right() {
    [ "$status $printed" = "$ample" ] && return
    [ "$status" = 3 ] && { [ "$printed" = "refused 90" ] || grep -q 'out of memory' "$out/errors"; }
}

# Refuses each request that heal makes of these words.
sweep() {
    run "REFUSE_COUNT=$out/count" "$@"
    ample="$status $printed"
    local requests words="$*"
    requests=$(requests_made)
    [ "$requests" -gt 0 ] || { echo "no request was counted for: ${*:0:200}" >&2; exit 1; }
    for n in $(seq "$requests"); do
        for settings in "REFUSE_ALONE=$n" "REFUSE_FROM=$n"; do
            run "$settings" "$@"
            is_right || { echo "$settings of $requests: '$printed', status $status, for: ${words:0:200}" >&2; exit 1; }
        done
    done
    echo "$1 $requests requests"
}

# Prints what the script prints with ample memory without the lines of these numbers. A refused line changes nothing.
without() {
    local key="$1:$2"
    if [ -z "${answers[$key]+set}" ]; then
        awk -v left=" $2 " '{ print index(left, " " NR " ") ? "#" : $0 }' "$1" > "$out/fewer"
        answers[$key]=$("$heal" run "$out/fewer" --workers 2) || true
    fi
    printf '%s\n' "${answers[$key]}"
}

# Succeeds if a script answered as with ample memory, apart from lines that were refused 90, and from words of later rounds, which
# are $2. The lines that it answered must be answered as if the refused ones weren't there. A `heal` may also be refused by another
# number if no round could start a worker, and may leave both halves as before, or merged.
is_right_script() {
    local script=$1 words=$2 number='refused [0-9]+' refused heal_line expected=2
    [ "$status $printed" = "$ample" ] && return
    [ "$status" = 3 ] && { [ "$printed" = "refused 90" ] || grep -q 'out of memory' "$out/errors"; } && return
    refused=$(printf '%s\n' "$printed" | sed -nE 's/^line ([0-9]+): refused 90$/\1/p' | tr '\n' ' ')
    heal_line=$(awk '/^heal [0-9]+$/ { print NR }' "$script")
    [ -n "$refused" ] && expected=3
    printf '%s\n' "$printed" | grep -qE "$number" || expected=0
    [ "$status" = "$expected" ] || return 1
    answered() { printf '%s\n' "$printed" | grep -vE '^line [0-9]+: refused 90$' | sed -E "s/ word ($words)\$/ word W/"; }
    due() { without "$script" "$1" | sed -E "s/ word ($words)\$/ word W/"; }
    if [ -n "$heal_line" ] && printf '%s\n' "$printed" | grep -qE "^line $heal_line: $number"; then
        local others=${refused/"$heal_line "/}
        rest=$(answered | grep -vE "^line $heal_line: $number")
        [ "$rest" = "$(due "$others$heal_line ")" ] && return
        [ "$rest" = "$(due "$others" | grep -vE '^([a-z]+ (first|second|none) word |exit |conflict |healed )')" ]
    else
        [ "$(answered)" = "$(due "$refused")" ]
    fi
}

# Reads the output of such a program and of the library, and prints for each call how many requests it makes and how many refused
# ones it does without. A call is wrong if it reports a fault, if it was refused though no request was, if it answers though a
# request was refused, if its last window refused a request, if it allocates and shouldn't, and if it should and was never
# refused. A merge, and so a finish, collects its rows into a map: if the room for all rows is refused, it allocates row by row. A list
# of clashes that can't be cut to its length keeps its room. Unregistering copies shared rows if it can, and succeeds without. On what
# this sweep makes hearing a list needs no memory: it adds an owner.
read_sweep() {
    awk -v asks_again='^(merge|clashes|Side::(hear|take|finish|unregister next to an offer))$' \
        -v needs_none='^Side::(unregister|unregister next to an offer|hear_list)$' \
        -v tries='^Table::unregister of shared rows' '
        function fault(what) { print call ": " what > "/dev/stderr"; faults++ }
        /^call / { call = substr($0, 6); if (!(call in runs)) order[++calls] = call; runs[call]++ }
        /^refuse / { every = $2 == "all"; number = $2; made = -1 }
        / made, [0-9]+ refused$/ { made = $1; denied = $3 }
        /^refused$/ && (made < number || denied != 1) { fault("refused, though no request was, at request " number) }
        /^refused$/ { refusals[call]++ }
        /^answered$/ && made < 0 { fault("the library was silent") }
        /^answered$/ && !every && denied > 0 { spared[call]++ }
        /^answered$/ && !every && denied > 0 && call !~ asks_again { fault("answered, though request " number " was refused") }
        /^answered$/ && every && made > 0 && call !~ tries { fault("takes memory") }
        /^answered$/ { if (made > most[call]) most[call] = made; if (every) takes_none[call] = 1 }
        /^right$/ && !every && denied > 0 { fault("the sweep ended at a refused request") }
        /^right$/ { rights[call]++ }
        /^wrong: / { fault(substr($0, 8) ", at request " number) }
        END {
            for (i = 1; i <= calls; i++) {
                call = order[i]
                print call " " most[call] + 0 " requests, " refusals[call] + 0 " refusals, " spared[call] + 0 " done without"
                if (rights[call] != runs[call]) fault("not right")
                if (!(call in takes_none) && call !~ needs_none && !refusals[call]) fault("was never refused")
            }
            exit (faults > 0)
        }'
}

# Has each call that this program makes refused in turn.
sweep_calls() {
    local folder=$root/crates/$1
    LD_PRELOAD="$out/refuse.so" "$folder/out/$1" > "$out/said" 2>&1 || { tail -n 3 "$out/said" >&2; exit 1; }
    diff <(grep '^call ' "$out/said") <(grep '^call ' "$folder/stdout") >&2
    read_sweep < "$out/said"
}

# Refuses each request that heal makes of this script, whose `heal` judges at these words in its rounds.
sweep_script() {
    run "REFUSE_COUNT=$out/count" run "$1" --workers 2
    ample="$status $printed"
    local requests lines
    requests=$(requests_made)
    [ "$requests" -gt 0 ] || { echo "no request was counted for: ${*:0:200}" >&2; exit 1; }
    for n in $(seq "$requests"); do
        for settings in "REFUSE_ALONE=$n" "REFUSE_FROM=$n"; do
            run "$settings" run "$1" --workers 2
            is_right_script "$1" "$2" || { echo "$settings of $requests: '$printed', status $status, for: run $1" >&2; exit 1; }
        done
    done
    echo "run ${1##*/} $requests requests"
}

record=$(tail -1 "$root/crates/heal_main/args")
code=$(cat "$root/resolvers/name_hash.hex")
"$heal" dis "$code" > "$out/text"
printf '; a comment alone\n' > "$out/comment"
sweep check "$code"
sweep check 95
sweep judge "$code" "$record"
sweep judge "$(cat "$root/resolvers/stack_table.hex")" "${record:0:256}"
sweep judge "$code" --name db --first 1.10,stamp=5 --second 2.20,size=3 --explain
sweep check "@$root/resolvers/name_hash.hex"
printf '\225\0\0\0\0\0\0\0' > "$out/bytes"
sweep dis "@$out/bytes"
sweep dis "$code"
sweep asm "$out/text"
sweep asm "$out/comment"
sweep help
cat > "$out/uploaded" <<'END'
upload gt 79123800000000007913600000000000b7000000010000003d32010000000000b7000000020000009500000000000000
register a db 1.10 5 0 - gt
register b db 2.20 9 0 - gt
register b web 2.21 1 0 - notify-all
heal 0
show a
show b
END
cat > "$out/noticed" <<'END'
register a m 1.1 0 0 - notify-all
register b m 2.2 0 0 - notify-all
heal 3
show a
END
cat > "$out/from_file" <<END
upload hash @$root/resolvers/name_hash.hex
upload exit @$root/resolvers/name_hash.hex
upload exits @$out/bytes
upload missing @$out/missing
register a db 1.10 5 0 - hash
show a
END
printf '# a comment alone\n' > "$out/comments"
printf 'greet a\nwhereis a db\nheal 01\n' > "$out/wrong"
sweep_script "$out/uploaded" '[0-3]'
sweep_script "$out/noticed" '[3-6]'
sweep_script "$out/from_file" none
sweep_script "$out/comments" none
sweep_script "$out/wrong" none
echo "$runs runs, none wrong"
sweep_calls memory_sweep

#!/bin/sh
# fuzz.sh MINUTES [OPTION..]: runs differential.py for so long, from another seed each time, with these options.
set -e
minutes=${1:?usage: fuzz.sh MINUTES [OPTION..]}
shift
exec "$(dirname "$0")/differential.py" --seconds $((60 * minutes)) "$@"

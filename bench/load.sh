#!/usr/bin/env bash
# Times `load` at growing sizes, by numbers of workers: bench/load.sh [SEED BANKS PAIRS COMMANDS]. The best of five runs counts. It
# fails where a run fails, or where two runs of one session differ in what they write.
set -eu
shopt -s inherit_errexit
cd "$(dirname "$0")/.."
. bench/common.sh

# The load with so many workers, which has to write what the first run wrote.
load() {
    local workers=$1
    shift
    "$program" load "$@" --workers "$workers" > "$folder/out"
    [ -e "$folder/first" ] || cp "$folder/out" "$folder/first"
    cmp "$folder/first" "$folder/out" >&2
}

# All counts of workers on one session, and what it came to.
row() {
    local workers taken times=
    rm -f "$folder/first"
    for workers in 1 4 64; do
        taken=$(best 5 load "$workers" "$@")
        times="$times $workers workers $taken ms;"
    done
    printf '%3s banks %3s pairs %6s commands:%s %s\n' "$2" "$3" "$4" "$times" "$(sed -n 2p "$folder/first")"
}

if [ $# -eq 4 ]; then
    row "$1" "$2" "$3" "$4"
else
    for commands in 1250 2500 5000 10000 20000; do row 7 8 4 "$commands"; done
    row 7 64 32 20000
fi

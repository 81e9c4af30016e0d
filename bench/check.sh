#!/usr/bin/env bash
# Times `check` on an output beside the `serial` run that wrote it: bench/check.sh [BANKS PAIRS COMMANDS KIND]. The best of five
# runs counts.
set -eu
cd "$(dirname "$0")/.."
. bench/common.sh

# The program with a word on a text, with its output in a file of the word's name.
answer() {
    "$program" "$1" < "$2" > "$folder/$1"
}

row() {
    python3 bench/make_session.py "$1" "$2" "$3" "$4" > "$folder/in"
    local run=$(best 5 answer serial "$folder/in")
    local checked=$(best 5 answer check "$folder/serial")
    printf '%-8s %3s banks %3s pairs %7s commands: serial %6s ms, check %6s ms, %s; output %s bytes\n' \
        "$4" "$1" "$2" "$3" "$run" "$checked" "$(cat "$folder/check")" "$(wc -c < "$folder/serial")"
}

if [ $# -eq 4 ]; then
    row "$1" "$2" "$3" "$4"
else
    row 16 4 20000 orders
    row 16 4 20000 mixed
    row 64 8 20000 orders
fi

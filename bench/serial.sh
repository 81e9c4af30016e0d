#!/usr/bin/env bash
# Times `serial` on made sessions: bench/serial.sh [BANKS PAIRS COMMANDS KIND]. The best of five runs counts. What reading alone
# costs is the run of the same text with its commands as comments.
set -eu
cd "$(dirname "$0")/.."
. bench/common.sh

# The program on a text.
serve() {
    "$program" serial < "$1" > "$folder/out"
}

row() {
    python3 bench/make_session.py "$1" "$2" "$3" "$4" > "$folder/in"
    sed 's/^B[0-9][0-9] /#&/' "$folder/in" > "$folder/passed"
    printf '%-8s %3s banks %3s pairs %7s commands: %6s ms, of which reading %s ms; output %s bytes\n' \
        "$4" "$1" "$2" "$3" "$(best 5 serve "$folder/in")" "$(best 5 serve "$folder/passed")" "$(wc -c < "$folder/out")"
}

if [ $# -eq 4 ]; then
    row "$1" "$2" "$3" "$4"
else
    row 16 4 20000 orders
    row 16 4 20000 rest
    row 64 8 20000 orders
fi

#!/usr/bin/env bash
# Times `run` with 1, 2 and 4 workers beside `serial` on made sessions, and has each output checked: bench/threads.sh ["BANKS PAIRS
# COMMANDS KIND"..]. The best of three runs counts.
set -eu
cd "$(dirname "$0")/.."
. bench/common.sh

# The program with these words on the file `in`, with its output left in `out`.
answer() {
    "$program" "$@" < "$folder/in" > "$folder/out"
}

for day in "${@:-16 4 20000 orders}"; do
    echo "banks, pairs, commands, kind: $day"
    python3 bench/make_session.py $day > "$folder/in"
    for words in serial 'run --workers 1' 'run --workers 2' 'run --workers 4'; do
        printf '%-16s %6s ms' "$words" "$(best 3 answer $words)"
        printf '  check: %s\n' "$("$program" check < "$folder/out")"
    done
done

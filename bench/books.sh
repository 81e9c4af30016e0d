#!/usr/bin/env bash
# What the section BOOKS costs of a run of `serial`: bench/books.sh [BANKS PAIRS ORDERS]. The orders all rest, so that the local
# books at the end are deep. The best of five runs counts, of each of three: the commands alone (the output can't be written, so the
# run ends at its first piece), the whole run, and the whole run of the same orders where each bank pulls its own at the end, so that
# all books are empty. What the last two differ by is the section's cost.
set -eu
cd "$(dirname "$0")/.."
. bench/common.sh

# The program on a text, with its output in a file; a write that fails is no failure.
serve() {
    "$program" serial < "$1" > "$2" 2> "$folder/err" || grep -q '^write failed$' "$folder/err"
}

banks=${1:-16} pairs=${2:-4} orders=${3:-20000}
python3 bench/make_session.py "$banks" "$pairs" "$orders" rest > "$folder/in"
banks_named=$(sed -n 's/^BANK //p' "$folder/in")
pairs_named=$(sed -n 's/^PAIR \([^ ]*\) .*/\1/p' "$folder/in")
{
    sed '$d' "$folder/in"
    for bank in $banks_named; do
        for pair in $pairs_named; do echo "$bank PULL $pair"; done
    done
    echo END
} > "$folder/pulled"

alone=$(best 5 serve "$folder/in" /dev/full)
whole=$(best 5 serve "$folder/in" "$folder/out")
empty=$(best 5 serve "$folder/pulled" "$folder/out_pulled")
printf '%s banks %s pairs %s resting orders: commands alone %s ms, with the output %s ms, with the output and empty books %s ms; BOOKS %s%% of the run\n' \
    "$banks" "$pairs" "$orders" "$alone" "$whole" "$empty" "$((100 * (whole - empty) / (whole > 0 ? whole : 1)))"

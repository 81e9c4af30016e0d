#!/usr/bin/env bash
# The program's times beside those of another that reads the same sessions and writes the same outputs:
# bench/against_yardstick.sh [--million] [--word WORD] PROGRAM [YARDSTICK]. PROGRAM is a built program, as crates/fx_cli/out/fx_cli;
# YARDSTICK, or the variable of that name, is the folder of the other one: a Cargo package with a `bench.py` that compares. It is
# copied and built there, so that its folder stays as it is; with CARGO_TARGET_DIR set, what was built there is used. For each kind
# of session, at 10^4 and 10^5 commands and with --million at 10^6, it prints the best of three runs of each, their ratio, peak
# memory, whether the outputs are the same, and at the end how the times grow. WORD is `serial`, where none is given, `run` or
# `check`. Compare ratios, not seconds: the two run by turns.
set -eu
sizes=10000,100000 word=serial
while :; do
    case ${1-} in
        --million) sizes=$sizes,1000000; shift ;;
        --word) word=$2; shift 2 ;;
        *) break ;;
    esac
done
if [ $# -lt 1 ]; then echo "bench/against_yardstick.sh: which PROGRAM?" >&2; exit 2; fi
program=$(realpath "$1")
yardstick=${2:-${YARDSTICK:-}}
if [ ! -f "$yardstick/bench.py" ]; then echo "bench/against_yardstick.sh: no bench.py in the folder '$yardstick'" >&2; exit 2; fi

folder=$(mktemp -d)
trap 'rm -rf "$folder"' EXIT
cp -r "$yardstick" "$folder/yardstick"
export CARGO_TARGET_DIR=${CARGO_TARGET_DIR:-$folder/target}
cd "$folder/yardstick"
python3 bench.py compare --program "$program" --word "$word" --sizes "$sizes"

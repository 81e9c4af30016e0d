# For the benchmarks: the built program, a folder for their files, and the best time of some runs. To be read by `.` at the top of the
# repository; it builds the program first where that is needed.
./fx build
program=crates/fx_cli/out/fx_cli
folder=$(mktemp -d)
trap 'rm -rf "$folder"' EXIT

# best RUNS COMMAND..: the least time of so many runs of a command or function, in milliseconds.
best() {
    local runs=$1 least= started taken
    shift
    for _ in $(seq "$runs"); do
        started=$(date +%s%N)
        "$@"
        taken=$(($(date +%s%N) - started))
        if [ -z "$least" ] || [ "$taken" -lt "$least" ]; then least=$taken; fi
    done
    echo $((least / 1000000))
}

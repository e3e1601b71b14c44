# shellcheck shell=bash
# Sourced by the benchmarks: the repository's folder, a folder to work in that is removed at the end, the
# program, and how a command is measured.
top="$(cd "$(dirname "$0")/.." && pwd)"
work="$(mktemp -d)"
trap 'rm -rf "$work"' EXIT

# The program itself, without the script beside it, once `build` has proved and built it.
# shellcheck disable=SC2034 # (the benchmarks use it)
program="$top/crates/llrp/out/llrp"

build() {
    "$top/llrp" --help > "$work/help"
}

# The program that repeats calls.
# shellcheck disable=SC2034 # (the benchmarks use it)
loop="$top/crates/bench_calls/out/bench_calls"

# Whether it is missing, or a source is newer. The merge gate leaves the one that it built.
is_stale() {
    [ ! -x "$loop" ] || [ -n "$(find "$top/crates" "$top/crates.txt" -name out -prune -o \
        \( -name '*.rt' -o -name '*.antt' -o -name crates.txt \) -newer "$loop" -print -quit)" ]
}

# Runs it with these words, and proves and builds it first where need be.
run_loop() {
    if is_stale; then
        (cd "$top/crates/bench_calls" && rt run -- "$@")
    else
        "$loop" "$@"
    fi
}

# Proves and builds that program where need be, and runs it once: its input, its words. Where that fails, the benchmark ends and
# shows why.
build_and_run() {
    local input="$1"
    shift
    if ! run_loop "$@" < "$input" > "$work/build" 2>&1; then
        tail -n 20 "$work/build" >&2
        echo "bench_calls $1: the build or its first run failed" >&2
        exit 2
    fi
}

# Copies of $work/million, one after another; the argument says how many.
copies() {
    for ((n = 0; n < $1; n++)); do
        cat "$work/million"
    done
}

# The MB/s and the peak memory of a command that reads a file, and what it writes as $work/output: its
# name, the file, the command.
measure() {
    local name="$1" file="$2"
    shift 2
    /usr/bin/time -f '%e %U %S %M' -o "$work/time" "$@" < "$file" > "$work/output"
    awk -v name="$name" -v bytes="$(stat -c %s "$file")" \
        '{ printf "%-12s %7.1f MB/s by wall  %7.1f MB/s by processor  %6.1f MB of memory\n", \
            name, bytes / 1e6 / ($1 + 0.001), bytes / 1e6 / ($2 + $3 + 0.001), $4 / 1000 }' "$work/time"
}

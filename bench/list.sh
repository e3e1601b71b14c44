#!/usr/bin/env bash
# Prints what a line of `llrp epc --list` costs: instructions under callgrind and lines a second, from
# SGTIN-96 words to each other form, and from keys back to words. The instructions are the difference of
# two runs, one over twice as many lines. The argument says how many lines there are, 10,000 by default.
# The keys must give the words back.
set -eu
# shellcheck source=bench/common.sh
. "$(dirname "$0")/common.sh"
count="${1:-10000}"

# The instructions of a run with these options over a file.
instructions() {
    local file="$1"
    shift
    valgrind --tool=callgrind --callgrind-out-file=/dev/null "$program" epc --list "$@" < "$file" 2>&1 > /dev/null |
        awk '/Collected/ { print $4 }'
}

# The row of a form: its name, a file of lines, and the options.
row() {
    local name="$1" file="$2" few many began ended
    shift 2
    cat "$file" "$file" > "$work/twice"
    few="$(instructions "$file" "$@")"
    many="$(instructions "$work/twice" "$@")"
    for _ in {1..20}; do cat "$file"; done > "$work/often"
    began="$(date +%s%N)"
    "$program" epc --list "$@" < "$work/often" > /dev/null
    ended="$(date +%s%N)"
    awk -v name="$name" -v cost="$(((many - few) / count))" -v lines="$((20 * count))" -v nanoseconds="$((ended - began))" \
        'BEGIN { printf "%-8s %14d %14.0f\n", name, cost, lines * 1e6 / nanoseconds }'
}

build
awk -v count="$count" 'BEGIN { for (n = 0; n < count; n++) printf "3074257BF7194E4%09X\n", 6789 + n * 7919 }' > "$work/words"
printf '%-8s %14s %14s\n' '' 'instructions' 'thousand a s'
for form in tag pure element link key; do
    row "$form" "$work/words" --to "$form"
done
"$program" epc --list --to key < "$work/words" > "$work/keys"
"$program" epc --list --to hex --prefix-digits 7 --filter 3 < "$work/keys" | cmp - "$work/words"
row hex "$work/keys" --to hex --prefix-digits 7 --filter 3

#!/usr/bin/env bash
# Prints what it costs to write the text of a word, and to read the word of a text, in memory: instructions
# under callgrind for each of the seven schemes, for words without a tag URI and for a mix of the schemes,
# and words a second of each. The instructions are the difference of a process that turns all words over a
# few times more than another, so reading the lines is not in it. The first argument says how many words
# there are of each kind, 2,100 by default. The texts must give the words back. A second argument is another
# program that measures the same by itself: what it prints comes last.
set -eu
# shellcheck source=bench/common.sh
. "$(dirname "$0")/common.sh"
count="${1:-2100}"
turns=5
other="${2:-}"

# Words of a kind as lines of 24 digits, with numbers of all lengths: the company prefix has seven digits.
make_words() {
    awk -v kind="$1" -v count="$count" 'BEGIN {
        split("3074257BF7194E %06X0000 3114257BF4 %08X000000 3254257BF46072 %04X%06X 3374257BF40C0E %04X%06X " \
              "2C74257BF46072 %06X0000 2D54257BF4 %08X000000 3500000010000010 %08X 2E00000000000000 %08X", part, " ")
        names = "sgtin sscc sgln grai gdti gsrn gid raw"
        split(names, name, " ")
        for (k in name) at[name[k]] = k
        for (n = 0; n < count; n++) {
            k = kind == "mix" ? n % 7 + 1 : at[kind]
            number = (n * 7919) % 16000000
            tail = part[2 * k]
            line = part[2 * k - 1] (k == 3 || k == 4 ? sprintf(tail, 0, number) : sprintf(tail, number))
            print line
        }
    }'
}

# The lines of a file, to be turned over this many times.
with_turns() {
    echo "$1"
    cat "$2"
}

# The instructions of the loop over a file, turned over this many times.
instructions() {
    with_turns "$1" "$2" > "$work/input"
    valgrind --tool=callgrind --callgrind-out-file=/dev/null "$loop" epc < "$work/input" 2>&1 > /dev/null |
        awk '/Collected/ { print $4 }'
}

# The instructions for each line of a file.
instructions_a_line() {
    local few many
    few="$(instructions 1 "$1")"
    many="$(instructions "$((1 + turns))" "$1")"
    echo "$(((many - few) / turns / count))"
}

# The millions of lines of a file a second, from the seconds of 2,000 turns.
lines_a_second() {
    local began ended
    with_turns 2000 "$1" > "$work/input"
    began="$(date +%s%N)"
    "$loop" epc < "$work/input" > /dev/null 2>&1
    ended="$(date +%s%N)"
    awk -v count="$count" -v nanoseconds="$((ended - began))" \
        'BEGIN { printf "%.1f", count * 2000 * 1e3 / nanoseconds }'
}

build_and_run "$top/crates/bench_calls/stdin" epc
printf '%-8s %14s %14s %14s %14s\n' '' 'word to text' 'text to word' 'million a s' 'and back'
for kind in sgtin sscc sgln grai gdti gsrn gid raw mix; do
    make_words "$kind" > "$work/words"
    "$loop" epc < "$work/words" > "$work/texts" 2> /dev/null
    "$loop" epc < "$work/texts" > "$work/back" 2> /dev/null
    cmp "$work/back" "$work/words"
    printf '%-8s %14s %14s %14s %14s\n' "$kind" \
        "$(instructions_a_line "$work/words")" "$(instructions_a_line "$work/texts")" \
        "$(lines_a_second "$work/words")" "$(lines_a_second "$work/texts")"
done
[ -z "$other" ] || "$other"

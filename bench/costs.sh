#!/usr/bin/env bash
# Prints what `llrp show` costs for an octet of each kind of frames, and `llrp encode` for an octet of their listing:
# instructions under callgrind, and nanoseconds of processor time, the kernel's too. The kinds: reports of tags with
# five parameters, reports of tags with all thirteen, KEEPALIVE messages, events that a ROSpec started, and reports cut
# short in their last parameter, which `encode` does not take. Of reports and events also what `--all` and `--json` cost, in
# instructions only. The instructions are the difference of a process that reads
# its input three times and one that reads it once, so starting costs nothing; the time is the least of five runs over
# 50 MB, or as many as the variable MB says. The arguments are another program with the same commands, and words that
# come before its command: its costs are printed beside ours, run in turn with them, and it is said where what it
# writes differs.
set -eu
# shellcheck source=bench/common.sh
. "$(dirname "$0")/common.sh"
other=("$@")
megabytes="${MB:-50}"

# The hexadecimal digits of frames of a kind, as many as the second argument says, whose ids count up.
digits() {
    awk -v kind="$1" -v count="$2" '
    function report(id,    tag, text) {
        text = sprintf("043D00000D52%08X", id)
        for (tag = 0; tag < 100; tag++)
            text = text sprintf("00F000228D3074257BF7194E4000%06X81%04X86%02X820005B%011X88%04X",
                id * 100 + tag, tag % 4 + 1, 196 + tag % 20, id * 1000003 + tag, tag % 7 + 1)
        return text
    }
    function rich(id,    tag, text) {
        text = sprintf("043D%08X%08X", 10 + 40 * 86, id)
        for (tag = 0; tag < 40; tag++)
            text = text "00F000568D" word[tag % 5 + 1] sprintf("81%04X86%02X820005B%011X83%016X" \
                "840005B%011X85%016X87%04X88%04X89%08X8A%04X8B%04X8C%04X8E%04X90%08X",
                tag % 4 + 1, 196 + tag % 20, id * 1003 + tag, id * 7 + tag, id * 1003 + tag + 50,
                id * 7 + tag + 50, tag % 16 + 1, tag % 7 + 1, 1, 1, 4660 + tag, 12288, 1, 0)
        return text
    }
    BEGIN {
        split("3074257BF7194E4000001A85 3114257BF400000001000000 35FFFFFFFFFFFFFFFFFFFFFF " \
              "3003A3529440000000000000 320000000000040000000000", word, " ")
        for (id = 1; id <= count; id++) {
            if (kind == "reports") print report(id)
            if (kind == "rich") print rich(id)
            if (kind == "keepalives") printf "083E0000000A%08X\n", id
            if (kind == "events")
                printf "043F00000027%08X00F6001D0080000C%016X00F9000D000000000100000000\n", id, id
            if (kind == "faulty")
                printf "043D0000001B%08X00F000128D3074257BF7194E4000001A85\n", id
        }
    }'
}

# The instructions of a command over a file, which comes first.
instructions() {
    valgrind --tool=callgrind --callgrind-out-file=/dev/null "${@:2}" < "$1" 2>&1 > /dev/null |
        awk '/Collected/ { print $4 }'
}

# The instructions of a command for an octet of a file, which comes first.
an_octet() {
    cat "$1" "$1" "$1" > "$work/thrice"
    awk -v once="$(instructions "$1" "${@:2}")" -v thrice="$(instructions "$work/thrice" "${@:2}")" \
        -v octets="$(stat -c %s "$1")" 'BEGIN { printf "%8.1f", (thrice - once) / (2 * octets) }'
}

# The seconds of processor time of a command over $work/long.
seconds() {
    local TIMEFORMAT='%U %S'
    { time "$@" < "$work/long" > /dev/null 2>&1 || true; } 2>&1 | awk '{ print $1 + $2 }'
}

# The least of the seconds in a file, as nanoseconds for an octet of $work/long.
least() {
    sort -g "$1" | head -n 1 | awk -v octets="$(stat -c %s "$work/long")" '{ printf "%8.2f", $1 * 1e9 / octets }'
}

# The nanoseconds for an octet of a file, which comes after the command's name: ours, and the other program's.
times() {
    local turn copies=$((megabytes * 1000000 / $(stat -c %s "$2") + 1))
    for ((turn = 0; turn < copies; turn++)); do
        cat "$2"
    done > "$work/long"
    rm -f "$work/our_seconds" "$work/their_seconds"
    for turn in 1 2 3 4 5; do
        seconds "$program" "$1" >> "$work/our_seconds"
        [ ${#other[@]} -eq 0 ] || seconds "${other[@]}" "$1" >> "$work/their_seconds"
    done
    least "$work/our_seconds"
    [ ${#other[@]} -eq 0 ] || least "$work/their_seconds"
}

# One line: a kind, a command, and what that costs over a file.
compared() {
    printf '%-12s %-6s %s' "$1" "$2" "$(an_octet "$3" "$program" "$2")"
    [ ${#other[@]} -eq 0 ] || printf '%s' "$(an_octet "$3" "${other[@]}" "$2")"
    printf '   %s' "$(times "$2" "$3")"
    if [ ${#other[@]} -gt 0 ]; then
        "$program" "$2" < "$3" > "$work/ours" || true
        "${other[@]}" "$2" < "$3" > "$work/theirs" || true
        cmp -s "$work/ours" "$work/theirs" || printf ' (they differ)'
    fi
    printf '\n'
}

# One line: a kind, one of our commands with its options, and its instructions for an octet of a file, which comes second.
with_options() {
    printf '%-12s %-18s %s\n' "$1" "${*:3}" "$(an_octet "$2" "$program" "${@:3}")"
}

# The costs of a kind of frames with `--all` and `--json`, after `cost` of that kind.
cost_of_options() {
    with_options "$1" "$work/frames" show --all
    with_options "$1" "$work/listing" encode --all
    with_options "$1" "$work/frames" show --json
    with_options "$1" "$work/frames" show --all --json
}

# The costs of a kind of frames, of which there are as many as the second argument says.
cost() {
    digits "$1" "$2" | xxd -r -p > "$work/frames"
    compared "$1" show "$work/frames"
    if "$program" show < "$work/frames" > "$work/listing"; then
        compared "$1" encode "$work/listing"
    fi
}

build
echo "For each octet, instructions and nanoseconds of processor time${other:+, ours and the other}:"
cost reports 60
cost_of_options reports
cost rich 60
cost_of_options rich
cost keepalives 20000
cost events 5000
cost_of_options events
cost faulty 8000

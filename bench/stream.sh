#!/usr/bin/env bash
# Prints the instructions under callgrind that it takes to read an octet of a stream, for three streams: reports of 100
# tags each, each tag an EPC-96 with AntennaID, PeakRSSI, FirstSeenTimestampUTC and TagSeenCount; events that a
# ROSpec started; and KEEPALIVE messages. First with a listener that does nothing, then by the decoder. It is the difference of
# a process that reads the stream three times and one that reads it twice, so starting is not in it.
set -eu
# shellcheck source=bench/common.sh
. "$(dirname "$0")/common.sh"

# Reports of 100 tags, as many as the argument says, each of 10 + 100 * 34 octets.
reports() {
    local id tag
    for ((id = 0; id < $1; id++)); do
        printf '043D00000D52%08X' "$id"
        for ((tag = 0; tag < 100; tag++)); do
            printf '00F000228D3074257BF7194E4000%06X81%04X86%02X820005B%011X88%04X' \
                $((id * 100 + tag)) $((tag % 4 + 1)) $((196 + tag % 20)) $((id * 1000003 + tag)) $((tag % 7 + 1))
        done
    done
}

# Events of 39 octets that a ROSpec started, as many as the argument says.
events() {
    local id
    for ((id = 0; id < $1; id++)); do
        printf '043F00000027%08X00F6001D0080000C%016X00F9000D000000000100000000' "$id" "$id"
    done
}

# KEEPALIVE messages of 10 octets, as many as the argument says.
keepalives() {
    local id
    for ((id = 0; id < $1; id++)); do
        printf '083E0000000A%08X' "$id"
    done
}

# The instructions of this many decodes and this many readings.
count() {
    valgrind --tool=callgrind --callgrind-out-file=/dev/null "$loop" stream "$1" "$2" \
        < "$work/stream" 2>&1 > "$work/output" | sed -n 's/.*refs: *//p' | tr -d ','
}

# A name, how many octets, and the instructions of one reading more and of one decode more.
measure_stream() {
    local octets base
    "$2" "$3" > "$work/stream"
    echo >> "$work/stream"
    octets=$((($(stat -c %s "$work/stream") - 1) / 2))
    base="$(count 2 2)"
    echo "$base $(count 2 3) $(count 3 2)" | awk -v name="$1" -v octets="$octets" \
        '{ printf "%-10s %6.1f by a listener that does nothing  %6.1f by the decoder\n", name, ($2 - $1) / octets, ($3 - $1) / octets }'
}

reports 1 > "$work/stream"
echo >> "$work/stream"
build_and_run "$work/stream" stream 1 1
measure_stream reports reports 20
measure_stream events events 1000
measure_stream keepalive keepalives 2000

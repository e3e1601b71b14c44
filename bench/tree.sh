#!/usr/bin/env bash
# Prints how many MB/s `llrp_tree::decode_frame` reads and `encode_into` writes, for two frames of an
# RO_ACCESS_REPORT: one of 963 tag reports with 13 parameters each, 65,494 octets, 1,000 times, or as
# often as the first argument says, and one of 100 tag reports with 5, 3,410 octets, 20 times as often.
# The first rate is by the processor's seconds in the program, the second with those in the kernel.
set -eu
# shellcheck source=bench/common.sh
. "$(dirname "$0")/common.sh"
times="${1:-1000}"

# A tag report of 68 octets: EPC-96, then each parameter with a type and a value that goes with it.
full_report() {
    printf '00F00044 8D3074257BF7194E40%08X 8900000001 8E0001 8A0001 810001 86C4 870001' "$1"
    printf '82000000000000%04X 84000000000000%04X 880001 8B1D0F 8C3000 9000000000' "$1" "$1"
}

# A tag report of 34 octets: EPC-96, AntennaID, PeakRSSI, FirstSeenTimestampUTC and TagSeenCount.
short_report() {
    printf '00F00022 8D3074257BF7194E40%08X 810001 86C4 82000000000000%04X 880001' "$1" "$1"
}

# The frame of this many reports, made by a function, each of this many octets, on one line of digits.
make_frame() {
    {
        printf '043D%08X00000001' "$3"
        for ((report = 0; report < $2; report++)); do
            "$1" "$report"
        done
    } | tr -d ' '
    echo
}

# The processor's seconds in the program and in the kernel, for this many decodes and this many encodes.
seconds() {
    local TIMEFORMAT='%U %S'
    { time "$loop" tree "$1" "$2" < "$work/frame" > "$work/output"; } 2>&1
}

# A name, how many octets, and the seconds with the work and without.
print_rates() {
    echo "$3 $4" | awk -v name="$1" -v bytes="$2" '{
        program = $1 - $3
        all = program + $2 - $4
        printf "%-12s %8.1f MB/s %8.1f MB/s\n", name, bytes / 1000000 / program, bytes / 1000000 / all
    }'
}

# The rates for a frame of this many reports, made by a function, each of this many octets; how often.
measure_frames() {
    local octets=$((10 + $2 * $3)) base
    echo "$2 reports, $octets octets, $4 times"
    make_frame "$1" "$2" "$octets" > "$work/frame"
    base="$(seconds 1 1)"
    print_rates decode_frame "$((octets * ($4 - 1)))" "$(seconds "$4" 1)" "$base"
    print_rates encode_into "$((octets * ($4 - 1)))" "$(seconds 1 "$4")" "$base"
}

make_frame short_report 1 44 > "$work/frame"
build_and_run "$work/frame" tree 1 1
measure_frames full_report 963 68 "$times"
measure_frames short_report 100 34 "$((20 * times))"

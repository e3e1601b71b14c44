#!/usr/bin/env bash
# Prints how many MB/s `llrp encode` takes in and its peak memory, beside `cat` on the same bytes: 100 MB of
# the listing of tag reports of eight tags with six parameters each, or as many MB as the first argument says.
# Then it prints the instructions an octet of that listing, and of KEEPALIVE lines, under callgrind: the difference
# of two lengths, so that starting costs nothing. A second argument is another program that takes the word
# `encode`, whose instructions are printed beside ours.
set -eu
# shellcheck source=bench/common.sh
. "$(dirname "$0")/common.sh"
size="${1:-100}"
other="${2:-}"

# About a million bytes of whole reports, whose ids, serials and times count up, and copies of them.
make_listing() {
    awk 'BEGIN {
        for (id = 0; bytes < 1000000; id++) {
            bytes += put("0 RO_ACCESS_REPORT 1 " id)
            for (tag = 0; tag < 8; tag++) {
                bytes += put("1 TagReportData")
                bytes += put("2 EPC-96 urn:epc:tag:sgtin-96:3.0614141.812345." (8 * id + tag))
                bytes += put("2 AntennaID " (1 + tag % 4))
                bytes += put("2 FirstSeenTimestampUTC " time(170000000, id, tag))
                bytes += put("2 LastSeenTimestampUTC " time(170000001, id, tag))
                bytes += put("2 PeakRSSI -" (40 + tag))
                bytes += put("2 TagSeenCount " (1 + id % 50))
            }
        }
    }
    function time(start, id, tag) { return start sprintf("%07d", 100 * id + tag) }
    function put(line) { print line; return length(line) + 1 }' > "$work/million"
    copies "$size" > "$work/listing"
}

build
make_listing
measure 'cat' "$work/listing" cat
measure 'llrp encode' "$work/listing" "$program" encode

# A million octets of KEEPALIVE lines.
make_keepalives() {
    awk 'BEGIN { for (id = 0; bytes < 1000000; id++) { line = "0 KEEPALIVE 2 " id; print line; bytes += length(line) + 1 } }' \
        > "$work/million"
}

# The instructions that a program takes to encode a file.
instructions() {
    valgrind --tool=callgrind --callgrind-out-file=/dev/null "$1" encode < "$2" 2>&1 > /dev/null |
        awk '/Collected/ { print $4 }'
}

# The instructions for each octet of $work/million: of three copies less those of one.
instructions_an_octet() {
    copies 3 > "$work/listing"
    awk -v few="$(instructions "$1" "$work/million")" -v many="$(instructions "$1" "$work/listing")" \
        -v octets="$(stat -c %s "$work/million")" 'BEGIN { printf "%.1f", (many - few) / 2 / octets }'
}

# Ours, and in brackets those of the other program.
compared() {
    echo "$1: $(instructions_an_octet "$program")${other:+ ($(instructions_an_octet "$other"))} instructions an octet"
}

compared 'reports'
make_keepalives
compared 'KEEPALIVE lines'

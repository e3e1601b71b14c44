#!/usr/bin/env bash
# Prints the MB/s that `llrp show` takes in, and `llrp encode` on its listing, beside `cat`, `wc -l` and
# `xxd -p` on the same bytes, and the peak memory of each: 200 MB of tag reports, or as many MB as the
# first argument says. With `keepalive` as the second argument the frames are KEEPALIVE messages, with
# `report` they are tag reports, with `long` they are reports of just below 1,048,576 octets, which are
# read with that limit. A third argument is another program with the same two commands, which is
# measured in the same run.
set -eu
# shellcheck source=bench/common.sh
. "$(dirname "$0")/common.sh"
size="${1:-200}"
kind="${2:-report}"
other="${3:-}"

# The hexadecimal digits of a report with an id and a number of tags, each with an SGTIN-96, its antenna, its
# signal strength, the time when it was first seen, and how often it was: 34 octets a tag, after ten.
report() {
    awk -v id="$1" -v tags="$2" 'BEGIN {
        printf "043D%08X%08X", 10 + tags * 34, id
        for (tag = 0; tag < tags; tag++)
            printf "00F000228D3074257BF7194E4000%06X81%04X86%02X820005B%011X88%04X",
                id * 100 + tag, tag % 4 + 1, 196 + tag % 20, id * 1000003 + tag, tag % 7 + 1
    }'
}

# About a million octets of frames whose ids count up, and copies of them.
make_frames() {
    local id
    case "$kind" in
        keepalive)
            for ((id = 0; id < 100000; id++)); do
                printf '083E0000000A%08X' "$id"
            done
            ;;
        long) report 0 30840 ;;
        *)
            for ((id = 0; id < 293; id++)); do
                report "$id" 100
            done
            ;;
    esac | xxd -r -p > "$work/million"
    copies "$size" > "$work/frames"
}

build
make_frames
measure 'cat' "$work/frames" cat
measure 'wc -l' "$work/frames" wc -l
measure 'xxd -p' "$work/frames" xxd -p
limit=()
[ "$kind" != long ] || limit=(--limit 1048576)
measure 'llrp show' "$work/frames" "$program" show "${limit[@]}"
mv "$work/output" "$work/listing"
[ -z "$other" ] || measure 'other show' "$work/frames" "$other" show "${limit[@]}"
measure 'llrp encode' "$work/listing" "$program" encode "${limit[@]}"
cmp "$work/output" "$work/frames"
[ -z "$other" ] || measure 'other encode' "$work/listing" "$other" encode "${limit[@]}"

#!/bin/sh
# Runs a program at all five vector lengths. The status is 1 where a report is not the one that is kept, or where what a thread wrote or how it
# stopped is not the same at each length, and 2 where there is no report; else it is 0.
#
#     examples/ci/lengths.sh PROGRAM KEPT [OPTIONS OF run]
#
# KEPT is a folder with the reports that are expected, 128.report to 2048.report. Where one is another, or is not there, the one that was made
# stands beside it as 128.new: look at it, and rename it if it is right. SMEMU may name the emulator.
set -u
program=$1 kept=$2
shift 2
top=$(dirname "$0")/../..
said=$(mktemp -d)
trap 'rm -r "$said"' EXIT
mkdir -p "$kept"
status=0
for bits in 128 256 512 1024 2048; do
    report=$kept/$bits.report made=$kept/$bits.new
    if ! SMEMU_QUIET=1 "${SMEMU:-$top/smemu}" run "$program" --vl "$bits" --svl "$bits" "$@" > "$made"; then
        echo "$program at $bits bits: $(head -n 1 "$made")"
        rm "$made"
        exit 2
    fi
    grep -e '^thread' -e '^stop' -e '^out' "$made" > "$said/$bits"
    if ! cmp -s "$said/128" "$said/$bits"; then
        echo "$program at $bits bits stops or writes otherwise than at 128:"
        diff "$said/128" "$said/$bits"
        status=1
    fi
    if [ ! -f "$report" ]; then
        echo "$report is not there: see $made"
        status=1
    elif cmp -s "$report" "$made"; then
        rm "$made"
    else
        echo "$program at $bits bits: $made is not $report"
        "$top/smemu" show "$report" "$made"
        status=1
    fi
done
exit $status

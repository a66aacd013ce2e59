#!/bin/sh
# How long `sdv check` takes at the limits: 4,096 points, 65,536 shapes, and eight number variables at each point. The certificate
# beside another script is read and then refused, which tells the time of reading from that of checking.
set -eu
top=$(cd "$(dirname "$0")/.." && pwd)
export PATH="/opt/rattle/bin:$PATH"
work=$(mktemp -d)
trap 'rm -rf "$work"' EXIT

script() {
    awk -v commands="$1" 'BEGIN {
        print "card sd nums a b c d e f g h"
        for (i = 0; i < commands; i++) print "send 0{else{}}"
        print "fault stop"
    }'
}

# Every point lists the same 16 shapes, at all of which CMD0 is legal.
certificate() {
    awk -v points="$1" 'BEGIN {
        print "sdv-cert 1"
        print "points " points
        for (v = 0; v < 8; v++) numbers = numbers " v 0 1099511627776 -"
        split("2000 2001 2002 2003 2004 2104 2800 2801 2802 2803 2804 2c00 2c01 2c02 2c03 2c04", codes)
        for (s = 1; s <= 16; s++) shapes = shapes " 000000000000" codes[s]
        for (p = 0; p < points; p++) print "p " p " b " points - 1 - p " m 1" numbers " s" shapes
    }'
}

# The least time of ten runs, in microseconds.
least() {
    least=
    for run in 1 2 3 4 5 6 7 8 9 10; do
        start=$(date +%s%N)
        "$sdv" check "$1" "$2" > "$work/answer" 2>&1 || true
        end=$(date +%s%N)
        taken=$(((end - start) / 1000))
        if [ -z "$least" ] || [ "$taken" -lt "$least" ]; then least=$taken; fi
    done
    echo "$least"
}

sdv=${SDV:-$top/crates/sdv/out/sdv}
[ -x "$sdv" ] || (cd "$top/crates/sdv" && rt run -- frame 0 0) > "$work/built" 2>&1 || { cat "$work/built"; exit 1; }

script 1 > "$work/small.sdv"
certificate 2 > "$work/small.cert"
script 4095 > "$work/large.sdv"
certificate 4096 > "$work/large.cert"

started=$(least "$work/small.sdv" "$work/small.cert")
read=$(least "$work/small.sdv" "$work/large.cert")
checked=$(least "$work/large.sdv" "$work/large.cert")
bytes=$(wc -c < "$work/large.cert")
echo "$(cat "$work/answer"): $bytes bytes of certificate, 65536 shapes"
echo "reading: $(((read - started) * 1000000 / bytes)) microseconds a megabyte"
echo "reading and checking the script, and checking: $(((checked - read) * 1000 / 65536)) nanoseconds a shape"

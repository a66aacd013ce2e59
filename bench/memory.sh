#!/bin/sh
# How much memory `sdv check` and `sdv certify` take at their peak: on a certificate at the limits, of 4,096 points with 65,536
# shapes and eight number variables at each point, and on that of a batch of 80 requests.
set -eu
top=$(cd "$(dirname "$0")/.." && pwd)
export PATH="/opt/rattle/bin:$PATH"
work=$(mktemp -d)
trap 'rm -rf "$work"' EXIT
sdv=${SDV:-$top/crates/sdv/out/sdv}
[ -x "$sdv" ] || (cd "$top/crates/sdv" && rt run -- frame 0 0) > "$work/built" 2>&1 || { cat "$work/built"; exit 1; }

# A script of 4,096 points, each with the same 16 shapes in the certificate below.
awk 'BEGIN {
    print "card sd nums a b c d e f g h"
    for (i = 0; i < 4095; i++) print "send 0{else{}}"
    print "fault stop"
}' > "$work/limits.sdv"
awk 'BEGIN {
    print "sdv-cert 1"
    print "points 4096"
    for (v = 0; v < 8; v++) numbers = numbers " v 0 1099511627776 -"
    split("2000 2001 2002 2003 2004 2104 2800 2801 2802 2803 2804 2c00 2c01 2c02 2c03 2c04", codes)
    for (s = 1; s <= 16; s++) shapes = shapes " 000000000000" codes[s]
    for (p = 0; p < 4096; p++) print "p " p " b " 4095 - p " m 1" numbers " s" shapes
}' > "$work/limits.cert"
"$sdv" batch sd "$(awk 'BEGIN { for (i = 0; i < 40; i++) print "write", i, 1, "read", i, 1 }')" > "$work/batch.sdv"
"$sdv" certify "$work/batch.sdv" > "$work/batch.cert"

# The most bytes of the heap that the program had at one time, in KiB.
peak() {
    valgrind --tool=massif --massif-out-file="$work/massif" "$sdv" "$@" > "$work/answer" 2> "$work/said"
    awk -F= '/^mem_heap_B/ && $2 > most { most = $2 } END { printf "%d", most / 1024 }' "$work/massif"
}

echo "check at the limits: $(peak check "$work/limits.sdv" "$work/limits.cert") KiB"
echo "certify of that script: $(peak certify "$work/limits.sdv") KiB"
echo "check of a batch of 80 requests: $(peak check "$work/batch.sdv" "$work/batch.cert") KiB"
echo "certify of that batch: $(peak certify "$work/batch.sdv") KiB"

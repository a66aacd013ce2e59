#!/bin/sh
# How long `sdv certify` takes on long scripts: 4,096 points in four nested loops; 4,023 with status commands after a bring-up,
# where a card may have other shapes; three nested loops whose turns set one flag after another; and 2,000 commands before such a
# loop. In the last two, facts change in many passes, everywhere or at the end alone. `sdv check` has to accept what it writes.
set -eu
top=$(cd "$(dirname "$0")/.." && pwd)
export PATH="/opt/rattle/bin:$PATH"
work=$(mktemp -d)
trap 'rm -rf "$work"' EXIT

sdv=${SDV:-$top/crates/sdv/out/sdv}
[ -x "$sdv" ] || (cd "$top/crates/sdv" && rt run -- frame 0 0) > "$work/built" 2>&1 || { cat "$work/built"; exit 1; }

repeat() {
    awk -v count="$1" -v statement="$2" 'BEGIN { for (i = 0; i < count; i++) print statement }'
}

{
    echo "card sd loop 2 { loop 2 { loop 2 { loop 2 {"
    repeat 4091 "send 0{else{}}"
    echo "} else { } } else { } } else { } } else { } fault stop"
} > "$work/loops.sdv"

{
    sed 's/^done$//' "$top/examples/sd_bring_up.sdv"
    repeat 4000 "send 13{else{}}"
    echo "fault stop"
} > "$work/status.sdv"

{
    echo "card sd flags a b c loop 2 { loop 2 { loop 2 {"
    echo "if a { if b { set c } else { set b } } else { set a }"
    repeat 1200 "send 0{else{}}"
    echo "} else { } } else { } } else { } fault stop"
} > "$work/flags.sdv"

{
    echo "card sd flags a b c d"
    repeat 2000 "send 0{else{}}"
    echo "loop 2 {"
    echo "if a { if b { if c { set d } else { set c } } else { set b } } else { set a }"
    repeat 8 "send 0{else{}}"
    echo "} else { } fault stop"
} > "$work/front.sdv"

measure() {
    start=$(date +%s%N)
    "$sdv" certify "$work/$1.sdv" > "$work/$1.cert"
    end=$(date +%s%N)
    points=$(sed -n 's/^points //p' "$work/$1.cert")
    shapes=$(sed -n 's/.* s//p' "$work/$1.cert" | wc -w)
    echo "$1: $points points, $shapes shapes, $(((end - start) / 1000000)) milliseconds, $("$sdv" check "$work/$1.sdv" "$work/$1.cert")"
    if command -v valgrind > "$work/found"; then
        valgrind --tool=callgrind --callgrind-out-file=/dev/null "$sdv" certify "$work/$1.sdv" 2> "$work/counted" > "$work/again"
        instructions=$(sed -n 's/.*Collected : //p' "$work/counted")
        echo "  $((instructions / points)) instructions a point, $((instructions / shapes)) instructions a shape"
    fi
}

measure loops
measure status
measure flags
measure front

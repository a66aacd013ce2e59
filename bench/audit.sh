#!/bin/sh
# How fast `sdv audit` goes through a million lines, and how much memory it takes: of a careful host, of one that is reckless at
# each write, and of one that begins anew again and again. The lines a second are those of the processor's time.
set -eu
top=$(cd "$(dirname "$0")/.." && pwd)
export PATH="/opt/rattle/bin:$PATH"
work=$(mktemp -d)
trap 'rm -rf "$work"' EXIT
sdv=${SDV:-$top/crates/sdv/out/sdv}
[ -x "$sdv" ] || (cd "$top/crates/sdv" && rt run -- frame 0 0) > "$work/built" 2>&1 || { cat "$work/built"; exit 1; }
lines=1000000

up='CMD0 00000000 -
CMD8 000001aa R7 000001aa
CMD55 00000000 R1 00000120
CMD41 40ff8000 R3 c0ff8000
CMD2 00000000 R2 00aa585951454d552101deadbeef00
CMD3 00000000 R6 45670500
CMD9 45670000 R2 400e00325b5900001fff7f800a4000
CMD7 45670000 R1 00000700'
careful='CMD17 00000000 R1 00000900
IN 1 ok
CMD18 000003e9 R1 00000900
IN 64 ok
CMD12 00000000 R1 00000b00
CMD13 45670000 timeout
CMD24 000003e9 R1 00000900
OUT 1 ok
WAIT ok
CMD13 45670000 R1 00000900'
reckless='CMD24 000003e9 R1 00000900
OUT 1 ok
CMD17 00000000 R1 00000900
IN 1 ok'

# repeated NAME BEFORE AGAIN: a trace of so many lines
repeated() {
    awk -v before="$2" -v again="$3" -v lines="$lines" 'BEGIN {
        if (before != "") { written = split(before, line, "\n"); print before }
        count = split(again, line, "\n")
        for (i = 0; written < lines; i++) { print line[i % count + 1]; written++ }
    }' > "$work/$1"
}
repeated careful "$up" "$careful"
repeated reckless "$up" "$reckless"
repeated anew "" "$up"

# least NUMBER NUMBER: the lesser one, or the second where there is no first
least() {
    if [ -z "$1" ] || [ "$2" -lt "$1" ]; then echo "$2"; else echo "$1"; fi
}

for trace in careful reckless anew; do
    processor=
    clock=
    for run in 1 2 3 4 5; do
        start=$(date +%s%N)
        /usr/bin/time -f '%U %S %M' "$sdv" audit sd "$work/$trace" > "$work/said" 2> "$work/used" || true
        end=$(date +%s%N)
        # the last line of used: seconds with two places, and KiB
        tail -n 1 "$work/used" > "$work/last"
        read -r user kernel most < "$work/last"
        ms=$(awk -v user="$user" -v kernel="$kernel" 'BEGIN { printf "%d", (user + kernel) * 1000 }')
        processor=$(least "$processor" "$ms")
        clock=$(least "$clock" $(((end - start) / 1000000)))
    done
    echo "$trace: $((lines * 1000 / processor)) lines/s of processor time, $((lines * 1000 / clock)) by the clock, $most KiB;" \
        "$(tail -n 1 "$work/said")"
done

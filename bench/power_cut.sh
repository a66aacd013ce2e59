#!/bin/sh
# Kills the program in the midst of runs that write blocks to an image: before each of its calls that write to a file, and
# behind each block of the image.
set -eu
top=$(cd "$(dirname "$0")/.." && pwd)
export PATH="/opt/rattle/bin:$PATH" LC_ALL=C
work=$(mktemp -d)
trap 'rm -rf "$work"' EXIT
sdv=${SDV:-$top/crates/sdv/out/sdv}
[ -x "$sdv" ] || (cd "$top/crates/sdv" && rt run -- frame 0 0) > "$work/built" 2>&1 || { cat "$work/built"; exit 1; }
cd "$work"

# A card of 1,024 blocks, each of which has its number in each of its four words; and the blocks that are given, of letters.
cp "$top/examples/sd_block.card" card
numbered() { awk -v first="$1" -v count="$2" 'BEGIN { for (b = first; b < first + count; b++) for (i = 0; i < 32; i++) printf "block %09d\n", b }'; }
numbered 0 1024 > before
numbered 500000 40 > given
ulimit -c 0

# blocks FILE: each block of a file with its number, as a line.
blocks() { od -An -v -tx1 -w512 "$1" | awk '{ gsub(/ /, ""); print NR - 1, $0 }'; }

# judge HOW: the image against the bytes before and those of a run that is not killed. A block that is the same in both has to
# be so; another one is old or new.
judge() {
    [ "$(wc -c < image)" -eq 524288 ] || { echo "$1: the image has $(wc -c < image) bytes"; exit 1; }
    blocks image | paste -d ' ' - old new | awk -v how="$1" '
        $2 != $4 && $2 != $6 { print how ": block " $1 " is neither old nor new"; wrong = 1 }
        $4 != $6 { if ($2 == $4) old++; else if ($2 == $6) new++ }
        END { print old + 0, new + 0 > "counts"; exit wrong }'
    read -r olds news < counts
    [ "$olds" -gt 0 ] && old_seen=1
    [ "$news" -gt 0 ] && new_seen=1
    [ "$olds" -gt 0 ] && [ "$news" -gt 0 ] && mixed=$((mixed + 1))
    return 0
}

# cut REQUESTS: kills a run that serves them at each place.
cut() {
    "$sdv" batch sd "$1" > script.sdv
    "$sdv" certify script.sdv > script.cert
    cp before image
    "$sdv" run script.sdv script.cert card image --in given > trace
    blocks before > old
    blocks image > new
    changed=$(cmp -l before image | awk '{ print int(($1 - 1) / 512) }' | uniq | wc -l)
    old_seen=0 new_seen=0 mixed=0 calls=0 limits=0
    # before each call that writes, until the run comes to its end
    while calls=$((calls + 1)); do
        cp before image
        status=0
        sh -c '"$@"; exit $?' sh strace -f -qq -o said -e trace=write,pwrite64,writev,pwritev \
            -e inject=write,pwrite64,writev,pwritev:signal=KILL:when="$calls" \
            "$sdv" run script.sdv script.cert card image --in given > trace 2> err || status=$?
        [ "$status" -ne 0 ] || break
        judge "killed at call $calls"
    done
    # where a call may write no further than to the end of this block of a file
    for limit in 0 1 2 3 4 5 7 8 15 16 17 18 40 41 63 64 65 698 699 700 701 702 1022 1023 1024; do
        cp before image
        status=0
        sh -c 'ulimit -f "$0"; "$@" | cat > /dev/null' "$limit" \
            "$sdv" run script.sdv script.cert card image --in given 2> err || status=$?
        judge "no writes behind block $limit"
        limits=$((limits + 1))
    done
    echo "$1: $changed blocks changed; killed before each of $((calls - 1)) calls that write, and stopped behind $limits blocks;" \
        "$mixed times some blocks were old and some new"
    [ "$old_seen" -eq 1 ] && [ "$new_seen" -eq 1 ]
}

cut "write 3 1"
cut "write 3 2 read 3 2 write 700 1"
cut "write 0 40"
cut "write 1000 10 write 3 1 write 1023 1"

#!/usr/bin/env bash
# How fast `sdv drive` joined to `sdv card` by two pipes writes and reads 4 MiB in transfers of 64 blocks, beside `sdv run` of
# the same scripts on the same card. The aim is a fifth of the speed of `run`.
set -euo pipefail
top=$(cd "$(dirname "$0")/.." && pwd)
export PATH="/opt/rattle/bin:$PATH"
work=$(mktemp -d)
trap 'rm -rf "$work"' EXIT
sdv=${SDV:-$top/crates/sdv/out/sdv}
[ -x "$sdv" ] || (cd "$top/crates/sdv" && rt run -- frame 0 0) > "$work/built" 2>&1 || { cat "$work/built"; exit 1; }
cd "$work"
mkfifo requests answers

blocks=8192 transfer=64
printf 'card sd\nversion 2\nunit block\ncsize 7\nrca 4660\n' > card
head -c $((blocks * 512)) /dev/urandom > bytes
for word in write read; do
    "$sdv" batch sd "$(awk -v word=$word -v count=$transfer -v blocks=$blocks \
        'BEGIN { for (from = 0; from < blocks; from += count) printf "%s %d %d ", word, from, count }')" > $word
    "$sdv" certify $word > $word.cert
done

run_alone() { "$sdv" run "$1" "$1.cert" card image --in bytes --out "$1.run" > trace.run; }
run_joined() {
    "$sdv" card card image < requests > answers &
    "$sdv" drive "$1" "$1.cert" --in bytes --out "$1.joined" --trace trace.joined > requests < answers
    wait
}

# least COMMAND SCRIPT: the least time of five, in microseconds.
least() {
    local best= start taken
    for _ in 1 2 3 4 5; do
        start=$(date +%s%N)
        "$1" "$2"
        taken=$((($(date +%s%N) - start) / 1000))
        if [ -z "$best" ] || [ "$taken" -lt "$best" ]; then best=$taken; fi
    done
    echo "$best"
}

truncate -s $((blocks * 512)) image
for word in write read; do
    alone=$(least run_alone $word)
    joined=$(least run_joined $word)
    cmp trace.run trace.joined
    awk -v word=$word -v bytes=$((blocks * 512)) -v alone="$alone" -v joined="$joined" 'BEGIN {
        printf "%s: run %.1f MB/s, drive joined to card %.1f MB/s, which is %.2f of it\n", word, bytes / alone, bytes / joined, alone / joined
    }'
done
cmp read.run read.joined
cmp read.joined bytes

#!/bin/sh
# sh examples/quick.sh [SCRIPT]
#
# A first look, in about two minutes on a new machine. It compiles the program without proving anything, and shows a script
# that is refused, with the reason; the script with the mend, which gets a certificate and is accepted; and a run of it beside a
# simulated card.
# With SCRIPT it tells of that script instead: the verdict of `sdv verify`, whose status it has, and a run of it where it is
# accepted.
# `make build` proves the program.
set -eu
top=$(cd "$(dirname "$0")/.." && pwd)
export PATH="/opt/rattle/bin:$PATH"
command -v rt > /dev/null || { echo "rt is not in /opt/rattle/bin: see Install in README.md" >&2; exit 2; }

cases=$(mktemp -d)
mended=$(mktemp)
zeros=$(mktemp)
trap 'rm -rf "$cases" "$mended" "$zeros"' EXIT

# words NAME WORD..: a call of the program with these words
words() {
    : > "$cases/$1"
    printf '%s\n' "$2" $3 > "$cases/$1.args"
}

# run_cases WORD..: the program in each case, with these files
run_cases() {
    echo "Compiling the program. Nothing is proved on the way. This takes about two minutes."
    (cd "$top/crates/sdv" && rt try --cases "$cases" "$@") > "$cases/said" 2>&1 || true
}

# part NUMBER: what the program printed in this case
part() {
    sed -n "/^== $1\$/,/^case=$1 /p" "$cases/said" | sed '1d;$d'
}

# shown NUMBER: the same, set off
shown() {
    part "$1" | sed 's/^/    /'
}

# status NUMBER: the status with which the program ended in this case
status() {
    sed -n "s/^case=$1 .*status=\([0-9]*\).*/\1/p" "$cases/said"
}

# section TEXT WORD..: a heading, and the command whose answer stands below it
section() {
    printf '\n%s\n' "$1"
    shift
    echo "  sdv $*"
}

if [ $# -gt 0 ]; then
    [ -r "$1" ] || { echo "cannot use $1" >&2; exit 2; }
    kind=sd blocks=1024
    if grep -q '^card emmc' "$1"; then kind=emmc blocks=2048; fi
    card=examples/${kind}_block.card
    head -c 1048576 /dev/zero > "$zeros"
    words 1 verify script.sdv
    words 2 try "script.sdv card new:$blocks --in zeros"
    run_cases --data script.sdv="$(cd "$(dirname "$1")" && pwd)/$(basename "$1")" --data card="$top/$card" --data zeros="$zeros"
    grep -q '^case=2 ' "$cases/said" || { cat "$cases/said"; exit 1; }
    verdict=$(status 1)
    section "The verdict, with a run that breaks it where it is refused and one is found:" verify "$1"
    shown 1
    if part 1 | grep -q ': accepted, '; then
        section "A run beside a simulated card, where each block that the script gives is of zeros:" try "$1" "$card" "new:$blocks"
        shown 2
    fi
    printf '\n%s\n' "Nothing was proved. 'make build' proves the program and leaves it as crates/sdv/out/sdv."
    exit "$verdict"
fi

words 1 explain "--why refused_block_address.sdv"
words 2 certify mended.sdv
words 3 check "mended.sdv mended.cert"
words 4 run "mended.sdv mended.cert sd_byte.card new:16"
sed 's/at block 8/at by hc 8/' "$top/examples/refused_block_address.sdv" > "$mended"
run_cases --data mended.sdv="$mended" --data mended.cert="$top/examples/quick/mended.cert" \
    --data refused_block_address.sdv="$top/examples/refused_block_address.sdv" --data sd_byte.card="$top/examples/sd_byte.card"
part 4 | grep -q '^done$' || { cat "$cases/said"; exit 1; }
# the calls cannot hand files to one another, so those behind certify have the certificate that stands here
part 2 | cmp -s - "$top/examples/quick/mended.cert" || { echo "certify writes another certificate than examples/quick/mended.cert"; exit 1; }

echo
echo "A read of block 8 by its number, whatever unit the card's addresses have, is refused:"
echo "  sdv explain --why examples/refused_block_address.sdv"
part 1 | sed -n '/^refused/,$p' | sed '$d; s/^/    /'
echo
echo "With 'at by hc 8' the unit is that of the card, and the script is accepted: no run of it sends more than 2,008 commands."
echo "  sed 's/at block 8/at by hc 8/' examples/refused_block_address.sdv > mended.sdv"
echo "  sdv certify mended.sdv > mended.cert"
echo "  sdv check mended.sdv mended.cert"
shown 3
echo
echo "It runs beside a simulated card of 16 blocks with byte addresses, and reads block 8 at byte 4096, which is 1000 in hexadecimal:"
echo "  sdv run mended.sdv mended.cert examples/sd_byte.card new:16"
shown 4
echo
echo "Nothing was proved. 'make build' proves the program and leaves it as crates/sdv/out/sdv."

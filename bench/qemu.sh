#!/usr/bin/env bash
# Drives every accepted SD script of examples/ over QEMU's SDHCI controller and SD card, beside the simulated card of the same size:
# over a card of 64 MiB, which has byte addresses, and over one of 4 GiB, which has block addresses. QEMU fills erased blocks with
# ff, and the simulated card with 00; a card may do either, and says which in its SCR. Then the player in C plays the script's
# table over the same controller and a fresh card. At the end it prints how the answers of the two cards differ, and why.
set -euo pipefail
top=$(cd "$(dirname "$0")/.." && pwd)
export PATH="/opt/rattle/bin:$PATH" LC_ALL=C
work=$(mktemp -d)
trap 'rm -rf "$work"' EXIT
sdv=${SDV:-$top/crates/sdv/out/sdv}
[ -x "$sdv" ] || (cd "$top/crates/sdv" && rt run -- frame 0 0) > "$work/built" 2>&1 || { cat "$work/built"; exit 1; }
command -v qemu-system-x86_64 > /dev/null ||
    { apt-get update -qq && apt-get install -y -qq --no-install-recommends qemu-system-x86; } > "$work/built" 2>&1 ||
    { cat "$work/built"; exit 1; }
make -s -C "$top/adapters/qemu-sdhci"
cc -std=c99 -Wall -Wextra -O2 "$top/tests/firmware/play.c" "$top/firmware/sdv_step.c" "$top/firmware/sdv_is_table.c" -o "$work/play"
cd "$work"
mkfifo requests answers

# the cards: as QEMU's, with its relative address
printf 'card sd\nversion 2\nunit byte\ncsize 255\ncmult 7\nrbl 9\nrca 17767\n' > 64M.card
printf 'card sd\nversion 2\nunit block\ncsize 8191\nrca 17767\n' > 4G.card
head -c 32768 /dev/urandom > blocks

# drive SCRIPT IMAGE: the status of the script over QEMU's card, and its last line.
drive() {
    timeout 600 "$top/adapters/qemu-sdhci/qemu-sdhci" "$2" < requests > answers 2> qemu.said &
    status=0
    timeout 600 "$sdv" drive "$1" "$1.cert" --in blocks --out out --trace trace > requests < answers 2> said || status=$?
    wait || true
    echo "$status $(tail -n 1 trace)$(cat said qemu.said)"
}

# play SCRIPT IMAGE: plays the table of the script over QEMU's card; false where its trace is not that of `sdv drive`.
play() {
    status=0
    "$sdv" emit "$1" "$1.cert" table --binary table > table.c
    timeout 600 "$top/adapters/qemu-sdhci/qemu-sdhci" "$2" < requests > answers 2> qemu.said &
    timeout 600 ./play table > requests < answers 2> played || status=$?
    wait || true
    [ "$status" -eq 0 ] && cmp -s played trace
}

# run SCRIPT CARD IMAGE: the same beside the simulated card.
run() {
    status=0
    "$sdv" run "$1" "$1.cert" "$2" "$3" --in blocks --out run.out > run.trace 2> said || status=$?
    echo "$status $(tail -n 1 run.trace)$(cat said)"
}

passed=0 failed=0 played=0
: > differences
for size in 64M 4G; do
    for script in "$top"/examples/*.sdv "$top"/examples/hosts/*.sdv "$top"/examples/production/*.sdv; do
        name=${script#"$top/examples/"}
        cp "$script" script
        grep -q '^card sd' script || continue
        "$sdv" certify script > script.cert 2> said || continue
        rm -f image run.image
        truncate -s $size image run.image
        found=$(drive script image)
        wanted=$(run script $size.card run.image)
        cmp -s out run.out || found="$found, other blocks received"
        case $(cmp -l image run.image | awk '$2 != 377 || $3 != 0 { print "other"; exit } NR == 1 { print "erased" }' | tail -n 1) in
        other) found="$found, another image" ;;
        erased) found="$found, erased blocks hold ff" wanted="$wanted, erased blocks hold ff" ;;
        esac
        if [ "$found" = "$wanted" ]; then passed=$((passed + 1)); else failed=$((failed + 1)); fi
        echo "$size, $name: $found$([ "$found" = "$wanted" ] || echo "; beside the simulated card $wanted")"
        diff run.trace trace | grep '^[<>]' >> differences || true
        rm -f image
        truncate -s $size image
        if play script image; then
            played=$((played + 1))
        else
            failed=$((failed + 1))
            echo "$size, $name: the player in C: $(tail -n 1 played) $(cat qemu.said)"
        fi
    done
done

# why KIND: why the answers of the two cards to this command differ
why() {
    case $1 in
    CMD2 | CMD10) echo "the CID is the maker's own" ;;
    CMD9) echo "the CSD has the maker's own timing, classes and limits" ;;
    CMD41) echo "the OCR has the maker's own voltage window" ;;
    CMD3) echo "a card chooses its relative address: at a second CMD3 QEMU's takes another one" ;;
    CMD7 | CMD13) echo "the argument has that relative address" ;;
    *) echo "?" ;;
    esac
}

# each answer that only one of the two cards gave, by command, and how often
echo
echo "what differs in the traces ('<' the simulated card, '>' QEMU's), and how often:"
sort differences | uniq -c | sort -k3,3V -k4,4 -k2,2 | awk '{ $1 = sprintf("%4d", $1); print }'
cut -d ' ' -f 2 differences | sort -uV | while read -r command; do echo "$command: $(why "$command")"; done
echo
echo "qemu: $passed ended as beside the simulated card, $played were played with the same trace, $failed otherwise"
[ "$failed" -eq 0 ]

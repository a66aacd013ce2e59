#!/bin/sh
# sh firmware/build.sh [FOLDER [LIBRARY]]
#
# Puts what firmware needs in one folder, out/firmware/ at the top of the repository: the players of script tables, the sample driver and
# a page that says how to use them. The player in Rattle is a static library for each of PROCESSORS (x86_64 aarch64). One that no source
# of it is newer than is taken as it stands; else rt proves the player and makes it. With LIBRARY that file is taken, and no other.
set -eu
top=$(cd "$(dirname "$0")/.." && pwd)
export PATH="$PATH:/opt/rattle/bin" LC_ALL=C
out=${1:-$top/out/firmware}
given=${2:-}
made=$top/crates/sdv_firmware/out/libsdv_firmware.a
# the crates of the player, as crates.txt tells: a line has a crate and those that it uses
crates=$(awk '{ name = $1; sub(/:$/, "", name); uses[name] = $0 } END { visit("sdv_firmware") }
    function visit(name,  words, count, i) {
        if (seen[name]++) return
        print name
        count = split(uses[name], words, " ")
        for (i = 2; i <= count; i++) if (words[i] in uses) visit(words[i])
    }' "$top/crates.txt")
mkdir -p "$out"

# fresh FILE PROCESSOR: whether it is a library for the processor, and no source is newer
fresh() {
    [ -f "$1" ] && [ "$(processor_of "$1")" = "$2" ] || return 1
    for crate in $crates; do
        [ -z "$(find "$top/crates/$crate" -path "$top/crates/$crate/out" -prune -o -type f -newer "$1" -print)" ] || return 1
    done
}

processor_of() {
    case $(readelf -h "$1" | grep -m 1 Machine:) in
    *X86-64) echo x86_64 ;;
    *AArch64) echo aarch64 ;;
    esac
}

# check LIBRARY: it needs no symbol from outside
check() {
    if nm -u "$1" | grep ' U '; then
        echo "$1 needs these symbols from outside" >&2
        exit 1
    fi
}

for processor in $(if [ "$given" ]; then processor_of "$given"; else echo "${PROCESSORS:-x86_64 aarch64}"; fi); do
    library=$out/libsdv_$processor.a
    if [ "$given" ]; then
        cp "$given" "$library"
    elif fresh "$made" "$processor"; then
        cp -p "$made" "$library"
    elif ! fresh "$library" "$processor"; then
        (cd "$top/crates/sdv_firmware" && rt lib --target "$processor-unknown-linux-gnu")
        cp -p "$made" "$library"
    fi
    check "$library"
done
# checks/firmware wants the one of this machine there
own=$out/libsdv_$(uname -m).a
[ "$given" ] || [ ! -f "$own" ] || cmp -s "$own" "$made" || cp -p "$own" "$made"
cd "$top/firmware"
cp sdv_player.h sdv_step.h sdv_step.c sdv_is_table.c sdhci.h sdhci.c "$top/LICENSE-MIT" "$top/LICENSE-APACHE" "$out"
cp release.md "$out/README.md"

#!/bin/sh
# How many bytes the players of tables, the test of tables and the sample driver have, compiled for size; how many the tables of the scripts of
# examples/ have; and how long the players take for a command.
set -eu
top=$(cd "$(dirname "$0")/.." && pwd)
export PATH="$PATH:/opt/rattle/bin"
work=$(mktemp -d)
trap 'rm -rf "$work"' EXIT
sdv=${SDV:-$top/crates/sdv/out/sdv}
[ -x "$sdv" ] || (cd "$top/crates/sdv" && rt run -- frame 0 0) > "$work/built" 2>&1 || { cat "$work/built"; exit 1; }

install() {
    missing=""
    for package in clang llvm gcc gcc-arm-none-eabi gcc-riscv64-unknown-elf gcc-aarch64-linux-gnu; do
        dpkg -s "$package" > "$work/said" 2>&1 || missing="$missing $package"
    done
    [ -z "$missing" ] && return
    # shellcheck disable=SC2086 # the packages are words
    apt-get install -y --no-install-recommends $missing > "$work/said" 2>&1 || echo "not installed:$missing"
}
[ "$(id -u)" -ne 0 ] || ! command -v apt-get > "$work/said" || install

# bytes_of FILE COMPILER OPTION..: the bytes of code and constants of a file in C
bytes_of() {
    file=$1 compiler=$2
    shift 2
    "$compiler" "$@" -std=c99 -Os -ffreestanding -c "$top/firmware/$file.c" -o "$work/player.o"
    "${SIZE:-size}" -A "$work/player.o" | awk '$1 ~ /^\.(text|rodata)/ { bytes += $2 } END { print bytes }'
}

# code NAME COMPILER OPTION..: the bytes of the player, of the test of tables, and of the sample driver
code() {
    name=$1 compiler=$2
    shift 2
    command -v "$compiler" > "$work/said" || return 0
    printf '%-10s %-24s %6d bytes, sdv_is_table %6d bytes, sdhci %6d bytes\n' "$name" "$compiler" \
        "$(bytes_of sdv_step "$compiler" "$@")" "$(bytes_of sdv_is_table "$compiler" "$@")" "$(bytes_of sdhci "$compiler" "$@")"
}

SIZE=$(command -v llvm-size || command -v llvm-size-14 || echo size)
code Thumb-2 clang --target=thumbv7m-none-eabi
code Thumb-2 arm-none-eabi-gcc -mcpu=cortex-m3 -mthumb
code riscv32 clang --target=riscv32-unknown-elf -march=rv32imc -mabi=ilp32
code riscv32 riscv64-unknown-elf-gcc -march=rv32imc -mabi=ilp32
code aarch64 clang --target=aarch64-none-elf
code aarch64 aarch64-linux-gnu-gcc
code x86-64 clang --target=x86_64-none-elf
code x86-64 gcc

sh "$top/firmware/build.sh" > "$work/built" 2>&1 || { cat "$work/built"; exit 1; }
for processor in aarch64 x86_64; do
    library=$top/out/firmware/libsdv_$processor.a
    bytes=$("$SIZE" -A "$library" | awk '$1 ~ /^\.(text|rodata)/ { bytes += $2 } END { print bytes }')
    wanted=$(nm -u "$library" 2> "$work/said" | grep -c ' U ' || true)
    printf '%-10s %-24s %6d bytes, %d symbols from outside\n' "$processor" Rattle "$bytes" "$wanted"
done

# TABLES

for script in "$top"/examples/*.sdv "$top"/examples/*/*.sdv; do
    "$sdv" certify "$script" > "$work/cert" 2> "$work/said" || continue
    "$sdv" emit "$script" "$work/cert" table --binary "$work/table" > "$work/table.c"
    echo "$(od -A n -t u2 -j 8 -N 2 "$work/table") $(wc -c < "$work/table") ${script#"$top/examples/"}"
done > "$work/tables"
awk '{ points += $1; bytes += $2; if (least == "" || $2 < least) least = $2; if ($2 > most) most = $2 } END {
    printf "tables of %d scripts: %d to %d bytes, %.1f a point\n", NR, least, most, bytes / points }' "$work/tables"

# TIME

"$sdv" certify "$top/examples/sd_bring_up.sdv" > "$work/cert"
"$sdv" emit "$top/examples/sd_bring_up.sdv" "$work/cert" table > "$work/table.c"
for compiler in gcc clang; do
    command -v "$compiler" > "$work/said" || continue
    "$compiler" -std=c99 -O2 "$top/bench/firmware.c" "$top/firmware/sdv_step.c" "$work/table.c" -o "$work/time"
    echo "$compiler -O2 on this machine: $("$work/time")"
done
if [ "$(uname -m)" = x86_64 ]; then
    cc -std=c99 -O2 -DPROVED "$top/bench/firmware.c" "$top/out/firmware/libsdv_x86_64.a" "$work/table.c" -o "$work/time"
    echo "Rattle on this machine: $("$work/time")"
fi

#!/usr/bin/env bash
# bench/ports.sh [NAME..]
#
# Tries the ports of firmware/ports, or those that are named, on QEMU: virt, raspi3b, zcu102 (aarch64) and mcimx6ul (Arm, 32 bits)
# without an operating system, uefi (x86-64, OVMF) and linux (x86-64, Debian's kernel). Each plays the tables of all accepted SD scripts
# of examples/ over an SD card of 64 MiB, which has byte addresses, and over one of 4 GiB, which has block addresses. The trace has to
# be that of `sdv run` beside the simulated card of this size, but for what a card's maker chooses; and so have the sum of the blocks
# received, and the first megabyte of the image, but for erased blocks: QEMU's hold ff. QEMU 7.2 has no e.MMC device.
#
# It prints a line a port, with how many runs were the same, and the sizes of code and constants: those of the port's file, and those
# of the image with player, driver and table of sd_bring_up. Below it, each run that was not the same. With PROVED=1 the player is the
# one in Rattle, which `make firmware` makes, but for mcimx6ul and uefi: the libraries are ELF files for processors of 64 bits.
set -euo pipefail
top=$(cd "$(dirname "$0")/.." && pwd)
export PATH="/opt/rattle/bin:$PATH" LC_ALL=C
work=$(mktemp -d)
trap 'rm -rf "$work"' EXIT
sdv=${SDV:-$top/crates/sdv/out/sdv}
[ -x "$sdv" ] || (cd "$top/crates/sdv" && rt run -- frame 0 0) > "$work/built" 2>&1 || { cat "$work/built"; exit 1; }
export QEMU_AUDIO_DRV=none # zcu102 has sound
strict="-std=c99 -Wall -Wextra -Wpedantic -Wconversion -Wshadow -Werror -Os"
sizes="64M 4G" names=""

# need PACKAGE FILE: installs the package where the file is missing
need() {
    [ -e "$2" ] && return
    { [ -e "$work/updated" ] || apt-get update -qq; apt-get install -y -qq --no-install-recommends "$1"; } > "$work/built" 2>&1 ||
        { cat "$work/built"; exit 1; }
    touch "$work/updated"
}

# SCRIPTS: for each its table, and for each size what the run beside the simulated card gives

# ours FILE: a trace without what the maker of a card chooses: CID, CSD, the voltages of the OCR. At a second CMD3 QEMU's card takes
# another relative address, and the simulated one the same.
ours() {
    sed -E -e '/^sum /d' -e 's/^(CMD(2|9|10) .{8} R2) .*/\1/' -e 's/^(CMD41 .{8} R3 .).*/\1/' \
        -e 's/^(CMD[0-9]+) 8ace0000/\1 45670000/' -e 's/^(CMD3 .* R6) 8ace/\1 4567/' "$1"
}

# sum FILE: the sum of its bytes
sum() { od -An -v -tu1 "$1" | awk '{ for (i = 1; i <= NF; i++) sum += $i } END { print "sum " sum + 0 }'; }

# expected SIZE NAME: what the script does beside the simulated card
expected() {
    local at=$work/$1/$2
    mkdir -p "$at"
    truncate -s "$1" "$at/image"
    "$sdv" run "$work/$2/script" "$work/$2/cert" "$work/$1.card" "$at/image" --in "$work/blocks" --out "$at/out" > "$at/run" 2> "$work/said" ||
        [ ! -s "$work/said" ] || { cat "$work/said"; exit 1; }
    { ours "$at/run"; sum "$at/out"; } > "$at/trace"
    truncate -s 1M "$at/image"
}

prepare() {
    local script name size
    printf 'card sd\nversion 2\nunit byte\ncsize 255\ncmult 7\nrbl 9\nrca 17767\n' > "$work/64M.card"
    printf 'card sd\nversion 2\nunit block\ncsize 8191\nrca 17767\n' > "$work/4G.card"
    # as play.c gives them: byte b of block n is b + n
    python3 -c 'import sys; sys.stdout.buffer.write(bytes(b + n & 255 for n in range(64) for b in range(512)))' > "$work/blocks"
    for script in "$top"/examples/*.sdv "$top"/examples/{hosts,production}/*.sdv; do
        grep -q '^card sd' "$script" || continue
        name=$(basename "$script" .sdv)
        mkdir "$work/$name"
        cp "$script" "$work/$name/script"
        "$sdv" certify "$script" > "$work/$name/cert" 2> "$work/said" || continue
        "$sdv" emit "$script" "$work/$name/cert" table --binary "$work/$name/table" > "$work/$name/table.c"
        for size in $sizes; do expected "$size" "$name"; done
        names="$names $name"
    done
}

# IMAGES

# compile OPTIONS FILE..: the objects of these files of firmware/
compile() {
    local options=$1 file
    shift
    rm -f "$work"/*.o
    for file; do
        # shellcheck disable=SC2086 # the options are words
        clang $options $strict $proved -fno-stack-protector -ffunction-sections -c "$top/firmware/$file" -o "$work/$(basename "$file" | tr . -).o"
    done
}

# arrange PORT: compiles what the images of the port share, and says how a table is compiled and linked with it
arrange() {
    local shared="sdhci.c ports/$1.c ports/play.c" processor=aarch64
    proved="" library="" base=0x80000
    case $1 in
    mcimx6ul | uefi) processor="" ;;
    linux) processor=x86_64 ;;
    esac
    if [ "${PROVED:-}" ] && [ "$processor" ]; then
        proved=-DPROVED library=$top/out/firmware/libsdv_$processor.a
        [ -e "$library" ] || make -s -C "$top" firmware
    else
        shared="$shared sdv_step.c"
    fi
    target="--target=aarch64-none-elf -mcpu=cortex-a53 -mstrict-align"
    case $1 in
    virt) base=0x40080000 ;;
    mcimx6ul) base=0x80010000 target="--target=armv7a-none-gnueabi -mcpu=cortex-a7 -mthumb -mfloat-abi=soft -mno-unaligned-access" ;;
    uefi) target="--target=x86_64-unknown-windows -mno-red-zone" ;;
    linux) target="" ;;
    esac
    # shellcheck disable=SC2086
    case $1 in
    linux) compile "" $shared ;;
    uefi) compile "$target -ffreestanding" $shared ports/memory.c ;;
    mcimx6ul) compile "$target -ffreestanding" $shared ports/memory.c ports/bare.c ports/arm.S ;;
    *) compile "$target -ffreestanding" $shared ports/memory.c ports/bare.c ports/aarch64.S ;;
    esac
}

# link PORT NAME: the image with the table of this script
link() {
    # shellcheck disable=SC2086
    clang $target -std=c99 -Os -ffreestanding -c "$work/$2/table.c" -o "$work/table.o"
    # shellcheck disable=SC2086
    case $1 in
    uefi) lld-link /subsystem:efi_application /entry:efi_main /nodefaultlib /opt:ref "/out:$work/image" "$work"/*.o $library ;;
    *) ld.lld -T "$top/firmware/ports/bare.ld" --defsym="base=$base" --gc-sections --no-undefined "$work"/*.o $library -o "$work/image" ;;
    esac
}

# bytes FILE: of its code and constants
bytes() { size -A "$1" | awk '$1 ~ /^\.(text|rodata|rdata)/ { bytes += $2 } END { print bytes + 0 }'; }

# QEMU

# play PORT CARD: what the image prints
play() {
    local quiet="-display none -monitor none -serial stdio -no-reboot" drive="file=$2,format=raw"
    # shellcheck disable=SC2086
    case $1 in
    virt)
        timeout 60 qemu-system-aarch64 -machine virt,highmem=off -cpu cortex-a53 -m 64 $quiet -kernel "$work/image" \
            -device sdhci-pci -drive "if=none,id=card,$drive" -device sd-card,drive=card
        ;;
    raspi3b) timeout 60 qemu-system-aarch64 -machine raspi3b $quiet -kernel "$work/image" -drive "if=sd,index=0,$drive" ;;
    zcu102) timeout 60 qemu-system-aarch64 -machine xlnx-zcu102 $quiet -kernel "$work/image" -drive "if=sd,index=1,$drive" ;;
    mcimx6ul) timeout 60 qemu-system-arm -machine mcimx6ul-evk -m 128 $quiet -kernel "$work/image" -drive "if=sd,index=0,$drive" ;;
    uefi) # what the firmware prints before has escapes of a terminal
        timeout 120 qemu-system-x86_64 -machine q35 -accel tcg -m 256 -nodefaults $quiet -bios /usr/share/ovmf/OVMF.fd \
            -kernel "$work/image" -device sdhci-pci -drive "if=none,id=card,$drive" -device sd-card,drive=card |
            tr -d '\r' | sed -e 's/\x1b\[[0-9;=]*[A-Za-z]//g' | grep -aE '^((CMD[0-9]+|IN|OUT|REG|WAIT|fault|sum|no) |done|stopped)'
        ;;
    esac
}

# fetch_guest: Debian's kernel with its drivers of the controller, and a shell
fetch_guest() {
    local kernel
    [ -e "$work/updated" ] || apt-get update -qq > "$work/built" 2>&1 || { cat "$work/built"; exit 1; }
    kernel=$(apt-cache depends linux-image-amd64 | sed -n 's/.*Depends: \(linux-image-[^ ]*\)$/\1/p' | head -n 1)
    mkdir "$work/debs" "$work/fetched" "$work/guest"
    (cd "$work/debs" && apt-get download -qq "$kernel" busybox-static) > "$work/built" 2>&1 || { cat "$work/built"; exit 1; }
    dpkg-deb --fsys-tarfile "$work"/debs/linux-image-*.deb | tar -x -C "$work/fetched" --wildcards './boot/vmlinuz-*' '*/drivers/mmc/*'
    dpkg-deb --fsys-tarfile "$work"/debs/busybox-static*.deb | tar -x -C "$work/guest" ./bin/busybox
    rm -r "$work/debs"
    find "$work/fetched" \( -name mmc_core.ko -o -name cqhci.ko -o -name sdhci.ko -o -name sdhci-pci.ko \) -exec cp {} "$work/guest" \;
    cat > "$work/guest/init" << 'END'
#!/bin/busybox sh
/bin/busybox --install -s /bin
mkdir -p /sys /dev
mount -t sysfs sysfs /sys
mount -t devtmpfs devtmpfs /dev
for module in mmc_core cqhci sdhci sdhci-pci; do insmod "/$module.ko"; done
while read -r device name; do
    echo "script $name"
    [ -e "/sys/bus/pci/devices/$device/driver" ] || echo "the kernel has no driver for $device"
    /linux "$device" "/$name"
done < /scripts
poweroff -f
END
    chmod +x "$work/guest/init"
}

# play_linux SIZE: what the program prints for each script, in a file of the script; each has a controller of its own in one guest
play_linux() {
    local at=1 slot name devices=""
    [ -d "$work/guest" ] || fetch_guest
    # shellcheck disable=SC2086
    clang -static "$work"/*.o $library -o "$work/guest/linux" || exit 1
    : > "$work/guest/scripts"
    for name in $names; do
        cp "$work/$name/table" "$work/guest/$name"
        slot=$(printf '%02x' "$at")
        echo "0000:00:$slot.0 $name" >> "$work/guest/scripts"
        devices="$devices -device sdhci-pci,addr=$slot -drive if=none,id=card$slot,format=raw,file=$work/$1/$name/card -device sd-card,drive=card$slot"
        at=$((at + 1))
    done
    (cd "$work/guest" && find . | bin/busybox cpio -o -H newc) > "$work/initrd" 2> "$work/said"
    # shellcheck disable=SC2086
    timeout 300 qemu-system-x86_64 -machine q35 -accel tcg -m 512 -nodefaults -display none -monitor none -serial stdio -no-reboot \
        -kernel "$work"/fetched/boot/vmlinuz-* -initrd "$work/initrd" -append "console=ttyS0 quiet" $devices |
        tr -d '\r' | awk -v at="$work/$1" '$1 == "script" { file = at "/" $2 "/played" } file != "" && $1 != "script" && !/^\[/ { print > file }'
}

# PORTS

# difference SIZE NAME: the first lines of trace and sum that differ ('<' expected), and whether the image does; without a trace, what
# QEMU said last
difference() {
    local at=$work/$1/$2
    [ -s "$at/played" ] || tail -n 1 "$work/qemu"
    { ours "$at/played"; grep '^sum ' "$at/played" || true; } | { diff "$at/trace" - || true; } | sed -n '2,3p' | paste -s -d ' ' -
    { cmp -l -n 1048576 "$at/card" "$at/image" || true; } | awk '$2 != 377 || $3 != 0 { other = 1 } END { if (other) print "another image" }'
}

# play_all PORT SIZE: each script over a new card; what it prints, in a file of the script
play_all() {
    local name
    for name in $names; do
        rm -f "$work/$2/$name/card"
        truncate -s "$2" "$work/$2/$name/card"
        : > "$work/$2/$name/played"
    done
    if [ "$1" = linux ]; then
        play_linux "$2" 2> "$work/qemu" || true
        return
    fi
    for name in $names; do
        link "$1" "$name"
        play "$1" "$work/$2/$name/card" > "$work/$2/$name/played" 2> "$work/qemu" || true
    done
}

# try PORT: prints its line, and what differs
try() {
    local size name found played=0 same=0 image=""
    arrange "$1"
    : > "$work/found"
    for size in $sizes; do
        play_all "$1" "$size"
        for name in $names; do
            played=$((played + 1))
            found=$(difference "$size" "$name" | sed '/^$/d' | paste -s -d ' ' -)
            if [ -z "$found" ]; then same=$((same + 1)); else echo "  $size, $name: $found" >> "$work/found"; fi
        done
    done
    if [ "$1" != linux ]; then
        link "$1" sd_bring_up
        image=", image $(bytes "$work/image") bytes"
    fi
    echo "$1: $played played, $same the same; port $(bytes "$work/$1-c.o") bytes$image"
    cat "$work/found"
    [ "$same" -eq "$played" ] || failed=1
}

need clang /usr/bin/clang
need lld /usr/bin/ld.lld
prepare
failed=0
[ $# -gt 0 ] || set -- virt raspi3b uefi zcu102 mcimx6ul linux
for port; do
    case $port in
    virt | raspi3b | zcu102 | mcimx6ul) need qemu-system-arm /usr/bin/qemu-system-arm ;;
    uefi) need ovmf /usr/share/ovmf/OVMF.fd && need qemu-system-x86 /usr/bin/qemu-system-x86_64 ;;
    linux) need qemu-system-x86 /usr/bin/qemu-system-x86_64 ;;
    *) echo "no port: $port" && exit 2 ;;
    esac
    try "$port"
done
exit "$failed"

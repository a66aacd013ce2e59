#!/bin/sh
# sh examples/captures/make.sh [FOLDER]
#
# Makes the traces of this folder from the captures in raw/, by adapters/qemu-capture. With FOLDER they go there.
set -eu
here=$(cd "$(dirname "$0")" && pwd)
into=${1:-$here}
raw=$here/raw
convert=$here/../../adapters/qemu-capture

# whole TRACE CAPTURE: a run without faults
whole() { "$convert" "$raw/$2.txt" > "$into/$1.trace" 2> /dev/null; }

# fault TRACE CAPTURE LINES FAULTS N: a run with a fault, which is the part N of FAULTS. It begins within a run, and the lines
# before it are the first LINES lines of CAPTURE, the run without faults.
fault() {
    {
        sed -n "1,$3p" "$raw/$2.txt"
        awk -v n="$5" '/^## / { part++ } part == n' "$raw/$4.txt"
    } | "$convert" > "$into/$1.trace" 2> /dev/null
}

whole seabios_sdsc seabios_sdsc64m
whole seabios_sdhc seabios_sdhc4g
whole edk2_sdsc edk2_sdsc64m
whole edk2_sdhc edk2_sdhc4g
whole linux_sdsc linux_sdsc64m
whole linux_sdsc_2g linux_sdsc2g
whole linux_sdhc linux_sdhc4g
whole uboot_sdsc uboot_sdsc64m
whole uboot_sdhc uboot_sdhc4g

fault seabios_cmd8_never_answered seabios_sdsc64m 2 seabios_faults 1
fault seabios_busy seabios_sdhc4g 5 seabios_faults 2
fault seabios_cmd55_without_app_cmd seabios_sdhc4g 4 seabios_faults 3
fault seabios_acmd41_answer_lost seabios_sdhc4g 4 seabios_faults 4
fault seabios_cmd3_answer_lost seabios_sdhc4g 6 seabios_faults 5
fault seabios_cmd7_answer_lost seabios_sdhc4g 8 seabios_faults 6
fault seabios_cmd17_lost seabios_sdhc4g 12 seabios_faults 7
fault seabios_cmd17_answer_lost seabios_sdhc4g 12 seabios_faults 8
fault seabios_cmd24_answer_lost seabios_sdhc4g 13 seabios_faults 9
fault seabios_cmd24_bit_21 seabios_sdhc4g 15 seabios_faults 10

fault edk2_inquiry_answered_ready edk2_sdsc64m 2 edk2_faults 1
fault edk2_cmd8_never_answered edk2_sdhc4g 2 edk2_faults 2
fault edk2_cmd55_without_app_cmd edk2_sdhc4g 6 edk2_faults 3
fault edk2_cmd17_lost edk2_sdhc4g 28 edk2_faults 4
fault edk2_cmd17_answer_lost edk2_sdhc4g 28 edk2_faults 5
fault edk2_cmd17_bit_21 edk2_sdhc4g 28 edk2_faults 6
fault edk2_cmd24_answer_lost edk2_sdhc4g 40 edk2_faults 7
fault edk2_cmd25_answer_lost edk2_sdhc4g 41 edk2_faults 8
fault edk2_second_cmd3_answer_lost edk2_sdhc4g 19 edk2_faults 9

fault linux_cmd8_never_answered linux_sdhc4g 15 linux_faults_bringup 1
fault linux_busy linux_sdhc4g 25 linux_faults_bringup 2
fault linux_cmd55_lost linux_sdhc4g 24 linux_faults_bringup 3
fault linux_acmd41_lost linux_sdhc4g 25 linux_faults_bringup 4
fault linux_cmd55_without_app_cmd linux_sdhc4g 24 linux_faults_bringup 5
fault linux_acmd41_answer_lost linux_sdhc4g 25 linux_faults_bringup 6
fault linux_cmd2_answer_lost linux_sdhc4g 26 linux_faults_bringup 7
fault linux_cmd3_answer_lost linux_sdhc4g 27 linux_faults_bringup 8
fault linux_cmd9_lost linux_sdhc4g 28 linux_faults_bringup 9
fault linux_cmd7_answer_lost linux_sdhc4g 29 linux_faults_bringup 10
fault linux_acmd51_answer_lost linux_sdhc4g 30 linux_faults_bringup 11
fault linux_cmd17_lost linux_sdhc4g 45 linux_faults_data 1
fault linux_cmd17_answer_lost linux_sdhc4g 45 linux_faults_data 2
fault linux_cmd17_lost_each_time linux_sdhc4g 45 linux_faults_data 3
fault linux_cmd17_bit_21 linux_sdhc4g 45 linux_faults_data 4
fault linux_cmd24_lost linux_sdhc4g 48 linux_faults_data 5
fault linux_cmd24_answer_lost linux_sdhc4g 48 linux_faults_data 6
fault linux_cmd24_bit_21 linux_sdhc4g 48 linux_faults_data 7
fault linux_cmd13_lost linux_sdhc4g 48 linux_faults_data 8
fault linux_cmd13_lost_each_time linux_sdhc4g 48 linux_faults_data 9
fault linux_cmd13_bit_19 linux_sdhc4g 48 linux_faults_data 10
fault linux_cmd25_answer_lost linux_sdhc4g 50 linux_faults_data 11
fault linux_cmd12_lost_after_cmd18 linux_sdhc4g 46 linux_faults_data 12
fault linux_cmd12_lost_after_cmd25 linux_sdhc4g 50 linux_faults_data 13
fault linux_cmd12_answer_lost_after_cmd25 linux_sdhc4g 50 linux_faults_data 14
fault linux_cmd33_lost linux_sdhc4g 53 linux_faults_data 15
fault linux_cmd38_lost linux_sdhc4g 53 linux_faults_data 16
fault linux_cmd38_bit_28 linux_sdhc4g 53 linux_faults_data 17

fault uboot_cmd8_never_answered uboot_sdsc64m 21 uboot_faults 1
fault uboot_busy uboot_sdhc4g 52 uboot_faults 2
fault uboot_cmd55_without_app_cmd uboot_sdhc4g 51 uboot_faults 3
fault uboot_cmd2_answer_lost uboot_sdhc4g 53 uboot_faults 4
fault uboot_cmd3_answer_lost uboot_sdhc4g 54 uboot_faults 5
fault uboot_cmd7_lost uboot_sdhc4g 56 uboot_faults 6
fault uboot_acmd51_answer_lost uboot_sdhc4g 58 uboot_faults 7
fault uboot_cmd16_lost uboot_sdhc4g 66 uboot_faults 8
fault uboot_cmd17_lost uboot_sdhc4g 66 uboot_faults 9
fault uboot_cmd17_bit_21 uboot_sdhc4g 66 uboot_faults 10
fault uboot_cmd12_lost_after_cmd18 uboot_sdhc4g 69 uboot_faults 11
fault uboot_cmd24_lost uboot_sdhc4g 71 uboot_faults 12
fault uboot_cmd12_lost_after_cmd25 uboot_sdhc4g 74 uboot_faults 13
fault uboot_cmd13_lost uboot_sdhc4g 72 uboot_faults 14
fault uboot_cmd13_bit_19 uboot_sdhc4g 72 uboot_faults 15
fault uboot_cmd38_lost uboot_sdhc4g 78 uboot_faults 16

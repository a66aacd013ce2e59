#!/bin/sh
# sh adapters/test.sh
#
# Gives texts to each converter, with LF and with CRLF at the ends of lines, and compares the trace, the messages and the status
# with the wanted ones, to the letter. Then it makes the traces of examples/captures again. It ends with the line
# `adapters: N passed, M failed`, and with status 1 if one failed.
set -u
here=$(cd "$(dirname "$0")" && pwd)
work=$(mktemp -d)
trap 'rm -rf "$work"' EXIT
passed=0 failed=0
limit=$(command -v timeout > /dev/null && echo timeout 60 || :)

judge() {
    if [ "$2" -eq 0 ]; then
        passed=$((passed + 1))
    else
        failed=$((failed + 1))
        echo "failed: $1"
    fi
}

# run_on NAME INPUT STATUS CONVERTER WORD..: compares with the files trace and said
run_on() {
    name=$1 input=$2 wanted=$3 converter=$4
    shift 4
    status=0
    $limit "$here/$converter" "$@" < "$input" > "$work/out" 2> "$work/err" || status=$?
    ok=0
    [ "$status" -eq "$wanted" ] || { ok=1 && echo "$name: status $status, wanted $wanted"; }
    diff "$work/trace" "$work/out" || ok=1
    diff "$work/said" "$work/err" || ok=1
    judge "$name" $ok
}

# takes NAME EXPAND STATUS CONVERTER WORD.. with a text on standard input: what the converter reads, a line `=`, the trace, a line
# `=`, and the messages without the name of the converter. EXPAND makes the whole text of what the converter reads.
takes() {
    name=$1 expand=$2 wanted=$3 converter=$4
    shift 4
    awk -v work="$work" -v converter="$converter" '
        BEGIN { file = work "/short"; printf "" > (work "/trace"); printf "" > (work "/said"); printf "" > file }
        $0 == "=" { file = work (++part == 1 ? "/trace" : "/said"); next }
        { print (part == 2 ? converter ": " : "") $0 > file }'
    "$expand" < "$work/short" > "$work/in"
    run_on "$name" "$work/in" "$wanted" "$converter" "$@"
    awk '{ printf "%s\r\n", $0 }' "$work/in" > "$work/crlf"
    run_on "$name, CRLF" "$work/crlf" "$wanted" "$converter" "$@"
}

as_it_is() { cat; }

# `start ID KEY=VALUE..` and `end ID KEY=VALUE..` as lines of the trace events of Linux, with 0 for the other keys and a comma for
# a space in a value. Other lines as they are.
events() {
    awk '
        BEGIN {
            keys["start"] = "cmd_opcode cmd_arg=0x0 cmd_flags=0x0 cmd_retries stop_opcode stop_arg=0x0 stop_flags=0x0 " \
                "stop_retries sbc_opcode sbc_arg=0x0 sbc_flags=0x0 sbc_retires blocks block_size blk_addr data_flags=0x0 " \
                "tag can_retune doing_retune retune_now need_retune hold_retune retune_period"
            keys["end"] = "cmd_opcode cmd_err cmd_resp=0x0,0x0,0x0,0x0 cmd_retries stop_opcode stop_err " \
                "stop_resp=0x0,0x0,0x0,0x0 stop_retries sbc_opcode sbc_err sbc_resp=0x0,0x0,0x0,0x0 sbc_retries " \
                "bytes_xfered data_err tag can_retune doing_retune retune_now need_retune hold_retune retune_period"
        }
        ($1 in keys) {
            for (k = 3; k <= NF; k++) given[substr($k, 1, index($k, "=") - 1)] = substr($k, index($k, "=") + 1)
            printf "     kworker/0:1-23      [000] .....  %11.6f: mmc_request_%s: mmc0: %s struct mmc_request[%016d]:",
                1 + NR / 1000, ($1 == "end" ? "done" : $1), $1, $2
            n = split(keys[$1], key, " ")
            for (k = 1; k <= n; k++) {
                split(key[k], pair, "=")
                value = (pair[1] in given) ? given[pair[1]] : (pair[2] == "" ? 0 : pair[2])
                gsub(/,/, " ", value)
                printf " %s=%s", pair[1], value
            }
            for (k in given) delete given[k]
            print ""
            next
        }
        { print }'
}

# `FIRST LENGTH BITS` as the annotations of bits that sigrok-cli prints, from the sample FIRST on, with LENGTH samples a bit.
# Other lines as they are.
bits() {
    awk '
        $1 ~ /^[0-9]+$/ && $3 ~ /^[01]+$/ {
            for (k = 0; k < length($3); k++)
                print $1 + k * $2 "-" $1 + (k + 1) * $2 " sdcard_sd-1: " substr($3, k + 1, 1)
            next
        }
        { print }'
}

# LINUX

# An empty trace would be taken for a host that sent nothing.
takes "linux: nothing" as_it_is 1 linux-mmc-trace << 'END'
=
=
no mmc_request_start line found
END

takes "linux: other events alone" as_it_is 1 linux-mmc-trace << 'END'
# tracer: nop
#
           <...>-12      [000] d..1.     1.000000: irq_handler_entry: irq=17 name=mmc0
=
=
no mmc_request_start line found
END

takes "linux: debug messages of the kernel" as_it_is 1 linux-mmc-trace --host mmc0 << 'END'
[    1.234567] mmc0: starting CMD17 arg 000003e9 flags 000000b5
[    1.235678] mmc0: req done (CMD17): 0: 00000900 00000000 00000000 00000000
=
=
no mmc_request_start line of mmc0 found
END

takes "linux: no such controller" events 1 linux-mmc-trace --host mmc1 << 'END'
start 1 cmd_opcode=13 cmd_arg=0x12340000 cmd_flags=0x195
end 1 cmd_opcode=13 cmd_resp=0x900,0x0,0x0,0x0
           <...>-12      [000] .....     1.000000: mmc_request_start: mmc2: start struct mmc_request[3]: cmd_opcode=0
=
=
left out: the controller mmc0 (line 1, 2 times)
left out: the controller mmc2 (line 3)
no mmc_request_start line of mmc1 found, only lines of mmc0, mmc2
END

takes "linux: an end alone" events 1 linux-mmc-trace << 'END'
end 1 cmd_opcode=13 cmd_resp=0x900,0x0,0x0,0x0
=
=
left out: an end of a request whose beginning is missing (line 1)
no mmc_request_start line of mmc0 found
END

# the line as Linux 6.1 prints it, and as trace-cmd and perf do
takes "linux: three recorders" as_it_is 0 linux-mmc-trace << 'END'
# tracer: nop
#
# entries-in-buffer/entries-written: 2/2   #P:1
     kworker/0:1-23      [000] .....     1.234567: mmc_request_start: mmc0: start struct mmc_request[00000000c0ffee00]: cmd_opcode=17 cmd_arg=0x3e9 cmd_flags=0xb5 cmd_retries=0 stop_opcode=0 stop_arg=0x0 stop_flags=0x0 stop_retries=0 sbc_opcode=0 sbc_arg=0x0 sbc_flags=0x0 sbc_retires=0 blocks=1 block_size=512 blk_addr=1001 data_flags=0x200 tag=0 can_retune=0 doing_retune=0 retune_now=0 need_retune=0 hold_retune=1 retune_period=0
           <...>-12      [000] d..1.     1.234600: irq_handler_entry: irq=17 name=mmc0
          <idle>-0       [000] ..s1.     1.235678: mmc_request_done: mmc0: end struct mmc_request[00000000c0ffee00]: cmd_opcode=17 cmd_err=0 cmd_resp=0x900 0x0 0x0 0x0 cmd_retries=0 stop_opcode=0 stop_err=0 stop_resp=0x0 0x0 0x0 0x0 stop_retries=0 sbc_opcode=0 sbc_err=0 sbc_resp=0x0 0x0 0x0 0x0 sbc_retries=0 bytes_xfered=512 data_err=0 tag=0 can_retune=0 doing_retune=0 retune_now=0 need_retune=0 hold_retune=1 retune_period=0
kworker/0:1-23    [000]     2.234567: mmc_request_start:    mmc0: start struct mmc_request[0xffff888003a1fd50]: cmd_opcode=13 cmd_arg=0x12340000 cmd_flags=0x195 cmd_retries=0 stop_opcode=0 stop_arg=0x0 stop_flags=0x0 stop_retries=0 sbc_opcode=0 sbc_arg=0x0 sbc_flags=0x0 sbc_retires=0 blocks=0 block_size=0 blk_addr=0 data_flags=0x0 tag=0 can_retune=0 doing_retune=0 retune_now=0 need_retune=0 hold_retune=0 retune_period=0
<idle>-0          [000]     2.235678: mmc_request_done:     mmc0: end struct mmc_request[0xffff888003a1fd50]: cmd_opcode=13 cmd_err=0 cmd_resp=0x900 0x0 0x0 0x0 cmd_retries=0 stop_opcode=0 stop_err=0 stop_resp=0x0 0x0 0x0 0x0 stop_retries=0 sbc_opcode=0 sbc_err=0 sbc_resp=0x0 0x0 0x0 0x0 sbc_retries=0 bytes_xfered=0 data_err=0 tag=0 can_retune=0 doing_retune=0 retune_now=0 need_retune=0 hold_retune=0 retune_period=0
     kworker/0:1    23 [000]     3.234567: mmc:mmc_request_start: mmc0: start struct mmc_request[(____ptrval____)]: cmd_opcode=0 cmd_arg=0x0 cmd_flags=0xc0 cmd_retries=0 stop_opcode=0 stop_arg=0x0 stop_flags=0x0 stop_retries=0 sbc_opcode=0 sbc_arg=0x0 sbc_flags=0x0 sbc_retires=0 blocks=0 block_size=0 blk_addr=0 data_flags=0x0 tag=0 can_retune=0 doing_retune=0 retune_now=0 need_retune=0 hold_retune=0 retune_period=0
         swapper     0 [000]     3.235678: mmc:mmc_request_done: mmc0: end struct mmc_request[(____ptrval____)]: cmd_opcode=0 cmd_err=0 cmd_resp=0x0 0x0 0x0 0x0 cmd_retries=0 stop_opcode=0 stop_err=0 stop_resp=0x0 0x0 0x0 0x0 stop_retries=0 sbc_opcode=0 sbc_err=0 sbc_resp=0x0 0x0 0x0 0x0 sbc_retries=0 bytes_xfered=0 data_err=0 tag=0 can_retune=0 doing_retune=0 retune_now=0 need_retune=0 hold_retune=0 retune_period=0
=
CMD17 000003e9 R1 00000900
IN 1 ok
CMD13 12340000 R1 00000900
CMD0 00000000 -
=
END

takes "linux: an SD card" events 0 linux-mmc-trace << 'END'
start 1 cmd_opcode=52 cmd_arg=0xc00 cmd_flags=0x195
end 1 cmd_opcode=52 cmd_err=-110
start 1 cmd_opcode=52 cmd_arg=0x80000c08 cmd_flags=0x195
end 1 cmd_opcode=52 cmd_err=-110
start 1 cmd_opcode=0 cmd_flags=0xc0
end 1 cmd_opcode=0
start 1 cmd_opcode=8 cmd_arg=0x1aa cmd_flags=0x2f5
end 1 cmd_opcode=8 cmd_resp=0x1aa,0x0,0x0,0x0
start 1 cmd_opcode=5 cmd_flags=0x2e1
end 1 cmd_opcode=5 cmd_err=-110
start 1 cmd_opcode=55 cmd_flags=0xf5
end 1 cmd_opcode=55 cmd_resp=0x400120,0x0,0x0,0x0
start 1 cmd_opcode=41 cmd_flags=0xe1
end 1 cmd_opcode=41 cmd_resp=0xff8000,0x0,0x0,0x0
start 1 cmd_opcode=55 cmd_flags=0xf5
end 1 cmd_opcode=55 cmd_err=-110
start 1 cmd_opcode=55 cmd_flags=0xf5
end 1 cmd_opcode=55 cmd_resp=0x120,0x0,0x0,0x0
start 1 cmd_opcode=41 cmd_arg=0x40300000 cmd_flags=0xe1
end 1 cmd_opcode=41 cmd_resp=0xc0ff8000,0x0,0x0,0x0
start 1 cmd_opcode=2 cmd_flags=0x67
end 1 cmd_opcode=2 cmd_resp=0xaa585951,0x454d5521,0x1deadbe,0xef006200
start 1 cmd_opcode=3 cmd_flags=0x75
end 1 cmd_opcode=3 cmd_resp=0x12340500,0x0,0x0,0x0
start 1 cmd_opcode=9 cmd_arg=0x12340000 cmd_flags=0x7
end 1 cmd_opcode=9 cmd_resp=0x400e0032,0x5b590000,0x1fff7f80,0xa4000c3
start 1 cmd_opcode=7 cmd_arg=0x12340000 cmd_flags=0x15
end 1 cmd_opcode=7 cmd_resp=0x700,0x0,0x0,0x0
start 1 cmd_opcode=55 cmd_arg=0x12340000 cmd_flags=0x95
end 1 cmd_opcode=55 cmd_resp=0x920,0x0,0x0,0x0
start 1 cmd_opcode=51 cmd_flags=0xb5 blocks=1 block_size=8 data_flags=0x200
end 1 cmd_opcode=51 cmd_resp=0x920,0x0,0x0,0x0 bytes_xfered=8
start 1 cmd_opcode=55 cmd_arg=0x12340000 cmd_flags=0x95
end 1 cmd_opcode=55 cmd_resp=0x920,0x0,0x0,0x0
start 1 cmd_opcode=13 cmd_flags=0x1b5 blocks=1 block_size=64 data_flags=0x200
end 1 cmd_opcode=13 cmd_resp=0x920,0x0,0x0,0x0 bytes_xfered=64
start 1 cmd_opcode=6 cmd_arg=0xfffff0 cmd_flags=0xb5 blocks=1 block_size=64 data_flags=0x200
end 1 cmd_opcode=6 cmd_resp=0x900,0x0,0x0,0x0 bytes_xfered=64
start 1 cmd_opcode=55 cmd_arg=0x12340000 cmd_flags=0x95
end 1 cmd_opcode=55 cmd_resp=0x920,0x0,0x0,0x0
start 1 cmd_opcode=6 cmd_arg=0x2 cmd_flags=0x95
end 1 cmd_opcode=6 cmd_resp=0x920,0x0,0x0,0x0
start 2 cmd_opcode=17 cmd_arg=0x3e9 cmd_flags=0xb5 blocks=1 block_size=512 blk_addr=1001 data_flags=0x200
end 2 cmd_opcode=17 cmd_resp=0x900,0x0,0x0,0x0 bytes_xfered=512
start 2 cmd_opcode=18 cmd_arg=0x3e9 cmd_flags=0xb5 stop_opcode=12 stop_flags=0x95 blocks=64 block_size=512 data_flags=0x200
end 2 cmd_opcode=18 cmd_resp=0x900,0x0,0x0,0x0 stop_opcode=12 stop_resp=0xb00,0x0,0x0,0x0 bytes_xfered=32768
start 2 cmd_opcode=24 cmd_arg=0x3e9 cmd_flags=0xb5 blocks=1 block_size=512 data_flags=0x100
end 2 cmd_opcode=24 cmd_resp=0x900,0x0,0x0,0x0 bytes_xfered=512
start 1 cmd_opcode=13 cmd_arg=0x12340000 cmd_flags=0x195
end 1 cmd_opcode=13 cmd_resp=0x900,0x0,0x0,0x0
start 2 cmd_opcode=25 cmd_arg=0x3e9 cmd_flags=0xb5 stop_opcode=12 stop_flags=0x49d blocks=64 block_size=512 data_flags=0x100
end 2 cmd_opcode=25 cmd_resp=0x900,0x0,0x0,0x0 stop_opcode=12 stop_resp=0xd00,0x0,0x0,0x0 bytes_xfered=32768
start 1 cmd_opcode=55 cmd_arg=0x12340000 cmd_flags=0x95
end 1 cmd_opcode=55 cmd_resp=0x920,0x0,0x0,0x0
start 1 cmd_opcode=22 cmd_flags=0xb5 blocks=1 block_size=4 data_flags=0x200
end 1 cmd_opcode=22 cmd_resp=0x920,0x0,0x0,0x0 bytes_xfered=4
start 1 cmd_opcode=63 cmd_flags=0x15
end 1 cmd_opcode=63 cmd_err=-110
start 1 cmd_opcode=32 cmd_arg=0x10 cmd_flags=0x95
end 1 cmd_opcode=32 cmd_resp=0x900,0x0,0x0,0x0
start 1 cmd_opcode=33 cmd_arg=0x8f cmd_flags=0x95
end 1 cmd_opcode=33 cmd_resp=0x900,0x0,0x0,0x0
start 1 cmd_opcode=38 cmd_flags=0x49d
end 1 cmd_opcode=38 cmd_resp=0x900,0x0,0x0,0x0
start 1 cmd_opcode=7 cmd_flags=0x0
end 1 cmd_opcode=7
=
# left out: CMD52 00000c00 timeout: no script can name it
# left out: CMD52 80000c08 timeout: no script can name it
CMD0 00000000 -
CMD8 000001aa R7 000001aa
# left out: CMD5 00000000 timeout: no script can name it
# left out: CMD55 00000000 R1 00400120: before an inquiry
# left out: CMD41 00000000 R3 00ff8000: an inquiry
CMD55 00000000 timeout
CMD55 00000000 R1 00000120
# changed: CMD41 40300000 R3 c0ff8000: another voltage window
CMD41 40ff8000 R3 c0ff8000
CMD2 00000000 R2 aa585951454d552101deadbeef0062
CMD3 00000000 R6 12340500
CMD9 12340000 R2 400e00325b5900001fff7f800a4000
CMD7 12340000 R1 00000700
CMD55 12340000 R1 00000920
CMD51 00000000 R1 00000920
REG 8 ok
CMD55 12340000 R1 00000920
# changed: CMD13 00000000 R1 00000920: bits at which the card does not look
CMD13 12340000 R1 00000920
REG 64 ok
# left out: CMD6 00fffff0 R1 00000900: no script can name it
CMD55 12340000 R1 00000920
CMD6 00000002 R1 00000920
LINES 4
CMD17 000003e9 R1 00000900
IN 1 ok
CMD18 000003e9 R1 00000900
IN 64 ok
CMD12 00000000 R1 00000b00
CMD24 000003e9 R1 00000900
OUT 1 ok
CMD13 12340000 R1 00000900
CMD25 000003e9 R1 00000900
OUT 64 ok
CMD12 00000000 R1 00000d00
# left out: CMD55 12340000 R1 00000920: before ACMD22
# left out: CMD22 00000000 R1 00000920: no script can name it
# left out: CMD63 00000000 timeout: no script can name it
CMD32 00000010 R1 00000900
CMD33 0000008f R1 00000900
CMD38 00000000 R1 00000900
CMD7 00000000 -
=
left out: CMD52 (line 2, 2 times)
left out: CMD5 (line 10)
left out: CMD55 and CMD41 00000000, an inquiry (line 14)
CMD41 40300000 stands as CMD41 40ff8000 (line 20)
CMD13 00000000 stands as CMD13 12340000 (line 36)
left out: CMD6 (line 38)
left out: CMD55 and CMD22 (line 56)
left out: CMD63 (line 58)
END

takes "linux: faults" events 0 linux-mmc-trace << 'END'
start 1 cmd_opcode=17 cmd_arg=0x8 cmd_flags=0xb5 blocks=1 block_size=512 data_flags=0x200
end 1 cmd_opcode=17 cmd_err=-110
start 1 cmd_opcode=17 cmd_arg=0x8 cmd_flags=0xb5 blocks=1 block_size=512 data_flags=0x200
end 1 cmd_opcode=17 cmd_err=-84 cmd_resp=0x900,0x0,0x0,0x0
start 1 cmd_opcode=13 cmd_arg=0x12340000 cmd_flags=0x195
end 1 cmd_opcode=13 cmd_err=-5
start 1 cmd_opcode=17 cmd_arg=0x8 cmd_flags=0xb5 blocks=1 block_size=512 data_flags=0x200
end 1 cmd_opcode=17 cmd_resp=0x900,0x0,0x0,0x0 data_err=-84
start 1 cmd_opcode=18 cmd_arg=0x8 cmd_flags=0xb5 stop_opcode=12 stop_flags=0x95 blocks=8 block_size=512 data_flags=0x200
end 1 cmd_opcode=18 cmd_err=-110 stop_opcode=12
start 1 cmd_opcode=18 cmd_arg=0x8 cmd_flags=0xb5 stop_opcode=12 stop_flags=0x95 blocks=8 block_size=512 data_flags=0x200
end 1 cmd_opcode=18 cmd_resp=0x900,0x0,0x0,0x0 stop_opcode=12 stop_err=-110 data_err=-110
start 1 cmd_opcode=12 cmd_flags=0x95
end 1 cmd_opcode=12 cmd_resp=0xb00,0x0,0x0,0x0
start 1 cmd_opcode=25 cmd_arg=0x8 cmd_flags=0xb5 stop_opcode=12 stop_flags=0x49d blocks=8 block_size=512 data_flags=0x100
end 1 cmd_opcode=25 cmd_resp=0x900,0x0,0x0,0x0 stop_opcode=12 stop_resp=0xd00,0x0,0x0,0x0 bytes_xfered=1024
start 1 cmd_opcode=24 cmd_arg=0x8 cmd_flags=0xb5 blocks=1 block_size=512 data_flags=0x100
end 1 cmd_opcode=24 cmd_err=-123
start 1 cmd_opcode=0 cmd_flags=0xc0
end 1 cmd_opcode=0 cmd_err=-22
start 1 cmd_opcode=13 cmd_arg=0x12340000 cmd_flags=0x195
=
CMD17 00000008 timeout
# changed: CMD17 00000008: its answer was damaged
CMD17 00000008 timeout
# changed: CMD13 12340000: error -5
CMD13 12340000 timeout
CMD17 00000008 R1 00000900
IN 1 cut
CMD18 00000008 timeout
CMD18 00000008 R1 00000900
IN 8 cut
CMD12 00000000 timeout
CMD12 00000000 R1 00000b00
CMD25 00000008 R1 00000900
OUT 8 cut
CMD12 00000000 R1 00000d00
# left out: CMD24 00000008: not sent: error -123
# left out: CMD0 00000000: not sent: error -22
=
CMD17 stands as not answered: its answer was damaged (line 4)
CMD13 stands as not answered: error -5 (line 6)
left out: CMD24, which was not sent: error -123 (line 18)
left out: CMD0, which was not sent: error -22 (line 20)
left out: requests without an end: 1 (line 21)
END

takes "linux: an e.MMC device" events 0 linux-mmc-trace --emmc << 'END'
start 1 cmd_opcode=0 cmd_flags=0xc0
end 1 cmd_opcode=0
start 1 cmd_opcode=8 cmd_arg=0x1aa cmd_flags=0x2f5
end 1 cmd_opcode=8 cmd_err=-110
start 1 cmd_opcode=5 cmd_flags=0x2e1
end 1 cmd_opcode=5 cmd_err=-110
start 1 cmd_opcode=55 cmd_flags=0xf5
end 1 cmd_opcode=55 cmd_err=-110
start 1 cmd_opcode=1 cmd_flags=0xe1
end 1 cmd_opcode=1 cmd_resp=0x40ff8080,0x0,0x0,0x0
start 1 cmd_opcode=0 cmd_flags=0xc0
end 1 cmd_opcode=0
start 1 cmd_opcode=1 cmd_arg=0x40200080 cmd_flags=0xe1
end 1 cmd_opcode=1 cmd_resp=0x40ff8080,0x0,0x0,0x0
start 1 cmd_opcode=1 cmd_arg=0x40200080 cmd_flags=0xe1
end 1 cmd_opcode=1 cmd_resp=0xc0ff8080,0x0,0x0,0x0
start 1 cmd_opcode=2 cmd_flags=0x67
end 1 cmd_opcode=2 cmd_resp=0x158,0x53445645,0x52454910,0x1
start 1 cmd_opcode=3 cmd_arg=0x10000 cmd_flags=0x15
end 1 cmd_opcode=3 cmd_resp=0x500,0x0,0x0,0x0
start 1 cmd_opcode=9 cmd_arg=0x10000 cmd_flags=0x7
end 1 cmd_opcode=9 cmd_resp=0xd02f0132,0xf5903ff,0xffffffe7,0x86400000
start 1 cmd_opcode=7 cmd_arg=0x10000 cmd_flags=0x15
end 1 cmd_opcode=7 cmd_resp=0x700,0x0,0x0,0x0
start 1 cmd_opcode=8 cmd_flags=0xb5 blocks=1 block_size=512 data_flags=0x200
end 1 cmd_opcode=8 cmd_resp=0x900,0x0,0x0,0x0 bytes_xfered=512
start 1 cmd_opcode=6 cmd_arg=0x3b90101 cmd_flags=0x49d
end 1 cmd_opcode=6 cmd_resp=0x800,0x0,0x0,0x0
start 1 cmd_opcode=13 cmd_arg=0x10000 cmd_flags=0x195
end 1 cmd_opcode=13 cmd_resp=0xe00,0x0,0x0,0x0
start 1 cmd_opcode=13 cmd_arg=0x10000 cmd_flags=0x195
end 1 cmd_opcode=13 cmd_resp=0x900,0x0,0x0,0x0
start 1 cmd_opcode=6 cmd_arg=0x3b70201 cmd_flags=0x49d
end 1 cmd_opcode=6 cmd_resp=0x800,0x0,0x0,0x0
start 1 cmd_opcode=13 cmd_arg=0x10000 cmd_flags=0x195
end 1 cmd_opcode=13 cmd_resp=0xe00,0x0,0x0,0x0
start 1 cmd_opcode=13 cmd_arg=0x10000 cmd_flags=0x195
end 1 cmd_opcode=13 cmd_resp=0x900,0x0,0x0,0x0
start 1 cmd_opcode=6 cmd_arg=0x3b70101 cmd_flags=0x49d
end 1 cmd_opcode=6 cmd_resp=0x800,0x0,0x0,0x0
start 1 cmd_opcode=13 cmd_arg=0x10000 cmd_flags=0x195
end 1 cmd_opcode=13 cmd_resp=0x980,0x0,0x0,0x0
start 2 cmd_opcode=18 cmd_arg=0x8 cmd_flags=0xb5 sbc_opcode=23 sbc_arg=0x8 sbc_flags=0x15 stop_opcode=12 stop_flags=0x95 blocks=8 block_size=512 data_flags=0x200
end 2 cmd_opcode=18 cmd_resp=0x900,0x0,0x0,0x0 sbc_opcode=23 sbc_resp=0x900,0x0,0x0,0x0 stop_opcode=12 bytes_xfered=4096
start 2 cmd_opcode=25 cmd_arg=0x8 cmd_flags=0xb5 sbc_opcode=23 sbc_arg=0x8 sbc_flags=0x15 stop_opcode=12 stop_flags=0x49d blocks=8 block_size=512 data_flags=0x100
end 2 cmd_opcode=25 sbc_opcode=23 sbc_err=-110 stop_opcode=12
start 2 cmd_opcode=25 cmd_arg=0x8 cmd_flags=0xb5 sbc_opcode=23 sbc_arg=0x8 sbc_flags=0x15 stop_opcode=12 stop_flags=0x49d blocks=8 block_size=512 data_flags=0x100
end 2 cmd_opcode=25 cmd_resp=0x900,0x0,0x0,0x0 sbc_opcode=23 sbc_resp=0x900,0x0,0x0,0x0 stop_opcode=12 stop_resp=0xd00,0x0,0x0,0x0 data_err=-84
start 3 tag=3 blocks=8 block_size=512 data_flags=0x200
end 3 tag=3 bytes_xfered=4096
start 1 cmd_opcode=0 cmd_flags=0xc0
end 1 cmd_opcode=0
=
CMD0 00000000 -
# left out: CMD8 000001aa timeout: no script can name it
# left out: CMD5 00000000 timeout: no script can name it
# left out: CMD55 00000000 timeout: no script can name it
# left out: CMD1 00000000 R3 40ff8080: an inquiry
CMD0 00000000 -
# changed: CMD1 40200080 R3 40ff8080: another voltage window
CMD1 40ff8080 R3 40ff8080
# changed: CMD1 40200080 R3 c0ff8080: another voltage window
CMD1 40ff8080 R3 c0ff8080
CMD2 00000000 R2 000001585344564552454910000000
CMD3 00010000 R1 00000500
CMD9 00010000 R2 d02f01320f5903ffffffffe7864000
CMD7 00010000 R1 00000700
CMD8 00000000 R1 00000900
REG 512 ok
# left out: CMD6 03b90101 R1 00000800: no script can name it
# left out: CMD13 00010000 R1 00000e00: the card is at work on a command that is left out
CMD13 00010000 R1 00000900
# changed: CMD6 03b70201 R1 00000800: bits that do not count
CMD6 03b70200 R1 00000800
CMD13 00010000 R1 00000e00
CMD13 00010000 R1 00000900
LINES 8
# changed: CMD6 03b70101 R1 00000800: bits that do not count
CMD6 03b70100 R1 00000800
CMD13 00010000 R1 00000980
CMD23 00000008 R1 00000900
CMD18 00000008 R1 00000900
IN 8 ok
CMD23 00000008 timeout
# left out: CMD25 00000008: the CMD23 before it failed
CMD23 00000008 R1 00000900
CMD25 00000008 R1 00000900
OUT 8 cut
CMD12 00000000 R1 00000d00
# left out: a transfer: of the command queue
LINES 1
CMD0 00000000 -
=
left out: CMD8 (line 4)
left out: CMD5 (line 6)
left out: CMD55 (line 8)
left out: CMD1 00000000, an inquiry (line 10)
CMD1 40200080 stands as CMD1 40ff8080 (line 14, 2 times)
left out: CMD6 03b90101 (line 28)
left out: CMD13 while the card was at work on a command that was left out (line 30)
CMD6 03b70201 stands as CMD6 03b70200 (line 34)
CMD6 03b70101 stands as CMD6 03b70100 (line 40)
left out: CMD25, because the CMD23 before it failed (line 46)
left out: a transfer of the command queue (line 50)
END

takes "linux: transfers of an SD card by count" events 0 linux-mmc-trace --busy << 'END'
start 2 cmd_opcode=18 cmd_arg=0x8 cmd_flags=0xb5 sbc_opcode=23 sbc_arg=0x8 sbc_flags=0x15 stop_opcode=12 stop_flags=0x95 blocks=8 block_size=512 data_flags=0x200
end 2 cmd_opcode=18 cmd_resp=0x900,0x0,0x0,0x0 sbc_opcode=23 sbc_resp=0x900,0x0,0x0,0x0 stop_opcode=12 bytes_xfered=4096
start 2 cmd_opcode=25 cmd_arg=0x8 cmd_flags=0xb5 sbc_opcode=23 sbc_arg=0x8 sbc_flags=0x15 blocks=8 block_size=512 data_flags=0x100
end 2 cmd_opcode=25 cmd_resp=0x900,0x0,0x0,0x0 sbc_opcode=23 sbc_resp=0x900,0x0,0x0,0x0 bytes_xfered=4096
start 2 cmd_opcode=25 cmd_arg=0x8 cmd_flags=0xb5 sbc_opcode=23 sbc_arg=0x8 sbc_flags=0x15 stop_opcode=12 stop_flags=0x49d blocks=8 block_size=512 data_flags=0x100
end 2 cmd_opcode=25 cmd_resp=0x900,0x0,0x0,0x0 sbc_opcode=23 sbc_resp=0x900,0x0,0x0,0x0 stop_opcode=12 stop_resp=0xd00,0x0,0x0,0x0 data_err=-110
start 2 cmd_opcode=18 cmd_arg=0x8 cmd_flags=0xb5 sbc_opcode=23 sbc_arg=0x8 sbc_flags=0x15 stop_opcode=12 stop_flags=0x95 blocks=8 block_size=512 data_flags=0x200
end 2 cmd_opcode=18 cmd_err=-110 sbc_opcode=23 sbc_resp=0x900,0x0,0x0,0x0 stop_opcode=12
=
# left out: CMD23 00000008 R1 00000900: no script can name it
CMD18 00000008 R1 00000900
IN 8 ok
CMD12 00000000 R1 00000b00
# left out: CMD23 00000008 R1 00000900: no script can name it
CMD25 00000008 R1 00000900
OUT 8 ok
CMD12 00000000 R1 00000d00
WAIT ok
# left out: CMD23 00000008 R1 00000900: no script can name it
CMD25 00000008 R1 00000900
OUT 8 cut
CMD12 00000000 R1 00000d00
WAIT ok
# left out: CMD23 00000008 R1 00000900: no script can name it
CMD18 00000008 timeout
=
left out: CMD23 (line 2, 4 times)
CMD12 stands for the end of a transfer by the count of CMD23 (line 2, 2 times)
END

takes "linux: addresses and partitions of an e.MMC device" events 0 linux-mmc-trace --emmc << 'END'
start 1 cmd_opcode=13 cmd_arg=0x10000 cmd_flags=0x195
end 1 cmd_opcode=13 cmd_err=-110
start 1 cmd_opcode=3 cmd_arg=0x20000 cmd_flags=0x15
end 1 cmd_opcode=3 cmd_resp=0x500,0x0,0x0,0x0
start 1 cmd_opcode=7 cmd_arg=0x20000 cmd_flags=0x15
end 1 cmd_opcode=7 cmd_resp=0x700,0x0,0x0,0x0
start 1 cmd_opcode=13 cmd_arg=0x10000 cmd_flags=0x195
end 1 cmd_opcode=13 cmd_err=-110
start 1 cmd_opcode=6 cmd_arg=0x3b34901 cmd_flags=0x49d
end 1 cmd_opcode=6 cmd_resp=0x800,0x0,0x0,0x0
start 1 cmd_opcode=6 cmd_arg=0x3b34801 cmd_flags=0x49d
end 1 cmd_opcode=6 cmd_resp=0x800,0x0,0x0,0x0
start 1 cmd_opcode=6 cmd_arg=0x3b30301 cmd_flags=0x49d
end 1 cmd_opcode=6 cmd_resp=0x800,0x0,0x0,0x0
start 1 cmd_opcode=6 cmd_arg=0x3b70601 cmd_flags=0x49d
end 1 cmd_opcode=6 cmd_resp=0x800,0x0,0x0,0x0
=
CMD13 00010000 timeout
# changed: CMD3 00020000 R1 00000500: another relative address
CMD3 00010000 R1 00000500
# changed: CMD7 00020000 R1 00000700: another relative address
CMD7 00010000 R1 00000700
# changed: CMD13 00010000 timeout: another relative address
CMD13 00020000 timeout
# changed: CMD6 03b34901 R1 00000800: bits that do not count
CMD6 03b30100 R1 00000800
# changed: CMD6 03b34801 R1 00000800: bits that do not count
CMD6 03b30000 R1 00000800
# left out: CMD6 03b30301 R1 00000800: no script can name it
# left out: CMD6 03b70601 R1 00000800: no script can name it
=
CMD3 00020000 stands as CMD3 00010000 (line 4)
CMD7 00020000 stands as CMD7 00010000 (line 6)
CMD13 00010000 stands as CMD13 00020000 (line 8)
CMD6 03b34901 stands as CMD6 03b30100 (line 10)
CMD6 03b34801 stands as CMD6 03b30000 (line 12)
left out: CMD6 03b30301 (line 14)
left out: CMD6 03b70601 (line 16)
END

takes "linux: a controller that sends CMD12, and waits" events 0 linux-mmc-trace --busy << 'END'
start 1 cmd_opcode=18 cmd_arg=0x8 cmd_flags=0xb5 stop_opcode=12 stop_flags=0x95 blocks=8 block_size=512 data_flags=0x200
end 1 cmd_opcode=18 cmd_resp=0x900,0x0,0x0,0x0 stop_opcode=12 bytes_xfered=4096
start 1 cmd_opcode=25 cmd_arg=0x8 cmd_flags=0xb5 stop_opcode=12 stop_flags=0x49d blocks=8 block_size=512 data_flags=0x100
end 1 cmd_opcode=25 cmd_resp=0x900,0x0,0x0,0x0 stop_opcode=12 bytes_xfered=4096
start 1 cmd_opcode=24 cmd_arg=0x8 cmd_flags=0xb5 blocks=1 block_size=512 data_flags=0x100
end 1 cmd_opcode=24 cmd_resp=0x900,0x0,0x0,0x0 bytes_xfered=512
start 1 cmd_opcode=38 cmd_flags=0x49d
end 1 cmd_opcode=38 cmd_resp=0x900,0x0,0x0,0x0
start 1 cmd_opcode=38 cmd_flags=0x49d
end 1 cmd_opcode=38 cmd_err=-110
=
CMD18 00000008 R1 00000900
IN 8 ok
# changed: CMD12 00000000: its answer is not recorded, and a status stands for it
CMD12 00000000 R1 00000b00
CMD25 00000008 R1 00000900
OUT 8 ok
# changed: CMD12 00000000: its answer is not recorded, and a status stands for it
CMD12 00000000 R1 00000d00
WAIT ok
CMD24 00000008 R1 00000900
OUT 1 ok
WAIT ok
CMD38 00000000 R1 00000900
WAIT ok
CMD38 00000000 timeout
=
CMD12 was sent by the controller: its answer is not recorded, and a status stands for it (line 2, 2 times)
END

takes "linux: two controllers, and lost events" events 0 linux-mmc-trace --host mmc1 << 'END'
start 1 cmd_opcode=0 cmd_flags=0xc0
end 1 cmd_opcode=0
CPU:0 [LOST 23 EVENTS]
 a-1 [0] 1.0: mmc_request_done: mmc1: end struct mmc_request[1]: cmd_opcode=0 cmd_err=0 cmd_resp=0x0 0x0 0x0 0x0 stop_opcode=0 stop_err=0 stop_resp=0x0 0x0 0x0 0x0 sbc_opcode=0 sbc_err=0 sbc_resp=0x0 0x0 0x0 0x0 bytes_xfered=0 data_err=0
 a-1 [0] 1.0: mmc_request_start: mmc1: start struct mmc_request[1]: cmd_opcode=0 cmd_arg=0x0 cmd_flags=0xc0 stop_opcode=0 stop_arg=0x0 stop_flags=0x0 sbc_opcode=0 sbc_arg=0x0 sbc_flags=0x0 blocks=0 block_size=0 data_flags=0x0
 a-1 [0] 1.0: mmc_request_done: mmc1: end struct mmc_request[1]: cmd_opcode=0 cmd_err=0 cmd_resp=0x0 0x0 0x0 0x0 stop_opcode=0 stop_err=0 stop_resp=0x0 0x0 0x0 0x0 sbc_opcode=0 sbc_err=0 sbc_resp=0x0 0x0 0x0 0x0 bytes_xfered=0 data_err=0
=
CMD0 00000000 -
=
left out: the controller mmc0 (line 1, 2 times)
the recorder lost events (line 3)
left out: an end of a request whose beginning is missing (line 4)
END

# A malformed line: the trace ends there, and the only message names it.
malformed_event() {
    takes "linux: malformed, $1" events 1 linux-mmc-trace << END
start 1 cmd_opcode=52 cmd_flags=0x195
end 1 cmd_opcode=52
start 1 cmd_opcode=0 cmd_flags=0xc0
end 1 cmd_opcode=0
$2
=
# left out: CMD52 00000000 R1 00000000: no script can name it
CMD0 00000000 -
=
line 5: $1
END
}
malformed_event "no start of a request" " a-1 [0] 1.0: mmc_request_start: mmc0: start struct mmc"
malformed_event "no end of a request" " a-1 [0] 1.0: mmc_request_done:"
malformed_event "no cmd_opcode" " a-1 [0] 1.0: mmc_request_start: mmc0: start struct mmc_request[1]: "
malformed_event "cmd_opcode is no number up to 63: 64" "start 1 cmd_opcode=64"
malformed_event "cmd_opcode is no number up to 63: x" "start 1 cmd_opcode=x"
malformed_event "blocks is no number up to 4294967295: 99999999999999999999" "start 1 blocks=99999999999999999999"
malformed_event "cmd_arg is no hexadecimal number of 32 bits: 0x123456789" "start 1 cmd_arg=0x123456789"
malformed_event "cmd_arg is no hexadecimal number of 32 bits: 12" "start 1 cmd_arg=12"
malformed_event "cmd_err is no number: 1-" "end 1 cmd_err=1-"
malformed_event "cmd_resp is no four words: 0x900 0x0 0x0" "end 1 cmd_resp=0x900,0x0,0x0"
malformed_event "no cmd_flags" " a-1 [0] 1.0: mmc_request_start: mmc0: start struct mmc_request[1]: cmd_opcode=0 cmd_arg=0x0"
takes "linux: malformed, a long phase" events 1 linux-mmc-trace << 'END'
start 1 cmd_opcode=18 cmd_flags=0xb5 blocks=65536 block_size=512 data_flags=0x200
end 1 cmd_opcode=18 cmd_resp=0x900,0x0,0x0,0x0
=
CMD18 00000000 R1 00000900
=
line 2: a data phase of 65536
END

# SIGROK. The three captures are what sigrok-cli 0.7.2 and the decoder of libsigrokdecode 0.5.3 print for signals that were made
# up: 1 MHz, and four samples a clock.

takes "sigrok: nothing" as_it_is 1 sigrok-sdcard << 'END'
=
=
no bit of sdcard_sd found, as in `130-134 sdcard_sd-1: 0`
END

takes "sigrok: another decoder alone" as_it_is 1 sigrok-sdcard << 'END'
130-134 spi-1: 0
=
=
no bit of sdcard_sd found, as in `130-134 sdcard_sd-1: 0`
END

takes "sigrok: no whole command" bits 1 sigrok-sdcard << 'END'
130 4 010000000000000000000000000000000000000010010111
=
# left out: a command: a wrong CRC or end bit
=
left out: a command with a wrong CRC or end bit (line 48)
no command with a right CRC found among the bits
END

# The decoder is out of step from CMD5 on, which is not answered, and cuts the answer to CMD2 in pieces.
takes "sigrok: an SD card" bits 0 sigrok-sdcard << 'END'
130 4 010000000000000000000000000000000000000010010101
374 4 010010000000000000000000000000011010101010000111
586 4 000010000000000000000000000000011010101000010011
810 4 010001010000000000000000000000000000000001011011
1302 4 011101110000000000000000000000000000000001100101
1514 4 001101110000000001000000000000010010000001001111
1738 4 011010010000000000000000000000000000000011100101
1950 4 001111110000000011111111100000000000000011111111
2174 4 011101110000000000000000000000000000000001100101
2386 4 001101110000000000000000000000010010000010000011
2610 4 011010010101000111111111100000000000000001110001
2822 4 001111111100000011111111100000000000000011111111
3046 4 010000100000000000000000000000000000000001001101
3258 4 001111111010101001011000010110010101000101000101
3458 4 001101010101010010000100000001110111101010110110
3670 4 011101111000000000110001000011001111111110100001
3866 4 000000000000000000000000000000000010000111111000000110001001000110100000001010000000000100001111
4270 4 010010010001001000110100000000000000000001110101
4482 4 001111110100000000001110000000000011001001011011
4682 4 011001000000000000000000011111111111110111111110000000000010100100000000000000110000111111111101
5070 4 001110001001000110100000000000000000001011001111
5270 4 000001110000000000000000000001110000000001110101
5494 4 011101110001001000110100000000000000000010111111
5706 4 001101110000000000000000000010010010000000110011
5930 4 011100110000000000000000000000000000000011000111
6142 4 001100110000000000000000000010010010000010010001
6366 4 011101110001001000110100000000000000000010111111
6578 4 001101110000000000000000000010010010000000110011
6802 4 010001100000000000000000000000000000001011001011
7014 4 000001100000000000000000000010010010000010111001
7238 4 010100000000000000000000000000100000000000010101
7730 4 010100000000000000000000000000100000000000010101
7942 4 000100000000000000000000000010010000000000001011
8166 4 010100010000000000000000000000000000100011000101
8378 4 000100010000000000000000000010010000000001100111
8602 4 010100100000000000000000000000000000100001110001
8814 4 000100100000000000000000000010010000000011010011
9038 4 010011000000000000000000000000000000000001100001
9250 4 000011000000000000000000000010110000000001111111
9474 4 010110000000000000000000000000000000100011111111
9686 4 000110000000000000000000000010010000000001011101
9910 4 010011010001001000110100000000000000000011010111
10122 4 000011010000000000000000000010010000000000111111
10346 4 010110010000000000000000000000000000100010010011
10558 4 000110010000000000000000000010010000000000110001
10782 4 010011000000000000000000000000000000000001100001
10994 4 000011000000000000000000000011010000000000001011
11218 4 010011010001001000110100000000000000000011010111
11430 4 000011010000000000000000000011100000000001011101
11654 4 010011010001001000110100000000000000000011010111
11866 4 000011010000000000000000000010010000000000111111
12090 4 011111110000000000000000000000000000010101101001
12302 4 001111110000000000000000000010010000000000000001
12526 4 010101110000000000000000000000000000100010111111
12738 4 000101110000000000000000000010010000000000011101
12962 4 010001110000000000000000000000000000000010000011
=
CMD0 00000000 -
CMD8 000001aa R7 000001aa
# left out: CMD5 00000000 timeout: no script can name it
# left out: CMD55 00000000 R1 00400120: before an inquiry
# left out: CMD41 00000000 R3 00ff8000: an inquiry
CMD55 00000000 R1 00000120
# changed: CMD41 51ff8000 R3 c0ff8000: another voltage window
CMD41 40ff8000 R3 c0ff8000
CMD2 00000000 R2 aa585951454d552101deadbeef0062
CMD3 00000000 R6 12340500
CMD9 12340000 R2 400e00325b5900001fff7f800a4000
CMD7 12340000 R1 00000700
CMD55 12340000 R1 00000920
CMD51 00000000 R1 00000920
REG 8 ok
CMD55 12340000 R1 00000920
CMD6 00000002 R1 00000920
LINES 4
CMD16 00000200 timeout
CMD16 00000200 R1 00000900
CMD17 00000008 R1 00000900
IN 1 ok
CMD18 00000008 R1 00000900
IN 1 ok
CMD12 00000000 R1 00000b00
CMD24 00000008 R1 00000900
OUT 1 ok
CMD13 12340000 R1 00000900
CMD25 00000008 R1 00000900
OUT 1 ok
CMD12 00000000 R1 00000d00
CMD13 12340000 R1 00000e00
CMD13 12340000 R1 00000900
# left out: CMD63 00000005 R1 00000900: no script can name it
# left out: CMD23 00000008 R1 00000900: no script can name it
CMD7 00000000 -
=
left out: CMD5 (line 240)
left out: CMD55 and CMD41 00000000, an inquiry (line 384)
CMD41 51ff8000 stands as CMD41 40ff8000 (line 576)
put in: REG 8 ok, because a later command shows the phase (line 1440)
put in: IN 1 ok, because a later command shows the phase (line 1872)
put in: IN 1 ok for any number of blocks, because a later command shows the phase (line 1968)
put in: OUT 1 ok, because a later command shows the phase (line 2160)
put in: OUT 1 ok for any number of blocks, because a later command shows the phase (line 2352)
left out: CMD63 (line 2640)
left out: CMD23 (line 2736)
END

# CMD2 and CMD9 without an answer, wrong CRCs, a wrong index, and a command that no card takes.
takes "sigrok: faults" bits 0 sigrok-sdcard << 'END'
130 4 010000000000000000000000000000000000000010010101
374 4 010000100000000000000000000000000000000001001101
866 4 0100001000000000000000000000000000000000010011011111100111111101010100101100001011001010100010100010101001101010101010010000100000001110
1426 4 010101101101111101110111100000000011000100001110
1654 4 010010010001001000110100000000000000000001110101
2146 4 010011010001001000110100000000000000000011010111
2358 4 000011010000000000000000000010010000000000111111
2582 4 010100010000000000000000000000000000100011000101
2794 4 000100010000000000000000000010010000000001100001
3018 4 010011010001001000110100000000000000000011010111
3230 4 000011010000000000000000000010110000000000010011
3454 4 010011000000000000000000000000000000000001100001
3666 4 000011010000000000000000000010110000000000010011
3890 4 010011010001001000110100000000000000000011010101
4382 4 000011010000000000000000000010010000000000111111
4606 4 010100010000000000000000000000000000100011000101
4818 4 000100010000000000000000000010010000000001100111
5042 4 010011010001001000110100000000000000000011010111
5254 4 000011010000000000000000000010110000000000010011
5478 4 010011000000000000000000000000000000000001100001
=
CMD0 00000000 -
CMD2 00000000 timeout
# changed: CMD2 00000000: its answer was damaged
CMD2 00000000 timeout
CMD9 12340000 timeout
CMD13 12340000 R1 00000900
# changed: CMD17 00000008: its answer was damaged
CMD17 00000008 timeout
CMD13 12340000 R1 00000b00
# changed: CMD12 00000000: its answer was damaged
CMD12 00000000 timeout
# left out: a command: a wrong CRC or end bit
# left out: an answer: no command before it
CMD17 00000008 R1 00000900
CMD13 12340000 R1 00000b00
# left out: CMD12 00000000: no answer was captured
=
CMD2 stands as not answered: its answer was damaged (line 281)
CMD17 stands as not answered: its answer was damaged (line 520)
CMD12 stands as not answered: its answer was damaged (line 712)
left out: a command with a wrong CRC or end bit (line 760)
left out: an answer without a command (line 808)
left out: CMD12 at the end, to which no answer was captured (line 1048)
END

takes "sigrok: an e.MMC device" bits 0 sigrok-sdcard --emmc << 'END'
130 4 010000000000000000000000000000000000000010010101
374 4 010000010000000000000000000000000000000011111001
586 4 001111110100000011111111100000001000000011111111
810 4 010000010100000000100000000000001000000010001111
1022 4 001111111100000011111111100000001000000011111111
1246 4 010000100000000000000000000000000000000001001101
1458 4 0011111110101010010110000101100101010001010001010100110101010101001000010000000111011110101011011011111011101111000000000110001000011001
2034 4 010000110000000000000001000000000000000001111111
2246 4 000000110000000000000000000001010000000011111011
2470 4 010010010000000000000001000000000000000011110001
2682 4 0011111111010000001011110000000100110010000011110101100100000011111111111111111111111111111111111110011110000110010000000000000000001011
3258 4 010001110000000000000001000000000000000011011101
3470 4 000001110000000000000000000001110000000001110101
3694 4 010010000000000000000000000000000000000011000011
3906 4 000010000000000000000000000010010000000011110001
4130 4 010001100000001110110111000000100000000000010111
4342 4 000001100000000000000000000010000000000011001011
4566 4 010011010000000000000001000000000000000001010011
4778 4 000011010000000000000000000010010000000000111111
5002 4 010101110000000000000000000000000000100010111111
5214 4 000101110000000000000000000010010000000000011101
5438 4 010100100000000000000000000000000000100001110001
5650 4 000100100000000000000000000010010000000011010011
5874 4 010011010000000000000001000000000000000001010011
6086 4 000011010000000000000000000010010000000000111111
6310 4 010001110000000000000000000000000000000010000011
6802 4 010000000000000000000000000000000000000010010101
=
CMD0 00000000 -
# left out: CMD1 00000000 R3 40ff8080: an inquiry
# changed: CMD1 40200080 R3 c0ff8080: another voltage window
CMD1 40ff8080 R3 c0ff8080
CMD2 00000000 R2 aa585951454d552101deadbeef0062
CMD3 00010000 R1 00000500
CMD9 00010000 R2 d02f01320f5903ffffffffe7864000
CMD7 00010000 R1 00000700
CMD8 00000000 R1 00000900
REG 512 ok
CMD6 03b70200 R1 00000800
CMD13 00010000 R1 00000900
LINES 8
CMD23 00000008 R1 00000900
CMD18 00000008 R1 00000900
IN 1 ok
CMD13 00010000 R1 00000900
CMD7 00000000 -
LINES 1
CMD0 00000000 -
=
left out: CMD1 00000000, an inquiry (line 144)
CMD1 40200080 stands as CMD1 40ff8080 (line 240)
put in: REG 512 ok, because a later command shows the phase (line 992)
put in: IN 1 ok for any number of blocks, because a later command shows the phase (line 1376)
END

takes "sigrok: all annotations, with classes, and another decoder" bits 0 sigrok-sdcard << 'END'
spi-1: 0
0-4 spi-1: 1
130-134 sdcard_sd-1: bits: "0"
134-138 sdcard_sd-1: bits: "1"
138 4 0000000000000000000000000000000000000010010101
130-134 sdcard_sd-1: Start bit
134-138 sdcard_sd-1: field-transmission: "Transmission: host"
130-134 sdcard_sd-2: 0
130-322 sdcard_sd-1: CMD0 (GO_IDLE_STATE): Reset all SD cards
=
CMD0 00000000 -
=
left out: the annotations of sdcard_sd-2 (line 53)
END

takes "sigrok: the end cuts off a frame" bits 0 sigrok-sdcard << 'END'
130 4 010000000000000000000000000000000000000010010101
374 4 0100001000
=
CMD0 00000000 -
=
left out: a frame that the end cuts off (line 58)
END

malformed_bit() {
    takes "sigrok: malformed, $1" bits 1 sigrok-sdcard << END
130 4 010000000000000000000000000000000000000010010101
$2
=
CMD0 00000000 -
=
line 49: $1
END
}
malformed_bit "no annotation of sdcard_sd" "330-334 sdcard_sd: 0"
malformed_bit "no annotation of sdcard_sd" "sdcard_sd-1"
malformed_bit "no bit: 2" "330-334 sdcard_sd-1: 2"
malformed_bit "no sample numbers: call sigrok-cli with --protocol-decoder-samplenum" "sdcard_sd-1: 0"
malformed_bit "no sample numbers: 334-330" "334-330 sdcard_sd-1: 0"
malformed_bit "no sample numbers: 1-9999999999999999" "1-9999999999999999 sdcard_sd-1: 0"
malformed_bit "sample numbers go back from 322 to 300" "300-304 sdcard_sd-1: 0"
takes "sigrok: no single bits" as_it_is 1 sigrok-sdcard << 'END'
sdcard_sd-1: Start bit
sdcard_sd-1: Transmission: host
=
=
line 2: no single bits up to here: call sigrok-cli with -A sdcard_sd=bits
END

# QEMU

takes "qemu: nothing" as_it_is 1 qemu-capture << 'END'
# a host and its card

=
=
no command found
END

takes "qemu: an SD card" as_it_is 0 qemu-capture << 'END'
# a host and its card

CMD52   00000c00 -> no answer  (idle)
CMD0    00000000 -> (none)  (idle)
CMD1    00000000 -> no answer  (idle)
CMD8    000001ff -> 000001ff  (idle)
CMD5    00000000 -> no answer  (idle)
CMD55   00000000 -> 00400120
ACMD41  00000000 -> 00ffff00  (idle)
CMD55   00000000 -> 00000120
ACMD41  40000000 -> 00ffff00  (idle)
CMD55   00000000 -> 00000120
ACMD41  40300000 -> 00ff8000 [injected: not given to the card, answer made up]
CMD55   00000000 -> no answer [injected: not given to the card]
CMD55   00000000 -> 00000120  (idle)
ACMD41  00300000 -> 80ffff00  (idle)
CMD2    00000000 -> R2 00aa585951454d552101deadbeef0062  (ready)
CMD3    00000000 -> RCA:0500  (identification)
CMD9    RCA<<16  -> R2 400e00325b5900001fff7f800a4000c3  (standby)
CMD10   RCA<<16  -> R2 aa585951454d552101deadbeef006219  (standby)
CMD9    RCA<<16  -> R2 00002600325f59e03fffffdfff926000  (standby)
CMD9    RCA<<16  -> R2 002600325f59e03fffffdfff926000d5  (standby)
CMD7    RCA<<16  -> 00000700  (standby)
CMD55   RCA<<16  -> 00000920
ACMD51  00000000 -> 00000920  (transfer)
CMD55   RCA<<16  -> 00000920
ACMD13  00000000 -> 00000920  (transfer)
CMD6    00fffff0 -> 00000900  (transfer)
CMD55   RCA<<16  -> 00000920
ACMD6   00000002 -> 00000920  (transfer)
CMD55   RCA<<16  -> 00000920
ACMD22  00000000 -> 00000920  (transfer)
CMD17   000003e9 -> 00000900  (transfer)
CMD18   000003e9 -> 00000900  (transfer)
CMD12   00000000 -> (none)  (sendingdata) [sent by the controller: auto CMD12]
CMD24   000003e9 -> 00000900  (transfer)
CMD13   RCA<<16  -> no answer [injected: not given to the card]
CMD13   RCA<<16  -> 00000900  (transfer)
CMD25   000003e9 -> 00000900  (transfer)
CMD12   00000000 -> (none)  (receivingdata) [sent by the controller: auto CMD12]
CMD17   000003e9 -> 00200900  (transfer) [injected: bits 00200000 set]
CMD13   RCA<<16  -> 00000b00  (sendingdata)
CMD12   00000000 -> 00000b00  (sendingdata)
CMD24   000003e9 -> 00000900  (transfer)
CMD13   RCA<<16  -> 00000d00  (receivingdata)
CMD7    00000000 -> (none)  (transfer)
CMD7    00000000 -> 00000900  (transfer)
CMD0    00000000 -> (none)  (transfer)
=
# left out: CMD52 00000c00 timeout: no script can name it
CMD0 00000000 -
# left out: CMD1 00000000 timeout: no script can name it
# changed: CMD8 000001ff R7 000001ff: another check pattern
CMD8 000001aa R7 000001aa
# left out: CMD5 00000000 timeout: no script can name it
# left out: CMD55 00000000 R1 00400120: before an inquiry
# left out: CMD41 00000000 R3 00ffff00: an inquiry
# left out: CMD55 00000000 R1 00000120: before an inquiry
# left out: CMD41 40000000 R3 00ffff00: an inquiry
CMD55 00000000 R1 00000120
# changed: CMD41 40300000: [injected: not given to the card, answer made up]
# changed: CMD41 40300000 R3 00ff8000: another voltage window
CMD41 40ff8000 R3 00ff8000
# changed: CMD55 00000000: [injected: not given to the card]
CMD55 00000000 timeout
CMD55 00000000 R1 00000120
# changed: CMD41 00300000 R3 80ffff00: another voltage window
CMD41 00ff8000 R3 80ffff00
CMD2 00000000 R2 aa585951454d552101deadbeef0062
CMD3 00000000 R6 12340500
CMD9 12340000 R2 400e00325b5900001fff7f800a4000
CMD10 12340000 R2 aa585951454d552101deadbeef0062
CMD9 12340000 R2 002600325f59e03fffffdfff926000
CMD9 12340000 R2 002600325f59e03fffffdfff926000
CMD7 12340000 R1 00000700
CMD55 12340000 R1 00000920
CMD51 00000000 R1 00000920
REG 8 ok
CMD55 12340000 R1 00000920
# changed: CMD13 00000000 R1 00000920: bits at which the card does not look
CMD13 12340000 R1 00000920
REG 64 ok
# left out: CMD6 00fffff0 R1 00000900: no script can name it
CMD55 12340000 R1 00000920
CMD6 00000002 R1 00000920
LINES 4
# left out: CMD55 12340000 R1 00000920: before ACMD22
# left out: CMD22 00000000 R1 00000920: no script can name it
CMD17 000003e9 R1 00000900
IN 1 ok
CMD18 000003e9 R1 00000900
IN 1 ok
# changed: CMD12 00000000: its answer is not in the capture, and a status stands for it
CMD12 00000000 R1 00000b00
CMD24 000003e9 R1 00000900
OUT 1 ok
# changed: CMD13 12340000: [injected: not given to the card]
CMD13 12340000 timeout
CMD13 12340000 R1 00000900
CMD25 000003e9 R1 00000900
OUT 1 ok
# changed: CMD12 00000000: its answer is not in the capture, and a status stands for it
CMD12 00000000 R1 00000d00
# changed: CMD17 000003e9: [injected: bits 00200000 set]
CMD17 000003e9 R1 00200900
CMD13 12340000 R1 00000b00
CMD12 00000000 R1 00000b00
CMD24 000003e9 R1 00000900
CMD13 12340000 R1 00000d00
CMD7 00000000 -
# changed: CMD7 00000000 R1 00000900: no card answers it
CMD7 00000000 -
LINES 1
CMD0 00000000 -
=
left out: CMD52 (line 3)
left out: CMD1 (line 5)
CMD8 000001ff stands as CMD8 000001aa (line 6)
left out: CMD5 (line 7)
left out: CMD55 and CMD41 00000000, an inquiry (line 9)
left out: CMD55 and CMD41 40000000, an inquiry (line 11)
CMD41 40300000 stands as CMD41 40ff8000 (line 13)
CMD41 00300000 stands as CMD41 00ff8000 (line 16)
put in: REG 8 ok, because a later command shows the phase (line 26)
CMD13 00000000 stands as CMD13 12340000 (line 27)
put in: REG 64 ok, because a later command shows the phase (line 28)
left out: CMD6 (line 28)
left out: CMD55 and CMD22 (line 32)
put in: IN 1 ok, because a later command shows the phase (line 34)
CMD12 was sent by the controller: its answer is not in the capture, and a status stands for it (line 35, 2 times)
put in: IN 1 ok for any number of blocks, because a later command shows the phase (line 35)
put in: OUT 1 ok, because a later command shows the phase (line 38)
put in: OUT 1 ok for any number of blocks, because a later command shows the phase (line 40)
CMD7 with address 0 stands without an answer (line 47)
END

# A CMD41 after a CMD55 that does not show APP_CMD stays, and so does a plain CMD51. An echo that is no echo stays none.
takes "qemu: commands out of place" as_it_is 0 qemu-capture << 'END'
CMD8    000001ff -> 000001aa  (idle)
CMD8    000001ff -> 000001f0  (idle)
CMD55   00000000 -> 00000100 [injected: not given to the card, answer made up]
ACMD41  40000000 -> no answer  (idle)
ACMD41  00000000 -> no answer  (idle)
CMD55   00000000 -> 00000120  (idle)
CMD1    00000000 -> no answer  (idle)
CMD51   00000000 -> no answer  (transfer)
CMD23   00000008 -> 00000900  (transfer)
CMD18   00000008 -> 00000900  (transfer)
CMD23   00000008 -> 00000900  (transfer)
CMD25   00000008 -> 00000900  (transfer)
CMD12   12340000 -> 00000d00  (receivingdata)
CMD13   12348000 -> 00000900  (transfer)
CMD7    1234ffff -> 00000900  (transfer)
=
# changed: CMD8 000001ff R7 000001aa: another check pattern
CMD8 000001aa R7 000001ff
# changed: CMD8 000001ff R7 000001f0: another check pattern
CMD8 000001aa R7 000001f0
# changed: CMD55 00000000: [injected: not given to the card, answer made up]
CMD55 00000000 R1 00000100
# changed: CMD41 40000000 timeout: another voltage window
CMD41 40ff8000 timeout
# changed: CMD41 00000000 timeout: another voltage window
CMD41 00ff8000 timeout
CMD55 00000000 R1 00000120
# left out: CMD1 00000000 timeout: no script can name it
CMD51 00000000 timeout
# left out: CMD23 00000008 R1 00000900: no script can name it
CMD18 00000008 R1 00000900
IN 1 ok
CMD12 00000000 R1 00000b00
# left out: CMD23 00000008 R1 00000900: no script can name it
CMD25 00000008 R1 00000900
OUT 1 ok
# changed: CMD12 12340000 R1 00000d00: bits at which the card does not look
CMD12 00000000 R1 00000d00
CMD13 12348000 R1 00000900
# changed: CMD7 1234ffff R1 00000900: bits at which the card does not look
CMD7 12340000 R1 00000900
=
CMD8 000001ff stands as CMD8 000001aa (line 1, 2 times)
CMD41 40000000 stands as CMD41 40ff8000 (line 4)
CMD41 00000000 stands as CMD41 00ff8000 (line 5)
left out: CMD1 (line 7)
left out: CMD23 (line 9, 2 times)
CMD12 stands for the end of a transfer by the count of CMD23 (line 11)
put in: IN 1 ok for any number of blocks, because a later command shows the phase (line 11)
put in: OUT 1 ok for any number of blocks, because a later command shows the phase (line 13)
CMD12 12340000 stands as CMD12 00000000 (line 13)
CMD7 1234ffff stands as CMD7 12340000 (line 15)
END

malformed_line() {
    takes "qemu: malformed, $1" as_it_is 1 qemu-capture << END
CMD52   00000c00 -> no answer
CMD0    00000000 -> (none)
$2
=
# left out: CMD52 00000c00 timeout: no script can name it
CMD0 00000000 -
=
line 3: $1
END
}
malformed_line "no command with its argument and answer" "done"
malformed_line "no command with its argument and answer" "CMD0 00000000"
malformed_line "no command with its argument and answer" "CMD100 00000000 -> (none)"
malformed_line "no command has the index 64" "CMD64 00000000 -> (none)"
malformed_line "no answer of CMD17: ??[31m" "$(printf 'CMD17 00000000 -> \303\033[31m')"
malformed_line "no argument of eight hexadecimal digits: 0" "CMD0 0 -> (none)"
malformed_line "no argument of eight hexadecimal digits: RCA" "CMD0 RCA -> (none)"
malformed_line "no answer of CMD17: 00" "CMD17 00000000 -> 00 (transfer)"
malformed_line "no answer of CMD17: RCA:0500" "CMD17 00000000 -> RCA:0500"
malformed_line "no answer of CMD3: RCA:05" "CMD3 00000000 -> RCA:05"
malformed_line "no answer of CMD3: 12340500" "CMD3 00000000 -> 12340500"
malformed_line "no answer of CMD2: 12340500" "CMD2 00000000 -> 12340500"
malformed_line "no answer of CMD17: R2 00" "CMD17 00000000 -> R2 00"
malformed_line "a register has 32 hexadecimal digits: 00" "CMD2 00000000 -> R2 00"
malformed_line "a register of 16 bytes with a wrong CRC: 400e00325b5900001fff7f800a4000c5" \
    "CMD9 RCA<<16 -> R2 400e00325b5900001fff7f800a4000c5 (standby)"
malformed_line "no state: nowhere" "CMD17 00000000 -> 00000900 (nowhere)"
malformed_line "a CMD12 of the controller in data or receive state only" \
    "CMD12 00000000 -> (none) (transfer) [sent by the controller: auto CMD12]"

# WORDS

# refuses CONVERTER WORD..: the usage line and status 2
refuses() {
    status=0
    "$here/$@" < /dev/null > "$work/out" 2> "$work/err" || status=$?
    case $status,$(cat "$work/out"),$(cat "$work/err") in
    2,,usage:\ $1\ *) judge "$*" 0 ;;
    *) judge "$*: status $status" 1 ;;
    esac
}
refuses linux-mmc-trace --sd
refuses linux-mmc-trace --host
refuses linux-mmc-trace --host 'a b'
refuses linux-mmc-trace one two
refuses sigrok-sdcard --busy
refuses sigrok-sdcard one two
refuses qemu-capture --emmc
refuses qemu-capture one two

# no-file: status of the shell, and no trace
for converter in linux-mmc-trace sigrok-sdcard qemu-capture; do
    "$here/$converter" "$work/none" > "$work/out" 2> /dev/null
    [ $? -ne 0 ] && [ ! -s "$work/out" ]
    judge "$converter: no such file" $?
    printf 'a=b' > "$work/a=b"
    (cd "$work" && "$here/$converter" a=b > "$work/out" 2> "$work/err")
    [ ! -s "$work/out" ]
    judge "$converter: a file name with an equals sign" $?
done

# HOSTILE TEXTS: nothing but a status of 0 or 1, and no message but those of the converter

hostile() {
    status=0
    $limit "$here/$2" < "$work/in" > "$work/out" 2> "$work/err" || status=$?
    [ "$status" -le 1 ] && ! grep -v "^$2: " "$work/err" > /dev/null
    judge "$2: $1: status $status" $?
}
for converter in linux-mmc-trace sigrok-sdcard qemu-capture; do
    printf 'CMD0\000 \377\376 00000000 -> (none)\nmmc_request_start: \000\nsdcard_sd-1: \000\n' > "$work/in"
    hostile "bytes that are no text" $converter
    awk 'BEGIN { for (k = 0; k < 200000; k++) printf "mmc_request_done: sdcard_sd-1: CMD0 -> ("; print "" }' > "$work/in"
    hostile "a line of 8 million characters" $converter
done

# CAPTURES

captures=$here/../examples/captures
mkdir "$work/captures"
if sh "$captures/make.sh" "$work/captures"; then
    for file in "$captures"/*.trace "$work/captures"/*.trace; do
        [ -e "$captures/${file##*/}" ] && [ -e "$work/captures/${file##*/}" ] && cmp "$file" "$work/captures/${file##*/}"
        judge "capture ${file##*/}" $?
    done
else
    judge "captures" 1
fi

echo "adapters: $passed passed, $failed failed"
[ "$failed" -eq 0 ]

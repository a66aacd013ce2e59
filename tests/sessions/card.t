A simulated card alone, asked line by line. Each event takes a digit of its schedule.

  $ sd=$EXAMPLES/sd_block.card device=$EXAMPLES/emmc_block.card boot=$EXAMPLES/emmc_boot.card
  $ bytes() { printf "%0$((2 * $2))d\n" 0 | sed "s/00/$1/g"; }
  $ zeros() { head -c $((512 * $1)) /dev/zero; }
  $ threes() { zeros 1 | tr '\0' 3; }
  $ { zeros 3; threes; zeros 1020; } > sd.image; { zeros 255; threes; zeros 1792; } > device.image; { zeros 255; threes; zeros 2304; } > boot.image
  $ sd_up() { printf '%s\n' 'CMD0 00000000 -' 'CMD8 000001aa R7' 'CMD55 00000000 R1' 'CMD41 40ff8000 R3' 'CMD2 00000000 R2' 'CMD3 00000000 R6' 'CMD9 12340000 R2' 'CMD7 12340000 R1' 'CMD16 00000200 R1'; }
  $ device_up() { printf '%s\n' 'CMD0 00000000 -' 'CMD1 40ff8080 R3' 'CMD2 00000000 R2' 'CMD3 00010000 R1' 'CMD9 00010000 R2' 'CMD7 00010000 R1' 'CMD16 00000200 R1'; }

A line of equal bytes is shown as one byte.

  $ short() { awk '{ byte = substr($0, 1, 2); text = $0; gsub(byte, "", text); print length($0) == 1024 && text == "" ? "512 bytes " byte : $0 }'; }
  $ ask() { printf '%s\n' "$@"; }
  $ beside_sd() { printf "000000000$1" > schedule; cp sd.image image; { sd_up; cat; } | sdv card $sd image schedule | tail -n +10 | short; }
  $ beside() { printf "0000000$2" > schedule; cp $1.image image; { device_up; cat; } | sdv card $EXAMPLES/emmc_$1.card image schedule | tail -n +8 | short; }
  $ cp device.image block.image

A card of version 1, which has no CMD8, and 4 blocks.

  $ printf 'card sd\nversion 1\nunit byte\ncsize 0\ncmult 0\nrbl 9\nrca 1\n' > small; { zeros 3; threes; } > image
  $ { sd_up | sed 's/1234/0001/'; ask 'CMD17 00000600 R1' 'IN 1 lines 1'; } | sdv card small image | short
  -
  timeout
  R1 00000120
  R3 80ff8000
  R2 005858534456202010000000010181
  R6 00010500
  R2 000000000009000000000000000000
  R1 00000700
  R1 00000900
  R1 00000900
  ok
  512 bytes 33

A card with block addresses that took no CMD8 is not ready, nor one whose host cannot work with them; CMD0 forgets the CMD8.

  $ ask 'CMD0 00000000 -' 'CMD55 00000000 R1' 'CMD41 40ff8000 R3' 'CMD8 000001aa R7' 'CMD55 00000000 R1' 'CMD41 00ff8000 R3' 'CMD0 00000000 -' 'CMD55 00000000 R1' 'CMD41 40ff8000 R3' | sdv card $sd new:1024
  -
  R1 00000120
  R3 00ff8000
  R7 000001aa
  R1 00000120
  R3 00ff8000
  -
  R1 00000120
  R3 00ff8000

A command that is lost, or is refused, leaves the card as it was: it takes the same command then. CMD2, CMD3 and CMD7 are the fifth, the
sixth and the eighth event.

  $ again() { printf "$2" > schedule; sd_up | sed "$1p" | head -n $(($1 + 1)) | sdv card $sd new:1024 schedule | tail -n 2; }
  $ again 5 00001; again 6 000001; again 6 000005; again 8 00000001; again 8 00000005
  timeout
  R2 005858534456202010000000010181
  timeout
  R6 12340500
  R6 12342500
  R6 12340500
  timeout
  R1 00000700
  R1 00080700
  R1 00000700

Two blocks written and read by commands for several blocks, and no block beside them.

  $ { ask 'CMD25 00000003 R1' 'OUT 2 lines 1'; bytes 11 512; bytes 22 512; ask 'CMD12 00000000 R1' WAIT 'CMD13 12340000 R1' 'CMD18 00000003 R1' 'IN 2 lines 1' 'CMD12 00000000 R1' 'CMD13 12340000 R1' \
  >     'CMD17 00000002 R1' 'IN 1 lines 1' 'CMD17 00000005 R1' 'IN 1 lines 1'; } | beside_sd
  R1 00000900
  ok
  R1 00000d00
  ok
  R1 00000900
  R1 00000900
  ok
  512 bytes 11
  512 bytes 22
  R1 00000b00
  R1 00000900
  R1 00000900
  ok
  512 bytes 00
  R1 00000900
  ok
  512 bytes 00

An erase of blocks 3 and 4, of 2 and 3, one that names its last block first, and one of block 4 alone: what block 3 has then.

  $ for ends in '3 4' '2 3' '4 3' '4 4'; do
  >     ask "CMD32 0000000${ends% *} R1" "CMD33 0000000${ends#* } R1" 'CMD38 00000000 R1' WAIT 'CMD17 00000003 R1' 'IN 1 lines 1' | beside_sd | paste -s -d , -
  > done
  R1 00000900,R1 00000900,R1 00000900,ok,R1 00000900,ok,512 bytes 00
  R1 00000900,R1 00000900,R1 00000900,ok,R1 00000900,ok,512 bytes 00
  R1 00000900,R1 00000900,R1 00000900,ok,R1 00000900,ok,512 bytes 33
  R1 00000900,R1 00000900,R1 00000900,ok,R1 00000900,ok,512 bytes 33

A write that the schedule cuts stores nothing, and CMD12 ends it. A slow card stays busy.

  $ { ask 'CMD24 00000003 R1' 'OUT 1 lines 1'; bytes 11 512; ask 'CMD13 12340000 R1' 'CMD12 00000000 R1' WAIT 'CMD17 00000003 R1' 'IN 1 lines 1'; } | beside_sd 06
  R1 00000900
  cut
  R1 00000d00
  R1 00000d00
  ok
  R1 00000900
  ok
  512 bytes 33
  $ { ask 'CMD24 00000003 R1' 'OUT 1 lines 1'; bytes 11 512; ask WAIT 'CMD13 12340000 R1' 'CMD13 12340000 R1' 'CMD17 00000003 R1' 'IN 1 lines 1'; } | beside_sd 00330
  R1 00000900
  ok
  late
  R1 00000e00
  R1 00000900
  R1 00000900
  ok
  512 bytes 11

Events that are not legal or not in bounds: nothing comes of them, and each uses up a digit of the schedule.

  $ { ask 'IN 1 lines 1' 'OUT 1 lines 1'; bytes 33 512; ask 'REG 8 lines 1' 'CMD17 00000400 R1' 'CMD2 00000000 R2' 'CMD63 00000000 -' 'CMD18 000003ff R1' 'IN 2 lines 1' 'CMD13 12340000 R1' 'IN 0 lines 1' 'IN 1 lines 1'; } | beside_sd 6543210
  cut
  cut
  cut
  timeout
  timeout
  -
  R1 00000900
  cut
  R1 00000b00
  cut
  ok
  512 bytes 00

ACMD6 is answered with the application flag, and a phase over other data lines is cut.

  $ ask 'CMD55 12340000 R1' 'CMD6 00000002 R1' 'CMD17 00000003 R1' 'IN 1 lines 1' 'IN 1 lines 4' | beside_sd
  R1 00000920
  R1 00000920
  R1 00000900
  cut
  ok
  512 bytes 33

A device's EXT_CSD: from byte 212 on the number of blocks, and zeros before. With boot partitions and eight lines it has the partition in
access, the width and BOOT_SIZE_MULT, in bytes 179, 183 and 226.

  $ ask 'CMD8 00000000 R1' 'REG 512 lines 1' | beside block > register; head -n 2 register; tail -n 1 register | cut -c 1-424 | tr -d 0 | wc -c; tail -n 1 register | cut -c 425-432
  R1 00000900
  ok
  1
  00080000
  $ ask 'CMD6 03b70200 R1' WAIT 'CMD13 00010000 R1' 'CMD6 03b30200 R1' WAIT 'CMD13 00010000 R1' 'CMD8 00000000 R1' 'REG 512 lines 4' 'REG 512 lines 8' | beside boot > register
  $ head -n 9 register; for at in 179 183 212 226; do tail -n 1 register | cut -c $((2 * at + 1))-$((2 * at + 8)); done
  R1 00000900
  ok
  R1 00000900
  R1 00000900
  ok
  R1 00000900
  R1 00000900
  cut
  ok
  02000000
  02000000
  00080000
  01000000

A block written to a boot partition stands in it, in its place in the image, and nowhere else.

  $ { ask 'CMD17 000000ff R1' 'IN 1 lines 1' 'CMD6 03b30100 R1' WAIT 'CMD13 00010000 R1' 'CMD17 000000ff R1' 'IN 1 lines 1' 'CMD24 000000ff R1' 'OUT 1 lines 1'; bytes 11 512; ask WAIT 'CMD17 000000ff R1' 'IN 1 lines 1' \
  >     'CMD17 00000100 R1' 'CMD6 03b30200 R1' WAIT 'CMD13 00010000 R1' 'CMD17 000000ff R1' 'IN 1 lines 1' 'CMD6 03b30000 R1' WAIT 'CMD13 00010000 R1' 'CMD17 000000ff R1' 'IN 1 lines 1'; } | beside boot
  R1 00000900
  ok
  512 bytes 33
  R1 00000900
  ok
  R1 00000900
  R1 00000900
  ok
  512 bytes 00
  R1 00000900
  ok
  ok
  R1 00000900
  ok
  512 bytes 11
  timeout
  R1 00000900
  ok
  R1 00000900
  R1 00000900
  ok
  512 bytes 00
  R1 00000900
  ok
  R1 00000900
  R1 00000900
  ok
  512 bytes 33
  $ { zeros 255; threes; zeros 2047; zeros 1 | tr '\0' '\21'; zeros 256; } | cmp - image

An erase reaches the partition in access alone.

  $ ask 'CMD6 03b30100 R1' WAIT 'CMD13 00010000 R1' 'CMD35 00000000 R1' 'CMD36 000000ff R1' 'CMD38 00000000 R1' WAIT 'CMD6 03b30000 R1' WAIT 'CMD13 00010000 R1' 'CMD17 000000ff R1' 'IN 1 lines 1' | beside boot | tail -n 3
  R1 00000900
  ok
  512 bytes 33

A switch that fails changes nothing, and the first answered CMD13 alone tells it; so does access to a boot partition that has no blocks.

  $ ask 'CMD6 03b70200 R1' WAIT 'CMD13 00010000 R1' 'CMD13 00010000 R1' 'CMD17 000000ff R1' 'IN 1 lines 1' | beside boot 7
  R1 00000900
  ok
  R1 00000980
  R1 00000900
  R1 00000900
  ok
  512 bytes 33
  $ ask 'CMD6 03b30100 R1' WAIT 'CMD13 00010000 R1' 'CMD6 03b30000 R1' WAIT 'CMD13 00010000 R1' 'CMD17 000000ff R1' 'IN 1 lines 1' | beside block
  R1 00000900
  ok
  R1 00000980
  R1 00000900
  ok
  R1 00000900
  R1 00000900
  ok
  512 bytes 33

A digit that is none is told before an image that does not fit.

  $ printf 08 > schedule; sdv card small new:3 schedule < /dev/null
  card fault Description
  [1]
  $ sdv card small new:3 < /dev/null; sdv card small new:5 < /dev/null
  card fault ImageLength
  card fault ImageLength
  [1]
  $ printf 06 > schedule; sdv card small new:4 schedule < /dev/null; printf 07 > schedule; sdv card small new:4 schedule < /dev/null; sdv card $boot new:2560 schedule < /dev/null; sdv card $boot new:2048 schedule < /dev/null
  card fault ImageLength
  [1]

A bring-up beside a card of 1,024 blocks.

  $ up=$EXAMPLES/sd_bring_up.sdv cert=$EXAMPLES/sd_bring_up.cert card=$EXAMPLES/sd_block.card
  $ sdv run $up $cert $card new:1024
  CMD0 00000000 -
  CMD8 000001aa R7 000001aa
  CMD55 00000000 R1 00000120
  CMD41 40ff8000 R3 c0ff8000
  CMD2 00000000 R2 005858534456202010000000010181
  CMD3 00000000 R6 12340500
  CMD9 12340000 R2 400000000009000000000000000000
  CMD7 12340000 R1 00000700
  CMD16 00000200 R1 00000900
  done
  $ sdv run $up $cert $card new:0x400 | tail -n 1
  done

The fifth event's answer is lost.

  $ printf '0 0\r\n02' > schedule; sdv run $up $cert $card new:1024 schedule
  CMD0 00000000 -
  CMD8 000001aa R7 000001aa
  CMD55 00000000 R1 00000120
  CMD41 40ff8000 timeout
  fault lost41
  [1]
  $ printf '00\t' > schedule; sdv run $up $cert $card new:1023 schedule
  card fault Description
  [1]

Cards and images that do not fit.

  $ sdv run $up $cert $card new:1023
  card fault ImageLength
  [1]
  $ printf 'card sd\n' | sdv run $up $cert - new:1024
  card fault Description
  [1]
  $ printf 'card emmc\nunit byte\ncsize 4095\ncmult 7\nrbl 11\n' | sdv run $up $cert - new:1024
  card fault Capacity
  [1]
  $ sdv run $up $cert $card new:
  cannot use new:
  [2]
  $ sdv run $up $cert $card new:1024 --out -
  cannot use -
  [2]

A device of the other kind does not answer the script.

  $ sdv run $up $cert $EXAMPLES/emmc_block.card new:2048
  CMD0 00000000 -
  CMD8 000001aa timeout
  CMD55 00000000 timeout
  fault lost55
  [1]

An e.MMC device.

  $ sdv certify $EXAMPLES/emmc_bring_up.sdv > device.cert; sdv run $EXAMPLES/emmc_bring_up.sdv device.cert $EXAMPLES/emmc_block.card new:2048
  CMD0 00000000 -
  CMD1 40ff8080 R3 c0ff8080
  CMD2 00000000 R2 000158534456455249100000000117
  CMD3 00010000 R1 00000500
  CMD9 00010000 R2 00000000000903ffc0038000000000
  CMD7 00010000 R1 00000700
  CMD16 00000200 R1 00000900
  CMD8 00000000 R1 00000900
  REG 512 ok
  done

The last block of a card with byte addresses; and of a boot partition, whose blocks stand behind those of the user area.

  $ { sed '/^nums/s/$/ x/; /^done$/d' $up; echo 'let x = cap - 1 send 17 at by hc x { clean { recv { ok { } else { fault rd } } } else { fault rd } } done'; } > last.sdv
  $ sdv certify last.sdv > last.cert; { head -c 7680 /dev/zero; head -c 512 /dev/zero | tr '\0' Z; } > last.img
  $ sdv run last.sdv last.cert $EXAMPLES/sd_byte.card last.img --out read; tail -c 512 last.img | cmp - read
  CMD0 00000000 -
  CMD8 000001aa timeout
  CMD55 00000000 R1 00000120
  CMD41 40ff8000 R3 80ff8000
  CMD2 00000000 R2 005858534456202010000000010181
  CMD3 00000000 R6 00010500
  CMD9 00010000 R2 0000000000090000c0000000000000
  CMD7 00010000 R1 00000700
  CMD16 00000200 R1 00000900
  CMD17 00001e00 R1 00000900
  IN 1 ok
  done
  $ sdv certify $EXAMPLES/emmc_boot_read.sdv > boot.cert; { head -c 1179136 /dev/zero; head -c 512 /dev/zero | tr '\0' Z; head -c 131072 /dev/zero; } > boot.img
  $ sdv run $EXAMPLES/emmc_boot_read.sdv boot.cert $EXAMPLES/emmc_boot.card boot.img --out read | tail -n 7; tail -c 512 last.img | cmp - read
  REG 512 ok
  CMD6 03b30100 R1 00000900
  WAIT ok
  CMD13 00010000 R1 00000900
  CMD17 000000ff R1 00000900
  IN 1 ok
  done

A number that leaves its range.

  $ printf 'card sd\nnums x\nlet x = 1099511627776\nlet x = x + 1\nsend 17 at block x { else { fault stop } }\nfault stop\n' > over.sdv
  $ sdv certify over.sdv > over.cert; sdv run over.sdv over.cert $card new:1024
  fault number
  [1]

A device that goes to eight data lines, and one that fails to.

  $ sdv certify $EXAMPLES/emmc_eight_lines.sdv > lines.cert
  $ sdv run $EXAMPLES/emmc_eight_lines.sdv lines.cert $EXAMPLES/emmc_block.card new:2048 | tail -n 6
  CMD6 03b70200 R1 00000900
  WAIT ok
  CMD13 00010000 R1 00000900
  CMD8 00000000 R1 00000900
  REG 512 ok
  done
  $ printf 0000000007 | sdv run $EXAMPLES/emmc_eight_lines.sdv lines.cert $EXAMPLES/emmc_block.card new:2048 - | tail -n 4
  CMD6 03b70200 R1 00000900
  WAIT ok
  CMD13 00010000 R1 00000980
  fault sw

The longest script.

  $ { echo 'card sd flags f'; yes 'set f' | head -n 4094; echo 'send 0 { else { } } fault stop'; } > long.sdv
  $ sdv certify long.sdv > long.cert; sdv check long.sdv long.cert; sdv run long.sdv long.cert $card new:1024
  accepted 1
  CMD0 00000000 -
  fault stop
  [1]

An output that is one of the other files, by its name or by links, loses nothing.

  $ cp $up up.sdv; cp $cert up.cert; cp $card up.card; head -c 524288 /dev/zero > up.img; echo 000 > up.schedule; head -c 512 /dev/zero > up.in
  $ ln -s up.sdv link; ln up.cert hard
  $ for out in up.sdv ./up.cert up.card up.img up.schedule up.in link hard; do
  >     sdv run up.sdv up.cert up.card up.img up.schedule --in up.in --out $out; echo $?
  > done
  cannot use up.sdv
  2
  cannot use ./up.cert
  2
  cannot use up.card
  2
  cannot use up.img
  2
  cannot use up.schedule
  2
  cannot use up.in
  2
  cannot use link
  2
  cannot use hard
  2
  $ cmp up.sdv $up && cmp up.cert $cert && cmp up.card $card && wc -c < up.img && cat up.schedule && wc -c < up.in
  524288
  000
  512
  $ sdv run missing.sdv up.cert up.card up.img --out up.cert
  cannot use up.cert
  [2]

So is one that standard input comes from.

  $ sdv run - up.cert up.card up.img --out up.sdv < up.sdv; sdv run up.sdv - up.card up.img --out up.cert < up.cert
  cannot use up.sdv
  cannot use up.cert
  [2]
  $ sdv run up.sdv up.cert - up.img --out ./up.card < up.card; sdv run up.sdv up.cert up.card up.img --in - --out up.in < up.in
  cannot use ./up.card
  cannot use up.in
  [2]
  $ cmp up.sdv $up && cmp up.cert $cert && cmp up.card $card && wc -c < up.in
  512
  $ sdv run up.sdv up.cert up.card new:1024 --out new:1024 | tail -n 1; wc -c < new:1024
  done
  0
  $ sdv run up.sdv up.cert up.card new:1024 --in /dev/null --out /dev/null | tail -n 1
  done

The registers that came, as `sdv audit --script` takes them: of an e.MMC device its EXT_CSD, of an SD card SCR and SD status.

  $ device=$EXAMPLES/emmc_bring_up.sdv; sed 's/^done$/if cap >= 4096 { done } else { fault small }/' $device > large.sdv; sdv certify large.sdv > large.cert
  $ sdv run large.sdv large.cert $EXAMPLES/emmc_block.card new:2048 --registers r > large.trace
  [1]
  $ wc -c < r; od -An -v -tx1 -j 212 -N 4 r; sdv audit emmc large.trace --script large.sdv | tail -n 1
  512
   00 08 00 00
  trace fault Script line 10
  line 10, script line 13: the end: the script does not come here; it stands at done
  $ sdv audit emmc large.trace --script large.sdv --registers r | tail -n 2
  line 10, script line 13: fault small: the run ends
  10 lines, 0 reckless, 0 that no card answers, 0 of another length, 0 beyond the capacity, 0 outside, 0 not followed, 0 left out
  $ { sed '/^done$/d' $up; for index in 51 13; do
  >     echo "send 55 { app & state=tran { send $index { clean { recv reg { ok { } else { fault lost } } } else { fault no } } } else { fault no } }"
  > done; echo done; } > both.sdv; sdv certify both.sdv > both.cert
  $ sdv run both.sdv both.cert $card new:1024 --registers r | tail -n 7; od -An -v -tx1 r
  CMD55 12340000 R1 00000920
  CMD51 00000000 R1 00000920
  REG 8 ok
  CMD55 12340000 R1 00000920
  CMD13 12340000 R1 00000920
  REG 64 ok
  done
   02 05 00 00 00 00 00 00 00 00 00 00 00 00 00 00
   00 00 00 00 00 00 00 00 00 00 00 00 00 00 00 00
   00 00 00 00 00 00 00 00 00 00 00 00 00 00 00 00
   00 00 00 00 00 00 00 00 00 00 00 00 00 00 00 00
   00 00 00 00 00 00 00 00
  $ sdv run both.sdv both.cert $card new:1024 --registers r > both.trace; sdv audit sd both.trace --script both.sdv --registers r | tail -n 8
  line 10, script line 14: CMD55 12340000 R1 00000920: tran, ready, APP_CMD
  line 11, script line 14: ACMD51 00000000 R1 00000920: tran, ready, APP_CMD
  line 12, script line 14: REG 8 ok: SCR 0205000000000000
  line 13, script line 15: CMD55 12340000 R1 00000920: tran, ready, APP_CMD
  line 14, script line 15: ACMD13 12340000 R1 00000920: tran, ready, APP_CMD
  line 15, script line 15: REG 64 ok: SD status 00000000000000000000000000000000000000000000000000000000000000000000000000000000000000000000000000000000000000000000000000000000
  line 16, script line 16: done: the run ends
  16 lines, 0 reckless, 0 that no card answers, 0 of another length, 0 beyond the capacity, 0 outside, 0 not followed, 0 left out

Where the second is cut, it is not there; of a script that reads none the file is empty.

  $ printf '000000000000006' > schedule; sdv run both.sdv both.cert $card new:1024 schedule --registers r | tail -n 3; wc -c < r
  CMD13 12340000 R1 00000920
  REG 64 cut
  fault lost
  8
  $ sdv run $up $cert $card new:1024 --registers r | tail -n 1; wc -c < r
  done
  0

A file of the registers that is one of the other files, by its name or by links, loses nothing.

  $ for file in up.sdv ./up.cert up.card up.img up.schedule up.in link hard; do
  >     sdv run up.sdv up.cert up.card up.img up.schedule --in up.in --registers $file; echo $?
  > done
  cannot use up.sdv
  2
  cannot use ./up.cert
  2
  cannot use up.card
  2
  cannot use up.img
  2
  cannot use up.schedule
  2
  cannot use up.in
  2
  cannot use link
  2
  cannot use hard
  2
  $ cmp up.sdv $up && cmp up.cert $cert && cmp up.card $card && wc -c < up.img && cat up.schedule && wc -c < up.in
  524288
  000
  512
  $ sdv run up.sdv up.cert up.card up.img --out o --registers o; sdv run missing.sdv up.cert up.card up.img --registers up.cert
  cannot use o
  cannot use up.cert
  [2]
  $ mkdir -p under; for file in ./o under/../o $PWD/o; do sdv run up.sdv up.cert up.card up.img --out o --registers $file; done 2>&1 | sed "s|$PWD|HERE|"; [ -e o ] || echo no output
  cannot use ./o
  cannot use under/../o
  cannot use HERE/o
  no output
  $ sdv run up.sdv up.cert up.card up.img --out o --registers under/o | tail -n 1; sdv run up.sdv up.cert up.card up.img --out a --registers b | tail -n 1
  done
  done

One that cannot be used, and one that takes nothing: then the run took place.

  $ sdv run $up $cert $card new:1024 --registers none/r
  cannot use none/r
  [2]
  $ sdv run $up $cert $card new:1024 --registers -
  cannot use -
  [2]
  $ sdv run both.sdv both.cert $card new:1024 --registers /dev/full | tail -n 2
  cannot use /dev/full
  REG 64 ok
  done
  $ sdv run both.sdv both.cert $card new:1024 --registers /dev/full > both.full; echo $?; cmp both.full both.trace
  cannot use /dev/full
  2

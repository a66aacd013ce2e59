Runs that lose data, below the warnings of accepted scripts. Each script begins with a bring-up of an example.

  $ up() { sed '/^done/d; s/^nums cap/nums cap b/' $EXAMPLES/$1_bring_up.sdv; echo 'if cap >= 16 { let b = 8 } else { fault small }'; cat; }
  $ wait='loop 9 { wait { ok { break } else { } } } else { fault busy }'
  $ back='loop 9 { send 13 { state=rcv { send 12 { else { } } } ready & state=tran { break } else { } } } else { fault stuck }'

A write whose command is stepped over, and one of two blocks whose end is. The run is kept where a folder is named, and sdv try
repeats it: it ends in done, and the image has no block. Without the mishap it has both.

  $ for kind in sd emmc; do
  >   { echo "send 24 at by hc b { clean { give { ok { $wait } else { } } } else { } }"; echo "$back"; echo done; } | up $kind > $kind.sdv
  >   { echo "send 25 at by hc 8 count 2 { clean { give { ok { } else { } } } else { fault lost } }"; echo "$back"; echo done; } | up $kind > $kind-two.sdv
  > done; mkdir runs
  $ sdv verify --save runs sd.sdv sd-two.sdv emmc.sdv emmc-two.sdv
  sd.sdv:17:1: warning: done may come where the write of line 15 was lost or cut, or its error passed over [write]
      hint     end the run in a fault, or do it again, where it is lost, cut or answered with an error
      card     an SD card with block addresses, of 1024 blocks
      mishap   line 15: CMD24 is lost
      done     block 8 is as before the run: the write of line 15 gave it nothing
      again    sdv try sd.sdv runs/1.card new:1024 runs/1.schedule
  sd.sdv: accepted, at most 2026 commands, gives at most 1 block (1 warning)
  sd-two.sdv:4:10: note: b is never read [unread]
  sd-two.sdv:17:1: warning: done may come where the write of line 15 was lost or cut, or its error passed over [write]
      hint     end the run in a fault, or do it again, where it is lost, cut or answered with an error
      card     an SD card with block addresses, of 1024 blocks
      mishap   line 15: the phase of 2 blocks to the card is cut
      done     block 8 is not the one that the write of line 15 gave
      again    sdv try sd-two.sdv runs/2.card new:1024 runs/2.schedule --in runs/2.in
  sd-two.sdv: accepted, at most 2026 commands, gives at most 2 blocks (1 warning, 1 note)
  emmc.sdv:16:1: warning: done may come where the write of line 14 was lost or cut, or its error passed over [write]
      hint     end the run in a fault, or do it again, where it is lost, cut or answered with an error
      card     an e.MMC device with block addresses, of 1024 blocks
      mishap   line 14: CMD24 is lost
      done     block 8 is as before the run: the write of line 14 gave it nothing
      again    sdv try emmc.sdv runs/3.card new:1536 runs/3.schedule
  emmc.sdv: accepted, at most 1026 commands, gives at most 1 block (1 warning)
  emmc-two.sdv:4:10: note: b is never read [unread]
  emmc-two.sdv:16:1: warning: done may come where the write of line 14 was lost or cut, or its error passed over [write]
      hint     end the run in a fault, or do it again, where it is lost, cut or answered with an error
      card     an e.MMC device with block addresses, of 1024 blocks
      mishap   line 14: the phase of 2 blocks to the card is cut
      done     block 8 is not the one that the write of line 14 gave
      again    sdv try emmc-two.sdv runs/4.card new:1536 runs/4.schedule --in runs/4.in
  emmc-two.sdv: accepted, at most 1026 commands, gives at most 2 blocks (1 warning, 1 note)
  [1]
  $ ls runs
  1.card
  1.schedule
  2.card
  2.in
  2.schedule
  3.card
  3.schedule
  4.card
  4.in
  4.schedule
  $ head -c 524288 /dev/zero > image; cp image zeros
  $ sdv try sd.sdv runs/1.card image runs/1.schedule | tail -n 3; cmp image zeros
  CMD24 00000008 timeout
  CMD13 12340000 R1 00000900
  done
  $ sdv try sd-two.sdv runs/2.card image runs/2.schedule --in runs/2.in | tail -n 3; cmp image zeros
  CMD12 00000000 R1 00000d00
  CMD13 12340000 R1 00000900
  done
  $ sdv try sd-two.sdv runs/2.card image --in runs/2.in | tail -n 1; cmp image zeros; tail -c +4097 image | head -c 1024 | cmp - runs/2.in
  done
  image zeros differ: char 4104, line 1
  $ head -c 8 runs/2.in | od -A n -t x1; tail -c 8 runs/2.in | od -A n -t x1
   00 00 00 00 00 00 00 01
   00 00 00 00 00 00 00 02

None is looked for on request, and none for a kind that is allowed.

  $ sdv verify --no-run sd.sdv; sdv verify --allow write sd.sdv
  sd.sdv:17:1: warning: done may come where the write of line 15 was lost or cut, or its error passed over [write]
      hint     end the run in a fault, or do it again, where it is lost, cut or answered with an error
  sd.sdv: accepted, at most 2026 commands, gives at most 1 block (1 warning)
  sd.sdv: accepted, at most 2026 commands, gives at most 1 block

A write that is tried three times fails three times. One that was made before it came again for the same block is no loss.

  $ { echo 'loop 3 {'; echo "send 24 at by hc 8 { clean { give { ok { $wait send 13 { clean & state=tran { break } else { } } } else { } } } else { } }"
  >   echo "$back"; echo '} else { }'; echo done; } | up sd > three.sdv; sdv verify three.sdv
  three.sdv:4:10: note: b is never read [unread]
  three.sdv:16:30: note: runs may give different numbers of blocks before this one, as where a write is tried again [input-shifts]
  three.sdv:19:1: warning: done may come where the write of line 16 was lost or cut, or its error passed over [write]
      hint     end the run in a fault, or do it again, where it is lost, cut or answered with an error
      card     an SD card with block addresses, of 1024 blocks
      mishap   line 16: CMD24 is lost, 3 times
      done     block 8 is as before the run: the write of line 16 gave it nothing
  three.sdv: accepted, at most 2065 commands, gives at most 3 blocks (1 warning, 2 notes)
  [1]
  $ { echo "send 24 at by hc 8 { clean { give { ok { $wait send 13 { clean & state=tran { } else { fault doubt } } } else { fault cut } } } else { fault lost } }"
  >   echo "send 24 at by hc 8 { clean { give { ok { $wait send 13 { clean & state=tran { } else { fault doubt } } } else { fault cut } } } else { } }"
  >   echo "$back"; echo done; } | up sd > twice.sdv; sdv verify twice.sdv
  twice.sdv:4:10: note: b is never read [unread]
  twice.sdv:18:1: warning: done may come where the write of line 16 was lost or cut, or its error passed over [write]
      hint     end the run in a fault, or do it again, where it is lost, cut or answered with an error
  twice.sdv: accepted, at most 2029 commands, gives at most 2 blocks (1 warning, 1 note)
  [1]

A write that is left for another one, with its own block; and one that a later write of the same block makes good.

  $ { echo "send 24 at by hc 8 { clean { give { ok { $wait } else { } } } else { } }"; echo "$back"
  >   echo "send 24 at by hc 9 { clean { give { ok { $wait send 13 { clean & state=tran { done } else { fault doubt } } } else { fault cut } } } else { fault lost } }"
  >   } | up sd > left.sdv; sdv verify left.sdv | grep -v unreached; sed 's/hc 9/hc 8/' left.sdv | sdv verify - | grep -v unreached
  left.sdv:4:10: note: b is never read [unread]
  left.sdv:17:30: note: runs may give different numbers of blocks before this one, as where a write is tried again [input-shifts]
  left.sdv:17:135: warning: done may come where line 17 left the write of line 15, which may have failed [write]
      card     an SD card with block addresses, of 1024 blocks
      mishap   line 15: CMD24 is lost
      done     block 8 is as before the run: the write of line 15 gave it nothing
  left.sdv: accepted, at most 2027 commands, gives at most 2 blocks (1 warning, 2 notes)
  -:4:10: note: b is never read [unread]
  -:17:30: note: runs may give different numbers of blocks before this one, as where a write is tried again [input-shifts]
  -:17:135: warning: done may come where line 17 left the write of line 15, which may have failed [write]
  -: accepted, at most 2027 commands, gives at most 2 blocks (1 warning, 2 notes)

An erase that is lost, and one that nothing confirms: the simulated card does each erase that it takes.

  $ for kind in sd emmc; do
  >   case $kind in sd) first=32 last=33 erase=38;; *) first=35 last=36 erase='38 0';; esac
  >   echo "send $first at by hc 8 { clean { send $last at by hc 9 { clean { send $erase { clean { $wait } else { } } } else { fault last } } } else { fault first } } $back done" |
  >     up $kind > $kind-erase.sdv
  >   sdv verify --save runs $kind-erase.sdv
  >   sdv try $kind-erase.sdv runs/1.card new:$(sed -n 's/^csize 0/1024/p; s/^sectors.*/1536/p' runs/1.card) runs/1.schedule | tail -n 3
  >   sed 's/} else { } } } else { fault last/} else { fault erase } } } else { fault last/' $kind-erase.sdv | sdv verify -
  > done
  sd-erase.sdv:4:10: note: b is never read [unread]
  sd-erase.sdv:15:232: note: no run comes to CMD12 [unreached]
  sd-erase.sdv:15:318: warning: done may come where the erase of line 15 was lost, or its error passed over [erase]
      hint     end the run in a fault, or do it again, where it is lost, cut or answered with an error
      card     an SD card with block addresses, of 1024 blocks
      mishap   line 15: CMD38 is lost
      done     block 8 is not erased
      again    sdv try sd-erase.sdv runs/1.card new:1024 runs/1.schedule
  sd-erase.sdv: accepted, at most 2028 commands (1 warning, 2 notes)
  CMD38 00000000 timeout
  CMD13 12340000 R1 00000900
  done
  -:4:10: note: b is never read [unread]
  -:15:244: note: no run comes to CMD12 [unreached]
  -:15:330: warning: done may come where the erase of line 15 was lost, or its error passed over [erase]
      hint     end the run in a fault, or do it again, where it is lost, cut or answered with an error
  -: accepted, at most 2028 commands (1 warning, 2 notes)
  emmc-erase.sdv:4:10: note: b is never read [unread]
  emmc-erase.sdv:14:234: note: no run comes to CMD12 [unreached]
  emmc-erase.sdv:14:320: warning: done may come where the erase of line 14 was lost, or its error passed over [erase]
      hint     end the run in a fault, or do it again, where it is lost, cut or answered with an error
      card     an e.MMC device with block addresses, of 1024 blocks
      mishap   line 14: CMD38 is lost
      done     block 8 is not erased
      again    sdv try emmc-erase.sdv runs/1.card new:1536 runs/1.schedule
  emmc-erase.sdv: accepted, at most 1028 commands (1 warning, 2 notes)
  CMD38 00000000 timeout
  CMD13 00010000 R1 00000900
  done
  -:4:10: note: b is never read [unread]
  -:14:246: note: no run comes to CMD12 [unreached]
  -:14:332: warning: done may come where the erase of line 14 was lost, or its error passed over [erase]
      hint     end the run in a fault, or do it again, where it is lost, cut or answered with an error
  -: accepted, at most 1028 commands (1 warning, 2 notes)
  [1]

A block of a boot partition.

  $ { sed '/^done/d' $EXAMPLES/emmc_boot_read.sdv; cat << 'END'; } > boot.sdv
  > send 24 at by hc 1 { clean { give { ok { } else { fault cut } } } else { fault lost } }
  > loop 9 { wait { ok { break } else { } } } else { fault busy }
  > done
  > END
  $ sdv verify boot.sdv | grep -A 3 '\[write\]'
  boot.sdv:24:1: warning: done may come before the write of line 22 is confirmed [write]
      hint     behind the wait, `send 13 { clean & state=tran { .. } else { .. } }` shows that it is stored
      card     an e.MMC device with block addresses, of 1024 blocks
      mishap   line 22: the phase of 1 block to the card stores nothing, and a later status shows the error

Objects of JSON.

  $ sdv verify --json sd.sdv boot.sdv | grep '"kind":"write"'
  {"column":1,"file":"sd.sdv","hint":"end the run in a fault, or do it again, where it is lost, cut or answered with an error","kind":"write","line":17,"point":36,"run":{"block":8,"blocks":1024,"card":"card sd\nversion 2\nunit block\ncsize 0\nrca 4660\n","done":"block 8 is as before the run: the write of line 15 gave it nothing","given":0,"partition":0,"schedule":"0000000001","trace":"CMD0 00000000 -\nCMD8 000001aa R7 000001aa\nCMD55 00000000 R1 00000120\nCMD41 40ff8000 R3 c0ff8000\nCMD2 00000000 R2 005858534456202010000000010181\nCMD3 00000000 R6 12340500\nCMD9 12340000 R2 400000000009000000000000000000\nCMD7 12340000 R1 00000700\nCMD16 00000200 R1 00000900\nCMD24 00000008 timeout\nCMD13 12340000 R1 00000900\ndone\n"},"severity":"warning","text":"done may come where the write of line 15 was lost or cut, or its error passed over"}
  {"column":1,"file":"boot.sdv","hint":"behind the wait, `send 13 { clean & state=tran { .. } else { .. } }` shows that it is stored","kind":"write","line":24,"point":52,"run":{"block":1,"blocks":1536,"card":"card emmc\nunit block\nsectors 1024\nboot 1\n","done":"block 1 of boot partition 1 is not the one that the write of line 22 gave","given":1,"partition":1,"schedule":"event 18: write fails, error shown later\n","trace":"CMD0 00000000 -\nCMD1 40ff8080 R3 c0ff8080\nCMD2 00000000 R2 000158534456455249100000000117\nCMD3 00010000 R1 00000500\nCMD9 00010000 R2 00000000000903ffc0038000000000\nCMD7 00010000 R1 00000700\nCMD16 00000200 R1 00000900\nCMD8 00000000 R1 00000900\nREG 512 ok\nCMD8 00000000 R1 00000900\nREG 512 ok\nCMD6 03b30100 R1 00000900\nWAIT ok\nCMD13 00010000 R1 00000900\nCMD17 000000ff R1 00000900\nIN 1 ok\nCMD24 00000001 R1 00000900\nOUT 1 ok\nWAIT ok\ndone\n"},"severity":"warning","text":"done may come before the write of line 22 is confirmed"}

Each object is one of the schema.

  $ for file in *.sdv $EXAMPLES/*.sdv $EXAMPLES/hosts/*.sdv none.sdv; do sdv verify --json $file; done 2>&1 | grep '^{' | python3 $EXAMPLES/../tests/schema.py $EXAMPLES/../docs/verify.schema.json
  136 of 136 objects fit

What `verify` finds of accepted scripts. Each of these begins with a bring-up of an example.

  $ (cd $EXAMPLES; sdv verify production/sd_write_many.sdv)
  production/sd_write_many.sdv:19:40: note: runs may give different numbers of blocks before this one, as where a write is tried again [input-shifts]
  production/sd_write_many.sdv: accepted, at most 12028 commands, gives at most 24 blocks (1 note)
  $ (cd $EXAMPLES; sdv verify --json production/sd_write_many.sdv)
  {"column":40,"file":"production/sd_write_many.sdv","kind":"input-shifts","line":19,"point":28,"severity":"note","text":"runs may give different numbers of blocks before this one, as where a write is tried again"}
  {"blocks":24,"commands":12028,"errors":0,"file":"production/sd_write_many.sdv","notes":1,"verdict":"accepted","warnings":0}
  $ sdv batch sd "write 3 2 read 3 2" | sdv verify -
  -: accepted, at most 3012 commands, gives at most 2 blocks
  $ sdv batch emmc "write 3 2 read 3 2 write 9 1" | sdv verify -
  -: accepted, at most 2014 commands, gives at most 3 blocks

A write that a clean status in transfer state confirms, one that nothing confirms, and one whose error is passed over.

  $ for kind in sd emmc; do up() { grep -v '^done' $EXAMPLES/${kind}_bring_up.sdv; echo 'if cap >= 16 { } else { fault small }'; cat; }
  >   up << 'END' > confirmed.sdv
  > send 24 at by hc 8 { clean { give { ok { loop 1000 { wait { ok { break } else { } } } else { fault busy }
  >   send 13 { clean & state=tran { done } else { fault write } } } else { fault cut } } } else { fault lost } }
  > fault write
  > END
  >   up << 'END' > open.sdv
  > send 24 at by hc 8 { clean { give { ok { loop 1000 { wait { ok { break } else { } } } else { fault busy }
  >   done } else { fault cut } } } else { fault lost } }
  > fault write
  > END
  >   up << 'END' > doubt.sdv
  > send 24 at by hc 8 { clean { give { ok { loop 1000 { wait { ok { break } else { } } } else { fault busy }
  >   send 13 { state=tran { done } else { fault write } } } else { fault cut } } } else { fault lost } }
  > fault write
  > END
  >   up << 'END' > ready.sdv
  > send 24 at by hc 8 { clean { give { ok { loop 1000 { send 13 { clean & ready { break } else { } } } else { fault busy }
  >   send 13 { state=tran { done } else { fault write } } } else { fault cut } } } else { fault lost } }
  > fault write
  > END
  >   for name in confirmed open doubt ready; do echo $kind $name; sdv verify $name.sdv | grep -v 'no run comes to fault write'; done
  > done
  sd confirmed
  confirmed.sdv: accepted, at most 2009 commands, gives at most 1 block (1 note)
  sd open
  open.sdv:16:3: warning: done may come before the write of line 15 is confirmed [write]
      hint     behind the wait, `send 13 { clean & state=tran { .. } else { .. } }` shows that it is stored
      card     an SD card with block addresses, of 1024 blocks
      mishap   line 15: the phase of 1 block to the card stores nothing, and a later status shows the error
      done     block 8 is not the one that the write of line 15 gave
  open.sdv: accepted, at most 2008 commands, gives at most 1 block (1 warning, 1 note)
  sd doubt
  doubt.sdv:16:26: warning: done may come where the write of line 15 was lost or cut, or its error passed over [write]
      hint     end the run in a fault, or do it again, where it is lost, cut or answered with an error
      card     an SD card with block addresses, of 1024 blocks
      mishap   line 15: the phase of 1 block to the card stores nothing, and a later status shows the error
      done     block 8 is not the one that the write of line 15 gave
  doubt.sdv: accepted, at most 2009 commands, gives at most 1 block (1 warning, 1 note)
  sd ready
  ready.sdv:16:26: warning: done may come where the write of line 15 was lost or cut, or its error passed over [write]
      hint     end the run in a fault, or do it again, where it is lost, cut or answered with an error
      card     an SD card with block addresses, of 1024 blocks
      mishap   line 15: the phase of 1 block to the card stores nothing, and a later status shows the error
      done     block 8 is not the one that the write of line 15 gave
  ready.sdv: accepted, at most 3009 commands, gives at most 1 block (1 warning, 1 note)
  emmc confirmed
  confirmed.sdv: accepted, at most 1009 commands, gives at most 1 block (1 note)
  emmc open
  open.sdv:15:3: warning: done may come before the write of line 14 is confirmed [write]
      hint     behind the wait, `send 13 { clean & state=tran { .. } else { .. } }` shows that it is stored
      card     an e.MMC device with block addresses, of 1024 blocks
      mishap   line 14: the phase of 1 block to the card stores nothing, and a later status shows the error
      done     block 8 is not the one that the write of line 14 gave
  open.sdv: accepted, at most 1008 commands, gives at most 1 block (1 warning, 1 note)
  emmc doubt
  doubt.sdv:15:26: warning: done may come where the write of line 14 was lost or cut, or its error passed over [write]
      hint     end the run in a fault, or do it again, where it is lost, cut or answered with an error
      card     an e.MMC device with block addresses, of 1024 blocks
      mishap   line 14: the phase of 1 block to the card stores nothing, and a later status shows the error
      done     block 8 is not the one that the write of line 14 gave
  doubt.sdv: accepted, at most 1009 commands, gives at most 1 block (1 warning, 1 note)
  emmc ready
  ready.sdv:15:26: warning: done may come where the write of line 14 was lost or cut, or its error passed over [write]
      hint     end the run in a fault, or do it again, where it is lost, cut or answered with an error
      card     an e.MMC device with block addresses, of 1024 blocks
      mishap   line 14: the phase of 1 block to the card stores nothing, and a later status shows the error
      done     block 8 is not the one that the write of line 14 gave
  ready.sdv: accepted, at most 2009 commands, gives at most 1 block (1 warning, 1 note)

A write that was cut, and given up for a done; and one that was left for another place.

  $ for kind in sd emmc; do up() { grep -v '^done' $EXAMPLES/${kind}_bring_up.sdv; echo 'if cap >= 16 { } else { fault small }'; cat; }
  >   up << 'END' > cut.sdv
  > send 24 at by hc 8 { clean { give { ok { } else { } }
  >   loop 1000 { send 13 { state=rcv { send 12 { else { } } } clean & state=tran { done } else { } } } else { fault stuck }
  > } else { fault lost } }
  > END
  >   up << 'END' > other.sdv
  > send 24 at by hc 8 { clean { give { ok { } else { } }
  >   loop 1000 { send 13 { state=rcv { send 12 { else { } } } state=tran { break } else { } } } else { fault stuck }
  > } else { fault lost } }
  > send 24 at by hc 9 { clean { give { ok { loop 1000 { wait { ok { break } else { } } } else { fault busy }
  >   send 13 { clean & state=tran { done } else { fault write } } } else { fault cut } } } else { fault lost } }
  > fault write
  > END
  >   sdv verify cut.sdv; sdv verify --json other.sdv
  > done
  cut.sdv:16:81: warning: done may come where the write of line 15 was lost or cut, or its error passed over [write]
      hint     end the run in a fault, or do it again, where it is lost, cut or answered with an error
      card     an SD card with block addresses, of 1024 blocks
      mishap   line 15: the phase of 1 block to the card is cut
      done     block 8 is not the one that the write of line 15 gave
  cut.sdv: accepted, at most 4008 commands, gives at most 1 block (1 warning)
  {"column":34,"file":"other.sdv","kind":"write","line":19,"point":39,"run":{"block":8,"blocks":1024,"card":"card sd\nversion 2\nunit block\ncsize 0\nrca 4660\n","done":"block 8 is not the one that the write of line 15 gave","given":2,"partition":0,"schedule":"00000000006","trace":"CMD0 00000000 -\nCMD8 000001aa R7 000001aa\nCMD55 00000000 R1 00000120\nCMD41 40ff8000 R3 c0ff8000\nCMD2 00000000 R2 005858534456202010000000010181\nCMD3 00000000 R6 12340500\nCMD9 12340000 R2 400000000009000000000000000000\nCMD7 12340000 R1 00000700\nCMD16 00000200 R1 00000900\nCMD24 00000008 R1 00000900\nOUT 1 cut\nCMD13 12340000 R1 00000d00\nCMD12 00000000 R1 00000d00\nCMD13 12340000 R1 00000900\nCMD24 00000009 R1 00000900\nOUT 1 ok\nWAIT ok\nCMD13 12340000 R1 00000900\ndone\n"},"severity":"warning","text":"done may come where line 18 left the write of line 15, which may have failed"}
  {"column":1,"file":"other.sdv","kind":"unreached","line":20,"point":43,"severity":"note","text":"no run comes to fault write"}
  {"blocks":2,"commands":4009,"errors":0,"file":"other.sdv","notes":1,"verdict":"accepted","warnings":1}
  cut.sdv:15:81: warning: done may come where the write of line 14 was lost or cut, or its error passed over [write]
      hint     end the run in a fault, or do it again, where it is lost, cut or answered with an error
      card     an e.MMC device with block addresses, of 1024 blocks
      mishap   line 14: the phase of 1 block to the card is cut
      done     block 8 is not the one that the write of line 14 gave
  cut.sdv: accepted, at most 3008 commands, gives at most 1 block (1 warning)
  {"column":34,"file":"other.sdv","kind":"write","line":18,"point":42,"run":{"block":8,"blocks":1536,"card":"card emmc\nunit block\nsectors 1024\nboot 1\n","done":"block 8 is not the one that the write of line 14 gave","given":2,"partition":0,"schedule":"00000000006","trace":"CMD0 00000000 -\nCMD1 40ff8080 R3 c0ff8080\nCMD2 00000000 R2 000158534456455249100000000117\nCMD3 00010000 R1 00000500\nCMD9 00010000 R2 00000000000903ffc0038000000000\nCMD7 00010000 R1 00000700\nCMD16 00000200 R1 00000900\nCMD8 00000000 R1 00000900\nREG 512 ok\nCMD24 00000008 R1 00000900\nOUT 1 cut\nCMD13 00010000 R1 00000d00\nCMD12 00000000 R1 00000d00\nCMD13 00010000 R1 00000900\nCMD24 00000009 R1 00000900\nOUT 1 ok\nWAIT ok\nCMD13 00010000 R1 00000900\ndone\n"},"severity":"warning","text":"done may come where line 17 left the write of line 14, which may have failed"}
  {"column":1,"file":"other.sdv","kind":"unreached","line":19,"point":46,"severity":"note","text":"no run comes to fault write"}
  {"blocks":2,"commands":3009,"errors":0,"file":"other.sdv","notes":1,"verdict":"accepted","warnings":1}
  [1]

A flag that is set where a write is confirmed tells the runs apart, where it is tested before the done: not the wrong way round, and
not without a test.

  $ for kind in sd emmc; do { grep -v '^done' $EXAMPLES/${kind}_bring_up.sdv | sed 's/^flags hc/flags hc sure/'; cat << 'END'; } > sure.sdv
  > if cap >= 16 { } else { fault small }
  > send 24 at by hc 8 { clean { give { ok { } else { fault cut } } } else { fault lost } }
  > loop 1000 { wait { ok { break } else { } } } else { fault busy }
  > send 13 { clean & state=tran { set sure } else { } }
  > if sure { done } else { fault unsure }
  > END
  >   sed 's/^if sure.*/if sure { fault sure } else { done }/' sure.sdv > unsure.sdv
  >   sed 's/^if sure.*/done/' sure.sdv > untested.sdv
  >   for name in sure unsure untested; do sdv verify $name.sdv; done
  > done
  sure.sdv: accepted, at most 2009 commands, gives at most 1 block
  unsure.sdv:18:31: warning: done may come where the write of line 15 was lost or cut, or its error passed over [write]
      hint     end the run in a fault, or do it again, where it is lost, cut or answered with an error
      card     an SD card with block addresses, of 1024 blocks
      mishap   line 15: the phase of 1 block to the card stores nothing, and a later status shows the error
      done     block 8 is not the one that the write of line 15 gave
  unsure.sdv: accepted, at most 2009 commands, gives at most 1 block (1 warning)
  untested.sdv:3:10: note: sure is never read [unread]
  untested.sdv:18:1: warning: done may come where the write of line 15 was lost or cut, or its error passed over [write]
      hint     end the run in a fault, or do it again, where it is lost, cut or answered with an error
      card     an SD card with block addresses, of 1024 blocks
      mishap   line 15: the phase of 1 block to the card stores nothing, and a later status shows the error
      done     block 8 is not the one that the write of line 15 gave
  untested.sdv: accepted, at most 2009 commands, gives at most 1 block (1 warning, 1 note)
  sure.sdv: accepted, at most 1009 commands, gives at most 1 block
  unsure.sdv:17:31: warning: done may come where the write of line 14 was lost or cut, or its error passed over [write]
      hint     end the run in a fault, or do it again, where it is lost, cut or answered with an error
      card     an e.MMC device with block addresses, of 1024 blocks
      mishap   line 14: the phase of 1 block to the card stores nothing, and a later status shows the error
      done     block 8 is not the one that the write of line 14 gave
  unsure.sdv: accepted, at most 1009 commands, gives at most 1 block (1 warning)
  untested.sdv:3:10: note: sure is never read [unread]
  untested.sdv:17:1: warning: done may come where the write of line 14 was lost or cut, or its error passed over [write]
      hint     end the run in a fault, or do it again, where it is lost, cut or answered with an error
      card     an e.MMC device with block addresses, of 1024 blocks
      mishap   line 14: the phase of 1 block to the card stores nothing, and a later status shows the error
      done     block 8 is not the one that the write of line 14 gave
  untested.sdv: accepted, at most 1009 commands, gives at most 1 block (1 warning, 1 note)
  [1]

A write command that was lost or refused, and stepped over: no blocks were given. And what leaves it: another write, an erase, a
number of its address, a change of partition.

  $ up() { sed '/^done/d; s/^nums cap/nums cap b/' $EXAMPLES/$1_bring_up.sdv; echo 'if cap >= 16 { let b = 8 } else { fault small }'; cat; }
  $ wait='loop 1000 { wait { ok { break } else { } } } else { fault busy }'
  $ back='loop 1000 { send 13 { state=rcv { send 12 { else { } } } ready & state=tran { break } else { } } } else { fault stuck }'
  $ write() { echo "send 24 at by hc $1 { clean { give { ok { $wait send 13 { clean & state=tran { $2 } else { fault write } } } else { fault cut } } } else { $3 } }"; }
  $ for kind in sd emmc; do
  >   { write b '' ''; echo $back; echo done; } | up $kind | sdv verify -
  >   { write b '' ''; echo $back; write 9 done 'fault lost'; echo $back; } | up $kind | sdv verify - | grep done
  >   { write b '' ''; echo $back; echo 'let b = 8'; echo done; } | up $kind | sdv verify - | grep done
  >   { echo 'loop 3 {'; write b 'break' ''; echo $back; echo '} else { fault lost }'; echo done; } | up $kind | sdv verify -
  > done
  -:17:1: warning: done may come where the write of line 15 was lost or cut, or its error passed over [write]
      hint     end the run in a fault, or do it again, where it is lost, cut or answered with an error
      card     an SD card with block addresses, of 1024 blocks
      mishap   line 15: CMD24 is lost
      done     block 8 is as before the run: the write of line 15 gave it nothing
  -: accepted, at most 4009 commands, gives at most 1 block (1 warning)
  -:17:138: warning: done may come where line 17 left the write of line 15, which may have failed [write]
      done     block 8 is as before the run: the write of line 15 gave it nothing
  -:18:1: warning: done may come where line 17 left the write of line 15, which may have failed [write]
      done     block 8 is as before the run: the write of line 15 gave it nothing
  -: accepted, at most 8008 commands, gives at most 3 blocks
  -:16:1: warning: done may come where the write of line 14 was lost or cut, or its error passed over [write]
      hint     end the run in a fault, or do it again, where it is lost, cut or answered with an error
      card     an e.MMC device with block addresses, of 1024 blocks
      mishap   line 14: CMD24 is lost
      done     block 8 is as before the run: the write of line 14 gave it nothing
  -: accepted, at most 3009 commands, gives at most 1 block (1 warning)
  -:16:138: warning: done may come where line 16 left the write of line 14, which may have failed [write]
      done     block 8 is as before the run: the write of line 14 gave it nothing
  -:17:1: warning: done may come where line 16 left the write of line 14, which may have failed [write]
      done     block 8 is as before the run: the write of line 14 gave it nothing
  -: accepted, at most 7008 commands, gives at most 3 blocks
  $ { write b '' ''; echo $back; echo "send 32 at by hc 9 { clean { send 33 at by hc 9 { clean { send 38 { clean { $wait"
  >   echo 'send 13 { clean & state=tran { done } else { fault e } } } else { fault e } } } else { fault e } } } else { fault e } }'; } | up sd | sdv verify - | grep done
  -:18:32: warning: done may come where line 17 left the write of line 15, which may have failed [write]
      done     block 8 is as before the run: the write of line 15 gave it nothing
  $ { write b '' ''; echo $back; echo 'send 6 part.access 0 { clean { } else { fault part } }'; echo $wait; echo 'send 13 { clean & state=tran { done } else { fault part } }'
  >   } | up emmc | sdv verify - | grep done
  -:18:32: warning: done may come where line 16 left the write of line 14, which may have failed [write]
      done     block 8 is as before the run: the write of line 14 gave it nothing

Each write and each erase is followed on its own: a write that nothing confirms hides none behind it.

  $ up() { sed '/^done/d; s/^nums cap/nums cap b/' $EXAMPLES/$1_bring_up.sdv; echo 'if cap >= 16 { let b = 8 } else { fault small }'; cat; }
  $ { echo "send 24 at by hc b { clean { give { ok { let b = 9 $wait } else { fault cut } } } else { fault lost } }"
  >   echo "send 24 at by hc b { clean { give { ok { $wait send 13 { state=tran { done } else { fault late } } } else { fault cut } } } else { fault lost } }"
  >   } | up sd | sdv verify --no-run - | grep done
  -:16:130: warning: done may come where line 15 left the write of line 15, which may have failed [write]
  -:16:130: warning: done may come where the write of line 16 was lost or cut, or its error passed over [write]

A write that is sent once more after its blocks were given counts from there on.

  $ { echo 'loop 2 {'; write b '' ''; echo $back; echo '} else { done }'; } | up sd | sdv verify -
  -:16:30: note: runs may give different numbers of blocks before this one, as where a write is tried again [input-shifts]
  -:18:10: warning: done may come where the write of line 16 was lost or cut, or its error passed over [write]
      hint     end the run in a fault, or do it again, where it is lost, cut or answered with an error
      card     an SD card with block addresses, of 1024 blocks
      mishap   line 16: CMD24 is lost, 2 times
      done     block 8 is as before the run: the write of line 16 gave it nothing
  -: accepted, at most 6010 commands, gives at most 2 blocks (1 warning, 1 note)
  [1]

The input is a stream: a write that is tried again takes the blocks behind those of the first try, and so does a write behind it. A
write in front of both, and one that is tried again before it gave blocks, take the same blocks in each run.

  $ again() { echo 'loop 9 { send 13 { state=rcv { send 12 { else { } } } ready & state=tran { break } else { } } } else { fault stuck }'; }
  $ { grep -v '^done' $EXAMPLES/sd_bring_up.sdv; echo 'if cap >= 16 { } else { fault small }'
  >   echo 'loop 3 { send 24 at by hc 1 { clean { break } else { } }'; again; echo '} else { fault lost }'
  >   echo 'give { ok { } else { fault cut } }'; again; echo 'send 13 { clean & state=tran { } else { fault doubt } }'
  >   echo 'loop 3 { send 24 at by hc 2 { clean { give { ok { } else { } } } else { fault lost } }'; again
  >   echo 'send 13 { clean & state=tran { break } else { } } } else { fault doubt }'
  >   echo 'send 24 at by hc 3 { clean { give { ok { } else { fault cut } } } else { fault lost } }'; again
  >   echo 'send 13 { clean & state=tran { done } else { fault doubt } }'; } > shifted.sdv
  $ sdv verify shifted.sdv; grep -n give shifted.sdv
  shifted.sdv:19:32: note: no run comes to CMD12 [unreached]
  shifted.sdv:21:39: note: runs may give different numbers of blocks before this one, as where a write is tried again [input-shifts]
  shifted.sdv:24:30: note: runs may give different numbers of blocks before this one, as where a write is tried again [input-shifts]
  shifted.sdv:25:32: note: no run comes to CMD12 [unreached]
  shifted.sdv:26:32: warning: done may come where line 21 left the write of line 15, which may have failed [write]
      card     an SD card with block addresses, of 1024 blocks
      mishap   line 18: the phase of 1 block to the card stores nothing, and a later status shows the error
      done     block 1 is not the one that the write of line 15 gave
  shifted.sdv:26:32: warning: done may come where line 24 left the write of line 21, which may have failed [write]
      card     an SD card with block addresses, of 1024 blocks
      mishap   line 21: the phase of 1 block to the card is cut
      done     block 2 is not the one that the write of line 21 gave
  shifted.sdv:26:32: warning: done may come where the write of line 24 was lost or cut, or its error passed over [write]
      hint     end the run in a fault, or do it again, where it is lost, cut or answered with an error
      card     an SD card with block addresses, of 1024 blocks
      mishap   line 24: the phase of 1 block to the card stores nothing, and a later status shows the error
      done     block 3 is not the one that the write of line 24 gave
  shifted.sdv: accepted, at most 2138 commands, gives at most 7 blocks (3 warnings, 4 notes)
  18:give { ok { } else { fault cut } }
  21:loop 3 { send 24 at by hc 2 { clean { give { ok { } else { } } } else { fault lost } }
  24:send 24 at by hc 3 { clean { give { ok { } else { fault cut } } } else { fault lost } }

A write that comes again after a number changed is another one.

  $ { sed '/^done/d; s/^nums cap/nums cap b/' $EXAMPLES/sd_bring_up.sdv; cat << 'END'; } > again.sdv
  > if cap >= 16 { } else { fault small }
  > let b = 8
  > loop 3 {
  >   send 24 at by hc b { clean { give { ok { loop 1000 { wait { ok { break } else { } } } else { fault busy }
  >     send 13 { clean & state=tran { done } else { } } } else { fault cut } } } else { fault lost } }
  >   let b = 8
  > } else { fault unwritten }
  > END
  $ sdv verify again.sdv; sed '19d' again.sdv | sdv verify -
  again.sdv:17:32: note: runs may give different numbers of blocks before this one, as where a write is tried again [input-shifts]
  again.sdv:18:36: warning: done may come where line 19 left the write of line 17, which may have failed [write]
  again.sdv: accepted, at most 2013 commands, gives at most 3 blocks (1 warning, 1 note)
  -:17:32: note: runs may give different numbers of blocks before this one, as where a write is tried again [input-shifts]
  -: accepted, at most 2013 commands, gives at most 3 blocks (1 note)

A number that is set between a command and its blocks, and more writes open at once than a review keeps apart.

  $ up() { sed '/^done/d; s/^nums cap/nums cap b/' $EXAMPLES/sd_bring_up.sdv; echo 'if cap >= 16 { } else { fault small }'; cat; }
  > up << 'END' > set.sdv
  > let b = 8
  > send 24 at by hc b { clean { let b = 9 give { ok { loop 1000 { wait { ok { break } else { } } } else { fault busy }
  >   send 13 { clean & state=tran { done } else { fault write } } } else { fault cut } } } else { fault lost } }
  > END
  $ sdv verify set.sdv | head -1
  set.sdv:17:34: warning: done may come where line 16 left the write of line 16, which may have failed [write]
  $ for most in 8 9; do
  >   awk -v most=$most 'BEGIN {
  >     printf "loop 1 {"
  >     for (i = 1; i <= most; i++) printf " if cap < %d00 { send 24 at by hc %d { clean { give { ok { break } else { fault c } } } else { fault l } } } else {", i, i
  >     printf " fault big"; for (i = 1; i <= most; i++) printf " }"; print " } else { fault o }"
  >     print "loop 9 { wait { ok { break } else { } } } else { fault b }"
  >     print "send 13 { clean & state=tran { done } else { fault d } }" }' | up > $most.sdv; sdv verify $most.sdv | grep -v never
  > done
  8.sdv: accepted, at most 2009 commands, gives at most 1 block (1 note)
  9.sdv:17:32: warning: it is not known whether each write is stored [write]
  9.sdv: accepted, at most 2009 commands, gives at most 1 block (1 warning, 1 note)

An erase, confirmed and not.

  $ for kind in sd emmc; do up() { grep -v '^done' $EXAMPLES/${kind}_bring_up.sdv; echo 'if cap >= 16 { } else { fault small }'; cat; }
  > case $kind in sd) first=32 last=33 erase=38;; *) first=35 last=36 erase='38 0';; esac
  > for end in 'send 13 { clean & state=tran { done } else { fault erase } }' done; do
  > up << END > erase.sdv
  > send $first at by hc 8 { clean { send $last at by hc 9 { clean { send $erase { clean {
  >   loop 1000 { wait { ok { break } else { } } } else { fault busy } $end
  > } else { fault erase } } } else { fault erase } } } else { fault erase } }
  > fault erase
  > END
  > sdv verify erase.sdv; done; done
  erase.sdv:18:1: note: no run comes to fault erase [unreached]
  erase.sdv: accepted, at most 2011 commands (1 note)
  erase.sdv:16:68: warning: done may come before the erase of line 15 is confirmed [erase]
      hint     behind the wait, `send 13 { clean & state=tran { .. } else { .. } }` shows that it is done
  erase.sdv:18:1: note: no run comes to fault erase [unreached]
  erase.sdv: accepted, at most 2010 commands (1 warning, 1 note)
  erase.sdv:17:1: note: no run comes to fault erase [unreached]
  erase.sdv: accepted, at most 1011 commands (1 note)
  erase.sdv:15:68: warning: done may come before the erase of line 14 is confirmed [erase]
      hint     behind the wait, `send 13 { clean & state=tran { .. } else { .. } }` shows that it is done
  erase.sdv:17:1: note: no run comes to fault erase [unreached]
  erase.sdv: accepted, at most 1010 commands (1 warning, 1 note)
  [1]

An erase that may have failed, and was left for another one.

  $ for kind in sd emmc; do up() { grep -v '^done' $EXAMPLES/${kind}_bring_up.sdv; echo 'if cap >= 16 { } else { fault small }'; cat; }
  > case $kind in sd) first=32 last=33 erase=38;; *) first=35 last=36 erase='38 0';; esac
  > for end in 'clean & state=tran { } else { fault erase }' 'state=tran { } else { fault erase }'; do
  > for place in 8 10; do
  >   echo "send $first at by hc $place { clean { } else { fault erase } }"
  >   echo "send $last at by hc $((place + 1)) { clean { } else { fault erase } }"
  >   echo "send $erase { clean { } else { fault erase } }"
  >   echo 'loop 1000 { wait { ok { break } else { } } } else { fault busy }'
  >   if [ $place = 8 ]; then echo "send 13 { $end }"; else echo 'send 13 { clean & state=tran { done } else { fault erase } }'; fi
  > done | up > left.sdv
  > sdv verify left.sdv; done; done
  left.sdv: accepted, at most 2015 commands
  left.sdv:24:32: warning: done may come where line 20 left the erase of line 15, which may have failed [erase]
  left.sdv: accepted, at most 2015 commands (1 warning)
  left.sdv: accepted, at most 1015 commands
  left.sdv:23:32: warning: done may come where line 19 left the erase of line 14, which may have failed [erase]
  left.sdv: accepted, at most 1015 commands (1 warning)
  [1]

An erase is its first block, its last block and CMD38: it is made good by the same three, and not by the same CMD38 behind another
pair, nor by another last block; and without CMD38 it is not done.

  $ up() { sed '/^done/d; s/^nums cap/nums cap b/' $EXAMPLES/$1_bring_up.sdv; echo 'if cap >= 16 { let b = 8 } else { fault small }'; cat; }
  $ for kind in sd emmc; do
  >   case $kind in sd) first=32 last=33 erase=38;; *) first=35 last=36 erase='38 0';; esac
  >   range() { echo "send $first at by hc $1 { clean { send $last at by hc $2 { clean { $3 } else { $4 } } } else { $4 } }"; }
  >   erase() { echo "send $erase { clean { $wait send 13 { clean & state=tran { $1 } else { $2 } } } else { $2 } }"; }
  >   { range b 9 '' 'fault range'; echo $wait; echo done; } | up $kind | sdv verify -
  >   { echo 'loop 3 {'; range b 9 "$(erase done '')" ''; echo $wait; echo '} else { fault unerased }'; } | up $kind | sdv verify -
  >   { echo 'loop 3 {'; range b 9 "$(erase done '')" ''; echo $wait; echo 'let b = 8'; echo '} else { fault unerased }'; } | up $kind | sdv verify -
  >   { echo 'loop 3 {'; range 8 9 "$(erase done '')" ''; echo $wait; echo 'let b = b - 1'; echo '} else { fault unerased }'; } | up $kind | sdv verify - | grep done
  >   { echo 'loop 3 {'; echo 'if b >= 8 {'; range 8 9 '' 'fault range'; echo '} else {'; range 10 11 '' 'fault range'; echo '}'
  >     erase done 'let b = 0'; echo $wait; echo '} else { fault unerased }'; } | up $kind | sdv verify - | grep done
  >   { echo "loop 3 { send $first at by hc 8 { clean {"; echo 'if b >= 8 {'; echo "send $last at by hc 9 { clean { } else { fault last } }"
  >     echo '} else {'; echo "send $last at by hc 10 { clean { } else { fault last } }"; echo '}'
  >     erase done 'let b = 0'; echo "} else { fault first } } $wait } else { fault unerased }"; } | up $kind | sdv verify - | grep done
  > done
  -:17:1: warning: done may come where the erase of line 15 was begun without CMD38 [erase]
      hint     end the run in a fault, or do it again, where it is lost, cut or answered with an error
      card     an SD card with block addresses, of 1024 blocks
      mishap   none
      done     block 8 is not erased
  -: accepted, at most 2009 commands (1 warning)
  -: accepted, at most 2019 commands
  -:16:173: warning: done may come where line 18 left the erase of line 16, which may have failed [erase]
  -: accepted, at most 2019 commands (1 warning)
  -:21:115: warning: done may come where line 17 left the erase of line 19, which may have failed [erase]
  -:21:115: warning: done may come where line 19 left the erase of line 17, which may have failed [erase]
      done     block 8 is not erased
  -:21:115: warning: done may come where line 17 left the erase of line 15, which may have failed [erase]
  -:21:115: warning: done may come where line 19 left the erase of line 15, which may have failed [erase]
  -:16:1: warning: done may come where the erase of line 14 was begun without CMD38 [erase]
      hint     end the run in a fault, or do it again, where it is lost, cut or answered with an error
      card     an e.MMC device with block addresses, of 1024 blocks
      mishap   none
      done     block 8 is not erased
  -: accepted, at most 1009 commands (1 warning)
  -: accepted, at most 1019 commands
  -:15:175: warning: done may come where line 17 left the erase of line 15, which may have failed [erase]
  -: accepted, at most 1019 commands (1 warning)
  -:20:117: warning: done may come where line 16 left the erase of line 18, which may have failed [erase]
  -:20:117: warning: done may come where line 18 left the erase of line 16, which may have failed [erase]
      done     block 8 is not erased
  -:20:117: warning: done may come where line 16 left the erase of line 14, which may have failed [erase]
  -:20:117: warning: done may come where line 18 left the erase of line 14, which may have failed [erase]

A CMD6 that was lost leaves open which partition a write reaches.

  $ { sed '/^send 6 part.access/,$d' $EXAMPLES/emmc_boot_read.sdv; cat << 'END'; } > boot.sdv; sdv verify boot.sdv
  > loop 3 {
  >   send 6 part.access 1 { else { } }
  >   loop 1000 { wait { ok { break } else { } } } else { fault busy }
  >   send 13 { clean & state=tran { break } else { } }
  > } else { fault sw }
  > send 24 at by hc 0 { clean { give { ok { loop 1000 { wait { ok { break } else { } } } else { fault busy }
  >   send 13 { clean & state=tran { done } else { fault write } } } else { fault cut } } } else { fault lost } }
  > fault write
  > END
  boot.sdv:7:6: note: cap is never read [unread]
  boot.sdv:19:3: warning: part.access writes all of PARTITION_CONFIG, which clears the boot enable bits [boot-enable]
  boot.sdv:23:1: warning: CMD24 may reach the user area or boot partition 1 [partition]
      hint     go on in the case `clean` of a CMD13 behind the switch, in the transfer state
  boot.sdv:25:1: note: no run comes to fault write [unreached]
  boot.sdv: accepted, at most 1016 commands, gives at most 1 block (2 warnings, 2 notes)
  [1]

A write into another partition than the script may have asked for, as it seems by its statements alone.

  $ { sed '/^done/d; s/^flags hc/flags hc a/' $EXAMPLES/emmc_bring_up.sdv; cat << 'END'; } > asked.sdv; sdv verify asked.sdv | grep CMD24
  > if cap >= 16 { } else { fault small }
  > if a { send 6 part.access 1 { else { } } } else { }
  > send 24 at by hc 8 { clean { give { ok { loop 1000 { wait { ok { break } else { } } } else { fault busy }
  >   send 13 { clean & state=tran { done } else { fault write } } } else { fault cut } } } else { fault lost } }
  > fault write
  > END
  asked.sdv:15:1: warning: CMD24 may not reach the partition that was asked for last [partition]

Statements that no run reaches, tests that come out one way, and names that are never read.

  $ for kind in sd emmc; do
  >   printf "card $kind\nflags a\nnums n\nsend 0 { else { } }\nif n < 1 { fault end } else { }\nset a\nfault end\n" | sdv verify -
  > done
  -:2:7: note: a is never read [unread]
  -:5:1: note: this test always holds [one-way]
  -:6:1: note: no run comes to set a [unreached]
  -:7:1: note: no run comes to fault end [unreached]
  -: accepted, at most 1 command (4 notes)
  -:2:7: note: a is never read [unread]
  -:5:1: note: this test always holds [one-way]
  -:6:1: note: no run comes to set a [unreached]
  -:7:1: note: no run comes to fault end [unreached]
  -: accepted, at most 1 command (4 notes)
  $ for kind in sd emmc; do
  >   printf "card $kind\nnums n\nsend 0 { else { } }\nif n >= 1 { fault much } else { }\nfault end\n" | sdv verify -
  > done
  -:4:1: note: this test never holds [one-way]
  -:4:13: note: no run comes to fault much [unreached]
  -: accepted, at most 1 command (2 notes)
  -:4:1: note: this test never holds [one-way]
  -:4:13: note: no run comes to fault much [unreached]
  -: accepted, at most 1 command (2 notes)
  $ printf 'card sd\nsend 0 { else { } }\nfault end\n' | sdv verify -
  -: accepted, at most 1 command

A script at the limits is judged within two seconds of processor time: one of 4,000 commands, and one with writes that are open at
3,200 points, of which each has many shapes and loops lead back to them.

  $ awk 'BEGIN { print "card sd"; for (i = 0; i < 4000; i++) print "send 0{else{}}"; print "fault stop" }' > many.sdv
  $ (ulimit -t 2; sdv verify many.sdv)
  many.sdv: accepted, at most 4000 commands
  $ for kind in sd emmc; do { grep -v '^done' $EXAMPLES/${kind}_bring_up.sdv; awk 'BEGIN {
  >   print "if cap >= 16 { } else { fault small }"
  >   for (i = 0; i < 4; i++)
  >     print "send 24 at by hc " i "{clean{give{ok{loop 9{wait{ok{break}else{}}}else{fault b}send 13{state=tran{}else{}}}else{fault c}}}else{fault l}}"
  >   print "send 24 at by hc 8{clean{give{ok{}else{}}}else{}}"
  >   print "loop 3{loop 3{loop 3{loop 3{"
  >   for (i = 0; i < 3200; i++) print "send 13{else{}}"
  >   print "}else{}}else{}}else{}}else{}"
  >   print "fault x" }'; } > shapes.sdv; (ulimit -t 2; sdv verify shapes.sdv) | sed 's/[0-9]* commands/N commands/'; done
  shapes.sdv: accepted, at most N commands, gives at most 5 blocks
  shapes.sdv: accepted, at most N commands, gives at most 5 blocks

A number of blocks above 64 bits is not told.

  $ { grep -v '^done' $EXAMPLES/sd_bring_up.sdv; cat << 'END'; } | sdv verify -
  > if cap >= 70000 { } else { fault small }
  > loop 65535 { loop 65535 { loop 65535 {
  >   send 25 at by hc 8 count 65535 { else { fault lost } }
  > } else { } } else { } } else { }
  > fault end
  > END
  -:15:27: note: loop 65535 never turns twice: each way through its body leaves it [loop-once]
  -: accepted, at most 2008 commands, gives at most 18445618199572250625 blocks (1 note)
  $ { grep -v '^done' $EXAMPLES/sd_bring_up.sdv; cat << 'END'; } | sdv verify -
  > if cap >= 70000 { } else { fault small }
  > loop 65535 { loop 65535 { loop 65535 { loop 65535 {
  >   send 25 at by hc 8 count 65535 { else { fault lost } }
  > } else { } } else { } } else { } } else { }
  > fault end
  > END
  -:15:40: note: loop 65535 never turns twice: each way through its body leaves it [loop-once]
  -: accepted, at most 2008 commands (1 note)

Loops that never turn twice, since each way through the body leaves them: a loop that is to try a command again, and one in another.
A comment or a word allows the note; a loop of one turn has none, and a refused script has it too.

  $ up() { grep -v '^done' $EXAMPLES/sd_bring_up.sdv; cat; }
  $ up << 'END' > once.sdv
  > loop 3 { send 13 { clean & state=tran { break } else { fault lost } } } else { fault lost }
  > loop 2 { loop 5 { send 13 { clean { break } else { break } } } else { } } else { }
  > loop 1 { send 13 { else { break } } } else { }
  > loop 9 { send 13 { clean { done } else { fault end } } } else { fault end } # allow: loop-once
  > END
  $ sdv verify once.sdv; sdv verify --allow loop-once --allow unreached --allow unread once.sdv
  once.sdv:3:7: note: hc is never read [unread]
  once.sdv:4:6: note: cap is never read [unread]
  once.sdv:14:1: note: loop 3 never turns twice: each way through its body leaves it [loop-once]
  once.sdv:15:10: note: loop 5 never turns twice: each way through its body leaves it [loop-once]
  once.sdv: accepted, at most 2012 commands (4 notes)
  once.sdv: accepted, at most 2012 commands
  $ sed 's/^loop 2/send 9 { else { } } loop 2/' once.sdv | sdv verify --no-run - | grep 'error\|loop'
  -:14:1: note: loop 3 never turns twice: each way through its body leaves it [loop-once]
  -:15:1: error: CMD9 is not legal in tran state [state]
  -:15:30: note: loop 5 never turns twice: each way through its body leaves it [loop-once]
  -: refused (1 error, 2 notes)

What certify refuses.

  $ (cd $EXAMPLES; sdv verify refused_block_address.sdv)
  refused_block_address.sdv:15:1: error: CMD17 at block 8 needs a card with block addresses [address]
      card     tran: byte addresses, block length 512
      hint     `at by hc` addresses both sorts of cards, where the case `ocr.ready & ocr.block` alone sets hc
      mishap   none
      wrong    line 15: CMD17 comes to a card in tran state with byte addresses, and its argument is none of the block
      then     CMD17 00000008 timeout
      then     fault read
      left     the card in tran state
  refused_block_address.sdv: refused (1 error)
  [1]
  $ printf 'card sd\nsend 16 @\n' | sdv verify --json -
  {"column":9,"file":"-","kind":"token","line":2,"point":null,"severity":"error","text":"`@` cannot stand here; can stand here: `{`"}
  {"column":1,"file":"-","kind":"syntax","line":3,"point":null,"severity":"error","text":"the end of the text: `else` is missing after line 2"}
  {"errors":2,"file":"-","notes":0,"verdict":"no script","warnings":0}
  [1]
  $ sdv verify none.sdv
  none.sdv:1:1: error: the file cannot be opened or read, or is not UTF-8 [file]
  none.sdv: not read (1 error)
  cannot use none.sdv
  [2]
  $ sdv verify $EXAMPLES/smallest.sdv > /dev/full; echo $?
  2

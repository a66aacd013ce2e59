Each mishap at each event of a bring-up, beside a card with block addresses: how the run ends, how many lines its trace has, and
which of them the trace without a mishap lacks, each once. A card with block addresses that took no CMD8 is never ready. Where
nothing is told of an event, the mishap changes nothing there.

  $ up=$EXAMPLES/sd_bring_up.sdv card=$EXAMPLES/sd_block.card; sdv try $up $card new:1024 > good; wc -l < good
  10
  $ mishaps() {
  >   for event in 1 2 3 4 5 6 7 8 9; do
  >     echo "event $event: $1" > names; sdv try $up $card new:1024 names > trace; cmp -s good trace && continue
  >     told=$(diff good trace | sed -n 's/^> //p' | awk '!told[$0]++ { printf "%s%s", NR == 1 ? "" : ", ", $0 }')
  >     echo "event $event, $(wc -l < trace) lines: $told"
  >   done
  > }
  $ mishaps 'command lost'
  event 2, 2003 lines: CMD8 000001aa timeout, CMD41 40ff8000 R3 00ff8000, CMD55 00000000 R1 00000120, fault busy
  event 3, 4 lines: CMD55 00000000 timeout, fault lost55
  event 4, 5 lines: CMD41 40ff8000 timeout, fault lost41
  event 5, 6 lines: CMD2 00000000 timeout, fault cid
  event 6, 7 lines: CMD3 00000000 timeout, fault rca
  event 7, 8 lines: CMD9 12340000 timeout, fault csd
  event 8, 9 lines: CMD7 12340000 timeout, fault select
  event 9, 10 lines: CMD16 00000200 timeout, fault blen
  $ mishaps 'answer lost'
  event 2, 10 lines: CMD8 000001aa timeout
  event 3, 4 lines: CMD55 00000000 timeout, fault lost55
  event 4, 5 lines: CMD41 40ff8000 timeout, fault lost41
  event 5, 6 lines: CMD2 00000000 timeout, fault cid
  event 6, 7 lines: CMD3 00000000 timeout, fault rca
  event 7, 8 lines: CMD9 12340000 timeout, fault csd
  event 8, 9 lines: CMD7 12340000 timeout, fault select
  event 9, 10 lines: CMD16 00000200 timeout, fault blen
  $ mishaps 'not ready'
  event 4, 12 lines: CMD41 40ff8000 R3 00ff8000, CMD55 00000000 R1 00000120
  $ mishaps 'error shown'
  event 3, 10 lines: CMD55 00000000 R1 00080120
  event 6, 7 lines: CMD3 00000000 R6 12342500, fault rca
  event 8, 9 lines: CMD7 12340000 R1 00080700, fault select
  event 9, 10 lines: CMD16 00000200 R1 00080900, fault blen
  $ mishaps 'refused'
  event 3, 4 lines: CMD55 00000000 R1 00080100, fault lost55
  event 6, 7 lines: CMD3 00000000 R6 12342500, fault rca
  event 8, 9 lines: CMD7 12340000 R1 00080700, fault select
  event 9, 10 lines: CMD16 00000200 R1 00080900, fault blen
  $ for mishap in 'phase cut' 'switch fails' 'CRC status lost'; do mishaps "$mishap"; done
  $ mishaps 'no APP_CMD'
  event 3, 4 lines: CMD55 00000000 R1 00000100, fault lost55
  $ mishaps 'lost while busy'
  event 2, 2003 lines: CMD8 000001aa timeout, CMD41 40ff8000 R3 00ff8000, CMD55 00000000 R1 00000120, fault busy
  event 3, 4 lines: CMD55 00000000 timeout, fault lost55
  event 4, 5 lines: CMD41 40ff8000 timeout, fault lost41
  event 5, 6 lines: CMD2 00000000 timeout, fault cid
  event 6, 7 lines: CMD3 00000000 timeout, fault rca
  event 7, 8 lines: CMD9 12340000 timeout, fault csd
  event 8, 9 lines: CMD7 12340000 timeout, fault select
  event 9, 10 lines: CMD16 00000200 timeout, fault blen
  $ mishaps 'error while busy'
  event 3, 10 lines: CMD55 00000000 R1 00080120
  event 6, 7 lines: CMD3 00000000 R6 12342500, fault rca
  event 8, 9 lines: CMD7 12340000 R1 00080700, fault select
  event 9, 10 lines: CMD16 00000200 R1 00080900, fault blen
  $ for mishap in OUT_OF_RANGE ERASE_SEQ_ERROR ILLEGAL_COMMAND 'time passes' 'write fails, error shown later'; do echo "$mishap"; mishaps "$mishap"; done
  OUT_OF_RANGE
  event 3, 10 lines: CMD55 00000000 R1 80000120
  event 6, 7 lines: CMD3 00000000 R6 12342500, fault rca
  event 8, 9 lines: CMD7 12340000 R1 80000700, fault select
  event 9, 10 lines: CMD16 00000200 R1 80000900, fault blen
  ERASE_SEQ_ERROR
  event 3, 4 lines: CMD55 00000000 R1 10000100, fault lost55
  event 6, 7 lines: CMD3 00000000 R6 12342500, fault rca
  event 8, 9 lines: CMD7 12340000 R1 10000700, fault select
  event 9, 10 lines: CMD16 00000200 R1 10000900, fault blen
  ILLEGAL_COMMAND
  event 3, 10 lines: CMD55 00000000 R1 00400120
  event 8, 9 lines: CMD7 12340000 R1 00400700, fault select
  event 9, 10 lines: CMD16 00000200 R1 00400900, fault blen
  time passes
  event 4, 12 lines: CMD41 40ff8000 R3 00ff8000, CMD55 00000000 R1 00000120
  write fails, error shown later

Another block length after CMD0, another relative address at CMD3, and a switch error that a busy card keeps at CMD13.

  $ printf 'card sd\nversion 2\nunit byte\ncsize 3\ncmult 0\nrbl 9\nrca 1\n' > byte.card
  $ cat > again.sdv << 'END'
  > card sd
  > send 0 { else { } }
  > send 8 { echo { } else { fault old } }
  > loop 10 { send 55 { app { } else { fault lost } } send 41 0x40ff8000 { ocr.ready { break } answer { } else { fault cond } } } else { fault slow }
  > send 2 { answer { } else { fault cid } }
  > send 3 { clean { } else { } }
  > send 3 { clean { } else { } }
  > send 7 { clean { } else { } }
  > send 17 at byte 0 { clean { } else { } }
  > fault end
  > END
  $ for mishap in 'CMD0: other block length' '2nd CMD3: answer lost with other address' '2nd CMD3: refused with other address' 'CMD3: refused with other address'; do
  >   echo "$mishap" > names; echo "$mishap"; sdv try again.sdv byte.card new:16 names 2>&1 | sed -n '6,$p'
  > done
  CMD0: other block length
  CMD3 00000000 R6 00010500
  CMD3 00000000 R6 00010700
  CMD7 00010000 R1 00000700
  wrong CMD17 00000000
  line 9: CMD17 comes to a card in tran state whose block length is not 512 bytes
  2nd CMD3: answer lost with other address
  CMD3 00000000 R6 00010500
  CMD3 00000000 timeout
  CMD7 00010000 timeout
  wrong CMD17 00000000
  line 9: CMD17 comes to a card in stby state, where it is not legal
  2nd CMD3: refused with other address
  CMD3 00000000 R6 00010500
  CMD3 00000000 R6 00022700
  CMD7 00020000 timeout
  wrong CMD17 00000000
  line 9: CMD17 comes to a card in stby state, where it is not legal
  CMD3: refused with other address
  CMD3 00000000 R6 00022500
  CMD3 00000000 R6 00010500
  CMD7 00010000 R1 00000700
  CMD17 00000000 R1 00000900
  fault end
  $ for mishap in 'answer lost with other address' 'refused with other address'; do
  >   for rca in 1 2; do printf "card sd\nversion 2\nunit byte\ncsize 3\ncmult 0\nrbl 9\nrca $rca\n" > byte.card; echo "line 6: $mishap" > names; sdv try again.sdv byte.card new:16 names | sed -n '6,7p'; done
  > done
  CMD3 00000000 timeout
  CMD3 00000000 R6 00010700
  CMD3 00000000 timeout
  CMD3 00000000 R6 00020700
  CMD3 00000000 R6 00022500
  CMD3 00000000 R6 00010500
  CMD3 00000000 R6 00012500
  CMD3 00000000 R6 00020500
  $ printf 'card sd\nversion 2\nunit byte\ncsize 3\ncmult 0\nrbl 10\nrca 1\n' > byte.card; echo 'CMD0: other block length' > names; sdv try again.sdv byte.card new:32 | tail -n 1; sdv try again.sdv byte.card new:32 names | tail -n 2
  line 9: CMD17 comes to a card in tran state whose block length is not 512 bytes
  wrong CMD17 00000000
  CMD17 00000000 R1 00000900
  fault end
  $ cat > switch.sdv << 'END'
  > card emmc
  > send 0 { else { } }
  > loop 10 { send 1 { ocr.ready { break } answer { } else { fault cond } } } else { fault busy }
  > send 2 { answer { } else { fault cid } }
  > send 3 { clean { } else { fault rca } }
  > send 7 { clean { } else { fault select } }
  > send 6 bus.lines 8 { clean { } else { fault switch } }
  > send 13 { answer { } else { fault status } }
  > send 13 { answer { } else { fault status } }
  > done
  > END
  $ for mishap in 'not ready' 'switch error kept'; do
  >   printf "CMD6: switch fails\nCMD13: $mishap\n" > names; echo "$mishap"; sdv try switch.sdv $EXAMPLES/emmc_byte.card new:16 names | grep CMD13
  > done
  not ready
  CMD13 00010000 R1 00000e80
  CMD13 00010000 R1 00000900
  switch error kept
  CMD13 00010000 R1 00000e00
  CMD13 00010000 R1 00000980

A write that stores nothing, though the host sees it end well: the next status shows the error. A phase that is cut while time
passes leaves the card where programming ends by itself.

  $ head -c 4096 /dev/zero | tr '\0' x > blocks; write=$EXAMPLES/hosts/linux_write.sdv
  $ for mishap in 'write fails, error shown later' 'write fails' 'time passes' 'cut'; do
  >   echo "2nd line 31: $mishap" > names; head -c 524288 /dev/zero > image
  >   echo "$mishap"; sdv try $write $card image names --in blocks | sed -n '16,$p'; tr -d '\0' < image | wc -c
  > done
  write fails, error shown later
  OUT 1 ok
  CMD13 12340000 R1 00080900
  CMD13 12340000 R1 00000900
  CMD24 00000008 R1 00000900
  OUT 1 ok
  CMD13 12340000 R1 00000900
  done
  512
  write fails
  OUT 1 ok
  CMD13 12340000 R1 00080900
  CMD13 12340000 R1 00000900
  CMD24 00000008 R1 00000900
  OUT 1 ok
  CMD13 12340000 R1 00000900
  done
  512
  time passes
  OUT 1 cut
  CMD13 12340000 R1 00000900
  CMD24 00000008 R1 00000900
  OUT 1 ok
  CMD13 12340000 R1 00000900
  done
  512
  cut
  OUT 1 cut
  CMD13 12340000 R1 00000d00
  CMD12 00000000 R1 00000d00
  CMD13 12340000 R1 00000900
  CMD24 00000008 R1 00000900
  OUT 1 ok
  CMD13 12340000 R1 00000900
  done
  512

With OUT_OF_RANGE the card takes CMD33; with ERASE_SEQ_ERROR, and where it refuses, it does not.

  $ for mishap in ERASE_SEQ_ERROR OUT_OF_RANGE refused; do
  >   echo "CMD33: $mishap" > names; sdv try $EXAMPLES/hosts/linux_erase.sdv $card new:1024 names | tail -n 3
  > done
  line 32: CMD38 comes to a card in tran state whose erase sequence is not so far
  CMD32 00000008 R1 00000900
  CMD33 0000000f R1 10000900
  wrong CMD38 00000000
  CMD38 00000000 R1 00000900
  WAIT ok
  done
  line 32: CMD38 comes to a card in tran state whose erase sequence is not so far
  CMD32 00000008 R1 00000900
  CMD33 0000000f R1 00080900
  wrong CMD38 00000000

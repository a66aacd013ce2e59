Runs that break a refused script: without a mishap, and with one. `sdv try` repeats each.

  $ printf 'card sd\nsend 0 { else { } }\ndone\n' > early.sdv; mkdir one; sdv verify early.sdv --save one
  early.sdv:3:1: error: done: at done the card has to be in the transfer state [end-state]
      card     idle: byte addresses, block length not 512
      hint     the bring-up may not have come so far: end the run in a fault where it fails
      mishap   none
      wrong    line 3: done comes to a card in idle state
      then     done
      left     the card in idle state
      again    sdv try early.sdv one/1.card new:1024 one/1.schedule
  early.sdv: refused (1 error)
  [1]
  $ cat one/1.card; cat one/1.schedule
  card sd
  version 2
  unit block
  csize 0
  rca 4660
  $ sdv try early.sdv one/1.card new:1024 one/1.schedule
  CMD0 00000000 -
  wrong done
  line 3: done comes to a card in idle state
  [1]
  $ mkdir two; sdv verify $EXAMPLES/hosts/linux_read.sdv --save two | sed -n '/^    [mw]/p'; ls two | wc -l; cat two/1.schedule
      mishap   line 16: the answer to CMD41 is lost
      wrong    line 14: CMD55 comes to a card in ready state, where it is not legal
      mishap   line 24: the answer to CMD2 is lost
      wrong    line 24: CMD2 comes to a card in ident state, where it is not legal
      mishap   line 25: the card refuses CMD3 with an error
      wrong    line 26: CMD9 comes to a card in ident state, where it is not legal
      mishap   line 27: the answer to CMD7 is lost
      wrong    line 27: CMD7 comes to a card in tran state, where it is not legal
      mishap   line 27: the card refuses CMD7 with an error
      wrong    line 28: CMD51 comes to a card in stby state, where it is not legal
      mishap   line 28: the card refuses CMD51 with an error
      wrong    line 28: REG 8 comes to a card in tran state with no register due
      mishap   none
      wrong    line 33: CMD17 comes to a card in tran state whose block length is not 512 bytes
      mishap   line 29: the card refuses CMD6 with an error
      wrong    line 33: IN 1 comes to a card in data state that uses other data lines than the host
      mishap   line 33: the answer to CMD17 is lost
      mishap   line 34: the card is not ready at CMD13
      wrong    line 34: CMD12 comes to a card in data state, which may go to tran state by itself, where it is not legal
  18
  0002
  (no line feed)
  $ sdv try $EXAMPLES/hosts/linux_read.sdv two/1.card new:1024 two/1.schedule | tail -n 4
  line 14: CMD55 comes to a card in ready state, where it is not legal
  CMD8 000001aa R7 000001aa
  CMD55 00000000 R1 00000120
  CMD41 40ff8000 timeout
  wrong CMD55 00000000

In JSON a run has its trace, which is that of `sdv try`.

  $ sdv verify early.sdv --json | sed -n 's/.*"run":\({[^}]*}\).*/\1/p'
  {"blocks":1024,"card":"card sd\nversion 2\nunit block\ncsize 0\nrca 4660\n","line":3,"schedule":"","then":"done\n","trace":"CMD0 00000000 -\nwrong done\n"}
  $ sdv verify $EXAMPLES/hosts/linux_read.sdv --json | sed -n '1s/.*"trace":"\([^"]*\)".*/\1/p' > escaped; printf "$(cat escaped)" > told
  $ sdv try $EXAMPLES/hosts/linux_read.sdv two/1.card new:1024 two/1.schedule 2> said | cmp - told && echo the same
  the same

Each statement that is refused, with a run that stops there, if one is found. Each run is repeated.

  $ again() { sed -n 's/^    again    //p' "$1" | while read -r words; do $words --in zeros 2>&1 | tail -n 1; done; }
  $ head -c 1048576 /dev/zero > zeros
  $ for script in $EXAMPLES/refused_*.sdv $EXAMPLES/hosts/seabios.sdv $EXAMPLES/hosts/edk2.sdv $EXAMPLES/hosts/linux_erase.sdv $EXAMPLES/hosts/linux_write.sdv $EXAMPLES/hosts/linux_write_many.sdv $EXAMPLES/hosts/uboot.sdv $EXAMPLES/hosts/uboot_read_many.sdv; do
  >   echo; basename $script; rm -rf runs; mkdir runs; sdv verify $script --save runs > told
  >   sed -n 's/^.*:\([0-9]*\):[0-9]*: error: .* \[\(.*\)\]$/line \1 \2/p;/^    \(mishap\|wrong\)/p' told; again told | sed 's/^/    again    /'
  > done
  
  refused_block_address.sdv
  line 15 address
      mishap   none
      wrong    line 15: CMD17 comes to a card in tran state with byte addresses, and its argument is none of the block
      again    line 15: CMD17 comes to a card in tran state with byte addresses, and its argument is none of the block
  
  refused_unlike_lines.sdv
  line 16 data-lines
      mishap   none
      wrong    line 16: IN 1 comes to a card in data state that uses other data lines than the host
      again    line 16: IN 1 comes to a card in data state that uses other data lines than the host
  
  seabios.sdv
  line 12 app-command
      mishap   line 11: the card refuses CMD55 with an error
      wrong    line 12: CMD41 comes to a card in idle state without the application flag
  line 13 app-command
      mishap   line 11: the card refuses CMD55 with an error
      wrong    line 13: CMD41 comes to a card in idle state without the application flag
  line 17 state
      mishap   line 16: the card refuses CMD3 with an error
      wrong    line 17: CMD9 comes to a card in ident state, where it is not legal
  line 21 state
      mishap   line 18: the card refuses CMD7 with an error
      wrong    line 21: CMD18 comes to a card in stby state, where it is not legal
  line 21 block-length
  line 22 data-phase
      mishap   line 21: the card refuses CMD18 with an error
      wrong    line 22: IN 8 comes to a card in tran state with no read of blocks due
  line 24 state
      mishap   line 23: the card refuses CMD12 with an error
      wrong    line 24: CMD24 comes to a card in data state, where it is not legal
  line 25 data-phase
      mishap   line 24: the card refuses CMD24 with an error
      wrong    line 25: OUT 1 comes to a card in tran state with no write of blocks due
  line 26 end-state
      mishap   none
      wrong    line 26: done comes to a card in prg state
      again    line 12: CMD41 comes to a card in idle state without the application flag
      again    line 13: CMD41 comes to a card in idle state without the application flag
      again    line 17: CMD9 comes to a card in ident state, where it is not legal
      again    line 21: CMD18 comes to a card in stby state, where it is not legal
      again    line 22: IN 8 comes to a card in tran state with no read of blocks due
      again    line 24: CMD24 comes to a card in data state, where it is not legal
      again    line 25: OUT 1 comes to a card in tran state with no write of blocks due
      again    line 26: done comes to a card in prg state
  
  edk2.sdv
  line 14 app-command
      mishap   line 13: the card refuses CMD55 with an error
      wrong    line 14: CMD41 comes to a card in idle state without the application flag
  line 18 state
      mishap   line 17: the card refuses CMD3 with an error
      wrong    line 18: CMD7 comes to a card in ident state, where it is not legal
  line 20 app-command
  line 20 state
      mishap   line 18: the card refuses CMD7 with an error
      wrong    line 20: CMD6 comes to a card in stby state, where it is not legal
  line 23 state
      mishap   line 22: CMD7 is lost
      wrong    line 23: CMD3 comes to a card in tran state, where it is not legal
  line 30 state
      mishap   line 26: the card refuses CMD7 with an error
      wrong    line 30: CMD17 comes to a card in stby state, where it is not legal
  line 30 block-length
  line 30 data-phase
  line 30 data-lines
      mishap   line 20: the card refuses CMD6 with an error
      wrong    line 30: IN 1 comes to a card in data state that uses other data lines than the host
  line 31 state
      mishap   line 31: the answer to CMD24 is lost
      wrong    line 31: CMD24 comes to a card in rcv state, where it is not legal
  line 31 data-phase
      mishap   line 31: the card refuses CMD24 with an error
      wrong    line 31: OUT 1 comes to a card in tran state with no write of blocks due
  line 31 end-state
      mishap   none
      wrong    line 31: done comes to a card in prg state
      again    line 14: CMD41 comes to a card in idle state without the application flag
      again    line 18: CMD7 comes to a card in ident state, where it is not legal
      again    line 20: CMD6 comes to a card in stby state, where it is not legal
      again    line 23: CMD3 comes to a card in tran state, where it is not legal
      again    line 30: CMD17 comes to a card in stby state, where it is not legal
      again    line 30: IN 1 comes to a card in data state that uses other data lines than the host
      again    line 31: CMD24 comes to a card in rcv state, where it is not legal
      again    line 31: OUT 1 comes to a card in tran state with no write of blocks due
      again    line 31: done comes to a card in prg state
  
  linux_erase.sdv
  line 31 erase-sequence
      mishap   line 30: the card refuses CMD32 with an error
      wrong    line 31: CMD33 comes to a card in tran state whose erase sequence is not so far
  line 32 erase-sequence
      mishap   line 31: the card refuses CMD33 with an error
      wrong    line 32: CMD38 comes to a card in tran state whose erase sequence is not so far
      again    line 31: CMD33 comes to a card in tran state whose erase sequence is not so far
      again    line 32: CMD38 comes to a card in tran state whose erase sequence is not so far
  
  linux_write.sdv
  line 32 state
      mishap   line 31: the CRC status of the phase of 1 block to the card is lost, and the card programs the blocks
      mishap   line 32: the card is not ready at CMD13
      wrong    line 32: CMD12 comes to a card in prg state, where it is not legal
      again    line 32: CMD12 comes to a card in prg state, where it is not legal
  
  linux_write_many.sdv
  line 32 state
      mishap   line 31: the answer to CMD12 is lost
      mishap   line 32: the card is not ready at CMD13
      wrong    line 32: CMD12 comes to a card in prg state, where it is not legal
      again    line 32: CMD12 comes to a card in prg state, where it is not legal
  
  uboot.sdv
  line 14 app-command
      mishap   line 13: the card refuses CMD55 with an error
      wrong    line 14: CMD41 comes to a card in idle state without the application flag
  line 15 app-command
      mishap   line 13: the card refuses CMD55 with an error
      wrong    line 15: CMD41 comes to a card in idle state without the application flag
  line 17 state
      mishap   line 17: the answer to CMD2 is lost
      wrong    line 17: CMD2 comes to a card in ident state, where it is not legal
  line 19 state
      mishap   line 18: the card refuses CMD3 with an error
      wrong    line 19: CMD9 comes to a card in ident state, where it is not legal
  line 22 app-command
  line 22 state
      mishap   line 20: the card refuses CMD7 with an error
      wrong    line 22: CMD51 comes to a card in stby state, where it is not legal
  line 22 data-phase
      mishap   line 22: the card refuses CMD51 with an error
      wrong    line 22: REG 8 comes to a card in tran state with no register due
  line 24 app-command
      mishap   line 23: the card refuses CMD55 with an error
      wrong    line 24: CMD6 comes to a card in tran state without the application flag
  line 28 block-length
      mishap   line 27: the card refuses CMD16 with an error
      wrong    line 28: CMD17 comes to a card in tran state whose block length is not 512 bytes
  line 29 data-phase
  line 29 data-lines
      mishap   line 24: the card refuses CMD6 with an error
      wrong    line 29: IN 1 comes to a card in data state that uses other data lines than the host
  line 32 data-phase
      mishap   line 31: the card refuses CMD24 with an error
      wrong    line 32: OUT 1 comes to a card in tran state with no write of blocks due
      again    line 14: CMD41 comes to a card in idle state without the application flag
      again    line 15: CMD41 comes to a card in idle state without the application flag
      again    line 17: CMD2 comes to a card in ident state, where it is not legal
      again    line 19: CMD9 comes to a card in ident state, where it is not legal
      again    line 22: CMD51 comes to a card in stby state, where it is not legal
      again    line 22: REG 8 comes to a card in tran state with no register due
      again    line 24: CMD6 comes to a card in tran state without the application flag
      again    line 28: CMD17 comes to a card in tran state whose block length is not 512 bytes
      again    line 29: IN 1 comes to a card in data state that uses other data lines than the host
      again    line 32: OUT 1 comes to a card in tran state with no write of blocks due
  
  uboot_read_many.sdv
  line 23 state
      mishap   line 24: the answer to CMD18 is lost
      wrong    line 23: CMD16 comes to a card in data state, where it is not legal
      again    line 23: CMD16 comes to a card in data state, where it is not legal

A schedule that digits cannot say is written by name, with the numbers of the events.

  $ rm -rf runs; mkdir runs; sdv verify $EXAMPLES/hosts/linux_write.sdv --save runs > told; cat runs/*.schedule
  event 16: CRC status lost
  event 17: not ready

Scripts that have a certificate have no run that breaks them.

  $ for script in $EXAMPLES/*.sdv $EXAMPLES/hosts/*_mended.sdv $EXAMPLES/hosts/linux_read_many.sdv $EXAMPLES/production/*.sdv; do
  >   case $script in */refused_*) ;; *) sdv verify $script;; esac
  > done 2>&1 | grep -c 'wrong'
  0
  [1]

A script that is refused out of caution: an answer that is not taken by the case `clean` is not taken by `clean & ready` either.

  $ sed 's/^done$/send 13 { clean { } clean \& ready { send 2 { else { } } } else { } }\ndone/' $EXAMPLES/sd_bring_up.sdv > caution.sdv
  $ sdv certify caution.sdv; sdv verify caution.sdv
  refused Illegal point 23 shape 0000000000002804
  caution.sdv:14:37: error: CMD2 is not legal in tran state [state]
      card     tran: byte addresses, block length 512
      hint     the card may be selected: begin anew with CMD0
  caution.sdv:14:37: note: no card of the state tables breaks the script; it is refused because the certificate cannot tell some cases apart [unbroken]
  caution.sdv: refused (1 error, 1 note)
  [1]

The same where the second case can be taken.

  $ sed 's/clean & ready/ready/' caution.sdv > ready.sdv; sdv verify ready.sdv | sed -n '/^    [mw]/p'
      mishap   line 14: the answer to CMD13 shows an error
      wrong    line 14: CMD2 comes to a card in tran state, where it is not legal

The run with the fewest mishaps, though the first loop breaks the script where it goes wrong in each of its 1,000 turns.

  $ sed 's/^done$/loop 1000 { send 13 { clean { break } else { } } } else { send 2 { else { } } }\nsend 13 { clean { } else { send 13 { clean { } else { send 13 { clean { } else { send 13 { clean { } else { send 2 { else { } } } } } } } } } }\ndone/' $EXAMPLES/sd_bring_up.sdv > fewest.sdv
  $ sdv verify fewest.sdv | sed -n '/error\|^    [mw]/p'
  fewest.sdv:14:59: error: CMD2 is not legal in tran state [state]
      mishap   line 14: CMD13 is lost, 1000 times
      wrong    line 14: CMD2 comes to a card in tran state, where it is not legal
  fewest.sdv:15:109: error: CMD2 is not legal in tran state [state]
      mishap   line 15: CMD13 is lost
      mishap   line 15: CMD13 is lost
      mishap   line 15: CMD13 is lost
      mishap   line 15: CMD13 is lost
      wrong    line 15: CMD2 comes to a card in tran state, where it is not legal
  fewest.sdv: refused (2 errors)

Runs may be long, or each may take much memory. The search counts that, and ends in time.

  $ printf 'card sd\nflags f\nsend 0 { else { } }\nloop 65535 { loop 65535 { loop 65535 { set f } else { } } else { } } else { }\ndone\n' > quiet.sdv; timeout 9 sdv verify quiet.sdv | sed -n '/^    [mw]/p;$p'
  quiet.sdv: refused (1 error)
  $ sed 's/loop 65535 { \(.*\) } else { } } else { }$/\1 } else { }/' quiet.sdv > two.sdv; tail -n 2 two.sdv; timeout 9 sdv verify two.sdv | sed -n '/^    [mw]/p;$p'
  loop 65535 { loop 65535 { set f } else { } } else { }
  done
  two.sdv: refused (1 error)
  $ sed 's/loop 65535 { loop 65535/loop 300 { loop 300/' two.sdv > short.sdv; timeout 9 sdv verify short.sdv | sed -n '/^    [mw]/p;$p'
      mishap   none
      wrong    line 5: done comes to a card in idle state
  short.sdv: refused (1 error)
  $ (printf 'card sd\nflags f\nsend 0 { else { } }\nloop 65535 {\n'; for n in $(seq 4000); do echo set f; done; printf 'send 0 { else { } }\n} else { }\ndone\n') > sets.sdv; timeout 20 sdv verify sets.sdv | tail -n 1
  sets.sdv: refused (1 error)
  $ (sed '/^done$/d' $EXAMPLES/sd_bring_up.sdv; printf 'send 13 { clean { } else { send 25 at by hc 0 count 65535 { else { } } } }\nloop 65535 { send 13 { else { } } } else { }\ndone\n') > room.sdv; timeout 20 sdv verify room.sdv | sed -n '/^    [mw]/p'
      mishap   line 14: CMD13 is lost
      wrong    line 14: CMD25 comes to a card in tran state, which has not so many blocks
  $ timeout 9 sdv explain --why room.sdv 2>&1 | sed -n '4,9p'
  why: the card may not have all blocks at by hc 0; what is known: the card has 1 block or more; cap is from 1 to 4294967296, not beyond the card's end
  a run that breaks the script, beside a simulated card:
      mishap   line 14: CMD13 is lost
      wrong    line 14: CMD25 comes to a card in tran state, which has not so many blocks
      `sdv verify --save DIR` leaves its card and its schedule in DIR
  a way there:

What breaks this script is an answer of CMD55 without an error and without APP_CMD.

  $ sed 's/ app { send 41/ clean { send 41/' $EXAMPLES/sd_bring_up.sdv > unasked.sdv; sdv verify unasked.sdv --save one; cat one/1.schedule
  unasked.sdv:7:31: error: CMD41: this is an application command, and the card may not take the next command as one [app-command]
      card     idle: byte addresses, block length not 512
      hint     go on in the case `app` of CMD55, which is taken only where the card takes an application command next
      mishap   line 7: the answer to CMD55 lacks APP_CMD
      wrong    line 7: CMD41 comes to a card in idle state without the application flag
      then     CMD41 40ff8000 timeout
      then     fault lost41
      left     the card in idle state
      again    sdv try unasked.sdv one/1.card new:1024 one/1.schedule
  unasked.sdv: refused (1 error)
  event 3: no APP_CMD
  $ sdv try unasked.sdv one/1.card new:1024 one/1.schedule 2>&1 | tail -n 2
  wrong CMD41 40ff8000
  line 7: CMD41 comes to a card in idle state without the application flag

What breaks these is an answer that is lost, or shows an error, while the card programs: CMD16 follows.

  $ (sed '/^done$/d' $EXAMPLES/sd_bring_up.sdv; printf 'send 24 at by hc 0 { clean { give { ok { } else { fault cut } } } else { fault unwritten } }\nsend 13 { clean { wait { ok { } else { fault late } } } answer { send 16 { else { } } fault wrong } else { fault lost } }\ndone\n') > shown.sdv
  $ sed 's/answer { send 16 { else { } } fault wrong } else { fault lost }/answer { fault wrong } else { send 16 { else { } } fault lost }/' shown.sdv > lost.sdv
  $ for name in shown lost; do sdv verify $name.sdv --save one | sed -n '/^    [mw]/p'; cat one/1.schedule; done
      mishap   line 15: the answer to CMD13 shows an error while the card is busy
      wrong    line 15: CMD16 comes to a card in prg state, where it is not legal
  event 12: error while busy
      mishap   line 15: CMD13 is lost, and the card is still busy
      wrong    line 15: CMD16 comes to a card in prg state, where it is not legal
  event 12: lost while busy

What breaks these is a card that is too small for their address: they read block 8, or block 2, without a test of the capacity.

  $ read='send 17 at by hc N { clean { recv { ok { } else { fault cut } } } else { fault unread } }'
  $ for kind in sd emmc; do sed "s/^done$/$(echo "$read" | sed s/N/8/)\ndone/" $EXAMPLES/${kind}_bring_up.sdv > eighth.sdv; sdv verify eighth.sdv --save one | sed -n '/^    [mwa]/p'; cat one/1.card; done
      mishap   none
      wrong    line 14: CMD17 comes to a card in tran state, which has not so many blocks
      again    sdv try eighth.sdv one/1.card new:8 one/1.schedule
  card sd
  version 2
  unit byte
  csize 1
  cmult 0
  rbl 9
  rca 4660
      mishap   none
      wrong    line 13: CMD17 comes to a card in tran state, which has not so many blocks
      again    sdv try eighth.sdv one/1.card new:520 one/1.schedule
  card emmc
  unit block
  sectors 8
  boot 1
  $ sdv try eighth.sdv one/1.card new:520 2>&1 | tail -n 2
  wrong CMD17 00000008
  line 13: CMD17 comes to a card in tran state, which has not so many blocks
  $ sed "s/^done$/$(echo "$read" | sed s/N/2/)\ndone/" $EXAMPLES/emmc_bring_up.sdv > second.sdv; sdv verify second.sdv --save one | sed -n '/^    [mwa]/p'; cat one/1.card
      mishap   none
      wrong    line 13: CMD17 comes to a card in tran state, which has not so many blocks
      again    sdv try second.sdv one/1.card new:514 one/1.schedule
  card emmc
  unit block
  sectors 2
  boot 1

What breaks these is a card of exactly the capacity that they test: an address lies a block past it.

  $ for change in 's/hc 8 count 8/hc 9 count 8/ production/sd_read_many' 's/hc 15/hc 16/ production/emmc_erase_range' 's/hc 255/hc 256/ emmc_boot_read' 's/hc 8/hc 16/ sd_erase'; do
  >   sed "${change% *}" $EXAMPLES/${change##* }.sdv > past.sdv; sdv verify past.sdv --save one | sed -n '/^    [mwa]/p'; tail -n +3 one/1.card
  > done
      mishap   none
      wrong    line 19: CMD18 comes to a card in tran state, which has not so many blocks
      again    sdv try past.sdv one/1.card new:16 one/1.schedule
  unit byte
  csize 3
  cmult 0
  rbl 9
  rca 4660
      mishap   none
      wrong    line 19: CMD36 comes to a card in tran state, which has not so many blocks
      again    sdv try past.sdv one/1.card new:528 one/1.schedule
  sectors 16
  boot 1
      mishap   none
      wrong    line 21: CMD17 comes to a card in tran state, which has not so many blocks
      again    sdv try past.sdv one/1.card new:1536 one/1.schedule
  sectors 1024
  boot 1
      mishap   none
      wrong    line 15: CMD32 comes to a card in tran state, which has not so many blocks
      again    sdv try past.sdv one/1.card new:16 one/1.schedule
  unit byte
  csize 3
  cmult 0
  rbl 9
  rca 4660

The same where the test is of a number that was taken from the capacity, or where the address is in a variable; and of a greater capacity, as a card with block addresses has it.

  $ for test in 'let n = cap - 8 if n >= 92 { READ 100 } else { }' 'let n = 90 if cap >= 100 { READ n + 10 } else { }' 'if cap < 4096 { fault small } else { READ 4096 }'; do
  >   (sed '/^done$/d; s/^nums cap/nums cap n/' $EXAMPLES/sd_bring_up.sdv; echo "$test done" | sed "s/READ \([^}]*\) }/$(echo "$read" | sed 's/N/\\1/') }/") > tests.sdv; sdv verify tests.sdv --save one | sed -n '/^    [wa]/p'; tail -n +3 one/1.card
  > done
      wrong    line 14: CMD17 comes to a card in tran state, which has not so many blocks
      again    sdv try tests.sdv one/1.card new:100 one/1.schedule
  unit byte
  csize 24
  cmult 0
  rbl 9
  rca 4660
      wrong    line 14: CMD17 comes to a card in tran state, which has not so many blocks
      again    sdv try tests.sdv one/1.card new:100 one/1.schedule
  unit byte
  csize 24
  cmult 0
  rbl 9
  rca 4660
      wrong    line 14: CMD17 comes to a card in tran state, which has not so many blocks
      again    sdv try tests.sdv one/1.card new:4096 one/1.schedule
  unit block
  csize 3
  rca 4660

What breaks this one is a card whose block length is not 512.

  $ sed '/^send 16/d' $EXAMPLES/sd_write_poll.sdv > long.sdv; sdv verify long.sdv --save one | sed -n '/^    [mw]/p'; cat one/1.card
      mishap   none
      wrong    line 14: CMD24 comes to a card in tran state whose block length is not 512 bytes
  card sd
  version 2
  unit byte
  csize 63
  cmult 0
  rbl 10
  rca 4660

With a test no card breaks it.

  $ sed "s/^done$/if cap >= 9 { $(echo "$read" | sed s/N/8/) } else { }\ndone/" $EXAMPLES/emmc_bring_up.sdv > tested.sdv; sdv verify tested.sdv
  tested.sdv: accepted, at most 1008 commands

What breaks this one is a card with block addresses that is ready without a CMD8, and no simulated card is so.

  $ printf 'card sd\nsend 0 { else { } }\nsend 55 { app { send 41 0x40ff8000 { ocr.ready & ocr.block { send 0 { else { } } send 2 { else { } } } else { } } } else { } }\nfault stop\n' > unchecked.sdv
  $ sdv verify unchecked.sdv
  unchecked.sdv:3:82: error: CMD2 is not legal in idle state [state]
      card     idle: block addresses
      hint     the bring-up may not have come so far: end the run where it fails
      path     of the greatest card with block addresses; no simulated card was found that breaks the script
      a way there:
          before the first command    idle: block addresses
          line 2   CMD0                    -                                    then idle: block addresses
          line 3   CMD55                   status idle, application command next then idle, application command next: block addresses
                       takes `app`
          line 3   CMD41                   answer, ready, block addresses       then ready: block addresses
                       takes `ocr.ready & ocr.block`
          line 3   CMD0                    -                                    then idle: block addresses
  unchecked.sdv: refused (1 error)
  [1]
  $ sdv verify unchecked.sdv --json | head -n 1
  {"card":"idle: block addresses","column":82,"file":"unchecked.sdv","hint":"the bring-up may not have come so far: end the run where it fails","kind":"state","line":3,"path":"    path     of the greatest card with block addresses; no simulated card was found that breaks the script\n    a way there:\n        before the first command    idle: block addresses\n        line 2   CMD0                    -                                    then idle: block addresses\n        line 3   CMD55                   status idle, application command next then idle, application command next: block addresses\n                     takes `app`\n        line 3   CMD41                   answer, ready, block addresses       then ready: block addresses\n                     takes `ocr.ready & ocr.block`\n        line 3   CMD0                    -                                    then idle: block addresses\n","point":4,"severity":"error","shape":"0000000000002c00","text":"CMD2 is not legal in idle state"}

The same of `done`, of an address in the wrong unit, and of blocks that the greatest card has not.

  $ sed 's/send 0 { else { } } send 2 { else { } }/done/' unchecked.sdv > undone.sdv; sdv verify undone.sdv | sed -n '2,7p'
      card     ready: block addresses
      hint     the bring-up may not have come so far: end the run in a fault where it fails
      path     of the greatest card with block addresses; no simulated card was found that breaks the script
      a way there:
          before the first command    idle: block addresses
          line 2   CMD0                    -                                    then idle: block addresses
  $ for at in 'at block' 'at by hc'; do
  >   sed "s/^nums cap/nums cap n/; s/^done/if cap >= 4194304 { let n = cap + 1 send 17 $at n { answer { } else { } } } else { }\ndone/" $EXAMPLES/sd_bring_up.sdv > above.sdv; sdv verify above.sdv | sed -n '/error:/p;/^    path/p'
  > done
  above.sdv:14:37: error: CMD17 at block n needs a card with block addresses [address]
      path     of the greatest card with byte addresses; no simulated card was found that breaks the script
  above.sdv:14:37: error: CMD17 at block n: the card may not have all blocks at block n; what is known: the card has 4194304 blocks or more; cap is from 4194304 to 4294967296, not beyond the card's end; n is from 4194305 to 4294967297 [capacity]
  above.sdv:15:1: error: done: at done the card has to be in the transfer state; CMD12 ends a transfer [end-state]
  above.sdv:14:37: error: CMD17 at by hc n: the card may not have all blocks at by hc n; what is known: the card has 4194304 blocks or more; cap is from 4194304 to 4294967296, not beyond the card's end; n is from 4194305 to 4294967297 [capacity]
      path     of the greatest card with byte addresses; no simulated card was found that breaks the script
  above.sdv:15:1: error: done: at done the card has to be in the transfer state; CMD12 ends a transfer [end-state]

Nothing is written where no run was found.

  $ mkdir none; sdv verify $EXAMPLES/smallest.sdv unchecked.sdv --save none > told; ls none

Schedules by name: which mishap comes at which event of a run. Each line does what its digit does at the number of the event.

  $ card=$EXAMPLES/sd_block.card; image=new:1024; script=$EXAMPLES/hosts/linux_read.sdv
  $ as() {
  >   printf "$1" > names; printf "$2" > digits; sdv try $script $card $image names > named 2>&1
  >   sdv try $script $card $image digits > told 2>&1; grep 'no effect' named; grep -v 'no effect' named | cmp - told && tail -n 1 told
  > }
  $ as 'CMD8: command lost' 01; as 'CMD8: lost' 01
  fault unready
  fault unready
  $ as 'CMD41: answer lost' 0002
  line 14: CMD55 comes to a card in ready state, where it is not legal
  $ as 'CMD41: not ready' 0003; grep -c CMD41 named
  done
  2
  $ as 'CMD3: error shown' 000004
  done
  $ as 'CMD7: refused' 00000005
  line 28: CMD51 comes to a card in stby state, where it is not legal
  $ as '2nd line 33: phase cut' 000000000000006; as '2nd line 33: cut' 000000000000006; grep cut named
  done
  done
  IN 1 cut
  $ script=$EXAMPLES/emmc_eight_lines.sdv card=$EXAMPLES/emmc_block.card image=new:2048; as 'CMD6: switch fails' 0000000007
  fault sw

Events by line, by command and by application command, with an ordinal where it is not the first.

  $ card=$EXAMPLES/sd_block.card; image=new:1024; script=$EXAMPLES/hosts/linux_read.sdv
  $ as 'line 28: lost' 000000001; as '1st line 28: lost' 000000001; as '2nd CMD55: lost' 000000001
  fault noscr
  fault noscr
  fault noscr
  $ as '3rd line 28: cut' 00000000006
  fault noscr
  $ as '3rd CMD55: refused' 000000000005
  fault nolines
  $ as 'ACMD6: refused' 0000000000005; as 'CMD6: refused' 0000000000005
  line 33: IN 1 comes to a card in data state that uses other data lines than the host
  line 33: IN 1 comes to a card in data state that uses other data lines than the host
  $ as 'ACMD17: lost' ''; as 'CMD17: lost' 00000000000001
  names:1: no effect: ACMD17 was never sent
  done
  done

Events by their number in the run, which begins with 1. A second event with a number does not come.

  $ as 'event 2: lost' 01; as '1st event 2: lost' 01; as 'event 9: lost' 000000001; as 'event 00011: cut' 00000000006
  fault unready
  fault unready
  fault noscr
  fault noscr
  $ as 'event 0: lost\nevent 16: lost\nevent 4294967295: lost\n2nd event 2: lost\n' ''
  names:1: no effect: the first event is event 1
  names:2: no effect: the run made 15 events
  names:3: no effect: the run made 15 events
  names:4: no effect: event 2 comes once
  done
  $ as 'event 5: not ready\nevent 4: not ready\nevent 6: answer lost\n' 000302
  line 14: CMD55 comes to a card in ready state, where it is not legal

The CRC status of a write is lost: the phase is cut for the host, and the card programs the blocks. There is no digit for it.

  $ head -c 4096 /dev/zero | tr '\0' x > blocks; write=$EXAMPLES/hosts/linux_write.sdv
  $ for names in '2nd line 31: CRC status lost' 'event 16: CRC status lost' '2nd line 31: cut'; do
  >   echo "$names" > names; head -c 524288 /dev/zero > image; sdv try $write $card image names --in blocks | sed -n '16,17p'; tr -d '\0' < image | wc -c
  > done
  OUT 1 cut
  CMD13 12340000 R1 00000900
  512
  OUT 1 cut
  CMD13 12340000 R1 00000900
  512
  OUT 1 cut
  CMD13 12340000 R1 00000d00
  512
  $ printf '2nd line 31: CRC status lost\nevent 17: not ready\n' > names; sdv try $write $card new:1024 names --in blocks | tail -n 2
  line 32: CMD12 comes to a card in prg state, where it is not legal
  CMD13 12340000 R1 00000e00
  wrong CMD12 00000000
  $ printf 0000000000000008 > names; sdv try $write $card new:1024 names --in blocks
  card fault Description
  [1]

In an open transfer the blocks are stored, and the card waits for CMD12. Elsewhere these words say nothing.

  $ printf '2nd line 31: CRC status lost' > names; head -c 524288 /dev/zero > image
  $ sdv try $EXAMPLES/hosts/linux_write_many.sdv $card image names --in blocks | sed -n '15,19p'; tr -d '\0' < image | wc -c
  run fault Input
  CMD25 00000008 R1 00000900
  OUT 8 cut
  CMD13 12340000 R1 00000d00
  CMD12 00000000 R1 00000d00
  CMD13 12340000 R1 00000900
  4096
  $ as 'CMD17: CRC status lost\n2nd line 33: CRC status lost\n3rd line 28: CRC status lost\nCMD6: CRC status lost\n' ''
  done

CMD55 is taken as an ordinary command: its answer lacks APP_CMD, and the card expects no application command. At other events
these words say nothing.

  $ for names in 'CMD55: no APP_CMD' 'line 11: no APP_CMD' 'event 3: no APP_CMD'; do
  >   echo "$names" > names; sdv try $EXAMPLES/hosts/seabios.sdv $card new:1024 names 2>&1 | tail -n 3
  > done
  CMD55 00000000 R1 00000100
  wrong CMD41 40ff8000
  line 12: CMD41 comes to a card in idle state without the application flag
  CMD55 00000000 R1 00000100
  wrong CMD41 40ff8000
  line 12: CMD41 comes to a card in idle state without the application flag
  CMD55 00000000 R1 00000100
  wrong CMD41 40ff8000
  line 12: CMD41 comes to a card in idle state without the application flag
  $ as 'CMD17: no APP_CMD\n2nd line 33: no APP_CMD\n3rd line 28: no APP_CMD\nCMD6: no APP_CMD\nCMD41: no APP_CMD\nCMD0: no APP_CMD\n' ''
  done

A command is lost, or answered with an error, while the card is busy: it still programs. Where a command is lost otherwise, or an
error is shown, the card is ready by then.

  $ for names in 'event 17: lost while busy\nevent 18: not ready' 'event 17: lost\nevent 18: not ready' 'event 17: error while busy' 'event 17: error shown'; do
  >   printf "$names" > names; sdv try $write $card new:1024 names --in blocks 2>&1 | sed -n '17,18p'
  > done
  CMD13 12340000 timeout
  CMD13 12340000 R1 00000e00
  CMD13 12340000 timeout
  CMD13 12340000 R1 00000900
  CMD13 12340000 R1 00080e00
  CMD13 12340000 R1 00000900
  CMD13 12340000 R1 00080900
  CMD13 12340000 R1 00000900

So with a read whose phase is still to come: the card does not end it by itself.

  $ sed 's/^done$/send 17 at by hc 3 { else { } } send 13 { else { } } send 13 { else { } } recv { ok { } else { fault cut } } send 13 { else { } } done/' $EXAMPLES/sd_bring_up.sdv > open.sdv
  $ printf 'event 11: error while busy\nevent 12: lost while busy\nevent 14: error while busy\n' > names; sdv try open.sdv $EXAMPLES/sd_byte.card new:16 names | tail -n 6
  CMD17 00000600 R1 00000900
  CMD13 00010000 R1 00080b00
  CMD13 00010000 timeout
  IN 1 ok
  CMD13 00010000 R1 00080900
  done

Where the card is not busy, these words say the same as the shorter ones. At phases and at CMD0 they say nothing.

  $ as 'CMD8: lost while busy' 01; as 'CMD3: error while busy' 000004
  fault unready
  done
  $ as '2nd line 33: lost while busy\n3rd line 28: error while busy\nCMD0: lost while busy\n' ''
  done

Several lines, in any order. The first one that names an event counts. A mishap may make the event that another names.

  $ as '2nd CMD41: answer lost\nCMD41: not ready\n' 000302; as 'CMD41: not ready\n2nd line 16: answer lost\n' 000302
  line 14: CMD55 comes to a card in ready state, where it is not legal
  line 14: CMD55 comes to a card in ready state, where it is not legal
  $ as '2nd CMD41: answer lost\n' ''
  names:1: no effect: CMD41 was sent once
  done
  $ as 'CMD41: answer lost\nline 16: not ready\n' 0002; as 'line 16: not ready\nCMD41: answer lost\n' 0003
  line 14: CMD55 comes to a card in ready state, where it is not legal
  done
  $ i=1; while [ $i -le 30 ]; do case $i in 21) s=st;; 22) s=nd;; 23) s=rd;; 1) s=st;; 2) s=nd;; 3) s=rd;; *) s=th;; esac; echo "$i$s CMD41: not ready"; i=$((i + 1)); done > names
  $ sdv try $script $card $image names > named; grep -c CMD41 named; tail -n 1 named
  31
  done

A line whose event does not come has no effect: that is said of each, and the status is 1. A line of which another one names the event, or whose event cannot have the mishap, is not told.

  $ script=$EXAMPLES/sd_bring_up.sdv
  $ printf 'CMD8: not ready\n# none\nline 999: lost\n9th CMD41: lost\nCMD55: not ready\nCMD41: not ready\n2nd CMD8: lost\n' > names; sdv try $script $card $image names | tail -n 1
  names:3: no effect: the script never came to line 999
  names:4: no effect: CMD41 was sent 2 times
  names:7: no effect: CMD8 was sent once
  done
  $ sdv try $script $card $image names > /dev/null 2>&1
  [1]
  $ printf 'CMD41: not ready\nline 16: lost\nCMD41: answer lost\nCMD0: cut\n' | sdv try $script $card $image - | tail -n 1
  -:2: no effect: the script never came to line 16
  done
  $ printf 'CMD41: not ready\nCMD41: answer lost\nCMD0: cut\n' > names; sdv try $script $card $image names | tail -n 1
  done

It is said too where the script ends in a fault, and before the reason where a run comes to what is not allowed. A run that is stopped says its own reason alone.

  $ printf 'CMD7: lost\nCMD16: lost\n' > names; sdv try $script $card $image names | tail -n 1
  names:2: no effect: CMD16 was never sent
  fault select
  $ printf 'CMD55: no APP_CMD\nACMD41: lost\n' > names; sdv try $EXAMPLES/hosts/seabios.sdv $card $image names 2>&1 > /dev/null
  names:2: no effect: ACMD41 was never sent
  line 12: CMD41 comes to a card in idle state without the application flag
  [1]
  $ printf 'CMD12: lost\n' > names; sdv try $EXAMPLES/hosts/linux_write.sdv $card $image names 2>&1 > /dev/null
  run fault Input
  [1]

Comments, blank lines, blanks and ends of lines of either sort may stand there.

  $ script=$EXAMPLES/hosts/linux_read.sdv
  $ as 'CMD25: lost\nline 1: lost\nline 4294967295: lost\n4294967294th CMD0: lost\n111th CMD0: cut\n' ''
  names:1: no effect: CMD25 was never sent
  names:2: no effect: the script never came to line 1
  names:3: no effect: the script never came to line 4294967295
  names:4: no effect: CMD0 was sent once
  names:5: no effect: CMD0 was sent once
  done
  $ as '# CMD8 alone\r\n\r\n \t\n\tCMD8:\t lost # the first\r\n' 01; as 'CMD008:lost' 01; as '# none\n' ''
  fault unready
  fault unready
  done
  $ as '' ''; as ' \r\n\n' ''
  done
  done

Files with a letter are read by name, and others as digits.

  $ for text in 0a1 1: '#' '2nd' 012; do printf "$text" > names; sdv try $script $card $image names > named 2>&1; echo "$? $(tail -n 1 named)"; done
  1 schedule fault: no event (CMD18, 2nd CMD18, line 31, event 12) with a colon in line 1
  1 card fault Description
  1 card fault Description
  1 schedule fault: no event (CMD18, 2nd CMD18, line 31, event 12) with a colon in line 1
  1 fault unready
  $ printf '# n\xc3\xa4chste\nCMD8: lost' > names; sdv try $script $card $image names | tail -n 1; printf 'CMD8: lost\377' > names; sdv try $script $card $image names
  fault unready
  schedule fault: no mishap (command lost, answer lost, not ready, error shown, refused, phase cut, switch fails, CRC status lost, no APP_CMD, lost while busy, error while busy, write fails, time passes, OUT_OF_RANGE, ERASE_SEQ_ERROR, ILLEGAL_COMMAND, other block length, answer lost with other address, refused with other address, switch error kept) in line 1
  [1]

Lines that name no event.

  $ for line in 'CMD64: lost' 'ACMD64: lost' 'CMD: lost' 'CMD55 lost' 'CMD55 : lost' '0th CMD55: lost' '1th CMD55: lost' '2st CMD55: lost' '11st CMD55: lost' '2ndCMD55: lost' '2nd' 'line: lost' 'line x: lost' 'line 4294967296: lost' '4294967296th CMD55: lost' '99999999999999999999999th CMD55: lost' 'cmd55: lost' 'WAIT: not ready' 'done: lost' ': lost' 'event: lost' 'event x: lost' 'event4: lost' 'event 4294967296: lost' '1th event 4: lost'; do
  >   printf "$line" > names; sdv try $script $card $image names 2>&1 | grep -v 'no event (CMD18, 2nd CMD18, line 31, event 12) with a colon in line 1$'
  > done; echo all of them
  all of them
  $ printf 'CMD55: lost\n\n# more\nCMD: lost\nCMD55: none\n' > names; sdv try $script $card $image names
  schedule fault: no event (CMD18, 2nd CMD18, line 31, event 12) with a colon in line 4
  [1]

Lines that name no mishap.

  $ for line in 'CMD55: late' 'CMD55:' 'CMD55: lost twice' 'CMD55: lostly' 'CMD55: 1' 'CMD55: Lost' 'CMD55: answer  lost' 'CMD55: lost; CMD41: lost' 'CMD55: status lost' 'CMD55: CRC status' 'CMD55: no app_cmd' 'CMD55: lost while' 'CMD55: while busy' 'CMD55: error'; do
  >   printf "$line" > names; sdv try $script $card $image names 2>&1 | sed 's/(.*) //'
  > done
  schedule fault: no mishap in line 1
  schedule fault: no mishap in line 1
  schedule fault: no mishap in line 1
  schedule fault: no mishap in line 1
  schedule fault: no mishap in line 1
  schedule fault: no mishap in line 1
  schedule fault: no mishap in line 1
  schedule fault: no mishap in line 1
  schedule fault: no mishap in line 1
  schedule fault: no mishap in line 1
  schedule fault: no mishap in line 1
  schedule fault: no mishap in line 1
  schedule fault: no mishap in line 1
  schedule fault: no mishap in line 1
  $ printf '\r\nCMD55: is lost\r\n' > names; sdv try $script $card $image names
  schedule fault: no mishap (command lost, answer lost, not ready, error shown, refused, phase cut, switch fails, CRC status lost, no APP_CMD, lost while busy, error while busy, write fails, time passes, OUT_OF_RANGE, ERASE_SEQ_ERROR, ILLEGAL_COMMAND, other block length, answer lost with other address, refused with other address, switch error kept) in line 2
  [1]

At most 64 lines name a mishap.

  $ for i in 1 2 3 4 5 6 7 8; do for j in 1 2 3 4 5 6 7 8; do echo 'CMD8: lost'; done; done > names; sdv try $script $card $image names | tail -n 1
  fault unready
  $ echo >> names; echo '# one more' >> names; sdv try $script $card $image names | tail -n 1
  fault unready
  $ echo 'CMD9: lost' >> names; sdv try $script $card $image names
  schedule fault: more than 64 mishaps
  [1]

A wrong line is told once the file is read, before anything is said of the others but that they can be read. Nothing is written.

  $ printf 'CMD55: none' > names; printf 'card\n' > none.sdv; head -c 511 /dev/zero > odd; sdv try none.sdv none.sdv odd names --in nofile
  schedule fault: no mishap (command lost, answer lost, not ready, error shown, refused, phase cut, switch fails, CRC status lost, no APP_CMD, lost while busy, error while busy, write fails, time passes, OUT_OF_RANGE, ERASE_SEQ_ERROR, ILLEGAL_COMMAND, other block length, answer lost with other address, refused with other address, switch error kept) in line 1
  [1]
  $ sdv try $script nofile odd names
  cannot use nofile
  [2]
  $ printf x > out; sdv try $script $card $image names --out out || wc -c < out
  schedule fault: no mishap (command lost, answer lost, not ready, error shown, refused, phase cut, switch fails, CRC status lost, no APP_CMD, lost while busy, error while busy, write fails, time passes, OUT_OF_RANGE, ERASE_SEQ_ERROR, ILLEGAL_COMMAND, other block length, answer lost with other address, refused with other address, switch error kept) in line 1
  1
  $ printf 'CMD8: lost' > names; sdv try none.sdv none.sdv odd names
  card fault ImageLength
  [1]
  $ sdv try none.sdv none.sdv new:16 names
  script fault Syntax line 2
  [1]
  $ sdv try $script none.sdv new:16 names
  card fault Description
  [1]
  $ sdv try $script $EXAMPLES/emmc_block.card new:16 names
  the script is for another kind of card
  [1]
  $ sdv try $script $card new:16 names
  card fault ImageLength
  [1]

Where blocks are given, read or written, the run that is printed alone changes files.

  $ head -c 4096 /dev/zero | tr '\0' x > blocks; head -c 524288 /dev/zero > image; script=$EXAMPLES/hosts/linux_write_many.sdv
  $ printf 'CMD12: answer lost' > names; sdv try $script $card image names --in blocks > named; tail -n 2 named; tr -d '\0' < image | wc -c
  run fault Input
  CMD13 12340000 R1 00000900
  CMD25 00000008 R1 00000900
  4096
  $ printf 000000000000000020 > digits; head -c 524288 /dev/zero > other; sdv try $script $card other digits --in blocks | cmp - named; cmp image other
  run fault Input
  $ printf 'CMD18: lost' > names; sdv try $EXAMPLES/hosts/linux_read_many.sdv $card image names --out read | tail -n 1; wc -c < read
  done
  4096

What `verify` tells of a run, written as names, shows the same run. On line 31 of the second script CMD12 is not the first event.

  $ head -c 1048576 /dev/zero > zeros
  $ again() {
  >   rm -rf runs; mkdir runs; sdv verify $EXAMPLES/hosts/$1.sdv --save runs > told; sed -n '/^    mishap/p' told; printf "$2" > names
  >   words=$(sed -n 's/^    again    //p' told | head -n 1); ${words% *} runs/1.schedule --in zeros > one 2> said; ${words% *} names --in zeros | cmp - one
  > }
  $ again linux_erase 'line 30: refused\n'
      mishap   line 30: the card refuses CMD32 with an error
      mishap   line 31: the card refuses CMD33 with an error
  line 31: CMD33 comes to a card in tran state whose erase sequence is not so far
  $ again linux_write_many 'CMD12: answer lost\nline 32: not ready\n'
      mishap   line 31: the answer to CMD12 is lost
      mishap   line 32: the card is not ready at CMD13
  line 32: CMD12 comes to a card in prg state, where it is not legal
  $ again uboot 'line 13: refused\n'
      mishap   line 13: the card refuses CMD55 with an error
      mishap   line 13: the card refuses CMD55 with an error
      mishap   line 17: the answer to CMD2 is lost
      mishap   line 18: the card refuses CMD3 with an error
      mishap   line 20: the card refuses CMD7 with an error
      mishap   line 22: the card refuses CMD51 with an error
      mishap   line 23: the card refuses CMD55 with an error
      mishap   line 27: the card refuses CMD16 with an error
      mishap   line 24: the card refuses CMD6 with an error
      mishap   line 31: the card refuses CMD24 with an error
  line 14: CMD41 comes to a card in idle state without the application flag
  $ again linux_write '2nd line 31: CRC status lost\nline 32: not ready\n'
      mishap   line 31: the CRC status of the phase of 1 block to the card is lost, and the card programs the blocks
      mishap   line 32: the card is not ready at CMD13
  line 32: CMD12 comes to a card in prg state, where it is not legal
  $ again uboot_read_many 'line 24: answer lost\n'
      mishap   line 24: the answer to CMD18 is lost
  line 23: CMD16 comes to a card in data state, where it is not legal

Names are for `try` alone.

  $ printf 'CMD8: lost' > names; sdv run $EXAMPLES/sd_bring_up.sdv $EXAMPLES/sd_bring_up.cert $card new:1024 names
  card fault Description
  [1]
  $ sdv card $card new:1024 names < /dev/null
  card fault Description
  [1]
  $ sdv card --describe $card names | tail -n 1
  card fault Description
  the schedule is wrong, line 1: expected a digit from 0 to 7; `try` alone takes a schedule by name

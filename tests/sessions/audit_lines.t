A script that changes the data lines of its host. No run prints that, so the audit of its trace alone takes the host for one with
one line. Beside the script it has no finding, and the lines keep their numbers.

  $ four=$EXAMPLES/sd_four_lines.sdv card=$EXAMPLES/sd_block.card; sdv certify $four > four.cert
  $ sdv run $four four.cert $card new:1024 > four.trace; sdv audit sd four.trace
  line 13: IN 1 ok: a card that answered so may be in data, a read is due, the card on 4 data lines and the host on 1 data line: block addresses; the card uses 4 data lines, and the host 1 data line
  at the end: lines before it that are not followed: 1
  14 lines, 1 reckless, 0 that no card answers, 0 of another length, 0 beyond the capacity, 0 outside, 1 not followed, 0 left out
  [1]
  $ sdv audit sd four.trace --script $four
  line 1, script line 6: CMD0 00000000 -: no answer is due
  line 2, script line 7: CMD8 000001aa R7 000001aa: the echo
  line 3, script line 8: CMD55 00000000 R1 00000120: idle, ready, APP_CMD
  line 4, script line 8: ACMD41 40ff8000 R3 c0ff8000: ready, block addresses
  line 5, script line 9: CMD2 00000000 R2 005858534456202010000000010181: CID
  line 6, script line 10: CMD3 00000000 R6 12340500: relative card address 4660, ident, ready
  line 7, script line 11: CMD9 12340000 R2 400000000009000000000000000000: CSD: 1024 blocks
  line 8, script line 12: CMD7 12340000 R1 00000700: stby, ready
  line 9, script line 13: CMD16 00000200 R1 00000900: tran, ready
  line 10, script line 15: CMD55 12340000 R1 00000920: tran, ready, APP_CMD
  line 11, script line 15: ACMD6 00000002 R1 00000920: tran, ready, APP_CMD
  line 12, script line 16: CMD17 00000000 R1 00000900: tran, ready
  line 13, script line 16: IN 1 ok: blocks from the card
  line 14, script line 17: done: the run ends
  14 lines, 0 reckless, 0 that no card answers, 0 of another length, 0 beyond the capacity, 0 outside, 0 not followed, 0 left out

JSON and a picture stand alone; the status is that of the audit.

  $ sdv audit sd four.trace --script $four --json | tail -n 1
  {"line":14,"script":17,"told":"done","text":"the run ends"}
  $ sdv audit sd four.trace --script $four --svg | tail -n 1
  </svg>
  $ printf 'card sd\nsend 0 { else { } }\nbus.lines 4\nsend 2 { else { } }\nfault stop\n' > wide.sdv
  $ printf 'CMD0 00000000 -\nCMD2 00000000 timeout\nfault stop\n' > wide.trace; sdv audit sd wide.trace --script wide.sdv
  line 1, script line 2: CMD0 00000000 -: no answer is due
  line 2, script line 4: CMD2 00000000 timeout: no answer: the tables have no such answer here
  line 3, script line 5: fault stop: the run ends
  line 2: CMD2 00000000: a card that answered so may be in idle, the card on 1 data line and the host on 4 data lines: byte addresses, block length not 512; it is not legal in idle state
  at the end: lines before it that are not followed: 1
  3 lines, 1 reckless, 0 that no card answers, 0 of another length, 0 beyond the capacity, 0 outside, 1 not followed, 0 left out
  [1]
  $ sdv audit sd wide.trace --script wide.sdv --json
  {"line":1,"script":2,"told":"CMD0 00000000 -","text":"no answer is due"}
  {"line":2,"script":4,"told":"CMD2 00000000 timeout","text":"no answer: the tables have no such answer here"}
  {"line":3,"script":5,"told":"fault stop","text":"the run ends"}
  [1]

A trial tells the data lines itself, behind the line of the event before the change. Without the flag its trace is that of a run.

  $ sdv try $four $card new:1024 --lines | tail -n 5
  CMD6 00000002 R1 00000920
  LINES 4
  CMD17 00000000 R1 00000900
  IN 1 ok
  done
  $ sdv try $four $card new:1024 --lines | sdv audit sd -
  15 lines, 0 reckless, 0 that no card answers, 0 of another length, 0 beyond the capacity, 0 outside, 0 not followed, 0 left out
  $ sdv try $four $card new:1024 > plain.trace; cmp plain.trace four.trace

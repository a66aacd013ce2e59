Audits of traces.

  $ printf 'CMD0 00000000 -\nCMD8 000001aa R7 000001aa\n' > a.trace; sdv audit sd a.trace
  2 lines, 0 reckless, 0 that no card answers, 0 of another length, 0 beyond the capacity, 0 outside, 0 not followed, 0 left out
  $ sdv audit sd - --json < a.trace
  {"lines":2,"reckless":0,"unanswered":0,"lengths":0,"beyond":0,"outside":0,"not_followed":0,"left_out":0}
  $ sdv audit sd --annotate a.trace
  line 1: CMD0 00000000 -: in idle
  line 2: CMD8 000001aa R7 000001aa: in idle
  at the end: in idle
  2 lines, 0 reckless, 0 that no card answers, 0 of another length, 0 beyond the capacity, 0 outside, 0 not followed, 0 left out

A command that is not legal in a state that the card may be in.

  $ printf 'CMD0 00000000 -\nCMD17 00000000 R1 00000900\n' > b.trace; sdv audit sd b.trace
  line 2: CMD17 00000000: a card that answered so may be in idle: byte addresses, block length not 512; it is not legal in idle state
  2 lines, 1 reckless, 0 that no card answers, 0 of another length, 0 beyond the capacity, 0 outside, 0 not followed, 0 left out
  [1]
  $ sdv audit --json sd b.trace
  {"line":2,"told":"CMD17 00000000","finding":"reckless","any_state":false,"bounded":true,"outside_before":false,"text":"a card that answered so may be in idle: byte addresses, block length not 512; it is not legal in idle state"}
  {"lines":2,"reckless":1,"unanswered":0,"lengths":0,"beyond":0,"outside":0,"not_followed":0,"left_out":0}
  [1]

What cards answer where none answers so: here the state that an answer shows is the one before the command.

  $ printf 'CMD0 00000000 -\nCMD55 00000000 R1 00000120\nCMD41 40ff8000 R3 80ff8000\nCMD2 00000000 R2 005858534456202010000000010181\nCMD3 00000000 R6 12340500\nCMD7 12340000 R1 00000900\n' | sdv audit sd - | head -n 1
  line 6: CMD7 12340000: no card answers so: R1 00000900; the tables have timeout | status stby | status stby, error

Lines outside the tables alone are no finding, and a trace may have no line.

  $ printf 'CMD0 00000000 -\nCMD5 00000000 timeout\n' | sdv audit sd -
  line 2: CMD5 00000000: outside the tables; the audit goes on as if it had not come
  2 lines, 0 reckless, 0 that no card answers, 0 of another length, 0 beyond the capacity, 1 outside, 0 not followed, 0 left out
  $ sdv audit emmc - < /dev/null
  0 lines, 0 reckless, 0 that no card answers, 0 of another length, 0 beyond the capacity, 0 outside, 0 not followed, 0 left out

What is found behind such a line rests on it, and says so. Both premises of a verdict may stand together.

  $ printf 'CMD5 00000000 timeout\nCMD0 00000000 -\nCMD17 00000000 R1 00000900\n' | sdv audit sd --json -
  {"line":1,"told":"CMD5 00000000","finding":"outside","any_state":false,"bounded":true,"outside_before":false,"text":"outside the tables; the audit goes on as if it had not come"}
  {"line":3,"told":"CMD17 00000000","finding":"reckless","any_state":false,"bounded":true,"outside_before":true,"text":"a card that answered so may be in idle: byte addresses, block length not 512; it is not legal in idle state (a line outside the tables came before it)"}
  {"lines":3,"reckless":1,"unanswered":0,"lengths":0,"beyond":0,"outside":1,"not_followed":0,"left_out":0}
  [1]

What is wrong with a line is named from the left, and what was printed before it stays.

  $ for line in 'done.' 'CMD64 00000000 -' 'CMD0 0000000 -' 'CMD0 00000000 X 00000000' 'IN 65536 ok' 'IN 1 okay' 'LINES 2'; do echo "$line" | sdv audit sd -; done
  trace fault Word line 1
  trace fault Index line 1
  trace fault Argument line 1
  trace fault Answer line 1
  trace fault Count line 1
  trace fault End line 1
  trace fault Lines line 1
  [1]
  $ printf 'CMD0 00000000 -\nCMD64 00000000 -\n' | sdv audit sd --annotate -
  line 1: CMD0 00000000 -: in idle
  trace fault Index line 2
  [1]
  $ printf 'CMD5 00000000 timeout\n' | sdv audit sd --annotate --json -
  {"line":1,"told":"CMD5 00000000 timeout","finding":"states","any_state":false,"bounded":true,"outside_before":false,"text":"in idle"}
  {"line":1,"told":"CMD5 00000000","finding":"outside","any_state":false,"bounded":true,"outside_before":false,"text":"outside the tables; the audit goes on as if it had not come"}
  {"line":1,"told":"","finding":"end","text":"in idle"}
  {"lines":1,"reckless":0,"unanswered":0,"lengths":0,"beyond":0,"outside":1,"not_followed":0,"left_out":0}

A text that is no trace, a kind that is none, a file that cannot be used, and an output that fails.

  $ printf 'CMD0 00000000 -\nCMD1x\n' | sdv audit emmc -
  trace fault Index line 2
  [1]
  $ sdv audit mmc a.trace 2> said; echo $? $(cut -c 1-26 said)
  2 usage: mmc is no KIND (sd
  $ sdv audit sd none.trace
  cannot use none.trace
  [2]
  $ sdv audit sd .
  cannot use .
  [2]
  $ sdv audit sd a.trace > /dev/full
  [2]

A line has at most 1,024 bytes; a trace is read line by line.

  $ head -c 1024 /dev/zero | sdv audit sd -
  trace fault Word line 1
  [1]
  $ head -c 1025 /dev/zero | sdv audit sd -
  trace fault Length line 1
  [1]
  $ sdv audit sd /dev/zero
  trace fault Length line 1
  [1]

No line of CMD18 and CMD25 tells how many blocks they announce; the next phase does, however far it is.

  $ printf '%s\n' 'CMD0 00000000 -' 'CMD8 000001aa R7 000001aa' 'CMD55 00000000 R1 00000120' 'CMD41 40ff8000 R3 c0ff8000' > up
  $ printf '%s\n' 'CMD2 00000000 R2 00aa585951454d552101deadbeef00' 'CMD3 00000000 R6 45670500' >> up
  $ printf '%s\n' 'CMD9 45670000 R2 400e00325b5900001fff7f800a4000' 'CMD7 45670000 R1 00000700' >> up
  $ printf '%s\n' 'CMD18 00000008 R1 00000900' 'CMD13 45670000 R1 00000b00' 'IN 4 ok' 'CMD12 00000000 R1 00000b00' | cat up - | sdv audit sd -
  12 lines, 0 reckless, 0 that no card answers, 0 of another length, 0 beyond the capacity, 0 outside, 0 not followed, 0 left out

A phase that no host makes, whatever the card answers.

  $ printf '%s\n' 'CMD24 00000008 R1 00000900' 'OUT 2 cut' | cat up - | sdv audit sd -
  line 10: OUT 2 cut: no host of the tables makes this phase: 1 due
  10 lines, 0 reckless, 0 that no card answers, 1 of another length, 0 beyond the capacity, 0 outside, 0 not followed, 0 left out
  [1]
  $ printf '%s\n' 'CMD24 00000008 R1 00000900' 'OUT 2 cut' | cat up - | sdv audit sd - --json
  {"line":10,"told":"OUT 2 cut","finding":"length","any_state":false,"bounded":true,"outside_before":false,"text":"no host of the tables makes this phase: 1 due"}
  {"lines":10,"reckless":0,"unanswered":0,"lengths":1,"beyond":0,"outside":0,"not_followed":0,"left_out":0}
  [1]

Answers that no card gives in any state.

  $ printf 'CMD0 00000000 -\nCMD8 000001aa R7 000001ab\n' | sdv audit sd -
  line 2: CMD8 000001aa: no card answers so: R7 000001ab; a card repeats the argument
  2 lines, 0 reckless, 1 that no card answers, 0 of another length, 0 beyond the capacity, 0 outside, 0 not followed, 0 left out
  [1]
  $ (head -n 5 up; echo 'CMD3 00000000 R6 00000500') | sdv audit sd -
  line 6: CMD3 00000000: no card answers so: R6 00000500; no card has the relative address 0
  6 lines, 0 reckless, 1 that no card answers, 0 of another length, 0 beyond the capacity, 0 outside, 0 not followed, 0 left out
  [1]

A card has one capacity: another C_SIZE, C_SIZE_MULT, READ_BL_LEN or structure is no answer of it. TRAN_SPEED may change by a switch, and write protection by a write of the CSD.

  $ (head -n 7 up; echo 'CMD9 45670000 R2 400e00325b5900001ffe7f800a4000') | sdv audit sd -
  line 8: CMD9 45670000: no card answers so: R2 400e00325b5900001ffe7f800a4000; the register is no CSD of the kind, or tells another capacity than before
  8 lines, 0 reckless, 1 that no card answers, 0 of another length, 0 beyond the capacity, 0 outside, 0 not followed, 0 left out
  [1]
  $ (head -n 7 up; echo 'CMD9 45670000 R2 400e00325b5a00001fff7f800a4000') | sdv audit sd - | head -n 1
  line 8: CMD9 45670000: no card answers so: R2 400e00325b5a00001fff7f800a4000; the register is no CSD of the kind, or tells another capacity than before
  $ (head -n 7 up; echo 'CMD9 45670000 R2 000e00325b5900001fff7f800a4000') | sdv audit sd - | head -n 1
  line 8: CMD9 45670000: no card answers so: R2 000e00325b5900001fff7f800a4000; the register is no CSD of the kind, or tells another capacity than before
  $ (head -n 7 up; echo 'CMD9 45670000 R2 400e005a5b5900001fff7f800a6000') | sdv audit sd -
  8 lines, 0 reckless, 0 that no card answers, 0 of another length, 0 beyond the capacity, 0 outside, 0 not followed, 0 left out

CMD7 with argument 0 deselects the card where the host waits for no answer. A host whose relative address is 0 addresses the card by the same bits: so does an accepted script, where its second CMD3 is answered by an error and address 0.

  $ printf '%s\n' 'card sd' 'send 0 { else { } }' 'send 8 { else { } }' > twice.sdv
  $ printf '%s\n' 'loop 1000 { send 55 { app { send 41 0x40ff8000 { ocr.ready { break } answer { } else { fault lost41 } } } else { fault lost55 } } } else { fault busy }' >> twice.sdv
  $ printf '%s\n' 'send 2 { answer { } else { fault cid } }' 'send 3 { clean { } else { fault rca } }' >> twice.sdv
  $ printf '%s\n' 'send 3 { answer { } else { fault again } }' 'send 7 { clean { } else { fault select } }' 'done' >> twice.sdv
  $ sdv certify twice.sdv > twice.cert
  $ (head -n 6 up; printf '%s\n' 'CMD3 00000000 R6 00002700' 'CMD7 00000000 timeout' 'fault select') > twice.trace
  $ sdv audit sd twice.trace --script twice.sdv | tail -n 3
  line 8, script line 8: CMD7 00000000 timeout: no answer: the card may be in stby or tran
  line 9, script line 8: fault select: the run ends
  9 lines, 0 reckless, 0 that no card answers, 0 of another length, 0 beyond the capacity, 0 outside, 0 not followed, 0 left out
  $ sdv audit sd twice.trace
  9 lines, 0 reckless, 0 that no card answers, 0 of another length, 0 beyond the capacity, 0 outside, 0 not followed, 0 left out
  $ sed 's/timeout/-/' twice.trace | sdv audit sd -
  9 lines, 0 reckless, 0 that no card answers, 0 of another length, 0 beyond the capacity, 0 outside, 0 not followed, 0 left out
  $ (head -n 6 up; echo 'CMD7 00000000 timeout') | sdv audit sd -
  line 7: CMD7 00000000: no card answers so: timeout
  7 lines, 0 reckless, 1 that no card answers, 0 of another length, 0 beyond the capacity, 0 outside, 0 not followed, 0 left out
  [1]

A host that is reckless behind an address that lies on no card, and behind a line outside the tables too.

  $ printf '%s\n' 'CMD0 00000000 -' 'CMD1 40ff8080 R3 c0ff8080' 'CMD2 00000000 R2 00aa585951454d552101deadbeef00' 'CMD3 00010000 R1 00000500' > e
  $ printf '%s\n' 'CMD7 00010000 R1 00000700' 'CMD24 ffffffff R1 00000900' 'OUT 1 ok' 'CMD17 00000000 R1 00000900' | cat e - | sdv audit emmc -
  line 8: CMD17 00000000: a card that answered so may be in prg: block addresses; it is not legal in prg state (an address before it may lie on no card, or a count before it is not told)
  8 lines, 1 reckless, 0 that no card answers, 0 of another length, 0 beyond the capacity, 0 outside, 0 not followed, 0 left out
  [1]
  $ printf '%s\n' 'CMD7 00010000 R1 00000700' 'CMD5 00000000 timeout' 'CMD24 ffffffff R1 00000900' 'OUT 1 ok' 'CMD17 00000000 R1 00000900' | cat e - | sdv audit emmc - | sed -n 2p
  line 9: CMD17 00000000: a card that answered so may be in prg: block addresses; it is not legal in prg state (an address before it may lie on no card, or a count before it is not told) (a line outside the tables came before it)
  $ printf '%s\n' 'CMD7 00010000 R1 00000700' | cat e - | sdv audit emmc - --annotate --json | tail -n 2
  {"line":5,"told":"","finding":"end","text":"in tran"}
  {"lines":5,"reckless":0,"unanswered":0,"lengths":0,"beyond":0,"outside":0,"not_followed":0,"left_out":0}

Blank lines and comments tell nothing of the bus, but have numbers, and white space at the end of a line is not looked at. The last line counts the comments that tell of a line which was left out or changed.

  $ printf '# a log\r\nCMD0 00000000 -\r\n\r\n# left out: CMD52 00000c00: SDIO\nCMD17 00000000 R1 00000900 \t\n#\n# changed: CMD7\n  ' > c.trace; sdv audit sd c.trace
  line 5: CMD17 00000000: a card that answered so may be in idle: byte addresses, block length not 512; it is not legal in idle state
  2 lines, 1 reckless, 0 that no card answers, 0 of another length, 0 beyond the capacity, 0 outside, 0 not followed, 2 left out
  [1]
  $ sdv audit sd c.trace --annotate --json
  {"line":2,"told":"CMD0 00000000 -","finding":"states","any_state":false,"bounded":true,"outside_before":false,"text":"in idle"}
  {"line":5,"told":"CMD17 00000000 R1 00000900","finding":"states","any_state":false,"bounded":true,"outside_before":false,"text":"in idle"}
  {"line":5,"told":"CMD17 00000000","finding":"reckless","any_state":false,"bounded":true,"outside_before":false,"text":"a card that answered so may be in idle: byte addresses, block length not 512; it is not legal in idle state"}
  {"line":8,"told":"","finding":"end","text":"in any state"}
  {"lines":2,"reckless":1,"unanswered":0,"lengths":0,"beyond":0,"outside":0,"not_followed":0,"left_out":2}
  [1]
  $ printf ' # a log\n' | sdv audit sd -
  trace fault Word line 1
  [1]
  $ printf '%s\n' 'CMD18 00000008 R1 00000900' '# a remark' '' 'IN 4 ok' 'CMD12 00000000 R1 00000b00' | cat up - | sdv audit sd -
  11 lines, 0 reckless, 0 that no card answers, 0 of another length, 0 beyond the capacity, 0 outside, 0 not followed, 0 left out

Where no state is left, no line is followed until the next CMD0. There, or at the end, it is told how many.

  $ printf '%s\n' 'CMD0 00000000 -' 'CMD8 000001aa R7 000001ab' 'CMD55 00000000 R1 00000120' 'CMD41 40ff8000 R3 c0ff8000' > d.trace; cat d.trace d.trace | sdv audit sd -
  line 2: CMD8 000001aa: no card answers so: R7 000001ab; a card repeats the argument
  line 3: CMD55 00000000: before it the card may be in any state
  line 5: CMD0 00000000: the audit begins anew
  line 6: CMD8 000001aa: no card answers so: R7 000001ab; a card repeats the argument
  line 7: CMD55 00000000: before it the card may be in any state
  8 lines, 0 reckless, 2 that no card answers, 0 of another length, 0 beyond the capacity, 0 outside, 0 not followed, 0 left out
  [1]
  $ sdv audit sd d.trace --json
  {"line":2,"told":"CMD8 000001aa","finding":"unanswered","any_state":false,"bounded":true,"outside_before":false,"text":"no card answers so: R7 000001ab; a card repeats the argument"}
  {"line":3,"told":"CMD55 00000000","finding":"any_state","any_state":true,"bounded":false,"outside_before":false,"text":"before it the card may be in any state"}
  {"lines":4,"reckless":0,"unanswered":1,"lengths":0,"beyond":0,"outside":0,"not_followed":0,"left_out":0}
  [1]

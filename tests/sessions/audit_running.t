Audits of traces that begin in a running system, or lose the state of the card.

  $ printf 'CMD18 00000008 R1 00000900\nIN 8 ok\nCMD12 00000000 R1 00000b00\nCMD13 45670000 R1 00000900\n' > running.trace
  $ printf 'CMD25 00000010 R1 00000900\nOUT 8 ok\nCMD12 00000000 R1 00000d00\nCMD13 45670000 R1 00000900\n' >> running.trace
  $ sdv audit sd running.trace
  line 1: CMD18 00000008: a card that answered so may be in idle: byte addresses, block length not 512; it is not legal in idle state
  line 2: IN 8 ok: before it the card may be in any state
  line 4: CMD13 45670000: before it the card may be in any state
  8 lines, 1 reckless, 0 that no card answers, 0 of another length, 0 beyond the capacity, 0 outside, 0 not followed, 0 left out
  [1]
  $ sdv audit sd running.trace --running
  line 1: CMD18 00000008: before it the card may be in any state
  line 4: CMD13 45670000: before it the card may be in any state
  8 lines, 0 reckless, 0 that no card answers, 0 of another length, 0 beyond the capacity, 0 outside, 0 not followed, 0 left out
  $ sdv audit sd running.trace --running --annotate
  line 1: CMD18 00000008 R1 00000900: in any state
  line 1: CMD18 00000008: before it the card may be in any state
  line 2: IN 8 ok: in data
  line 3: CMD12 00000000 R1 00000b00: in data
  line 4: CMD13 45670000 R1 00000900: in tran
  line 4: CMD13 45670000: before it the card may be in any state
  line 5: CMD25 00000010 R1 00000900: in tran or data
  line 6: OUT 8 ok: in rcv
  line 7: CMD12 00000000 R1 00000d00: in rcv
  line 8: CMD13 45670000 R1 00000900: in prg
  at the end: in tran
  8 lines, 0 reckless, 0 that no card answers, 0 of another length, 0 beyond the capacity, 0 outside, 0 not followed, 0 left out
  $ sdv audit sd running.trace --running --json
  {"line":1,"told":"CMD18 00000008","finding":"any_state","any_state":true,"bounded":false,"outside_before":false,"text":"before it the card may be in any state"}
  {"line":4,"told":"CMD13 45670000","finding":"any_state","any_state":true,"bounded":false,"outside_before":false,"text":"before it the card may be in any state"}
  {"lines":8,"reckless":0,"unanswered":0,"lengths":0,"beyond":0,"outside":0,"not_followed":0,"left_out":0}

A command that no state allows is the host's fault; an answer that no state gives is the card's.

  $ printf 'CMD13 45670000 R1 00000900\nCMD12 00000000 R1 00000900\nCMD13 45670000 R1 00000900\n' > no_transfer.trace
  $ sdv audit sd no_transfer.trace --running
  line 1: CMD13 45670000: before it the card may be in any state
  line 2: CMD12 00000000: a card that answered so may be in tran: byte addresses, block length not 512; it is not legal in tran state (no state that is left allows it)
  line 3: CMD13 45670000: before it the card may be in any state
  3 lines, 1 reckless, 0 that no card answers, 0 of another length, 0 beyond the capacity, 0 outside, 0 not followed, 0 left out
  [1]
  $ printf 'CMD13 45670000 R1 00000900\nCMD13 45670000 R1 00000900\nCMD13 45670000 R1 00000c00\n' > other_state.trace
  $ sdv audit sd other_state.trace --running
  line 1: CMD13 45670000: before it the card may be in any state
  line 3: CMD13 45670000: no card answers so: R1 00000c00; the tables have timeout | status tran | status tran, error
  3 lines, 0 reckless, 1 that no card answers, 0 of another length, 0 beyond the capacity, 0 outside, 0 not followed, 0 left out
  [1]

From CMD0 on the state is known.

  $ printf 'CMD13 45670000 R1 00000900\nCMD0 00000000 -\nCMD17 00000000 R1 00000900\nIN 1 ok\n' > reset.trace
  $ sdv audit sd reset.trace --running
  line 1: CMD13 45670000: before it the card may be in any state
  line 2: CMD0 00000000: the audit begins anew
  line 3: CMD17 00000000: a card that answered so may be in idle: byte addresses, block length not 512; it is not legal in idle state
  line 4: IN 1 ok: before it the card may be in any state
  4 lines, 1 reckless, 0 that no card answers, 0 of another length, 0 beyond the capacity, 0 outside, 0 not followed, 0 left out
  [1]

Another address, an empty trace, and a phase of a register that nothing announced.

  $ printf 'CMD13 45670000 R1 00000900\nCMD13 12340000 R1 00000900\n' | sdv audit sd - --running
  line 1: CMD13 45670000: before it the card may be in any state
  line 2: CMD13 12340000: before it the card may be in any state
  2 lines, 0 reckless, 0 that no card answers, 0 of another length, 0 beyond the capacity, 0 outside, 0 not followed, 0 left out
  $ sdv audit emmc - --running < /dev/null
  0 lines, 0 reckless, 0 that no card answers, 0 of another length, 0 beyond the capacity, 0 outside, 0 not followed, 0 left out
  $ printf 'REG 512 ok\nCMD13 00010000 R1 00000900\n' | sdv audit emmc - --running
  line 2: CMD13 00010000: before it the card may be in any state
  2 lines, 0 reckless, 0 that no card answers, 0 of another length, 0 beyond the capacity, 0 outside, 1 not followed, 0 left out
  $ sdv audit emmc running.trace --running --script words.sdv
  usage: --script goes with neither --annotate nor --running: sdv audit KIND TRACE [--json] [--annotate] [--running] [--script SCRIPT] [--registers FILE] [--svg]
  [2]

Words that no other session shows: of lines of traces beside a script.

  $ cat > words.sdv << 'END'
  > card sd
  > send 0 { else { } }
  > send 8 { answer { } else { } }
  > send 10 { answer { } else { } }
  > send 24 at block 0 { answer { } else { } }
  > give { ok { } else { } }
  > give { ok { } else { } }
  > wait { ok { } else { } }
  > send 51 { answer { } else { } }
  > recv reg { ok { } else { } }
  > done
  > END
  $ printf 'CMD0 00000000 -\nCMD8 000001aa R7 000001ab\nCMD10 00000000 R2 ff0000000000000000000000000000\nCMD24 00000000 R1 00000900\n' > words.trace
  $ printf 'OUT 1 ok\nOUT 1 cut\nWAIT ok\nCMD51 00000000 R1 00000920\nREG 8 ok\ndone\n' >> words.trace
  $ sdv audit sd words.trace --script words.sdv
  line 1, script line 2: CMD0 00000000 -: no answer is due
  line 2, script line 3: CMD8 000001aa R7 000001ab: not the echo
  line 3, script line 4: CMD10 00000000 R2 ff0000000000000000000000000000: CID
  line 4, script line 5: CMD24 00000000 R1 00000900: tran, ready
  line 5, script line 6: OUT 1 ok: blocks to the card
  line 6, script line 7: OUT 1 cut: blocks to the card, cut: the tables have no such answer here
  line 7, script line 8: WAIT ok: no longer busy
  line 8, script line 9: CMD51 00000000 R1 00000920: tran, ready, APP_CMD
  line 9, script line 10: REG 8 ok: SCR
  line 10, script line 11: done: the run ends
  line 2: CMD8 000001aa: no card answers so: R7 000001ab; a card repeats the argument
  line 3: CMD10 00000000: before it the card may be in any state
  line 4: CMD24 00000000: a card that answered so may be in stby: byte addresses, block length not 512; it is not legal in stby state (no state that is left allows it)
  line 5: OUT 1 ok: before it the card may be in any state
  line 6: OUT 1 cut: a card that answered so may be in prg: byte addresses, block length not 512; no write of blocks is due (no state that is left allows it)
  line 7: WAIT ok: before it the card may be in any state
  10 lines, 2 reckless, 1 that no card answers, 0 of another length, 0 beyond the capacity, 0 outside, 0 not followed, 0 left out
  [1]
  $ printf '\001\045\200\000\002\003\004\005' | sdv audit sd words.trace --script words.sdv --registers - | sed -n 9p
  line 9, script line 10: REG 8 ok: SCR 0125800002030405
  $ sdv audit sd words.trace --script words.sdv --svg | sed -n '/translate(0 40)/,$p'
  <g transform="translate(0 40)">
  <text x="4" y="3.4" font-size="2.4">script line 5</text><text x="4" y="7" font-size="2" fill="gray">trace line 4</text>
  <path d="M40 3.4H108" stroke="black" stroke-width="0.4"/><path d="M110 3.4l-3 -1.2v2.4z"/>
  <text x="75" y="2.4" text-anchor="middle" font-size="2.8">CMD24 00000000</text>
  <path d="M110 7.6H42" stroke="black" stroke-width="0.4" stroke-dasharray="2 1.2"/><path d="M40 7.6l3 -1.2v2.4z"/>
  <text x="75" y="6.6" text-anchor="middle" font-size="2.8">R1 00000900</text>
  <text x="124" y="8.4" font-size="2.8">tran, ready</text>
  </g>
  <g transform="translate(0 50)">
  <text x="4" y="3.4" font-size="2.4">script line 6</text><text x="4" y="7" font-size="2" fill="gray">trace line 5</text>
  <path d="M40 6H105" stroke="steelblue" stroke-width="1.6"/><path d="M110 6l-6 -2.4v4.8z" fill="steelblue"/>
  <text x="75" y="2.8" text-anchor="middle" font-size="2.8">OUT 1 ok</text>
  <text x="124" y="5.6" font-size="2.8">blocks to the card</text>
  </g>
  <g transform="translate(0 60)">
  <text x="4" y="3.4" font-size="2.4">script line 7</text><text x="4" y="7" font-size="2" fill="gray">trace line 6</text>
  <path d="M40 6H73" stroke="steelblue" stroke-width="1.6"/><path d="M73 4l4 4m0 -4l-4 4" stroke="firebrick" stroke-width="0.5"/>
  <text x="75" y="2.8" text-anchor="middle" font-size="2.8">OUT 1 cut</text>
  <text x="124" y="5.6" font-size="2.8">blocks to the card, cut: the tables have no such answer here</text>
  </g>
  <g transform="translate(0 70)">
  <text x="4" y="3.4" font-size="2.4">script line 8</text><text x="4" y="7" font-size="2" fill="gray">trace line 7</text>
  <rect x="100" y="1.6" width="20" height="6" fill="lightyellow" stroke="black" stroke-width="0.2"/>
  <text x="110" y="5.6" text-anchor="middle" font-size="2.8">WAIT ok</text>
  <text x="124" y="5.6" font-size="2.8">no longer busy</text>
  </g>
  <g transform="translate(0 80)">
  <text x="4" y="3.4" font-size="2.4">script line 9</text><text x="4" y="7" font-size="2" fill="gray">trace line 8</text>
  <path d="M40 3.4H108" stroke="black" stroke-width="0.4"/><path d="M110 3.4l-3 -1.2v2.4z"/>
  <text x="75" y="2.4" text-anchor="middle" font-size="2.8">CMD51 00000000</text>
  <path d="M110 7.6H42" stroke="black" stroke-width="0.4" stroke-dasharray="2 1.2"/><path d="M40 7.6l3 -1.2v2.4z"/>
  <text x="75" y="6.6" text-anchor="middle" font-size="2.8">R1 00000920</text>
  <text x="124" y="8.4" font-size="2.8">tran, ready, APP_CMD</text>
  </g>
  <g transform="translate(0 90)">
  <text x="4" y="3.4" font-size="2.4">script line 10</text><text x="4" y="7" font-size="2" fill="gray">trace line 9</text>
  <path d="M110 6H45" stroke="steelblue" stroke-width="1.6"/><path d="M40 6l6 -2.4v4.8z" fill="steelblue"/>
  <text x="75" y="2.8" text-anchor="middle" font-size="2.8">REG 8 ok</text>
  <text x="124" y="5.6" font-size="2.8">SCR</text>
  </g>
  <g transform="translate(0 100)">
  <text x="4" y="3.4" font-size="2.4">script line 11</text><text x="4" y="7" font-size="2" fill="gray">trace line 10</text>
  <rect x="32" y="1.6" width="86" height="6" fill="honeydew" stroke="black" stroke-width="0.2"/>
  <text x="75" y="5.6" text-anchor="middle" font-size="2.8">done</text>
  <text x="124" y="5.6" font-size="2.8">the run ends</text>
  </g>
  </svg>
  $ printf 'CMD0 00000000 -\nCMD55 00000000 R1 00000120\nCMD41 40ff8000 R3 00ff8000\nCMD55 00000000 R1 00000120\nCMD41 40ff8000 R3 80ff8000\n' | sdv audit sd - --script $EXAMPLES/sd_bring_up.sdv | tail -n 1
  trace fault Script line 2
  line 2, script line 6: CMD55 00000000 R1 00000120: the script does not come here; it stands at CMD8
  $ printf 'CMD0 00000000 -\nCMD8 000001aa timeout\nCMD55 00000000 R1 00000120\nCMD41 40ff8000 R3 00ff8000\nCMD55 00000000 R1 00000120\nCMD41 40ff8000 R3 80ff8000\n' | sdv audit sd - --script $EXAMPLES/sd_bring_up.sdv
  line 1, script line 5: CMD0 00000000 -: no answer is due
  line 2, script line 6: CMD8 000001aa timeout: no answer: the card may be in idle
  line 3, script line 7: CMD55 00000000 R1 00000120: idle, ready, APP_CMD
  line 4, script line 7: ACMD41 40ff8000 R3 00ff8000: not ready
  line 5, script line 7: CMD55 00000000 R1 00000120: idle, ready, APP_CMD
  line 6, script line 7: ACMD41 40ff8000 R3 80ff8000: ready, byte addresses
  6 lines, 0 reckless, 0 that no card answers, 0 of another length, 0 beyond the capacity, 0 outside, 0 not followed, 0 left out

What a verdict says of partitions, and of an erase that was not begun whole.

  $ up() { sed '/^send 6 part.access/,$d' $EXAMPLES/emmc_boot_read.sdv; }
  $ wait='loop 1000 { wait { ok { break } else { } } } else { fault busy }'
  $ maybe() { printf 'loop 3 {\nsend 6 part.access %s { else { } }\n%s\nsend 13 { clean & state=tran { break } else { } }\n} else { fault sw }\n' $1 "$wait"; }
  $ sure() { printf 'send 6 part.access %s { clean { } else { fault sw } }\n%s\nsend 13 { clean & state=tran { } else { fault sw } }\n' $1 "$wait"; }
  $ read='send 17 at by hc 0 { clean { recv { ok { done } else { fault cut } } } else { fault lost } } fault read'
  $ { up; maybe 2; echo "$read"; } | sdv verify - | grep reach
  -:23:1: warning: CMD17 may reach the user area or boot partition 2 [partition]
  -:23:94: note: no run comes to fault read [unreached]
  $ { up; maybe 1; maybe 2; echo "$read"; } | sdv verify - | grep reach
  -:28:1: warning: CMD17 may reach the user area or a boot partition [partition]
  -:28:94: note: no run comes to fault read [unreached]
  $ { up; sure 1; maybe 2; echo "$read"; } | sdv verify - --json | grep reach
  {"column":1,"file":"-","hint":"go on in the case `clean` of a CMD13 behind the switch, in the transfer state","kind":"partition","line":26,"point":49,"severity":"warning","text":"CMD17 may reach boot partition 1 or boot partition 2"}
  {"column":94,"file":"-","kind":"unreached","line":26,"point":54,"severity":"note","text":"no run comes to fault read"}
  $ up() { grep -v '^done' $EXAMPLES/sd_bring_up.sdv; echo 'if cap >= 16 { } else { fault small }'; }
  $ { up; echo 'send 32 at by hc 8 { clean { } else { done } } done'; } | sdv verify -
  -:15:39: warning: done may come where the erase of line 15 was begun without a last block [erase]
      hint     end the run in a fault, or do it again, where it is lost, cut or answered with an error
      card     an SD card with block addresses, of 1024 blocks
      mishap   line 15: CMD32 is lost
      done     block 8 is not erased
  -:15:48: warning: done may come where the erase of line 15 was begun without a last block [erase]
      hint     end the run in a fault, or do it again, where it is lost, cut or answered with an error
      card     an SD card with block addresses, of 1024 blocks
      mishap   none
      done     block 8 is not erased
  -: accepted, at most 2008 commands (2 warnings)
  [1]

An audit that waits for a CMD0 says so, with each line of the trace.

  $ printf 'CMD0 00000000 -\nCMD13 00000000 R1 00000900\nCMD13 00000000 R1 00000900\nCMD0 00000000 -\n' > wrong.trace
  $ sdv audit sd wrong.trace --annotate
  line 1: CMD0 00000000 -: in idle
  line 2: CMD13 00000000 R1 00000900: in idle
  line 2: CMD13 00000000: a card that answered so may be in idle: byte addresses, block length not 512; it is not legal in idle state
  line 3: CMD13 00000000 R1 00000900: in any state
  line 3: CMD13 00000000: before it the card may be in any state
  line 4: CMD0 00000000 -: in tran or data
  line 4: CMD0 00000000: the audit begins anew
  at the end: in idle
  4 lines, 1 reckless, 0 that no card answers, 0 of another length, 0 beyond the capacity, 0 outside, 0 not followed, 0 left out
  [1]
  $ sdv audit sd wrong.trace --annotate --json
  {"line":1,"told":"CMD0 00000000 -","finding":"states","any_state":false,"bounded":true,"outside_before":false,"text":"in idle"}
  {"line":2,"told":"CMD13 00000000 R1 00000900","finding":"states","any_state":false,"bounded":true,"outside_before":false,"text":"in idle"}
  {"line":2,"told":"CMD13 00000000","finding":"reckless","any_state":false,"bounded":true,"outside_before":false,"text":"a card that answered so may be in idle: byte addresses, block length not 512; it is not legal in idle state"}
  {"line":3,"told":"CMD13 00000000 R1 00000900","finding":"states","any_state":true,"bounded":false,"outside_before":false,"text":"in any state"}
  {"line":3,"told":"CMD13 00000000","finding":"any_state","any_state":true,"bounded":false,"outside_before":false,"text":"before it the card may be in any state"}
  {"line":4,"told":"CMD0 00000000 -","finding":"states","any_state":false,"bounded":true,"outside_before":false,"text":"in tran or data"}
  {"line":4,"told":"CMD0 00000000","finding":"anew","any_state":false,"bounded":true,"outside_before":false,"text":"the audit begins anew"}
  {"line":4,"told":"","finding":"end","text":"in idle"}
  {"lines":4,"reckless":1,"unanswered":0,"lengths":0,"beyond":0,"outside":0,"not_followed":0,"left_out":0}
  [1]

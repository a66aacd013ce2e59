Traces beside their scripts.

  $ up=$EXAMPLES/sd_bring_up.sdv cert=$EXAMPLES/sd_bring_up.cert card=$EXAMPLES/sd_block.card
  $ sdv run $up $cert $card new:1024 > up.trace; sdv audit sd up.trace --script $up
  line 1, script line 5: CMD0 00000000 -: no answer is due
  line 2, script line 6: CMD8 000001aa R7 000001aa: the echo
  line 3, script line 7: CMD55 00000000 R1 00000120: idle, ready, APP_CMD
  line 4, script line 7: ACMD41 40ff8000 R3 c0ff8000: ready, block addresses
  line 5, script line 8: CMD2 00000000 R2 005858534456202010000000010181: CID
  line 6, script line 9: CMD3 00000000 R6 12340500: relative card address 4660, ident, ready
  line 7, script line 10: CMD9 12340000 R2 400000000009000000000000000000: CSD: 1024 blocks
  line 8, script line 11: CMD7 12340000 R1 00000700: stby, ready
  line 9, script line 12: CMD16 00000200 R1 00000900: tran, ready
  line 10, script line 14: done: the run ends
  10 lines, 0 reckless, 0 that no card answers, 0 of another length, 0 beyond the capacity, 0 outside, 0 not followed, 0 left out
  $ sdv audit sd - --script $up --json < up.trace | head -n 4
  {"line":1,"script":5,"told":"CMD0 00000000 -","text":"no answer is due"}
  {"line":2,"script":6,"told":"CMD8 000001aa R7 000001aa","text":"the echo"}
  {"line":3,"script":7,"told":"CMD55 00000000 R1 00000120","text":"idle, ready, APP_CMD"}
  {"line":4,"script":7,"told":"ACMD41 40ff8000 R3 c0ff8000","text":"ready, block addresses"}

An answer that was lost leaves open whether the card took the command.

  $ printf '0002' > schedule; sdv run $up $cert $card new:1024 schedule > lost.trace
  [1]
  $ sdv audit sd lost.trace --script $up | tail -n 3
  line 4, script line 7: ACMD41 40ff8000 timeout: no answer: the card may be in idle or ready
  line 5, script line 7: fault lost41: the run ends
  5 lines, 0 reckless, 0 that no card answers, 0 of another length, 0 beyond the capacity, 0 outside, 0 not followed, 0 left out
  $ sdv certify $EXAMPLES/sd_read_retry.sdv > read.cert
  $ printf '0000000002' > schedule; sdv run $EXAMPLES/sd_read_retry.sdv read.cert $card new:1024 schedule > read.trace
  $ sdv audit sd read.trace --script $EXAMPLES/sd_read_retry.sdv | tail -n 6
  line 10, script line 16: CMD17 00000000 timeout: no answer: the card may be in tran or data
  line 11, script line 17: CMD13 12340000 R1 00000900: tran, ready
  line 12, script line 16: CMD17 00000000 R1 00000900: tran, ready
  line 13, script line 16: IN 1 ok: blocks from the card
  line 14, script line 16: done: the run ends
  14 lines, 0 reckless, 0 that no card answers, 0 of another length, 0 beyond the capacity, 0 outside, 0 not followed, 0 left out

A register, whose bytes may be given. Without them its capacity is the greatest.

  $ device=$EXAMPLES/emmc_bring_up.sdv; sdv certify $device > device.cert
  $ sdv run $device device.cert $EXAMPLES/emmc_block.card new:2048 > device.trace
  $ sdv audit emmc device.trace --script $device | tail -n 5
  line 7, script line 11: CMD16 00000200 R1 00000900: tran, ready
  line 8, script line 12: CMD8 00000000 R1 00000900: tran, ready
  line 9, script line 12: REG 512 ok: EXT_CSD
  line 10, script line 13: done: the run ends
  10 lines, 0 reckless, 0 that no card answers, 0 of another length, 0 beyond the capacity, 0 outside, 0 not followed, 0 left out
  $ sed 's/^done$/if cap >= 4096 { done } else { fault small }/' $device > large.sdv; sdv certify large.sdv > large.cert
  $ sdv run large.sdv large.cert $EXAMPLES/emmc_block.card new:2048 > small.trace
  [1]
  $ sdv audit emmc small.trace --script large.sdv | tail -n 1
  trace fault Script line 10
  line 10, script line 13: the end: the script does not come here; it stands at done
  $ head -c 512 /dev/zero > register; sdv audit emmc small.trace --script large.sdv --registers register | tail -n 2
  line 10, script line 13: fault small: the run ends
  10 lines, 0 reckless, 0 that no card answers, 0 of another length, 0 beyond the capacity, 0 outside, 0 not followed, 0 left out

What the bytes say that are given: the capacities in an EXT_CSD, and the bytes of other registers in hexadecimal.

  $ sdv run $device device.cert $EXAMPLES/emmc_boot.card new:2560 --registers bytes > device.trace
  $ sdv audit emmc device.trace --script $device --registers bytes | sed -n 9p; sdv audit emmc device.trace --script $device --registers - --json < bytes | sed -n 9p
  line 9, script line 12: REG 512 ok: EXT_CSD, SEC_COUNT 2048, BOOT_SIZE_MULT 1
  {"line":9,"script":12,"told":"REG 512 ok","text":"EXT_CSD, SEC_COUNT 2048, BOOT_SIZE_MULT 1"}
  $ sdv audit emmc device.trace --script $device --registers bytes --svg | grep EXT_CSD
  <text x="124" y="5.6" font-size="2.8">EXT_CSD, SEC_COUNT 2048, BOOT_SIZE_MULT 1</text>
  $ head -c 100 bytes > few; sdv audit emmc device.trace --script $device --registers few | sed -n 9p
  line 9, script line 12: REG 512 ok: EXT_CSD, of which only 100 bytes are given
  $ cat bytes bytes > more; sdv audit emmc device.trace --script $device --registers more | sed -n 9p
  line 9, script line 12: REG 512 ok: EXT_CSD, SEC_COUNT 2048, BOOT_SIZE_MULT 1
  $ sed 's/REG 512 ok/REG 512 cut/' device.trace | head -n 9 | sdv audit emmc - --script $device --registers bytes | sed -n 9p
  line 9, script line 12: REG 512 cut: EXT_CSD, cut: the card may be in tran or data
  $ sdv run $device device.cert $EXAMPLES/emmc_block.card new:2048 > device.trace
  $ sdv audit emmc device.trace --script $device --registers none
  cannot use none
  [2]

Errors in a status, a phase that was cut, and a wait.

  $ printf 'card sd\nsend 0 { else { } }\nsend 13 { answer { } else { } }\nrecv { ok { } else { } }\nwait { ok { } else { } }\nfault stop\n' > odd.sdv
  $ printf 'CMD0 00000000 -\nCMD13 00000000 R1 ffffffff\nIN 0 cut\nWAIT late\nfault stop\n' | sdv audit sd - --script odd.sdv
  line 1, script line 2: CMD0 00000000 -: no answer is due
  line 2, script line 3: CMD13 00000000 R1 ffffffff: reserved state, OUT_OF_RANGE, ADDRESS_ERROR, BLOCK_LEN_ERROR, ERASE_SEQ_ERROR, ERASE_PARAM, WP_VIOLATION, CARD_IS_LOCKED, LOCK_UNLOCK_FAILED, COM_CRC_ERROR, ILLEGAL_COMMAND, CARD_ECC_FAILED, CC_ERROR, ERROR, CSD_OVERWRITE, WP_ERASE_SKIP, ERASE_RESET, ready, SWITCH_ERROR, APP_CMD
  line 3, script line 4: IN 0 cut: blocks from the card, cut: the card may be in any state
  line 4, script line 5: WAIT late: still busy: the card may be in tran or prg
  line 5, script line 6: fault stop: the run ends
  line 2: CMD13 00000000: a card that answered so may be in idle: byte addresses, block length not 512; it is not legal in idle state
  line 3: IN 0 cut: before it the card may be in any state
  line 3: IN 0 cut: outside the tables; the audit goes on as if it had not come
  5 lines, 1 reckless, 0 that no card answers, 0 of another length, 0 beyond the capacity, 1 outside, 0 not followed, 0 left out
  [1]

A trace may end before the run does.

  $ head -n 2 up.trace | sdv audit sd - --script $up
  line 1, script line 5: CMD0 00000000 -: no answer is due
  line 2, script line 6: CMD8 000001aa R7 000001aa: the echo
  2 lines, 0 reckless, 0 that no card answers, 0 of another length, 0 beyond the capacity, 0 outside, 0 not followed, 0 left out

A line that is not of the script, or no line of a trace; what stands before it is printed.

  $ printf 'CMD0 00000000 -\nCMD8 000001ab R7 000001aa\n' | sdv audit sd - --script $up
  line 1, script line 5: CMD0 00000000 -: no answer is due
  line 2, script line 6: CMD8 000001ab R7 000001aa: the script does not come here; it stands at CMD8
  trace fault Script line 2
  [1]
  $ printf 'CMD0 00000000 -\nCMD8 000001aa R1 00000120\n' | sdv audit sd - --script $up
  line 1, script line 5: CMD0 00000000 -: no answer is due
  line 2, script line 6: CMD8 000001aa R1 00000120: the script does not come here; it stands at CMD8
  trace fault Script line 2
  [1]
  $ printf 'CMD0 00000000 -\ndone\n' | sdv audit sd - --script $up --json
  {"line":1,"script":5,"told":"CMD0 00000000 -","text":"no answer is due"}
  {"line":2,"script":6,"told":"the end","text":"the script does not come here; it stands at CMD8"}
  trace fault Script line 2
  [1]
  $ printf 'CMD0 00000000 -\nCMD8\n' | sdv audit sd - --script $up
  line 1, script line 5: CMD0 00000000 -: no answer is due
  trace fault Index line 2
  [1]
  $ (cat up.trace; echo done) | sdv audit sd - --script $up | tail -n 1
  trace fault Script line 11
  line 10, script line 14: done: the run ends
  $ printf 'card sd\nsend 0\n' | sdv audit sd up.trace --script -
  script fault Argument line 3
  [1]
  $ sdv audit sd none.trace --script $up
  cannot use none.trace
  [2]
  $ sdv audit sd up.trace --script $up > /dev/full
  [2]

A picture of a trace, in SVG. Here is a whole one.

  $ printf 'card sd\nsend 0 { else { } }\nsend 8 { else { } }\nfault stop\n' > small.sdv
  $ printf 'CMD0 00000000 -\nCMD8 000001aa timeout\nfault stop\n' | sdv audit sd - --script small.sdv --svg
  <svg xmlns="http://www.w3.org/2000/svg" version="1.1" width="297mm" height="39mm" viewBox="0 0 297 39" font-family="monospace">
  <rect width="297" height="39" fill="white"/>
  <path d="M40 8V39M110 8V39" stroke="gray" stroke-width="0.3"/>
  <rect x="30" y="2" width="20" height="6" fill="white" stroke="black" stroke-width="0.2"/><text x="40" y="6" text-anchor="middle" font-size="2.8">host</text>
  <rect x="100" y="2" width="20" height="6" fill="white" stroke="black" stroke-width="0.2"/><text x="110" y="6" text-anchor="middle" font-size="2.8">card</text>
  <g transform="translate(0 10)">
  <text x="4" y="3.4" font-size="2.4">script line 2</text><text x="4" y="7" font-size="2" fill="gray">trace line 1</text>
  <path d="M40 3.4H108" stroke="black" stroke-width="0.4"/><path d="M110 3.4l-3 -1.2v2.4z"/>
  <text x="75" y="2.4" text-anchor="middle" font-size="2.8">CMD0 00000000</text>
  <text x="124" y="5.6" font-size="2.8">no answer is due</text>
  </g>
  <g transform="translate(0 20)">
  <text x="4" y="3.4" font-size="2.4">script line 3</text><text x="4" y="7" font-size="2" fill="gray">trace line 2</text>
  <path d="M40 3.4H108" stroke="black" stroke-width="0.4"/><path d="M110 3.4l-3 -1.2v2.4z"/>
  <text x="75" y="2.4" text-anchor="middle" font-size="2.8">CMD8 000001aa</text>
  <path d="M110 7.6H77" stroke="black" stroke-width="0.4" stroke-dasharray="2 1.2"/><path d="M73.8 6.4l2.4 2.4m0 -2.4l-2.4 2.4" stroke="firebrick" stroke-width="0.5"/>
  <text x="93" y="6.6" text-anchor="middle" font-size="2.8">timeout</text>
  <text x="124" y="8.4" font-size="2.8">no answer: the card may be in idle</text>
  </g>
  <g transform="translate(0 30)">
  <text x="4" y="3.4" font-size="2.4">script line 4</text><text x="4" y="7" font-size="2" fill="gray">trace line 3</text>
  <rect x="32" y="1.6" width="86" height="6" fill="mistyrose" stroke="firebrick" stroke-width="0.4"/>
  <text x="75" y="5.6" text-anchor="middle" font-size="2.8">fault stop</text>
  <text x="124" y="5.6" font-size="2.8">the run ends</text>
  </g>
  </svg>

Each line of a trace has a row: commands and answers, registers, a wait, and what was lost, cut or late.

  $ sdv audit sd up.trace --script $up --svg | grep -A 6 'translate(0 40)'
  <g transform="translate(0 40)">
  <text x="4" y="3.4" font-size="2.4">script line 7</text><text x="4" y="7" font-size="2" fill="gray">trace line 4</text>
  <path d="M40 3.4H108" stroke="black" stroke-width="0.4"/><path d="M110 3.4l-3 -1.2v2.4z"/>
  <text x="75" y="2.4" text-anchor="middle" font-size="2.8">ACMD41 40ff8000</text>
  <path d="M110 7.6H42" stroke="black" stroke-width="0.4" stroke-dasharray="2 1.2"/><path d="M40 7.6l3 -1.2v2.4z"/>
  <text x="75" y="6.6" text-anchor="middle" font-size="2.8">R3 c0ff8000</text>
  <text x="124" y="8.4" font-size="2.8">ready, block addresses</text>
  $ sdv audit sd read.trace --script $EXAMPLES/sd_read_retry.sdv --svg | grep -A 6 'translate(0 100)'
  <g transform="translate(0 100)">
  <text x="4" y="3.4" font-size="2.4">script line 16</text><text x="4" y="7" font-size="2" fill="gray">trace line 10</text>
  <path d="M40 3.4H108" stroke="black" stroke-width="0.4"/><path d="M110 3.4l-3 -1.2v2.4z"/>
  <text x="75" y="2.4" text-anchor="middle" font-size="2.8">CMD17 00000000</text>
  <path d="M110 7.6H77" stroke="black" stroke-width="0.4" stroke-dasharray="2 1.2"/><path d="M73.8 6.4l2.4 2.4m0 -2.4l-2.4 2.4" stroke="firebrick" stroke-width="0.5"/>
  <text x="93" y="6.6" text-anchor="middle" font-size="2.8">timeout</text>
  <text x="124" y="8.4" font-size="2.8">no answer: the card may be in tran or data</text>
  $ sdv audit emmc device.trace --script $device --svg | grep -A 5 'translate(0 90)'
  <g transform="translate(0 90)">
  <text x="4" y="3.4" font-size="2.4">script line 12</text><text x="4" y="7" font-size="2" fill="gray">trace line 9</text>
  <path d="M110 6H45" stroke="steelblue" stroke-width="1.6"/><path d="M40 6l6 -2.4v4.8z" fill="steelblue"/>
  <text x="75" y="2.8" text-anchor="middle" font-size="2.8">REG 512 ok</text>
  <text x="124" y="5.6" font-size="2.8">EXT_CSD</text>
  </g>
  $ printf 'CMD0 00000000 -\nCMD13 00000000 R1 ffffffff\nIN 0 cut\nWAIT late\nfault stop\n' | sdv audit sd - --script odd.sdv --svg | tail -n 26
  <text x="4" y="3.4" font-size="2.4">script line 3</text><text x="4" y="7" font-size="2" fill="gray">trace line 2</text>
  <path d="M40 3.4H108" stroke="black" stroke-width="0.4"/><path d="M110 3.4l-3 -1.2v2.4z"/>
  <text x="75" y="2.4" text-anchor="middle" font-size="2.8">CMD13 00000000</text>
  <path d="M110 7.6H42" stroke="black" stroke-width="0.4" stroke-dasharray="2 1.2"/><path d="M40 7.6l3 -1.2v2.4z"/>
  <text x="75" y="6.6" text-anchor="middle" font-size="2.8">R1 ffffffff</text>
  <text x="124" y="8.4" font-size="0.7">reserved state, OUT_OF_RANGE, ADDRESS_ERROR, BLOCK_LEN_ERROR, ERASE_SEQ_ERROR, ERASE_PARAM, WP_VIOLATION, CARD_IS_LOCKED, LOCK_UNLOCK_FAILED, COM_CRC_ERROR, ILLEGAL_COMMAND, CARD_ECC_FAILED, CC_ERROR, ERROR, CSD_OVERWRITE, WP_ERASE_SKIP, ERASE_RESET, ready, SWITCH_ERROR, APP_CMD</text>
  </g>
  <g transform="translate(0 30)">
  <text x="4" y="3.4" font-size="2.4">script line 4</text><text x="4" y="7" font-size="2" fill="gray">trace line 3</text>
  <path d="M110 6H77" stroke="steelblue" stroke-width="1.6"/><path d="M73 4l4 4m0 -4l-4 4" stroke="firebrick" stroke-width="0.5"/>
  <text x="75" y="2.8" text-anchor="middle" font-size="2.8">IN 0 cut</text>
  <text x="124" y="5.6" font-size="2.8">blocks from the card, cut: the card may be in any state</text>
  </g>
  <g transform="translate(0 40)">
  <text x="4" y="3.4" font-size="2.4">script line 5</text><text x="4" y="7" font-size="2" fill="gray">trace line 4</text>
  <rect x="100" y="1.6" width="20" height="6" fill="mistyrose" stroke="firebrick" stroke-width="0.4"/>
  <text x="110" y="5.6" text-anchor="middle" font-size="2.8">WAIT late</text>
  <text x="124" y="5.6" font-size="2.8">still busy: the card may be in tran or prg</text>
  </g>
  <g transform="translate(0 50)">
  <text x="4" y="3.4" font-size="2.4">script line 6</text><text x="4" y="7" font-size="2" fill="gray">trace line 5</text>
  <rect x="32" y="1.6" width="86" height="6" fill="mistyrose" stroke="firebrick" stroke-width="0.4"/>
  <text x="75" y="5.6" text-anchor="middle" font-size="2.8">fault stop</text>
  <text x="124" y="5.6" font-size="2.8">the run ends</text>
  </g>
  </svg>

Pictures are XML, and have a row for each line that the other forms tell, 10 mm each.

  $ cat > drawn.py << 'END'
  > import sys, xml.etree.ElementTree as tree
  > picture = tree.parse(sys.stdin).getroot()
  > rows = picture.findall("{http://www.w3.org/2000/svg}g")
  > places = [row.get("transform") for row in rows] == [f"translate(0 {number}0)" for number in range(1, len(rows) + 1)]
  > print(len(rows), picture.get("height"), places)
  > END
  $ for name in sd_bring_up sd_four_lines sd_write_poll sd_erase; do
  >   sdv certify $EXAMPLES/$name.sdv > $name.cert; head -c 512 /dev/zero > block
  >   sdv run $EXAMPLES/$name.sdv $name.cert $card new:1024 --in block > $name.trace
  >   sdv audit sd $name.trace --script $EXAMPLES/$name.sdv --svg | python3 drawn.py; wc -l < $name.trace
  > done
  10 109mm True
  10
  14 149mm True
  14
  13 139mm True
  13
  15 159mm True
  15
  $ for name in emmc_bring_up emmc_trim emmc_ext_csd emmc_eight_lines; do
  >   sdv certify $EXAMPLES/$name.sdv > $name.cert
  >   sdv run $EXAMPLES/$name.sdv $name.cert $EXAMPLES/emmc_block.card new:2048 > $name.trace
  >   sdv audit emmc $name.trace --script $EXAMPLES/$name.sdv --svg | python3 drawn.py; wc -l < $name.trace
  > done
  10 109mm True
  10
  15 159mm True
  15
  10 109mm True
  10
  15 159mm True
  15
  $ printf '' | sdv audit sd - --script $up --svg | python3 drawn.py
  0 09mm True
  $ printf 'CMD0 00000000 -\nCMD13 00000000 R1 ffffffff\nIN 0 cut\nWAIT late\nfault stop\n' | sdv audit sd - --script odd.sdv --svg | python3 drawn.py
  5 59mm True

A picture of a trace that is off is whole, with the lines that are told. A line that is not of the script is a box.

  $ printf 'CMD0 00000000 -\nCMD8 000001ab R7 000001aa\n' | sdv audit sd - --script $up --svg | tail -n 7
  trace fault Script line 2
  <g transform="translate(0 20)">
  <text x="4" y="3.4" font-size="2.4">script line 6</text><text x="4" y="7" font-size="2" fill="gray">trace line 2</text>
  <rect x="32" y="1.6" width="86" height="6" fill="mistyrose" stroke="firebrick" stroke-width="0.4"/>
  <text x="75" y="5.6" text-anchor="middle" font-size="2.8">CMD8 000001ab R7 000001aa</text>
  <text x="124" y="5.6" font-size="2.8">the script does not come here; it stands at CMD8</text>
  </g>
  </svg>
  $ printf 'CMD0 00000000 -\nCMD8\n' | sdv audit sd - --script $up --svg | tail -n 6
  trace fault Index line 2
  <text x="4" y="3.4" font-size="2.4">script line 5</text><text x="4" y="7" font-size="2" fill="gray">trace line 1</text>
  <path d="M40 3.4H108" stroke="black" stroke-width="0.4"/><path d="M110 3.4l-3 -1.2v2.4z"/>
  <text x="75" y="2.4" text-anchor="middle" font-size="2.8">CMD0 00000000</text>
  <text x="124" y="5.6" font-size="2.8">no answer is due</text>
  </g>
  </svg>
  $ printf 'CMD0 00000000 -\nCMD8\n' | sdv audit sd - --script $up --svg | python3 drawn.py
  trace fault Index line 2
  1 19mm True
  $ printf 'card sd\nsend 0\n' | sdv audit sd up.trace --script - --svg
  script fault Argument line 3
  [1]
  $ sdv audit sd up.trace --script $up --svg > /dev/full
  [2]

A trace is told in one form, which is looked at before the files. Registers and a picture are of a trace beside its script.

  $ sdv audit sd none --script none --json --svg; sdv audit sd none --script none --annotate; sdv audit sd none --svg
  usage: --json and --svg exclude each other: sdv audit KIND TRACE [--json] [--annotate] [--running] [--script SCRIPT] [--registers FILE] [--svg]
  usage: --script goes with neither --annotate nor --running: sdv audit KIND TRACE [--json] [--annotate] [--running] [--script SCRIPT] [--registers FILE] [--svg]
  usage: --registers and --svg need --script: sdv audit KIND TRACE [--json] [--annotate] [--running] [--script SCRIPT] [--registers FILE] [--svg]
  [2]
  $ sdv audit mmc none --script none 2>&1 | cut -c 1-30; sdv audit emmc up.trace --script $up
  usage: mmc is no KIND (sd or e
  the script is for another kind of card
  [1]

Lines that are no answer to what a host asked: it gives up, and says which line was wrong. Its trace ends with the command that
was not answered.

  $ printf 'card sd\nsend 0 { else { } }\nsend 55 { timeout { fault lost } else { fault told } }\n' > a.sdv; sdv certify a.sdv > a.cert
  $ tell() { printf -- "-\n$1" | sdv drive a.sdv a.cert --trace trace 2>&1 > asked; echo $? $(tail -n 1 trace); }
  $ tell 'R1 00000120\n'; tell 'R1 000001AF\n'; tell 'timeout\n'; tell 'damaged\n'; cat asked
  1 fault told
  1 fault told
  1 fault lost
  1 fault lost
  CMD0 00000000 -
  CMD55 00000000 R1
  fault lost
  $ for line in '' - ok R1 'R1 ' 'R1 0000012' 'R1 000001200' 'R1 0000012g' ' R1 00000120' 'r1 00000120' 'R2 00000120' 'R1  00000120' 'R1 \r00000120' \
  >     Timeout damage 'CMD55 00000000 R1 00000120' '\033[0m\t\377'; do tell "$line\n"; cat asked; done | grep -v ^CMD
  answer fault Line line 2: found "", expected R1 and 8 digits, timeout or damaged
  2 CMD55 00000000 timeout
  answer fault Line line 2: found "-", expected R1 and 8 digits, timeout or damaged
  2 CMD55 00000000 timeout
  answer fault Line line 2: found "ok", expected R1 and 8 digits, timeout or damaged
  2 CMD55 00000000 timeout
  answer fault Line line 2: found "R1", expected R1 and 8 digits, timeout or damaged
  2 CMD55 00000000 timeout
  answer fault Line line 2: found "R1 ", expected R1 and 8 digits, timeout or damaged
  2 CMD55 00000000 timeout
  answer fault Line line 2: found "R1 0000012", expected R1 and 8 digits, timeout or damaged
  2 CMD55 00000000 timeout
  answer fault Line line 2: found "R1 000001200", expected R1 and 8 digits, timeout or damaged
  2 CMD55 00000000 timeout
  answer fault Line line 2: found "R1 0000012g", expected R1 and 8 digits, timeout or damaged
  2 CMD55 00000000 timeout
  answer fault Line line 2: found " R1 00000120", expected R1 and 8 digits, timeout or damaged
  2 CMD55 00000000 timeout
  answer fault Line line 2: found "r1 00000120", expected R1 and 8 digits, timeout or damaged
  2 CMD55 00000000 timeout
  answer fault Line line 2: found "R2 00000120", expected R1 and 8 digits, timeout or damaged
  2 CMD55 00000000 timeout
  answer fault Line line 2: found "R1  00000120", expected R1 and 8 digits, timeout or damaged
  2 CMD55 00000000 timeout
  answer fault Line line 2: found "R1 ?00000120", expected R1 and 8 digits, timeout or damaged
  2 CMD55 00000000 timeout
  answer fault Line line 2: found "Timeout", expected R1 and 8 digits, timeout or damaged
  2 CMD55 00000000 timeout
  answer fault Line line 2: found "damage", expected R1 and 8 digits, timeout or damaged
  2 CMD55 00000000 timeout
  answer fault Line line 2: found "CMD55 00000000 R1 00000120", expected R1 and 8 digits, timeout or damaged
  2 CMD55 00000000 timeout
  answer fault Line line 2: found "?[0m??", expected R1 and 8 digits, timeout or damaged
  2 CMD55 00000000 timeout
  $ for front in '' R 'R1 00000120' timeout; do tell "$front"; tail -n 1 asked; done
  answer fault Closed line 2: found the end, expected R1 and 8 digits, timeout or damaged
  2 CMD55 00000000 timeout
  CMD55 00000000 R1
  answer fault Closed line 2: found the end behind "R", expected R1 and 8 digits, timeout or damaged
  2 CMD55 00000000 timeout
  CMD55 00000000 R1
  answer fault Closed line 2: found the end behind "R1 00000120", expected R1 and 8 digits, timeout or damaged
  2 CMD55 00000000 timeout
  CMD55 00000000 R1
  answer fault Closed line 2: found the end behind "timeout", expected R1 and 8 digits, timeout or damaged
  2 CMD55 00000000 timeout
  CMD55 00000000 R1
  $ tell "$(head -c 2000 /dev/zero | tr '\0' 0)\n"; tail -n 1 asked
  answer fault Line line 2: found "000000000000000000000000000000000000000000000000".., expected R1 and 8 digits, timeout or damaged
  2 CMD55 00000000 timeout
  CMD55 00000000 R1

Lines before the first answer are skipped; the first four are shown. Behind it a line is an answer, or ends the run.

  $ answers() { printf -- '-\nR1 00000120\n'; }
  $ { printf 'U-Boot 2023.01\r\n'; answers; } | sdv drive a.sdv a.cert
  CMD0 00000000 -
  skipped line 1: "U-Boot 2023.01"
  CMD55 00000000 R1
  fault told
  [1]
  $ { printf '\033[2J\377\tready \n\n R1 00000120\nr1\nR1 0000012\nTimeout\n%060d\nok \n' 0; answers; } | sdv drive a.sdv a.cert
  CMD0 00000000 -
  skipped line 1: "?[2J??ready"
  skipped line 2: ""
  skipped line 3: " R1 00000120"
  skipped line 4: "r1"
  skipped 7 lines in all
  answer fault Line line 1: found "ok ", expected -
  [2]
  $ { head -c 1025 /dev/zero | tr '\0' x; printf '\n- \t\r\nR1 00000120\n'; } | sdv drive a.sdv a.cert
  CMD0 00000000 -
  skipped line 1: "xxxxxxxxxxxxxxxxxxxxxxxxxxxxxxxxxxxxxxxxxxxxxxxx"..
  CMD55 00000000 R1
  fault told
  [1]
  $ { head -c 1026 /dev/zero | tr '\0' x; echo; answers; } | sdv drive a.sdv a.cert
  CMD0 00000000 -
  answer fault Line line 1: found "xxxxxxxxxxxxxxxxxxxxxxxxxxxxxxxxxxxxxxxxxxxxxxxx".., expected -
  [2]
  $ { echo x; printf -- '-\nx\nR1 00000120\n'; } | sdv drive a.sdv a.cert
  CMD0 00000000 -
  skipped line 1: "x"
  CMD55 00000000 R1
  answer fault Line line 2: found "x", expected R1 and 8 digits, timeout or damaged
  [2]
  $ printf 'x\nR1 00000120\n' | sdv drive a.sdv a.cert
  CMD0 00000000 -
  skipped line 1: "x"
  answer fault Line line 1: found "R1 00000120", expected -
  [2]
  $ printf 'x\n-' | sdv drive a.sdv a.cert
  CMD0 00000000 -
  skipped line 1: "x"
  answer fault Closed line 1: found the end behind "-", expected -
  [2]
  $ { seq 1000; answers; } | sdv drive a.sdv a.cert
  CMD0 00000000 -
  skipped line 1: "1"
  skipped line 2: "2"
  skipped line 3: "3"
  skipped line 4: "4"
  skipped 1000 lines in all
  CMD55 00000000 R1
  fault told
  [1]
  $ { seq 1001; answers; } | sdv drive a.sdv a.cert
  CMD0 00000000 -
  skipped line 1: "1"
  skipped line 2: "2"
  skipped line 3: "3"
  skipped line 4: "4"
  skipped 1000 lines in all
  answer fault Line line 1: found "1001", expected -
  [2]
  $ printf 'x\n' | sdv drive a.sdv a.cert --in none
  cannot use none
  [2]

Where no response is waited for, the trace has the command as it was sent.

  $ for line in timeout damaged 'R1 00000900'; do printf "$line\n" | sdv drive a.sdv a.cert --trace trace 2>&1 > asked; echo $?; done; cat trace
  answer fault Line line 1: found "timeout", expected -
  2
  answer fault Line line 1: found "damaged", expected -
  2
  answer fault Line line 1: found "R1 00000900", expected -
  2
  CMD0 00000000 -

Blanks at the end of a line and a carriage return say nothing, on either side; a line of a block has room for one of them.

  $ for line in 'R1 00000120 ' 'R1 00000120\r' 'timeout \t \r' 'damaged  '; do tell "$line\n"; done
  1 fault told
  1 fault told
  1 fault lost
  1 fault lost
  $ zeros=$(printf '%01024d' 0)
  $ small=$EXAMPLES/sd_byte.card
  $ printf 'CMD0 00000000 -\r\nWAIT  \r\nIN 1 lines 1\t\nOUT 1 lines 1\r\n%s\r\ndone \r\nWAIT\n' $zeros | sdv card $small new:16
  -
  ok
  cut
  cut
  $ printf 'OUT 1 lines 1\r\n%s \r\n' $zeros | sdv card $small new:16
  request fault Line line 1: found "000000000000000000000000000000000000000000000000".. in line 2, expected 1024 hexadecimal digits
  [2]

Once it gave up, it asks for nothing more.

  $ printf -- '-\nlost\nR1 00000120\n' | sdv drive a.sdv a.cert
  CMD0 00000000 -
  CMD55 00000000 R1
  answer fault Line line 2: found "lost", expected R1 and 8 digits, timeout or damaged
  [2]

A CSD that cannot be read ends the run. The trace has its CMD9 with the answer that came, which an audit judges.

  $ up=$EXAMPLES/sd_bring_up.sdv; sdv certify $up > up.cert; sdv certify $EXAMPLES/emmc_bring_up.sdv > emmc_up.cert
  $ meets() { sdv drive $1 $2 --trace trace < told > asked; echo $?; tail -n 1 asked; tail -n 1 trace; }
  $ printf '%s\n' - 'R7 000001aa' 'R1 00000120' 'R3 c0ff8000' 'R2 005858534456202010000000010181' 'R6 12340500' 'R2 800000000009000000000000000000' > told
  $ meets $up up.cert; sdv audit sd trace
  run fault Reply
  1
  CMD9 12340000 R2
  CMD9 12340000 R2 800000000009000000000000000000
  line 7: CMD9 12340000: no card answers so: R2 800000000009000000000000000000; the register is no CSD of the kind, or tells another capacity than before
  7 lines, 0 reckless, 1 that no card answers, 0 of another length, 0 beyond the capacity, 0 outside, 0 not followed, 0 left out
  [1]
  $ printf '%s\n' - 'R3 80ff8080' 'R2 000158534556455249100000000117' 'R1 00000500' 'R2 00000000000f03ffc0038000000000' 'R1 00000700' > told
  $ meets $EXAMPLES/emmc_bring_up.sdv emmc_up.cert; sdv audit emmc trace
  run fault Reply
  1
  CMD9 00010000 R2
  CMD9 00010000 R2 00000000000f03ffc0038000000000
  line 5: CMD9 00010000: no card answers so: R2 00000000000f03ffc0038000000000; the register is no CSD of the kind, or tells another capacity than before
  5 lines, 0 reckless, 1 that no card answers, 0 of another length, 0 beyond the capacity, 0 outside, 0 not followed, 0 left out
  [1]
  $ sdv audit emmc trace --script $EXAMPLES/emmc_bring_up.sdv | tail -n 1
  trace fault Script line 5
  line 5, script line 9: CMD9 00010000 R2 00000000000f03ffc0038000000000: the script does not come here; it stands at CMD9

Where an address has more than 32 bits, or the input ends, nothing is sent, and the trace ends with the event before.

  $ { sed -e 's/^nums cap/nums cap last/' -e '/^done/d' $up; echo 'let last = cap - 1 send 17 at by hc last { clean { recv { ok { done } else { fault cut } } } else { fault rd } }'; } > wide.sdv
  $ sdv certify wide.sdv > wide.cert
  $ printf '%s\n' - 'R7 000001aa' 'R1 00000120' 'R3 80ff8000' 'R2 005858534456202010000000010181' 'R6 12340500' 'R2 400000000009003fffff0000000000' 'R1 00000700' 'R1 00000900' > told
  $ meets wide.sdv wide.cert
  run fault Reply
  1
  CMD16 00000200 R1
  CMD16 00000200 R1 00000900
  $ { sed '/^done/d' $up; echo 'send 24 at by hc 0 { clean { give { ok { } else { fault cut } } } else { fault wr } } wait { ok { done } else { fault late } }'; } > short.sdv
  $ sdv certify short.sdv > short.cert
  $ printf '%s\n' - 'R7 000001aa' 'R1 00000120' 'R3 c0ff8000' 'R2 005858534456202010000000010181' 'R6 12340500' 'R2 400000000009000000000000000000' 'R1 00000700' 'R1 00000900' 'R1 00000900' > told
  $ meets short.sdv short.cert
  run fault Input
  1
  CMD24 00000000 R1 out 1 lines 1
  CMD24 00000000 R1 00000900

Where the other side is gone at a phase or a wait, the trace has what the script does after that without a command.

  $ head -c 512 /dev/zero > in
  $ leaves() { sdv certify gone.sdv > gone.cert; sdv drive gone.sdv gone.cert --in in --trace trace < told > asked; echo $?; tail -n 2 trace; }
  $ for cut in 'fault cut' 'send 13 { else { } } fault cut'; do
  >   { sed '/^done/d' $up; echo "send 24 at by hc 0 { clean { give { ok { } else { $cut } } wait { ok { fault given } else { fault late } } } else { fault wr } }"; } > gone.sdv
  >   leaves; done
  answer fault Closed line 11: found the end, expected ok or cut
  2
  OUT 1 cut
  fault cut
  answer fault Closed line 11: found the end, expected ok or cut
  2
  CMD24 00000000 R1 00000900
  OUT 1 cut
  $ echo ok >> told; leaves
  answer fault Closed line 12: found the end, expected ok or late
  2
  WAIT late
  fault late

The requests with their data lines; each line of blocks, as it is given and received.

  $ sdv certify $EXAMPLES/emmc_eight_lines.sdv > lines.cert
  $ register() { echo ok; printf '%01024d\n' 0; }
  $ { printf '%s\n' - 'R3 c0ff8080' 'R2 000158534456455249100000000117' 'R1 00000500' 'R2 00000000000903ffc0038000000000' 'R1 00000700' 'R1 00000900' 'R1 00000900'
  >   register; printf '%s\n' 'R1 00000900' late ok 'R1 00000900' 'R1 00000900'; register; } > told
  $ sdv drive $EXAMPLES/emmc_eight_lines.sdv lines.cert --trace trace < told | tail -n 8; tail -n 8 trace
  REG 512 lines 1
  CMD6 03b70200 R1
  WAIT
  WAIT
  CMD13 00010000 R1
  CMD8 00000000 R1 in 512 bytes lines 8
  REG 512 lines 8
  done
  REG 512 ok
  CMD6 03b70200 R1 00000900
  WAIT late
  WAIT ok
  CMD13 00010000 R1 00000900
  CMD8 00000000 R1 00000900
  REG 512 ok
  done

A run may send as many commands as its certificate bounds; phases and waits are none of them.

  $ { sed -n '/^card/p; /^flags/p; /^nums/p; /^send 0/p; /^send 8/p' $EXAMPLES/sd_bring_up.sdv; echo 'send 55 { app { send 41 0x40ff8000 { ocr.ready & ocr.block { set hc } ocr.ready { } else { fault busy } } } else { fault no } }'
  >   sed -n '/^send [2379]/p; /^send 16/p' $EXAMPLES/sd_bring_up.sdv
  >   echo 'send 24 at by hc 0 { clean { give { ok { } else { fault cut } } } else { fault wr } } wait { ok { } else { fault late } } send 13 { clean & state=tran { done } else { fault st } }'; } > tight.sdv
  $ sdv certify tight.sdv > tight.cert; sdv check tight.sdv tight.cert; head -c 512 /dev/zero > in
  accepted 11
  $ printf '%s\n' - 'R7 000001aa' 'R1 00000120' 'R3 c0ff8000' 'R2 005858534456202010000000010181' 'R6 12340500' 'R2 400000000009000000000000000000' 'R1 00000700' 'R1 00000900' 'R1 00000900' ok ok 'R1 00000900' > told
  $ sdv drive tight.sdv tight.cert --in in < told > asked; grep -c '^CMD' asked; grep -v '^0*$' asked | tail -n 4
  11
  OUT 1 lines 1
  WAIT
  CMD13 12340000 R1
  done

Lines that are no request to a card: it ends, with the number of the line.

  $ small=$EXAMPLES/sd_byte.card
  $ for line in '' ' WAIT' wait done. 'IN 8' 'IN 1 lines 2' 'IN 3 lines 5' 'IN x lines 4' 'IN 65536 lines 4' 'REG 513 lines 1' 'CMD64 00000000 R1' 'CMD17 0000000 R1' 'CMD17 000000000 R1' \
  >     'CMD17 00000000 X' 'CMD17 00000000' 'CMD 00000000 R1' ok; do printf "WAIT\n$line\n" | sdv card $small new:16 2>&1; echo $?; done | uniq -c | sort | uniq -c
       17       1 2
       17       1 ok
        1       1 request fault Line line 2: found " WAIT", expected a request
        1       1 request fault Line line 2: found "", expected a request
        1       1 request fault Line line 2: found "CMD 00000000 R1", expected a request
        1       1 request fault Line line 2: found "CMD17 0000000 R1", expected a request
        1       1 request fault Line line 2: found "CMD17 00000000 X", expected a request
        1       1 request fault Line line 2: found "CMD17 00000000", expected a request
        1       1 request fault Line line 2: found "CMD17 000000000 R1", expected a request
        1       1 request fault Line line 2: found "CMD64 00000000 R1", expected a request
        1       1 request fault Line line 2: found "IN 1 lines 2", expected a request
        1       1 request fault Line line 2: found "IN 3 lines 5", expected a request
        1       1 request fault Line line 2: found "IN 65536 lines 4", expected at most 65535 blocks
        1       1 request fault Line line 2: found "IN 8", expected a request
        1       1 request fault Line line 2: found "IN x lines 4", expected a request
        1       1 request fault Line line 2: found "REG 513 lines 1", expected a request
        1       1 request fault Line line 2: found "done.", expected a request
        1       1 request fault Line line 2: found "ok", expected a request
        1       1 request fault Line line 2: found "wait", expected a request
  $ printf 'WAIT\nfault mute\nWAIT\n' | sdv card $small new:16
  ok
  $ printf 'WAIT\nOUT 1 lines 4\n' | sdv card $small new:16
  ok
  request fault Closed line 2: found the end in line 3, expected 1024 hexadecimal digits
  [2]
  $ printf 'WAIT\nOUT 2 lines 4\n%s\n00\n' $zeros | sdv card $small new:16
  ok
  request fault Line line 2: found "00" in line 4, expected 1024 hexadecimal digits
  [2]

A command announces the data phase that follows it, and the card side reads it with and without that.

  $ for line in ' in 1 lines 1' ' in 8 lines 4' ' in 512 bytes lines 8' ' out 65535 lines 4' '' ' in 1' ' in lines 1' ' in 1 lines 2' ' out 8 bytes lines 1' ' in 1 lines 1 in 1 lines 1' ' in  1 lines 1' \
  >     ' up 1 lines 1' ' in 1 bytes' ' in 1 bytes lines 3'; do printf "CMD17 00000000 R1$line\n" | sdv card $small new:16 2>&1; done
  timeout
  timeout
  timeout
  timeout
  timeout
  request fault Line line 1: found "CMD17 00000000 R1 in 1", expected a request
  request fault Line line 1: found "CMD17 00000000 R1 in lines 1", expected a request
  request fault Line line 1: found "CMD17 00000000 R1 in 1 lines 2", expected a request
  request fault Line line 1: found "CMD17 00000000 R1 out 8 bytes lines 1", expected a request
  request fault Line line 1: found "CMD17 00000000 R1 in 1 lines 1 in 1 lines 1", expected a request
  request fault Line line 1: found "CMD17 00000000 R1 in  1 lines 1", expected a request
  request fault Line line 1: found "CMD17 00000000 R1 up 1 lines 1", expected a request
  request fault Line line 1: found "CMD17 00000000 R1 in 1 bytes", expected a request
  request fault Line line 1: found "CMD17 00000000 R1 in 1 bytes lines 3", expected a request
  [2]
  $ mkfifo requests answers; head -c 1024 /dev/zero > in
  $ talk() { sdv card $EXAMPLES/$1 new:$2 < requests > answers & sdv drive script cert --in in --trace trace $3 < answers | tee requests; }
  $ sdv batch sd "write 8 2 read 9 1" > script; sdv certify script > cert
  $ talk sd_block.card 1024 | grep -v '^0*$' > announced; cp trace trace.announced; talk sd_block.card 1024 --plain | grep -v '^0*$' > plain
  $ diff plain announced | grep '^>' | cut -c 3-; cmp trace trace.announced; sed 's/ in .*//; s/ out .*//' announced | cmp - plain
  CMD25 00000008 R1 out 2 lines 1
  CMD17 00000009 R1 in 1 lines 1
  $ for script in emmc_ext_csd emmc_eight_lines sd_write_poll; do cp $EXAMPLES/$script.sdv script; sdv certify script > cert; kind=${script%%_*}
  >     talk ${kind}_block.card $([ $kind = sd ] && echo 1024 || echo 2048) | grep -E ' (in|out) '; done
  CMD8 00000000 R1 in 512 bytes lines 1
  CMD8 00000000 R1 in 512 bytes lines 1
  CMD8 00000000 R1 in 512 bytes lines 8
  CMD24 00000003 R1 out 1 lines 1

The bytes of ACMD51 and ACMD13, which follow a CMD55 that was answered with APP_CMD; a plain CMD13 has no data.

  $ { sed -n '/^card/,/^let cap/p' $EXAMPLES/sd_bring_up.sdv; echo 'send 13 { clean { } else { fault a } } send 55 { app { } else { fault b } }'
  >   echo 'send 51 { clean { } else { fault c } } recv reg { ok { } else { fault d } } send 55 { app { } else { fault e } } send 13 { clean { } else { fault f } } recv reg { ok { } else { fault g } } done'; } > script
  $ sdv certify script > cert && talk sd_block.card 1024 | tail -n 8
  CMD13 12340000 R1
  CMD55 12340000 R1
  CMD51 00000000 R1 in 8 bytes lines 1
  REG 8 lines 1
  CMD55 12340000 R1
  CMD13 12340000 R1 in 64 bytes lines 1
  REG 64 lines 1
  done

A host and a card that are joined by two pipes leave what a run leaves.

  $ up=$EXAMPLES/sd_bring_up.sdv cert=$EXAMPLES/sd_bring_up.cert card=$EXAMPLES/sd_block.card
  $ mkfifo requests answers
  $ sdv card $card new:1024 < requests > answers & sdv drive $up $cert --trace trace > requests < answers; wait $!
  $ cat trace
  CMD0 00000000 -
  CMD8 000001aa R7 000001aa
  CMD55 00000000 R1 00000120
  CMD41 40ff8000 R3 c0ff8000
  CMD2 00000000 R2 005858534456202010000000010181
  CMD3 00000000 R6 12340500
  CMD9 12340000 R2 400000000009000000000000000000
  CMD7 12340000 R1 00000700
  CMD16 00000200 R1 00000900
  done
  $ sdv run $up $cert $card new:1024 | cmp - trace

A block is written and read, and the card keeps it.

  $ sdv batch sd "write 3 1 read 3 1" > batch; sdv certify batch > batch.cert
  $ head -c 512 /dev/zero | tr '\0' a > blocks; head -c 524288 /dev/zero > image
  $ sdv card $card image < requests > answers & sdv drive batch batch.cert --in blocks --out read --trace trace > requests < answers; wait $!
  $ cmp blocks read; tail -c +1537 image | head -c 512 | cmp - blocks; tail -n 3 trace
  CMD17 00000003 R1 00000900
  IN 1 ok
  done

The card alone answers line by line.

  $ printf 'CMD0 00000000 -\nCMD8 000001aa R7\nCMD55 00000000 R1\nCMD41 40ff8000 R3\ndone\n' | sdv card $card new:1024
  -
  R7 000001aa
  R1 00000120
  R3 c0ff8000
  $ printf 02 > schedule; printf 'CMD0 00000000 -\nCMD8 000001aa R7\nIN 1 lines 1\nWAIT\n' | sdv card $card new:1024 schedule
  -
  timeout
  cut
  ok

A request that is none ends it, with the number of its line.

  $ printf 'CMD0 00000000 -\nCMD64 00000000 -\nWAIT\n' | sdv card $card new:1024
  -
  request fault Line line 2: found "CMD64 00000000 -", expected a request
  [2]
  $ printf 'CMD0 00000000 -\nOUT 1 lines 4\n00\n' | sdv card $card new:1024
  -
  request fault Line line 2: found "00" in line 3, expected 1024 hexadecimal digits
  [2]
  $ printf 'CMD0 00000000 -\nWAI' | sdv card $card new:1024
  -
  request fault Closed line 2: found the end behind "WAI", expected a request
  [2]

Cards and images that cannot be used.

  $ sdv card $card new:1023 < /dev/null
  card fault ImageLength
  [1]
  $ sdv card $card nowhere < /dev/null
  cannot use nowhere
  [2]
  $ printf 9 > schedule; sdv card $card new:1024 schedule < /dev/null
  card fault Description
  [1]
  $ sdv card $card
  usage: IMAGE is missing: sdv card CARD [IMAGE] [SCHEDULE] [--describe]
  [2]

The host alone asks line by line. An answer that is none, and the end of its input, end the run.

  $ printf '%s\n' - 'R7 000001aa' 'R1 00000120' timeout | sdv drive $up $cert --trace trace
  CMD0 00000000 -
  CMD8 000001aa R7
  CMD55 00000000 R1
  CMD41 40ff8000 R3
  fault lost41
  [1]
  $ cat trace
  CMD0 00000000 -
  CMD8 000001aa R7 000001aa
  CMD55 00000000 R1 00000120
  CMD41 40ff8000 timeout
  fault lost41
  $ printf '%s\n' - 'R7 000001aa' 'R1 120' | sdv drive $up $cert --trace trace
  CMD0 00000000 -
  CMD8 000001aa R7
  CMD55 00000000 R1
  answer fault Line line 3: found "R1 120", expected R1 and 8 digits, timeout or damaged
  [2]
  $ cat trace
  CMD0 00000000 -
  CMD8 000001aa R7 000001aa
  CMD55 00000000 timeout
  $ printf '%s\n' - 'R7 000001aa' | sdv drive $up $cert --trace trace
  CMD0 00000000 -
  CMD8 000001aa R7
  CMD55 00000000 R1
  answer fault Closed line 3: found the end, expected R1 and 8 digits, timeout or damaged
  [2]
  $ cat trace
  CMD0 00000000 -
  CMD8 000001aa R7 000001aa
  CMD55 00000000 timeout

A damaged answer is as good as a lost one.

  $ printf '%s\n' - 'R7 000001aa' 'R1 00000120' damaged | sdv drive $up $cert --trace trace
  CMD0 00000000 -
  CMD8 000001aa R7
  CMD55 00000000 R1
  CMD41 40ff8000 R3
  fault lost41
  [1]
  $ cat trace
  CMD0 00000000 -
  CMD8 000001aa R7 000001aa
  CMD55 00000000 R1 00000120
  CMD41 40ff8000 timeout
  fault lost41

Where no response is waited for, none is damaged.

  $ echo damaged | sdv drive $up $cert --trace trace
  CMD0 00000000 -
  answer fault Line line 1: found "damaged", expected -
  [2]
  $ cat trace
  CMD0 00000000 -

Nothing is asked where the script is not accepted, or a file cannot be used.

  $ sdv drive $up $up < /dev/null
  certificate fault Header
  [1]
  $ sdv drive $EXAMPLES/refused_block_address.sdv $cert < /dev/null
  refused Points
  [1]
  $ sdv drive $up nowhere < /dev/null
  cannot use nowhere
  [2]
  $ sdv drive $up $cert --trace . < /dev/null
  cannot use .
  [2]
  $ sdv drive $up $cert --trace - < /dev/null
  cannot use -
  [2]

A file that is made and is one of the other files, by its name or by links, loses nothing.

  $ cp $up up.sdv; cp $cert up.cert; ln -s up.sdv link; ln up.cert hard; head -c 512 /dev/zero > up.in
  $ for file in up.sdv ./up.cert up.in link hard; do
  >     sdv drive up.sdv up.cert --in up.in --out $file < /dev/null; echo $?
  >     sdv drive up.sdv up.cert --in up.in --out o --trace $file < /dev/null; echo $?
  > done
  cannot use up.sdv
  2
  cannot use up.sdv
  2
  cannot use ./up.cert
  2
  cannot use ./up.cert
  2
  cannot use up.in
  2
  cannot use up.in
  2
  cannot use link
  2
  cannot use link
  2
  cannot use hard
  2
  cannot use hard
  2
  $ cmp up.sdv $up && cmp up.cert $cert && wc -c < up.in; [ -e o ] || echo no output
  512
  no output
  $ sdv drive up.sdv up.cert --out o --trace ./o < /dev/null; [ -e o ] || echo no output
  cannot use ./o
  no output

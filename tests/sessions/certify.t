Certificates of scripts.

  $ printf 'card sd\nsend 0 { else { } }\nfault stop\n' > a.sdv
  $ sdv certify a.sdv
  sdv-cert 1
  points 2
  p 0 b 1 m 1 s 0000000000002000 0000000000002800 0000000000002c00
  p 1 b 0 m 1 s 0000000000002000 0000000000002800 0000000000002c00
  $ sdv certify $EXAMPLES/sd_bring_up.sdv > up.cert; head -n 2 up.cert; wc -l < up.cert
  sdv-cert 1
  points 23
  25
  $ sdv check $EXAMPLES/sd_bring_up.sdv up.cert
  accepted 2007
  $ sed 's/p 0 b 2007/p 0 b 2006/' up.cert | sdv check $EXAMPLES/sd_bring_up.sdv -
  refused Bound point 0
  [1]

What a script has no certificate for.

  $ printf 'card sd send 0 { else { } } done' | sdv certify -
  refused EndState point 1
  [1]
  $ printf 'card sd send 7 { else { } } fault stop' | sdv certify -
  refused Illegal point 0 shape 0000000000002000
  [1]
  $ printf 'card sd\nsend 0 { else { } } loop 257 { loop 65535 { loop 65535 { send 0 { else { } } } else { } } else { } } else { }\nfault stop' | sdv certify -
  refused TooMany
  [1]
  $ sdv certify $EXAMPLES/refused_block_address.sdv
  refused Address point 24
  [1]

Files that are no texts, or none.

  $ printf 'card sd\n\377' > bytes.sdv; sdv certify bytes.sdv
  cannot use bytes.sdv
  [2]
  $ sdv certify missing.sdv
  cannot use missing.sdv
  [2]
  $ sdv certify .
  cannot use .
  [2]
  $ sdv certify a.sdv > /dev/full
  [2]

The certificate that `make quick` shows.

  $ sed 's/at block 8/at by hc 8/' $EXAMPLES/refused_block_address.sdv > mended.sdv; sdv certify mended.sdv | cmp - $EXAMPLES/quick/mended.cert

Checks of scripts and certificates.

  $ printf 'card sd\nsend 0 { else { } }\nfault stop\n' > a.sdv; sdv certify a.sdv > a.cert
  $ sdv check a.sdv a.cert
  accepted 1
  $ sdv check a.sdv a.cert > /dev/full
  [2]

The script is read first, and the certificate is checked last.

  $ printf 'card sd\n' > falls.sdv; printf 'sdv-cert 1\npoints 2\np 0 b 1 m' > cut.cert
  $ sdv check falls.sdv cut.cert
  script fault NoEnd line 2
  [1]
  $ sdv check a.sdv cut.cert
  certificate fault Syntax line 3
  [1]
  $ printf 'sdv-cert 3\n' | sdv check a.sdv -
  certificate fault Header
  [1]
  $ sed 's/2000 0000000000002800/2800 0000000000002000/' a.cert | sdv check a.sdv -
  certificate fault Order line 3
  [1]
  $ printf 'card sd done' > done.sdv; printf 'sdv-cert 1\npoints 1\np 0 b 1 m 1 s 0000000000002000 0000000000002800 0000000000002c00\n' > one.cert
  $ sdv check a.sdv one.cert
  refused Points
  [1]
  $ sdv check done.sdv one.cert
  refused EndState point 0
  [1]
  $ printf 'card sd send 7 { else { } } fault stop' | sdv check - a.cert
  refused Illegal point 0
  [1]

A certificate of 16 MiB and a byte.

  $ head -c 16777217 /dev/zero | tr '\0' x > long.cert; sdv check a.sdv long.cert
  certificate fault Limit
  [1]

Files that are no texts, or none.

  $ printf 'card sd\n\377' > bytes
  $ sdv check bytes a.cert; sdv check a.sdv bytes; sdv check missing.sdv missing.cert; sdv check a.sdv missing.cert; sdv check . missing.cert
  cannot use bytes
  cannot use bytes
  cannot use missing.sdv
  cannot use missing.cert
  cannot use .
  [2]
  $ sdv check missing.sdv a.cert > /dev/full 2>&1
  [2]

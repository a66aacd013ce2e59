The bytes of frames, as the standard prints them.

  $ sdv frame 0 0
  40 00 00 00 00 95
  $ sdv frame 8 0x1AA
  48 00 00 01 aa 87
  $ sdv frame 17 0
  51 00 00 00 00 55
  $ sdv frame 41 0x40FF8000
  69 40 ff 80 00 17
  $ sdv frame 1 0x40ff8080
  41 40 ff 80 80 89
  $ sdv frame 63 0xFFffFFff
  7f ff ff ff ff 19

Numbers may have leading zeros.

  $ sdv frame 0007 0
  47 00 00 00 00 83

A stream that takes nothing.

  $ sdv frame 0 0 > /dev/full
  [2]
  $ sdv frame 0 2> /dev/full
  [2]
  $ sdv frame 0 0 2> /dev/full
  40 00 00 00 00 95

Descriptions of cards.

  $ sdv card --describe $EXAMPLES/sd_byte.card
  SD card of version 1 with byte addresses
  capacity: 16 blocks, 8192 bytes
  image that `run` wants: 16 blocks, 8192 bytes
  block length at the start: 512 bytes
  relative card address: 1
  CSD, bits 127 to 8: 0000000000090000c0000000000000
      CSD_STRUCTURE 0
      READ_BL_LEN 9
      C_SIZE 3
      C_SIZE_MULT 0
  $ sdv card --describe - < $EXAMPLES/emmc_boot.card
  e.MMC device with block addresses
  capacity: 2048 blocks, 1048576 bytes
  each boot partition: 256 blocks, 131072 bytes
  image that `run` wants: 2560 blocks, 1310720 bytes
  block length at the start: 512 bytes
  relative card address: 1
  CSD, bits 127 to 8: 00000000000903ffc0038000000000
      CSD_STRUCTURE 0
      READ_BL_LEN 9
      C_SIZE 4095
      C_SIZE_MULT 7
  EXT_CSD, bytes 215 to 212: 00000800
      SEC_COUNT 2048
  EXT_CSD, byte 226: 01
      BOOT_SIZE_MULT 1

A text that is none.

  $ printf 'card sd\r\nversion 2\r\n' | sdv card --describe -
  line 1: expected `card sd` or `card emmc`
  the line ends in CR LF; lines end in LF
  card fault Description
  [1]

  $ printf 'card sd\nversion 3\n' | sdv card --describe -
  line 2: expected `version` and 1 or 2
  card fault Description
  [1]
  $ sdv card --describe none.card
  cannot use none.card
  [2]

A schedule beside a card.

  $ printf '0 0\r\n02\n' > good; sdv card --describe $EXAMPLES/sd_byte.card good | tail -n 1
  schedule: digits from 0 to 7, as `run` wants them
  $ printf '01\n08\n' > wrong; sdv card --describe $EXAMPLES/sd_byte.card wrong 2> said | tail -n 1
  the schedule is wrong, line 2: expected a digit from 0 to 7; `try` alone takes a schedule by name
  $ sdv card --describe $EXAMPLES/sd_byte.card wrong > page; echo $?
  card fault Description
  1
  $ printf '2nd CMD17 timeout\n' > named; sdv card --describe $EXAMPLES/sd_byte.card named 2> said | tail -n 1
  the schedule is wrong, line 1: expected a digit from 0 to 7; `try` alone takes a schedule by name
  $ printf 'card sd\nversion 3\n' | sdv card --describe - wrong
  line 2: expected `version` and 1 or 2
  card fault Description
  [1]
  $ sdv card --describe $EXAMPLES/sd_byte.card none
  cannot use none
  [2]
  $ sdv card --describe $EXAMPLES/sd_byte.card good more
  usage: --describe takes CARD and SCHEDULE alone: sdv card CARD [IMAGE] [SCHEDULE] [--describe]
  [2]

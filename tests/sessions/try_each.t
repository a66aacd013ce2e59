Every run of a script with one mishap; `-` where the event cannot have it. An accepted script comes to nothing that is not allowed.

  $ sdv try --each $EXAMPLES/sd_bring_up.sdv $EXAMPLES/sd_block.card new:1024
  line 5     CMD0        done: other block length
  line 6     CMD8        fault: lost, lost while busy; done: answer lost
  line 7     CMD55       fault: lost, answer lost, refused, no APP_CMD, lost while busy, ERASE_SEQ_ERROR; done: not ready, error shown, error while busy, OUT_OF_RANGE, ILLEGAL_COMMAND
  line 7     CMD41       fault: lost, answer lost, lost while busy; done: not ready
  line 8     CMD2        fault: lost, answer lost, lost while busy
  line 9     CMD3        fault: lost, answer lost, error shown, refused, lost while busy, error while busy, OUT_OF_RANGE, ERASE_SEQ_ERROR, answer lost with other address, refused with other address; done: not ready, ILLEGAL_COMMAND
  line 10    CMD9        fault: lost, answer lost, lost while busy
  line 11    CMD7        fault: lost, answer lost, error shown, refused, lost while busy, error while busy, OUT_OF_RANGE, ERASE_SEQ_ERROR, ILLEGAL_COMMAND; done: not ready
  line 12    CMD16       fault: lost, answer lost, error shown, refused, lost while busy, error while busy, OUT_OF_RANGE, ERASE_SEQ_ERROR, ILLEGAL_COMMAND; done: not ready
  without a mishap: done
  with one: 0 wrong, 0 stopped, 45 fault, 12 done
  $ sdv try --each $EXAMPLES/emmc_bring_up.sdv $EXAMPLES/emmc_byte.card new:16 | tail -n 2
  without a mishap: done
  with one: 0 wrong, 0 stopped, 36 fault, 5 done

Scripts that are refused: beside each of two cards, with one mishap that shows it, and without a mishap.

  $ sdv try --each $EXAMPLES/hosts/linux_read.sdv $EXAMPLES/sd_block.card new:1024
  line 10    CMD0        done: other block length
  line 11    CMD8        fault: lost, answer lost, lost while busy
  line 14    CMD55       done: lost, answer lost, not ready, error shown, refused, no APP_CMD, lost while busy, error while busy, OUT_OF_RANGE, ERASE_SEQ_ERROR, ILLEGAL_COMMAND
  line 16    CMD41       wrong: answer lost; done: lost, not ready, lost while busy
  line 24    CMD2        wrong: answer lost; done: lost, lost while busy
  line 25    CMD3        wrong: refused, ERASE_SEQ_ERROR, refused with other address; done: lost, answer lost, not ready, error shown, lost while busy, error while busy, OUT_OF_RANGE, ILLEGAL_COMMAND, answer lost with other address
  line 26    CMD9        done: lost, answer lost, lost while busy
  line 27    CMD7        wrong: answer lost, refused, ERASE_SEQ_ERROR; done: lost, not ready, error shown, lost while busy, error while busy, OUT_OF_RANGE, ILLEGAL_COMMAND
  line 28    CMD55       fault: lost, answer lost, refused, no APP_CMD, lost while busy, ERASE_SEQ_ERROR; done: not ready, error shown, error while busy, OUT_OF_RANGE, ILLEGAL_COMMAND
  line 28    CMD51       wrong: refused, ERASE_SEQ_ERROR; fault: lost, answer lost, lost while busy; done: not ready, error shown, error while busy, OUT_OF_RANGE, ILLEGAL_COMMAND
  line 28    REG 8       fault: cut, time passes
  line 29    CMD55       fault: lost, answer lost, refused, no APP_CMD, lost while busy, ERASE_SEQ_ERROR; done: not ready, error shown, error while busy, OUT_OF_RANGE, ILLEGAL_COMMAND
  line 29    CMD6        wrong: refused, ERASE_SEQ_ERROR; fault: lost, answer lost, lost while busy; done: not ready, error shown, error while busy, OUT_OF_RANGE, ILLEGAL_COMMAND
  line 33    CMD17       done: lost, answer lost, not ready, error shown, refused, lost while busy, error while busy, OUT_OF_RANGE, ERASE_SEQ_ERROR, ILLEGAL_COMMAND
  line 33    IN 1        done: cut, time passes
  without a mishap: done
  with one: 12 wrong, 0 stopped, 23 fault, 68 done
  [1]
  $ printf 'card sd\nsend 0 { else { } }\ndone\n' > early.sdv; sdv try --each early.sdv $EXAMPLES/sd_byte.card new:16
  line 2     CMD0        wrong: other block length
  without a mishap: wrong
  with one: 1 wrong, 0 stopped, 0 fault, 0 done
  [1]

Blocks that the script gives, and the image of a file, which stays as it was.

  $ head -c 524288 /dev/zero > image; cp image before; head -c 4096 /dev/urandom > blocks
  $ sdv try --each $EXAMPLES/production/sd_write_many.sdv $EXAMPLES/sd_block.card image --in blocks | tail -n 2; cmp image before
  without a mishap: done
  with one: 0 wrong, 22 stopped, 0 fault, 72 done
  $ sdv try --each $EXAMPLES/production/sd_write_many.sdv $EXAMPLES/sd_block.card image > table || echo status $?; tail -n 2 table
  status 1
  without a mishap: stopped
  with one: 0 wrong, 67 stopped, 0 fault, 0 done

Further cards have blocks of zeros. There is a table for each card, and an object of JSON names its card.

  $ cp $EXAMPLES/sd_block.card $EXAMPLES/sd_byte.card . && sdv try --each $EXAMPLES/hosts/uboot_mended.sdv sd_block.card new:1024 --card sd_byte.card --in blocks --only wrong
  beside sd_block.card
  without a mishap: done
  with one: 0 wrong, 0 stopped, 73 fault, 75 done
  beside sd_byte.card
  without a mishap: done
  with one: 0 wrong, 0 stopped, 70 fault, 78 done
  $ sdv try --each $EXAMPLES/hosts/uboot_read_many.sdv --card sd_byte.card sd_block.card new:1024 --card sd_block.card --only wrong
  beside sd_block.card
  line 24    CMD18       wrong: answer lost, error shown, error while busy, OUT_OF_RANGE, ILLEGAL_COMMAND
  line 24    CMD12       wrong: lost, refused, lost while busy, ERASE_SEQ_ERROR
  without a mishap: done
  with one: 9 wrong, 0 stopped, 50 fault, 64 done
  beside sd_byte.card
  line 24    CMD18       wrong: answer lost, error shown, error while busy, OUT_OF_RANGE, ILLEGAL_COMMAND
  line 24    CMD12       wrong: lost, refused, lost while busy, ERASE_SEQ_ERROR
  without a mishap: done
  with one: 9 wrong, 0 stopped, 47 fault, 67 done
  beside sd_block.card
  line 24    CMD18       wrong: answer lost, error shown, error while busy, OUT_OF_RANGE, ILLEGAL_COMMAND
  line 24    CMD12       wrong: lost, refused, lost while busy, ERASE_SEQ_ERROR
  without a mishap: done
  with one: 9 wrong, 0 stopped, 50 fault, 64 done
  [1]
  $ sdv try --each early.sdv sd_block.card new:1024 --card sd_byte.card --json
  {"card":"sd_block.card","done":[],"event":0,"fault":[],"line":2,"name":"CMD0","stopped":[],"wrong":["other block length"]}
  {"card":"sd_block.card","done":0,"fault":0,"plain":"wrong","stopped":0,"wrong":1}
  {"card":"sd_byte.card","done":[],"event":0,"fault":[],"line":2,"name":"CMD0","stopped":[],"wrong":["other block length"]}
  {"card":"sd_byte.card","done":0,"fault":0,"plain":"wrong","stopped":0,"wrong":1}
  [1]
  $ printf 'card sd\nversion 1\nunit byte\ncsize 3\ncmult 0\nrbl 9\nrca 1\n' > old.card
  $ printf 'card sd\nsend 0 { else { } }\nsend 8 { echo { fault new } else { } }\nsend 8 { else { } }\ndone\n' > twice.sdv; sdv try --each twice.sdv sd_block.card new:1024 --card old.card --only wrong
  beside sd_block.card
  line 3     CMD8        wrong: lost, answer lost, lost while busy
  without a mishap: fault
  with one: 3 wrong, 0 stopped, 1 fault, 0 done
  beside old.card
  line 2     CMD0        wrong: other block length
  line 3     CMD8        wrong: lost, answer lost, lost while busy
  line 4     CMD8        wrong: lost, answer lost, lost while busy
  without a mishap: wrong
  with one: 7 wrong, 0 stopped, 0 fault, 0 done
  [1]

What is given is refused.

  $ sdv try --each early.sdv $EXAMPLES/emmc_byte.card new:16
  the script is for another kind of card
  [1]
  $ sdv try --each early.sdv $EXAMPLES/sd_byte.card new:15
  card fault ImageLength
  [1]
  $ head -c 511 image > odd; sdv try --each early.sdv $EXAMPLES/sd_byte.card odd
  card fault ImageLength
  [1]
  $ sdv try --each early.sdv $EXAMPLES/sd_byte.card nofile
  cannot use nofile
  [2]
  $ sdv try --each early.sdv nofile new:16
  cannot use nofile
  [2]
  $ sdv try --each early.sdv $EXAMPLES/sd_byte.card new:16 --in odd
  cannot use odd
  [2]
  $ printf 'card\n' > none.sdv; sdv try --each none.sdv $EXAMPLES/sd_byte.card new:16
  script fault Syntax line 2
  [1]
  $ sdv try --each early.sdv early.sdv new:16
  card fault Description
  [1]
  $ sdv try --each early.sdv $EXAMPLES/sd_byte.card new:16 > /dev/full
  [2]
  $ sdv try --each early.sdv sd_byte.card new:16 --card nofile
  cannot use nofile
  [2]
  $ sdv try --each early.sdv sd_byte.card new:16 --card sd_block.card --card $EXAMPLES/emmc_byte.card
  the script is for another kind of card
  [1]
  $ sdv try --each early.sdv sd_byte.card new:16 --card early.sdv
  card fault Description
  [1]
  $ sdv try early.sdv sd_byte.card new:16 --card sd_block.card; sdv try --each early.sdv sd_byte.card new:16 --card
  usage: --card, --only and --json need --each: sdv try SCRIPT CARD IMAGE [SCHEDULE] [--in FILE] [--out FILE] [--each] [--card CARD].. [--only wrong] [--json] [--lines]
  usage: --card needs CARD: sdv try SCRIPT CARD IMAGE [SCHEDULE] [--in FILE] [--out FILE] [--each] [--card CARD].. [--only wrong] [--json] [--lines]
  [2]
  $ sdv try --each early.sdv $EXAMPLES/sd_byte.card new:16 schedule; sdv try --each --lines early.sdv $EXAMPLES/sd_byte.card new:16
  usage: --each goes with neither SCHEDULE, --out nor --lines: sdv try SCRIPT CARD IMAGE [SCHEDULE] [--in FILE] [--out FILE] [--each] [--card CARD].. [--only wrong] [--json] [--lines]
  usage: --each goes with neither SCHEDULE, --out nor --lines: sdv try SCRIPT CARD IMAGE [SCHEDULE] [--in FILE] [--out FILE] [--each] [--card CARD].. [--only wrong] [--json] [--lines]
  [2]

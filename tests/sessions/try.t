Scripts without a certificate beside a simulated card: `done` outside the transfer state, and CMD41 where the card did not take
CMD55.

  $ card=$EXAMPLES/sd_block.card
  $ printf 'card sd\nsend 0 { else { } }\ndone\n' > early.sdv; sdv try early.sdv $card new:1024
  CMD0 00000000 -
  wrong done
  line 3: done comes to a card in idle state
  [1]
  $ printf 'card sd\nsend 0 { else { } }\nsend 55 { else { } }\nsend 41 0x40ff8000 { else { } }\nfault end\n' > flag.sdv
  $ sdv try flag.sdv $card new:1024
  CMD0 00000000 -
  CMD55 00000000 R1 00000120
  CMD41 40ff8000 R3 00ff8000
  fault end
  [1]
  $ printf 01 > schedule; sdv try flag.sdv $card new:1024 schedule
  CMD0 00000000 -
  CMD55 00000000 timeout
  wrong CMD41 40ff8000
  line 4: CMD41 comes to a card in idle state without the application flag
  [1]

An accepted script ends as by `run`, with the blocks that it receives in the file of --out.

  $ sdv try $EXAMPLES/sd_bring_up.sdv $card new:1024 | tail -n 2
  CMD16 00000200 R1 00000900
  done
  $ head -c 4096 /dev/zero | tr '\0' x > blocks; cp blocks image; head -c 520192 /dev/zero >> image
  $ sdv try $EXAMPLES/hosts/linux_read_many.sdv $card image --out read | tail -n 1; wc -c < read
  done
  4096

The refused scripts of the examples, beside a card, without a mishap and with one.

  $ for name in refused_block_address refused_unlike_lines; do sdv try $EXAMPLES/$name.sdv $EXAMPLES/sd_byte.card new:16 --in blocks | tail -n 1; done
  line 15: CMD17 comes to a card in tran state with byte addresses, and its argument is none of the block
  wrong CMD17 00000008
  line 16: IN 1 comes to a card in data state that uses other data lines than the host
  wrong IN 1
  $ for name in seabios edk2 linux_read linux_write linux_write_many linux_erase uboot uboot_read_many; do
  >   sdv try $EXAMPLES/hosts/$name.sdv $card new:1024 --in blocks | tail -n 1
  > done
  line 26: done comes to a card in prg state
  wrong done
  line 31: done comes to a card in prg state
  wrong done
  done
  done
  done
  done
  done
  done
  $ printf 005 > error; sdv try $EXAMPLES/hosts/uboot.sdv $card new:1024 error --in blocks | tail -n 1
  line 14: CMD41 comes to a card in idle state without the application flag
  wrong CMD41 40ff8000
  $ printf 00002 > lost; sdv try $EXAMPLES/hosts/linux_read.sdv $card new:1024 lost | tail -n 1
  line 24: CMD2 comes to a card in ident state, where it is not legal
  wrong CMD2 00000000
  $ printf 000000000000005 > erase; sdv try $EXAMPLES/hosts/linux_erase.sdv $card new:1024 erase | tail -n 1
  line 31: CMD33 comes to a card in tran state whose erase sequence is not so far
  wrong CMD33 0000000f
  $ printf 000000000000002 > many; sdv try $EXAMPLES/hosts/uboot_read_many.sdv $card new:1024 many | tail -n 1
  line 23: CMD16 comes to a card in data state, where it is not legal
  wrong CMD16 00000200
  $ printf 000000000000000023 > two; sdv try $EXAMPLES/hosts/linux_write_many.sdv $card new:1024 two --in blocks | tail -n 1
  line 32: CMD12 comes to a card in prg state, where it is not legal
  wrong CMD12 00000000

A run that ends in a fault, one that has too few blocks, and a write that stays in the image of a run that is wrong.

  $ sdv try $EXAMPLES/smallest.sdv $card new:1024
  CMD0 00000000 -
  fault stop
  [1]
  $ sdv try $EXAMPLES/hosts/seabios.sdv $card new:1024 | tail -n 1
  run fault Input
  CMD24 00000008 R1 00000900
  $ head -c 524288 /dev/zero > image; sdv try $EXAMPLES/hosts/seabios.sdv $card image --in blocks > trace; tail -n 2 trace
  line 26: done comes to a card in prg state
  OUT 1 ok
  wrong done
  $ head -c 4608 image | tail -c 512 | tr -d x | wc -c
  0

What is given is refused: another kind of card, no script, no card, and files that do not fit.

  $ sdv try $EXAMPLES/emmc_bring_up.sdv $card new:1024
  the script is for another kind of card
  [1]
  $ printf 'card\n' > none.sdv; sdv try none.sdv $card new:1024
  script fault Syntax line 2
  [1]
  $ printf 'card sd\n' > none.card; sdv try early.sdv none.card new:1024
  card fault Description
  [1]
  $ sdv try early.sdv $card new:1023
  card fault ImageLength
  [1]
  $ head -c 511 image > odd; sdv try early.sdv $card odd
  card fault ImageLength
  [1]
  $ sdv try none.sdv none.card odd
  card fault ImageLength
  [1]
  $ printf 8 > eight; sdv try early.sdv $card new:1024 eight
  card fault Description
  [1]
  $ sdv try early.sdv $card new:1024 --out early.sdv || cat early.sdv
  cannot use early.sdv
  card sd
  send 0 { else { } }
  done
  $ sdv try early.sdv $card image --out image
  cannot use image
  [2]
  $ sdv try early.sdv $card new:1024 --in odd
  cannot use odd
  [2]
  $ sdv try early.sdv nofile new:1024
  cannot use nofile
  [2]
  $ sdv try early.sdv $card
  usage: IMAGE is missing: sdv try SCRIPT CARD IMAGE [SCHEDULE] [--in FILE] [--out FILE] [--each] [--card CARD].. [--only wrong] [--json] [--lines]
  [2]
  $ sdv try early.sdv $card new:1024 --out /nofolder/file
  cannot use /nofolder/file
  [2]
  $ sdv try flag.sdv $card new:1024 > /dev/full
  run fault Trace
  [1]
  $ sdv try flag.sdv $card new:1024 schedule > /dev/full
  run fault Trace
  [1]


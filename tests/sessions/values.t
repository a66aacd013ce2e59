Numbers, cases and data lines of runs.

Numbers that leave their range, by a `let` and by an address, and a register that was not read.

  $ tried() { echo "card sd $1" > a.sdv; sdv try a.sdv $EXAMPLES/sd_byte.card new:16; }
  $ tried 'nums x let x = 1099511627776 let x = x + 1 done'
  fault number
  [1]
  $ tried 'nums x let x = 1099511627776 send 17 at block x + 1 { else { } } done'
  fault number
  [1]
  $ tried 'nums x let x = 1 - 2 done'
  fault number
  [1]
  $ tried 'nums x let x = csd.blocks done'
  fault number
  [1]

Addresses of more than 32 bits.

  $ tried 'send 17 at block 4294967296 { else { } } done'
  wrong CMD17 0000000100000000
  line 1: CMD17 comes to a card in idle state, where it is not legal
  [1]
  $ tried 'send 32 at byte 8388608 { else { } } done'
  wrong CMD32 0000000100000000
  line 1: CMD32 comes to a card in idle state, where it is not legal
  [1]

Four loops, each left early.

  $ tried 'loop 65535 { loop 65535 { loop 65535 { loop 65535 { break } else { } break } else { } break } else { } break } else { } fault out'
  fault out
  [1]

The first of two cases that both hold; an error in the status is no `clean`.

  $ up() { sed '/^send 16/d; /^done$/d; /^let/d' $EXAMPLES/sd_bring_up.sdv; }
  $ { up; echo 'send 16 { answer { fault first } clean { fault second } else { } } done'; } > a.sdv; { up; echo 'send 16 { clean { fault first } answer { fault second } else { } } done'; } > b.sdv
  $ printf 000000004 > error; for script in a b; do sdv try $script.sdv $EXAMPLES/sd_byte.card new:16 | tail -n 2; sdv try $script.sdv $EXAMPLES/sd_byte.card new:16 error | tail -n 2; done
  CMD16 00000200 R1 00000900
  fault first
  CMD16 00000200 R1 00080900
  fault first
  CMD16 00000200 R1 00000900
  fault first
  CMD16 00000200 R1 00080900
  fault second

A block by its number, in the card's unit.

  $ { up; echo 'send 16 { clean { } else { fault len } } send 17 at by hc 3 { clean { recv { ok { } else { fault rd } } } else { fault rd } } done'; } > a.sdv
  $ sdv try a.sdv $EXAMPLES/sd_byte.card new:16 | tail -n 3; sdv try a.sdv $EXAMPLES/sd_block.card new:1024 | tail -n 3
  CMD17 00000600 R1 00000900
  IN 1 ok
  done
  CMD17 00000003 R1 00000900
  IN 1 ok
  done

Three blocks at once, whole and cut.

  $ { up; echo 'send 16 { clean { } else { fault len } } send 18 at by hc 1 count 3 { clean { recv { ok { } else { fault rd } } } else { fault rd } } send 12 { else { } } fault end'; } > a.sdv
  $ sdv try a.sdv $EXAMPLES/sd_byte.card new:16 --out o | tail -n 4; wc -c < o; printf 00000000006 > cut; sdv try a.sdv $EXAMPLES/sd_byte.card new:16 cut --out o | tail -n 3; wc -c < o
  CMD18 00000200 R1 00000900
  IN 3 ok
  CMD12 00000000 R1 00000b00
  fault end
  1536
  CMD18 00000200 R1 00000900
  IN 3 cut
  fault rd
  0

A counted read, and a trim.

  $ for name in emmc_counted_read emmc_trim; do sdv certify $EXAMPLES/$name.sdv > $name.cert; sdv run $EXAMPLES/$name.sdv $name.cert $EXAMPLES/emmc_block.card new:2048 | tail -n +8; done
  CMD8 00000000 R1 00000900
  REG 512 ok
  CMD23 00000008 R1 00000900
  CMD18 00000000 R1 00000900
  IN 8 ok
  done
  CMD8 00000000 R1 00000900
  REG 512 ok
  CMD35 00000008 R1 00000900
  CMD36 0000000f R1 00000900
  CMD38 00000001 R1 00000900
  WAIT ok
  CMD13 00010000 R1 00000900
  done

CMD0 leaves the host's data lines as they are.

  $ sed 's/^send 0/bus.lines 8 send 0/; s/^done$/send 8 { else { } } recv reg { ok { } else { } } done/' $EXAMPLES/emmc_bring_up.sdv > a.sdv; sdv try a.sdv $EXAMPLES/emmc_byte.card new:16 | tail -n 1
  line 13: REG 512 comes to a card in data state that uses other data lines than the host
  wrong REG 512

Phases to the card take the next blocks, also where one is cut; none begins without enough of them.

  $ { up; echo 'send 16 { clean { } else { fault len } } send 25 at by hc 2 count 2 { clean { give { ok { } else { } } } else { fault wr } } send 12 { else { } } wait { ok { } else { } }'
  >   echo 'send 24 at by hc 9 { clean { give { ok { } else { fault wr } } } else { fault wr } } wait { ok { } else { } } done'; } > a.sdv
  $ for letter in a b c d; do head -c 512 /dev/zero | tr '\0' $letter; done > in; printf 00000000006 > cut
  $ for blocks in 0 1 2 3 4; do head -c $((blocks * 512)) in > some; head -c 8192 /dev/zero > image; echo $blocks; sdv try a.sdv $EXAMPLES/sd_byte.card image cut --in some 2>&1 | tail -n +10 | paste -s -d , -; tr -d '\0' < image | sort | fold -w 512 | cut -c 1; done
  0
  CMD25 00000400 R1 00000900,run fault Input
  1
  CMD25 00000400 R1 00000900,run fault Input
  2
  CMD25 00000400 R1 00000900,OUT 2 cut,CMD12 00000000 R1 00000d00,WAIT ok,CMD24 00001200 R1 00000900,run fault Input
  3
  CMD25 00000400 R1 00000900,OUT 2 cut,CMD12 00000000 R1 00000d00,WAIT ok,CMD24 00001200 R1 00000900,OUT 1 ok,WAIT ok,done
  c
  4
  CMD25 00000400 R1 00000900,OUT 2 cut,CMD12 00000000 R1 00000d00,WAIT ok,CMD24 00001200 R1 00000900,OUT 1 ok,WAIT ok,done
  c

A script as long as one may be ends in each way.

  $ long() { echo 'card sd flags f'; yes "set f" | head -n $1; }
  $ { long 4094; echo 'send 9 { else { } } done'; } > a.sdv; sdv try a.sdv $EXAMPLES/sd_byte.card new:16; sdv try a.sdv $EXAMPLES/sd_byte.card new:16 > /dev/full
  wrong CMD9 00000000
  line 4096: CMD9 comes to a card in idle state, where it is not legal
  run fault Trace
  [1]
  $ { long 4072; sed '1,/^nums/d; s/hc/f/g; /^let/d; /^done/d' $EXAMPLES/sd_bring_up.sdv; } > front
  $ { cat front; echo 'send 24 at by f 0 { else { } } give { ok { } else { } } done'; } > a.sdv; sdv try a.sdv $EXAMPLES/sd_byte.card new:16 2>&1 | tail -n 2
  CMD24 00000000 R1 00000900
  run fault Input
  $ { cat front; echo 'send 17 at by f 0 { else { } } recv { ok { } else { } } done'; } > a.sdv; sdv try a.sdv $EXAMPLES/sd_byte.card new:16 | tail -n 1; sdv try a.sdv $EXAMPLES/sd_byte.card new:16 --out /dev/full 2>&1 | tail -n 1
  done
  run fault Output

Images in files, and the blocks that a script gives and receives. block N C makes N blocks of the character C.

  $ block() { head -c $((512 * $1)) /dev/zero | tr '\0' "$2"; }
  $ card=$EXAMPLES/sd_byte.card; { sed 's/nums cap/nums cap x/; /^done/d' $EXAMPLES/sd_bring_up.sdv; } > front

The last block is read. The file of --out is emptied before, and the image stays.

  $ { cat front; echo 'if cap >= 1 { let x = cap - 1 send 17 at by hc x { clean { recv { ok { } else { fault rd } } } else { fault rd } } } else { fault rd } done'; } > read.sdv
  $ sdv certify read.sdv > read.cert; { block 15 a; block 1 z; } > image; cp image before; echo old > out
  $ sdv run read.sdv read.cert $card image --out out | tail -n 3
  CMD17 00001e00 R1 00000900
  IN 1 ok
  done
  $ block 1 z | cmp - out; cmp image before

A block is written.

  $ { cat front; cat << 'END'
  > if cap >= 2 { } else { fault small }
  > send 24 at by hc 1 { clean { } else { fault wr } }
  > give { ok { } else { fault wr } }
  > loop 100 { wait { ok { break } else { } } } else { fault busy }
  > send 13 { clean & state=tran { } else { fault wr } }
  > done
  > END
  > } > write.sdv; sdv certify write.sdv > write.cert; block 1 w > in
  $ sdv run write.sdv write.cert $card image --in in | tail -n 5
  CMD24 00000200 R1 00000900
  OUT 1 ok
  WAIT ok
  CMD13 00010000 R1 00000900
  done
  $ { block 1 a; block 1 w; block 13 a; block 1 z; } | cmp - image

Input that is no whole number of blocks, that has too few, and that is named twice.

  $ block 1 w | head -c 511 > odd; sdv run write.sdv write.cert $card new:16 --in odd
  cannot use odd
  [2]
  $ sdv run write.sdv write.cert $card new:16 | tail -n 1
  run fault Input
  CMD24 00000200 R1 00000900
  $ sdv run write.sdv write.cert $card new:16 --in in --in in 2>&1 | cut -c 1-6
  usage:

Forty blocks in one transfer, more than are kept in memory.

  $ { cat front; cat << 'END'
  > if cap >= 47 { } else { fault small }
  > send 25 at by hc 7 count 40 { clean { } else { fault wr } }
  > give { ok { } else { fault wr } }
  > send 12 { clean { } else { fault wr } }
  > loop 100 { wait { ok { break } else { } } } else { fault busy }
  > send 13 { clean & state=tran { } else { fault wr } }
  > send 18 at by hc 7 count 40 { clean { recv { ok { } else { fault rd } } } else { fault rd } }
  > send 12 { clean { } else { fault rd } }
  > done
  > END
  > } > many.sdv; sdv certify many.sdv > many.cert; for c in a b c d e f g h; do block 5 $c; done > in; block 1024 x > image
  $ sdv run many.sdv many.cert $EXAMPLES/sd_block.card image --in in --out out | grep -A 1 CMD25
  CMD25 00000007 R1 00000900
  OUT 40 ok
  $ cmp in out; { block 7 x; cat in; block 977 x; } | cmp - image

Images of another size than the card's, folders, and no file. Each stays as it is.

  $ up="$EXAMPLES/sd_bring_up.sdv $EXAMPLES/sd_bring_up.cert $EXAMPLES/sd_block.card"
  $ block 1024 x > image; sdv run $up image | tail -n 1; block 1024 x | cmp - image
  done
  $ for size in 523776 513 0; do head -c $size /dev/zero > image; sdv run $up image; wc -c < image; done
  card fault ImageLength
  523776
  card fault ImageLength
  513
  card fault ImageLength
  0
  $ rm image; sdv run $up image; mkdir image; sdv run $up image; ls
  cannot use image
  cannot use image
  before
  front
  image
  in
  many.cert
  many.sdv
  odd
  out
  read.cert
  read.sdv
  write.cert
  write.sdv

The file of --out is emptied whatever becomes of the script.

  $ echo old > out; sdv run $card $EXAMPLES/sd_bring_up.cert $card new:16 --out out; wc -c < out
  script fault Syntax line 2
  0

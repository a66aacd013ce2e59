Tables of accepted scripts.

  $ printf 'card sd\nsend 0 { else { } }\nfault stop\n' > a.sdv; sdv certify a.sdv > a.cert
  $ sdv emit a.sdv a.cert table --binary a.bin
  /* Table of the script a.sdv, certified to send at most 1 commands a run. */
  /* In each run beside a card of the script's kind and of the profile in Guzveldra's docs/CARDS.md, just powered
   * on, at most that many commands are sent, each of them legal in the card's state, with addresses on the card.
   * The run ends: in `done` with the card in the transfer state, in a fault that the script names, or in the fault
   * `number`.
   *
   * This is proved for the script, and the table is proved to be the script's. The premises: a player steps through
   * the table as docs/TABLES.md says, and its driver does what firmware/README.md asks. No player in C is proved. */
  #include <stddef.h>
  #include <stdint.h>
  
  const uint32_t table[] = {
      /* header; a player sends no more commands than its last two words say */
      0x54564453, 0x00000002, 0x000e0002, 0x00000000, 0x00000002, 0x00000000, 0x00000001, 0x00000000,
      0x000a0400, /* point 0, line 2: CMD0 */
      0x000d0049, /* point 1, line 3: fault stop */
      /* rows */
      0x00000001, 0x00000000, 0x00000000, 0x706f7473,
  };
  
  const size_t table_words = sizeof table / sizeof table[0];
  $ od -A n -t x1 -v a.bin | head -n 3
   53 44 56 54 02 00 00 00 02 00 0e 00 00 00 00 00
   02 00 00 00 00 00 00 00 01 00 00 00 00 00 00 00
   00 04 0a 00 49 00 0d 00 01 00 00 00 00 00 00 00

Loops in loops, one of a single turn, and a bound above 2^32: the header says how many moves a run makes at most, and how many commands;
targets say how many loops are left, and how many turns the one has that is entered.

  $ printf 'card sd flags f loop 1 { loop 65535 { if f { break } else { } } else { break } } else { loop 2 { } else { fault in } } fault out' > turns.sdv
  $ sdv certify turns.sdv > turns.cert; sdv emit turns.sdv turns.cert table | sed -n '/^const uint32_t/,/^}/p'
  const uint32_t table[] = {
      /* header; a player sends no more commands than its last two words say */
      0x54564453, 0x01000002, 0x001f0008, 0x00010000, 0x00060009, 0x00000000, 0x00000000, 0x00000000,
      0x00100006, /* point 0, line 1: loop 1 */
      0x00130006, /* point 1, line 1: loop 65535 */
      0x00160003, /* point 2, line 1: if f */
      0x00180007, /* point 3, line 1: break */
      0x00190007, /* point 4, line 1: break */
      0x001a0006, /* point 5, line 1: loop 2 */
      0x001d0029, /* point 6, line 1: fault in */
      0x001e0039, /* point 7, line 1: fault out */
      /* rows */
      0xffff0001, 0x00022005, 0x00000001, 0x00000002, 0x00002004, 0x0000ffff, 0x00000003, 0x00000001,
      0x00002000, 0x00002007, 0x00000005, 0x00002006, 0x00000002, 0x00006e69, 0x0074756f,
  };
  $ printf 'card sd loop 3 { loop 65535 { loop 65535 { send 0 { else { } } } else { } } else { } } else { } fault out' > many.sdv
  $ sdv certify many.sdv > many.cert; sdv check many.sdv many.cert; sdv emit many.sdv many.cert table | sed -n '/^const uint32_t/,/^}/p'
  accepted 12884508675
  const uint32_t table[] = {
      /* header; a player sends no more commands than its last two words say */
      0x54564453, 0x00000002, 0x001a0005, 0x00030000, 0x00040005, 0x00000008, 0xfffa0003, 0x00000002,
      0x000d0006, /* point 0, line 1: loop 3 */
      0x00100006, /* point 1, line 1: loop 65535 */
      0x00130006, /* point 2, line 1: loop 65535 */
      0x00160400, /* point 3, line 1: CMD0 */
      0x00190039, /* point 4, line 1: fault out */
      /* rows */
      0xffff0001, 0x00002004, 0x00000003, 0xffff0002, 0x00002000, 0x0000ffff, 0x00000003, 0x00002001,
      0x0000ffff, 0x00000002, 0x00000000, 0x00000000, 0x0074756f,
  };

The argument of each CMD6.

  $ argument() { sdv try $1 $2 $3 2>&1 | sed -n 's/^wrong //p'; }
  $ for lines in 1 4; do echo "card sd send 6 bus.lines $lines { else { } } fault end" > b.sdv; argument b.sdv $EXAMPLES/sd_byte.card new:16; done
  CMD6 00000000
  CMD6 00000002
  $ for set in "bus.lines 1" "bus.lines 4" "bus.lines 8" "part.access 0" "part.access 1" "part.access 2"; do echo "card emmc send 6 $set { else { } } fault end" > b.sdv; argument b.sdv $EXAMPLES/emmc_byte.card new:16; done
  CMD6 03b70000
  CMD6 03b70100
  CMD6 03b70200
  CMD6 03b30000
  CMD6 03b30100
  CMD6 03b30200

A name may be close to one that C has for itself, or have the mark of a constant in it.

  $ for name in uint32 intro mains _table size x0x12345678 INT8_MAX_; do sdv emit a.sdv a.cert $name | tail -n 1; done
  const size_t uint32_words = sizeof uint32 / sizeof uint32[0];
  const size_t intro_words = sizeof intro / sizeof intro[0];
  const size_t mains_words = sizeof mains / sizeof mains[0];
  const size_t _table_words = sizeof _table / sizeof _table[0];
  const size_t size_words = sizeof size / sizeof size[0];
  const size_t x0x12345678_words = sizeof x0x12345678 / sizeof x0x12345678[0];
  const size_t INT8_MAX__words = sizeof INT8_MAX_ / sizeof INT8_MAX_[0];

A name that could end the comment does not.

  $ cp a.sdv 'b*?.sdv'; sdv emit 'b*?.sdv' a.cert table | head -n 1
  /* Table of the script b\x2a\x3f.sdv, certified to send at most 1 commands a run. */

Why there is none; nothing is printed, and no file is made, then.

  $ sdv emit a.sdv a.cert while 2>&1 | cut -c 1-27
  usage: NAME is a keyword or
  $ for name in uint32_t int_fast8_t size_t UINT16_MAX INT8_C NULL main __table _Table _; do sdv emit a.sdv a.cert $name; done 2>&1 | uniq
  usage: NAME is a keyword or a reserved name of C: sdv emit SCRIPT CERT NAME [--binary FILE]
  $ sdv emit a.sdv a.cert 2b --binary c.bin 2>&1 > c.c | cut -c 1-18
  usage: 2b is no NA
  $ sdv emit a.sdv $EXAMPLES/sd_bring_up.cert table --binary c.bin > c.c
  refused Points
  [1]
  $ wc -c < c.c; ls c.bin 2> c.said || echo none
  0
  none
  $ sdv emit a.sdv a.cert table --binary . > c.c
  cannot use .
  [2]
  $ wc -c < c.c
  0

The file of the words is none of those that are read, by its name or by a link.

  $ sdv emit a.sdv a.cert table --binary a.sdv
  cannot use a.sdv
  [2]
  $ sdv emit a.sdv a.cert table --binary ./a.cert
  cannot use ./a.cert
  [2]
  $ ln -s a.cert link; sdv emit a.sdv a.cert table --binary link
  cannot use link
  [2]
  $ sdv emit - a.cert table --binary a.sdv < a.sdv
  cannot use a.sdv
  [2]
  $ sdv check a.sdv a.cert
  accepted 1

Scripts that serve requests.

  $ sdv batch sd "write 3 1" > write.sdv; head -n 1 write.sdv; grep 'send 24' write.sdv
  card sd
  send 24 at by hc 3 { clean { } else { fault write } }
  $ sdv batch sd " read	0x10 2
  > read 0 1" | grep 'send 1[78]'
  send 18 at by hc 16 count 2 { clean { } else { fault read } }
  send 17 at by hc 0 { clean { } else { fault read } }
  $ sdv batch sd ""
  refused Empty
  [1]
  $ sdv batch emmc "read 0 0"
  refused Range
  [1]
  $ sdv batch sd "write 3 2 read 3 2" | sdv certify - | head -n 2
  sdv-cert 1
  points 48

How many commands such a script may send.

  $ for kind in sd emmc; do
  >     for requests in "write 3 1 write 3 1 read 3 1" "write 3 2 read 3 2" "read 0 65535" "write 4294967295 1"; do
  >         sdv batch $kind "$requests" > a.sdv && sdv certify a.sdv > a.cert && sdv check a.sdv a.cert
  >     done
  > done
  accepted 2012
  accepted 3012
  accepted 3009
  accepted 2009
  accepted 1012
  accepted 2012
  accepted 2009
  accepted 1009

Requests that are served: a block that is written twice and read, and two blocks by one command each.

  $ { head -c 512 /dev/zero | tr '\0' a; head -c 512 /dev/zero | tr '\0' b; } > in
  $ served() { sdv batch $1 "$2" > a.sdv; sdv certify a.sdv > a.cert; head -c $(($3 * 512)) /dev/zero > image; sdv run a.sdv a.cert $EXAMPLES/$1_block.card image --in $4 --out out > trace; echo $?; }
  $ for row in "sd 1024" "emmc 2048"; do served ${row% *} "write 3 1 write 3 1 read 3 1" ${row#* } in; tail -n 11 trace; tr -d '\0' < image | cmp - out; tail -c 512 in | cmp - out; tail -c +1537 image | head -c 512 | cmp - out; done
  0
  CMD24 00000003 R1 00000900
  OUT 1 ok
  WAIT ok
  CMD13 12340000 R1 00000900
  CMD24 00000003 R1 00000900
  OUT 1 ok
  WAIT ok
  CMD13 12340000 R1 00000900
  CMD17 00000003 R1 00000900
  IN 1 ok
  done
  0
  CMD24 00000003 R1 00000900
  OUT 1 ok
  WAIT ok
  CMD13 00010000 R1 00000900
  CMD24 00000003 R1 00000900
  OUT 1 ok
  WAIT ok
  CMD13 00010000 R1 00000900
  CMD17 00000003 R1 00000900
  IN 1 ok
  done
  $ for row in "sd 1024" "emmc 2048"; do served ${row% *} "write 3 2 read 3 2" ${row#* } in; tail -n 10 trace; cmp in out; tr -d '\0' < image | cmp - in; done
  0
  CMD25 00000003 R1 00000900
  OUT 2 ok
  CMD12 00000000 R1 00000d00
  WAIT ok
  CMD13 12340000 R1 00000900
  CMD18 00000003 R1 00000900
  IN 2 ok
  CMD12 00000000 R1 00000b00
  CMD13 12340000 R1 00000900
  done
  0
  CMD25 00000003 R1 00000900
  OUT 2 ok
  CMD12 00000000 R1 00000d00
  WAIT ok
  CMD13 00010000 R1 00000900
  CMD18 00000003 R1 00000900
  IN 2 ok
  CMD12 00000000 R1 00000b00
  CMD13 00010000 R1 00000900
  done

Forty blocks, no two the same, are read in reverse.

  $ for n in $(seq 0 39); do printf '%-512s' "block $n"; done > in; for n in $(seq 39 -1 0); do printf '%-512s' "block $n"; done > reversed
  $ for row in "sd 1024" "emmc 2048"; do served ${row% *} "$(seq -f 'write %g 1' 0 39) $(seq -f 'read %g 1' 39 -1 0)" ${row#* } in; cmp out reversed; done
  0
  0

A card that is too small is told before a block is asked for.

  $ for row in "sd 1024" "emmc 2048"; do served ${row% *} "read ${row#* } 1" ${row#* } /dev/null; tail -n 2 trace; wc -c < out; done
  1
  CMD16 00000200 R1 00000900
  fault beyond
  0
  1
  REG 512 ok
  fault beyond
  0

Counts and blocks that no card has, and more requests than a script can serve.

  $ for requests in "write 0 65536" "read 4294967296 1" "read 0 65535 write 4294967295 2" "write 18446744073709551615 1" "read 18446744073709551616 1"; do
  >     sdv batch sd "$requests"; sdv batch emmc "$requests"
  > done
  refused Range
  refused Range
  usage: 4294967296 is no FIRST or COUNT (from 0 to 4294967295): sdv batch KIND REQUESTS
  usage: 4294967296 is no FIRST or COUNT (from 0 to 4294967295): sdv batch KIND REQUESTS
  refused Range
  refused Range
  usage: 18446744073709551615 is no FIRST or COUNT (from 0 to 4294967295): sdv batch KIND REQUESTS
  usage: 18446744073709551615 is no FIRST or COUNT (from 0 to 4294967295): sdv batch KIND REQUESTS
  usage: 18446744073709551616 is no FIRST or COUNT (from 0 to 4294967295): sdv batch KIND REQUESTS
  usage: 18446744073709551616 is no FIRST or COUNT (from 0 to 4294967295): sdv batch KIND REQUESTS
  [2]
  $ sdv batch sd "read 0 1 write 7 0x100000000"; sdv batch emmc "write 4k 1"; sdv batch sd "read 0 x"
  usage: 0x100000000 is no FIRST or COUNT (from 0 to 4294967295): sdv batch KIND REQUESTS
  usage: 4k is no FIRST or COUNT (from 0 to 4294967295): sdv batch KIND REQUESTS
  usage: REQUESTS are not read FIRST COUNT and write FIRST COUNT: sdv batch KIND REQUESTS
  [2]
  $ for count in 500 800; do
  >     for kind in sd emmc; do sdv batch $kind "$(seq -f 'read %g 1' $count)" > many.sdv; echo $? $(($(wc -l < many.sdv) > 0)); done
  > done
  0 1
  0 1
  refused Limit
  1 0
  refused Limit
  1 0

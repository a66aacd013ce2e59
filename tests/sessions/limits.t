Cards at the limits of descriptions, beside `try`, `try --each` and `verify`. The least card of each sort.

  $ up=$EXAMPLES/sd_bring_up.sdv; mmc=$EXAMPLES/emmc_bring_up.sdv
  $ try() { printf "$2" > card; sdv try $1 card $3 > trace; status=$?; tail -n 1 trace; return $status; }
  $ try $up 'card sd\nversion 2\nunit byte\ncsize 0\ncmult 0\nrbl 9\nrca 1\n' new:4
  done
  $ try $up 'card sd\nversion 1\nunit byte\ncsize 0\ncmult 0\nrbl 9\nrca 1\n' new:4
  done
  $ try $up 'card sd\nversion 2\nunit block\ncsize 0\nrca 1\n' new:1024
  done
  $ try $mmc 'card emmc\nunit byte\ncsize 0\ncmult 0\nrbl 9\n' new:4
  done
  $ try $mmc 'card emmc\nunit block\nsectors 1\n' new:1
  done
  $ try $mmc 'card emmc\nunit block\nsectors 1\nboot 255\n' new:130561
  done

The greatest card of each sort, over files with holes. `try` reads and writes only blocks that the script does.

  $ truncate -s 4294967296 byte; truncate -s 2147483648 mmc_byte; truncate -s 2199023255552 block; truncate -s 2199023255040 sectors
  $ try $up 'card sd\nversion 2\nunit byte\ncsize 4095\ncmult 7\nrbl 11\nrca 65535\n' byte
  done
  $ try $up 'card sd\nversion 2\nunit block\ncsize 4194303\nrca 65535\n' block
  done
  $ try $mmc 'card emmc\nunit byte\ncsize 4095\ncmult 7\nrbl 10\n' mmc_byte
  done
  $ try $mmc 'card emmc\nunit block\nsectors 4294967295\n' sectors
  done
  $ printf 'card sd\nversion 2\nunit block\ncsize 4194303\nrca 65535\n' > card; printf 000004 > digits; sdv try $up card block digits | grep CMD3
  CMD3 00000000 R6 ffff2500

The last two blocks of the greatest card.

  $ sed 's/^done/send 17 at by hc 4294967295 { clean { recv { ok { done } else { fault cut } } } else { fault unread } }/' $up > last.sdv
  $ printf 'card sd\nversion 2\nunit block\ncsize 4194303\nrca 1\n' > card; sdv try last.sdv card block | tail -n 2
  IN 1 ok
  done
  $ sed 's/4294967295/4294967294/' last.sdv > before.sdv; sdv try before.sdv card block | tail -n 3
  CMD17 fffffffe R1 00000900
  IN 1 ok
  done

Relative card addresses.

  $ for rca in 1 65535; do printf "card sd\nversion 2\nunit block\ncsize 0\nrca $rca\n" > card; sdv try $up card new:1024 | grep -e CMD3 -e CMD7; sdv try --each $up card new:1024 | tail -n 1; done
  CMD3 00000000 R6 00010500
  CMD7 00010000 R1 00000700
  with one: 0 wrong, 0 stopped, 45 fault, 12 done
  CMD3 00000000 R6 ffff0500
  CMD7 ffff0000 R1 00000700
  with one: 0 wrong, 0 stopped, 45 fault, 12 done
  $ for rca in 0 65536 -1 99999999999999999999; do printf "card sd\nversion 2\nunit block\ncsize 0\nrca $rca\n" > card; sdv try $up card new:1024; sdv try --each $up card new:1024; done
  card fault Description
  card fault Description
  card fault Description
  card fault Description
  card fault Description
  card fault Description
  card fault Description
  card fault Description
  [1]
  $ printf 'card emmc\nunit block\nsectors 1\nrca 1\n' > card; sdv try $mmc card new:1
  card fault Description
  [1]

Numbers beyond the limits, and images that do not fit.

  $ refused() { printf "$2" > card; sdv try $1 card $3; sdv try --each $1 card $3; }
  $ refused $up 'card sd\nversion 2\nunit byte\ncsize 4096\ncmult 0\nrbl 9\nrca 1\n' new:4
  card fault Description
  card fault Description
  [1]
  $ refused $up 'card sd\nversion 2\nunit byte\ncsize 0\ncmult 8\nrbl 9\nrca 1\n' new:4
  card fault Description
  card fault Description
  [1]
  $ refused $up 'card sd\nversion 2\nunit byte\ncsize 0\ncmult 0\nrbl 12\nrca 1\n' new:4
  card fault Description
  card fault Description
  [1]
  $ refused $up 'card sd\nversion 2\nunit byte\ncsize 0\ncmult 0\nrbl 8\nrca 1\n' new:4
  card fault Description
  card fault Description
  [1]
  $ refused $up 'card sd\nversion 2\nunit block\ncsize 4194304\nrca 1\n' new:1024
  card fault Description
  card fault Description
  [1]
  $ refused $up 'card sd\nversion 1\nunit block\ncsize 0\nrca 1\n' new:1024
  card fault Description
  card fault Description
  [1]
  $ refused $mmc 'card emmc\nunit block\nsectors 0\n' new:1
  card fault Description
  card fault Description
  [1]
  $ refused $mmc 'card emmc\nunit block\nsectors 4294967296\n' new:1
  card fault Description
  card fault Description
  [1]
  $ refused $mmc 'card emmc\nunit block\nsectors 1\nboot 256\n' new:1
  card fault Description
  card fault Description
  [1]
  $ refused $mmc 'card emmc\nunit byte\ncsize 4095\ncmult 7\nrbl 11\n' new:1
  card fault Capacity
  card fault Capacity
  [1]
  $ refused $mmc 'card emmc\nunit block\nsectors 1\nboot 255\n' new:130560
  card fault ImageLength
  card fault ImageLength
  [1]
  $ refused $up 'card sd\nversion 2\nunit block\ncsize 4194303\nrca 1\n' new:1024
  card fault ImageLength
  card fault ImageLength
  [1]
  $ refused $up 'card sd\nversion 2\nunit block\ncsize 0\nrca 1\n' new:4294967296
  cannot use new:4294967296
  cannot use new:4294967296
  [2]

The end of a search in which no small card shows what is wrong: the script sends CMD12 too early only beside a great card.

  $ sed 's/^done/if cap >= 4194304 { send 13 { else { } } send 12 { else { } } } else { }\ndone/' $up > great.sdv; sdv verify great.sdv
  great.sdv:14:42: error: CMD12 is not legal in tran state [state]
      card     tran: byte addresses, block length 512
      hint     the transfer may have ended: send CMD12 where the status shows `state=data` or `state=rcv`
      path     of the greatest card with byte addresses; no simulated card was found that breaks the script
      a way there, if its number tests come out so:
          before the first command    idle: byte addresses, block length not 512
          line 5   CMD0                    -                                    then idle: byte addresses, block length not 512
          line 6   CMD8                    timeout                              then idle: byte addresses, block length not 512
          line 7   CMD55                   status idle, application command next then idle, application command next: byte addresses, block length not 512
                       takes `app`
          line 7   CMD41                   answer, ready, byte addresses        then ready: byte addresses, block length not 512
                       takes `ocr.ready`
          line 8   CMD2                    answer                               then ident: byte addresses, block length not 512
                       takes `answer`
          line 9   CMD3                    status ident                         then stby: byte addresses, block length not 512
                       takes `clean`
          line 10  CMD9                    answer                               then stby: byte addresses, block length not 512
                       takes `answer`
          line 11  CMD7                    status stby                          then tran: byte addresses, block length not 512
                       takes `clean`
          line 12  CMD16                   status tran                          then tran: byte addresses, block length 512
                       takes `clean`
          line 14  CMD13                   timeout                              then tran: byte addresses, block length 512
  great.sdv: refused (1 error)
  [1]
  $ sdv certify great.sdv | head -n 1
  refused Illegal point 24 shape 0000000000002804
  $ printf 'card sd\nversion 2\nunit block\ncsize 4194303\nrca 1\n' > card; sdv try great.sdv card block | tail -n 1
  line 14: CMD12 comes to a card in tran state, where it is not legal
  wrong CMD12 00000000

An e.MMC script that is wrong without a mishap, one that is wrong with one, and one of which no run is found.

  $ printf 'card emmc\nsend 0 { else { } }\ndone\n' > early.sdv; mkdir runs; sdv verify early.sdv --save runs; cat runs/1.card
  early.sdv:3:1: error: done: at done the card has to be in the transfer state [end-state]
      card     idle: byte addresses, block length not 512
      hint     the bring-up may not have come so far: end the run in a fault where it fails
      mishap   none
      wrong    line 3: done comes to a card in idle state
      then     done
      left     the card in idle state
      again    sdv try early.sdv runs/1.card new:1536 runs/1.schedule
  early.sdv: refused (1 error)
  card emmc
  unit block
  sectors 1024
  boot 1
  $ sed 's/^done/send 6 part.access 1 { else { } }\nwait { ok { } else { } }\nsend 17 at by hc 0 { else { } }\nrecv { ok { } else { } }\ndone/' $mmc > boot.sdv; sdv verify boot.sdv | sed -n '/^    [mw]/p'
      mishap   line 14: the card is not ready at the wait
      wrong    line 15: CMD17 comes to a card in prg state, where it is not legal
      mishap   line 15: CMD17 is lost
      wrong    line 16: IN 1 comes to a card in tran state with no read of blocks due
      mishap   line 16: the phase of 1 block from the card is cut
      wrong    line 17: done comes to a card in data state
  $ (cd $EXAMPLES; sdv verify emmc_bring_up.sdv)
  emmc_bring_up.sdv:4:6: note: cap is never read [unread]
  emmc_bring_up.sdv: accepted, at most 1007 commands (1 note)

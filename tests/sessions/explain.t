Explanations of scripts in files.

  $ printf 'card sd\nsend 0 { else { } }\nfault stop\n' > a.sdv; sdv explain a.sdv
  line 2, point 0: CMD0   (at most 1 command)
      idle: byte addresses, block length not 512; byte addresses, block length 512; block addresses
  line 3, point 1: fault stop   (at most 0 commands)
      idle: byte addresses, block length not 512; byte addresses, block length 512; block addresses
  $ printf 'card sd send 7 { else { } } fault stop' | sdv explain -
  refused Illegal point 0 shape 0000000000002000
  line 1, point 0: CMD7, if the card is
      idle: byte addresses, block length not 512
  why: CMD7 is not legal in idle state
  a run that breaks the script, beside a simulated card:
      mishap   none
      wrong    line 1: CMD7 comes to a card in idle state, where it is not legal
      `sdv verify --save DIR` leaves its card and its schedule in DIR
  a way there:
      before the first command    idle: byte addresses, block length not 512
  
  line 1, point 0: CMD7   (at most 1 command)
      idle: byte addresses, block length not 512; byte addresses, block length 512; block addresses
  line 1, point 1: fault stop   (at most 0 commands)
      no run comes here
  refused Illegal point 0 shape 0000000000002000
  [1]
  $ grep -v '^done' $EXAMPLES/emmc_bring_up.sdv > boot.sdv; cat >> boot.sdv << 'END'
  > send 6 part.access 1 { clean { } else { fault sw } }
  > loop 100 { wait { ok { break } else { } } } else { fault busy }
  > send 13 { clean & state=tran { } else { fault sw } }
  > send 17 at by hc 0 { else { fault stop } }
  > done
  > END
  $ sdv explain boot.sdv | grep ^why
  refused Address point 33
  why: the boot partition in access may not have all blocks at by hc 0; what is known: a boot partition has 0 blocks or more; the card has 1 block or more; cap is from 1 to 4294967296, not beyond the card's end
  $ sdv explain $EXAMPLES/refused_unlike_lines.sdv | grep ^why
  refused Illegal point 27 shape 0000000000102815
  why: the card uses 4 data lines, and the host 1 data line

A script that needs too many commands or shapes has no listing.

  $ printf 'card sd\nsend 0 { else { } } loop 257 { loop 65535 { loop 65535 { send 0 { else { } } } else { } } else { } } else { }\nfault stop' | sdv explain -
  why: a run may send more than 1099511627776 commands, or its statements meet more than 65536 shapes of cards in all
  hint: give loops fewer turns, or make two scripts of it, each with a bring-up of its own
  refused TooMany
  [1]

What is no script.

  $ printf 'card sd\nsend 16 @\n' | sdv explain -
  line 2
      send 16 @
              ^
  found: `@`, no token of the language
  can stand here: `{`
  script fault Token line 2
  [1]
  $ printf 'card sd flags hc\nnums timeout\nsend 0 { else { } }\ndone\n' | sdv explain -
  line 2
      nums timeout
           ^
  found: `timeout`, a reserved word
  can stand here: a new name
  hint: the word is reserved: a name has to be another one
  script fault Name line 2
  [1]
  $ printf 'card sd\nsend 3 { clen { } else { fault rca } }\ndone\n' | sdv explain -
  line 2
      send 3 { clen { } else { fault rca } }
               ^
  found: `clen`, a name
  can stand here: `else`, `timeout`, `answer`, `clean`, `ready`, `state`
  hint: did you mean `clean`?
  script fault Syntax line 2
  [1]
  $ printf 'card sd\nsend CMD17 at block 0 { else { fault stop } }\ndone\n' | sdv explain -
  line 2
      send CMD17 at block 0 { else { fault stop } }
           ^
  found: `CMD17`, no token of the language
  can stand here: `0`, `2`, `3`, `6`, `7`, `8`, `9`, `10`, `12`, `13`, `16`, `17`, `18`, `24`, `25`, `32`, `33`, `38`, `41`, `51`, `55`
  hint: commands are numbers: write 17
  script fault Token line 2
  [1]
  $ printf 'card sd\nsend 17 at 100 { else { fault stop } }\ndone\n' | sdv explain -
  line 2
      send 17 at 100 { else { fault stop } }
                 ^
  found: `100`, a number
  can stand here: `block`, `byte`, `by`
  hint: an address is `at block`, `at byte` or `at by FLAG`, and then a position
  script fault Argument line 2
  [1]
  $ printf 'card sd\nsend 0 { else { } }\nsend 3 { clean { } }\ndone\n' | sdv explain -
  line 3
      send 3 { clean { } }
                         ^
  found: `}`, a sign
  can stand here: `else`, `timeout`, `answer`, `clean`, `ready`, `state`
  hint: `else` is missing after line 3
  script fault Syntax line 3
  [1]
  $ printf 'card sd\nloop 2 {\nsend 3 {\n  clean { }\n  else { }\nbreak\n} else { }\ndone\n' | sdv explain -
  line 6
      break
      ^
  found: `break`, a reserved word
  can stand here: `}`
  hint: the `{` of line 3 is not closed
  script fault Syntax line 6
  [1]
  $ printf 'card sd\r\nsned 3 { else { } }\r\ndone\r\n' | sdv explain -
  line 2
      sned 3 { else { } }
      ^
  found: `sned`, a name
  can stand here: `flags`, `nums`, `send`, `recv`, `give`, `wait`, `let`, `if`, `set`, `clear`, `bus.lines`, `loop`, `done`, `fault`
  hint: did you mean `send`?
  script fault Syntax line 2
  [1]
  $ printf 'card emmc\nsend 0 { else { } }\nsend 55 { else { } }\ndone\n' | sdv explain -
  line 3
      send 55 { else { } }
           ^
  found: `55`, a number
  can stand here: `0`, `1`, `2`, `3`, `6`, `7`, `8`, `9`, `10`, `12`, `13`, `16`, `17`, `18`, `23`, `24`, `25`, `35`, `36`, `38`
  hint: the tables of this kind of card have no command with this number
  script fault Command line 3
  [1]
  $ sdv explain missing.sdv
  cannot use missing.sdv
  [2]

Why the checker refuses a certificate, or that it does not.

  $ up=$EXAMPLES/sd_bring_up.sdv cert=$EXAMPLES/sd_bring_up.cert
  $ sdv explain $up $cert
  accepted 2007
  $ sdv explain a.sdv $cert
  this certificate has 23 points and the script 2: it is of another script
  refused Points
  [1]
  $ sed 's/^p 0 b 2007/p 0 b 2006/' $cert | sdv explain $up -
  line 5, point 0: CMD0: the certificate's bound is too low here, or too high at a point that follows
  refused Bound point 0
  [1]
  $ sed 's/^p 2 b 5/p 2 b 9000/' $cert | sdv explain $up -
  line 6, point 1: CMD8: the certificate's bound is too low here, or too high at a point that follows
  refused Bound point 1
  [1]
  $ sed 's/^p 22/p 21/' $cert | sdv explain $up -
  line 25 is not of the form of a certificate
  certificate fault Syntax line 25
  [1]
  $ sed 's/sdv-cert 1/sdv-cert 3/' $cert > other.cert; sdv explain $up other.cert; sdv check $up other.cert
  line 1 is not that of a certificate, `sdv-cert 1` or `sdv-cert 2`
  certificate fault Header
  certificate fault Header
  [1]
  $ sdv explain $cert $cert
  line 1
      sdv-cert 1
      ^
  found: `sdv`, a name
  can stand here: `card`
  script fault Syntax line 1
  [1]
  $ cert() { printf 'sdv-cert 1\npoints %d\n' $#; n=0; for point; do echo "p $n $point"; n=$((n + 1)); done; }
  $ idle='s 0000000000002000 0000000000002800 0000000000002c00' tran='s 0000000000002c04'
  $ cert "b 1 m 1 $idle" "b 0 m 1 v 0 0 - $idle" | sdv explain a.sdv -
  a point has other loops or number variables than in the script: the certificate is of another script
  refused Points
  [1]
  $ cert 'b 1 m 1 s 0000000000002000 0000000000002800' "b 0 m 1 $idle" | sdv explain a.sdv -
  the certificate says more than is known of a card before its first command
  refused Start
  [1]
  $ cert "b 1 m 1 $idle" 'b 0 m 1 s 0000000000002000 0000000000002800' | sdv explain a.sdv -
  line 2, point 0: CMD0: the certificate leaves out a card that may come after it
  refused Shape point 0
  [1]
  $ cert "b 1 m 1 $idle" 'b 0 m 1 s 0000000000002800 0000000000002000' | sdv explain a.sdv -
  the shapes of line 4 do not rise
  certificate fault Order line 4
  [1]
  $ cert "b 1 m 1 $idle" "b 0 m 2 $idle" | sdv explain a.sdv -
  line 2, point 0: CMD0: the certificate says more of the numbers after it than is known
  refused Number point 0
  [1]
  $ printf 'sdv-cert 1\npoints 4097\n' | sdv explain a.sdv -
  the certificate passes a limit
  certificate fault Limit
  [1]
  $ printf 'card sd\nloop 3 { send 2 { else { } } } else { }\nfault stop\n' > b.sdv
  $ cert "b 0 1 m 1 $idle" "b 1 1 m 1 $idle" "b 0 m 1 $idle" | sdv explain b.sdv -
  line 2, point 1: CMD2: it is not legal for a card that the certificate lets come here
  refused Illegal point 1
  [1]
  $ printf 'card sd\nflags f\nif f { send 17 at block 0 { else { } } } else { }\nfault stop' > c.sdv
  $ cert "b 1 m 1 $idle" "b 1 m 0 $tran" "b 0 m 1 $idle 0000000000002c04" | sdv explain c.sdv -
  line 3, point 1: CMD17 at block 0: the certificate does not show that the card has these blocks, or it lets a card with another unit of addresses come here
  refused Address point 1
  [1]
  $ printf 'card sd\nflags f\nif f { done } else { }\nfault stop' > d.sdv
  $ cert "b 0 m 1 $idle" 'b 0 m 1 s 0000000000002003' "b 0 m 1 $idle 0000000000002c04" | sdv explain d.sdv -
  line 3, point 1: done: the certificate lets a card come here that is not in tran state
  refused EndState point 1
  [1]
  $ sdv explain $up missing.cert
  cannot use missing.cert
  [2]
  $ sdv explain $up $cert > /dev/full
  [2]

The reason alone.

  $ sdv explain $EXAMPLES/refused_unlike_lines.sdv --why > why; sdv explain $EXAMPLES/refused_unlike_lines.sdv 2> said | head -n $(wc -l < why) | cmp - why; head -n 4 why
  refused Illegal point 27 shape 0000000000102815
  refused Illegal point 27 shape 0000000000102815
  line 16, point 27: recv, if the card is
      data, a read is due, the card on 4 data lines and the host on 1 data line: byte addresses, block length 512
  why: the card uses 4 data lines, and the host 1 data line
  $ sdv explain --why $up

A run that breaks the script, behind the reason and before the way. Such a run may stop at another point.

  $ sdv explain --why $EXAMPLES/hosts/linux_write_many.sdv 2> said | sed -n '4,9p'
  why: CMD12 is not legal in prg state
  a run that breaks the script, beside a simulated card:
      mishap   line 31: the answer to CMD12 is lost
      mishap   line 32: the card is not ready at CMD13
      wrong    line 32: CMD12 comes to a card in prg state, where it is not legal
      `sdv verify --save DIR` leaves its card and its schedule in DIR
  $ sdv explain --why $EXAMPLES/hosts/linux_write.sdv 2> said | sed -n '4,9p'
  why: CMD12 is not legal in prg state
  a run that breaks the script, beside a simulated card:
      mishap   line 31: the CRC status of the phase of 1 block to the card is lost, and the card programs the blocks
      mishap   line 32: the card is not ready at CMD13
      wrong    line 32: CMD12 comes to a card in prg state, where it is not legal
      `sdv verify --save DIR` leaves its card and its schedule in DIR
  $ sdv explain --why $EXAMPLES/hosts/edk2.sdv 2> said | sed -n '4,10p'
  why: this is an application command, and the card may not take the next command as one
  a run that breaks the script, beside a simulated card:
      mishap   line 13: the card refuses CMD55 with an error
      wrong    line 14: CMD41 comes to a card in idle state without the application flag
      `sdv verify --save DIR` leaves its card and its schedule in DIR
  a way there:
      before the first command    idle: byte addresses, block length not 512
  $ sdv verify $EXAMPLES/hosts/edk2.sdv | sed -n '/^    [mw]/p'
      mishap   line 13: the card refuses CMD55 with an error
      wrong    line 14: CMD41 comes to a card in idle state without the application flag
      mishap   line 17: the card refuses CMD3 with an error
      wrong    line 18: CMD7 comes to a card in ident state, where it is not legal
      mishap   line 18: the card refuses CMD7 with an error
      wrong    line 20: CMD6 comes to a card in stby state, where it is not legal
      mishap   line 22: CMD7 is lost
      wrong    line 23: CMD3 comes to a card in tran state, where it is not legal
      mishap   line 26: the card refuses CMD7 with an error
      wrong    line 30: CMD17 comes to a card in stby state, where it is not legal
      mishap   line 20: the card refuses CMD6 with an error
      wrong    line 30: IN 1 comes to a card in data state that uses other data lines than the host
      mishap   line 31: the answer to CMD24 is lost
      wrong    line 31: CMD24 comes to a card in rcv state, where it is not legal
      mishap   line 31: the card refuses CMD24 with an error
      wrong    line 31: OUT 1 comes to a card in tran state with no write of blocks due
      mishap   none
      wrong    line 31: done comes to a card in prg state

Where none is found, nothing is added; nor where a run may be long, or where the script is accepted.

  $ printf 'card sd\nsend 0 { else { } }\nsend 55 { app { send 41 0x40ff8000 { ocr.ready & ocr.block { send 0 { else { } } send 2 { else { } } } else { } } } else { } }\nfault stop\n' > unchecked.sdv
  $ sdv explain --why unchecked.sdv 2> said | grep -c breaks
  0
  [1]
  $ printf 'card sd\nsend 0 { else { } } loop 60 { loop 65535 { loop 65535 { send 0 { else { } } } else { } } else { } } else { }\ndone' > long.sdv
  $ sdv explain --why long.sdv
  refused EndState point 5
  line 3, point 5: done, if the card is
      idle: byte addresses, block length not 512
  why: at done the card has to be in the transfer state
  a way there:
      before the first command    idle: byte addresses, block length not 512
      line 2   CMD0                    -                                    then idle: byte addresses, block length not 512
      line 2   loop 60, after its last turn
  refused EndState point 5
  [1]
  $ sdv explain $up | grep -c breaks
  0
  [1]

A text above the size limit, all on one line.

  $ yes é | head -n 40000 | tr -d '\n' > long; sdv explain long
  line 1
      éééééééééééééééééééééééééééééééééééééééééééééééééééééééééééé...
      ^
  found: a text of more than 65536 bytes
  hint: a script has at most 65536 bytes
  script fault Limit line 1
  [1]
  $ sdv explain long | wc -c
  script fault Limit line 1
  219

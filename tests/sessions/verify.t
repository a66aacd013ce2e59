Verdicts on scripts: every fault of a text at once, every statement that is refused, and what an accepted script leaves open.

  $ cp $EXAMPLES/refused_block_address.sdv $EXAMPLES/smallest.sdv .
  $ sdv verify smallest.sdv
  smallest.sdv: accepted, at most 1 command
  $ sdv verify refused_block_address.sdv
  refused_block_address.sdv:15:1: error: CMD17 at block 8 needs a card with block addresses [address]
      card     tran: byte addresses, block length 512
      hint     `at by hc` addresses both sorts of cards, where the case `ocr.ready & ocr.block` alone sets hc
      mishap   none
      wrong    line 15: CMD17 comes to a card in tran state with byte addresses, and its argument is none of the block
      then     CMD17 00000008 timeout
      then     fault read
      left     the card in tran state
  refused_block_address.sdv: refused (1 error)
  [1]

Several files: each is judged, whatever the others are. The status is the greatest.

  $ printf 'card sd\nflags hc\nnums cap\nsend 0 { else { } }\nset hd\nloop 100 {\n  send 99 { ocr.ready { break } else { } }\n} else { fault busy }\nif cap > 9 { } else { fault small }\nsend 17 at blok 8 { clean { } else { } }\nsend 13 { ocr.ready { } else { } }\n' > slips.sdv
  $ printf 'card sd\n\377\n' > bytes.sdv
  $ mkdir folder
  $ sdv verify smallest.sdv slips.sdv none.sdv folder bytes.sdv smallest.sdv
  smallest.sdv: accepted, at most 1 command
  slips.sdv:5:5: error: `hd`: did you mean `hc`? [name]
  slips.sdv:7:8: error: `99`: the tables of this kind of card have no command with this number [command]
  slips.sdv:9:8: error: `>`: a number is compared by `>=` or `<` [token]
  slips.sdv:10:12: error: `blok`: did you mean `block`? [argument]
  slips.sdv:11:11: error: `ocr.ready`: the response to this command does not have what the guard tests [guard]
  slips.sdv: no script (5 errors)
  none.sdv:1:1: error: the file cannot be opened or read, or is not UTF-8 [file]
  none.sdv: not read (1 error)
  folder:1:1: error: the file cannot be opened or read, or is not UTF-8 [file]
  folder: not read (1 error)
  bytes.sdv:1:1: error: the file cannot be opened or read, or is not UTF-8 [file]
  bytes.sdv: not read (1 error)
  smallest.sdv: accepted, at most 1 command
  cannot use none.sdv
  [2]

Five slips in one script: a name, a lost answer, a state, a unit and a capacity. Once it is a script, all others are told at once.

  $ cat > five.sdv << 'END'
  > card sd
  > flags hc
  > nums cap
  > send 0 { else { } }
  > send 8 { else { } }
  > loop 1000 { send 55 { app {
  >   send 41 0x40ff8000 { ocr.ready & ocr.block { set hd break } ocr.ready { break } else { } }
  > } else { fault lost55 } } } else { fault busy }
  > send 2 { answer { } else { fault cid } }
  > send 3 { clean { } else { fault rca } }
  > send 9 { answer { } else { fault csd } }
  > send 7 { clean { } else { fault select } }
  > send 16 { clean { } else { fault blen } }
  > let cap = csd.blocks
  > if cap >= 8 { } else { fault small }
  > send 24 at by hc 7 { clean { give { ok { } else { fault cut } } } else { fault lost24 } }
  > send 17 at block 8 { clean { recv { ok { } else { fault cut } } } else { fault lost17 } }
  > done
  > END
  $ sdv verify five.sdv
  five.sdv:7:52: error: `hd`: did you mean `hc`? [name]
  five.sdv: no script (1 error)
  [1]
  $ sed 's/set hd/set hc/' five.sdv > four.sdv; sdv verify --no-run four.sdv
  four.sdv:6:13: error: CMD55 is not legal in ready state [state]
      card     ready: byte addresses, block length not 512
      hint     a card whose answer is lost may be ready: turn again only on an answer, as `answer { } else { fault lost }`
  four.sdv:17:1: error: CMD17 at block 8 is not legal in prg state [state]
      card     prg: byte addresses, block length 512
      hint     the card may be busy: `wait { ok { } else { fault busy } }` comes first
  four.sdv:17:1: error: CMD17 at block 8 needs a card with block addresses [address]
      card     prg: byte addresses, block length 512
      hint     `at by hc` addresses both sorts of cards, where the case `ocr.ready & ocr.block` alone sets hc
  four.sdv:17:1: error: CMD17 at block 8: the card may not have all blocks at block 8; what is known: the card has 8 blocks or more; cap is from 8 to 4294967296, not beyond the card's end [capacity]
      card     prg: block addresses [hc]
      hint     it needs `if cap >= 9 { } else { fault small }` before it
  four.sdv: refused (4 errors)
  [1]
  $ sed 's/break } else { } }$/break } answer { } else { fault lost41 } }/; s/cap >= 8/cap >= 9/; s/give { ok { } /give { ok { wait { ok { } else { fault busy } } } /; s/at block 8/at by hc 8/' four.sdv > mended.sdv; sdv verify mended.sdv
  mended.sdv: accepted, at most 2009 commands, gives at most 1 block

Lines that end in CRLF, and a byte order mark, which begins no token.

  $ sed 's/$/\r/' slips.sdv > crlf.sdv
  $ sdv verify crlf.sdv
  crlf.sdv:5:5: error: `hd`: did you mean `hc`? [name]
  crlf.sdv:7:8: error: `99`: the tables of this kind of card have no command with this number [command]
  crlf.sdv:9:8: error: `>`: a number is compared by `>=` or `<` [token]
  crlf.sdv:10:12: error: `blok`: did you mean `block`? [argument]
  crlf.sdv:11:11: error: `ocr.ready`: the response to this command does not have what the guard tests [guard]
  crlf.sdv: no script (5 errors)
  [1]
  $ (printf '\357\273\277'; cat smallest.sdv) > mark.sdv
  $ sdv verify mark.sdv
  mark.sdv:1:1: error: `﻿` cannot stand here; can stand here: `card` [token]
  mark.sdv:2:1: error: `card` cannot stand here; can stand here: `sd`, `emmc` [syntax]
  mark.sdv:3:1: error: `send` cannot stand here; can stand here: `sd`, `emmc` [syntax]
  mark.sdv:4:1: error: `fault` cannot stand here; can stand here: `sd`, `emmc` [syntax]
  mark.sdv:5:1: error: the end of the text cannot stand here; can stand here: `sd`, `emmc` [syntax]
  mark.sdv: no script (5 errors)
  [1]

A tab and a character of more than one byte are one column each.

  $ printf 'card sd\n\tsend 0 { else { } } # \303\274\n\tsend 8 { else { } } set hd\ndone\n' > columns.sdv
  $ sdv verify columns.sdv
  columns.sdv:3:26: error: `hd`: a name is declared once, behind `flags` or `nums`, and used as that [name]
  columns.sdv: no script (1 error)
  [1]

What a review finds: of data a warning, of names and tests a note, which does not count. A word or a comment allows a kind.

  $ sed '/^done/d' $EXAMPLES/sd_bring_up.sdv > open.sdv
  $ cat >> open.sdv << 'END'
  > if cap >= 16 { } else { fault small }
  > send 24 at by hc 8 { clean { give { ok { loop 1000 { wait { ok { break } else { } } } else { fault busy }
  > done } else { fault cut } } } else { fault lost } }
  > fault write
  > END
  $ sdv verify open.sdv
  open.sdv:16:1: warning: done may come before the write of line 15 is confirmed [write]
      hint     behind the wait, `send 13 { clean & state=tran { .. } else { .. } }` shows that it is stored
      card     an SD card with block addresses, of 1024 blocks
      mishap   line 15: the phase of 1 block to the card stores nothing, and a later status shows the error
      done     block 8 is not the one that the write of line 15 gave
  open.sdv:17:1: note: no run comes to fault write [unreached]
  open.sdv: accepted, at most 2008 commands, gives at most 1 block (1 warning, 1 note)
  [1]
  $ sdv verify --allow erase --allow write open.sdv
  open.sdv:17:1: note: no run comes to fault write [unreached]
  open.sdv: accepted, at most 2008 commands, gives at most 1 block (1 note)
  $ sed 's/^done }.*/& # allow: write/' open.sdv > allowed.sdv
  $ sdv verify allowed.sdv
  allowed.sdv:17:1: note: no run comes to fault write [unreached]
  allowed.sdv: accepted, at most 2008 commands, gives at most 1 block (1 note)
  $ sed 's/^done }.*/& # allow: erase/' open.sdv > other.sdv
  $ sdv verify other.sdv
  other.sdv:16:1: warning: done may come before the write of line 15 is confirmed [write]
      hint     behind the wait, `send 13 { clean & state=tran { .. } else { .. } }` shows that it is stored
      card     an SD card with block addresses, of 1024 blocks
      mishap   line 15: the phase of 1 block to the card stores nothing, and a later status shows the error
      done     block 8 is not the one that the write of line 15 gave
  other.sdv:17:1: note: no run comes to fault write [unreached]
  other.sdv: accepted, at most 2008 commands, gives at most 1 block (1 warning, 1 note)
  [1]
  $ sed 's/^nums cap/nums cap other/' $EXAMPLES/sd_bring_up.sdv > unread.sdv
  $ sdv verify unread.sdv
  unread.sdv:3:7: note: hc is never read [unread]
  unread.sdv:4:6: note: cap is never read [unread]
  unread.sdv:4:10: note: other is never read [unread]
  unread.sdv: accepted, at most 2007 commands (3 notes)

The run that breaks a script is kept where a folder is named, and sdv try repeats it. None is looked for on request.

  $ mkdir runs
  $ sdv verify --save runs refused_block_address.sdv slips.sdv
  refused_block_address.sdv:15:1: error: CMD17 at block 8 needs a card with block addresses [address]
      card     tran: byte addresses, block length 512
      hint     `at by hc` addresses both sorts of cards, where the case `ocr.ready & ocr.block` alone sets hc
      mishap   none
      wrong    line 15: CMD17 comes to a card in tran state with byte addresses, and its argument is none of the block
      then     CMD17 00000008 timeout
      then     fault read
      left     the card in tran state
      again    sdv try refused_block_address.sdv runs/1.card new:256 runs/1.schedule
  refused_block_address.sdv: refused (1 error)
  slips.sdv:5:5: error: `hd`: did you mean `hc`? [name]
  slips.sdv:7:8: error: `99`: the tables of this kind of card have no command with this number [command]
  slips.sdv:9:8: error: `>`: a number is compared by `>=` or `<` [token]
  slips.sdv:10:12: error: `blok`: did you mean `block`? [argument]
  slips.sdv:11:11: error: `ocr.ready`: the response to this command does not have what the guard tests [guard]
  slips.sdv: no script (5 errors)
  [1]
  $ ls runs
  1.card
  1.schedule
  $ sdv try refused_block_address.sdv runs/1.card new:256 runs/1.schedule | tail -n 1
  line 15: CMD17 comes to a card in tran state with byte addresses, and its argument is none of the block
  wrong CMD17 00000008
  $ sdv verify --no-run refused_block_address.sdv
  refused_block_address.sdv:15:1: error: CMD17 at block 8 needs a card with block addresses [address]
      card     tran: byte addresses, block length 512
      hint     `at by hc` addresses both sorts of cards, where the case `ocr.ready & ocr.block` alone sets hc
  refused_block_address.sdv: refused (1 error)
  [1]
  $ sdv verify --save none refused_block_address.sdv
  cannot use none
  [2]
  $ sdv verify --save none smallest.sdv
  smallest.sdv: accepted, at most 1 command
  $ cp refused_block_address.sdv runs/2.card
  $ sdv verify --save runs refused_block_address.sdv runs/2.card
  cannot use runs
  [2]

Objects of JSON: one for each remark, and one for each file.

  $ sdv verify --json smallest.sdv refused_block_address.sdv columns.sdv unread.sdv none.sdv
  {"blocks":0,"commands":1,"errors":0,"file":"smallest.sdv","notes":0,"verdict":"accepted","warnings":0}
  {"card":"tran: byte addresses, block length 512","column":1,"file":"refused_block_address.sdv","hint":"`at by hc` addresses both sorts of cards, where the case `ocr.ready & ocr.block` alone sets hc","kind":"address","line":15,"point":24,"run":{"blocks":256,"card":"card sd\nversion 2\nunit byte\ncsize 63\ncmult 0\nrbl 9\nrca 4660\n","line":15,"schedule":"","then":"CMD17 00000008 timeout\nfault read\n","trace":"CMD0 00000000 -\nCMD8 000001aa R7 000001aa\nCMD55 00000000 R1 00000120\nCMD41 40ff8000 R3 80ff8000\nCMD2 00000000 R2 005858534456202010000000010181\nCMD3 00000000 R6 12340500\nCMD9 12340000 R2 000000000009000fc0000000000000\nCMD7 12340000 R1 00000700\nCMD16 00000200 R1 00000900\nwrong CMD17 00000008\n"},"severity":"error","shape":"0000000000002804","text":"CMD17 at block 8 needs a card with block addresses"}
  {"errors":1,"file":"refused_block_address.sdv","notes":0,"verdict":"refused","warnings":0}
  {"column":26,"file":"columns.sdv","kind":"name","line":3,"point":null,"severity":"error","text":"`hd`: a name is declared once, behind `flags` or `nums`, and used as that"}
  {"errors":1,"file":"columns.sdv","notes":0,"verdict":"no script","warnings":0}
  {"column":7,"file":"unread.sdv","kind":"unread","line":3,"point":5,"severity":"note","text":"hc is never read"}
  {"column":6,"file":"unread.sdv","kind":"unread","line":4,"point":21,"severity":"note","text":"cap is never read"}
  {"column":10,"file":"unread.sdv","kind":"unread","line":4,"point":null,"severity":"note","text":"other is never read"}
  {"blocks":0,"commands":2007,"errors":0,"file":"unread.sdv","notes":3,"verdict":"accepted","warnings":0}
  {"column":1,"file":"none.sdv","kind":"file","line":1,"point":null,"severity":"error","text":"the file cannot be opened or read, or is not UTF-8"}
  {"errors":1,"file":"none.sdv","notes":0,"verdict":"not read","warnings":0}
  cannot use none.sdv
  [2]

Words that are none.

  $ sdv verify
  usage: FILE is missing: sdv verify FILE.. [--json] [--no-run] [--save DIR] [--allow KIND]..
  [2]
  $ sdv verify --json
  usage: FILE is missing: sdv verify FILE.. [--json] [--no-run] [--save DIR] [--allow KIND]..
  [2]
  $ sdv verify smallest.sdv --save
  usage: --save needs DIR: sdv verify FILE.. [--json] [--no-run] [--save DIR] [--allow KIND]..
  [2]
  $ sdv verify smallest.sdv --save runs --save runs
  usage: --save stands twice: sdv verify FILE.. [--json] [--no-run] [--save DIR] [--allow KIND]..
  [2]
  $ sdv verify smallest.sdv --dot
  usage: --dot is no option: sdv verify FILE.. [--json] [--no-run] [--save DIR] [--allow KIND]..
  [2]

Many files, and a long line.

  $ for n in $(seq 200); do cp smallest.sdv n$n.sdv; done
  $ sdv verify n*.sdv | sort | uniq -c | sed 's/n[0-9]*.sdv/nN.sdv/' | sort -u
        1 nN.sdv: accepted, at most 1 command
  $ (grep -v '^#' smallest.sdv | tr '\n' ' '; head -c 65000 /dev/zero | tr '\0' ' '; echo '# long') > long.sdv
  $ sdv verify long.sdv
  long.sdv: accepted, at most 1 command
  $ (cat long.sdv; head -c 600 /dev/zero | tr '\0' ' ') > longer.sdv
  $ sdv verify longer.sdv
  longer.sdv:1:1: error: a text of more than 65536 bytes: a script has at most 65536 bytes [limit]
  longer.sdv: no script (1 error)
  [1]

A slip in the first word behind the names.

  $ sed 's/^send 0/sedn 0/' slips.sdv > sedn.sdv
  $ sdv verify sedn.sdv
  sedn.sdv:4:6: error: `0`: did you mean `send` in place of `sedn` before it? [syntax]
  sedn.sdv:5:5: error: `hd`: did you mean `hc`? [name]
  sedn.sdv:7:8: error: `99`: the tables of this kind of card have no command with this number [command]
  sedn.sdv:9:8: error: `>`: a number is compared by `>=` or `<` [token]
  sedn.sdv:10:12: error: `blok`: did you mean `block`? [argument]
  sedn.sdv:11:11: error: `ocr.ready`: the response to this command does not have what the guard tests [guard]
  sedn.sdv: no script (6 errors)
  [1]

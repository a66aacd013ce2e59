Words that are no line of the program.

  $ sdv 2>&1 | cut -c 1-26
  usage: a command is missin
  $ for words in "" frame "frame 0" "frame 0 0 0" "frames 0 0" "0 0" "-- frame 0 0" "frame 64 0" "frame 0 4294967296" \
  >     "frame 0 0x100000000" "frame 0x 0" "frame 0X1 0" "frame +1 0" "frame 1f 0" certify "certify a b" "certifies a" \
  >     "run a b c" "run a b c d e f" "run a b c d --out" "run a b c d --out e --out f" "run a b c d --in e --in f" "batch sd" \
  >     "batch mmc read" help "--help frame" "frame 0 -h" explain "--help --help" "frame 0 --help" --versions; do
  >     sdv $words > out 2> said; echo "$? $(cut -c 1-6 said) $(wc -c < out) ($words)"
  > done
  2 usage: 0 ()
  2 usage: 0 (frame)
  2 usage: 0 (frame 0)
  2 usage: 0 (frame 0 0 0)
  2 usage: 0 (frames 0 0)
  2 usage: 0 (0 0)
  2 usage: 0 (-- frame 0 0)
  2 usage: 0 (frame 64 0)
  2 usage: 0 (frame 0 4294967296)
  2 usage: 0 (frame 0 0x100000000)
  2 usage: 0 (frame 0x 0)
  2 usage: 0 (frame 0X1 0)
  2 usage: 0 (frame +1 0)
  2 usage: 0 (frame 1f 0)
  2 usage: 0 (certify)
  2 usage: 0 (certify a b)
  2 usage: 0 (certifies a)
  2 usage: 0 (run a b c)
  2 usage: 0 (run a b c d e f)
  2 usage: 0 (run a b c d --out)
  2 usage: 0 (run a b c d --out e --out f)
  2 usage: 0 (run a b c d --in e --in f)
  2 usage: 0 (batch sd)
  2 usage: 0 (batch mmc read)
  2 usage: 0 (help)
  2 usage: 0 (--help frame)
  2 usage: 0 (frame 0 -h)
  2 usage: 0 (explain)
  2 usage: 0 (--help --help)
  2 usage: 0 (frame 0 --help)
  2 usage: 0 (--versions)
  $ sdv frame "" 0 2>&1 | cut -c 1-6; sdv batch sd "read 0" 2>&1 | cut -c 1-6; sdv batch sd "erase 0 1" 2>&1 | cut -c 1-6
  usage:
  usage:
  usage:

The program goes by its words alone, whatever it is called by. A word that is no text has all lines for an answer.

  $ ln -s "$(command -v sdv)" frame; ./frame 0 0; ./frame frame 0 0
  usage: 0 is no command; sdv --help lists them
  40 00 00 00 00 95
  $ sdv frame "$(printf '\377')" 0
  usage: sdv --help lists the commands
  [2]

Which word is wrong.

  $ for words in "" frames "frame 0" "frame 0 0 0" "run a b c" "run a b c d --out" "run a b c d --ot e" "explain --no-fault a" \
  >     "batch mmc read" "frame 64 0"; do
  >     sdv $words
  > done
  usage: a command is missing; sdv --help lists them
  usage: frames is no command; sdv --help lists them
  usage: ARG is missing: sdv frame INDEX ARG
  usage: 0 is one word too many: sdv frame INDEX ARG
  usage: IMAGE is missing: sdv run SCRIPT CERT CARD IMAGE [SCHEDULE] [--in FILE] [--out FILE] [--registers FILE]
  usage: --out needs FILE: sdv run SCRIPT CERT CARD IMAGE [SCHEDULE] [--in FILE] [--out FILE] [--registers FILE]
  usage: --ot is no option: sdv run SCRIPT CERT CARD IMAGE [SCHEDULE] [--in FILE] [--out FILE] [--registers FILE]
  usage: --no-fault is no option: sdv explain SCRIPT [CERT] [--why] [--dot] [--no-faults]
  usage: mmc is no KIND (sd or emmc): sdv batch KIND REQUESTS
  usage: 64 is no INDEX (from 0 to 63): sdv frame INDEX ARG
  [2]
  $ for words in "frame x 0" "frame 0 4294967296" "frame 0x40 0" "frame 0 0x1 0" "try a b c --out e --out f" "audit sd b --svg --svg" \
  >     "audit sd b --json --svg" "audit sd b --json --svg --json" "audit sd --json --svg" "run a b c d --in --in"; do
  >     sdv $words
  > done
  usage: x is no INDEX (from 0 to 63): sdv frame INDEX ARG
  usage: 4294967296 is no ARG (from 0 to 4294967295): sdv frame INDEX ARG
  usage: 0x40 is no INDEX (from 0 to 63): sdv frame INDEX ARG
  usage: 0 is one word too many: sdv frame INDEX ARG
  usage: --out stands twice: sdv try SCRIPT CARD IMAGE [SCHEDULE] [--in FILE] [--out FILE] [--each] [--card CARD].. [--only wrong] [--json] [--lines]
  usage: --svg stands twice: sdv audit KIND TRACE [--json] [--annotate] [--running] [--script SCRIPT] [--registers FILE] [--svg]
  usage: --json and --svg exclude each other: sdv audit KIND TRACE [--json] [--annotate] [--running] [--script SCRIPT] [--registers FILE] [--svg]
  usage: --json stands twice: sdv audit KIND TRACE [--json] [--annotate] [--running] [--script SCRIPT] [--registers FILE] [--svg]
  usage: TRACE is missing: sdv audit KIND TRACE [--json] [--annotate] [--running] [--script SCRIPT] [--registers FILE] [--svg]
  usage: --in needs FILE: sdv run SCRIPT CERT CARD IMAGE [SCHEDULE] [--in FILE] [--out FILE] [--registers FILE]
  [2]
  $ for words in "frame 0x3f 0x100000000" "explain --no-fault=x a" "verify a --json=x" "try a b c --in=e --in f" "try a b c d e --in=e"; do
  >     sdv $words
  > done
  usage: 0x100000000 is no ARG (from 0 to 4294967295): sdv frame INDEX ARG
  usage: --no-fault=x is no option: sdv explain SCRIPT [CERT] [--why] [--dot] [--no-faults]
  usage: --json=x is no option: sdv verify FILE.. [--json] [--no-run] [--save DIR] [--allow KIND]..
  usage: --in=e stands twice: sdv try SCRIPT CARD IMAGE [SCHEDULE] [--in FILE] [--out FILE] [--each] [--card CARD].. [--only wrong] [--json] [--lines]
  usage: e is one word too many: sdv try SCRIPT CARD IMAGE [SCHEDULE] [--in FILE] [--out FILE] [--each] [--card CARD].. [--only wrong] [--json] [--lines]
  [2]
  $ up=$EXAMPLES/sd_bring_up.sdv cert=$EXAMPLES/sd_bring_up.cert
  $ sdv emit $up $cert 9x; sdv emit $up $cert for; sdv emit $up $cert a-b; sdv emit -- $up $cert for; sdv batch sd "erase 0 1"; sdv batch sd "read 0"
  usage: 9x is no NAME (an identifier of C): sdv emit SCRIPT CERT NAME [--binary FILE]
  usage: NAME is a keyword or a reserved name of C: sdv emit SCRIPT CERT NAME [--binary FILE]
  usage: a-b is no NAME (an identifier of C): sdv emit SCRIPT CERT NAME [--binary FILE]
  usage: NAME is a keyword or a reserved name of C: sdv emit SCRIPT CERT NAME [--binary FILE]
  usage: erase 0 1 is no REQUESTS (read FIRST COUNT and write FIRST COUNT): sdv batch KIND REQUESTS
  usage: REQUESTS are not read FIRST COUNT and write FIRST COUNT: sdv batch KIND REQUESTS
  [2]

An option is no value, and behind `--` there is none.

  $ sdv drive $up $cert --in --out o; sdv frame -- -1 0; sdv explain -- --why a b; sdv check -- --json b c
  usage: --in needs FILE: sdv drive SCRIPT CERT [--in FILE] [--out FILE] [--trace FILE] [--plain]
  usage: -1 is no INDEX (from 0 to 63): sdv frame INDEX ARG
  usage: b is one word too many: sdv explain SCRIPT [CERT] [--why] [--dot] [--no-faults]
  usage: c is one word too many: sdv check SCRIPT CERT
  [2]

Help is asked for behind the name of a command.

  $ sdv --help run; sdv -h frame; sdv help audit; sdv --help runs; sdv help
  usage: write sdv run --help
  usage: write sdv frame --help
  usage: write sdv audit --help
  usage: --help is no command; sdv --help lists them
  usage: help is no command; sdv --help lists them
  [2]

The page of a command.

  $ sdv run --help
  sdv run SCRIPT CERT CARD IMAGE [SCHEDULE] [--in FILE] [--out FILE] [--registers FILE]
      runs the script beside a simulated card
      SCRIPT: a file with a script
      CERT: a file with a certificate
      CARD: a file with the description of a card
      IMAGE: a file with the blocks of the card, or new: and a number of blocks of zeros
      SCHEDULE: a file with a digit from 0 to 7 for each event: what the card does there
      --in FILE: the blocks that the script gives, a whole number of them
      --out FILE: the file that takes the blocks that the script receives
      --registers FILE: the file that takes the bytes of the registers that come, one after another
  $ sdv try -h | tail -n 5; sdv drive -h | tail -n 3; sdv card -h | tail -n 2
      --each: prints how each run with one mishap ends
      --card CARD: one more card for these runs, over blocks of zeros
      --only wrong: of these runs those alone that come to what is not allowed
      --json: prints an object of JSON a line
      --lines: the trace says where the host changes its data lines
      --out FILE: the file that takes the blocks that the script receives
      --trace FILE: the file that takes the trace of the run
      --plain: prints commands without the data phases that follow them
      SCHEDULE: a file with a digit from 0 to 7 for each event: what the card does there
      --describe: prints the description in words, or the line that is wrong; no IMAGE stands there
  $ sdv explain -h
  sdv explain SCRIPT [CERT] [--why] [--dot] [--no-faults]
      prints what is known at each statement, and why the script or the certificate is refused
      SCRIPT: a file with a script
      CERT: a file with a certificate
      --why: prints only why the script is refused
      --dot: prints the graph of the script in the language of Graphviz
      --no-faults: leaves out the statements that end in a fault
  $ sdv rum --help
  usage: rum is no command; sdv --help lists them
  [2]
  $ sdv run --help > /dev/full
  [2]

Commands that went say what stands in their places.

  $ for command in graph sweep describe decode review refute "print a" "graph --help"; do sdv $command; done
  sdv graph: now sdv explain --dot
  sdv sweep: now sdv try --each
  sdv describe: now sdv card --describe
  sdv decode: now sdv audit --script
  sdv review: now sdv verify
  sdv refute: now sdv verify --save DIR
  sdv print: now a call of the library, print of sdv_script
  sdv graph: now sdv explain --dot
  [2]

A card that answers lines has an image.

  $ sdv card $EXAMPLES/sd_block.card
  usage: IMAGE is missing: sdv card CARD [IMAGE] [SCHEDULE] [--describe]
  [2]

A line of one word.

  $ sdv --help > help; sdv -h | cmp - help; head -n 1 help
  sdv certifies, checks, explains, draws and runs host scripts of SD and e.MMC cards.
  $ sdv --version > version; sdv -V | cmp - version; cut -d ' ' -f 1 version
  sdv
  $ sdv --help > /dev/full
  [2]

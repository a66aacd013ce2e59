Files that take so many bytes and no more. `within N COMMAND` runs a command whose files end at N bytes, for each N that is asked for.

  $ cat > within.py << 'END'
  > import resource, subprocess, sys
  > name, least, most, *command = sys.argv[1:]
  > told = {}
  > for room in range(int(least), int(most) + 1):
  >     limit = lambda: resource.setrlimit(resource.RLIMIT_FSIZE, (room, room))
  >     with open(name, "wb") as file:
  >         done = subprocess.run(command, stdout=file if name == "out" else subprocess.DEVNULL, stderr=subprocess.PIPE, preexec_fn=limit, restore_signals=False)
  >     taken = open(name, "rb").read()
  >     whole = open("whole", "rb").read()
  >     what = f"status {done.returncode} {done.stderr.decode().strip()}, " + ("as much as there is room for" if taken == whole[:room] else f"{len(taken)} bytes")
  >     told.setdefault(what, []).append(room)
  > for what, rooms in told.items():
  >     print(f"{rooms[0]} to {rooms[-1]}: {what}" if rooms == list(range(rooms[0], rooms[-1] + 1)) else f"{rooms}: {what}")
  > END

A certificate, one that has all that a certificate may have in it, and a table.

  $ printf 'card sd\nsend 0 { else { } }\nfault stop\n' > a.sdv; sdv certify a.sdv > whole; python3 within.py out 0 160 sdv certify a.sdv
  0 to 149: status 2 , as much as there is room for
  150 to 160: status 0 , as much as there is room for
  $ printf 'card emmc flags f nums x y let x = ext.boot - 8 let y = 3 loop 2 { loop 7 { send 0 { else { } } let x = x + 1 } else { } } else { } fault end' > b.sdv
  $ sdv certify b.sdv > whole; wc -c < whole; python3 within.py out 0 80 sdv certify b.sdv; sdv certify a.sdv > a.cert; sdv emit a.sdv a.cert t > whole; python3 within.py out 0 40 sdv emit a.sdv a.cert t
  730
  0 to 80: status 2 , as much as there is room for
  0 to 40: status 2 , as much as there is room for

The trace of a run: what the host asked has happened, and the lines before stand.

  $ up=$EXAMPLES/sd_bring_up.sdv cert=$EXAMPLES/sd_bring_up.cert card=$EXAMPLES/sd_byte.card
  $ sdv run $up $cert $card new:16 > whole; wc -c < whole; python3 within.py out 0 60 sdv run $up $cert $card new:16; python3 within.py out 270 285 sdv run $up $cert $card new:16
  272
  0 to 60: status 1 run fault Trace, as much as there is room for
  270 to 271: status 1 run fault Trace, as much as there is room for
  272 to 285: status 0 , as much as there is room for

The block that a run receives.

  $ sed '/^done$/d' $up > read.sdv; echo 'send 17 at by hc 0 { clean { recv { ok { } else { fault rd } } } else { fault rd } } done' >> read.sdv; sdv certify read.sdv > read.cert
  $ head -c 8192 /dev/urandom > image; sdv run read.sdv read.cert $card image --out whole | tail -n 1; wc -c < whole
  done
  512
  $ for ends in '0 3' '255 257' '510 513'; do python3 within.py kept $ends sdv run read.sdv read.cert $card image --out kept; done
  0 to 3: status 1 run fault Output, as much as there is room for
  255 to 257: status 1 run fault Output, as much as there is room for
  510 to 511: status 1 run fault Output, as much as there is room for
  512 to 513: status 0 , as much as there is room for

#!/bin/sh
# How fast `sdv run` writes and reads 32 MiB of an image file, by transfers of 64 blocks and by single blocks, beside `dd bs=512`.
#
# The transfers of 64 blocks are batches of 128 requests, eight runs in a row. Single blocks are as many statements as blocks, so
# there one script goes through the card in a loop. With valgrind it also says how many instructions a block takes: the difference
# between a batch of two requests and one of the first alone.
set -eu
top=$(cd "$(dirname "$0")/.." && pwd)
export PATH="/opt/rattle/bin:$PATH"
work=$(mktemp -d)
trap 'rm -rf "$work"' EXIT
sdv=${SDV:-$top/crates/sdv/out/sdv}
[ -x "$sdv" ] || (cd "$top/crates/sdv" && rt run -- frame 0 0) > "$work/built" 2>&1 || { cat "$work/built"; exit 1; }
cd "$work"

blocks=65536 transfer=64 runs=8
printf 'card sd\nversion 2\nunit block\ncsize 63\nrca 4660\n' > card
head -c $((blocks * 512)) /dev/urandom > bytes
split -b $((blocks * 512 / runs)) -a 1 bytes part.

# batches WORD: the scripts of the runs, which write or read all blocks.
batches() {
    for run in a b c d e f g h; do
        first=$(($(printf '%d' "'$run") - 97))
        "$sdv" batch sd "$(awk -v word="$1" -v count="$transfer" -v from=$((first * blocks / runs)) -v many=$((blocks / runs / transfer)) \
            'BEGIN { for (i = 0; i < many; i++) printf "%s %d %d ", word, from + i * count, count }')" > "$1.$run"
        "$sdv" certify "$1.$run" > "$1.$run.cert"
    done
}
batches write
batches read

# singles NAME STATEMENTS: a script that goes through the card with them, block by block. It goes down: a number that is less than
# that of a block is that of a block too, and the certificate says so.
singles() {
    {
        sed 's/^nums cap$/nums cap x/; /^done$/d' "$top/examples/sd_bring_up.sdv"
        echo "if cap >= $blocks { } else { fault small }"
        echo "let x = cap - 1"
        echo "loop 65535 { $2 let x = x - 1 } else { }"
        echo "$2 done"
    } > "$1"
    "$sdv" certify "$1" > "$1.cert"
}
singles write.one 'send 24 at by hc x { clean { } else { fault wr } } give { ok { } else { fault wr } }
loop 1000 { wait { ok { break } else { } } } else { fault busy } send 13 { clean & state=tran { } else { fault wr } }'
singles read.one 'send 17 at by hc x { clean { recv { ok { } else { fault rd } } } else { fault rd } }'

# The runs, which say nothing but what is wrong.
write_many() { for run in a b c d e f g h; do "$sdv" run "write.$run" "write.$run.cert" card image --in "part.$run" > trace; done; }
read_many() { for run in a b c d e f g h; do "$sdv" run "read.$run" "read.$run.cert" card image --out "read.part.$run" > trace; done; }
write_one() { "$sdv" run write.one write.one.cert card image --in bytes > trace; }
read_one() { "$sdv" run read.one read.one.cert card image --out read.part > trace; }
write_dd() { dd if=bytes of=image bs=512 conv=notrunc 2> said; }
read_dd() { dd if=image of=read.part bs=512 2> said; }

# least COMMAND: the least time of five runs, in microseconds.
least() {
    best=
    for run in 1 2 3 4 5; do
        start=$(date +%s%N)
        "$1"
        end=$(date +%s%N)
        taken=$(((end - start) / 1000))
        if [ -z "$best" ] || [ "$taken" -lt "$best" ]; then best=$taken; fi
    done
    echo "$best"
}

# compared NAME MANY ONE DD
compared() {
    by_dd=$(least "$4")
    by_many=$(least "$2")
    by_one=$(least "$3")
    echo "$1: dd bs=512 $((blocks * 512 / by_dd)) MB/s; transfers of $transfer blocks $((blocks * 512 / by_many)) MB/s," \
        "$((by_dd * 100 / by_many))% of it; single blocks $((blocks * 512 / by_one)) MB/s, $((by_dd * 100 / by_one))% of it"
}
head -c $((blocks * 512)) /dev/zero > image
write_many
cmp image bytes
read_many
cat read.part.? | cmp - bytes
compared written write_many write_one write_dd
compared read read_many read_one read_dd

command -v valgrind > taken || exit 0

# counted WORDS: the instructions of the program.
counted() {
    valgrind --tool=callgrind --callgrind-out-file=calls "$sdv" "$@" > trace 2> said
    sed -n 's/^==[0-9]*== Collected : //p' said
}

# instructions a block NAME WORD OPTION FILE: of one request more.
for word in write read; do
    option=in
    [ "$word" = write ] || option=out
    for count in 1 64; do
        "$sdv" batch sd "$word 0 $count" > few
        "$sdv" batch sd "$word 0 $count $word 64 $count" > more
        "$sdv" certify few > few.cert
        "$sdv" certify more > more.cert
        few=$(counted run few few.cert card image --$option part.a)
        more=$(counted run more more.cert card image --$option part.a)
        [ "$option" = in ] || split -b $((blocks * 512 / runs)) -a 1 bytes part.
        echo "$word $count: $(((more - few) / count)) instructions a block, with its script"
    done
done

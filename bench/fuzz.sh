#!/bin/sh
# Hands the program hostile scripts, certificates, card descriptions, schedules and words, and counts what it answers: COUNT cases
# (10,000), from number FIRST (0) on. A case depends on SEED (1) and its number alone, so a single case comes again with the
# COUNT 1. PROCESSES are started at a time (4), each with LIMIT kilobytes of memory (2,000,000).
set -eu
top=$(cd "$(dirname "$0")/.." && pwd)
export PATH="/opt/rattle/bin:$PATH" LC_ALL=C
seed=${1:-1} count=${2:-10000} first=${3:-0} processes=${PROCESSES:-4}
[ -d /dev/shm ] && memory=/dev/shm || memory=/tmp
work=$(mktemp -d -p "$memory")
found=/tmp/sdv-fuzz-$seed
trap 'rm -rf "$work"' EXIT
workers=""
trap 'kill $workers 2> "$work/said"; exit 130' INT TERM

sdv=${SDV:-$top/crates/sdv/out/sdv}
[ -x "$sdv" ] || (cd "$top/crates/sdv" && rt run -- frame 0 0) > "$work/built" 2>&1 || { cat "$work/built"; exit 1; }

# What cases begin with: the scripts of examples/ that have a certificate, and the cards.
corpus="$work/corpus"
mkdir "$corpus"
cp "$top"/examples/*.card "$corpus"
for script in "$top"/examples/*.sdv; do
    name=$(basename "$script" .sdv)
    "$sdv" certify "$script" > "$corpus/$name.cert" 2> "$work/said" && cp "$script" "$corpus" || rm "$corpus/$name.cert"
done

# Writes the files of the cases from $1 on, $2 of them, and the shell's lines that run them.
write_cases() {
    awk -v seed="$seed" -v first="$1" -v count="$2" -v corpus="$corpus" '
    # Less than so many, from 0 on.
    function draw(limit) {
        state = state * 16807 % 2147483647
        return int(state / 2147483647 * limit)
    }
    function one_of(list) { return list[draw(list[0]) + 1] }
    # The list of the parts of a text, with their number at 0.
    function parts_of(text, list, between, total) {
        total = split(text, list, between)
        list[0] = total
    }
    function text_of(file, text, line) {
        text = ""
        while ((getline line < file) > 0) text = text line "\n"
        close(file)
        return text
    }
    function put(file, text) { printf "%s", text > file; close(file) }
    function quoted(word) { gsub(/\047/, "\047\\\047\047", word); return "\047" word "\047" }
    function replaced(text, from, to, with) { return substr(text, 1, from - 1) with substr(text, to) }

    # A text with some of its bytes changed.
    function change_bytes(text, at, to, way, span) {
        at = draw(length(text) + 1) + 1
        to = at + 1 + draw(draw(4) ? 4 : 60)
        way = draw(16)
        span = substr(text, at, to - at)
        if (way < 5) return replaced(text, at, at + 1, one_of(bytes))
        if (way < 8) return replaced(text, at, at, one_of(bytes) (draw(2) ? one_of(bytes) : ""))
        if (way < 11) return replaced(text, at, to, "")
        if (way < 13) return replaced(text, at, at, span)
        if (way < 14) return substr(text, 1, at - 1)
        if (way < 15) { text = replaced(text, at, to, ""); at = draw(length(text) + 1) + 1; return replaced(text, at, at, span) }
        way = draw(8) ? 2000 : 70000
        while (length(span) > 0 && length(span) < way) span = span span
        return replaced(text, at, at, span)
    }
    # A word in place of one of a text.
    function other_word(word, way) {
        way = draw(10)
        if (word ~ /^[0-9]+$/ && length(word) < 16) {
            if (way < 3) return word + 1
            if (way < 6) return word > 0 ? word - 1 : word
            return one_of(numbers)
        }
        if (word ~ /^[0-9a-f]+$/ && way < 6) {
            way = draw(length(word)) + 1
            return replaced(word, way, way + 1, substr("0123456789abcdef", draw(16) + 1, 1))
        }
        if (way < 7) return one_of(dictionary)
        return way < 8 ? word " " word : way < 9 ? one_of(numbers) : ""
    }
    function change_word(text, from, to) {
        from = draw(length(text)) + 1
        while (from > 1 && substr(text, from - 1, 1) !~ /[ \n]/) from--
        to = from
        while (to <= length(text) && substr(text, to, 1) !~ /[ \n]/) to++
        return replaced(text, from, to, other_word(substr(text, from, to - from)))
    }
    # Another number, or another digit of a shape, in place of one of a text.
    function change_number(text, from, to) {
        from = draw(length(text)) + 1
        while (from < length(text) && substr(text, from, 2) !~ /[ \n][0-9]/) from++
        to = ++from
        while (to <= length(text) && substr(text, to, 1) !~ /[ \n]/) to++
        return replaced(text, from, to, other_word(substr(text, from, to - from)))
    }
    # A line is lost, stands twice, or changes its place with another one.
    function change_line(text, lines, total, i, j, way, other) {
        total = split(text, lines, "\n")
        if (total < 2) return text
        i = draw(total - 1) + 1
        j = draw(total - 1) + 1
        way = draw(3)
        if (way == 0) { other = lines[i]; lines[i] = lines[j]; lines[j] = other }
        if (way == 1) lines[i] = lines[i] "\n" lines[i]
        other = ""
        for (j = 1; j < total; j++) if (way != 2 || i != j) other = other lines[j] "\n"
        return other
    }
    function changed(text, times, way) {
        for (; times > 0; times--) {
            way = draw(12)
            text = way < 3 ? change_bytes(text) : way < 6 ? change_word(text) : way < 10 ? change_number(text) : change_line(text)
        }
        return text
    }

    # A bring-up of a card of the kind, with some statements behind it.
    function grown(kind, text, parts, part) {
        text = scripts[kind "_bring_up"]
        sub(/flags hc/, "flags hc g", text)
        sub(/nums cap/, "nums cap x", text)
        sub(/done\n/, "", text)
        for (parts = draw(6) + 1; parts > 0; parts--) {
            part = draw(3) ? statements[draw(statements[0]) + 1] : kind == "sd" ? sd[draw(sd[0]) + 1] : emmc[draw(emmc[0]) + 1]
            while (part ~ /@/) sub(/@/, draw(8) ? draw(10) : one_of(numbers), part)
            text = text part "\n"
        }
        return text (draw(8) ? "done\n" : "fault stop\n")
    }
    function schedule_text(text, length_of_it) {
        if (draw(3) == 0) return ""
        for (length_of_it = draw(40); length_of_it > 0; length_of_it--) text = text (draw(4) ? 0 : draw(8))
        if (draw(12) == 0) text = change_bytes(text)
        return text (draw(2) ? "\n" : "")
    }
    # The words behind the certificate of a run: a card, an image, a schedule, input and output.
    function rest_of_run(number, kind, card, image, rest) {
        card = (draw(10) ? kind : draw(2) ? "sd" : "emmc") (draw(2) ? "_block" : "_byte")
        image = "new:" (card == "sd_block" ? 1024 : card == "emmc_block" ? 2048 : 16)
        if (draw(12) == 0) image = "new:" one_of(numbers)
        if (draw(12) == 0) image = "image"
        put(number ".card", cards[card])
        put(number ".schedule", schedule_text())
        rest = number ".card " quoted(image) " " number ".schedule"
        if (draw(2)) rest = rest " --in " (draw(12) ? "blocks" : "odd")
        if (draw(2)) rest = rest " --out " number ".out"
        return (card ~ "^" kind "_" ? "same " : "other ") rest
    }
    # Words that are no line of the program, or that name files of any sort.
    function any_words(number, line, list, total, i, at, way) {
        line = draw(4)
        total = split(line == 0 ? "frame 17 0x1000" : line == 1 ? "certify S" : line == 2 ? "check S C" \
            : "run S C D new:1024 H --in blocks --out O", list, " ")
        for (way = draw(4); way > 0; way--) {
            at = draw(total) + 1
            i = draw(3)
            if (i == 0) list[at] = one_of(odd_words)
            if (i == 1) { list[++total] = list[at]; list[at] = one_of(odd_words) }
            if (i == 2 && total > 1) list[at] = list[total--]
        }
        line = "words"
        for (i = 1; i <= total; i++) {
            at = list[i]
            if (at ~ /^[SCDHO]$/) at = number "." (at == "S" ? "sdv" : at == "C" ? "cert" : at == "D" ? "card" : at == "H" ? "schedule" : "out")
            line = line " " quoted(at)
        }
        return line
    }
    function write_case(number, way, name, kind) {
        name = one_of(names)
        kind = scripts[name] ~ /(^|\n)card emmc/ ? "emmc" : "sd"
        way = draw(100)
        if (way < 50) {
            if (way < 30) kind = draw(2) ? "sd" : "emmc"
            put(number ".sdv", way < 15 ? grown(kind) : changed(way < 30 ? grown(kind) : scripts[name], draw(3) + 1))
            print "script " number " " rest_of_run(number, kind)
            return
        }
        put(number ".sdv", scripts[name])
        put(number ".cert", way < 70 ? changed(certificates[name], draw(3) + 1) : certificates[name])
        name = rest_of_run(number, kind)
        if (way >= 70 && way < 85) {
            put(number ".card", changed(text_of(number ".card"), draw(2) + 1))
            sub(/^same/, "other", name)
        }
        print way < 88 ? "pair " number " " name : any_words(number)
    }
    BEGIN {
        names[0] = 0
        list = "ls " corpus "/*.sdv"
        while ((list | getline file) > 0) {
            sub(/\.sdv$/, "", file)
            name = file
            sub(/.*\//, "", name)
            names[++names[0]] = name
            scripts[name] = text_of(file ".sdv")
            certificates[name] = text_of(file ".cert")
        }
        split("sd_block sd_byte emmc_block emmc_byte", kinds, " ")
        for (i in kinds) cards[kinds[i]] = text_of(corpus "/" kinds[i] ".card")
        parts_of("0 9 10 13 32 35 38 43 45 46 48 57 61 62 60 64 65 95 97 115 120 123 125 127 128 195 169 255", codes, " ")
        for (i = 1; i <= codes[0]; i++) bytes[i] = sprintf("%c", codes[i] + 0)
        bytes[0] = codes[0]
        parts_of("0 1 2 3 5 7 8 9 15 16 17 18 23 24 25 31 32 33 38 41 51 55 63 64 100 255 256 511 512 513 1000 1023 1024 1025 " \
            "2048 4095 4096 4097 65535 65536 4194303 4194304 8388607 8388608 4294967295 4294967296 1099511627775 1099511627776 " \
            "1099511627777 18446744073709551615 18446744073709551616 99999999999999999999999999 007 0x 0x0 0xff 0x40ff8000 " \
            "0x00ff8000 0xFFFFFFFFFFFFFFFFFF 1a -1 1.5", numbers, " ")
        parts_of("card sd emmc flags nums send recv reg give wait ok else let if set clear loop break done fault at block byte by " \
            "count none timeout answer clean ready app echo ocr.ready ocr.block state=tran state=prg state = csd.blocks ext.blocks ext.boot bus.lines part.access " \
            "{ } + - >= < & hc cap x g number idle abcdefghijklmnop abcdefghijklmnopq sdv-cert points p b m v s - version unit " \
            "csize cmult rbl rca sectors boot 0000000000002000 0000000000002c04 0000000000002804 ffffffffffffffff # @ $", dictionary, " ")
        parts_of("-h --help --version -V -- - --in --out --in=blocks --out=o --inn -x help frame certify check run . / nofile " \
            "new: new:0 new:4 new:x new:-1 new:18446744073709551616 /dev/null 0 63 64 0x3f 0x40 4294967295 4294967296 0xffffffff -1 " \
            "S C D H O blocks odd image \303\251 \377 $HOME * \047 \"", odd_words, " ")
        odd_words[++odd_words[0]] = ""
        odd_words[++odd_words[0]] = "two words\nand lines"
        parts_of( \
            "if cap >= @ { } else { fault small }\n" \
            "if x < @ { set g } else { clear g }\n" \
            "if g { let x = @ } else { set g }\n" \
            "let x = cap - @\nlet x = x + @\nlet x = @\nlet x = cap\nset g\nclear g\n" \
            "send 16 { clean { } else { fault blen } }\n" \
            "send 13 { clean & state=tran { } else { fault st } }\n" \
            "loop @ { send 13 { clean & ready & state=tran { break } else { } } } else { fault busy }\n" \
            "send 17 at by hc @ { clean { recv { ok { } else { fault rd } } } else { fault rd } }\n" \
            "send 17 at by hc x { clean { recv { ok { } else { fault rd } } } else { fault rd } }\n" \
            "send 17 at by hc x + @ { clean { recv { ok { } else { fault rd } } } else { fault rd } }\n" \
            "send 18 at by hc @ count @ { clean { } else { fault rd } } recv { ok { } else { fault rd } } send 12 { answer { } else { fault rd } } loop 100 { send 13 { clean & state=tran { break } answer { } else { fault rd } } } else { fault rd }\n" \
            "send 24 at by hc @ { clean { } else { fault wr } } give { ok { } else { fault wr } } loop 100 { wait { ok { break } else { } } } else { fault busy } send 13 { clean & state=tran { } else { fault wr } }\n" \
            "send 25 at by hc @ count @ { clean { } else { fault wr } } give { ok { } else { } } send 12 { clean { } else { fault wr } } loop 100 { wait { ok { break } else { } } } else { fault busy }\n" \
            "loop @ { if x < @ { send 17 at by hc x { clean { } else { fault rd } } recv { ok { } else { fault rd } } let x = x + 1 } else { break } } else { }\n" \
            "send 7 none { else { } } send 10 { answer { } else { fault cid } } send 7 { clean { } else { fault select } }\n" \
            "send 0 { else { } } fault stop", statements, "\n")
        parts_of( \
            "send 32 at by hc @ { clean { } else { fault er } } send 33 at by hc @ { clean { } else { fault er } } send 38 { clean { } else { fault er } } loop 100 { wait { ok { break } else { } } } else { fault busy }\n" \
            "send 55 { app { send 51 { clean { recv reg { ok { } else { fault scr } } } else { fault scr } } } else { fault noapp } }\n" \
            "loop 20 { send 55 { app & state=tran { send 51 { clean { recv reg { ok { break } else { fault scr } } } else { } } } else { } } } else { fault scr }\n" \
            "send 55 { app { send 13 { clean { recv reg { ok { } else { fault st } } } else { fault st } } } else { fault noapp } }\n" \
            "send 55 { app { send 6 bus.lines 4 { clean { bus.lines 4 } else { fault bw } } } else { fault noapp } }", sd, "\n")
        parts_of( \
            "send 35 at by hc @ { clean { } else { fault er } } send 36 at by hc @ { clean { } else { fault er } } send 38 1 { clean { } else { fault er } } loop 100 { wait { ok { break } else { } } } else { fault busy }\n" \
            "send 23 count 8 { clean { } else { fault st } } send 18 at by hc @ count 8 { clean { recv { ok { } else { fault rd } } } else { fault rd } }\n" \
            "send 23 count @ { clean { } else { fault st } } send 25 at by hc 0 count @ { clean { give { ok { } else { fault wr } } } else { fault wr } } loop 100 { wait { ok { break } else { } } } else { fault busy }\n" \
            "send 8 { clean { recv reg { ok { let x = ext.blocks } else { fault ext } } } else { fault ext } }\n" \
            "send 6 bus.lines 8 { clean { } else { fault sw } } loop 100 { wait { ok { break } else { } } } else { fault busy } send 13 { clean & state=tran { bus.lines 8 } else { fault sw } }\n" \
            "send 6 part.access @ { clean { } else { fault sw } } loop 100 { wait { ok { break } else { } } } else { fault busy } send 13 { clean & state=tran { } else { fault sw } }", emmc, "\n")
        for (number = first; number < first + count; number++) {
            state = (seed % 46337 * 46337 + number) % 2147483646 + 1
            for (i = 0; i < 5; i++) draw(2)
            write_case(number)
        }
    }'
}

# answer NUMBER KIND WORD..: calls the program, and counts its answer. KIND is `same` where the card is one of the script.
answer() {
    number=$1 kind=$2
    shift 2
    status=0 line="" more="" name=""
    "$sdv" "$@" > out 2> err < /dev/null || status=$?
    { IFS= read -r line && IFS= read -r more && more="more"; } < err || true
    case $status:$line in
    0:) [ -s out ] && name="printed" ;;
    1:"script fault "* | 1:"certificate fault "* | 1:refused* | 1:"card fault "*) [ -s out ] || name=$line ;;
    1:"run fault Reply") [ "$kind" = same ] || name=$line ;;
    1:"run fault Input") name=$line ;;
    1:) [ "$1" = run ] && [ -s out ] && name="fault of the script" ;;
    2:"cannot use "*) name="cannot use" more="" ;;
    2:usage:*) [ -s out ] || name="usage" ;;
    3:"out of memory") [ -s out ] || name=$line ;;
    esac
    [ "$1" = run ] || [ "$status" -eq 0 ] || [ ! -s out ] || name=""
    [ -n "$name" ] && [ -z "$more" ] || wrong "$@"
    case $1 in frame | certify | check | run) word=$1 ;; *) word="other words" ;; esac
    name=${name%% line *}
    echo "$word|$status|${name%% point *}" >> counted
}

# wrong WORD..: keeps the files of a case that did not end as it has to.
wrong() {
    mkdir -p "$found"
    cp "$number".* out err "$found" 2> said || true
    echo "case $number: status $status: $line: sdv $*" | tee -a "$found/cases" >> wrong
    name="WRONG"
}

# script NUMBER KIND REST..: certifies a script, and checks and runs it where it has a certificate.
script() {
    number=$1
    answer "$number" - certify "$number.sdv"
    [ "$status" -eq 0 ] || return 0
    mv out "$number.cert"
    answer "$number" - check "$number.sdv" "$number.cert"
    [ "$status" -eq 0 ] || wrong check "$number.sdv" "$number.cert"
    pair_run "$@"
}

# pair NUMBER KIND REST..: checks a script with a certificate, and runs it.
pair() {
    answer "$1" - check "$1.sdv" "$1.cert"
    pair_run "$@"
}

pair_run() {
    number=$1 kind=$2
    shift 2
    answer "$number" "$kind" run "$number.sdv" "$number.cert" "$@"
}

words() {
    answer "$number" - "$@"
}

# worker NUMBER: runs each case of a part of all, a hundred after another.
worker() {
    mkdir "$work/$1"
    cd "$work/$1"
    head -c 524288 /dev/zero > image
    head -c 4096 /dev/zero > blocks
    head -c 511 /dev/zero > odd
    at=$((first + $1 * 100))
    end=$((first + count))
    while [ "$at" -lt "$end" ]; do
        some=$((end - at < 100 ? end - at : 100))
        write_cases "$at" "$some" > lines
        (ulimit -t 5; ulimit -c 0; ulimit -v "${LIMIT:-2000000}"; . ./lines)
        rm -f -- [0-9]*.*
        at=$((at + processes * 100))
    done
}

started=$(date +%s)
number=0
while [ "$number" -lt "$processes" ]; do
    worker "$number" &
    workers="$workers $!"
    number=$((number + 1))
done
for worker in $workers; do wait "$worker"; done
taken=$(($(date +%s) - started))
[ "$taken" -gt 0 ] || taken=1

cat "$work"/*/counted | sort | uniq -c | sort -k 2,2 -k 1,1rn | sed 's/^ *//' > "$work/table"
awk '{
    times = $1
    sub(/^[0-9]+ /, "")
    split($0, parts, "|")
    printf "%-12s %6s  %-32s %8d\n", parts[1], parts[2], parts[3], times
}' "$work/table"
calls=$(cat "$work"/*/counted | wc -l)
echo "seed $seed, cases $first to $((first + count - 1)): $calls calls in $taken seconds, $((calls / taken)) a second"
if [ -n "$(cat "$work"/*/wrong 2> "$work/said")" ]; then
    cat "$work"/*/wrong
    echo "their files are in $found"
    exit 1
fi

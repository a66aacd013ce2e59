#!/bin/sh
# How many KiB of stack the program needs for the deepest and the widest scripts of a text at the size limit: to read and
# free a script, to certify it, to check it with its certificate, and to explain it. The least stack is found by halving, to 4 KiB.
set -eu
top=$(cd "$(dirname "$0")/.." && pwd)
export PATH="/opt/rattle/bin:$PATH" LC_ALL=C
work=$(mktemp -d)
trap 'rm -rf "$work"' EXIT
sdv=${SDV:-$top/crates/sdv/out/sdv}
[ -x "$sdv" ] || (cd "$top/crates/sdv" && rt run -- frame 0 0) > "$work/built" 2>&1 || { cat "$work/built"; exit 1; }
cd "$work"
ulimit -c 0

# text TIMES PIECE ..: each piece so many times.
text() {
    while [ $# -gt 1 ]; do
        awk -v times="$1" -v piece="$2" 'BEGIN { for (i = 0; i < times; i++) printf "%s", piece }'
        shift 2
    done
}

# least WORD..: the least stack with which the program ends as it does with 8 MiB.
least() {
    wanted=0 low=0 high=8192
    "$sdv" "$@" > out 2> err || wanted=$?
    while [ $((high - low)) -gt 4 ]; do
        middle=$(((low + high) / 2)) status=0
        sh -c '(ulimit -s "$0"; exec "$@"); exit $?' "$middle" "$sdv" "$@" > out 2> err || status=$?
        if [ "$status" -eq "$wanted" ]; then high=$middle; else low=$middle; fi
    done
    printf ' %9s' "$high"
}

echo 'sdv-cert 3' > other
printf '%-36s %9s %9s %9s %9s\n' "" "read" "certify" "check" "explain"

# row NAME TIMES PIECE ..: the stack for a script.
row() {
    printf '%-36s' "$1"
    shift
    text "$@" > script
    least check script other
    least certify script
    if "$sdv" certify script > certificate 2> err; then least check script certificate; else printf ' %9s' "-"; fi
    least explain script
    echo
}

row "the smallest script" 1 "card sd fault a"
row "13,000 cases" 1 "card sd send 55{" 13000 "app{}" 1 "else{}}fault a"
row "16,001 guards of a case" 1 "card sd send 55{app" 16000 "&app" 1 "{}else{}}fault a"
row "4,095 tests of a flag" 1 "card sd flags f " 4095 "if f{}else{}" 1 "fault a"
row "4,094 flags, then 8,000 cases" 1 "card sd flags f " 4094 "set f " 1 "send 55{" 8000 "app{}" 1 "else{}}fault a"
row "4,095 ends, then 9,000 cases" 1 "card sd " 4095 "done " 1 "send 55{" 9000 "app{}" 1 "else{}}"
row "4,031 flags in 64 braces" 1 "card sd flags f " 60 "if f{" 4 "loop 2{" 4031 "set f " 64 "}else{}" 1 "fault a"
row "4,091 commands in 4 loops" 1 "card sd " 4 "loop 2{" 4091 "send 0{else{}}" 4 "}else{}" 1 "fault a"
row "13,100 cases, and no end" 1 "card sd send 55{" 13100 "app{}"

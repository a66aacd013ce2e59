#!/bin/sh
# Colours every example with vim's syntax file: each character but white space has a colour, and none is marked as an error.
# Texts that are wrong are marked where they are wrong.
set -eu
top=$(cd "$(dirname "$0")/.." && pwd)
work=$(mktemp -d)
trap 'rm -rf "$work"' EXIT

if ! vim --version 2> /dev/null | grep -q '+syntax'; then
    apt-get update > "$work/apt" && apt-get install -y vim >> "$work/apt" || { cat "$work/apt"; exit 1; }
fi

cat > "$work/look.vim" <<'SCRIPT'
set nocompatible
let &runtimepath = $EDITOR_FILES . ',' . &runtimepath
filetype plugin on
syntax on
execute 'edit' fnameescape($EXAMPLE)
syntax sync fromstart
let said = [&filetype]
for row in range(1, line('$'))
    for column in range(1, col([row, '$']) - 1)
        if getline(row)[column - 1] =~ '\S'
            let group = synIDattr(synID(row, column, 1), 'name')
            if group == '' || group == 'sdvError' || group == 'sdvReserved'
                call add(said, row . ':' . column . ' ' . group)
            endif
        endif
    endfor
endfor
call writefile(said, $SAID)
quitall!
SCRIPT

# look FILE: what the file's type is, and each place without a colour or with an error
look() {
    EDITOR_FILES="$top/editors/vim" EXAMPLE=$1 SAID="$work/said" vim -u NONE -es -S "$work/look.vim" < /dev/null > /dev/null 2>&1 || true
    paste -s -d ' ' "$work/said"
}

passed=0 failed=0
# judge NAME FOUND WANTED
judge() {
    if [ "$2" = "$3" ]; then
        passed=$((passed + 1))
    else
        failed=$((failed + 1))
        echo "$1: $2; wanted: $3"
    fi
}

for script in $(find "$top/examples" -name '*.sdv'); do
    judge "${script#"$top/"}" "$(look "$script")" "sdv"
done
printf 'send CMD1 at csd.block\nif a > 8x @\nfault number # CMD1 @\nset a-b>=3\n' > "$work/wrong.sdv"
judge "what is wrong" "$(look "$work/wrong.sdv" | tr -d '\n')" "sdv $(
    { for c in 6 7 8 9; do echo "1:$c sdvError"; done
      for c in 14 15 16 17 18 19 20 21 22; do echo "1:$c sdvError"; done
      for c in 6 8 9 11; do echo "2:$c sdvError"; done
      for c in 7 8 9 10 11 12; do echo "3:$c sdvReserved"; done; } | paste -s -d ' ' -)"

# what the compiler file reads of findings: each with its line, its column and its sort
cat > "$work/find.vim" <<'SCRIPT'
set nocompatible
let &runtimepath = $EDITOR_FILES . ',' . &runtimepath
compiler sdv
cgetfile $FINDINGS
call writefile(map(getqflist(), {_, found -> join([bufname(found.bufnr), found.lnum, found.col, found.type])}), $SAID)
quitall!
SCRIPT
printf '%s\n' 'a.sdv:9:3: error: CMD41: none [app-command]' '    card     idle' 'b.sdv:21:25: warning: done [write]' \
    'b.sdv:3:7: note: hc is never read [unread]' 'b.sdv: accepted, at most 208 commands (1 warning, 1 note)' > "$work/findings"
EDITOR_FILES="$top/editors/vim" FINDINGS="$work/findings" SAID="$work/said" vim -u NONE -es -S "$work/find.vim" < /dev/null > /dev/null 2>&1 || true
judge "findings" "$(paste -s -d ' ' "$work/said")" "a.sdv 9 3 e b.sdv 21 25 w b.sdv 3 7 n"

echo "vim: $passed passed, $failed failed"
[ "$failed" -eq 0 ]

#!/bin/sh
# Asks bash, zsh and fish what may follow the words of a line, and compares the three with what is wanted.
set -eu
top=$(cd "$(dirname "$0")/.." && pwd)
work=$(mktemp -d)
trap 'rm -rf "$work"' EXIT

if ! command -v zsh > /dev/null || ! command -v fish > /dev/null; then
    apt-get update > "$work/apt" && apt-get install -y zsh fish >> "$work/apt" || { cat "$work/apt"; exit 1; }
fi
mkdir "$work/here" "$work/here/more"
cd "$work/here"
: > a.sdv; : > a.cert; : > a.card; : > a.img; : > a.blocks

cat > "$work/bash" <<'SCRIPT'
source "$1/completions/sdv.bash"
COMP_LINE=$2 COMP_POINT=${#2}
_sdv
printf '%s\n' "${COMPREPLY[@]}"
SCRIPT

# what an interactive zsh adds to the line, one addition a line
cat > "$work/zsh" <<'SCRIPT'
zmodload zsh/zpty
zpty shell zsh -f -i
line() { zpty -w shell "$1" }
line "PS1=; fpath=($1/completions \$fpath); autoload -Uz compinit; compinit -D -u"
line 'compadd() { [[ ${@[1,(i)(-|--)]} == *-(O|A|D)\ * ]] && { builtin compadd "$@"; return }
    local -a __hits; builtin compadd -A __hits "$@"; print -rl -- "HIT "$^__hits; builtin compadd "$@" }'
line 'zle -C list-all complete-word all-now; all-now() { _main_complete 2> /dev/null; compstate[insert]=; compstate[list]=; }'
line 'show() { print BEGIN; zle list-all; print END; zle kill-buffer }; zle -N show; bindkey "^I" show; print READY'
local said
while zpty -r shell said; do [[ $said == READY* ]] && break; done
zpty -w -n shell "$2"$'\t'
while zpty -r shell said; do
    said=${said%%$'\r'*}
    [[ $said == *END* ]] && break
    [[ $said == *HIT\ * ]] && print -r -- "${said##*HIT }"
done
zpty -d shell
SCRIPT

passed=0 failed=0
# offers SHELL LINE: what the shell offers, in one line
offers() {
    case $1 in
    bash) bash "$work/bash" "$top" "$2" ;;
    fish) fish -c "source '$top/completions/sdv.fish'; complete -C '$2'" | cut -f 1 ;;
    zsh) timeout 20 zsh -f "$work/zsh" "$top" "$2" ;;
    esac | sed 's:/$::' | LC_ALL=C sort -u | sed '/^$/d' | paste -s -d ' ' -
}
# judge LINE WANTED [FOR FISH]: fish offers the fitting files first and then the others
judge() {
    for shell in bash zsh fish; do
        wanted=$2
        [ "$shell" != fish ] || wanted=${3:-$2}
        found=$(offers "$shell" "$1")
        if [ "$found" = "$wanted" ]; then
            passed=$((passed + 1))
        else
            failed=$((failed + 1))
            echo "$shell, '$1': $found; wanted: $wanted"
        fi
    done
}

judge "sdv c" "card certify check"
judge "sdv batch " "emmc sd"
judge "sdv check a" "a.sdv" "a.blocks a.card a.cert a.img a.sdv"
judge "sdv check a.sdv a" "a.cert" "a.blocks a.card a.cert a.img a.sdv"
judge "sdv run a.sdv a.cert a" "a.card" "a.blocks a.card a.cert a.img a.sdv"
judge "sdv run a.sdv a.cert a.card n" "new:"
judge "sdv run a.sdv --in a.blocks a.cert a" "a.card" "a.blocks a.card a.cert a.img a.sdv"
judge "sdv run a.sdv a.cert a.card new:16 a.b" "a.blocks"
judge "sdv run a.sdv --out m" "more"
judge "sdv explain --d" "--dot"
judge "sdv audit sd a.trace --script a.s" "a.sdv"

echo "completions: $passed passed, $failed failed"
[ "$failed" -eq 0 ]

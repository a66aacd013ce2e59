# Completion for bash: source this file, or put it where bash-completion finds it, under the name sdv.

# _sdv_files WORD PATTERN..: folders, and the files that a pattern fits
_sdv_files() {
    local word=$1 pattern file
    shift
    mapfile -t COMPREPLY < <(compgen -d -- "$word")
    while IFS= read -r file; do
        for pattern in "$@"; do
            # shellcheck disable=SC2053
            [ -d "$file" ] || [[ $file != $pattern ]] || COMPREPLY+=("$file")
        done
    done < <(compgen -f -- "$word")
    compopt -o filenames 2> /dev/null
}

# _sdv_words WORD LIST
_sdv_words() {
    mapfile -t COMPREPLY < <(compgen -W "$2" -- "$1")
}

# _sdv_image WORD: images, and a new one
_sdv_image() {
    _sdv_files "$1" '*.img' '*.image' '*.bin'
    if [[ new: == "$1"* && $1 != new: ]]; then
        COMPREPLY+=(new:)
        compopt -o nospace 2> /dev/null
        # as a file name the colon would get a backslash
        [ "${#COMPREPLY[@]}" -gt 1 ] || compopt +o filenames 2> /dev/null
    fi
}

_sdv() {
    COMPREPLY=()
    # the words up to the cursor; COMP_WORDS would split new:16 at its colon
    local line=${COMP_LINE:0:COMP_POINT} words last place=0 at
    read -ra words <<< "$line"
    [[ $line != *[[:space:]] ]] || words+=('')
    last=$((${#words[@]} - 1))
    local word=${words[last]} before=${words[last - 1]}
    if [ "$last" -eq 1 ]; then
        _sdv_words "$word" "frame verify certify check run batch explain emit audit drive card try --help --version"
        return
    fi
    # which of the command's words this is, options and their files left out
    for ((at = 2; at < last; at++)); do
        case ${words[at]} in
        --in | --out | --trace | --binary | --card | --schedule | --registers | --script | --save | --allow) at=$((at + 1)) ;;
        -?*) ;;
        *) place=$((place + 1)) ;;
        esac
    done
    case ${words[1]}:$place in
    verify:*)
        case $before:$word in
        --save:*) mapfile -t COMPREPLY < <(compgen -d -- "$word") ;;
        --allow:*) _sdv_words "$word" "partition write erase boot-enable unreached one-way unread input-shifts loop-once" ;;
        *:-*) _sdv_words "$word" "--json --no-run --save --allow" ;;
        *) _sdv_files "$word" '*.sdv' ;;
        esac ;;
    run:*)
        case $before in
        --in | --out | --registers) _sdv_files "$word" '*' && return ;;
        esac
        case $word:$place in
        -*) _sdv_words "$word" "--in --out --registers" ;;
        *:0) _sdv_files "$word" '*.sdv' ;;
        *:1) _sdv_files "$word" '*.cert' ;;
        *:2) _sdv_files "$word" '*.card' ;;
        *:3) _sdv_image "$word" ;;
        *:4) _sdv_files "$word" '*' ;;
        esac ;;
    try:*)
        case $before:$word:$place in
        --in:* | --out:*) _sdv_files "$word" '*' ;;
        --card:*) _sdv_files "$word" '*.card' ;;
        --only:*) _sdv_words "$word" "wrong" ;;
        *:-*:*) _sdv_words "$word" "--in --out --each --card --only --json --lines" ;;
        *:0) _sdv_files "$word" '*.sdv' ;;
        *:1) _sdv_files "$word" '*.card' ;;
        *:2) _sdv_image "$word" ;;
        *:3) _sdv_files "$word" '*' ;;
        esac ;;
    drive:*)
        case $before:$word:$place in
        --in:* | --out:* | --trace:*) _sdv_files "$word" '*' ;;
        *:-*:*) _sdv_words "$word" "--in --out --trace --plain" ;;
        *:0) _sdv_files "$word" '*.sdv' ;;
        *:1) _sdv_files "$word" '*.cert' ;;
        esac ;;
    card:*)
        case " ${words[*]} :$word:$place" in
        *:-*:*) _sdv_words "$word" "--describe" ;;
        *:0) _sdv_files "$word" '*.card' ;;
        *" --describe "*:1) _sdv_files "$word" '*' ;;
        *:1) _sdv_image "$word" ;;
        *:2) _sdv_files "$word" '*' ;;
        esac ;;
    emit:*)
        case $before:$word:$place in
        --binary:*) _sdv_files "$word" '*' ;;
        *:-*:*) _sdv_words "$word" "--binary" ;;
        *:0) _sdv_files "$word" '*.sdv' ;;
        *:1) _sdv_files "$word" '*.cert' ;;
        esac ;;
    audit:*)
        case $before in
        --script) _sdv_files "$word" '*.sdv' && return ;;
        --registers) _sdv_files "$word" '*' && return ;;
        esac
        case $word:$place in
        -*) _sdv_words "$word" "--json --annotate --running --script --registers --svg" ;;
        *:0) _sdv_words "$word" "sd emmc" ;;
        *:1) _sdv_files "$word" '*.trace' ;;
        esac ;;
    explain:*)
        case $word:$place in
        -*) _sdv_words "$word" "--why --dot --no-faults" ;;
        *:0) _sdv_files "$word" '*.sdv' ;;
        *:1) _sdv_files "$word" '*.cert' ;;
        esac ;;
    batch:0) _sdv_words "$word" "sd emmc" ;;
    check:1) _sdv_files "$word" '*.cert' ;;
    certify:0 | check:0) _sdv_files "$word" '*.sdv' ;;
    esac
}
complete -F _sdv sdv

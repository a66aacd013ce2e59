" Host scripts of SD and e.MMC cards.
if exists("b:current_syntax")
    finish
endif

syntax case match
syntax iskeyword a-z,48-57,_,.

" what begins no token, and words that no list below has and that are no name
syntax match sdvError /[^ \t\r]/
syntax match sdvError /[0-9][A-Za-z0-9_.]*/
syntax match sdvError /[A-Za-z_][A-Za-z0-9_.]*/

syntax match sdvName /\<[a-z][a-z0-9_]*\>/
syntax match sdvNumber /\<\%(0x[0-9A-Fa-f]\+\|[0-9]\+\)\>/
syntax match sdvSign /[{}=+<&-]\|>=/

syntax keyword sdvDeclaration card flags nums
syntax keyword sdvKind sd emmc
syntax keyword sdvStatement send recv reg give wait let set clear
syntax keyword sdvFlow loop break if else ok done fault
syntax keyword sdvAddress at block byte by count none
syntax keyword sdvGuard timeout answer clean ready app echo state
syntax keyword sdvState idle ident stby tran data rcv prg dis
syntax keyword sdvReserved number
" with a dot: a match, since a keyword of an editor in compatible mode has none
syntax match sdvStatement /\<\%(bus\.lines\|part\.access\)\>/
syntax match sdvGuard /\<ocr\.\%(ready\|block\)\>/
syntax match sdvRegister /\<\%(csd\.blocks\|ext\.blocks\|ext\.boot\)\>/

syntax match sdvComment /#.*/ contains=@Spell

highlight default link sdvError Error
highlight default link sdvName Identifier
highlight default link sdvNumber Number
highlight default link sdvSign Operator
highlight default link sdvDeclaration PreProc
highlight default link sdvKind Type
highlight default link sdvStatement Statement
highlight default link sdvFlow Conditional
highlight default link sdvAddress Keyword
highlight default link sdvGuard Special
highlight default link sdvState Constant
highlight default link sdvReserved Error
highlight default link sdvRegister Constant
highlight default link sdvComment Comment

let b:current_syntax = "sdv"

" The verdict on a script, with each finding in the list of errors: `:compiler sdv`, and then `:make %`.
if exists('current_compiler')
    finish
endif
let current_compiler = 'sdv'
CompilerSet makeprg=sdv\ verify
CompilerSet errorformat=%f:%l:%c:\ %trror:\ %m,%f:%l:%c:\ %tarning:\ %m,%f:%l:%c:\ %tote:\ %m,%-G%.%#

" `:compiler koika` and `:make` check the design that is edited, and jump to its fault. `koika` is on the PATH.
if exists("current_compiler") | finish | endif
let current_compiler = "koika"
CompilerSet makeprg=koika\ check\ %:S
CompilerSet errorformat=%f:%l:%c:\ %m,%-G%.%#

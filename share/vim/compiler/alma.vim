" The faults of a source as a list to walk through, FILE:LINE:COLUMN: FAULT, each with its likely cause behind it, as `alma why` tells it. In an
" Alma-0 file: `:compiler alma`, `:make`.
if exists("current_compiler")
  finish
endif
let current_compiler = "alma"
CompilerSet makeprg=alma\ why\ check\ %:S
CompilerSet errorformat=%E%f:%l:%c:\ %m,%-C%*[\ 0-9]\ \|%.%#,%C\ \ \ \ \ \ =\ %m,%-G%.%#

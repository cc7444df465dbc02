" :make asks catnap whether the source is accepted, and jumps to the byte at which it is refused.
if exists("current_compiler")
  finish
endif
let current_compiler = "catnap"

" tools/lint of the repository in which this file lies, also where it is reached by a link
let s:lint = fnamemodify(resolve(expand("<sfile>:p")), ":h:h:h:h") . "/tools/lint"
execute "CompilerSet makeprg=" . escape(s:lint, ' \|"') . "\\ %:S"
" the second form is the program's own line, which names no file
CompilerSet errorformat=%f:%l:%c:\ %trror:\ %m,fault\ source\ %m

" :make fills the quickfix list with the faults that `explain check` tells of the file.
if exists('current_compiler')
  finish
endif
let current_compiler = 'raml'

CompilerSet makeprg=explain\ check\ %:S
CompilerSet errorformat=%f:%l:%c:\ %trror:\ %m,%-G%.%#

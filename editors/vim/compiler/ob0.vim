" :make checks the file. `ob0 check` counts lines and columns from 0 and doesn't print the file's name; awk writes its lines as a compiler does.
if exists('current_compiler') | finish | endif
let current_compiler = 'ob0'

let &l:makeprg = shellescape(get(g:, 'ob0_program', 'ob0')) . ' check %:S \| awk -F: -v f=%:S '
      \ . '''{l=$1+1; c=$2+1; sub(/^[0-9]+:[0-9]+: /, ""); print f ":" l ":" c ": " $0}'''
CompilerSet errorformat=%f:%l:%c:\ %m
